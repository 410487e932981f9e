#!/usr/bin/env bash
# compare/run.sh [COUNT [SEED]]: builds the library and compares it with the Rust on every short input and COUNT random ones an operation (default
# 100,000, about six minutes); names also with Git. Not part of the gate, since it needs the oracle: the real gix-ref 0.67.1 as a program.
#   ORACLE             the oracle's program, which is not part of this repository; its own README says how it is built
#   LIBHOST, INCLUDE   the library and its header, as compare/build-ours.sh has them
set -eu
root=$(cd "$(dirname "$0")/.." && pwd)
if ! command -v "${ORACLE:-}" >/dev/null; then
    echo "compare/run.sh needs the oracle, gix-ref 0.67.1 built as a program, which is not part of this repository: set ORACLE to that program." >&2
    [ -z "${ORACLE:-}" ] || echo "ORACLE is $ORACLE, and no such program is there." >&2
    exit 1
fi
export ORACLE
room=$(mktemp -d)
trap 'rm -rf "$room"' EXIT
export OURS=$room/ours
"$root/compare/build-ours.sh" "$OURS"
"$OURS" limits
PYTHONDONTWRITEBYTECODE=1 python3 "$root/compare/compare.py" "$@"
