#!/usr/bin/env bash
# compare/git-verify.sh [COUNT [SEED]]: holds every fault that the library finds in COUNT random damaged files (default 20,000, about a minute) to
# Git's own verdict, `git refs verify`. Not part of the gate, since it needs a recent Git.
#   GIT_VERIFY         a Git whose `git refs verify` reads packed-refs (2.55.0 used); it may lie in the folder where it was built
#   MODEL              if set, compare/model.py is held to Git instead of the library
#   LIBHOST, INCLUDE   the library and its header, as compare/build-ours.sh has them
set -eu
root=$(cd "$(dirname "$0")/.." && pwd)
if ! command -v "${GIT_VERIFY:-}" >/dev/null; then
    echo "compare/git-verify.sh needs a Git whose 'git refs verify' reads packed-refs (2.55.0 used): set GIT_VERIFY to that program." >&2
    exit 1
fi
export GIT_VERIFY
room=$(mktemp -d)
trap 'rm -rf "$room"' EXIT
unset OURS
if [ -z "${MODEL:-}" ]; then
    export OURS=$room/ours
    "$root/compare/build-ours.sh" "$OURS"
fi
PYTHONDONTWRITEBYTECODE=1 python3 "$root/compare/git_verify.py" "$@"
