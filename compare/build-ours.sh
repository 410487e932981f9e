#!/usr/bin/env bash
# compare/build-ours.sh OUT: makes the library's side of a comparison, a program that answers questions line by line.
#   LIBHOST   the library (default: target/staticlib/libhost.a, made by ./libhost)
#   INCLUDE   where packed_refs.h is (default: include)
set -eu
root=$(cd "$(dirname "$0")/.." && pwd)
if [ -z "${LIBHOST:-}" ]; then
    mkdir -p "$root/target"
    "$root/libhost" >"$root/target/compare.log" 2>&1 || { tail -n 20 "$root/target/compare.log"; exit 1; }
    LIBHOST=$root/target/staticlib/libhost.a
fi
cc -O2 -Wall -Wextra -Werror -I"${INCLUDE:-$root/include}" -o "$1" "$root/compare/ours.c" "$LIBHOST"
