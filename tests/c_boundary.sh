#!/usr/bin/env bash
# Builds the C library (./libhost), links tests/c_boundary.c and c_stack.c with it, and runs them. Exit status 0 iff every answer is right and no call
# takes more stack than the header says.
cd "$(dirname "$0")/.." || exit 1
./libhost >/dev/null || exit 1
lib=target/staticlib/libhost.a
dir=$(mktemp -d) || exit 1
trap 'rm -rf "$dir"' EXIT
"${CC:-cc}" -Wall -Wextra -Werror -std=c99 -pedantic -O1 -Iinclude tests/c_boundary.c $lib -o "$dir/c_boundary" || exit 1
"$dir/c_boundary" || exit 1
"${CC:-cc}" -Wall -Wextra -Werror -std=c99 -pedantic -O1 -pthread -Iinclude tests/c_stack.c $lib -o "$dir/c_stack" || exit 1
"$dir/c_stack" || exit 1

# On another processor the archive for x86-64 is asked too, by what lets the kit, which is for x86-64, run there. The source is preprocessed by this
# machine's compiler, since the kit has no C headers; what it calls of the C library has one form on both.
[ "$(uname -m)" = x86_64 ] && exit 0
kit=$(dirname "$(rt doc)")
tools=$kit/toolchain
"${CC:-cc}" -std=c99 -U_FORTIFY_SOURCE -E -Iinclude tests/c_boundary.c -o "$dir/c_boundary.i" || exit 1
"$tools/bin/clang" --target=x86_64-unknown-linux-gnu -std=c99 -O1 -fPIC -c -x cpp-output "$dir/c_boundary.i" -o "$dir/c_boundary.o" || exit 1
"$kit/bin/rattle-link" --target x86_64-unknown-linux-gnu --toolchain "$tools" -o "$dir/c_boundary_x86_64" "$dir/c_boundary.o" target/staticlib/x86_64/libhost.a || exit 1
"$tools/lib/ld-linux-x86-64.so.2" --library-path "$tools/lib" "$dir/c_boundary_x86_64"
