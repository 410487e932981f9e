#!/usr/bin/env bash
# ./bench [ROUNDS]: measures the library beside the Rust on the same bytes and writes docs/BENCHMARKS.md and docs/benchmarks.svg. Not part of the gate.
# Takes about seven minutes with 5 rounds.
#   ORACLE_DIR   a copy of the oracle's folder that may be written to (default: target/oracle, copied from ../shared/oracle); benchmark/gix.rs takes the
#                place of its src/bench.rs there. The oracle, gix-ref 0.67.1 built as a program, is not part of this repository
#   GIX_SRC, ORACLE_SCRATCH   as the oracle's README says
#   LIBHOST      the library (default: target/staticlib/libhost.a, made by ./libhost)
#   INCLUDE      where packed_refs.h is (default: include)
#   PROGRAM      packed-refs, a release build (default: the one that ./packed-refs builds and runs)
#   BENCH_DATA   where the files to measure on are kept (default: target/bench)
set -eu
root=$(cd "$(dirname "$0")/.." && pwd)
no_oracle() {
    echo "./bench needs the oracle, gix-ref 0.67.1 built as a program, which is not part of this repository: $1 is not there." >&2
    echo "Set ORACLE_DIR to a copy of its folder that may be written to." >&2
    exit 1
}
if [ -z "${ORACLE_DIR:-}" ]; then
    ORACLE_DIR=$root/target/oracle
    mkdir -p "$root/target"
    [ -d "$ORACLE_DIR" ] || [ -d "$root/../shared/oracle" ] || no_oracle "$root/../shared/oracle"
    [ -d "$ORACLE_DIR" ] || cp -r "$root/../shared/oracle" "$ORACLE_DIR"
    export GIX_SRC=${GIX_SRC:-$root/../shared/docs/src}
    [ -d "${ORACLE_SCRATCH:-$ORACLE_DIR/.scratch}/vendor" ] || (cd "$ORACLE_DIR" && ./fetch.sh)
fi
[ -x "$ORACLE_DIR/build.sh" ] || no_oracle "$ORACLE_DIR/build.sh"
BENCH_DATA=${BENCH_DATA:-$root/target/bench}
mkdir -p "$BENCH_DATA"
if [ -z "${LIBHOST:-}" ]; then
    "$root/libhost" >"$BENCH_DATA/build.log" 2>&1 || { tail -n 20 "$BENCH_DATA/build.log"; exit 1; }
    LIBHOST=$root/target/staticlib/libhost.a
fi
cc -O2 -Wall -Wextra -Werror -I"${INCLUDE:-$root/include}" -o "$BENCH_DATA/ours" "$root/benchmark/ours.c" "$LIBHOST"
cmp -s "$root/benchmark/gix.rs" "$ORACLE_DIR/src/bench.rs" || cp "$root/benchmark/gix.rs" "$ORACLE_DIR/src/bench.rs"
program=$(cd "$ORACLE_DIR" && ./build.sh 2>>"$BENCH_DATA/build.log" | tail -n 1)
for n in 1000 100000 1000000; do
    [ -s "$BENCH_DATA/packed-$n" ] || python3 "$ORACLE_DIR/bench/gen.py" "$n" >"$BENCH_DATA/packed-$n"
done
if [ -z "${PROGRAM:-}" ]; then
    "$root/packed-refs" --version >>"$BENCH_DATA/build.log" 2>&1 || { tail -n 20 "$BENCH_DATA/build.log"; exit 1; }
    PROGRAM=$root/rust/target/release/packed-refs
fi
export PROGRAM
OURS=$BENCH_DATA/ours GIX=$(dirname "$program")/bench BENCH_DATA=$BENCH_DATA PYTHONDONTWRITEBYTECODE=1 python3 "$root/benchmark/run.py" "$@"
