# The tests of rust/: every function of the boundary, the safe crate, the examples in its documentation, the program, a merge killed at each call.
set -u
cd "$(dirname "$0")/.." || exit 1
log=$(mktemp) || exit 1
empty=$(mktemp) || exit 1
trap 'rm -f "$log" "$empty"' EXIT
./packed-refs --version >/dev/null || exit 1
if ! (cd rust && cargo test --release --offline --quiet) >"$log" 2>&1; then
    cat "$log"
    exit 1
fi
grep -c '^test result: ok' "$log" | sed 's/$/ groups of Rust tests passed/'

# the example sender: stop, send, call someone, also about a name that is charted in a damaged file
sender() { (cd rust && cargo run --release --offline --quiet --example sender -- "$@") 2>/dev/null; }
name=refs/sent/ward4/o118
failed=0
examples=$PWD/examples
for case in "0 $examples/night e3" "1 $examples/night e4" "2 $examples/damaged e3" "2 $examples/damaged e2" "2 $examples/missing e3" "2 $empty e3"; do
    read -r status file last <<<"$case"
    sender "$file" "$name/$last" >/dev/null
    got=$?
    [ $got -eq "$status" ] || { echo "sender $file $last: wanted $status, got $got"; failed=1; }
done
exit $failed
