# What takes over two seconds is seen on a terminal, and only there.
set -u
cd "$(dirname "$0")/.." || exit 1
dir=$(mktemp -d) || exit 1
trap 'rm -rf "$dir"' EXIT
./packed-refs --version >/dev/null || exit 1
program=$PWD/rust/target/release/packed-refs

slow() { head -c 1000 examples/night; sleep 3; tail -c +1001 examples/night; }
slow | "$program" check - >"$dir/out" 2>"$dir/err" || exit 1
[ ! -s "$dir/err" ] || { echo "no terminal, but said: $(cat "$dir/err")"; exit 1; }

command -v script >/dev/null || { echo "progress: not tried on a terminal, since script is not there"; exit 0; }
mkfifo "$dir/pipe"
slow >"$dir/pipe" &
script -qec "'$program' check '$dir/pipe'" /dev/null </dev/null >"$dir/out" || { cat "$dir/out"; exit 1; }
wait $!
grep -q "reading $dir/pipe.*, 2 s" "$dir/out" || { echo "no progress: $(cat -v "$dir/out")"; exit 1; }
grep -q '0 passed: 28 records' "$dir/out" || { cat -v "$dir/out"; exit 1; }
echo "progress: seen after two seconds"
