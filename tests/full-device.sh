# A merge onto a device that is full, and beyond a limit on a file's size: the old file stays whole, no lock is left, the status is 2.
set -u
cd "$(dirname "$0")/.." || exit 1
dir=$(mktemp -d) || exit 1
trap 'rm -rf "$dir"' EXIT
./packed-refs --version >/dev/null || exit 1
program=$PWD/rust/target/release/packed-refs

# lines FROM TO: records
lines() { seq -f '%07.0f' "$1" "$2" | sed 's,.*,0000000000000000000000000000000000000001 refs/s/&,'; }
lines 1 1000 >"$dir/old"
lines 1001 3000 | sed 's,\(.*\) \(.*\),update \2 \1,' >"$dir/edits"

cat >"$dir/try" <<'E2'
# try WHERE: merges into WHERE/refs, which there is no room for
where=$1
cp "$dir/old" "$where/refs" || exit 1
said=$("$program" merge "$where/refs" "$dir/edits" -o "$where/refs" 2>&1)
got=$?
[ $got -eq 2 ] || { echo "wanted 2, got $got: $said"; exit 1; }
case $said in *"can't be written, and is as it was: "*) ;; *) echo "said: $said"; exit 1 ;; esac
cmp "$dir/old" "$where/refs" || exit 1
[ ! -e "$where/refs.lock" ] || { echo "the lock was left"; exit 1; }
E2
export dir program

mkdir "$dir/small"
own=-m
[ "$(id -u)" -eq 0 ] || own=-rm
if unshare $own mount -t tmpfs -o size=128k tmpfs "$dir/small" 2>"$dir/why"; then
    unshare $own bash -c 'mount -t tmpfs -o size=128k tmpfs "$dir/small" && bash "$dir/try" "$dir/small"' ||
        { echo "a full device: failed"; exit 1; }
    echo "a full device: the old file stays"
else
    echo "a full device: not tried, since no tmpfs can be mounted here: $(cat "$dir/why")"
fi

mkdir "$dir/limited"
for signal in 'trap "" XFSZ' 'trap - XFSZ'; do
    bash -c "$signal"'; ulimit -c 0 -f 100; bash "$dir/try" "$dir/limited"' || { echo "a limit on the size, $signal: failed"; exit 1; }
done
echo "a limit on the size: the old file stays"
