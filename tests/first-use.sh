# The first command on a fresh clone, with an rt and a cargo that only note what they are asked: it says where it is, leaves to rt how many jobs it takes, answers
# on standard output alone, and what was proved and built is not proved and built again. ./test says where it is, too.
set -u
cd "$(dirname "$0")/.." || exit 1
dir=$(mktemp -d) || exit 1
trap 'rm -rf "$dir"' EXIT
failed=0
fail() { echo "first use: $*"; failed=1; }

. share/counted.bash
needs=$(needs_of host_c | tr '\n' ' ')
count=$(($(wc -w <<<"$needs") + 1))

fresh() {
    rm -rf "$dir/repo"
    # shellcheck disable=SC2086
    (mkdir -p "$dir/repo/crates" && cd "$dir/repo/crates" && mkdir -p $needs host_c other/src)
    mkdir -p "$dir/repo/crates/host/src" "$dir/repo/rust/src" "$dir/repo/share" "$dir/bin"
    cp packed-refs libhost crates.txt "$dir/repo"
    cp share/counted.bash "$dir/repo/share"
    touch "$dir/repo/crates/host/src/lib.rt" "$dir/repo/rust/Cargo.toml" "$dir/repo/rust/build.rs" "$dir/repo/rust/src/lib.rs"
    find "$dir/repo" -exec touch -d '1 hour ago' {} +
    : >"$dir/calls"
}
cat >"$dir/rt" <<'END'
#!/usr/bin/env bash
echo "rt jobs ${RT_JOBS:-all}, in ${PWD##*/}: $*" >>"$CALLS"
[ -z "${RT_FAILS:-}" ] || { echo "fn class::table: not proved"; echo "rt: the library class did not build, so nothing above it was checked"; exit 1; }
sleep 0.2
case $1 in
    lib)
        name=${PWD##*/}
        for each in $NEEDS $name; do echo "fn $each::f: proved"; echo "crate $each: modules loaded=0 checked=1"; echo "logic=proved functions=1"; done
        mkdir -p out
        touch "out/lib$name.a"
        ;;
    ci)
        for each in class word; do echo "fn $each::f: proved"; echo "logic=proved functions=1"; echo "rt: $each proved"; done
        echo "rt: block is kept: an earlier run on this machine proved the same files over the same libraries"
        echo "rt: must-fail class/x.edit: refused, as it must be: proofs/f/Answers.antt:1:1"
        echo "rt: ok; handles allowed: none; must-fail edits: 1 refused${RT_BAD:-}; every proof and must-fail edit was done in this run"
        echo "4 passed, 0 failed"
        ;;
esac
END
cat >"$dir/cargo" <<'END'
#!/usr/bin/env bash
echo "cargo: $*" >>"$CALLS"
mkdir -p target/release
printf '#!/bin/sh\necho "answered $*"\n' >target/release/packed-refs
chmod +x target/release/packed-refs
END
# the same on every processor: elsewhere than on x86-64 ./libhost also compiles what rt made, and here rt makes nothing
printf '#!/bin/sh\necho x86_64\n' >"$dir/uname"
chmod +x "$dir/rt" "$dir/cargo" "$dir/uname"
export CALLS="$dir/calls" NEEDS="$needs"
unset RT_JOBS
ask() { PATH=$dir:$PATH "$dir/repo/packed-refs" "$@" 2>"$dir/err"; }

fresh
said=$(ask lookup x)
[ "$said" = "answered lookup x" ] || fail "standard output was: $said"
for words in "1 of $count, 0:0.: ${needs%% *} proved" "$count of $count, 0:0.: host_c proved" "libhost.a stands" "compiling the program"; do
    grep -q "$words" "$dir/err" || fail "no word of '$words' in: $(cat "$dir/err")"
done
printf 'rt jobs all, in host_c: lib\ncargo: build --release --offline --quiet\n' >"$dir/wanted"
cmp "$dir/wanted" "$dir/calls" || fail "asked for: $(cat "$dir/calls")"

# the second command asks for nothing, and says nothing of its own
: >"$dir/calls"
[ "$(ask check y)" = "answered check y" ] || fail "the second command"
[ ! -s "$dir/calls" ] && [ ! -s "$dir/err" ] || fail "the second command built again: $(cat "$dir/calls" "$dir/err")"
# a Rust source that changed is compiled, and nothing is proved
touch "$dir/repo/rust/src/lib.rs"
ask check y >/dev/null
[ "$(cat "$dir/calls")" = "cargo: build --release --offline --quiet" ] || fail "a changed Rust source asked for: $(cat "$dir/calls")"
# a crate that changed is proved
: >"$dir/calls"
touch "$dir/repo/crates/host/src/lib.rt"
ask check y >/dev/null
[ "$(wc -l <"$dir/calls")" -eq 2 ] || fail "a changed crate asked for: $(cat "$dir/calls")"

# one that the library does not need is not
: >"$dir/calls"
touch "$dir/repo/crates/other/src/lib.rt"
ask check y >/dev/null
[ "$(cat "$dir/calls")" = "cargo: build --release --offline --quiet" ] || fail "another crate asked for: $(cat "$dir/calls")"

# what rt keeps in a crate's out/ is no source
: >"$dir/calls"
mkdir -p "$dir/repo/crates/class/out" && touch "$dir/repo/crates/class/out/kept"
ask check y >/dev/null 2>&1
[ ! -s "$dir/calls" ] || fail "a crate's out/ asked for: $(cat "$dir/calls")"

# two at once build once
fresh
ask check 1 >"$dir/one" &
PATH=$dir:$PATH "$dir/repo/packed-refs" check 2 >"$dir/two" 2>/dev/null
wait $!
[ "$(cat "$dir/one" "$dir/two")" = "$(printf 'answered check 1\nanswered check 2')" ] || fail "two at once: $(cat "$dir/one" "$dir/two")"
if command -v flock >/dev/null; then
    [ "$(wc -l <"$dir/calls")" -eq 2 ] || fail "two at once asked for: $(cat "$dir/calls")"
fi

# what is not proved is no answer
fresh
said=$(RT_FAILS=1 ask lookup x)
status=$?
[ $status -eq 2 ] && [ -z "$said" ] || fail "a failed proof: status $status, said $said"
grep -q 'the library class did not build' "$dir/err" && grep -q 'the question was not answered' "$dir/err" || fail "a failed proof: $(cat "$dir/err")"

# ./test: which part of how many, which crate or edit of how many, and the last line is rt's
fresh
mkdir -p "$dir/repo/tests" "$dir/repo/crates/class/must-fail"
touch "$dir/repo/crates/class/must-fail/x.edit"
echo 'echo "a test"' >"$dir/repo/tests/a.sh"
cp test "$dir/repo"
said=$(cd "$dir/repo" && git init -q . && PATH=$dir:$PATH ./test) || fail "./test failed: $said"
all=$(($(grep -c '^[a-z]' crates.txt) + 1))
for words in "== part 1 of 2, 0:0" "1 of $all, 0:0.: class proved" "2 of $all, 0:0.: word proved" "3 of $all, 0:0.: block is kept" "4 of $all, 0:0.: must-fail" "== part 2 of 2, 0:0.: tests/a.sh"; do
    grep -q "$words" <<<"$said" || fail "./test says nothing like '$words': $said"
done
[ "$(tail -n 1 <<<"$said")" = "4 passed, 0 failed" ] || fail "the last line of ./test: $said"
# a bad edit is no edit
said=$(cd "$dir/repo" && RT_BAD=", 1 bad" PATH=$dir:$PATH ./test) && fail "./test passed with a bad edit: $said"

[ $failed -eq 0 ] && echo "first use: it says where it is, and proves once"
exit $failed
