# ./install, and projects outside the repository that link what it put there by their own means: C by pkg-config, Rust by a path. The program asks
# without a build, and the man page and the completions have every command and option of --help. Nothing is downloaded.
set -u
cd "$(dirname "$0")/.." || exit 1
dir=$(mktemp -d) || exit 1
trap 'rm -rf "$dir"' EXIT
failed=0
fail() { echo "install: $*"; failed=1; }
examples=$PWD/examples
name=refs/sent/ward4/o118

for words in '' -x 'a b'; do
    # shellcheck disable=SC2086
    ./install $words >/dev/null 2>&1
    [ $? -eq 64 ] || fail "./install $words: wanted 64"
done
./install "$dir/first" >"$dir/list" || { echo "./install failed"; exit 1; }
while IFS= read -r file; do [ -s "$file" ] || fail "$file is not there"; done <"$dir/list"
# a second time, over the first; a source of an older crate goes
touch "$dir/first/share/packed-refs/rust/src/old.rs"
./install "$dir/first" >/dev/null || fail "a second time"
[ ! -e "$dir/first/share/packed-refs/rust/src/old.rs" ] || fail "a source of an older crate stayed"
# the tree may be moved
mv "$dir/first" "$dir/prefix"
prefix=$dir/prefix
mkdir "$dir/away"
cd "$dir/away" || exit 1

# the program: no shell, no compiler, no repository
said=$(env -i PATH=/nowhere "$prefix/bin/packed-refs" lookup "$examples/night" $name/e3)
[ $? -eq 0 ] || fail "the program: $said"
case $said in "0 charted $name/e3 "*) ;; *) fail "the program said: $said" ;; esac

# C
cat >ask.c <<'END'
#include <packed_refs.h>
#include <stdio.h>
#include <string.h>
int main(int argc, char **argv)
{
    static unsigned char bytes[65536];
    FILE *file = fopen(argv[1], "rb");
    if (argc != 3 || file == NULL)
        return 64;
    size_t len = fread(bytes, 1, sizeof bytes, file);
    if (ferror(file) || !feof(file))
        return 2;
    struct packed_refs_ask_reply said = packed_refs_ask(1, bytes, len, (const uint8_t *)argv[2], strlen(argv[2]));
    return said.number == 0 && said.fault == 0 ? 0 : said.number == 5 ? 1 : 2;
}
END
if command -v pkg-config >/dev/null; then
    export PKG_CONFIG_PATH=$prefix/lib/pkgconfig
    pkg-config --exists 'packed-refs >= 0.1' || fail "pkg-config does not find it"
    flags="$(pkg-config --cflags packed-refs) ask.c $(pkg-config --libs packed-refs)"
else
    flags="-I$prefix/include ask.c -L$prefix/lib -lpacked_refs"
fi
# shellcheck disable=SC2086
"${CC:-cc}" -std=c99 -Wall -Werror -o ask $flags || fail "C does not link"

# Rust
mkdir -p sender/src
cat >sender/Cargo.toml <<END
[package]
name = "sender"
version = "0.0.0"
edition = "2021"
[dependencies]
packed-refs = { path = "$prefix/share/packed-refs/rust" }
END
cat >sender/src/main.rs <<'END'
use packed_refs::{Asked, IdKind, Opener};
fn main() {
    let args: Vec<String> = std::env::args().collect();
    let table = Opener::new().open(IdKind::Sha1, &args[1]);
    std::process::exit(match table.as_ref().map(|table| table.ask(&args[2])) {
        Ok(Ok(Asked::Charted(_))) => 0,
        Ok(Ok(Asked::Absent)) => 1,
        Ok(Ok(Asked::ChartedInDamagedFile { .. }) | Err(_)) | Err(_) => 2,
    });
}
END
(cd sender && env -u PACKED_REFS_LIB_DIR CARGO_TARGET_DIR="$dir/away/cargo" cargo build --offline --quiet) || fail "Rust does not link"
for program in ./ask ./cargo/debug/sender; do
    # charted, absent, no name, charted in a damaged file
    for case in "0 night e3" "1 night e4" "2 night /" "2 damaged e3"; do
        read -r status file last <<<"$case"
        $program "$examples/$file" "$name/$last"
        got=$?
        [ $got -eq "$status" ] || fail "$program $file $last: wanted $status, got $got"
    done
done

# every command and every option of --help, and every number
"$prefix/bin/packed-refs" --help >help
commands=$(sed -n '/^usage/,/^[a-z-]*options\|^  -/p' help | sed -n 's/^  \([a-z][a-z]*\).*/\1/p')
options=$(sed -n 's/^  \(-[^ ]*.*\)/\1/p' help | sed 's/   .*//' | grep -o -e '-[a-zA-Z0-9-]*' | sort -u)
[ "$(wc -w <<<"$commands")" -ge 6 ] && [ "$(wc -w <<<"$options")" -ge 3 ] || fail "no help: $commands $options"
man=$prefix/share/man/man1/packed-refs.1
page=$(sed 's/\\-/-/g' "$man")
bash=$prefix/share/bash-completion/completions/packed-refs
for word in $commands $options; do
    grep -q -e "^\.B .*$word" <<<"$page" || fail "the man page lacks $word"
    grep -q -e "[ ']$word[ ']" "$bash" || fail "bash's completion lacks $word"
    grep -q -e "[' (]$word\(\\\\:\|\[\)" "$prefix/share/zsh/site-functions/_packed-refs" || fail "zsh's completion lacks $word"
    bare=${word#-}
    grep -q -e "-[als] ${bare#-} " "$prefix/share/fish/vendor_completions.d/packed-refs.fish" || fail "fish's completion lacks $word"
done
for number in 0 2 4 5 17 41 45; do
    grep -q "^\.B $number\$" "$man" || fail "the man page lacks number $number"
done
numbers=$prefix/share/doc/packed-refs/NUMBERS.md
[ "$(grep -c '^| [0-9]' "$numbers")" -ge 23 ] && ! grep -q 'crates/' "$numbers" || fail "the page of numbers: $(cat "$numbers")"
# the examples in the rows: whole, and without the page's backticks in the man page
example='1111111111111111111111111111111111111111 refs/tags/night\n^2222\n'
odd=$(awk -F ' [|] ' '/^[|] [0-9]/ && NF != 5' "$numbers")
[ -z "$odd" ] && grep -qF "as in \`$example\` | " "$numbers" || fail "the rows of numbers: $odd"
in_man=$(sed 's/\\/\\e/g; s/\^/\\(ha/g' <<<"$example")
! grep -q '`' "$man" && grep -qF "as in \"$in_man\". Do not send. " "$man" || fail "the man page's examples: $(grep ', as in ' "$man")"
if command -v groff >/dev/null; then
    said=$(groff -man -Tascii -ww "$man" 2>&1 >/dev/null)
    [ -z "$said" ] || fail "groff says of the man page: $said"
fi
# what bash offers
# shellcheck disable=SC1090
offered() { (. "$bash" && COMP_WORDS=(packed-refs "$@") && COMP_CWORD=$# && _packed_refs && echo "${COMPREPLY[*]}"); }
[ "$(offered lo)" = "lookup loose" ] || fail "bash offers for lo: $(offered lo)"
[ "$(offered --sha256 che)" = check ] || fail "bash offers behind an option: $(offered --sha256 che)"
touch 'a file'
[ "$(offered check a\ f)" = "a file" ] || fail "bash offers files: $(offered check a\ f)"
case " $(offered check --) " in *' --sha256 '*) ;; *) fail "bash offers for --: $(offered check --)" ;; esac

[ $failed -eq 0 ] && echo "install: C, Rust, the program, the man page and the completions find what they need"
exit $failed
