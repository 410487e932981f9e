# Every public function has its theorem in the crate determined, and its line in docs/DETERMINED.md; and the theorem is about the contract that
# stands in the source: where that says nothing, the function's own crate is still proved, and determined is not.
set -u
cd "$(dirname "$0")/.." || exit 1

# The public functions of the libraries, as crate::module::function, a method with its type before it. A file of src/ that is not lib.rt is a module. No crate can name what a static
# library has, so host_c, which gives C what host has, is held to host below. A method that an `impl` here gives a type from a trait is as public as the type, and listed under the name that
# the toolchain makes of both (what a derive writes, Clone, Copy and Default, is not listed): `from` of `impl From<BadHeader> for Refusal` as RefusalFromBadHeader::from.
public=$(for f in crates/*/src/*.rt; do
    crate=${f#crates/}; crate=${crate%%/*}
    [ ! -e "crates/$crate/src/main.rt" ] || continue
    ! grep -q "^$crate staticlib:" crates.txt || continue
    module=$(basename "$f" .rt); [ "$module" = lib ] && module= || module=$module::
    awk -v at="$crate::$module" '/^impl/ { sub(/^impl(<[^>]*>)? /, ""); trait = $0; if (!sub(/ for .*/, "", trait)) trait = ""; sub(/.* for /, "")
            gsub(/[^A-Za-z0-9_]/, "", trait); sub(/[^A-Za-z0-9_].*/, ""); type = $0 trait "::" }
        /^}/ { type = trait = "" }
        match($0, /^ *pub (extern "C" )?fn [a-z0-9_]+/) || trait != "" && match($0, /^    fn [a-z0-9_]+/) { name = substr($0, RSTART, RLENGTH); sub(/.* /, "", name); print at type name }' "$f"
done)
count=0
for f in $public; do
    path=Rattle.${f%%::*}.specs.contracts.$(echo "${f#*::}" | sed 's/::/./g')
    file=$(grep -lE --exclude=Anywhere.antt "^use $path( as .*)?$" crates/determined/specs/*.antt) || { echo "no theorem: $f"; exit 1; }
    name=$(sed -nE "s/^use $path as (.*)$/\1/p" "$file"); name=${name:-${f##*::}}
    theorem=$(sed -nE "s/^  pub ([a-z0-9_]+) : Determined(As)? $name\.ended \(λ M( 𝓤)?\. $name\.clauses\).*$/\1/p" "$file")
    [ -n "$theorem" ] || { echo "no theorem: $f"; exit 1; }
    grep -qF "| \`$f\` | \`$theorem\`" docs/DETERMINED.md || { echo "not in docs/DETERMINED.md: $f, $theorem"; exit 1; }
    case $f in host::*) grep -qE " : Anywhere $name\.ended \(λ M( 𝓤)?\. $name\.clauses\)" crates/determined/specs/Anywhere.antt || { echo "no theorem Anywhere: $f"; exit 1; } ;; esac
    count=$((count + 1))
done
lines=$(grep -c '^| `[a-z_]*::' docs/DETERMINED.md)
[ "$lines" -eq "$count" ] || { echo "docs/DETERMINED.md has $lines functions, the crates have $count"; exit 1; }

# What C calls has the clauses of the function of host that it calls, and the names in them mean the same: the two files differ in their first comment, in how a
# function is exported, in their lines and in the bodies.
exported() { sed -n -e '/^ghost use/p' -e 's/^pub extern "C" fn/pub fn/' -e '/^pub fn/,/^{/p' "$1" | tr -s '[:space:]' ' ' | sed -E 's/\( /(/g; s/, \)/)/g; s/ (ensures|ghost|pub)/\n\1/g'; }
for module in read write; do
    said=$(diff <(exported crates/host/src/$module.rt) <(exported crates/host_c/src/$module.rt)) ||
        { echo "host and host_c differ in $module:"; echo "$said"; exit 1; }
    for f in $(sed -nE 's/^pub fn ([a-z0-9_]+).*/\1/p' crates/host/src/$module.rt); do
        grep -B1 "^pub extern \"C\" fn $f(" crates/host_c/src/$module.rt | grep -q '^#\[unsafe(no_mangle)\]$' && grep -q "^    host::$module::$f(" crates/host_c/src/$module.rt ||
            { echo "not exported by host_c: $f"; exit 1; }
    done
done

# The sources alone are copied: rt takes what was proved of them here.
dir=$(mktemp -d) || exit 1
trap 'rm -rf "$dir"' EXIT
cp crates.txt "$dir" && for part in crates/*/{src,specs,proofs}; do
    [ -d "$part" ] || continue
    mkdir -p "$dir/${part%/*}" && cp -a "$part" "$dir/${part%/*}" || exit 1
done
sed -i '/fn packed_refs_ask(/{n;s/ensures { .* }/ensures { file.now ≡ file.now }/}' "$dir/crates/host/src/read.rt"
! cmp -s crates/host/src/read.rt "$dir/crates/host/src/read.rt" || { echo "the contract of packed_refs_ask was not found"; exit 1; }
(cd "$dir/crates/host" && rt lib) >"$dir/log" 2>&1 || { tail -n 20 "$dir/log"; echo "a contract that says nothing was refused in host"; exit 1; }
(cd "$dir/crates/determined" && rt check) >"$dir/log" 2>&1
grep -q '^\./proofs/[A-Za-z]*\.antt:.*: error' "$dir/log" && ! grep -q '^\./specs/.*: error' "$dir/log" && grep -q '^logic=not-proved' "$dir/log" || { tail -n 20 "$dir/log"; echo "a contract that says nothing passed, or was refused elsewhere"; exit 1; }
echo "determined: $count public functions have their theorem; a contract that says nothing is refused"
