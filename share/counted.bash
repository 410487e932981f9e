# What rt says, with how many crates and edits it has got through, of how many, and the time. Sourced by ./libhost and ./test.

# counted TOTAL: reads what `rt ci` says and passes it on; a line that ends a crate or an edit begins with the count and the minutes and seconds.
counted() {
    local count=0 line
    while IFS= read -r line; do
        case $line in
            'rt: '*': its tests proved') printf '%s\n' "$line" ;;
            'rt: '*' proved' | 'rt: '*' is kept: '* | 'rt: must-fail '*': refused'*)
                count=$((count + 1))
                printf '%d of %d, %d:%02d: %s\n' $count "$1" $((SECONDS / 60)) $((SECONDS % 60)) "${line#rt: }"
                ;;
            *) printf '%s\n' "$line" ;;
        esac
    done
}

# built NAME..: reads what `rt lib` says of these crates, lowest first, and of it passes on a line for each crate that it proved: which of how many, and
# the time. A crate that was proved before has none.
built() {
    local name='' line
    while IFS= read -r line; do
        case $line in
            'crate '*': modules '*) name=${line#crate } name=${name%%:*} ;;
            'logic=proved '*) printf '%d of %d, %d:%02d: %s proved\n' "$(place_of "$name" "$@")" $# $((SECONDS / 60)) $((SECONDS % 60)) "$name" ;;
        esac
    done
}

# place_of NAME NAME..: which of the other names it is, from 1 on.
place_of() {
    local count=1 name=$1
    shift
    while [ $# -gt 0 ] && [ "$1" != "$name" ]; do
        count=$((count + 1))
        shift
    done
    echo $count
}

# needs_of NAME: the crates that a crate names, and those that they name in turn, by crates.txt; each once, lowest first.
needs_of() {
    NAME=$1 awk -F: '
        function visit(n,    a, k, m) {
            m = split(deps[n], a, " ")
            for (k = 1; k <= m; k++) if ((a[k] in deps) && !(a[k] in seen)) { seen[a[k]] = 1; visit(a[k]); print a[k] }
        }
        !/^#/ && NF == 2 { split($1, first, " "); deps[first[1]] = $2 }
        END { visit(ENVIRON["NAME"]) }' crates.txt
}

# parts_of NAME..: what of these crates a build reads. Their must-fail/ and what rt makes in their out/ is left out.
parts_of() {
    local name part
    for name; do
        for part in src specs proofs; do
            [ ! -d "crates/$name/$part" ] || printf 'crates/%s/%s ' "$name" $part
        done
    done
}
