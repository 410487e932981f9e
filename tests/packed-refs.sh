# The README's commands, by ./packed-refs, with their exit status. rust/tests/program.rs has every case of every command.
set -u
cd "$(dirname "$0")/.." || exit 1
dir=$(mktemp -d) || exit 1
trap 'rm -rf "$dir"' EXIT
failed=0

# want STATUS PATTERN ARGS..: the exit status, and the pattern of all that was said
want() {
    status=$1 pattern=$2
    shift 2
    said=$(./packed-refs "$@" 2>&1)
    got=$?
    case $said in
        $pattern) ;;
        *) got="$got, and said: $said" ;;
    esac
    if [ "$got" != "$status" ]; then
        echo "packed-refs $*: wanted $status ($pattern), got $got"
        failed=1
    fi
}

./packed-refs --version >/dev/null || exit 1
name=refs/sent/ward4/o118
want 0 "0 charted $name/e3 *" lookup examples/night $name/e3
want 1 "5 absent $name/e4" lookup examples/night $name/e4
want 2 '*number 3: *' lookup examples/night refs/sent//e4
want 0 '0 passed: 28 records' check examples/night
want 2 "*, line 15: number 41: a record's id can't be read; the record starts at byte 891; it reads '00000000000000000000[?]00000000000003ed5f2 $name/e2'. *an id can't be guessed*" check examples/damaged
want 0 "0 charted $name/e3 *every name that is charted here stands in a file that does not pass the check: *, line 15: number 41: *" lookup examples/damaged $name/e3
want 2 '*number 41: *' lookup examples/damaged $name/e2
want 0 "$name/e1 *" list examples/night $name
want 2 "41 damaged: line 15, byte 891, a record's id can't be read: *what to do about 41: *total: 27 records, 1 damaged, *" report examples/damaged
want 0 '# pack-refs with: *' merge examples/night examples/edits
want 0 'packed-refs: the new file has 28 records' merge examples/night examples/edits -o "$dir/new"
want 0 "0 charted $name/e4 *" lookup "$dir/new" $name/e4
printf 'ref: refs/heads/main\n' >"$dir/HEAD"
want 0 '0 symbolic refs/heads/main' loose "$dir/HEAD"
want 2 '*passes the check with ids of 40 digits*' --sha256 check examples/night
want 1 "5 absent $name/e4" lookup examples/night --records 28 $name/e4
want 2 '*the file has 28 records*' lookup examples/night --records 29 $name/e4
want 1 "0 charted $name/e3 *5 absent $name/e4" lookup examples/night --names examples/names
want 0 '{"answer":"passed",*"records":28,*}' check --json examples/night
want 0 '' lookup --quiet examples/night $name/e3
want 0 'usage: packed-refs lookup *' help lookup
want 2 '* is not there*' check "$dir/missing"
want 64 '*try --help' lookup examples/night
want 64 '*try --help'

# which part of a record is bad, and what can be done about it
digits=1111111111111111111111111111111111111111
printf '%s?refs/s/a\n' $digits >"$dir/space"
want 2 "*number 42: no space stands behind a record's id; *last night's file*" check "$dir/space"
printf '%s refs/s/a' $digits >"$dir/cut"
want 2 "*number 43: a record's line is not ended properly; *last night's file*" check "$dir/cut"
printf '%s refs/s.lock/a\n' $digits >"$dir/lock"
want 2 "*number 44: a record's name breaks the name rules; *; its name is 'refs/s.lock/a': a part of it ends with .lock. *" check "$dir/lock"
printf '%s refs/s/a\n^%.39s\n' $digits $digits >"$dir/peeled"
want 2 "*number 45: a record's ^ line can't be read; *" check "$dir/peeled"

# the line that opens in an editor: a header and ^ lines are counted, a last line without LF loses nothing
printf '# pack-refs with: \n%s refs/s/a\n^%s\nrubbish\n%s refs/s/' $digits $digits $digits >"$dir/lines"
want 2 "41 damaged: line 4, byte 111, a record's id can't be read: rubbish
43 damaged: line 5, byte 119, a record's line is not ended properly: $digits refs/s/
*" report "$dir/lines"
want 2 "*/lines, line 4: number 41: *; the record starts at byte 111; it reads 'rubbish'. *" check "$dir/lines"
want 2 '*"line":4,"byte":111,"text":"rubbish","length":7,"message":*' check --json "$dir/lines"
printf '%s refs/s/b\n^%s\n%s refs/s/a\n' $digits $digits $digits >"$dir/order"
want 2 '*/order, line 3: number 6: *; the record starts at byte 92. *' check "$dir/order"

# closed descriptors, through ./packed-refs too
./packed-refs check - <&- 2>"$dir/said"
[ $? -eq 2 ] && grep -q "standard input can't be read: it is closed" "$dir/said" || { echo "a closed input: $(cat "$dir/said")"; failed=1; }
./packed-refs list examples/night >&- 2>"$dir/said"
[ $? -eq 2 ] && grep -q "standard output can't be written: it is closed" "$dir/said" || { echo "a closed output: $(cat "$dir/said")"; failed=1; }

# the README's example, word for word
example=$(sed -n '/^    \$ .\/packed-refs lookup/,/^$/s/^    //p' README.md)
said=$(bash -c "$(sed -n '1s/^\$ //p' <<<"$example")" 2>&1)
[ "$said" = "$(sed 1d <<<"$example")" ] || { echo "the README's example says otherwise: $said"; failed=1; }

# from another directory, by a link
ln -s "$PWD/packed-refs" "$dir/link"
(cd / && "$dir/link" check "$dir/new") >/dev/null || { echo "by a link: failed"; failed=1; }
exit $failed
