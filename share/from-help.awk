# Makes the man page and the shells' completions from what `packed-refs --help` says, so that they can't say anything else.
#
#   packed-refs --help | awk -v form=man -v version=0.1.0 -v numbers=docs/NUMBERS.md -f share/from-help.awk
#
# form is man, bash, zsh or fish. The help is paragraphs with blank lines between them: what the program is, its usage, the commands, the options, more
# text, the exit statuses. A row of a table is two spaces, the left column, two spaces or more, the right column; it goes on below the right one.

/^$/ { paragraph++; next }
paragraph == 0 { sub(/^packed-refs: /, ""); name = name $0; next }
paragraph == 1 { sub(/^usage: /, ""); usage = $0; next }
rows > 0 && /^                    / { sub(/^ +/, ""); right[rows] = right[rows] (right[rows] == "" ? "" : " ") $0; next }
/^  [^ ]/ && (paragraph <= 3 || is_status) { row($0); next }
/^exit status:$/ { is_status = 1; next }
paragraph == 3 { sub(/:$/, "."); options_head = $0; next }
is_status { behind_status = behind_status $0 "\n"; next }
{ text[++texts] = $0; at[texts] = paragraph }

function row(line,    cut) {
    sub(/^  /, "", line)
    cut = match(line, /  +/)
    left[++rows] = cut ? substr(line, 1, cut - 1) : line
    right[rows] = cut ? substr(line, cut + RLENGTH) : ""
    kind[rows] = is_status ? "status" : (line ~ /^-/ ? "option" : "command")
    if (kind[rows] == "option") parse(rows)
}

# The ways to write an option, and what its value is called. A row may name several options: then none has a value.
function parse(r,    words, n, k) {
    n = split(left[r], words, /,? +/)
    for (k = 1; k <= n; k++) {
        if (words[k] ~ /^-/) ways[r] = ways[r] (ways[r] == "" ? "" : " ") words[k]
        else value[r] = words[k]
    }
}

function roff(s) { gsub(/\\/, "\\e", s); gsub(/-/, "\\-", s); gsub(/\^/, "\\(ha", s); sub(/^[.']/, "\\\\\\&&", s); return s }
function quoted(s) { gsub(/'/, "'\\''", s); return s }
function is_file(r) { return value[r] == "FILE" || value[r] == "NEW" }
function command_of(r,    words) { split(left[r], words, " "); return words[1] }
function all(what, sep,    r, s) {
    for (r = 1; r <= rows; r++) if (kind[r] == what) s = s (s == "" ? "" : sep) (what == "command" ? command_of(r) : ways[r])
    return s
}

END {
    if (name == "" || usage == "" || all("command", " ") == "" || all("option", " ") == "") { print "from-help: that is no help" > "/dev/stderr"; exit 1 }
    if (form == "man") man()
    else if (form == "bash") bash()
    else if (form == "zsh") zsh()
    else if (form == "fish") fish()
    else { print "from-help: no form " form > "/dev/stderr"; exit 1 }
}

function table(what,    r) {
    for (r = 1; r <= rows; r++) if (kind[r] == what) { print ".TP"; print ".B " roff(left[r]); print (right[r] == "" ? "\\&" : roff(right[r])) }
}

function man(    k, line, cells) {
    print ".TH PACKED\\-REFS 1 \"\" \"packed\\-refs " roff(version) "\" \"User Commands\""
    print ".SH NAME"
    print "packed\\-refs \\- " roff(name)
    print ".SH SYNOPSIS"
    print ".B " roff(usage)
    print ".SH COMMANDS"
    table("command")
    print ".SH OPTIONS"
    if (options_head != "") print roff(options_head)
    table("option")
    print ".SH DESCRIPTION"
    for (k = 1; k <= texts; k++) {
        if (k > 1 && at[k] != at[k - 1]) print ".PP"
        else if (k > 1) print ".br"
        line = text[k]
        sub(/^ +/, "", line)
        print roff(line)
    }
    print ".SH EXIT STATUS"
    table("status")
    print ".PP"
    gsub(/\n$/, "", behind_status)
    print roff(behind_status)
    print ".SH NUMBERS"
    # an example is neither stretched nor hyphenated
    print ".ad l"
    print ".nh"
    print "What each number means, what the sender does, and what a person does. In an example of a line " roff("\\n") " is its LF."
    while ((getline line < numbers) > 0) {
        if (line !~ /^\| [0-9]+ \|/) continue
        split(line, cells, / \| /)
        sub(/^\| /, "", cells[1])
        gsub(/`/, "\"", cells[2])
        gsub(/`/, "", cells[4])
        gsub(/`/, "", cells[5])
        print ".TP"
        print ".B " cells[1]
        print roff(cells[2] ". " cells[4] " " cells[5])
    }
}

function bash(    r, with_file, with_value, way, n, k) {
    for (r = 1; r <= rows; r++) if (kind[r] == "option" && value[r] != "") {
        n = split(ways[r], way, " ")
        for (k = 1; k <= n; k++) if (is_file(r)) with_file = with_file (with_file == "" ? "" : " | ") way[k]
        else with_value = with_value (with_value == "" ? "" : " | ") way[k]
    }
    print "# bash completion for packed-refs, made from its --help"
    print "_packed_refs() {"
    print "    local word=${COMP_WORDS[COMP_CWORD]} before=${COMP_WORDS[COMP_CWORD - 1]} k"
    print "    COMPREPLY=()"
    print "    case $before in"
    if (with_value != "") print "        " with_value ") return ;;"
    if (with_file != "") print "        " with_file ") mapfile -t COMPREPLY < <(compgen -f -- \"$word\"); return ;;"
    print "        --) mapfile -t COMPREPLY < <(compgen -f -- \"$word\"); return ;;"
    print "    esac"
    print "    if [[ $word == -* ]]; then"
    print "        mapfile -t COMPREPLY < <(compgen -W '" all("option", " ") "' -- \"$word\")"
    print "        return"
    print "    fi"
    print "    for ((k = 1; k < COMP_CWORD; k++)); do"
    print "        case ${COMP_WORDS[k]} in"
    print "            " all("command", " | ") ") mapfile -t COMPREPLY < <(compgen -f -- \"$word\"); return ;;"
    print "        esac"
    print "    done"
    print "    mapfile -t COMPREPLY < <(compgen -W '" all("command", " ") "' -- \"$word\")"
    print "}"
    print "complete -o filenames -F _packed_refs packed-refs"
}

function zsh(    r, way, n, k) {
    print "#compdef packed-refs"
    print "# zsh completion for packed-refs, made from its --help"
    print "_arguments -S \\"
    for (r = 1; r <= rows; r++) if (kind[r] == "option") {
        n = split(ways[r], way, " ")
        for (k = 1; k <= n; k++) print "    '" way[k] "[" bracketed(right[r]) "]" (value[r] == "" ? "" : ":" value[r] ":" (is_file(r) ? "_files" : " ")) "' \\"
    }
    print "    '1:command:((" zsh_commands() "))' \\"
    print "    '*:file:_files'"
}
function bracketed(s) { gsub(/\\/, "\\\\", s); gsub(/\[/, "\\[", s); gsub(/\]/, "\\]", s); gsub(/:/, "\\:", s); return quoted(s) }
function zsh_commands(    r, s) {
    for (r = 1; r <= rows; r++) if (kind[r] == "command") s = s (s == "" ? "" : " ") command_of(r) "\\:\"" bracketed(right[r]) "\""
    return s
}

function fish(    r, way, n, k, line) {
    print "# fish completion for packed-refs, made from its --help"
    for (r = 1; r <= rows; r++) {
        if (kind[r] == "command")
            print "complete -c packed-refs -n __fish_use_subcommand -f -a " command_of(r) " -d '" fished(right[r]) "'"
        if (kind[r] != "option") continue
        n = split(ways[r], way, " ")
        for (k = 1; k <= n; k++) {
            line = "complete -c packed-refs " (way[k] ~ /^--/ ? "-l " substr(way[k], 3) : "-s " substr(way[k], 2))
            print line (value[r] == "" ? "" : (is_file(r) ? " -r -F" : " -x")) " -d '" fished(right[r]) "'"
        }
    }
}
function fished(s) { gsub(/\\/, "\\\\", s); gsub(/'/, "\\'", s); return s }
