#!/usr/bin/env python3
"""Respells this repository's own names in antt as today's Rattle spells names: definitions, lemmas, labels and constructors in snake case, types and
facts in camel case. Run once, at the top of the repository, right behind the kit's port.py:

    python3 tools/respell_names.py [--list]

Functions, types and fields of src/, exported names, strings, inputs and outputs keep their names: of a .rt file only the lines of clauses and imports
are read. --list prints the table of names and writes nothing."""
import collections
import glob
import os
import re
import sys

WORD = r"[^\s(){}\[\].,;:|\\\"«»]+"
HEAD = re.compile(r"^(\s*)((?:(?:abbrev|unfoldable|pub|data|record)\s+)*)(" + WORD + r")((?:\s*(?:\{[^{}]*\}|\((?:[^()]|\([^()]*\))*\)))*)\s*:(?:\s|$)(.*)")
TOKEN = re.compile(WORD)
# A goal of a function's proof has the name that Rattle gives it.
GOAL = re.compile(r"\b(?:tie|goal)\.|\bstatement\b")
# A crate whose name is a library's of today's kit.
CRATES = {"hex": "hex_digits"}
# Names that would fall together with another name that is read in the same file, and names that say a fact.
SPECIAL = {"ascending": "IsAscending", "put-hex": "put_hex_lem", "iter-next": "iter_next_lem", "iterator-next": "iterator_next_lem"}
# `reply` is a variable.
KEEP = {"reply"}
# Names that stay in one file, and names in snake case that another one of the same file would fall together with.
BY_FILE = {
    "crates/places/specs/Laws.antt": {"ascending": "ascending"},
    "crates/decode/proofs/Records.antt": {"text_at": "text_at_lem"},
    "crates/decode/proofs/Why.antt": {"text_at": "text_at_lem"},
    "crates/iter/proofs/OnLine.antt": {"on_line": "on_line_lem"},
    "crates/iter/proofs/step/next/Proof.antt": {"on_line": "on_line_lem"},
    "crates/merge/proofs/EditsRise.antt": {"in_order": "in_order_lem"},
    "crates/merge/proofs/Ready.antt": {"in_order": "in_order_lem"},
    "crates/merge/proofs/merge_with_digits/Proof.antt": {"in_order": "in_order_lem"},
    "crates/name/proofs/Laws.antt": {"lone_at": "is_lone_at"},
    "crates/reply_file/proofs/Near.antt": {"step_by": "step_by_lem"},
}


def snake(name):
    name = re.sub(r"(?<=[a-z0-9])(?=[A-Z])", "-", name.replace("getD", "get-or"))
    return "_".join(part if re.search(r"[^\x00-\x7f]", part) else part.lower() for part in name.split("-"))


def camel(name):
    return "".join(part[:1].upper() + part[1:] for part in re.split(r"[-_]", name))


def antt_files():
    return sorted(f for f in glob.glob("crates/*/specs/**/*.antt", recursive=True) + glob.glob("crates/*/proofs/**/*.antt", recursive=True)
                  if "/out/" not in f)


def result_type(first, rest):
    """The last part of a signature that starts with `first` and goes on in `rest`."""
    text = [first]
    for line in rest:
        if not re.match(r"^\s*→|^\s+\S.*→", line):
            break
        text.append(line)
    whole = " ".join(text).split("--")[0]
    return whole.rsplit("→", 1)[-1].strip()


def declared():
    """Each name that is declared in an antt file, with where, and whether it is a type."""
    found = collections.defaultdict(list)
    for f in antt_files():
        lines = open(f).read().split("\n")
        for i, line in enumerate(lines):
            if line.lstrip().startswith("--"):
                continue
            m = HEAD.match(line)
            if not m or m.group(3) in ("module", "use", "→", "let"):
                continue
            if f.endswith("/Proof.antt") and GOAL.search(line + " " + (lines[i + 1] if i + 1 < len(lines) else "")) and not m.group(4):
                if re.search(r":\s*(?:∀|\{M|tie\.|goal\.)", line) and not re.search(r"→", line.split(":", 1)[1].replace("{M : Type 1} →", "")):
                    continue
            kind = result_type(m.group(5), lines[i + 1:])
            found[m.group(3)].append((f, i + 1, bool(re.match(r"^Type\b", kind))))
    return found


def foreign():
    """Names that come from a library."""
    out = set()
    for f in antt_files() + sorted(glob.glob("crates/*/src/**/*.rt", recursive=True)):
        for m in re.finditer(r"^\s*(?:ghost )?(?:pub )?use ((?:Rattle\.std|mathlib|lib|Prim|native|borrow|seplogic|denote)[\w.·]*)\.\{([^}]*)\}", open(f).read(), re.M):
            for part in m.group(2).split(","):
                out.add(part.strip().split(" as ")[0])
    return out


def table():
    names, lib = declared(), foreign()
    new = {}
    for name, places in names.items():
        if name in KEEP or name in lib or not re.match(r"^[a-zA-Z]", name):
            continue
        if name in SPECIAL:
            new[name] = SPECIAL[name]
        elif name[0].isupper():
            if re.search(r"[-_]", name):
                new[name] = camel(name)
        elif any(p[2] for p in places):
            new[name] = camel(name)
        else:
            new[name] = snake(name)
    # A lemma that would have the name of the function that it is about gets `_lem`.
    taken = {b for a, b in new.items() if "-" not in a} | {n for n in names if "-" not in n} | source_names() | lib
    for a in new:
        if "-" in a and new[a] in taken and a not in SPECIAL:
            new[a] += "_lem"
    return {a: b for a, b in new.items() if a != b}, names, lib


def source_names():
    """The functions of src/."""
    out = set()
    for f in glob.glob("crates/*/src/**/*.rt", recursive=True):
        out |= set(re.findall(r"\bfn (\w+)", open(f).read()))
    return out


def of_file(f, names):
    return {**names, **BY_FILE.get(f, {})}


def turned(text, names):
    return TOKEN.sub(lambda m: names.get(m.group(0), m.group(0)), text)


def crate_paths(text):
    for old, new in CRATES.items():
        text = re.sub(r"\bRattle\." + old + r"(?=\.)", "Rattle." + new, text)
    return text


def rust_lines(text, names):
    """Of a .rt file: clauses and ghost imports."""
    out, depth = [], 0
    for line in text.split("\n"):
        code = line.split("//")[0] if line.lstrip().startswith("//") else line
        if re.match(r"^\s*ghost use", line):
            line = turned(line, names)
            depth = line.count("{") - line.count("}")
            clause = depth > 0
        elif re.match(r"^\s*(?:ensures|requires|ghost)\b.*\{", line):
            line = turned(line, names)
            depth = line.count("{") - line.count("}")
        elif depth > 0:
            line = turned(line, names)
            depth += code.count("{") - code.count("}")
        for old, new in CRATES.items():
            line = re.sub(r"(?<![\w.:])" + old + r"::", new + "::", line)
        out.append(line)
    return "\n".join(out)


def main():
    names, places, lib = table()
    if "--list" in sys.argv:
        for a in sorted(names):
            print(a, names[a], len(places[a]))
        clashes(names)
        return
    for f in antt_files():
        text = open(f).read()
        mine = of_file(f, names)
        lines = [comment(line, mine) if line.lstrip().startswith("--") else turned(line, mine) for line in text.split("\n")]
        after = crate_paths("\n".join(lines))
        if after != text:
            open(f, "w").write(after)
    for f in sorted(glob.glob("crates/*/src/**/*.rt", recursive=True)):
        text = open(f).read()
        after = crate_paths(rust_lines(text, names))
        if after != text:
            open(f, "w").write(after)
    for f in sorted(glob.glob("crates/*/must-fail/*.edit")):
        text = open(f).read()
        after = crate_paths(edit_lines(f, text, names))
        if after != text:
            open(f, "w").write(after)
    for f in sorted(glob.glob("README.md") + glob.glob("docs/*.md")):
        text = open(f).read()
        after = crate_paths(re.sub(r"`[^`\n]*`", lambda m: turned(m.group(0).replace("`", "` "), names).replace("` ", "`"), text))
        if after != text:
            open(f, "w").write(after)
    for old, new in CRATES.items():
        os.rename("crates/" + old, "crates/" + new)
        text = open("crates.txt").read()
        text = "\n".join(line if line.startswith("#") else re.sub(r"\b" + old + r"\b", new, line) for line in text.split("\n"))
        open("crates.txt", "w").write(text)


def edit_lines(f, text, names):
    out, in_antt, file = [], False, ""
    for line in text.split("\n"):
        if line.startswith("file:"):
            file = line.split(":", 1)[1].strip()
            in_antt = file.endswith(".antt")
        elif re.match(r"^(old|new):", line):
            head, rest = line.split(":", 1)
            mine = of_file(f.split("/must-fail/")[0] + "/" + file, names)
            if in_antt or re.match(r"^\s*(ghost use|ensures|requires)", rest):
                rest = turned(rest, mine)
            else:
                rest = turned(rest, {a: b for a, b in mine.items() if re.search(r"^[a-z]+[A-Z]", a) and "-" not in a})
            for o, n in CRATES.items():
                rest = re.sub(r"(?<![\w.:])" + o + r"::", n + "::", rest)
            line = head + ":" + rest
        out.append(line)
    return "\n".join(out)


def comment(line, names):
    """In a comment only a name that no English word is."""
    return TOKEN.sub(lambda m: names.get(m.group(0), m.group(0)) if re.search(r"[a-z][A-Z]", m.group(0)) else m.group(0), line)


def clashes(names):
    for f in antt_files():
        toks = set()
        for line in open(f).read().split("\n"):
            if not line.lstrip().startswith("--"):
                toks |= set(TOKEN.findall(line))
        seen = {}
        for t in sorted(toks):
            n = of_file(f, names).get(t, t)
            if n in seen and (t in names or seen[n] in names):
                print("CLASH", f, seen[n], t, "->", n)
            seen[n] = t


main()
