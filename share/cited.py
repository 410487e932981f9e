#!/usr/bin/env python3
"""What a reader must believe, counted: the definitions in crates/*/specs that the contracts of public functions cite, and those that these are made of.

usage: share/cited.py [--by-crate] [ROOT]

A line counts if it is no import, no comment and not empty. What is left is statements of theorems, worked examples, and what only private functions cite."""
import glob
import os
import re
import sys

BEGINS = re.compile(r"\s*(?:(?:abbrev|unfoldable)\s+(?:pub\s+)?|pub (?:record|data)\s+)(\S+)")
IMPORT = re.compile(r"\s*(?:ghost )?use Rattle\.(\w+)\.specs\.(\w+)\.\{([^}]*)\}")
PUBLIC = re.compile(r"(?m)^pub (?:extern \"C\" )?fn\s+\w+")
WORD = re.compile(r"[^\s(){},;]+")


def definitions(lines):
    """The lines of each definition of a file, by name."""
    found, name = {}, None
    for line in lines:
        bare = line.strip()
        if not bare or bare.startswith(("--", "use ", "pub mod")):
            continue
        begins = BEGINS.match(line)
        if begins:
            name = begins.group(1)
            found[name] = []
        elif bare.startswith("module _"):
            name = None
        if name:
            found[name].append(line)
    return found


def imports(lines):
    """Where each imported name of a file is defined: crate, file, name."""
    return {name.strip(): (m.group(1), m.group(2), name.strip()) for m in map(IMPORT.match, lines) if m for name in m.group(3).split(",")}


def main():
    arguments = [a for a in sys.argv[1:] if a != "--by-crate"]
    crates = os.path.join(arguments[0] if arguments else ".", "crates")
    defined, imported, cited = {}, {}, []
    for path in glob.glob(os.path.join(crates, "*", "specs", "*.antt")):
        at = (path.split(os.sep)[-3], os.path.basename(path)[: -len(".antt")])
        lines = open(path, encoding="utf-8").read().split("\n")
        defined[at], imported[at] = definitions(lines), imports(lines)
    for path in glob.glob(os.path.join(crates, "*", "src", "**", "*.rt"), recursive=True):
        text = open(path, encoding="utf-8").read()
        names = imports(text.split("\n"))
        for head in PUBLIC.finditer(text):
            cited += [names[w] for w in WORD.findall(text[head.start() : text.find("\n{", head.end())]) if w in names]
    reached = set()
    while cited:
        crate, file, name = cited.pop()
        here = defined.get((crate, file), {})
        if (crate, file, name) in reached or name not in here:
            continue
        reached.add((crate, file, name))
        for word in (w.lstrip(".") for w in WORD.findall("\n".join(here[name]))):
            if word in here:
                cited.append((crate, file, word))
            elif word in imported[crate, file]:
                cited.append(imported[crate, file][word])
    size = {r: len(defined[r[0], r[1]][r[2]]) for r in reached}
    total = sum(len(lines) for d in defined.values() for lines in d.values())
    print(f"cited by contracts: {len(size)} definitions, {sum(size.values())} lines; the rest: {total - sum(size.values())} lines")
    if "--by-crate" in sys.argv:
        for crate in sorted({c for c, _, _ in size}):
            print(f"  {crate}: {sum(k for r, k in size.items() if r[0] == crate)}")


main()
