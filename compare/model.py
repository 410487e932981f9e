"""Documents 01 and 02 as a program, for what the Rust can't be asked: which part of a record is bad (document 02's request Six; the Rust has one error for
all five), on which line and what the whole line is (request One; the Rust counts items and cuts a byte), and what the port adds: the check, `ask`, edit lists
as bytes, 7 to 12, the index. Written from the documents' sentences, the name rules with request Four, and `ask` from what was settled with request Six.
Nothing is taken over from the library. Answers have the one-line form."""
LF = b"\n"
DIGITS = {1: 40, 2: 64}
LIMIT = 4096
# The largest line number. It stays.
LAST_LINE = 2 ** 64 - 1
# Why a record is bad: its first id, no space, its line not ended properly, its name, its `^` line.
BAD = (41, 42, 43, 44, 45)


def valid(n):
    parts = n.split(b"/")
    return (len(parts) > 1 and all(parts) and not any(c.startswith(b".") or c.endswith(b".lock") for c in parts) and b".." not in n
            and not any(b < 32 or b == 127 or b in b" ~^:?*[\\" for b in n) and not n.endswith(b".") and b"@{" not in n)


# ---- Parts of a line. Each gives the place behind the part, or None where it can't be read.

def id_end(b, kind, at):
    end = at + DIGITS[kind]
    return end if end <= len(b) and all(c in b"0123456789abcdefABCDEF" for c in b[at:end]) else None


def line_end(b, at):
    """A line end is LF or CR LF."""
    return at + 1 if b[at:at + 1] == b"\n" else at + 2 if b[at:at + 2] == b"\r\n" else None


def text_end(b, at):
    """Text runs to the first CR or LF."""
    while at < len(b) and b[at] not in b"\r\n":
        at += 1
    return at


def record(b, kind, at):
    """The record that begins at a place: place and length of its name, place of its peeled id or 0, the place behind it. Or why it is bad: the first
    part that can't be read, in request Six's order, which has the line's end before the name."""
    space = id_end(b, kind, at)
    if space is None:
        return 41
    if b[space:space + 1] != b" ":
        return 42
    name_at = space + 1
    name_end = text_end(b, name_at)
    behind = line_end(b, name_end)
    if behind is None:
        return 43
    if not valid(b[name_at:name_end]):
        return 44
    peeled_at = 0
    if b[behind:behind + 1] == b"^":
        peeled_at = behind + 1
        end = id_end(b, kind, peeled_at)
        behind = None if end is None else line_end(b, end)
        if behind is None:
            return 45
    return name_at, name_end - name_at, peeled_at, behind


def behind_header(b):
    """(the place behind the header, None), 0 without one; or (None, the length of number 2's text)."""
    if b[:1] != b"#":
        return 0, None
    lf = b.find(LF)
    line = b if lf < 0 else b[:lf].removesuffix(b"\r")
    if not b.startswith(b"# pack-refs with: ") or lf < 0 or b"\r" in line:
        return None, len(line)
    return lf + 1, None


def covered(b, at):
    """Where an error that begins at a place ends: it covers through the next LF, or the rest if none."""
    lf = b.find(LF, at)
    return len(b) if lf < 0 else lf + 1


def line_of(b, place):
    """The true line number of a place: one more than the line feeds before it."""
    return 1 + b[:place].count(LF)


def whole_line(b, at):
    """The whole line, from that place on, without its ending LF: its length."""
    return len(b[at:].partition(LF)[0])


# ---- Whole files

def item(b, kind, at):
    """('r', start, place and length of the name, place of the peeled id or 0, next place) or ('e', start, why, line, length of the text, next place) of the
    item at a place."""
    r = record(b, kind, at)
    return ("e", at, r, line_of(b, at), whole_line(b, at), covered(b, at)) if r in BAD else ("r", at) + r


def items_from(b, kind, at):
    out = []
    while at < len(b):
        out.append(item(b, kind, at))
        at = out[-1][-1]
    return out


def file_items(b, kind):
    """(place, items) of a whole file; or the length of number 2's text."""
    at, text = behind_header(b)
    return text if at is None else (at, items_from(b, kind, at))


def words(item):
    return "".join(f" {x}" for x in item)


def on_line(item, line):
    """The item, an error with another line number."""
    return item[:3] + (line,) + item[4:] if item[0] == "e" else item


def spelled(b, place, items):
    """The iteration of a whole file."""
    return f"0 {place} {line_of(b, place)}" + "".join(map(words, items)) + f" . {len(b)} {line_of(b, len(b))}"


def spelled_prefix(b, place, items):
    """A listing with a prefix. It starts in the middle, so its line numbers are 0."""
    return f"0 {place}" + "".join(words(on_line(i, 0)) for i in items) + f" . {len(b)}"


def spelled_lines(b, place, items):
    """The items of a whole file, also its records, each behind the line that it starts on; then the line behind them."""
    return "0" + "".join(f" {line_of(b, i[1])}{words(i)}" for i in items) + f" {line_of(b, len(b))} ."


def spelled_step(b, item):
    """The item at any place, or None at an end."""
    return "0" + words(item or (".", len(b)))


def spelled_walk(b, item, line):
    """A step that is given its line number: an error's is that one, and the next one is greater by the item's line feeds."""
    if item is None:
        return f"0 . {len(b)} {line}"
    return "0" + words(on_line(item, line)) + f" {min(line + b[item[1]:item[-1]].count(LF), LAST_LINE)}"


def iteration(kind, b, spell=spelled):
    f = file_items(b, kind)
    return f"2 {f}" if isinstance(f, int) else spell(b, *f)


def first_fault(b, items):
    """What the check says of a file's items: the first error with its place, line and text, or the first record whose name isn't greater than the one before;
    else the count."""
    last = b""
    for i in items:
        if i[0] == "e":
            _, at, why, line, length, _ = i
            return f"{why} {at} {line} {length}"
        name = b[i[2]:i[2] + i[3]]
        if not last < name:
            return f"6 {i[1]}"
        last = name
    return f"0 {len(items)}"


def check(kind, b):
    f = file_items(b, kind)
    return f"2 {f}" if isinstance(f, int) else first_fault(b, f[1])


def answered(b, items, name):
    """What `ask` says from a file's items: the first record of the name, whatever else stands in the file, and beside it the check's number of the whole
    file; else 5 only if the file passes the check; else what the check says."""
    said = first_fault(b, items)
    number = said.split(" ")[0]
    for i in items:
        if i[0] == "r" and b[i[2]:i[2] + i[3]] == name:
            return f"0 {i[1]} {i[2]} {i[3]} {i[4]} {number}"
    return "5" if number == "0" else said


# ---- Edits and merge

def edits_of(e, kind):
    """(edits, None) or (.., (number, place)); an edit is (place, name, id or None, peeled id or None)."""
    n = DIGITS[kind] // 2
    out, at = [], 0
    while at < len(e):
        start = at
        if len(out) == LIMIT:
            return out, (9, start)
        if e[at] > 2:
            return out, (7, start)
        ids, at = e[at], at + 1
        if at == len(e):
            return out, (7, start)
        size, at = e[at], at + 1
        if size > 127:
            if at == len(e) or e[at] == 0 or e[at] > 127:
                return out, (7, start)
            size, at = (size & 127) + e[at] * 128, at + 1
        if size == 0 or size > LIMIT:
            return out, (8, start)
        if at + size + ids * n > len(e):
            return out, (7, start)
        name = e[at:at + size]
        if not valid(name):
            return out, (8, start)
        at += size
        out.append((start, name) + tuple(e[at + i * n:at + i * n + n] if i < ids else None for i in (0, 1)))
        at += ids * n
    return out, None


def records_of(b, kind):
    """(id, peeled id or None) of each name in a file that passes the check."""
    n = DIGITS[kind]
    return {b[name_at:name_at + length]: (b[at:at + n], b[peeled_at:peeled_at + n] if peeled_at else None)
            for _, at, name_at, length, peeled_at, _ in file_items(b, kind)[1]}


def merge(kind, old, e, index_len, out_len):
    edits, fault = edits_of(e, kind)
    if fault:
        return f"{fault[0]} {fault[1]} x"
    if index_len < len(edits):
        return "10 x"
    order = sorted(edits, key=lambda x: x[1])
    ix = " x" + "".join(f" {x[0]}" for x in order)
    for a, b in zip(order, order[1:]):
        if a[1] == b[1]:
            return f"11 {b[0]}" + ix
    said = check(kind, old)
    if not said.startswith("0 "):
        return said + ix
    there = records_of(old, kind)
    if not any(x[2] is not None or x[1] in there for x in edits):
        return "13" + ix
    for _, name, target, peeled in edits:
        there.pop(name, None)
        if target is not None:
            there[name] = target.hex().encode(), None if peeled is None else peeled.hex().encode()
    if not there:
        return "14" + ix
    new = b"# pack-refs with: peeled fully-peeled sorted \n" + b"".join(
        i + b" " + n + b"\n" + (b"" if p is None else b"^" + p + b"\n") for n, (i, p) in sorted(there.items()))
    return ("12" if out_len < len(new) else f"0 {len(new)} {new.hex()}") + ix
