"""What the Rust answers, in the one-line form that compare/ours.c and the vectors use (compare/README.md), and which inputs lie outside the
domain that both sides share. A question is (operation, kind, lent bytes and numbers ..); a merge's edits are a list of tuples.

The Rust has one error for all bad records. So it judges where a record is bad and what the error covers, the model has to say the same, and which part is
bad (41 to 45) is the model's word. The Rust numbers items, and cuts its texts: line and text are the model's word too, and what the Rust has to say of such an
error is worked out from them (`as_the_rust`) and held to what it says."""
import itertools, re
from model import BAD, DIGITS, LF, answered, first_fault, item, line_of, record, spelled, spelled_prefix, spelled_step, spelled_walk


def hexed(b):
    return b.hex() or "-"


def edit_bytes(edits):
    """The edit list as bytes: document 01, 'Edits and merge'."""
    out = bytearray()
    for e in edits:
        n = len(e[1])
        out.append({"d": 0, "u": len(e) - 2}[e[0]])
        out += bytes([n]) if n < 128 else bytes([n & 127 | 128, n >> 7])
        out += b"".join(e[1:])
    return bytes(out)


def edit_places(edits):
    out, at = [], 0
    for e in edits:
        out.append(at)
        at += len(edit_bytes([e]))
    return out


def ours_line(q):
    """The question to compare/ours.c."""
    op, kind, *rest = q
    return f"{op} {kind} " + " ".join(str(x) if isinstance(x, int) else hexed(edit_bytes(x) if isinstance(x, list) else x) for x in rest)


def asked(q):
    """The questions to the oracle: a list of fields each."""
    op, kind, *rest = q
    b = rest[0].hex()
    if op == "h":
        return [{"op": "header", "bytes": b}]
    if op == "n":
        return [{"op": "name", "name": b}]
    if op in "ic":
        return [{"op": "iter", "bytes": b, "kind": kind}]
    if op in "tw":
        # The Rust has no step from a place. The line feed is an error of its own, so that what stands there is not taken for a header.
        return [{"op": "iter", "bytes": (LF + rest[0][rest[1]:]).hex(), "kind": kind}]
    if op == "s":
        # Beyond the end the Rust panics, and document 01 takes the end.
        return [{"op": "record_start", "bytes": b, "at": min(rest[1], len(rest[0]))}]
    if op == "f":
        return [{"op": o, "bytes": b, "name": rest[1].hex(), "kind": kind} for o in ("find", "search")]
    if op == "p":
        return [{"op": "iter_prefixed", "bytes": b, "prefix": rest[1].hex(), "kind": kind}, {"op": "search", "bytes": b, "name": rest[1].hex(), "kind": kind}]
    if op == "m":
        edits = [[e[0]] + [x.hex() for x in e[1:]] for e in rest[1]]
        return [{"op": "merge", "old": b, "edits": edits, "kind": kind}, {"op": "iter", "bytes": b, "kind": kind}]
    if op == "l":
        return [{"op": "loose", "contents": b, "kind": kind}]
    if op == "a":
        return [{"op": "iter", "bytes": b, "kind": kind}, {"op": "name", "name": rest[1].hex()}]
    raise ValueError(op)


class Odd(Exception):
    """The Rust's answer has no place in the form: a finding."""


def need(fact, what):
    if not fact:
        raise Odd(what)


def record_at(b, kind, at, item):
    """A record of the Rust at a place: its parts' places and the place behind. The Rust hands out bytes; here they are found again."""
    n = DIGITS[kind]
    name = bytes.fromhex(item["name"])
    need(item["at"] == at and b[at:at + n].hex() == item["target"] and b[at + n:at + n + 1] == b" ", "id of a record")
    need(b.startswith(name, at + n + 1), "name of a record")
    end = b.index(b"\n", at + n + 1 + len(name)) + 1
    need(b[at + n + 1 + len(name):end] in (b"\n", b"\r\n"), "line end of a record")
    peeled = 0
    if item["peeled"] is not None:
        need(b[end:end + 1] == b"^" and b[end + 1:end + 1 + n].hex() == item["peeled"], "peeled id of a record")
        peeled = end + 1
        end = b.index(b"\n", peeled + n) + 1
        need(b[peeled + n:end] in (b"\n", b"\r\n"), "line end of a peeled id")
    return at, at + n + 1, len(name), peeled, end


def why_bad(b, kind, at):
    """The model's word on a record that the Rust can't read."""
    why = record(b, kind, at)
    need(why in BAD, "an error of the Rust where the model reads a record")
    return why


def as_the_rust(b, error, uncounted):
    """What the Rust says of an error of ours. Its number is the line less the lines that it doesn't count. Its text lacks the last of the bytes that the error
    covers: the LF, or in a last line that is not ended a byte of the line itself."""
    _, at, _, line, length, end = error
    text = b[at:at + length]
    return {"err": line - uncounted, "line": (text if at + length < end else text[:-1]).hex()}


def items_of(b, kind, place, number, items):
    """The Rust's items in the form of the model's; each begins where the one before ends. The Rust counts items, from that number on: it does not count the
    lines before, nor a record's `^` line."""
    uncounted = line_of(b, place) - number
    out = []
    for i in items:
        if "err" in i:
            why_bad(b, kind, place)
            out.append(item(b, kind, place))
            need(i == as_the_rust(b, out[-1], uncounted), "an error's number or text")
        else:
            r = record_at(b, kind, place, i)
            need(record(b, kind, place) == r[1:], "a record of the Rust that the model reads otherwise")
            out.append(("r",) + r)
            uncounted += i["peeled"] is not None
        place = out[-1][-1]
    return out


def item_at(b, kind, place, items):
    """What the Rust's iteration gives first from a place on, behind the line feed that was put before; None at an end."""
    need(items[0] == {"err": 1, "line": ""}, "the line feed before a place")
    first = [dict(i, at=i["at"] - 1 + place) if "at" in i else i for i in items[1:2]]
    need(bool(first) == (place < len(b)), "an item or none")
    return items_of(b, kind, place, 2, first)[0] if first else None


def behind_header(b, at=0):
    return b.index(b"\n", at) + 1 if b[at:at + 1] == b"#" else at


def first_line(b, line, at=0):
    need(b[at:].hex().startswith(line), "number 2's text")
    return len(line) // 2


def first_number(place, start=0):
    """The Rust's number of the first item: a header is an item too."""
    return 1 if place == start else 2


def file_items(b, kind, a):
    """(place, items) of a whole file, or the length of number 2's text."""
    if a["r"] == "header":
        return first_line(b, a["line"])
    place = behind_header(b)
    out = items_of(b, kind, place, first_number(place), a["items"])
    need((out[-1][-1] if out else place) == len(b), "bytes behind the last item")
    return place, out


def check(b, kind, a):
    f = file_items(b, kind, a)
    return f"2 {f}" if isinstance(f, int) else first_fault(b, f[1])


def index_text(edits):
    places = edit_places(edits)
    order = sorted(range(len(edits)), key=lambda i: edits[i][1])
    return " x" + "".join(f" {places[i]}" for i in order)


def expected(q, answers):
    op, kind, *rest = q
    b = rest[0]
    a = answers[0]
    for x in answers:
        need(x["r"] not in ("panics", "bad_question"), x["r"])
    if op == "h":
        if a["r"] == "err":
            return f"2 {first_line(b, a['line'])}"
        return f"0 {['Unspecified', 'Partial', 'Fully'].index(a['peeled'])} {int(a['sorted'])} {a['behind']}"
    if op == "n":
        return "0" if a["valid"] else "3"
    if op == "i":
        f = file_items(b, kind, a)
        return f"2 {f}" if isinstance(f, int) else spelled(b, *f)
    if op in "tw":
        first = item_at(b, kind, rest[1], a["items"])
        return spelled_step(b, first) if op == "t" else spelled_walk(b, first, rest[2])
    if op == "s":
        return str(a["at"])
    if op == "c":
        return check(b, kind, a)
    if op == "f":
        if a["r"] == "found":
            r = record_at(b, kind, a["record"]["at"], a["record"])
            need(answers[1] == {"r": "hit", "at": r[0]}, "search and find")
            return f"0 {r[0]} {r[1]} {r[2]} {r[3]}"
        if a["r"] == "parse":
            at = answers[1]["at"]
            return f"{why_bad(b, kind, at)} {at}" if answers[1]["r"] == "hit" else "4"
        return {"notfound": "5", "name": "3"}[a["r"]]
    if op == "p":
        at = answers[1]["at"]
        if a["r"] == "header":
            return f"2 {at} {first_line(b, a['line'], at)}"
        place = behind_header(b, at)
        return spelled_prefix(b, place, items_of(b, kind, place, first_number(place, at), a["items"]))
    if op == "m":
        if a["r"] == "name":
            return f"8 {edit_places(rest[1])[a['edit']]} x"
        ix = index_text(rest[1])
        if a["r"] == "open_header":
            return check(b, kind, answers[1]) + ix
        if a["r"] in ("iteration", "open_iter"):
            # Here the Rust counts from 1 behind the header.
            place, items = file_items(b, kind, answers[1])
            before = list(itertools.takewhile(lambda i: i[0] == "r", items))
            error = as_the_rust(b, items[len(before)], (place > 0) + sum(i[4] > 0 for i in before))
            need(a["error"] == {"r": "reference", "number": error["err"], "line": error["line"]}, "a merge's error")
            return first_fault(b, items) + ix
        if a["r"] == "written":
            return f"0 {len(a['bytes']) // 2} {a['bytes']}" + ix
        need(a["r"] in ("nothing", "removed"), a["r"])
        return {"nothing": "13", "removed": "14"}[a["r"]] + ix
    if op == "l":
        n = DIGITS[kind]
        if a["r"] == "id":
            need(b[:n].lower().decode() == a["id"], "a loose id")
            return f"0 1 0 {n}"
        if a["r"] == "symbolic":
            at = 5 + len(b[5:]) - len(b[5:].lstrip(b" "))
            need(b[at:].hex().startswith(a["name"]), "a symbolic target")
            return f"0 2 {at} {len(a['name']) // 2}"
        return {"parse": "15", "name": "16"}[a["r"]]
    if op == "a":
        if not answers[1]["valid"]:
            return "3"
        f = file_items(b, kind, a)
        return f"2 {f}" if isinstance(f, int) else answered(b, f[1], rest[1])
    raise ValueError(op)


# ---- What lies outside the shared domain. Each rule stands for a row of docs/DIFFERENCES.md.

ONE_LEVEL = re.compile(rb"[A-Z_]+")


def odd_name(name):
    return "a name of one level" if ONE_LEVEL.fullmatch(name) else None


def odd_file(b, kind):
    """A line whose name is judged otherwise. Records begin at line starts alone, so lines are enough."""
    if not re.search(rb" [A-Z_]+\r?\n", b):
        return None
    n = DIGITS[kind]
    for line in b.split(b"\n"):
        if line[n:n + 1] == b" ":
            why = odd_name(line[n + 1:].removesuffix(b"\r"))
            if why:
                return why
    return None


def ordered_by_shape(b, kind):
    """Whether every probe meets a shape that reads, and the names rise: then every search gives the same answer. Other bytes are unchecked bytes, on
    which the two sides probe other places."""
    n = DIGITS[kind]
    *lines, rest = b.split(b"\n")
    if rest.startswith(b"^"):
        # Not ended, but a probe in it reads the line before.
        lines.append(rest)
    elif rest:
        return False
    last, may_be_peeled = b"", False
    for line in lines:
        if line.startswith(b"^"):
            if not may_be_peeled:
                return False
            may_be_peeled = False
            continue
        name = line[n + 1:].removesuffix(b"\r")
        if line[n:n + 1] != b" " or b"\r" in name or not last < name:
            return False
        last, may_be_peeled = name, True
    return True


def one_line(b):
    """Whether every probe reads the same line: then it doesn't matter which places are probed."""
    return b"\n" not in b[:-1]


def outside(q, answers):
    """Why a question is not compared, or None."""
    op, kind, *rest = q
    b = rest[0]
    if op == "n":
        return odd_name(b)
    if op == "l":
        m = re.match(rb"ref:  *([^\0\r\n]*)", b)
        return odd_name(m.group(1)) if m else None
    if op in "hs":
        return None
    # A record may begin at the place of a step, inside a line.
    why = odd_file(b[rest[1]:] if op in "tw" else b, kind)
    if why:
        return why
    if op in "fa" and odd_name(rest[1]):
        return odd_name(rest[1])
    if op in "fp" and not ordered_by_shape(b, kind) and not one_line(b):
        return "unchecked bytes"
    if op == "m":
        edits = rest[1]
        for e in edits:
            if odd_name(e[1]):
                return odd_name(e[1])
            if len(e[1]) > 4096:
                return "an edit name over 4,096 bytes"
        if len({e[1] for e in edits}) < len(edits):
            return "two edits of one name"
        number = int(check(b, kind, answers[1]).split(" ")[0])
        if number == 6:
            return "names out of order or repeated"
        if number in BAD and not any(e[0] == "u" for e in edits):
            return "a damaged file and no update"
        if b[:1] == b"#" and number in BAD and b[behind_header(b):][:1] == b"#":
            return "a second header line"
        if number == 0 and any(e[0] == "d" and (not e[1].startswith(b"refs/") or e[1].startswith(b"refs/worktree/")) for e in edits):
            return "a delete looked up as a partial name"
    return None
