"""Inputs for the comparison, as questions that compare/answers.py takes: `short_..` yields every short one over a small alphabet of tokens, the
others yield random ones without an end."""
import itertools
from answers import DIGITS, edit_bytes
from model import BAD, LAST_LINE, valid

PRE = b"# pack-refs with: "
HEX = b"0123456789abcdefABCDEF"
SORTED = b"# pack-refs with: peeled fully-peeled sorted \n"


def words(tokens, most, least=0):
    """Every sequence of at most so many tokens, shortest first."""
    for n in range(least, most + 1):
        for t in itertools.product(tokens, repeat=n):
            yield b"".join(t)


class Make:
    """Random parts."""

    def __init__(self, rnd):
        self.r = rnd

    def one_of(self, *xs):
        return xs[self.r.randrange(len(xs))]

    def kind(self):
        return 2 if self.r.random() < 0.3 else 1

    def digits(self, n):
        r = self.r
        k = r.randrange(3)
        if k == 0:
            return bytes(r.choice(HEX) for _ in range(n))
        return bytes([r.choice(HEX)]) * n

    def id(self, kind, harm=0.1):
        """An id, or one that is nearly so: lengths around 40 and 64, a byte that is no digit."""
        r = self.r
        if r.random() >= harm:
            return self.digits(DIGITS[kind])
        k = r.randrange(4)
        if k == 0:
            return self.digits(r.choice([0, 1, 38, 39, 40, 41, 42, 63, 64, 65, 80]))
        if k == 1:
            return self.digits(DIGITS[3 - kind])
        i = bytearray(self.digits(DIGITS[kind]))
        i[r.choice([0, len(i) - 1, r.randrange(len(i))])] = r.choice(b"gG/:@`\x00\r\n ^\xff")
        return bytes(i)

    def eol(self, harm=0.1):
        r = self.r
        if r.random() < 0.15:
            return b"\r\n"
        return self.one_of(b"\r", b"", b"\n\n", b"\r\r\n", b"\n\r", b" \n", b"\0\n") if r.random() < harm else b"\n"

    def stem(self):
        r = self.r
        return r.choice([b"refs/", b"refs/", b"refs/tags/", b"refs/heads/", b"refs/s/", b"a/", b"a/b/", b"refs/refs/", b"refs/bisect/"]) + bytes(r.choice(b"abcxyz0-.\xc3\xa9") for _ in range(r.randrange(1, 4)))

    def name(self, harm=0.1):
        """A name, or one that breaks a rule. Seldom a long one."""
        r = self.r
        n = self.stem()
        while not valid(n):
            n = self.stem()
        if r.random() < 0.01:
            n += b"x" * (r.choice([15, 16, 17, 31, 32, 33, 127, 128, 129, 255, 256, 300]) - len(n))
        elif r.random() < 0.3:
            # Names are looked at in blocks of eight and sixteen bytes.
            n += b"/" + bytes(r.choice(b"abckxyz059-_") for _ in range(r.choice([6, 7, 8, 9, 10, 11, 14, 15, 16, 17, 22, 23, 24, 25, 26, 27, 30, 38, 39])))
        elif r.random() < 0.0005:
            n += b"/" + b"y" * (r.choice([4094, 4095, 4096, 4097]) - len(n) - 1)
        if r.random() >= harm:
            return n
        k = r.randrange(9)
        if k == 0:
            at = r.randrange(len(n) + 1)
            return n[:at] + bytes([r.choice(b" ~^:?*[\\\x00\x1f\x7f\x80\xff\t@{./")]) + n[at:]
        if k == 1:
            at = self.one_of(0, n.index(b"/"), n.rindex(b"/"), len(n), r.randrange(len(n) + 1))
            return n[:at] + self.one_of(b".lock", b"x.lock", b".lock/", b"/.lock", b"/x.lock", b".lockx", b".lock.x", b".loc", b"lock", b".loc/k", b".Lock") + n[at:]
        return [b"", b"x", n + b".lock", n + b".", n.replace(b"/", b"//", 1), n + b"/", b"/" + n, n + b"@{", n.replace(b"/", b"/.", 1), n + b"/..", b"A", n.replace(b"/", b".lock/", 1)][r.randrange(12)]

    def line(self, kind, harm):
        r = self.r
        if r.random() < harm / 3:
            return self.one_of(b"x\n", b"\n", b"^\n", b"#\n", b"x", b"\r\n", b"\r", b" ", b"\0", PRE + b"sorted\n", b"#\n", b"^" + self.id(kind, harm) + self.eol(harm), self.digits(DIGITS[kind]) + b" \n")
        space = b" " if r.random() >= harm / 3 else self.one_of(b"", b"  ", b"\t", b"\n")
        peeled = b"^" + self.id(kind, harm) + self.eol(harm) if r.random() < 0.25 else b""
        return self.id(kind, harm) + space + self.name(harm) + self.eol(harm) + peeled

    def bad_line(self, kind, name=None):
        """A record of which one part is bad, or two, or three: id, space, name, line end, `^` line."""
        r = self.r
        bad = r.sample(range(5), r.choice([1, 1, 1, 2, 2, 2, 3]))
        digits = self.digits(DIGITS[kind])
        form = lambda part, good, *others: self.one_of(*others) if part in bad else good
        return (form(0, digits, digits[1:], digits[1:] + b"g", b"g" + digits[1:], b"", self.digits(DIGITS[3 - kind]), self.id(kind, 1))
                + form(1, b" ", b"", b"\t", b"0 ", b"\r", b"\n", b"\0", b"_")
                + form(2, self.name(0) if name is None else name, b"", b"refs", b"refs//a", b"refs/a..b", self.name(1), self.name(1))
                + form(3, b"\r\n" if r.random() < 0.2 else b"\n", b"\r", b"", b"\r\r\n", b"\rx\n")
                + form(4, b"^" + digits + b"\n" if r.random() < 0.2 else b"", self.bad_peeled(kind)))

    def bad_peeled(self, kind, ended=False):
        """A `^` line whose id or end is bad; if `ended`, one that is a line of its own."""
        r = self.r
        digits = self.digits(DIGITS[kind])
        texts = [b"", b"zz", digits[1:], digits + b"0", digits[1:] + b"g", digits + b" ", digits + b"\r", digits + b"\rx", self.digits(DIGITS[3 - kind])]
        if ended or r.random() < 0.6:
            return b"^" + r.choice(texts) + b"\n"
        return b"^" + r.choice(texts + [b"", b"", b"", digits, digits, digits])

    def header(self):
        r = self.r
        if r.random() < 0.4:
            return SORTED
        tokens = [self.one_of(b"peeled", b"fully-peeled", b"sorted", b"x", b"", b"Sorted", b"peeled\t", b"sorted\0", b"sor", b"fully-peele", b"sortedx") for _ in range(r.randrange(6))]
        return self.one_of(PRE, PRE, PRE, PRE, PRE, PRE, b"# pack-refs with:", b"#", b"# ", b"# pack-refs with: \t", b"# Pack-refs with: ") + b" ".join(tokens) + self.eol(0.2)

    def records(self, kind, most=7, harm=0.0):
        """The names of records in name order, and the records; with harm, a record's id or peeled line may be bad, never its shape."""
        r = self.r
        if r.random() < 0.002:
            most = 300
        names = sorted({self.name(0) for _ in range(r.randrange(most))})
        e = lambda: b"\r\n" if r.random() < 0.15 else b"\n"
        peeled = lambda: self.bad_peeled(kind, True) if r.random() < harm else b"^" + self.shape_id(kind, harm) + e()
        return names, [self.shape_id(kind, harm) + b" " + n + e() + (peeled() if r.random() < 0.3 else b"") for n in names]

    def rising(self, kind, most=7, harm=0.0):
        names, records = self.records(kind, most, harm)
        return names, b"".join(records)

    def flawed(self, kind, most=7, disorder=0.3):
        """Records in name order or nearly so, bad lines among them, mostly one; and the records' names."""
        r = self.r
        names, lines = self.records(kind, most)
        if lines and r.random() < disorder:
            again = r.choice(lines)
            lines.insert(r.randrange(len(lines) + 1), again)
            if r.random() < 0.5:
                lines.remove(again)
        for _ in range(r.choice([0, 1, 1, 1, 1, 2, 3])):
            # Last is the only place at which a line that is not ended, or a `^`, is the last of the file.
            at = len(lines) if r.random() < 0.3 else r.randrange(len(lines) + 1)
            lines.insert(at, self.bad_line(kind))
        return names, b"".join(lines)

    def shape_id(self, kind, harm):
        i = bytearray(self.digits(DIGITS[kind]))
        if self.r.random() < harm:
            if self.r.random() < 0.3:
                head = self.one_of(b"#", PRE, PRE + b"sorted ")
                return (head + bytes(i))[:len(i)]
            i[self.r.randrange(len(i))] = self.r.choice(b"gG/ \x00^")
        return bytes(i)

    def file(self, kind):
        r = self.r
        head = self.header() if r.random() < 0.5 else b""
        k = r.random()
        if k < 0.25:
            b = self.rising(kind)[1]
        elif k < 0.5:
            b = self.flawed(kind)[1]
        else:
            harm = r.choice([0.02, 0.1, 0.3])
            b = b"".join(self.line(kind, harm) for _ in range(r.randrange(6)))
        return self.damaged(head + b) if r.random() < 0.3 else head + b

    def damaged(self, b):
        """A byte changed, dropped or put in, the file cut, or a part moved."""
        r = self.r
        if not b:
            return b
        at = r.randrange(len(b))
        k = r.randrange(5)
        new = bytes([r.choice(b"\n\r^# /a1\0g")])
        if k == 0:
            return b[:at] + new + b[at + 1:]
        if k == 1:
            return b[:at] + b[at + 1:]
        if k == 2:
            return b[:at] + new + b[at:]
        if k == 3:
            return b[:at]
        end = r.randrange(at, len(b))
        return b[end:] + b[at:end] + b[:at]

    def raw(self, kind):
        n = DIGITS[kind] // 2
        return bytes([self.r.randrange(256)]) * n if self.r.random() < 0.5 else self.r.randbytes(n)

    def edit(self, kind, name):
        k = self.r.randrange(3)
        return [("d", name), ("u", name, self.raw(kind)), ("u", name, self.raw(kind), self.raw(kind))][k]


def short_headers():
    yield from (("h", 1, b) for b in words([b"#", PRE, b" ", b"peeled", b"fully-peeled", b"sorted", b"x", b"\n", b"\r"], 4))
    yield from (("h", 1, PRE + b) for b in words([b" ", b"peeled", b"fully-peeled", b"sorted", b"x", b"\n", b"\r"], 5))


def headers(m):
    while True:
        yield "h", 1, m.file(1) if m.r.random() < 0.5 else m.header() + m.one_of(b"", b"\n", b"#", b"1")


def short_names():
    yield from (("n", 1, b) for b in words([bytes([c]) for c in b"a/.@{A"] + [b".lock"], 6))
    yield from (("n", 1, form % c) for c in [bytes([i]) for i in range(256)] for form in (b"a/%b", b"a/%ba", b"a/a%b", b"%ba/a", b"a%b/a", b"a/a%b%%", b"%b"))
    # Names of one, two and three blocks: any byte, and each word that a rule is about, at any place.
    for long in (b"refs/sent/ward4/o", b"refs/sent/ward4/o118/e3/x-12_a.b", b"refs/sent/ward4/o118/e3/x-12_a.bc", b"a-name-without-refs/sent/ward4/o118/e3/x-12_a.bcd"):
        yield from (("n", 1, long[:at] + bytes([i]) + long[at + 1:]) for at in range(len(long)) for i in range(256))
        yield from (("n", 1, long[:at] + w + long[at:]) for at in range(len(long) + 1) for w in (b"//", b"..", b"/.", b"./", b"@{", b".lock", b".lock/", b"k/", b"/", b"."))


def names(m):
    while True:
        n = m.name(0.7)
        yield "n", 1, m.damaged(n) if m.r.random() < 0.3 else n


def parts_of_a_record(kind):
    """Of each part good forms and bad ones: id, space, name, line end, what follows it."""
    n = DIGITS[kind]
    one, two = b"1" * n, b"2" * n
    return ([one, one[1:], one[1:] + b"g", b"", b"1" * DIGITS[3 - kind]], [b" ", b"", b"\t", b"1 "], [b"refs/h", b"", b"refs", b"refs//h"],
            [b"\n", b"\r\n", b"\r", b"", b"\r\r\n"],
            [b"", b"^" + two + b"\n", b"^" + two + b"\r\n", b"^", b"^\n", b"^" + two[1:] + b"\n", b"^" + two + b"2\n", b"^" + two, b"^" + two + b"\r", b"^zz\n"])


def short_bad_records():
    """Every combination of these forms, so every pair of bad parts too: alone, behind a record and before one. (kind, bytes, the records' names)"""
    for kind in (1, 2):
        before, behind = (b"3" * DIGITS[kind] + b" refs/%b\n" % name for name in (b"g", b"i"))
        for forms in itertools.product(*parts_of_a_record(kind)):
            b = b"".join(forms)
            yield from ((kind, b, [b"refs/h"]), (kind, before + b, [b"refs/g", b"refs/h"]), (kind, b + behind, [b"refs/h", b"refs/i"]))


def faulty_records(kind):
    """A record of the name `refs/h` with each one of the faults 41 to 45 and each two of them, three of each: (the faults, the record)."""
    digits = b"1" * DIGITS[kind]
    for faults in [*itertools.combinations(BAD, 1), *itertools.combinations(BAD, 2)]:
        part = lambda fault, form, good: form if fault in faults else good
        for id, space, name, end, peeled in (
                (digits[1:], b"", b"", b"\r\r\n", b"^zz\n"), (digits[1:] + b"g", b"\t", b"refs", b"\r", b"^"),
                (b"", b"0 ", b"refs//h", b"\rx\n" if 45 in faults else b"", b"^" + digits + b"0\n")):
            yield faults, part(41, id, digits) + part(42, space, b" ") + part(44, name, b"refs/h") + part(43, end, b"\n") + part(45, peeled, b"")


def tokens(kind):
    n = DIGITS[kind]
    return [b"1" * n, b"2" * (n - 1), b" ", b"a/b", b"a/a", b"\n", b"\r", b"^", b"x"]


def short_files(op):
    yield from ((op, 1, b) for b in words([b"x", b"\n", b"\r", b"^", b"#", b" "], 5))
    yield from ((op, 1, b"1" * 40 + b) for b in words(tokens(1), 5))
    yield from ((op, 2, b"1" * 64 + b) for b in words(tokens(2), 4))
    # Every sequence of good and bad lines.
    for kind in (1, 2):
        n = DIGITS[kind]
        lines = [b"1" * n + b" a/a\n", b"2" * n + b" a/b\r\n", b"^" + b"3" * n + b"\n", b"^" + b"3" * (n - 1) + b"\n", b"x\n", PRE + b"sorted\n", b"4" * n + b" a/c"]
        yield from ((op, kind, b) for b in words(lines, 4))
    # A record whose parts have every length around theirs.
    for kind in (1, 2):
        for i in range(37, 68):
            for j in (39, 40, 41, 63, 64, 65):
                for e in (b"\n", b"\r\n", b"\r", b""):
                    yield op, kind, b"a" * i + b" a/b" + e + b"^" + b"B" * j + e
    # Records of several blocks of eight and sixteen bytes, the second with one other byte at any place.
    for kind in (1, 2):
        n = DIGITS[kind]
        first, second = b"1a" * (n // 2) + b" refs/sent/ward4/o118/e2\n", b"0F" * (n // 2) + b" refs/sent/ward4/o118/e3-x\n^" + b"9c" * (n // 2) + b"\n"
        for at in range(len(second)):
            for byte in b"\0\t\n\x0b\r\x0e\x1f !-./09:@AFG[^`afgkz{~\x7f\x80\xff":
                yield op, kind, first + second[:at] + bytes([byte]) + second[at + 1:]
    yield from ((op, kind, b) for kind, b, _ in short_bad_records())


def files(op):
    def make(m):
        while True:
            kind = m.kind()
            yield op, kind, m.file(kind)
    return make


def any_line(m):
    """A line number for a walk: any will do, not the true one alone."""
    return m.one_of(0, 1, 2, 7, 2 ** 32, 2 ** 63, LAST_LINE - 2, LAST_LINE - 1, LAST_LINE, m.r.randrange(LAST_LINE))


def short_steps(op):
    """Every place of short files and of every line of a few longer ones. A walk's line numbers are the least and the greatest."""
    files = [(1, b) for b in words([b"x", b"\n", b"\r", b"^", b"#"], 4)]
    for kind in (1, 2):
        one, two = (c * DIGITS[kind] for c in (b"1", b"2"))
        lines = [one + b" a/a\n", b"^" + two + b"\r\n", b"x\n", one + b" a/b"]
        files += [(kind, b) for b in words(lines, 3, 1)]
    for kind, b in files:
        for at in range(len(b) + 2):
            yield from ((op, kind, b, at, line) for line in (0, LAST_LINE - 1, LAST_LINE)) if op == "w" else [(op, kind, b, at)]


def steps(op):
    """A step at any place: where lines start, inside them, at the end and beyond it."""
    def make(m):
        rnd = m.r
        while True:
            kind = m.kind()
            b = m.file(kind)
            k = rnd.random()
            if k < 0.5:
                at = rnd.choice([0] + [i + 1 for i, c in enumerate(b) if c == 10])
            elif k < 0.95:
                at = rnd.randrange(len(b) + 1)
            else:
                at = m.one_of(len(b), len(b) + 1, 2 ** 32, 2 ** 63, 2 ** 64 - 1)
            yield (op, kind, b, at, any_line(m)) if op == "w" else (op, kind, b, at)
    return make


def short_starts():
    for b in words([b"x", b"\n", b"^", b"\r"], 6):
        for at in range(len(b) + 2):
            yield "s", 1, b, at


def starts(m):
    while True:
        b = m.file(m.kind())
        yield "s", 1, b, m.r.randrange(len(b) + 1) if m.r.random() < 0.95 else m.one_of(len(b), len(b) + 1, 2 ** 32, 2 ** 63, 2 ** 64 - 1)


def short_sought(op):
    """Every file of some of six records, each with a peeled line or none, and every name or prefix around them."""
    there = [b"a/a", b"a/ab", b"a/b", b"b/a", b"b/b", b"b/\xff"]
    wanted = there + [b"a/0", b"a/aa", b"a/c", b"b/", b"b/ab", b"c/c", b"", b"a", b"a/", b"b", b"\xff", b"0"]
    for kind in (1, 2):
        n = DIGITS[kind]
        for which in itertools.product(range(3), repeat=len(there)):
            b = b"".join(b"1" * n + b" " + x + b"\n" + (b"^" + b"2" * n + b"\n" if w == 2 else b"") for x, w in zip(there, which) if w)
            for name in wanted:
                yield op, kind, b, name
    for kind, b, there in short_bad_records():
        for name in [b""] if op == "p" else there:
            yield op, kind, b, name


def sought(op):
    """A lookup or a listing: names that are there, names beside them, prefixes of them; some bad records whose shape can be read, some bytes of one line, now
    and then bytes that are not in order."""
    def make(m):
        rnd = m.r
        while True:
            kind = m.kind()
            there, b = m.rising(kind, 12, rnd.choice([0, 0, 0, 0.05, 0.4]))
            if rnd.random() < 0.1:
                there = [m.name(0)]
                b = m.bad_line(kind, there[0])
            elif rnd.random() < 0.1:
                b = m.damaged(b)
            elif there and rnd.random() < 0.05 and not b.split(b"\n")[-2].startswith(b"^"):
                b += m.bad_peeled(kind)
            k = rnd.randrange(5)
            if there and k < 3:
                n = rnd.choice(there)
                if op == "p":
                    n = n[:rnd.randrange(len(n) + 1)]
                elif k == 2:
                    n = m.one_of(n + b"x", n[:-1], n + b"\x80", n[:-1] + bytes([n[-1] ^ 1]), n + b"/a")
            else:
                n = m.name(0.2) if op == "f" or k == 3 else m.one_of(b"", b"r", b"refs/", b"refs/t", b"\xff", b"\0", b"a/", b"z", b"refs/tags/a\n")
            yield op, kind, b, n
    return make


def asks(m):
    rnd = m.r
    while True:
        kind = m.kind()
        k = rnd.random()
        if k < 0.3:
            there, b = m.rising(kind, 8)
            b = m.one_of(b"", SORTED, m.header()) + b
            if rnd.random() < 0.3:
                b = m.damaged(b)
        elif k < 0.7:
            there, b = m.flawed(kind, 6)
            b = m.one_of(b"", SORTED) + b
        else:
            there, b = [], m.file(kind)
        yield "a", kind, b, rnd.choice(there) if there and rnd.random() < 0.7 else m.name(0.1)


def short_merges():
    """Every way in which three names are in the old file and in the edits, every order of the edits."""
    names = [b"refs/a", b"refs/b", b"refs/c"]
    for kind in (1, 2):
        n = DIGITS[kind]
        for head in (b"", SORTED):
            for held in itertools.product(range(3), repeat=3):
                old = head + b"".join(b"1" * n + b" " + x + b"\n" + (b"^" + b"2" * n + b"\n" if w == 2 else b"") for x, w in zip(names, held) if w)
                for done in itertools.product(range(4), repeat=3):
                    edits = [("d" if w == 1 else "u", x) + (b"\x33" * (n // 2), b"\x44" * (n // 2))[:w - 1] for x, w in zip(names, done) if w]
                    for order in itertools.permutations(edits):
                        yield "m", kind, old, list(order), 3, 500
    yield from short_flawed_merges()


def short_flawed_merges():
    """One update of an old file with a bad record."""
    for kind, old, _ in short_bad_records():
        yield "m", kind, old, [("u", b"refs/j", b"\x55" * (DIGITS[kind] // 2))], 1, 500


def merges(m):
    """An old file, mostly in order, and edits of names that are there and of others."""
    rnd = m.r
    while True:
        kind = m.kind()
        there, b = m.flawed(kind, 8, 0.05) if rnd.random() < 0.2 else m.rising(kind, 8)
        pool = list(dict.fromkeys(there + [m.name(0) for _ in range(rnd.randrange(4))]))
        rnd.shuffle(pool)
        edits = [m.edit(kind, n) for n in pool[:rnd.randrange(len(pool) + 1)]]
        if rnd.random() < 0.4:
            edits = [e if e[1].startswith(b"refs/") else ("u", e[1], m.raw(kind)) for e in edits]
        if rnd.random() < 0.05:
            edits = [("d", n) for n in there]
        if rnd.random() < 0.05 and edits:
            i = rnd.randrange(len(edits))
            edits[i] = m.edit(kind, m.name(1) or b"x")
        old = m.one_of(b"", SORTED, m.header(), PRE + b"sorted\n", PRE + b"peeled\n") + b
        k = rnd.random()
        if k < 0.1:
            old = m.damaged(old)
        elif k < 0.2:
            old += m.line(kind, 0.5)
        size = len(edits) + rnd.choice([0, 0, 1, 3])
        yield "m", kind, old, edits, size, 46 + 2 * len(old) + sum(140 + len(e[1]) for e in edits)


def short_contents():
    yield from (("l", 1, b) for b in words([b"ref: ", b" ", b"a/b", b"1" * 40, b"2" * 39, b"g", b"\0", b"\r", b"\n", b".lock", b".lock/c"], 4))
    yield from (("l", 2, b) for b in words([b"ref: ", b"a/b", b"1" * 64, b"1" * 63, b"a", b"g", b"\n"], 4))


def contents(m):
    while True:
        kind = m.kind()
        c = m.one_of(b"ref: ", b"ref: ", b"ref:", b"ref:  ", b"ref: \t", b"Ref: ", b"", m.id(kind, 0.4), m.id(kind, 0.4))
        c += m.one_of(m.name(0.3), m.name(0.3), b"", b" ", m.id(kind, 0.3)) + m.one_of(b"", b"\n", b"\r\n", b"\r", b"\0z", b" \n", b"g", b"\nref: a/b\n", b"0")
        yield "l", kind, m.damaged(c) if m.r.random() < 0.1 else c


# ---- Added by the port: edit lists as bytes. The Rust has nothing to compare with; the model is compare/model.py's.

def lists(m):
    """The edits are bytes, not a list; the index and the output may be too short."""
    rnd = m.r
    n = 0
    while True:
        n += 1
        kind = m.kind()
        there, b = m.flawed(kind, 4) if rnd.random() < 0.15 else m.rising(kind, 4)
        pool = there + [m.name(0.05) or b"x" for _ in range(rnd.randrange(4))]
        rnd.shuffle(pool)
        edits = [m.edit(kind, x) for x in pool]
        if rnd.random() < 0.2 and edits:
            edits.insert(rnd.randrange(len(edits)), m.edit(kind, rnd.choice(edits)[1]))
        if rnd.random() < 0.05:
            x = m.stem()
            edits.append(m.edit(kind, x + b"x" * (rnd.choice([126, 127, 128, 129, 4095, 4096, 4097, 8191, 16383]) - len(x))))
        e = edit_bytes(edits)
        k = rnd.random()
        if k < 0.4:
            e = m.damaged(e)
        elif k < 0.5:
            x = m.stem()
            i = rnd.randrange(len(edits) + 1)
            size = m.one_of(bytes([len(x) | 128, 0]), bytes([128, 128]), bytes([128, 33]), bytes([0]), bytes([128, 32]), bytes([128]), bytes([255, 255, 1]), bytes([129, 32]))
            e = edit_bytes(edits[:i]) + bytes([rnd.randrange(4)]) + size + x + m.raw(kind) + edit_bytes(edits[i:])
        if n % 2000 == 0:
            count = rnd.choice([4095, 4096, 4097])
            e = edit_bytes([("d", b"a/%d" % i) for i in range(count)]) + (m.one_of(b"", b"\x07") if count == 4096 else b"")
        old = m.one_of(b"", SORTED, m.header()) + b
        if rnd.random() < 0.2:
            old = m.damaged(old)
        full = 46 + 2 * len(old) + len(e) * 8
        yield "m", kind, old, e, rnd.choice([len(edits), len(edits) + 2, max(0, len(edits) - 1), 5000]), rnd.choice([full, full, full, rnd.randrange(200)])
