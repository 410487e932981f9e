#!/usr/bin/env python3
"""answers.py DIR: writes DIR/data/questions and DIR/stdout for crates/replay (vectors/README.md says how). ORACLE: the oracle's program. GIT_VERIFY: a Git
whose `git refs verify` reads packed-refs."""
import collections, itertools, json, os, random, subprocess, sys

sys.path.insert(0, os.path.join(os.path.dirname(os.path.abspath(__file__)), "..", "compare"))
import git_names, git_verify, inputs, model
from answers import asked, edit_bytes, expected, outside
from compare import told_beside

LF = b"\n"
# Operation, title, every short input, random ones, how many lines of each.
GROUPS = [
    ("header", inputs.short_headers(), inputs.headers, 120, 130), ("name", inputs.short_names(), inputs.names, 100, 100),
    ("iteration", inputs.short_files("i"), inputs.files("i"), 200, 300), ("check", inputs.short_files("c"), inputs.files("c"), 150, 250),
    ("record start", inputs.short_starts(), inputs.starts, 120, 80), ("lookup", inputs.short_sought("f"), inputs.sought("f"), 100, 250),
    ("prefix listing", inputs.short_sought("p"), inputs.sought("p"), 100, 150), ("merge", inputs.short_merges(), inputs.merges, 150, 300),
    ("loose", inputs.short_contents(), inputs.contents, 100, 150), ("ask", inputs.short_sought("a"), inputs.asks, 50, 150),
]
STEPS = [
    ("step at a place", inputs.short_steps("t"), inputs.steps("t"), 60, 140), ("walk from a line", inputs.short_steps("w"), inputs.steps("w"), 60, 140),
]


def asked_of(q, answer):
    """A question and its answer: the line but for its number, the bytes that it lends, and what the program prints for it."""
    op, kind, *rest = q
    lent = [edit_bytes(x) if isinstance(x, list) else x for x in rest if not isinstance(x, int)]
    numbers = [x for x in rest if isinstance(x, int)]
    fields = [kind] + ([len(x) for x in lent] + [0])[:2] + (numbers + [0, 0])[:2]
    if op == "m" and answer.startswith("0 "):
        zero, n, new, more = answer.split(" ", 3)
        said = f"= 0 {n} {more}\n".encode() + bytes.fromhex(new)
    else:
        said = f"= {answer}".encode()
    return f"{op} {' '.join(map(str, fields))}".encode(), b"".join(lent), said


def oracle(questions):
    asks = [asked(q) for q in questions]
    out = subprocess.run([os.environ["ORACLE"]], input="\n".join(json.dumps(x) for a in asks for x in a), check=True, capture_output=True, text=True).stdout
    said = map(json.loads, out.splitlines())
    return [list(itertools.islice(said, len(a))) for a in asks]


def chosen(rnd, questions, count, answer_of):
    """So many, and of each number of answer, and of each number told beside it, a fair share."""
    by = collections.defaultdict(list)
    for q, a in answer_of(questions):
        text = asked_of(q, a)
        if fits(text) and all(x <= 60000 for x in q[2:] if isinstance(x, int) and q[0] == "m"):
            beside = told_beside(q[0], a)
            by[a.split(" ")[0] if q[0] != "s" else "", min(a.count(" e "), 2), min(a.count(" r "), 2), beside[0] if beside else ""].append(text)
    return fair_share(rnd, by, count)


def fits(text):
    """The program has room for so much."""
    return sum(map(len, text)) < 1000


def fair_share(rnd, by, count):
    out = []
    for k in by:
        rnd.shuffle(by[k])
    while len(out) < count and any(by.values()):
        for k in sorted(by):
            if by[k] and len(out) < count:
                out.append(by[k].pop())
    return list(dict.fromkeys(out))


def theirs(questions):
    return [(q, expected(q, said)) for q, said in zip(questions, oracle(questions)) if not outside(q, said)]


def held_to_the_rust(names):
    """Git's answers, of names: the Rust gives the same, but for names of one level."""
    said_by_git = {name: str(number) for name, number in names}
    for (_, _, name), number in theirs([("n", 1, name) for name in said_by_git]):
        if number != said_by_git[name]:
            raise SystemExit(f"{name!r}: Git says {said_by_git[name]}, the Rust {number}")


def long_ones():
    """Names and edits around the limits."""
    for n in (127, 128, 129, 255, 256, 4095, 4096, 4097):
        name = b"refs/" + b"x" * (n - 5)
        yield "f", 1, b"1" * 40 + b" " + name + b"\n", name
        yield "i", 2, b"1" * 64 + b" " + name + b"\r\n^" + b"2" * 64 + b"\n"
        if n <= 4096:
            yield "m", 1, b"1" * 40 + b" " + name + b"\n", [("d", name), ("u", name[:-1] + b"y", b"\x77" * 20)], 2, 50000
            yield "m", 2, b"", [("u", name, b"\x55" * 32, b"\x66" * 32)], 1, 50000


def in_each_place(names):
    """A name in a record, looked up, in an edit, and as a symbolic target."""
    for name in names:
        record = b"1" * 40 + b" " + name + b"\n"
        yield from (("i", 1, record), ("c", 1, record), ("f", 1, record, name), ("a", 1, record, name))
        yield "m", 1, b"", [("u", name, b"\x77" * 20)], 1, 200
        yield "l", 1, b"ref: " + name + b"\n"


def blocks():
    """Bytes are looked at eight and sixteen at a time: a record with one other byte at each place of its id, its name and its peeled id; names that are as long as one block and two, or a
    byte more or less, with each word of the rules at their ends and where blocks meet; and the first two in order, or alike but for one byte."""
    name = b"refs/sent/ward4/o118/e3-x"
    for kind in (1, 2):
        n = model.DIGITS[kind]
        record = b"0F" * (n // 2) + b" " + name + LF + b"^" + b"9c" * (n // 2) + LF
        for at in range(len(record)):
            byte = b"\r\x80g/\n.\x0e\0"[at % 8:at % 8 + 1]
            yield "i", kind, record[:at] + byte + record[at + 1:] + good_record(kind, b"refs/t")
        yield from (("s", kind, record + record, at) for at in range(2 * len(record) + 1))
        for at in range(len(name)):
            yield "c", kind, good_record(kind, name) + good_record(kind, name[:at] + b"z" + name[at + 1:])
            yield "f", kind, good_record(kind, name) + good_record(kind, b"refs/t"), name[:at] + b"z" + name[at + 1:]
    for long in (15, 16, 17, 18, 31, 32, 33, 34, 48, 49, 50):
        for at in sorted({0, 1, 7, 8, 15, 16, 17, 31, 32, 33, long - 2, long - 1, long} & set(range(long + 1))):
            for word in (b"//", b"..", b"/.", b"./", b"@{", b".lock", b".lock/", b"k/", b"\xc3\xa9", b"~"):
                yield "n", 1, (b"refs/" + b"abcde-f0" * 7)[:at] + word + (b"refs/" + b"abcde-f0" * 7)[at:long]


def good_record(kind, name):
    return b"3" * model.DIGITS[kind] + b" " + name + b"\n"


def bad_records():
    """A record with each fault and each two of them: iterated, with a record behind it if its line is ended; checked behind a record; looked up; asked for; in
    a merge."""
    for kind in (1, 2):
        for faults, bad in inputs.faulty_records(kind):
            if model.record(bad, kind, 0) != faults[0]:
                raise SystemExit(f"{bad!r}: the first of {faults} has to count")
            yield "i", kind, bad + (good_record(kind, b"refs/i") if bad.endswith(LF) else b"")
            yield "c", kind, good_record(kind, b"refs/g") + bad
            yield "f", kind, bad, b"refs/h"
            yield "a", kind, bad, b"refs/h"
            yield "m", kind, bad, [("u", b"refs/j", b"\x55" * (model.DIGITS[kind] // 2))], 1, 200


def charted():
    """A record that is there in a file with a fault before it, behind it or on both sides, out of order, twice; and in one without a fault."""
    for kind in (1, 2):
        g, h, i = (good_record(kind, name) for name in (b"refs/g", b"refs/h", b"refs/i"))
        peeled = b"^" + b"4" * model.DIGITS[kind] + b"\r\n"
        bad = [b for faults, b in inputs.faulty_records(kind) if len(faults) == 1 and b.endswith(b"\n")]
        files = [head + b for head in (b"", inputs.SORTED) for b in (
            h, g + h + peeled + i, h + g, i + h + g, g + i + h, h + h, h + peeled + h, h + h + peeled, g + h + i + h, h + g + b"x\n", b"x\n" + h + g)]
        files += [b for x in bad for b in (x + i, g + x, g + x + i, i + g + x, x + i + g, g + x + x)]
        for b in files:
            yield from (("a", kind, b, name) for name in (b"refs/g", b"refs/h", b"refs/i"))


def behind_peeled():
    """A bad line behind five records, four of them peeled: line 11 of a file with a header, and the Rust's number is 7. It ends in LF, in CR LF or with the
    file, or a record follows."""
    for kind in (1, 2):
        peeled = b"^" + b"4" * model.DIGITS[kind] + LF
        records = b"".join(good_record(kind, b"refs/%c" % c) + (b"" if c == b"c"[0] else peeled) for c in b"abcde")
        for head in (b"", inputs.SORTED):
            for bad in (b"x\n", b"x\r\n", b"x", b"x\n" + good_record(kind, b"refs/f")):
                b = head + records + bad
                yield from (("i", kind, b), ("c", kind, b), ("a", kind, b, b"refs/g"), ("t", kind, b, len(head + records)))
                yield "m", kind, b, [("u", b"refs/j", b"\x55" * (model.DIGITS[kind] // 2))], 1, 900


def walks():
    """A walk of each item by its line feeds (a record, one with a `^` line, a bad line and one that is not ended) and at an end, from the least lines and the
    greatest."""
    for kind in (1, 2):
        record, peeled = good_record(kind, b"refs/a"), b"^" + b"4" * model.DIGITS[kind] + b"\r\n"
        for b, at in (record, 0), (record + peeled, 0), (b"x\n", 0), (b"x", 0), (record, len(record)):
            yield from (("w", kind, b, at, line) for line in (0, 1, model.LAST_LINE - 2, model.LAST_LINE - 1, model.LAST_LINE))


def first_faults_by_git(rnd, count):
    """The check of files whose first fault Git names with the same number and line; the line's place and length are counted. Of the rows of
    compare/git_verify.py one may turn them: of a bad `^` line Git names that line, and the record begins a line before."""
    git = git_verify.Git(os.environ["GIT_VERIFY"])
    by = collections.defaultdict(list)
    for kind, b in itertools.islice(git_verify.files(inputs.Make(rnd)), 2000):
        said, walk = model.check(kind, b), model.iteration(kind, b, model.spelled_lines)
        if said.startswith("2 ") or not set(git_verify.Turned(kind, b, said, git_verify.Walked(walk)).rows) <= {"peeled line named"}:
            continue
        for line, number in git.faults(kind, b)[:1]:
            line -= number == 45
            *before, text = b.split(LF)[:line]
            place = sum(len(x) + 1 for x in before)
            question = asked_of(("c", kind, b), f"6 {place}" if number == 6 else f"{number} {place} {line} {len(text)}")
            if fits(question):
                by[number].append(question)
    return fair_share(rnd, by, count)


def main():
    questions, answers, counts = [], [], collections.Counter()

    def comment(text):
        questions.append(f"# {text}\n".encode())
        answers.append(questions[-1])

    def group(title, asked, by):
        comment(title)
        for head, lent, said in dict.fromkeys(asked):
            line = head + b" #%d\n" % (counts["all"] + 1)
            questions.append(line + lent + b"\n")
            answers.append(line + said + b"\n")
            counts.update(["all", by, chr(head[0])])

    def sampled(what, short, make, n_short, n_random):
        rnd = random.Random(f"vectors {what}")
        every = list(short)
        some = rnd.sample(every, min(len(every), 4000))
        asked = chosen(rnd, some, n_short, theirs)
        group(f"{what}, gix-ref 0.67.1", asked + chosen(rnd, list(itertools.islice(make(inputs.Make(rnd)), 6000)), n_random, theirs), "the Rust")

    comment("data/questions has the questions, stdout the answers. Made by vectors/answers.py; vectors/README.md says how to read them.")
    for title, names in git_names.answered():
        held_to_the_rust(names)
        group(title, [asked_of(("n", 1, name), str(number)) for name, number in names], "Git")
    for one in GROUPS:
        sampled(*one)
    group("names and edits around the limits, gix-ref 0.67.1", [asked_of(q, a) for q, a in theirs(list(long_ones()))], "the Rust")
    group("lock names in each place, gix-ref 0.67.1", [asked_of(q, a) for q, a in theirs(list(in_each_place(git_names.LOCKS_IN_EACH_PLACE)))], "the Rust")
    group("bad records: each fault and each two, gix-ref 0.67.1 (that it is bad) and a model of documents 01 and 02 (which part)",
          [asked_of(q, a) for q, a in theirs(list(bad_records()))], "the Rust")
    group("charted in a damaged file, gix-ref 0.67.1 and a model of documents 01 and 02", [asked_of(q, a) for q, a in theirs(list(charted()))], "the Rust")
    group("around blocks of eight and sixteen bytes, gix-ref 0.67.1 and a model of documents 01 and 02", [asked_of(q, a) for q, a in theirs(list(blocks()))], "the Rust")
    group("the first fault of a damaged file, Git's refs verify", first_faults_by_git(random.Random("vectors for Git's verdict"), 120), "Git")
    rnd = random.Random("vectors lists")
    of_model = lambda questions: [(q, model.merge(*q[1:])) for q in questions]
    asked = chosen(rnd, list(itertools.islice(inputs.lists(inputs.Make(rnd)), 6000)), 300, of_model)
    group("what the port adds to the merge (edit lists as bytes, 7 to 12, the index), by a model of documents 01 and 02", asked, "the model")
    for one in STEPS:
        sampled(*one)
    group("a bad line behind peeled ones, gix-ref 0.67.1 and a model of documents 01 and 02", [asked_of(q, a) for q, a in theirs(list(behind_peeled()))], "the Rust")
    group("walks by the least lines and the greatest, gix-ref 0.67.1 and a model of documents 01 and 02", [asked_of(q, a) for q, a in theirs(list(walks()))], "the Rust")
    for name, texts in ("data/questions", questions), ("stdout", answers):
        with open(os.path.join(sys.argv[1], name), "wb") as f:
            f.writelines(texts)
    print(", ".join(f"{k} {v}" for k, v in counts.items()))


if __name__ == "__main__":
    main()
