#!/usr/bin/env python3
"""compare.py [COUNT [SEED]]: feeds the library and the Rust the same inputs, every short one and COUNT random ones an operation within the domain
that both share, and compares every answer. compare/run.sh builds both sides and starts it. OURS and ORACLE: the two programs. SHOW: if
set, the smallest input is told for which a rule that leaves inputs out has to."""
import collections, itertools, json, os, random, subprocess, sys, tempfile
import git_judge, inputs, model
from answers import Odd, asked, expected, ours_line, outside, edit_bytes

BATCH = 20000
# What, every short input, random inputs.
OPERATIONS = [
    ("header", inputs.short_headers(), inputs.headers), ("name", inputs.short_names(), inputs.names),
    ("iteration", inputs.short_files("i"), inputs.files("i")), ("step at a place", inputs.short_steps("t"), inputs.steps("t")),
    ("walk from a line", inputs.short_steps("w"), inputs.steps("w")), ("check", inputs.short_files("c"), inputs.files("c")),
    ("record start", inputs.short_starts(), inputs.starts), ("lookup", inputs.short_sought("f"), inputs.sought("f")),
    ("prefix listing", inputs.short_sought("p"), inputs.sought("p")), ("merge", inputs.short_merges(), inputs.merges),
    ("loose", inputs.short_contents(), inputs.contents), ("ask", inputs.short_sought("a"), inputs.asks),
]


def start(program, lines):
    given, said = tempfile.TemporaryFile(), tempfile.TemporaryFile()
    given.write("\n".join(lines).encode() + b"\n")
    given.seek(0)
    return subprocess.Popen([program], stdin=given, stdout=said), said


def answers(run, count):
    p, said = run
    if p.wait() != 0:
        sys.exit(f"{p.args[0]} failed")
    said.seek(0)
    lines = said.read().decode().splitlines()
    assert len(lines) == count, f"{p.args[0]}: {len(lines)} answers to {count} questions"
    return lines


def both(questions):
    """(question, what the oracle said, what ours said) of each."""
    asks = [asked(q) for q in questions]
    theirs = start(os.environ["ORACLE"], [json.dumps(x) for a in asks for x in a])
    ours = start(os.environ["OURS"], [ours_line(q) for q in questions])
    said = map(json.loads, answers(theirs, sum(map(len, asks))))
    mine = answers(ours, len(questions))
    return [(q, list(itertools.islice(said, len(a))), m) for q, a, m in zip(questions, asks, mine)]


def size(q):
    return sum(len(edit_bytes(x)) if isinstance(x, list) else len(x) for x in q[2:] if not isinstance(x, int))


def tell(q, theirs, mine, raw=None):
    print(f"   input {q!r:.2000}\n   there {theirs:.2000}\n   here  {mine:.2000}" + (f"\n   oracle {json.dumps(raw):.500}" if raw else ""))


def told_beside(op, answer):
    """The numbers that an answer tells beside its own: why each error of an iteration is one, and what fault a file has in which `ask` finds a record."""
    parts = answer.split(" ")
    if op in "iptw":
        return [parts[i + 2] for i, part in enumerate(parts[:-2]) if part == "e"]
    return parts[-1:] if op == "a" and parts[0] == "0" else []


def said_otherwise(answer, said):
    """Of the errors of an iteration on which both agree: where the Rust's number is not the line, and where its text lacks a byte of the line."""
    parts = answer.split(" ")
    ours = [parts[i + 3:i + 5] for i, part in enumerate(parts) if part == "e"]
    theirs = [(i["err"], len(i["line"]) // 2) for i in said.get("items", []) if "err" in i]
    for (line, length), (number, text) in zip(ours, theirs):
        if int(line) != number:
            yield "number"
        if int(length) != text:
            yield "text"


def counted(numbers):
    return ", ".join(f"{k}: {v}" for k, v in sorted(numbers.items(), key=lambda x: (len(x[0]), x[0])))


class Tally:
    def __init__(self):
        self.n, self.wrong, self.least = 0, 0, None
        self.numbers, self.beside, self.otherwise = collections.Counter(), collections.Counter(), collections.Counter()
        # Of each rule: inputs left out, how many of them differ, the smallest that does.
        self.left = {}

    def add(self, q, theirs, mine, raw=None):
        self.n += 1
        self.numbers["a place" if q[0] == "s" else mine.split(" ", 1)[0]] += 1
        self.beside.update(told_beside(q[0], mine))
        if theirs != mine:
            self.wrong += 1
            if self.least is None or size(q) < size(self.least[0]):
                self.least = q, theirs, mine, raw
        elif q[0] == "i":
            self.otherwise.update(said_otherwise(mine, raw[0]))

    def leave(self, why, q, theirs, mine):
        n, differ, least = self.left.get(why, (0, 0, None))
        if theirs != mine:
            differ += 1
            if least is None or size(q) < size(least[0]):
                least = q, theirs, mine
        self.left[why] = n + 1, differ, least

    def report(self, what):
        """Whether all agree."""
        print(f"{what}: {self.n} compared, {self.wrong} differ\n   answers by number: {counted(self.numbers)}")
        if self.beside:
            print(f"   {'faults beside 0' if what == 'ask' else 'errors by reason'}: {counted(self.beside)}")
        if self.otherwise:
            print(f"   errors whose number in the Rust is not their line: {self.otherwise['number']}; whose text there lacks a byte: {self.otherwise['text']}")
        for why, (n, differ, least) in sorted(self.left.items(), key=lambda x: -x[1][0]):
            print(f"   outside the shared domain: {n}, of them {differ} differ: {why}")
            if least and "SHOW" in os.environ:
                tell(*least)
        sys.stdout.flush()
        if self.least:
            tell(*self.least)
        return self.wrong == 0


def batches(source):
    while batch := list(itertools.islice(source, BATCH)):
        yield batch


def compare_batch(t, batch):
    for q, said, mine in both(batch):
        why = outside(q, said)
        try:
            theirs = expected(q, said)
        except Odd as odd:
            theirs = f"odd: {odd}"
        if why:
            t.leave(why, q, theirs, mine)
        else:
            t.add(q, theirs, mine, said)


def compare(what, short, make, count, seed):
    t = Tally()
    for batch in batches(short):
        compare_batch(t, batch)
    random_ones = make(inputs.Make(random.Random(f"{seed} {what}")))
    enough = t.n + count
    while t.n < enough:
        compare_batch(t, list(itertools.islice(random_ones, min(BATCH, enough - t.n + 500))))
    return t.report(what)


def added(count, seed):
    """What the port adds to the merge, against the model."""
    t = Tally()
    source = itertools.islice(inputs.lists(inputs.Make(random.Random(f"{seed} lists"))), count)
    for batch in batches(source):
        mine = answers(start(os.environ["OURS"], [ours_line(q) for q in batch]), len(batch))
        for q, m in zip(batch, mine):
            t.add(q, model.merge(*q[1:]), m)
    return t.report("merge by lists of edits as bytes, against the model")


def by_git(count, seed):
    """Names, against Git: short ones, and random ones without a NUL."""
    t = Tally()
    words = (("n", 1, b) for b in inputs.words([b"a", b"/", b".", b"@", b"{", b".lock", b"k"], 5))
    random_ones = inputs.names(inputs.Make(random.Random(f"{seed} names for Git")))
    for batch in batches(itertools.chain(words, itertools.islice(random_ones, count))):
        good = git_judge.judged(q[2] for q in batch)
        mine = answers(start(os.environ["OURS"], [ours_line(q) for q in batch]), len(batch))
        for q, m in zip(batch, mine):
            if q[2] in good:
                t.add(q, "0" if good[q[2]] else "3", m)
    return t.report("name, against Git")


def main():
    count = int(sys.argv[1]) if len(sys.argv) > 1 else 100000
    seed = int(sys.argv[2]) if len(sys.argv) > 2 else 1
    good = [compare(what, short, make, count, seed) for what, short, make in OPERATIONS] + [by_git(count, seed), added(count, seed)]
    if not all(good):
        sys.exit("there are differences")
    print("no difference")


if __name__ == "__main__":
    main()
