#!/usr/bin/env python3
"""bad_lines.py [ROUNDS [LINES [MB]]]: what bad lines cost: the walk through files of nothing else, beside a good file and the Rust, and `report` beside `check` as
runs of the program. OURS, GIX: the two programs of ./bench; PROGRAM: packed-refs; BENCH_DATA: where the files are made."""
import os, random, subprocess, sys, time

DATA = os.environ["BENCH_DATA"]
HEADER = b"# pack-refs with: peeled fully-peeled sorted \n"
# Each line bad in one byte, so that the file has as many lines and bytes: in turn the id's last digit, the space, a byte of the name by a CR, and by a slash.
HARMS = [(39, b"g"), (40, b"_"), (-4, b"\r"), (46, b"/")]


def good_lines(count):
    """As many records without `^` lines, in name order and all of one length."""
    rnd = random.Random(1)
    for i in range(count):
        yield b"%040x refs/sent/ward%04d/o%03d/e%d\n" % (rnd.getrandbits(160), i // 10000, i // 10 % 1000, i % 10)


def bad_lines(count):
    for i, line in enumerate(good_lines(count)):
        at, byte = HARMS[i % 4]
        line = bytearray(line)
        line[at:at + 1 or None] = byte
        yield bytes(line)


def files(lines, mb):
    """What, the bytes in parts."""
    n = mb * 1000000
    return {
        "good": (f"{lines:,} good lines", lambda: [HEADER, *good_lines(lines)]), "bad": (f"{lines:,} bad lines", lambda: [HEADER, *bad_lines(lines)]),
        "line-feeds": ("LF everywhere", lambda: [b"\n" * n]), "carets": ("lines of `^` alone", lambda: [b"^\n" * (n // 2)]),
        "peeled-lines": ("`^` lines with ids alone", lambda: [(b"^" + b"1" * 40 + b"\n") * (n // 42)]),
    }


def made(shape, lines, mb, parts):
    path = os.path.join(DATA, f"lines-{shape}-{lines if shape in ('good', 'bad') else mb}")
    if not os.path.exists(path):
        with open(path + ".new", "wb") as f:
            f.writelines(parts())
        os.rename(path + ".new", path)
    return path


def walked(program, path):
    out = subprocess.run([program, "walk", path, "1"], check=True, capture_output=True, text=True).stdout
    return {k: float(v) if "." in v else int(v) for k, v in (line.split() for line in out.splitlines())}


def least(rounds):
    return {k: min(x[k] for x in rounds) for k in rounds[0]}


def walks(rounds, lines, mb):
    """[(what, bytes, lines, ours, the Rust's)] of each file, the least of all rounds; the two take turns."""
    out = []
    for shape, (what, parts) in files(lines, mb).items():
        path = made(shape, lines, mb, parts)
        ours, gix = [], []
        for _ in range(rounds):
            ours.append(walked(os.environ["OURS"], path))
            gix.append(walked(os.environ["GIX"], path))
        # No record has a `^` line and every line is ended, so that the Rust's numbers are lines and its texts whole.
        for k in gix[0]:
            assert k == "walk" or all(x[k] == ours[0][k] for x in ours + gix), f"{what}, {k}: the two sides did other work"
        ours, gix = least(ours), least(gix)
        items = ours["records"] + ours["errors"]
        count = items + (shape in ("good", "bad"))
        assert (ours["errors"], ours["line-last"]) == ((0, 0) if shape == "good" else (items, count)), f"{what}: other items than were made"
        out.append((what, os.path.getsize(path), count, ours, gix))
    return out


def run_of(words, output):
    """(processor time, time that passed) of a run of the program, and its exit status."""
    with open(output, "wb") as out:
        begun = time.monotonic()
        p = subprocess.Popen([os.environ["PROGRAM"], *words], stdout=out, stderr=subprocess.DEVNULL)
        _, status, used = os.wait4(p.pid, 0)
        passed = time.monotonic() - begun
    p.returncode = os.waitstatus_to_exitcode(status)
    return used.ru_utime + used.ru_stime, passed, p.returncode


def runs(rounds, lines, mb):
    """{command: (processor time, time that passed)}, the least of all rounds, of `check` of the good file and `report` of the bad one; the output goes to a file."""
    of = {"check": ("good", 0), "report": ("bad", 2)}
    times = {command: [] for command in of}
    for _ in range(rounds):
        for command, (shape, status) in of.items():
            path, output = made(shape, lines, mb, files(lines, mb)[shape][1]), os.path.join(DATA, f"{command}.txt")
            *took, said = run_of([command, path], output)
            assert said == status, f"{command} exits with {said}"
            times[command].append(took)
    with open(os.path.join(DATA, "report.txt"), "rb") as f:
        assert sum(b" damaged: line " in line for line in f) == lines, "a line for each bad line"
    return {command: tuple(map(min, zip(*t))) for command, t in times.items()}


def measure(rounds, lines=1000000, mb=40):
    """(the ratio of `report` to `check` in processor time, that of the walk over bad lines to the walk over good ones, what is written about them)"""
    times = runs(rounds, lines, mb)
    (check, check_passed), (report, report_passed) = times["check"], times["report"]
    written = os.path.getsize(os.path.join(DATA, "report.txt")) / 1e6
    text = [
        f"`report` of {lines:,} bad lines, as a run of the program with its output in a file ({written:.0f} MB), takes {report * 1e3:.0f} ms of processor time ({report_passed * 1e3:.0f} ms pass), and `check` of a good file of as",
        f"many lines and bytes {check * 1e3:.0f} ms ({check_passed * 1e3:.0f} ms): {report / check:.2f} times as long ({report_passed / check_passed:.2f}).", "",
        "The walk through files of bad lines alone, and through the good one; the Rust iterates the same bytes. Both sides' sums of lines and of texts' lengths are held to be the same.", "",
        "| file | ours, ns a byte | ours, ns a line | the Rust, ns a line | ratio | a plain step to the last line, ns a byte |", "|---|---|---|---|---|---|",
    ]
    all_walks = walks(rounds, lines, mb)
    for what, size, count, ours, gix in all_walks:
        step = f"{ours['step-last'] * 1e9 / size:.2g}" if ours["errors"] else "no error, nothing is counted"
        text.append(f"| {what}, {size / 1e6:.0f} MB | {ours['walk'] * 1e9 / size:.3g} | {ours['walk'] * 1e9 / count:.3g} | {gix['walk'] * 1e9 / count:.3g} | {gix['walk'] / ours['walk']:.2f} | {step} |")
    good, bad = (all_walks[i][3]["walk"] for i in (0, 1))
    return report / check, bad / good, text


if __name__ == "__main__":
    print("\n".join(measure(*map(int, sys.argv[1:] or ["5"]))[2]))
