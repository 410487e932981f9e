#!/usr/bin/env python3
"""run.py [ROUNDS]: the measurements of ./bench. OURS, GIX: the two programs; PROGRAM: packed-refs; BENCH_DATA: the files packed-COUNT."""
import bisect, datetime, json, os, platform, subprocess, sys
import bad_lines, plot

HERE = os.path.dirname(os.path.abspath(__file__))
DATA = os.environ["BENCH_DATA"]
ROUNDS = int(sys.argv[1]) if len(sys.argv) > 1 else 5
COUNTS = [1000, 100000, 1000000]
SHAPES = {
    "no-line-feed": "no LF at all", "carriage-returns": "CR everywhere", "carets": "lines of `^` alone", "line-feeds": "LF everywhere", "peeled-lines": "`^` lines with ids alone",
    "one-record": "one good record in one line", "bad-peeled": "each record's `^` line bad in its last byte",
}
SIZES = [1, 4, 16, 64]
# Our operation, the Rust's, what it is, whether it goes through the whole file.
ROWS = [
    ("iterate", "iterate", "iteration", True), ("check", "iterate", "check (the Rust: its iteration)", True), ("ask-charted", "iterate", "ask, charted (the Rust: its iteration)", True), ("ask-absent", "iterate", "ask, absent (the Rust: its iteration)", True),
    ("lookup-present", "lookup-present", "lookup, present", False), ("lookup-absent", "lookup-absent", "lookup, absent", False), ("prefix", "prefix", "prefix listing, 110 records", False),
    ("merge-100", "merge-100", "merge of 100 edits", True), ("merge-4000", "merge-4000", "merge of 4,000 edits", True),
]


def run(*words):
    out = subprocess.run(words, check=True, capture_output=True, text=True).stdout
    return {k: float(v) if "." in v else int(v) for k, v in (line.split() for line in out.splitlines())}


def prefix_of(path):
    """A prefix that 100 to 120 records have, the first one from the middle of the file on."""
    names = [line[41:].rstrip(b"\n") for line in open(path, "rb") if line[40:41] == b" " and not line.startswith(b"#")]
    for name in names[len(names) // 2:]:
        for n in range(len(name), 0, -1):
            found = bisect.bisect(names, name[:n] + b"\xff") - bisect.bisect_left(names, name[:n])
            if 100 <= found <= 120:
                return name[:n].decode()
            if found > 120:
                break
    sys.exit("no prefix of about 100 records")


def measure(count):
    """({key: seconds} of ours, of the Rust), the least of all rounds; the two take turns."""
    path = os.path.join(DATA, f"packed-{count}")
    prefix = prefix_of(path)
    runs = "5" if count == 1000000 else "30"
    ours, gix = [], []
    for _ in range(ROUNDS):
        ours.append(run(os.environ["OURS"], path, prefix, runs))
        gix.append(run(os.environ["GIX"], path, prefix, runs))
    for k in ours[0]:
        if k == "listed" or k.startswith("sum") or k == "records":
            assert all(x[k] == ours[0][k] for x in ours + gix), f"{k}: the two sides did other work"
    least = lambda rounds: {k: min(x[k] for x in rounds) for k in rounds[0]}
    return least(ours), least(gix), ours, gix


def hostile():
    out = {}
    for shape in SHAPES:
        for mb in SIZES:
            rounds = [run(os.environ["OURS"], "hostile", shape, str(mb * 1000000), "3") for _ in range(2)]
            out[shape, mb] = {k: min(x[k] for x in rounds) for k in rounds[0]}
    return out


def time_text(s):
    for unit, factor in (("s", 1), ("ms", 1e3), ("us", 1e6)):
        if s * factor >= 1:
            return f"{s * factor:.3g} {unit}"
    return f"{s * 1e9:.3g} ns"


def spread(a, b, ka, kb):
    """Least and greatest ratio of one round."""
    r = [y[kb] / x[ka] for x, y in zip(a, b)]
    return f"{min(r):.1f}-{max(r):.1f}"


def cpu_by_lscpu():
    """Where /proc/cpuinfo has numbers alone, as on Arm."""
    try:
        said = subprocess.run(["lscpu"], capture_output=True, text=True).stdout.splitlines()
    except OSError:
        return None
    words = {k: v.strip() for k, v in (line.split(":", 1) for line in said if ":" in line)}
    return " ".join(words[k] for k in ("Vendor ID", "Model name") if k in words) or None


def machine():
    name = next((line.split(":")[1].strip() for line in open("/proc/cpuinfo") if line.startswith("model name")), None) or cpu_by_lscpu() or platform.machine()
    return f"{name}, {os.cpu_count()} processors shared with other work (load {os.getloadavg()[0]:.1f} at the end)"


def main():
    results = {n: measure(n) for n in COUNTS}
    bad = hostile()
    report_to_check, bad_to_good, of_bad_lines = bad_lines.measure(ROUNDS)
    ours, gix = results[1000000][:2]
    lines = [
        "# Benchmarks", "",
        f"Made by `./bench {ROUNDS}` on {datetime.date.today()}; {machine()}.", "",
        "Ours is `libhost.a` called from C (`benchmark/ours.c`); the Rust is gix-ref 0.67.1, release build (`benchmark/gix.rs` in the oracle). Both do the same work on the same bytes, files as the oracle's",
        f"`bench/gen.py` makes them (70 bytes a record, every tenth peeled); the two take turns for {ROUNDS} rounds, and a figure is the least of all runs in processor time. Both sides' new files",
        "are held to be the same bytes. A ratio is the Rust's time over ours, in brackets its least and greatest value in one round. The machine is shared: believe the ratios, not the times.",
        "Each of our lookups, listings and steps is a call from C; the Rust's are inlined. Our iteration walks: it hands the line number on.", "",
        "![Ratios at three sizes, and the time of hostile files against their size](benchmarks.svg)", "",
        "## Goals, at 1,000,000 records", "", "| | goal | moonshot | measured | |", "|---|---|---|---|---|",
    ]
    ratio = lambda key, of=None: gix[of or key] / ours[key]
    for what, want, moonshot, got, at_least in [
        ("check, times as fast as the Rust's iteration", 6, 9, ratio("check", "iterate"), True),
        ("iteration by calls from C, times as fast", 4, 6, ratio("iterate"), True),
        ("lookup, present, times as fast", 2, 3, ratio("lookup-present"), True),
        ("lookup, absent, times as fast", 1.5, 3, ratio("lookup-absent"), True),
        ("prefix listing of 110 records, times as fast", 2, 4, ratio("prefix"), True),
        ("merge of 4,000 edits, times as fast", 5, 7, ratio("merge-4000"), True),
        ("walk over 1,000,000 bad lines, times the walk over good ones", 1, None, bad_to_good, False),
        ("`report` of 1,000,000 bad lines, times `check` of as many good ones, as runs of the program", 3, None, report_to_check, False),
    ]:
        met = got >= want if at_least else got <= want
        by = "met" if met else f"**missed by {abs(got / want - 1) * 100:.0f} %**"
        if met and moonshot and got >= moonshot:
            by = "met, and the moonshot"
        lines.append(f"| {what} | at {'least' if at_least else 'most'} {want} | {moonshot or ''} | {got:.2f} | {by} |")
    for n in COUNTS:
        o, g, os_, gs = results[n]
        lines += ["", f"## {n:,} records", "", "| | ours | the Rust | ratio |", "|---|---|---|---|"]
        for a, b, what, whole in ROWS:
            if a in o:
                per = (lambda s: f"{time_text(s)}, {s * 1e9 / n:.0f} ns a record") if whole else time_text
                lines.append(f"| {what} | {per(o[a])} | {per(g[b])} | {g[b] / o[a]:.2f} ({spread(os_, gs, a, b)}) |")
        lines.append(f"| limit: memchr for each LF | {time_text(o['scan'])}, {o['scan'] * 1e9 / n:.0f} ns a record | {time_text(g['scan'])}, {g['scan'] * 1e9 / n:.0f} ns a record | |")
    lines += ["", "## Hostile files", "",
              "Nanoseconds a byte at 1, 4, 16 and 64 MB: the same number means that the cost grows as the size does. The check stops at the first bad item, whose line it reads to the end to tell its text. A lookup and a listing search first and read the",
              "line that a probe lies in, so in a file of one line they read it once a probe, and the number of probes grows with the logarithm of the size (at most 31).",
              "", "| file | iteration | check | ask | lookup | prefix listing |", "|---|---|---|---|---|---|"]
    for shape, what in SHAPES.items():
        cell = lambda k: ", ".join(f"{bad[shape, mb][k] * 1000 / mb:.2g}" for mb in SIZES) if bad[shape, SIZES[-1]][k] > 1e-4 else f"stops at once ({time_text(bad[shape, SIZES[-1]][k])} at {SIZES[-1]} MB)"
        lines.append(f"| {what} | " + " | ".join(cell(k) for k in ("iterate", "check", "ask", "lookup", "prefix")) + " |")
    lines += ["", "## Bad lines", ""] + of_bad_lines
    notes = os.path.join(HERE, "notes.md")
    if os.path.exists(notes):
        lines += ["", open(notes).read().rstrip()]
    docs = os.path.join(HERE, "..", "docs")
    with open(os.path.join(docs, "BENCHMARKS.md"), "w") as f:
        f.write("\n".join(lines) + "\n")
    ratios = [(what.split(" (")[0], [results[n][1][b] / results[n][0][a] if a in results[n][0] else None for n in COUNTS]) for a, b, what, _ in ROWS]
    costs = [(what.replace("`", ""), [(mb, bad[shape, mb]["iterate"]) for mb in SIZES]) for shape, what in SHAPES.items()]
    with open(os.path.join(docs, "benchmarks.svg"), "w") as f:
        f.write(plot.draw([f"{n:,}" for n in COUNTS], ratios, costs))
    with open(os.path.join(DATA, "last.json"), "w") as f:
        json.dump({str(n): results[n] for n in COUNTS}, f)
    print("\n".join(lines))


if __name__ == "__main__":
    main()
