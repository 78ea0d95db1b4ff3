#!/usr/bin/env python3
"""Measures `settle` against the same program in plain Rust (plain.rs): time as a ratio, peak memory, and that both write the
same bytes; and what a question costs on a board and on a tape as the day grows (the program `asks`). Outside the gate; one
command from the repository's top, after `rt run < stdin` in crates/settle and `rt run -- tape 320 64` in crates/asks:

    python3 bench/run.py [RUNS]
"""
import os
import random
import re
import statistics
import subprocess
import sys
import tempfile
import time

HERE = os.path.dirname(os.path.abspath(__file__))
SETTLE = os.path.join(HERE, "..", "crates", "settle", "out", "settle")
ASKS = os.path.join(HERE, "..", "crates", "asks", "out", "asks")
REFERENCES = {2, 4, 8}


def a_day(entries, questions, seed, extra=0):
    """A full day on ticks of 10: 32 series of every family, so many entries, questions throughout, and malformed or refused lines."""
    r = random.Random(seed)
    lines = ["day 61200 117900 131400 143100 126000 10 5000 100 1"]
    for s in range(32):
        family = s % 15 + 1
        reference = s - 1 if family in REFERENCES else "-"
        lines.append(f"list {family} 0 {reference} 145200 - {r.randrange(2)} {r.randrange(2)}")
    lines.append("bell open")
    every = max(entries // questions, 1)
    for i in range(entries):
        series, stamp, price = r.randrange(32), r.randrange(61200, 143101), r.randrange(-100000, 5000000) * 10
        kind = r.random()
        if kind < 0.5:
            lines.append(f"trade {series} {stamp} {price} {r.randrange(1, 1000)}")
        elif kind < 0.6:
            lines.append(f"auction {series} {stamp} {price} {r.randrange(1, 1000)}")
        elif kind < 0.9:
            lines.append(f"quote {series} {stamp} {price} {price + 10}")
        else:
            lines.append(f"leg {series} {stamp} {price} 1")
        if i % every == 0:
            lines += [f"settle {s} morning" for s in range(32)]
    for i in range(extra):
        kind = i % 5
        series, stamp = r.randrange(40), r.randrange(60000, 145000)
        if kind == 0:
            lines.append(f"trade {series} {stamp} {r.randrange(10**9)} {r.randrange(2)}")
        elif kind == 1:
            lines.append(f"quote {series} {stamp} - {r.randrange(10**9)}")
        elif kind == 2:
            lines.append(f"theory {series} {r.randrange(2 * 10**9)}")
        elif kind == 3:
            lines.append(f"settle {series} morning")
        else:
            lines.append(f"spread {series} {stamp} 0{r.randrange(10)}")
    lines.append("bell close")
    lines += [f"theory {s} {r.randrange(10**6)}" for s in range(32)]
    lines += [f"settle {s} {e}" for s in range(32) for e in ("close", "morning")]
    return ("\n".join(lines) + "\n").encode()


def once(program, path, output):
    with open(path, "rb") as f, open(output, "wb") as o:
        begin = time.perf_counter()
        status = subprocess.run([program], stdin=f, stdout=o).returncode
        taken = time.perf_counter() - begin
    assert status == 0, program
    return taken


def peak(program, path):
    """Its most resident memory, as /proc tells it while it waits for more input than the file has."""
    p = subprocess.Popen([program], stdin=subprocess.PIPE, stdout=subprocess.DEVNULL)
    with open(path, "rb") as f:
        while piece := f.read(1 << 20):
            p.stdin.write(piece)
    p.stdin.flush()
    with open(f"/proc/{p.pid}/status") as f:
        most = re.search(r"VmHWM:\s+(\d+)", f.read()).group(1)
    p.stdin.close()
    p.wait()
    print(f"    {os.path.basename(program)}: at most {most} KiB resident")


def asking(make, entries, questions, runs):
    """The best time of a day of so many entries and so many questions."""
    command = [ASKS, make, str(entries), str(questions)]
    best = float("inf")
    for _ in range(runs):
        begin = time.perf_counter()
        subprocess.run(command, stdout=subprocess.DEVNULL, check=True)
        best = min(best, time.perf_counter() - begin)
    return best


def questions(runs):
    """What a question costs, by the entries of the day: the time of many questions less that of none."""
    print("a question, in microseconds, by the entries of the day")
    for make, many in (("board", 200_000), ("tape", 500)):
        costs = []
        for entries in (100, 1_000, 10_000, 30_000):
            taken = asking(make, entries, many, runs) - asking(make, entries, 0, runs)
            costs.append(f"{entries}: {1e6 * taken / many:.3f}")
        print(f"    {make}: " + ", ".join(costs))


def main():
    runs = int(sys.argv[1]) if len(sys.argv) > 1 else 41
    with tempfile.TemporaryDirectory() as folder:
        plain = os.path.join(folder, "plain")
        subprocess.run(["rustc", "--edition", "2024", "-C", "opt-level=3", "-o", plain, os.path.join(HERE, "plain.rs")], check=True)
        cases = [
            ("a full day", a_day(30000, 30, 1)),
            ("ten times as many lines, most of them refused", a_day(30000, 30, 2, 290000)),
            ("a full day, 300,000 questions", a_day(30000, 9375, 3)),
        ]
        for name, text in cases:
            path, one, other = (os.path.join(folder, n) for n in ("input", "one", "other"))
            with open(path, "wb") as f:
                f.write(text)
            times = {SETTLE: [], plain: []}
            for _ in range(runs):
                times[SETTLE].append(once(SETTLE, path, one))
                times[plain].append(once(plain, path, other))
            with open(one, "rb") as a, open(other, "rb") as b:
                assert a.read() == b.read(), "the outputs differ"
            best = {p: min(t) for p, t in times.items()}
            median = {p: statistics.median(t) for p, t in times.items()}
            print(f"{name}: {text.count(10)} lines, {runs} runs, the same output")
            for what, t in (("best", best), ("median", median)):
                print(f"    {what}: settle {1000 * t[SETTLE]:.2f} ms, plain Rust {1000 * t[plain]:.2f} ms, ratio {t[SETTLE] / t[plain]:.2f}")
            peak(SETTLE, path)
            peak(plain, path)
    questions(min(runs, 5))


if __name__ == "__main__":
    main()
