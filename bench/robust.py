#!/usr/bin/env python3
"""Tries to bring `settle` down: a million random and mutated lines, a line of 100 MB, an output that takes nothing, an output that
nobody reads, input byte by byte, and a user who waits for each answer. It prints what it did, how the program ended and how much memory it had at most.
Outside the gate; one command from the repository's top, after `cd crates/settle && rt run < stdin`:

    python3 bench/robust.py
"""
import os
import random
import re
import subprocess
import sys
import tempfile

HERE = os.path.dirname(os.path.abspath(__file__))
sys.path.insert(0, HERE)
from run import SETTLE, a_day, peak

ANSWER = re.compile(rb"done|listed \d+|price -?\d+ -?\d+ [ALQVTUSPCBD] \d (\d+|-)|refused \d+( \d+)?")


def mutated(line, r):
    """A line with some bytes changed, added, dropped or doubled."""
    line = bytearray(line)
    for _ in range(r.randrange(1, 4)):
        at = r.randrange(len(line) + 1)
        kind = r.randrange(4)
        if kind == 0:
            line.insert(at, r.choice([0, 9, 13, 32, 43, 45, 48, 57, 127, 200, 255, r.randrange(256)]))
        elif kind == 1 and line:
            del line[min(at, len(line) - 1)]
        elif kind == 2 and line:
            line[min(at, len(line) - 1)] = r.randrange(256)
        else:
            line += line[at:at + 7]
    return bytes(line).replace(b"\n", b"")


def a_million(r):
    base = a_day(3000, 30, 7, 2000).split(b"\n")[:-1]
    yield from base[:34]
    for i in range(1_000_000):
        kind = i % 4
        if kind == 0:
            yield bytes(r.randrange(256) for _ in range(r.randrange(30))).replace(b"\n", b" ")
        elif kind == 1:
            yield r.choice(base)
        else:
            yield mutated(r.choice(base), r)


def run(name, path, lines):
    """Runs the program on a file; every answer has to be of the form of answers, and there has to be one for each line."""
    with open(path, "rb") as f, tempfile.TemporaryFile() as out:
        p = subprocess.Popen([SETTLE], stdin=f, stdout=out)
        _, status, used = os.wait4(p.pid, 0)
        out.seek(0)
        answers = out.read().split(b"\n")
    assert answers.pop() == b"" and len(answers) == lines, (name, len(answers), lines)
    bad = [a for a in answers if not ANSWER.fullmatch(a)]
    assert not bad, (name, bad[:3])
    print(f"{name}: {lines} lines, as many answers, status {os.waitstatus_to_exitcode(status)}")
    return used


def main():
    r = random.Random(5)
    with tempfile.TemporaryDirectory() as folder:
        path = os.path.join(folder, "input")
        lines = list(a_million(r))
        with open(path, "wb") as f:
            f.write(b"\n".join(lines) + b"\n")
        run("random and mutated lines", path, len(lines))
        peak(SETTLE, path)
        with open(path, "wb") as f:
            for _ in range(100):
                f.write(b"x" * 1_000_000)
            f.write(b"\nsettle 0 close\n")
        run("a line of 100 MB, and one after it", path, 2)
        peak(SETTLE, path)
    day = a_day(2000, 10, 8)
    with open("/dev/full", "wb") as full:
        p = subprocess.run([SETTLE], input=day, stdout=full, stderr=subprocess.PIPE)
    print(f"output that takes nothing: status {p.returncode}, {p.stderr.decode().strip()}")
    assert p.returncode == 1
    p = subprocess.Popen([SETTLE], stdin=subprocess.PIPE, stdout=subprocess.PIPE, stderr=subprocess.PIPE)
    p.stdout.close()
    try:
        p.stdin.write(day)
        p.stdin.close()
    except BrokenPipeError:
        pass
    message = p.stderr.read().decode().strip()
    print(f"output that nobody reads: status {p.wait()}, {message}")
    assert p.returncode == 1
    whole = subprocess.run([SETTLE], input=day, stdout=subprocess.PIPE).stdout
    p = subprocess.Popen([SETTLE], stdin=subprocess.PIPE, stdout=subprocess.PIPE)
    for b in day:
        os.write(p.stdin.fileno(), bytes([b]))
    p.stdin.close()
    assert p.stdout.read() == whole
    print(f"input byte by byte: {len(day)} writes, the same {len(whole)} bytes, status {p.wait()}")
    p = subprocess.Popen([SETTLE], stdin=subprocess.PIPE, stdout=subprocess.PIPE)
    lines = day.split(b"\n")[:-1]
    answers = b""
    for line in lines:
        p.stdin.write(line + b"\n")
        p.stdin.flush()
        answers += p.stdout.readline()
    p.stdin.close()
    assert answers == whole
    print(f"a user who waits for each answer: {len(lines)} lines, status {p.wait()}")


if __name__ == "__main__":
    main()
