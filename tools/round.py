#!/usr/bin/env python3
"""What the program `round` should print, worked out from docs/RULES.md in another way: a walk over whole numbers to the
next lawful one, with exact fractions. Standard input to standard output; on crates/round/stdin it prints crates/round/stdout."""
import math
import re
import sys
from fractions import Fraction

LIMIT = 10**9


def bands_of(numbers):
    """The bands (start, tick) of a lawful description, or the first thing that is wrong with it."""
    if not numbers:
        return "no band"
    if len(numbers) % 2 == 0:
        return "a start without its tick"
    if len(numbers) > 7:
        return "more than 4 bands"
    bands = [(None, numbers[0])] + list(zip(numbers[1::2], numbers[2::2]))
    for i, (start, tick) in enumerate(bands):
        if not 1 <= tick <= 10**6:
            return "a tick is not 1 to 1000000"
        if i:
            before, tick_before = bands[i - 1]
            if not -LIMIT <= start <= LIMIT:
                return "a start is beyond the price limit"
            if before is not None and start <= before:
                return "the starts do not rise"
            if start % tick_before or start % tick:
                return "a start is no multiple of its own tick and the tick before"
    return bands


def lawful(bands, v):
    tick = [t for s, t in bands if s is None or s <= v][-1]
    return v % tick == 0


def rounded(bands, f):
    below = math.floor(f)
    while not lawful(bands, below):
        below -= 1
    above = math.ceil(f)
    while not lawful(bands, above):
        above += 1
    return below, above if above - f <= f - below else below, above


def number(word, low, high):
    sign = "[+-]?" if low < 0 else "[+]?"
    if not re.fullmatch(sign + "[0-9]+", word) or not low <= int(word) <= high:
        return None
    return int(word)


def answer(bands, word):
    n, _, d = word.partition("/")
    n = number(n, -(2**63), 2**63 - 1)
    d = number(d, 0, 2**32 - 1) if "/" in word else 1
    if n is None or d is None:
        return "not a number"
    if d == 0:
        return "a denominator of zero"
    f = Fraction(n, d)
    if abs(f) > LIMIT:
        return "beyond the price limit"
    return "below %d nearest %d above %d" % rounded(bands, f)


for raw in sys.stdin.buffer.read().split(b"\n")[:-1]:
    ladder, colon, values = raw.decode("utf-8", "replace").partition(":")
    numbers = [number(w, -(2**63), 2**63 - 1) for w in ladder.split()]
    if not colon:
        print("not read: no colon after the ladder")
    elif None in numbers:
        print("not read: a word of the ladder is no number")
    elif isinstance(bands_of(numbers), str):
        print("refused 13: " + bands_of(numbers))
    else:
        for word in values.split():
            print(f"{word}: {answer(bands_of(numbers), word)}")
