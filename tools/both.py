#!/usr/bin/env python3
"""What the program `both` should print, worked out in another way from docs/RULES.md. Every entry taken stays in a list, each
question filters it and takes the last, and averages are exact fractions. Standard input to standard output; on crates/both/stdin it prints
crates/both/stdout."""
import sys
from fractions import Fraction
from math import floor

PLACES = 256
SERIES = 32
PRICE, SPREAD, LOTS = 10**9, 10**8, 10**5

CLOSE = ["A4 L1 T", "S1 P", "A4 Q4 L3 L2 T", "C", "A4 Q4 L4 T D", "L5 T D", "T D", "C", "T", "A2 Q2 L1 D", "L1 D", "L1 B"]
CLOSE += ["V6 L1 B C", "L5 U", "U"]
MORNING = ["L8 D B", "L8 D B", "L8 D B", "L8 D B", "L9 D", "L10 T D", "L10 T D", "C", "T", "Q12 L12 B", "L11 D", "L11 B"]
MORNING += ["L12 B", "L13 U", "U"]
LAST_DAY = {11: "V2 L1 B", 13: "V7 L1 B C"}
QUARTER_END = {6: "T D", 14: "U"}


class Refused(Exception):
    pass


def demand(met, number):
    if not met:
        raise Refused(number)


def within(limit, *values):
    """Whether all that stand of the values are within the limit."""
    return all(abs(v) <= limit for v in values if v is not None)


class House:
    def __init__(self, day, ticks):
        self.day, self.ticks, self.phase = day, ticks, "listing"
        self.listed, self.taken, self.theory, self.ruling = [], [], {}, {}
        n, o, m, e, k = day
        self.windows = [(n, e), (o, e), (139800, e), (m, e), (142200, e), (135900, 143100), (117900, 143100)]
        self.windows += [(o, 126120), (n, 126120), (125100, 126000), (o, k - 1), (n, k - 1), (125100, k - 1)]

    # ---- calls

    def list(self, family, ladder, reference, settlement, spread, last_day, quarter_end):
        demand(self.phase == "listing", 2)
        number = len(self.listed)
        demand(number < SERIES, 3)
        demand(1 <= family <= 15 and 0 <= ladder < len(self.ticks), 5)
        demand(reference is not None or family not in (2, 4, 8), 5)
        demand(reference is None or family in (2, 4, 8, 13) and 0 <= reference < number, 5)
        demand(within(PRICE, settlement) and within(SPREAD, spread), 5)
        demand(spread is None or family == 2, 5)
        self.listed.append((family, self.ticks[ladder], reference, settlement, spread, last_day, quarter_end))
        return f"listed {number}"

    def bell(self, which):
        after = {("listing", "open"): "trading", ("trading", "close"): "closed"}
        demand((self.phase, which) in after, 2)
        self.phase = after[self.phase, which]

    def is_listed(self, series):
        return 0 <= series < len(self.listed)

    def enter(self, kind, series, stamp, *numbers):
        demand(self.phase == "trading", 2)
        demand(self.is_listed(series), 4)
        demand(self.day[0] <= stamp <= self.day[3], 6)
        prices = numbers if kind == "quote" else [] if kind == "spread" else numbers[:1]
        demand(within(PRICE, *prices), 6)
        if kind == "spread":
            demand(within(SPREAD, *numbers), 6)
        elif kind == "quote":
            demand(None in numbers or numbers[0] < numbers[1], 6)
        else:
            demand(1 <= numbers[1] <= LOTS, 6)
        demand(kind != "spread" or self.listed[series][0] == 2, 8)
        demand(all(p is None or p % self.listed[series][1] == 0 for p in prices), 7)
        demand(len(self.taken) < PLACES, 9)
        self.taken.append((kind, series, stamp, numbers))

    def set_theory(self, series, value):
        demand(self.is_listed(series), 4)
        demand(within(PRICE, value), 6)
        self.theory[series] = value

    def set_ruling(self, series, value, first):
        demand(self.is_listed(series), 4)
        demand(within(PRICE, value) and not (value is None and first), 6)
        self.ruling[series] = (value, first)

    # ---- the question for a price

    def row(self, series, edition):
        family, *_, last_day, quarter_end = self.listed[series]
        if edition == "close":
            if last_day and family in LAST_DAY:
                return LAST_DAY[family]
            if quarter_end and family in QUARTER_END:
                return QUARTER_END[family]
            return CLOSE[family - 1]
        if quarter_end and family == 14:
            return QUARTER_END[family]
        return MORNING[family - 1]

    def evidence(self, series, window, letter):
        """The entries in which a step looks, by stamp and then in the order taken."""
        kinds = {"A": ["auction"], "L": ["trade", "auction"], "V": ["trade", "auction"], "Q": ["quote"], "S": ["spread"]}
        if letter not in kinds:
            return []
        first, last = self.windows[window - 1]
        there = [e for e in self.taken if e[1] == series and first <= e[2] <= last and e[0] in kinds[letter]]
        return sorted(there, key=lambda e: e[2])

    def find(self, series, letter, evidence, reference):
        """The price that a step finds in its evidence, given the reference's price."""
        _, tick, _, settlement, spread, _, _ = self.listed[series]
        numbers = [numbers for _, _, _, numbers in evidence]
        nearest = lambda v: floor(Fraction(v) / tick + Fraction(1, 2)) * tick
        theory = self.theory.get(series)
        if letter in "ALQVS" and not numbers:
            return None
        if letter in "AL":
            return numbers[-1][0]
        if letter == "Q":
            return None if None in numbers[-1] else nearest(Fraction(sum(numbers[-1]), 2))
        if letter == "V":
            return nearest(Fraction(sum(p * n for p, n in numbers), sum(n for _, n in numbers)))
        if letter == "T":
            return None if theory is None else nearest(theory)
        if letter == "U":
            return None if theory is None else -(-theory // tick) * tick
        if letter in "SP":
            less = numbers[-1][0] if letter == "S" else spread
            return None if reference is None or less is None else reference - less
        return {"C": reference, "B": settlement, "D": self.ruling.get(series, (None, False))[0]}[letter]

    def settled(self, series, edition):
        """Price, letter, place and time; or the origin of the refusal."""
        value, first = self.ruling.get(series, (None, False))
        if first:
            return value, "D", 0, "-"
        reference, row = self.listed[series][2], self.row(series, edition).split()
        reference_answer = None if reference is None else self.settled(reference, edition)
        price, *_, reference_time = reference_answer if isinstance(reference_answer, tuple) else (None, "-")
        for place, step in enumerate(row, 1):
            letter, window = step[0], int(step[1:] or 0)
            evidence = self.evidence(series, window, letter)
            found = self.find(series, letter, evidence, price)
            if found is not None:
                own_time = evidence[-1][2] if evidence else "-"
                return found, letter, place, reference_time if letter == "C" else own_time
        refers = any(step[0] in "SPC" for step in row)
        return reference_answer if refers and isinstance(reference_answer, int) else series

    def settle(self, series, edition):
        demand(self.phase == "closed" or self.phase == "trading" and edition == "morning", 2)
        demand(self.is_listed(series), 4)
        found = self.settled(series, edition)
        demand(isinstance(found, tuple), f"10 {found}")
        return "price {} {} {} {}".format(*found)


def told(call, *arguments):
    """The answer, as both makes should give it."""
    try:
        answer = call(*arguments) or "done"
    except Refused as refused:
        answer = f"refused {refused}"
    return f"{answer} | {answer}"


def perform(house, command, fields):
    if command == "bell":
        return told(house.bell, *fields)
    numbers = [None if f == "-" else int(f) for f in fields]
    calls = {"list": house.list, "theory": house.set_theory, "ruling": house.set_ruling}
    if command in calls:
        return told(calls[command], *numbers)
    return told(house.enter, command, *numbers)


lines = [line.split(" ") for line in sys.stdin.read().splitlines()]
stamps = [int(f) for f in lines[0][1:]]
N, O, M, E, K = day = stamps[:5]
ticks = stamps[5:]
if not (0 <= N <= 86399 and 86400 <= O <= M < E <= 172799 and O < K < E):
    sys.exit(print("refused 1"))
if not all(1 <= t <= 10**6 for t in ticks):
    sys.exit(print("refused 13"))
house = House(day, ticks)
for number, (command, *fields) in enumerate(lines[1:], 2):
    print(f"{number}: {perform(house, command, fields)}")
for series in range(len(house.listed)):
    for edition in ("close", "morning"):
        print(f"series {series} {edition}: {told(house.settle, series, edition)}")
