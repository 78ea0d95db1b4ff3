#!/usr/bin/env python3
"""What the program `figures` should print, worked out from docs/RULES.md in another way: every entry taken stays in a list,
and each question filters it. Standard input to standard output; on crates/figures/stdin it prints crates/figures/stdout."""
import sys

PLACES = 256


def is_price(v):
    return abs(v) <= 10**9


def allowed(day, kind, n):
    night, _, _, close, _ = day
    series, stamp = n[0], n[1]
    if not (0 <= series <= 31 and night <= stamp <= close):
        return False
    if kind == "spread":
        return abs(n[2]) <= 10**8
    if kind == "quote":
        bid, ask = n[2], n[3]
        stand = [v for v in (bid, ask) if v is not None]
        return all(map(is_price, stand)) and (len(stand) < 2 or bid < ask)
    return is_price(n[2]) and 1 <= n[3] <= 100000


def last(entries):
    """The largest stamp; among equal stamps, the one that came later."""
    return max(enumerate(entries), key=lambda e: (e[1][1][1], e[0]))[1][1] if entries else None


def shown(v):
    return " -" if v is None else f" {v}"


def figures(entries):
    of = lambda *kinds: [e for e in entries if e[0] in kinds]
    trades = of("trade", "auction")
    text = ""
    for found in (last(trades), last(of("auction")), last(of("spread"))):
        text += f" {found[2]}@{found[1]}" if found else " -"
    quote = last(of("quote"))
    text += f"{shown(quote[2])}{shown(quote[3])}@{quote[1]}" if quote else " none"
    return text + f" {sum(n[3] for _, n in trades)} {sum(n[2] * n[3] for _, n in trades)}"


day, entries = None, []
for line in sys.stdin.read().splitlines():
    kind, *fields = line.split(" ")
    numbers = [None if f == "-" else int(f) for f in fields]
    if kind == "day":
        day = numbers
    else:
        entries.append((kind, numbers))
N, O, M, E, K = day
if not (0 <= N <= 86399 and 86400 <= O <= M < E <= 172799 and O < K < E):
    sys.exit(print("refused 1"))
taken = [e for e in entries if allowed(day, *e)][:PLACES]
print(f"entries {len(entries)} tape {len(taken)} board {len(taken)}")
windows = [(N, E), (O, E), (139800, E), (M, E), (142200, E), (135900, 143100), (117900, 143100), (O, 126120), (N, 126120)]
windows += [(125100, 126000), (O, K - 1), (N, K - 1), (125100, K - 1)]
for series in range(32):
    for window, (first, end) in enumerate(windows, 1):
        there = [e for e in taken if e[1][0] == series and first <= e[1][1] <= end]
        if any(kind != "leg" for kind, _ in there):
            text = figures(there)
            print(f"series {series} window {window} tape{text} board{text} equal")
print("equal")
