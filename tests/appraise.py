#!/usr/bin/env python3
"""A second program for `appraise`, written from docs/RULES.md alone, with fractions in place of whole numbers.

Reads a sheet on standard input and writes what `appraise` has to answer. `.ci/run` holds the stored
answers of the program to what this one writes.
"""
import re
import sys
from fractions import Fraction
from itertools import combinations
from math import floor, gcd

NUMBER = {6: re.compile(rb"(0|-?[1-9][0-9]{0,5})\Z"), 8: re.compile(rb"(0|-?[1-9][0-9]{0,7})\Z")}


def numbers(text, digits):
    """The numbers that a text line writes, one for each entry of `digits`, or None."""
    fields = text.split(b"\t")
    if len(fields) != len(digits):
        return None
    if not all(NUMBER[d].match(f) for f, d in zip(fields, digits)):
        return None
    return [int(f) for f in fields]


def is_line(a, b, c):
    return 1 <= a <= 3999 and abs(b) <= 16000 and abs(c) <= 96000000 and gcd(a, b) == 1


def fault(s, h, w, m, held):
    for number, ok in ((1, 1 <= s <= 4000), (2, abs(h) <= 8000), (3, 1 <= w <= 100), (4, 0 <= m <= 15), (5, held < 512)):
        if not ok:
            return number
    return None


def price(line, shots):
    """What a line (slope, offset) costs: the weighted sum of absolute deviations."""
    return sum(w * abs(h - (line[0] * s + line[1])) for s, h, w in shots)


def through(p, q):
    slope = Fraction(q[1] - p[1], q[0] - p[0])
    return slope, p[1] - slope * p[0]


def least(shots):
    """The least price of all lines: some cheapest line runs through two shots of different speeds."""
    return min(price(through(p, q), shots) for p, q in combinations(shots, 2) if p[0] != q[0])


def rates(line, shots, sz):
    """The rise and the fall rate, by the table of the rules, at even prices."""
    rise = fall = 0
    for s, h, w in shots:
        off = h - (line[0] * s + line[1])
        if off > 0:
            rise, fall = rise - w * (s - sz), fall + w * (s - sz)
        elif off < 0:
            rise, fall = rise + w * (s - sz), fall - w * (s - sz)
        else:
            rise, fall = rise + w * abs(s - sz), fall + w * abs(s - sz)
    return rise, fall


def turned(shots, z):
    """The line through z with the balance slope, by the rule."""
    pulls = [(Fraction(h - z[1], s - z[0]), w * abs(s - z[0])) for s, h, w in shots if s != z[0]]
    for t in sorted({k for k, _ in pulls}):
        if sum(p for k, p in pulls if k > t) <= sum(q for k, q in pulls if k <= t):
            return t, z[1] - t * z[0]


def verdict(line, shots):
    on = [(i, z) for i, z in enumerate(shots) if z[1] == line[0] * z[0] + line[1]]
    if len({z[0] for _, z in on}) < 2:
        return "untested\tfewer than two speeds on the line"
    best = price(line, shots) == least(shots)
    for place, z in on:
        rise, fall = rates(line, shots, z[0])
        if rise < 0 or fall < 0:
            new = turned(shots, z)
            assert not best and price(new, shots) < price(line, shots)
            a, b = new[0].denominator, new[0].numerator
            return "\t".join(map(str, ("not cheapest", place, rise, fall, a, b, new[1] * a, price(new, shots) * a)))
    assert best
    return "cheapest"


def failing(line, shots):
    """The first shot on the line with a rate below 0, or None."""
    for z in shots:
        if z[1] == line[0] * z[0] + line[1] and min(rates(line, shots, z[0])) < 0:
            return z
    return None


def main():
    data = sys.stdin.buffer.read()
    lines = data.split(b"\n")
    if lines[-1] == b"":
        lines.pop()
    card = numbers(lines[0], (6, 6, 8)) if lines else None
    if card is None or not is_line(*card):
        print("no", 15, 1, sep="\t")
        return
    a, b, c = card
    line = Fraction(b, a), Fraction(c, a)
    shots = []
    for place, text in enumerate(lines[1:], start=2):
        shot = numbers(text, (6, 6, 6, 6))
        refusal = 15 if shot is None else fault(*shot, len(shots))
        if refusal:
            print("no", refusal, place, sep="\t")
            continue
        s, h, w, _ = shot
        off = h - (line[0] * s + line[1])
        side = "late" if off > 0 else "early" if off < 0 else "on"
        print("shot", len(shots), side, off * a, sep="\t")
        shots.append((s, h, w))
    cost = price(line, shots)
    cut = floor(cost * 1000)
    print("total", cost * a, a, f"{cut // 1000}.{cut % 1000:03}", sep="\t")
    print(verdict(line, shots))


if __name__ == "__main__":
    main()
