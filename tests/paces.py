#!/usr/bin/env python3
"""What `paces` has to answer, by the arithmetic of the second program in appraise.py and no code of the library."""
from appraise import failing, price, rates, through, turned


def speed(i):
    return 1 + i * 2654435761 % 2**32 % 4000


def lead(i):
    return speed(i) if i % 2 == 0 else speed(i) + i * 40503 % 2**32 % 999 - 499


def pace(count):
    shots = [(speed(i), lead(i), 1) for i in range(count)]
    line, pivots = through(shots[0], next(z for z in shots if z[0] != shots[0][0])), 1
    while (z := failing(line, shots)) is not None:
        line, pivots = turned(shots, z), pivots + 1
    total = price(line, shots) * line[0].denominator
    print(f"{count} shots: {pivots + 1} pivots")
    print(f"{count} shots: 100 totals add up to {100 * total}")
    print(f"{count} shots: 100 offsets add up to {sum(offset(7, b, shots) for b in range(100))}")
    on = [rates(line, shots, s) for s, h, _ in shots if h == line[0] * s + line[1]]
    print(f"{count} shots: rates, up less down, add up to {sum(rise - fall for rise, fall in on[:100])}")


def offset(a, b, shots):
    """The lowest key for which the weight of all keys above is at most that of all keys at or below."""
    keys = sorted(a * h - b * s for s, h, _ in shots)
    return next(t for t in keys if sum(k > t for k in keys) <= sum(k <= t for k in keys))


for n in (8, 64, 512):
    pace(n)
