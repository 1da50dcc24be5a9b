#!/usr/bin/env python3
"""How many keys the balance point counts at 512 pulls: the bracketing of crates/balance, step by step.

Each turn picks the middle one, by place, of the keys strictly between the highest known to fail and the lowest known
to hold, and counts both sides there. Prints the turns for several orders of keys, and a bad order found by search.
"""
import random


def turns(keys, under, over):
    """The balance key, and how many keys were counted on the way."""
    low, high, counted = None, max(keys), 0
    while True:
        between = [k for k in keys if (low is None or low < k) and k < high]
        if not between:
            return high, counted
        key = between[len(between) // 2]
        counted += 1
        above = sum(u for k, u in zip(keys, under) if k > key)
        upto = sum(o for k, o in zip(keys, over) if k <= key)
        if above <= upto:
            high = key
        else:
            low = key


def by_rule(keys, under, over):
    """The balance key by the definition alone."""
    for t in sorted(set(keys)):
        if sum(u for k, u in zip(keys, under) if k > t) <= sum(o for k, o in zip(keys, over) if k <= t):
            return t


def bad(n):
    """An order in which the middle key is always the lowest of those left, so that each turn drops one key."""
    places = list(range(n))
    keys = [0] * n
    for key in range(n):
        keys[places.pop(len(places) // 2)] = key
    return keys


def show(name, keys, under=None, over=None):
    under = under or [1] * len(keys)
    over = over or [1] * len(keys)
    key, counted = turns(keys, under, over)
    assert key == by_rule(keys, under, over)
    print(f"{name}\t{counted}")


random.seed(1)
n = 512
show("rising", list(range(n)))
show("falling", list(range(n, 0, -1)))
show("equal", [7] * n)
counts = []
for _ in range(200):
    keys = [random.randrange(-10**6, 10**6) for _ in range(n)]
    counts.append(turns(keys, [1] * n, [1] * n)[1])
print(f"random, least, mean and most of 200\t{min(counts)}\t{sum(counts) / len(counts):.1f}\t{max(counts)}")
show("worst order, even prices", bad(n - 1) + [n])
show("worst order, dear to be under", bad(n - 1) + [n], [8000000] * n, [1] * n)
