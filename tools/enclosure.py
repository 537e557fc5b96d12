#!/usr/bin/env python3
"""Prints the constants of crates/exact/proofs/Tight.antt, and those of crates/fine; the proofs do not depend on this script.

b / 2^r is the nearest fraction to ln 2, from above and from below, that r rounded squarings of 1 +- b / 2^(2 r) can tell from it."""


def squared(x, r):
    for _ in range(r):
        x = x * x >> 2 * r
    return x


def least(test, top):
    """The least number from 0 to top that passes a test which, once passed, stays so."""
    low, high = 0, top
    while low < high:
        mid = (low + high) // 2
        low, high = (low, mid) if test(mid) else (mid + 1, high)
    return low


def enclosure(r, degree, unit):
    c, w = 2 ** r, 2 ** (2 * r)
    b = least(lambda b: squared(w + b, r) >= 2 * w, c)
    upper = [unit]
    for i in range(1, degree):
        upper.append(-(-b * upper[-1] // (c * i)))
    upper.append(-(-b * upper[-1] // (c * degree - b)))
    print("above", hex(b), *map(hex, upper))

    b = least(lambda b: 2 * squared(w - b, r) < w, c) - 1
    lower = [unit]
    for i in range(1, degree + 1):
        lower.append(b * lower[-1] // (c * i))
    print("below", hex(b), *map(hex, lower))


enclosure(44, 12, 2 ** 48)  # Tight
enclosure(72, 17, 2 ** 64)  # fine
