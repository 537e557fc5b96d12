#!/usr/bin/env python3
"""How close do floats come to multiples of pi/2? For docs/DECISIONS.md: no proof depends on this script, and neither does
an absolute bound. A relative one would, since near such a multiple the sine or the cosine is as small as the distance.

A float is m 2^e with 2^23 <= m < 2^24. For each e the least distance of m times a from a whole number is sought, where a
is 2^e over pi/2, by halving the distance and asking for the first m that is so close."""
from mpmath import mp, mpf, floor, log, nint, pi

mp.prec = 600
PLACES, LEAST = 1 << 400, 1 << 23


def first(a, turn, low, high):
    """The least j >= 0 with low <= a j mod turn <= high, or None: as in the greatest common divisor, by smaller turns."""
    if low == 0:
        return 0
    if a == 0:
        return None
    if 2 * a > turn:
        return first(turn - a, turn, turn - high, turn - low)
    steps = -(-low // a)
    if steps * a <= high:
        return steps
    rounds = first(-turn % a, a, low % a, high % a)
    return None if rounds is None else -(-(low + turn * rounds) // a)


def closest(exponent):
    """The m whose m 2^exponent is the closest to a multiple of pi/2, with the multiple and the distance."""
    a = int(floor(PLACES * (mpf(2) ** exponent * 2 / pi))) % PLACES

    def within(distance):
        low, high = (-distance - a * LEAST) % PLACES, (distance - a * LEAST) % PLACES
        j = first(a, PLACES, low, high) if low <= high else 0
        return None if j is None or j >= LEAST else LEAST + j

    low, high = 0, PLACES // 2 - 1
    while high - low > PLACES >> 60:
        middle = (low + high) // 2
        low, high = (middle, high) if within(middle) is None else (low, middle)
    m = within(high)
    multiple = nint(m * mpf(2) ** exponent * 2 / pi)
    return abs(m * mpf(2) ** exponent - multiple * pi / 2), int(multiple), m


found = sorted((*closest(e), e) for e in range(-23, 105))
for distance, multiple, m, e in found[:4]:
    pattern = (e + 150 << 23) + m - LEAST
    print("%08x, %d * 2^%d: 2^%.3f from an %s multiple" % (pattern, m, e, log(distance, 2), "odd" if multiple % 2 else "even"))
