#!/usr/bin/env python3
"""Prints the coefficients of crates/circle/specs/Kernel.antt and the digits of crates/circle/specs/Phase.antt; the proofs
there do not depend on this script.

sin(pi t / 2) for 0 <= t <= 1 is nearest to c1 t - c3 t^3 + .. - c11 t^11 in the greatest absolute error (Remez's exchange).
The coefficients become whole numbers one after the other, c1 of 2^-31 and the others of 2^-32, and the rest is fitted anew
each time, so that a later coefficient makes up for the rounding of an earlier one.

The digits are those of 1 / (2 pi) after 64 zeros, in words of 32: as many as angles below 2^(LARGEST + 1) need, which is every
finite float. Their last window ends 168 digits after the point. Before them stand the first 63 in one number: angles below
2^23 need no more."""
from mpmath import mp, mpf, lu_solve, matrix, nint, sin, pi, floor

mp.dps = 90
TERMS, GRID, LARGEST = 6, 1500, 127
UNITS = [2 ** 31] + [2 ** 32] * (TERMS - 1)
points = [mpf(i) / GRID for i in range(GRID + 1)]
wave = [sin(pi / 2 * t) for t in points]


def error(cs, i):
    """The error at the i-th point of the grid."""
    return sum(c * points[i] ** (2 * k + 1) for k, c in enumerate(cs)) - wave[i]


def extrema(cs, count):
    """Points of the grid with the greatest errors, of alternating signs: the greatest of each stretch of one sign, and of
    these as many as wanted, less those at the ends that are the smaller."""
    best = []
    for i in range(1, GRID + 1):
        e = error(cs, i)
        if best and (best[-1][0] > 0) == (e > 0):
            best[-1] = max(best[-1], (e, i), key=lambda b: abs(b[0]))
        else:
            best.append((e, i))
    while len(best) > count:
        best.pop(0 if abs(best[0][0]) < abs(best[-1][0]) else -1)
    return [i for _, i in best]


def fit(fixed):
    """The best polynomial whose first coefficients are the fixed ones."""
    free = range(len(fixed), TERMS)
    at = [GRID * (i + 1) // (len(free) + 1) for i in range(len(free) + 1)]
    for _ in range(20):
        rows, right = matrix(len(at), len(at)), matrix(len(at), 1)
        for r, i in enumerate(at):
            for column, k in enumerate(free):
                rows[r, column] = points[i] ** (2 * k + 1)
            rows[r, len(free)] = (-1) ** r
            right[r] = -error(fixed, i)
        cs = fixed + list(lu_solve(rows, right))[:-1]
        after = extrema(cs, len(at))
        if after == at or len(after) < len(at):
            break
        at = after
    return cs


cs = []
while len(cs) < TERMS:
    cs.append(nint(fit(cs)[len(cs)] * UNITS[len(cs)]) / UNITS[len(cs)])
worst = max(abs(error(cs, i)) for i in range(GRID + 1))
print(*("%08x" % int(abs(c) * u) for c, u in zip(cs, UNITS)), " greatest error: %.3f units of 2^-32" % float(worst * 2 ** 32))

# a float below 2^(LARGEST + 1) has 23 digits more after its first; a phase has 64 digits after the point
words = (LARGEST + 64 - 23) // 32 + 1
digits = int(floor(mpf(2) ** (32 * words) / (2 * pi)))
print("%016x" % (digits >> 32 * words - 63))
print(*("%08x" % (digits >> 32 * i & 0xFFFFFFFF) for i in reversed(range(words))))
