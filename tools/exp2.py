#!/usr/bin/env python3
"""Prints the coefficients of crates/powers/specs/Raised.antt; the proofs there do not depend on this script.

The polynomial is 1 + c1 t + .. + c7 t^7, nearest to 2^t for 0 <= t <= 1 in the greatest relative error (Remez's exchange).
The coefficients become whole multiples of 2^-32 one after the other, lowest first, and the rest is fitted anew each time,
so that a later coefficient makes up for the rounding of an earlier one. What is left at t = 1 goes into the last one:
the sum is at most 2, so that a piece never ends above the next one's start."""
from mpmath import mp, mpf, lu_solve, matrix, nint

mp.dps = 40
DEGREE, UNIT, GRID = 7, 2 ** 32, 2000
points = [mpf(i) / GRID for i in range(GRID + 1)]
power = [mpf(2) ** t for t in points]


def error(cs, i):
    """The relative error at the i-th point of the grid."""
    return sum(c * points[i] ** k for k, c in enumerate(cs)) / power[i] - 1


def extrema(cs, count):
    """Points of the grid with the greatest errors, of alternating signs: the greatest of each stretch of one sign, and of
    these as many as wanted, less those at the ends that are the smaller."""
    best = []
    for i in range(1, GRID + 1):
        e = error(cs, i)
        if best and (best[-1][0] > 0) == (e > 0):
            best[-1] = max(best[-1], (e, i), key=lambda b: abs(b[0]))
        else:
            best.append((e, i))
    while len(best) > count:
        best.pop(0 if abs(best[0][0]) < abs(best[-1][0]) else -1)
    return [i for _, i in best]


def fit(fixed):
    """The best polynomial whose first coefficients are the fixed ones."""
    free = range(len(fixed), DEGREE + 1)
    at = [GRID * (i + 1) // (len(free) + 1) for i in range(len(free) + 1)]
    for _ in range(20):
        rows, right = matrix(len(at), len(at)), matrix(len(at), 1)
        for r, i in enumerate(at):
            for column, k in enumerate(free):
                rows[r, column] = points[i] ** k / power[i]
            rows[r, len(free)] = (-1) ** r
            right[r] = -error(fixed, i)
        cs = fixed + list(lu_solve(rows, right))[:-1]
        after = extrema(cs, len(at))
        if after == at or len(after) < len(at):
            break
        at = after
    return cs


cs = [mpf(1)]
while len(cs) <= DEGREE:
    cs.append(nint(fit(cs)[len(cs)] * UNIT) / UNIT)
cs[DEGREE] -= max(0, sum(cs) - 2)
worst = max(abs(error(cs, i)) for i in range(GRID + 1))
print(*("%08x" % int(c * UNIT) for c in cs[1:]), " greatest relative error: %.3f units of 2^-32" % float(worst * UNIT))
