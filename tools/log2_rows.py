#!/usr/bin/env python3
"""Prints the rows of crates/logs: src/rows.rt and specs/Rows.antt hold the same numbers. The proof does not depend on this script.

Each sixteenth of an octave of significands m (from 1 to 2) has a polynomial of degree 4 with no negative coefficient, in the
distance u from m to the sixteenth's upper end. Below the cut at 23/16 it is log2(m) / (m - 1), above it -log2(m / 2) / (2 - m).
It is fitted at Chebyshev nodes, in units of 2^-31, and lifted so that it is nowhere below the quotient: what the four floors
of the program take away, at most 19/16 of a unit, is then all that can be missing."""

from mpmath import mp, mpf, cos, log, lu_solve, matrix, pi

mp.prec = 160
ROWS, DEGREE, CUT, UNIT = 16, 4, 7, 2 ** 31
GRID = [mpf(j) / 1024 / ROWS for j in range(1025)]
MARGIN = mpf(1) / 16  # of a unit, for what lies between the points of the grid


def quotient(row, u):
    """What the row's polynomial stands for, at the distance u from its upper end."""
    m = 1 + mpf(row + 1) / ROWS - u
    near, exact = (m - 1, log(m, 2)) if row < CUT else (2 - m, -log(m / 2, 2))
    return exact / near if near else 1 / log(mpf(2)) / (1 if row < CUT else 2)


def polynomial(coefficients, u):
    return sum(c * u ** i for i, c in enumerate(coefficients)) / UNIT


def fitted(row):
    """The polynomial through the Chebyshev nodes, in whole units."""
    n = DEGREE + 1
    nodes = [(1 + cos(pi * (2 * k + 1) / (2 * n))) / 2 / ROWS for k in range(n)]
    solution = lu_solve(matrix([[u ** i for i in range(n)] for u in nodes]), matrix([quotient(row, u) for u in nodes]))
    return [int(mp.nint(c * UNIT)) for c in solution]


def lifted(row):
    """The same, with the least first coefficient for which it is nowhere below the quotient."""
    c = fitted(row)
    c[0] += int(mp.ceil(max((quotient(row, u) - polynomial(c, u)) * UNIT for u in GRID) + MARGIN))
    assert all(0 < x < 2 ** 32 for x in c)
    return c


rows = [lifted(i) for i in range(ROWS)]
for i, c in enumerate(rows):
    excess = max(polynomial(c, u) / quotient(i, u) - 1 for u in GRID)
    print("    [" + ", ".join(f"0x{x:08x}" for x in c) + f"], // above by at most 2^{float(log(excess, 2)):.2f}")
for i, c in enumerate(rows):
    print("    " + ("" if i == 0 else "∷ ") + "(" + " ∷ ".join(f"0x{x:08x}" for x in c) + " ∷ [])")
print("    ∷ []")
