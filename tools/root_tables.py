#!/usr/bin/env python3
"""Derives the tables of first guesses in crates/roots/src: for each sixteenth of the two octaves of significands, four
whole coefficients of a polynomial of degree 3 in the distance from the piece's upper end. Nothing is proved from them: the
tests behind the guess make the result right whatever the guess is, and the tables decide only how often they find
something to do.

On a piece the function, in units of 2^-8 of the result's last place, is fitted at Chebyshev nodes; the highest coefficient
is rounded, the lower ones are fitted again to what is left, and so on; the constant is put in the middle of the last error.
Run it with no argument: it prints both tables as they stand in the source."""

import math

WIDTH = 1 << 19  # significands in a piece


def solve(matrix, right):
    """Gauss and Jordan, with pivots."""
    n = len(right)
    rows = [row + [y] for row, y in zip(matrix, right)]
    for i in range(n):
        p = max(range(i, n), key=lambda r: abs(rows[r][i]))
        rows[i], rows[p] = rows[p], rows[i]
        for r in range(n):
            if r != i:
                f = rows[r][i] / rows[i][i]
                rows[r] = [x - f * y for x, y in zip(rows[r], rows[i])]
    return [rows[i][n] / rows[i][i] for i in range(n)]


def highest(g, degree):
    """The last coefficient of the fit of g by a polynomial over 0 to 1."""
    n = degree + 1
    nodes = [(1 - math.cos(math.pi * (2 * i + 1) / (2 * n))) / 2 for i in range(n)]
    return solve([[t ** i for i in range(n)] for t in nodes], [g(t) for t in nodes])[-1]


def piece(g, sign):
    """Four coefficients of g on one piece, all of them positive, the sign being that of the last three."""
    row = [0] * 4
    for d in (3, 2, 1):
        row[d] = round(highest(g, d) * sign)
        assert 0 <= row[d] < 1 << 32
        g = lambda t, g=g, d=d, v=sign * row[d]: g(t) - v * t ** d
    left = [g(i / 256) for i in range(257)]
    row[0] = min(round((max(left) + min(left)) / 2), (1 << 32) - 1)
    return row


def show(name, f, octaves, sign):
    """The rows as a table, which lies in read-only memory."""
    print(f"static {name}: Rows = [")
    for i in range(32):
        end = (17 + i % 16) * WIDTH
        row = piece(lambda t: 256 * f(octaves[i // 16], end - WIDTH * t), sign)
        print("    [" + ", ".join(f"0x{v >> 16:04x}_{v & 0xffff:04x}" for v in row) + "],")
    print("];")


# The root of m * 2 ^ (23 + odd), which falls with the distance, and that of 2 ^ (70 + odd) / m, which grows.
show("ROOTS", lambda odd, m: math.sqrt(m * 2.0 ** (23 + odd)), (0, 1), -1)
show("RECIPROCALS", lambda odd, m: 2.0 ** 35 * math.sqrt(2.0 ** odd / m), (1, 0), 1)
