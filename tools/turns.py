#!/usr/bin/env python3
"""Prints the cosines of crates/spectrum: src/turns.rt and specs/Table.antt hold the same numbers. The proof does not depend on this script.

Each is the nearest whole number to 2^61 cos(2 pi j / 128), j from 0 to 32. A row of src/turns.rt is 8 times the cosine."""

import sys

from mpmath import cos, mp, nint, pi

mp.prec = 200
UNIT = 2 ** 61
Q = [int(nint(cos(2 * pi * j / 128) * UNIT)) for j in range(33)]

if sys.argv[1:] == ["rows"]:
    for j in range(1, 32):
        print("    0x%016x," % (8 * Q[j]))
else:
    print("\n    ∷ ".join("0x%x" % q for q in Q) + "\n    ∷ []")
