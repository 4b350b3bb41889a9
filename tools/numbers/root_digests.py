#!/usr/bin/env python3
"""Prints the classes of crates/rows_roots/src/classes.rt with the digests of their roots, from whole roots of large numbers.

An end is a whole number of units of 2^-48. Whole roots are Python's own (`math.isqrt`) or found by halving, of numbers of any size,
with the tolerance of 2^-60 inside the root, and share nothing with the program. Run it anywhere: python3 tools/numbers/root_digests.py
"""
from math import isqrt

ONE, FINE = 2**48, 2**60
LEAST, MOST = -(2**63), 2**63 - 1
MULTIPLIER, ADDEND = 6364136223846793005, 1442695040888963407
CLASSES = [
    (-4, 3, 3), (-4096, 13, 12), (1, 36, 30), (68718428160, 21, 0), (67645734912, 31, 40), (4398045462528, 21, 0),
    (4396972769280, 31, 45), (280375465082880, 41, 0), (1099511627776, 61, 0), (1099511627776, 60, 62),
    (9223367638808264704, 42, 40), (-1125899906842624, 50, 51),
]


def wrapped(n):
    """A whole number as 64 bits with a sign hold it."""
    return (n - LEAST) % 2**64 + LEAST


def whole_cube_root(n):
    low, high = 0, 1 << (n.bit_length() // 3 + 1)
    while high - low > 1:
        middle = (low + high) // 2
        low, high = (middle, high) if middle**3 <= n else (low, middle)
    return low


def square_roots(low, high):
    """From the root of the lower end less the tolerance to the unit above that of the upper end and the tolerance."""
    if high < 0:
        return LEAST, MOST
    spare = ONE * ONE // FINE
    return (isqrt(low * ONE - spare) if low > 0 else 0), (MOST if high == MOST else isqrt(high * ONE + spare) + 1)


def cube_roots(low, high):
    """The same of the cube roots of the squares, of positive numbers alone."""
    if high <= 0:
        return LEAST, MOST
    spare = ONE**3 // FINE
    return (whole_cube_root(max(low**2 * ONE - spare, 0)) if low > 0 else 0), (MOST if high == MOST else whole_cube_root(high**2 * ONE + spare) + 1)


def interval(low, high):
    """An end past the largest is unbounded."""
    return max(min(low, MOST - 1), LEAST + 1), min(high, MOST)


def digest(before, ends):
    for end in ends:
        before = wrapped(before * MULTIPLIER + end)
    return before


def main():
    state = 1
    for first, reach, width in CLASSES:
        squares = cubes = 0
        for _ in range(250):
            further = (state * MULTIPLIER + ADDEND) % 2**64
            state = (further * MULTIPLIER + ADDEND) % 2**64
            low = first + (further >> 1 >> (63 - reach))
            ends = interval(low, low + (state >> 1 >> (63 - width)))
            squares, cubes = digest(squares, square_roots(*ends)), digest(cubes, cube_roots(*ends))
        print(f"({first}, {reach}, {width}, {squares}, {cubes}),")


if __name__ == "__main__":
    main()
