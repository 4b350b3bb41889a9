#!/usr/bin/env python3
"""Writes crates/rows_lin/src/expected.rt: what quantities that go along lines, and the results of operations on them, are
at five places of a cell.

Every value is made here from exact fractions, from series and from whole roots, by the meaning of the operations. Run it
at the top of the repository, python3 tools/numbers/slope_values.py, and then rt fmt in the crate.
"""
from fractions import Fraction as F
from math import ceil, floor, isqrt

ONE = 1 << 48
PARTS = 1 << 56
PI = F(3141592653589793238462643383279502884, 10**36)

# from, to, and the same of the other quantity, in units of 2^-48
CASES = [
    (ONE, ONE + ONE // 1000, 3 * ONE, 3 * ONE - ONE // 500),
    (ONE // 2, 3 * ONE // 2, 3 * ONE, 2 * ONE),
    (2 * ONE, 5 * ONE, -4 * ONE, -7 * ONE // 2),
    (5 * ONE, 5 * ONE - ONE // 3, -ONE, 5 * ONE // 2),
    (40 * ONE, 40 * ONE + 1, 3 * ONE // 2, 3 * ONE // 2 + 3),
]
# the places, in sixths of half of the cell
SIXTHS = [-6, -3, 0, 2, 6]


def sine(x):
    total, term, n = F(0), x, 1
    while abs(term) > F(1, 1 << 90):
        total, term, n = total + term, -term * x * x / ((n + 1) * (n + 2)), n + 2
    return total


def cosine(x):
    total, term, n = F(0), F(1), 0
    while abs(term) > F(1, 1 << 90):
        total, term, n = total + term, -term * x * x / ((n + 1) * (n + 2)), n + 2
    return total


def reduced(x):
    return x - round(x / (2 * PI)) * 2 * PI


def square_root(x):
    return F(isqrt(floor(x * (1 << 200))), 1 << 100)


def cube_root(x):
    wanted, root = floor(x * (1 << 300)), 0
    for place in range(110, -1, -1):
        if (root + (1 << place)) ** 3 <= wanted:
            root += 1 << place
    return F(root, 1 << 100)


def on_line(start, end, sixths):
    h = F(sixths, 6)
    return ((1 - h) * F(start, ONE) + (1 + h) * F(end, ONE)) / 2


def values(case, sixths):
    """Of each method, in the order of the test."""
    x = on_line(case[0], case[1], sixths)
    y = on_line(case[2], case[3], sixths)
    floor_of = F(case[1], ONE)
    return [
        F(case[0], ONE), PI, x, x + y, x - y, x * y, x / y, -x, max(x, floor_of),
        sine(reduced(x)), cosine(reduced(x)), square_root(x), cube_root(x * x),
    ]


def written(value):
    """In parts of 2^-56, rounded down."""
    return str(floor(value * PARTS))


# lines that cross 0, touch it at an end, or do not; with even ends, so that their middles are whole
LINES = [
    (2, -4, 3), (2, -4, 6), (-4, 2, 6), (6, 0, 5), (0, -6, 5), (-2, -2, 7), (2, 8, 7), (2, -2, 1), (ONE, -ONE, 864_000_000),
    (2, -2 * ONE, 8_640_000_000), (-ONE, 1_000, 600_000), (1_000, -999_999_000, 1_000_000),
]


# from where to where an angle goes, at most 1 to each side of its middle
TURNS = [
    (ONE // 2, 3 * ONE // 2), (5 * ONE, 5 * ONE - ONE // 3), (3 * ONE, 3 * ONE + ONE // 8), (-ONE, ONE // 64 - ONE), (0, 2 * ONE),
]


def bend_ends(start, end):
    """Between which units a sine less its line lies, and a cosine: from the value in the middle it bends towards 0, by up to half
    of the square of half of the turn, and a sixth of its cube is left to each side."""
    middle, half = F(start + end, 2 * ONE), F(abs(end - start), 2 * ONE)
    spread, ends = half**3 / 6, []
    for value in (sine(reduced(middle)), cosine(reduced(middle))):
        bend = value * (1 - half * half / 2)
        ends += [floor((min(value, bend) - spread) * ONE), ceil((max(value, bend) + spread) * ONE)]
    return ends


def first_parts(start, end, parts):
    """The most of so many equal parts, from the start on, to the end of which a line stays above 0; and those of below 0."""
    def most(a, b):
        if a <= 0:
            return 0
        if b > 0:
            return parts
        return (a * parts - 1) // (a - b)
    return [most(start, end), most(-start, -end)]


def main():
    lines = ["//! Expected values, made by tools/numbers/slope_values.py.", ""]
    lines += ["/// From where to where a quantity and another go, in units of 2^-48.", f"pub const CASES: [[i64; 4]; {len(CASES)}] = ["]
    lines += ["    [" + ", ".join(map(str, case)) + "]," for case in CASES]
    lines += ["];", ""]
    lines += ["/// Places of a cell, in sixths of half of it from its middle.", f"pub const PLACES: [i64; {len(SIXTHS)}] = [" + ", ".join(map(str, SIXTHS)) + "];", ""]
    lines += ["/// What each method gives at each place of each case, in parts of 2^-56, rounded down.", f"pub const VALUES: [[i64; 13]; {len(CASES) * len(SIXTHS)}] = ["]
    for case in CASES:
        for sixths in SIXTHS:
            lines += ["    [" + ", ".join(map(written, values(case, sixths))) + "],"]
    lines += ["];", ""]
    lines += ["/// From where to where a line goes, in units of 2^-48.", f"pub const LINES: [[i64; 2]; {len(LINES)}] = ["]
    lines += ["    [" + ", ".join(map(str, line[:2])) + "]," for line in LINES]
    lines += ["];", ""]
    lines += ["/// Parts of the cell; and how many of them, from the start on and then from the end back, lie above 0 and below 0.", f"pub const COUNTS: [[u64; 5]; {len(LINES)}] = ["]
    lines += ["    [" + ", ".join(map(str, [n] + first_parts(a, b, n) + first_parts(b, a, n))) + "]," for a, b, n in LINES]
    lines += ["];", ""]
    lines += ["/// From where to where an angle goes; and between which units a sine less its line lies there, and a cosine.", f"pub const TURNS: [[i64; 6]; {len(TURNS)}] = ["]
    lines += ["    [" + ", ".join(map(str, [a, b] + bend_ends(a, b))) + "]," for a, b in TURNS]
    lines += ["];", ""]
    with open("crates/rows_lin/src/expected.rt", "w") as file:
        file.write("\n".join(lines))


main()
