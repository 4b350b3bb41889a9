#!/usr/bin/env python3
"""Writes crates/rows_shade/src/expected.rt: depths and heights over the Earth's shadow, and which positions are sunlit.

Depths and heights are exact fractions; whether a position is sunlit is found from the angle between it and the Sun and from
its distance, not from these. A number is given by the whole number of units of 2^-48 below it. Run it at the top of the
repository: python3 tools/shade/expected.py
"""
from fractions import Fraction
from math import acos, degrees, floor, sin, sqrt

# directions of the Sun in millionths
SUNS = [
    (1000000, 0, 0),
    (0, 917482, 397777),
    (-577350, 577350, -577350),
    (-707107, -648745, -281268),
]
# positions in millionths of an Earth radius
POSITIONS = [
    (1100000, 0, 0),
    (-1100000, 0, 0),
    (0, 1034000, 0),
    (-600000, 850000, 300000),
    (-400000, 400000, 900000),
    (-1000000, 999999, 0),
    (-1000000, 1000001, 0),
    (2300000, -100000, -50000),
    (-1, 1020000, 0),
    (700000, 700000, -400000),
    (-20000, -1034000, -20000),
    (0, 0, -1069000),
]


def inner(a, b):
    return sum(Fraction(x, 10**6) * Fraction(y, 10**6) for x, y in zip(a, b))


def is_sunlit(position, sun):
    length = lambda v: sqrt(sum(x * x for x in v)) / 1e6
    cosine = sum(x * y for x, y in zip(position, sun)) / 1e12 / length(position) / length(sun)
    angle = acos(max(-1.0, min(1.0, cosine)))
    return degrees(angle) < 90 or length(position) * sin(angle) > 1


def units(x):
    return floor(x * 2**48)


rows = []
for sun in SUNS:
    for position in POSITIONS:
        p = inner(position, sun)
        g = inner(position, position) - p * p - 1
        rows.append((*position, *sun, units(p), units(g), 1 if is_sunlit(position, sun) else 0))

text = [
    "//! Expected values, made by tools/shade/expected.py.",
    "",
    "/// How many positions and Suns there are.",
    f"pub const CASES: usize = {len(rows)};",
    "",
    "/// A position and a direction of the Sun in millionths; the depth and the height in units of 2^-48, rounded down; and",
    "/// 1 where the position is sunlit.",
    "#[rattlefmt::skip]",
    f"static SHADES: [i64; {9 * len(rows)}] = [",
]
text += ["    " + ", ".join(str(n) for n in row) + "," for row in rows]
text += [
    "];",
    "",
    "/// A number of a case.",
    "pub fn shaded(k: usize) -> i64 {",
    "    SHADES.get(k).copied().unwrap_or(0)",
    "}",
    "",
]
open("crates/rows_shade/src/expected.rt", "w").write("\n".join(text))
