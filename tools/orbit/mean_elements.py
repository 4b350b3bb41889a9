#!/usr/bin/env python3
"""Writes crates/rows_orbit/src/expected.rt: constants of element sets and their mean elements at some times.

Both come from tools/equations/reference.py, which shares nothing with the program, to 50 digits; a number is given by the
whole number of units of 2^-48 below it. Run it at the top of the repository: python3 tools/orbit/mean_elements.py
"""

import mpmath as mp

from shared import FIVE_SETS, Satellite, scaled_constants

MINUTES = [-10080, -1, 0, 97, 1440, 10080]


def units(x):
    return int(mp.floor(x * 2**48))


def main():
    rows = []
    for numbers in FIVE_SETS:
        satellite = Satellite(*numbers)
        fields = [units(number) for number in scaled_constants(satellite)]
        for minutes in MINUTES:
            secular, mean, _, _ = satellite.at(minutes)
            assert -0.001 <= secular["ecc"] < 1
            rows.append((fields, minutes, [units(mean[name]) for name in ("am", "em", "ml", "wm", "om")]))
    with open("crates/rows_orbit/src/expected.rt", "w") as out:
        out.write("//! Expected values, made by tools/orbit/mean_elements.py.\n\n")
        out.write("/// Constants, minutes from the epoch and mean elements: numbers of units of 2^-48, rounded down.\n")
        out.write("pub const ROWS: [([i64; 32], i64, [i64; 5]); %d] = [\n" % len(rows))
        for fields, minutes, mean in rows:
            out.write("    (%s, %d, %s),\n" % (fields, minutes, mean))
        out.write("];\n")


main()
