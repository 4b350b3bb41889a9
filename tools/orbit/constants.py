#!/usr/bin/env python3
"""Writes crates/rows_init/src/expected.rt: the constants of twenty element sets.

They come from tools/equations/reference.py, which shares nothing with the program, to 50 digits; a number is given by the
whole numbers of units of 2^-48 next to it. Run it at the top of the repository: python3 tools/orbit/constants.py
"""

import mpmath as mp

from shared import Satellite, scaled_constants

# motion (revolutions per day), eccentricity, inclination, node, argument of perigee, mean anomaly, B*
SETS = [
    ("10.82419157", "0.1859667", "34.2682", "348.7242", "331.7664", "19.3264", "0.000028098"),
    ("15.72125391", "0.0006703", "51.6416", "247.4627", "130.5360", "325.0288", "-0.000011606"),
    ("15.00000000", "0.0010000", "0.0000", "0.0000", "0.0000", "0.0000", "0"),
    ("15.48919393", "0.0006703", "51.6416", "247.4627", "130.5360", "325.0288", "0.00011606"),
    ("14.19552001", "0.0011476", "98.7000", "12.3456", "88.1234", "271.9876", "0.000043"),
    ("11.25000000", "0.1200000", "63.4349", "300.5000", "270.0000", "15.2500", "-0.001"),
    ("15.70000000", "0.0000000", "0.0000", "0.0000", "0.0000", "0.0000", "0.001"),
    ("7.00000000", "0.1999999", "174.9999", "359.9999", "180.0000", "90.0000", "0.0005"),
    ("15.80000000", "0.0001000", "30.0000", "10.0000", "20.0000", "30.0000", "0.001"),
    ("15.80000000", "0.0001001", "30.0000", "10.0000", "20.0000", "30.0000", "0.001"),
    ("15.80000000", "0.000100000000000001", "90.0000", "-360.0000", "-90.0000", "-180.0000", "-0.001"),
    ("6.50000000", "0.2000000", "175.0000", "360.0000", "360.0000", "360.0000", "0.001"),
    ("11.20000000", "0.2000000", "0.0000", "1.0000", "1.0000", "1.0000", "0.001"),
    ("11.20000000", "0.2000000", "175.0000", "123.4567", "45.6789", "234.5678", "-0.001"),
    ("6.40000000", "0.00000001", "89.99999999", "0.00000001", "359.99999999", "180.00000001", "-0.000000001"),
    ("14.00000000", "0.0500000", "116.5650", "200.0000", "90.0000", "270.0000", "0.0002"),
    ("13.00000000", "0.0800000", "54.7356", "77.0000", "135.0000", "225.0000", "0.00098765"),
    ("9.00000000", "0.1000000", "5.0000", "33.3333", "66.6667", "99.9999", "0.000123456789012345"),
    ("15.89000000", "0", "97.0000", "359.0000", "45.0000", "179.0000", "-0.00075"),
    ("12.50000000", "0.1300000", "28.5000", "15.0000", "315.0000", "345.0000", "0.00033"),
]


def units(x):
    return "[%d, %d]" % (int(mp.floor(x * 2**48)), int(mp.ceil(x * 2**48)))


def main():
    with open("crates/rows_init/src/expected.rt", "w") as out:
        out.write("//! Expected values, made by tools/orbit/constants.py.\n\n")
        out.write("/// The mean motion in revolutions per day, the eccentricity, four angles in degrees and the drag term.\n")
        out.write("pub type Given = [&'static [u8]; 7];\n\n")
        out.write("/// What is given.\n")
        out.write("pub const GIVEN: [Given; %d] = [\n" % len(SETS))
        for numbers in SETS:
            out.write("    [%s],\n" % ", ".join('b"%s"' % word for word in numbers))
        out.write("];\n\n")
        out.write("/// The constants of each set: for each the numbers of units of 2^-48 next to it.\n")
        out.write("pub const EXPECTED: [[[i64; 2]; 32]; %d] = [\n" % len(SETS))
        for numbers in SETS:
            satellite = Satellite(*numbers)
            assert satellite.period_minutes() < 225 and satellite.perigee_km() >= 300
            fields = [units(number) for number in scaled_constants(satellite)]
            out.write("    [%s],\n" % ", ".join(fields))
        out.write("];\n")


main()
