"""Writes a catalogue of two-line element sets with names, made from their layout alone, with a fixed seed.

    python3 tools/catalogue/make.py COUNT > FILE

The sets are of near-Earth orbits with epochs in the days around 2026-06-15. For trials of speed, outside the gate.
"""
import random
import sys

SEED = 20260615


def check_digit(columns):
    """The digits of the columns, and 1 for each minus sign, modulo 10."""
    return str(sum(int(c) if c.isdigit() else c == "-" for c in columns) % 10)


def closed(columns):
    assert len(columns) == 68, columns
    return columns + check_digit(columns)


def drag_text(digits, power):
    """Sign, five digits behind an implied point, sign and digit of the power of ten."""
    return "%s%05d%s%d" % ("-" if digits < 0 else " ", abs(digits), "-" if power <= 0 else "+", abs(power))


def two_lines(number, year, day_units, motion, ecc, incl, node, argp, anomaly, drag):
    """The two lines of a set: the day in units of 10^-8, the motion in units of 10^-8, the eccentricity in units of
    10^-7, angles in units of 10^-4 degrees, the drag term as digits and power."""
    day = "%03d.%08d" % divmod(day_units, 10**8)
    first = "1 %05dU 26001A   %02d%s  .00000000  00000-0 %s 0  999" % (number, year % 100, day, drag_text(*drag))
    angles = ["%3d.%04d" % divmod(angle, 10**4) for angle in (incl, node, argp, anomaly)]
    second = "2 %05d %s %s %07d %s %s %2d.%08d%5d" % (
        number, angles[0], angles[1], ecc, angles[2], angles[3], motion // 10**8, motion % 10**8, number % 100000
    )
    return closed(first), closed(second)


def random_set(rng, number):
    eccentricity = int(10 ** rng.uniform(0.0, 6.0)) if rng.random() < 0.9 else rng.randrange(2_000_001)
    return two_lines(
        number, 2026, rng.randrange(160 * 10**8, 172 * 10**8), rng.randrange(11 * 10**8, 1570 * 10**6), eccentricity,
        rng.randrange(0, 1_750_000), rng.randrange(3_600_000), rng.randrange(3_600_000), rng.randrange(3_600_000),
        (rng.randrange(-9_999, 99_999), -3),
    )


def main():
    rng = random.Random(SEED)
    for number in range(10_000, 10_000 + int(sys.argv[1])):
        print("OBJECT %d" % number)
        print("\n".join(random_set(rng, number)))


if __name__ == "__main__":
    main()
