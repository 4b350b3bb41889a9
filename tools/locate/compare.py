"""Compares `passplan locate` with a separately written SGP4, outside the gate.

Makes accepted element sets (fixed seed): eccentricities from 0 to 0.2, the corner of 0.0001 among them, inclinations from 0 to
175 degrees, drag terms of up to 0.001 in size, perigees from 300 km. Runs the built program for each at ten instants over the
14 days around its epoch, and recomputes the position by tools/equations/reference.py, in 30 digits, from the decimals that the
lines write. What is checked of each run:

- status 0, the first lines and the last, the instant and the number as they were asked for, and OK;
- each coordinate lies between its two bounds, up to 1e-6 km;
- the bounds are at most 10,000 millimetres apart.

How to run it, at the top of the repository, once ./passplan has built the program:

    python3 tools/locate/compare.py [PROGRAM [SETS]]

It prints the seed, the counts and the widest bounds, and ends with status 1 where a check failed.
"""
import datetime
import os
import random
import subprocess
import sys
import tempfile

import mpmath as mp

sys.path[:0] = ["tools/equations", "tools/catalogue"]
from make import two_lines  # noqa: E402
from reference import Satellite  # noqa: E402

mp.mp.dps = 30
SEED = 20260917
INSTANTS = 10
RADIUS_MM = mp.mpf("6378135000")
SLACK_MM = 1
WIDEST_MM = 10_000
DAYS_NANOS = 86_400 * 10**9


class Accepted:
    """An element set of the accepted ranges: its two lines, its epoch in nanoseconds from the start of the year 2000, and the reference."""

    def __init__(self, rng, number):
        while True:
            self.motion = rng.randrange(645_000_000, 1_590_000_000)
            self.ecc = rng.choice((0, 999, 1000, 1001, rng.randrange(20), rng.randrange(20_000), rng.randrange(2_000_001)))
            self.incl = rng.choice((0, 1_750_000, 634_349, 900_000, rng.randrange(1_750_001)))
            self.angles = [rng.choice((0, 900_000, 1_800_000, 3_600_000, rng.randrange(3_600_001))) for _ in range(3)]
            self.drag = (rng.choice((0, 1_000, -1_000, rng.randrange(-99_999, 100_000))), 0)
            self.drag = (self.drag[0], -1) if abs(self.drag[0]) == 1_000 else (self.drag[0], -3)
            self.number = number
            text = lambda units, places: "%d.%0*d" % (units // 10**places, places, units % 10**places)  # noqa: E731
            drag = mp.mpf(self.drag[0]) * mp.mpf(10) ** (self.drag[1] - 5)
            self.reference = Satellite(
                text(self.motion, 8), text(self.ecc, 7), text(self.incl, 4), *(text(a, 4) for a in self.angles), drag
            )
            if self.reference.period_minutes() < mp.mpf("224.99") and self.reference.perigee_km() > mp.mpf("300.01"):
                break
        self.day_units = rng.randrange(10**8, 366 * 10**8)
        self.year = rng.randrange(1958, 2056)
        self.lines = two_lines(
            number, self.year, self.day_units, self.motion, self.ecc, self.incl, *self.angles, self.drag
        )
        start = datetime.datetime(self.year, 1, 1) - datetime.datetime(2000, 1, 1)
        self.epoch = start.days * DAYS_NANOS + (self.day_units - 10**8) * 864_000

    def position_mm(self, nanos):
        minutes = mp.mpf(nanos - self.epoch) / (60 * 10**9)
        vector = self.reference.at(minutes)[3]
        return [vector[axis] * RADIUS_MM for axis in "xyz"]


def to_text(nanos):
    seconds, parts = divmod(nanos, 10**9)
    at = datetime.datetime(2000, 1, 1) + datetime.timedelta(seconds=seconds)
    return at.strftime("%Y-%m-%dT%H:%M:%S") + ".%09dZ" % parts


def instants(rng, epoch):
    """The epoch, both ends of the accepted days, and others between."""
    week = 7 * DAYS_NANOS
    return [epoch, epoch - week, epoch + week] + [epoch + rng.randrange(-week, week + 1) for _ in range(INSTANTS - 3)]


def check(sat, nanos, run, widths):
    """What is wrong with a run, or nothing."""
    if run.returncode != 0:
        return "status %d: %s" % (run.returncode, run.stdout)
    lines = run.stdout.splitlines()
    wanted = ["PASSLOCATE 1", "AT " + to_text(nanos), "SAT %d OK -" % sat.number]
    if lines[:3] != wanted or lines[6:] != ["END"] or [line[:2] for line in lines[3:6]] != ["X ", "Y ", "Z "]:
        return "lines: %s" % run.stdout
    for line, value in zip(lines[3:6], sat.position_mm(nanos)):
        low, high = (int(word) for word in line.split()[1:])
        widths.append(high - low)
        if not low - SLACK_MM <= value <= high + SLACK_MM:
            return "outside: %s, %s" % (line, mp.nstr(value, 20))
        if high - low > WIDEST_MM:
            return "wide: %s" % line
    return None


def main():
    program = os.path.abspath(sys.argv[1] if len(sys.argv) > 1 else "crates/passplan/out/passplan")
    count = int(sys.argv[2]) if len(sys.argv) > 2 else 300
    rng, wrong, widths, runs = random.Random(SEED), [], [], 0
    with tempfile.TemporaryDirectory() as folder:
        for number in range(1, count + 1):
            sat = Accepted(rng, number)
            with open(folder + "/sets", "w") as out:
                out.write("\n".join(sat.lines) + "\n")
            for nanos in instants(rng, sat.epoch):
                words = ["locate", "--catalogue=sets", "--number=%d" % number, "--at=" + to_text(nanos)]
                run = subprocess.run([program] + words, cwd=folder, capture_output=True, text=True)
                runs += 1
                fault = check(sat, nanos, run, widths)
                if fault:
                    wrong.append("%s %s: %s" % (sat.lines, words, fault))
    print("seed %d, %d sets, %d runs, %d wrong" % (SEED, count, runs, len(wrong)))
    if widths:
        print("bounds in millimetres: widest %d, median %d" % (max(widths), sorted(widths)[len(widths) // 2]))
    print("\n".join(wrong[:10]))
    sys.exit(1 if wrong else 0)


if __name__ == "__main__":
    main()
