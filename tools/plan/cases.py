"""Random plans for the comparison of plans: files of element sets, station files, windows.

Each plan is made from a seed and its number alone, so that one can be made again by itself. All element sets are of those that
the program accepts: eccentricities to 0.2, inclinations to 175 degrees, drag terms to 0.001 in size, perigees from 300 km, periods
below 225 minutes, epochs within seven days of both ends of the window. The corners are drawn more often than by chance. Some
stations have a mask that a pass just reaches, some equatorial ones a border of the mask along which an equatorial satellite moves.
"""
import datetime
import math
import random

import numpy as np

from orbit import Orbit
from sky import Sky, Station

TICK = 10_000
SECOND = 10**9  # nanoseconds
DAY = 86_400
WEEK_NANOS = 7 * DAY * SECOND
NOON = datetime.datetime(2000, 1, 1, 12)
LETTERS = "ABCDEFGHJKLMNPQRSTUVWXYZ"  # of catalogue numbers from 100,000, which have 10 to 33 for the first two digits
ACCEPTED_KM = 300.01
ACCEPTED_MINUTES = 224.99


def seconds_to(*day):
    delta = datetime.datetime(*day) - NOON
    return delta.days * DAY + delta.seconds


def instant(nanos, places):
    """An instant in nanoseconds from J2000, with so many decimals."""
    seconds, rest = divmod(nanos, SECOND)
    at = NOON + datetime.timedelta(seconds=seconds)
    parts = ("%09d" % rest)[:places]
    return at.isoformat() + ("." + parts if places else "") + "Z"


def fixed(units, places):
    """A decimal of whole units of a power of ten."""
    sign = "-" if units < 0 else ""
    return sign + "%d.%0*d" % (abs(units) // 10**places, places, abs(units) % 10**places)


def printed(name):
    """A name as the program prints it: each byte outside 32 to 126 as a question mark."""
    return "".join(chr(byte) if 32 <= byte <= 126 else "?" for byte in name.encode())


class Sat:
    """An element set: the texts of its numbers, its epoch in nanoseconds from J2000, and its orbit."""

    def __init__(self, rng, number, first, last, is_flat):
        self.number, self.name = number, rng.choice(["-", "-", "OBJECT %d" % number, "ISS (ZARYA)", "A  B/C, \"D\" $E$"])
        while True:
            self.draw(rng, is_flat)
            values = [float(text) for text in (self.motion, self.ecc, self.incl, *self.angles, self.bstar)]
            self.orbit = Orbit(*values)
            if self.orbit.perigee_km >= ACCEPTED_KM and self.orbit.period <= ACCEPTED_MINUTES:
                break
        low, high = last - WEEK_NANOS, first + WEEK_NANOS
        at = rng.choice([low, high, first, *(rng.randint(low, high) for _ in range(5))])
        least, most = seconds_to(1957, 1, 1), seconds_to(2057, 1, 1) - 1
        self.least = max(low, least * SECOND)
        self.epoch = min(max(at, self.least), most * SECOND, high)

    def draw(self, rng, is_flat):
        ecc = rng.choice([0, 999, 1000, 1001, rng.randrange(20), rng.randrange(20_000), rng.randrange(20_000), rng.randrange(2_000_001), 2_000_000])
        perigee = rng.choice([rng.uniform(300, 310), rng.uniform(300, 1500), rng.uniform(300, 1500), rng.uniform(300, 8000)])
        axis = (1 + perigee / 6378.135) / (1 - ecc / 1e7)
        motion = 0.0743669161 / axis**1.5 * 1440 / (2 * math.pi)
        incl = 0 if is_flat else rng.choice([0, 1_750_000, 634_349, 900_000, *(rng.randrange(1_750_001) for _ in range(6))])
        self.motion, self.ecc, self.incl = fixed(round(motion * 1e8), 8), fixed(ecc, 7), fixed(incl, 4)
        self.angles = [fixed(rng.choice([0, 900_000, 3_600_000, rng.randrange(3_600_001), rng.randrange(3_600_001)]), 4) for _ in range(3)]
        digits = rng.choice([0, 99_999, -99_999, rng.randrange(-99_999, 100_000), rng.randrange(100_000), rng.randrange(1_000)])
        self.drag = rng.choice([(digits, -2), (digits, -3), (digits, -5), (10_000, -2), (-10_000, -2)])
        if abs(self.drag[0]) > 10_000 and self.drag[1] == -2:
            self.drag = (self.drag[0], -3)
        self.bstar = "%dE%d" % (self.drag[0], self.drag[1] - 5)

    def minutes(self, start, at):
        """Minutes from the epoch of seconds from a window's start, which is a tick."""
        return (start * (SECOND // TICK) - self.epoch) / (60 * SECOND) + at / 60.0

    def two_lines(self, rng):
        """The set in two lines; the epoch goes to the unit that these have."""
        number = "%05d" % self.number if self.number < 100_000 else LETTERS[self.number // 10_000 - 10] + "%04d" % (self.number % 10_000)
        year = (NOON + datetime.timedelta(seconds=self.epoch // SECOND)).year
        units = (self.epoch - seconds_to(year, 1, 1) * SECOND) // 864_000
        units += seconds_to(year, 1, 1) * SECOND + units * 864_000 < self.least
        self.epoch = seconds_to(year, 1, 1) * SECOND + units * 864_000
        day = "%03d.%08d" % divmod(units + 10**8, 10**8)
        digits, power = self.drag
        drag = "%s%05d%s%d" % ("-" if digits < 0 else " ", abs(digits), "-" if power <= 0 else "+", abs(power))
        one = "1 %sU 26001A   %02d%s  .00000000  00000-0 %s 0  999" % (number, year % 100, day, drag)
        angles = "%8s %8s %s %8s %8s" % (self.incl, self.angles[0], self.ecc[2:], *self.angles[1:])
        two = "2 %s %s %11s    1" % (number, angles, self.motion)
        name = [] if self.name == "-" else [rng.choice(["", "0 ", "  "]) + self.name]
        return name + [closed(one), closed(two)]

    def message(self):
        name = [] if self.name == "-" else ["OBJECT_NAME = " + self.name]
        keys = ["MEAN_MOTION", "ECCENTRICITY", "INCLINATION", "RA_OF_ASC_NODE", "ARG_OF_PERICENTER", "MEAN_ANOMALY", "BSTAR", "NORAD_CAT_ID"]
        values = [self.motion, self.ecc, self.incl, *self.angles, self.bstar, str(self.number)]
        head = ["CCSDS_OMM_VERS = 2.0", *name, "MEAN_ELEMENT_THEORY = SGP4", "EPOCH = " + instant(self.epoch, 9)]
        return head + ["%s = %s" % row for row in zip(keys, values)]


def closed(columns):
    """A line with its check digit."""
    assert len(columns) == 68, columns
    return columns + str(sum(int(c) if c.isdigit() else c == "-" for c in columns) % 10)


class Row:
    """A row of the station file, as texts, and its station."""

    def __init__(self, rng, index, is_flat):
        self.name = rng.choice(["Station %d" % index, "%d-K\u00f6ln" % index, "  %d" % index, "\"%d\\\"" % index])
        lat = rng.choice([0, 90, -90, 67.9, 48.1, *(round(rng.uniform(-90, 90), rng.randrange(10)) for _ in range(8))])
        lon = rng.choice([0, -180, 360, *(round(rng.uniform(-180, 360), rng.randrange(10)) for _ in range(6))])
        height = rng.choice([0, -500, 9000, round(rng.uniform(-500, 9000), rng.randrange(4))])
        self.texts = [repr(0 if is_flat else lat), repr(lon), repr(height)]
        floors = [0, 5, 10, 30, -90, 89, 90, round(rng.uniform(-10, 60), rng.randrange(8)), round(rng.uniform(0, 20), rng.randrange(8))]
        self.borders, self.floors, self.is_one = ["0", "90", "180", "270"], [repr(rng.choice(floors))] * 4, True
        if is_flat or rng.random() < 0.5:
            self.is_one = False
            self.borders = ["0", "90", "180", "270"] if is_flat else drawn_borders(rng)
            self.floors = [repr(round(rng.uniform(-10, 45), rng.randrange(8))) for _ in self.borders]
        self.fix()

    def fix(self):
        lat, lon, height = (float(text) for text in self.texts)
        self.station = Station(lat, lon, height, [float(b) for b in self.borders], [float(f) for f in self.floors])

    def raise_to(self, floor):
        self.floors = [repr(floor)] * len(self.borders)
        self.fix()

    def toml(self):
        quoted = self.name.replace("\\", "\\\\").replace('"', '\\"')
        lines = ["[[station]]", 'name = "%s"' % quoted] + ['%s = "%s"' % row for row in zip(("lat", "lon", "height"), self.texts)]
        if self.is_one:
            return lines + ['mask = "%s"' % self.floors[0]]
        return lines + ["%s = [%s]" % (key, ", ".join('"%s"' % text for text in texts)) for key, texts in (("borders", self.borders), ("masks", self.floors))]


def drawn_borders(rng):
    """Borders with no gap above 90 degrees."""
    while True:
        borders = sorted({round(rng.uniform(0, 359.999), rng.randrange(7)) for _ in range(rng.choice([4, 5, 8, 12, 40]))})
        gaps = [b - a for a, b in zip(borders, borders[1:] + [borders[0] + 360])]
        if len(borders) >= 4 and max(gaps) <= 90 and borders[-1] < 360:
            return [repr(border) for border in borders]


class Case:
    """A plan that is asked for: start and end in ticks from J2000, the resolution, the offset, satellites and stations."""

    def __init__(self, seed, number):
        rng = self.rng = random.Random("%d plan %d" % (seed, number))
        length = round(60 * TICK * (14_400 ** rng.random()))
        year = rng.randrange(1957, 2057)
        low, high = seconds_to(year, 1, 1) * TICK, seconds_to(year + 1, 1, 1) * TICK - length - TICK
        self.start = rng.randint(low, high)
        self.end = self.start + length
        self.res = rng.randint(1, 60)
        self.dut1 = rng.choice([0, 0, 900, -900, rng.randint(-900, 900), rng.randint(-900, 900)])
        is_flat = rng.random() < 0.1
        self.is_message = rng.random() < 0.5
        most = 10**9 if self.is_message else 340_000
        numbers = rng.sample(range(1, most), rng.randint(1, 5))
        first, last = (tick * (SECOND // TICK) for tick in (self.start, self.end))
        self.sats = [Sat(rng, number, first, last, is_flat and k == 0) for k, number in enumerate(numbers)]
        self.catalogue = self.written(rng)
        self.rows = [Row(rng, index, is_flat and index == 1) for index in range(1, rng.randint(1, 3) + 1)]
        self.sky = Sky(self.start, self.dut1)
        if not is_flat and rng.random() < 0.3:
            self.touch(rng)
        self.stations = self.station_file(rng)

    def written(self, rng):
        lines = [line for sat in self.sats for line in (sat.message() if self.is_message else sat.two_lines(rng))]
        return "".join(line + rng.choice(["\n", "\n", " \n", "\r\n"]) for line in lines).encode()

    def touch(self, rng):
        """A mask whose floor is the greatest elevation of a pass, to 10 decimals of a degree."""
        sat, row = rng.choice(self.sats), self.rows[0]
        at = np.linspace(0.0, (self.end - self.start) / TICK, 20_001)
        up = row.station.sight(self.sky.sidereal(at), sat.orbit.at(sat.minutes(self.start, at)))[2]
        peaks = [k for k in range(1, len(at) - 1) if up[k - 1] < up[k] >= up[k + 1] and up[k] > 0.0]
        if peaks:
            row.raise_to(round(math.degrees(math.asin(min(1.0, self.peak(sat, row.station, at, rng.choice(peaks))))), 10))

    def peak(self, sat, station, at, k):
        low, high = at[k - 1], at[k + 1]
        for _ in range(6):
            near = np.linspace(low, high, 101)
            up = station.sight(self.sky.sidereal(near), sat.orbit.at(sat.minutes(self.start, near)))[2]
            best = int(np.argmax(up))
            low, high = near[max(best - 1, 0)], near[min(best + 1, 100)]
        return float(up[best])

    def station_file(self, rng):
        is_first = self.dut1 == 0 and rng.random() < 0.5
        head = ["version = 1"] if is_first else ["version = 2", "dut1_ms = %d" % self.dut1]
        return "\n".join(head + [line for row in self.rows for line in row.toml()]).encode() + b"\n"

    def words(self):
        start, end = (instant(tick * (SECOND // TICK), 4) for tick in (self.start, self.end))
        return ["plan", "--catalogue=c", "--stations=s", "--start=" + start, "--end=" + end, "--res=%d" % self.res]
