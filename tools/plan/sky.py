"""The turning Earth, stations with their masks, the Sun and the shadow, in floating point, over many instants at once.

By the public formulas that docs/FORMATS.md and docs/EQUATIONS.md name: Greenwich mean sidereal time of 1982, the low-precision
Sun of the Astronomical Almanac, an ellipsoid of 1/298.257223563, a shadow that is a cylinder of one Earth radius. The comparison
of plans stands on it. Instants are seconds from the start of a window, lengths are Earth radii.
"""
import math
from fractions import Fraction

import numpy as np

RADIUS_KM = 6378.135
EQUATOR_KM = 6378.137
FLAT = (1.0 - 1.0 / 298.257223563) ** 2
CENTURY = 3_155_760_000
TICK = 10_000
BORDER = 1e-9  # so near to a border of a mask the comparison does not say which sector holds


class Sky:
    """The sidereal angle and the Sun in a window that begins at a tick, with UT1 - UTC in milliseconds."""

    def __init__(self, start, dut1):
        self.start = Fraction(start, TICK)
        at = self.start + Fraction(dut1, 1000)
        self.turn_rate = Fraction("8640184.812866") + 876_600 * 3600
        self.turn0 = float((Fraction("67310.54841") + self.turn_rate * at / CENTURY) % 86_400)
        self.turn_rate = float(self.turn_rate / CENTURY)
        self.centuries0 = float(at / CENTURY)
        days = self.start / 86_400
        self.long0 = float((Fraction("280.460") + Fraction("0.9856474") * days) % 360)
        self.mean0 = float((Fraction("357.528") + Fraction("0.9856003") * days) % 360)
        self.days0 = float(days)

    def sidereal(self, at):
        """The sidereal angle, in radians."""
        t = self.centuries0 + at / CENTURY
        seconds = self.turn0 + self.turn_rate * at + t**2 * (0.093104 - 6.2e-6 * t)
        return seconds * (math.pi / 43_200.0)

    def sun(self, at):
        """The direction of the Sun."""
        days = at / 86_400.0
        mean = np.radians(self.mean0 + 0.9856003 * days)
        long = np.radians(self.long0 + 0.9856474 * days + 1.915 * np.sin(mean) + 0.020 * np.sin(2.0 * mean))
        tilt = np.radians(23.439 - 0.0000004 * (self.days0 + days))
        return np.cos(long), np.cos(tilt) * np.sin(long), np.sin(tilt) * np.sin(long)

    def shade(self, at, place):
        """The numbers p and g of a position: along the Sun, and outside the shadow's cylinder."""
        sun = self.sun(at)
        p = sum(r * s for r, s in zip(place, sun))
        return p, sum(r * r for r in place) - p * p - 1.0


class Station:
    """A station of angles in degrees and a height in metres, with the borders and floors of its mask in degrees."""

    def __init__(self, lat, lon, height, borders, floors):
        f, l, h = math.radians(lat), math.radians(lon), height / 1000.0
        c = 1.0 / math.sqrt(math.cos(f) ** 2 + FLAT * math.sin(f) ** 2)
        level = (EQUATOR_KM * c + h) * math.cos(f)
        self.place = [level * math.cos(l), level * math.sin(l), (EQUATOR_KM * FLAT * c + h) * math.sin(f)]
        self.place = [length / RADIUS_KM for length in self.place]
        self.east = (-math.sin(l), math.cos(l), 0.0)
        self.north = (-math.sin(f) * math.cos(l), -math.sin(f) * math.sin(l), math.cos(f))
        self.up = (math.cos(f) * math.cos(l), math.cos(f) * math.sin(l), math.sin(f))
        self.borders, self.sines = np.radians(borders), np.sin(np.radians(floors))

    def sight(self, sidereal, place):
        """East, north, up of the direction to a position, and the range."""
        sine, cosine = np.sin(sidereal), np.cos(sidereal)
        fixed = (place[0] * cosine + place[1] * sine, place[1] * cosine - place[0] * sine, place[2])
        away = [at - station for at, station in zip(fixed, self.place)]
        span = np.sqrt(sum(d * d for d in away))
        return [sum(d * axis for d, axis in zip(away, axes)) / span for axes in (self.east, self.north, self.up)] + [span]

    def floor_at(self, azimuth):
        return self.sines[np.searchsorted(self.borders, np.mod(azimuth, 2.0 * math.pi), "right") - 1]

    def margins(self, sight):
        """How far a direction is above every floor, and how far below; near a border the more favourable floor counts."""
        east, north, up = sight[:3]
        azimuth = np.arctan2(east, north)
        near = np.minimum(BORDER / np.maximum(np.hypot(east, north), 1e-300), 0.1)
        floors = np.array([self.floor_at(azimuth), self.floor_at(azimuth + near), self.floor_at(azimuth - near)])
        return up - floors.min(axis=0), floors.max(axis=0) - up

    def grazes(self, sight, given, sharp, slack):
        """Whether directions graze the mask by a bound of the sine, and by a length."""
        east, north, up, span = sight
        found = []
        for bound in (given + slack, sharp / span + slack):
            under, over = np.zeros(up.shape, bool), np.zeros(up.shape, bool)
            for k, sine in enumerate(self.sines):
                first, last = self.borders[k], self.borders[(k + 1) % len(self.borders)]
                touched = east * math.cos(first) - north * math.sin(first) >= -bound
                touched &= north * math.sin(last) - east * math.cos(last) >= -bound
                under |= touched & (up <= sine + bound)
                over |= touched & (up >= sine - bound)
            found.append(under & over)
        return found
