#!/usr/bin/env python3
"""Prints the ticks of crates/rows_cells/src/sunlight.rt: when a satellite enters and leaves the Earth's shadow.

The position comes from tools/equations/reference.py, which shares nothing with the program, to 50 digits; the Sun's direction
from the Astronomical Almanac's low-precision formula, here by right ascension and declination; and the shadow from the distance
to the axis of its cylinder. Passages are found by steps of ten seconds and bisected. Run it at the top of the repository:
python3 tools/orbit/sunlight.py
"""
import mpmath as mp

from shared import Satellite

# the set of rows_cells, and its epoch in seconds from 2000-01-01T12:00:00
SET = ("10.82419157", "0.1859667", "34.2682", "348.7242", "331.7664", "19.3264", "0.000028098")
EPOCH = mp.mpf("15403819.733568")
START = 15400000
HOURS = 5


def sun(seconds):
    days = mp.mpf(seconds) / 86400
    anomaly = mp.radians(mp.mpf("357.528") + mp.mpf("0.9856003") * days)
    mean = mp.mpf("280.460") + mp.mpf("0.9856474") * days
    longitude = mp.radians(mean + mp.mpf("1.915") * mp.sin(anomaly) + mp.mpf("0.020") * mp.sin(2 * anomaly))
    obliquity = mp.radians(mp.mpf("23.439") - mp.mpf("0.0000004") * days)
    ascension = mp.atan2(mp.cos(obliquity) * mp.sin(longitude), mp.cos(longitude))
    declination = mp.asin(mp.sin(obliquity) * mp.sin(longitude))
    return [mp.cos(declination) * mp.cos(ascension), mp.cos(declination) * mp.sin(ascension), mp.sin(declination)]


def main():
    satellite = Satellite(*SET)

    def is_dark(seconds):
        _, _, _, vector = satellite.at((mp.mpf(seconds) - EPOCH) / 60)
        r, s = [vector[name] for name in "xyz"], sun(seconds)
        depth = mp.fdot(r, s)
        across = [x - depth * y for x, y in zip(r, s)]
        return depth < 0 and mp.sqrt(mp.fdot(across, across)) < 1

    step, before = 10, is_dark(START)
    print("dark at the start" if before else "sunlit at the start")
    for k in range(1, HOURS * 3600 // step + 1):
        now = is_dark(START + k * step)
        if now != before:
            low, high = mp.mpf(START + (k - 1) * step), mp.mpf(START + k * step)
            for _ in range(40):
                middle = (low + high) / 2
                if is_dark(middle) == before:
                    low = middle
                else:
                    high = middle
            print("enters" if now else "leaves", "at tick", mp.nstr((low - START) * 10000, 15))
            before = now


main()
