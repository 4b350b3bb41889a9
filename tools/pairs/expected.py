#!/usr/bin/env python3
"""Prints the directions at which a station sees a published satellite, for crates/rows_cells/src/pairs.rt.

All is computed here to 40 digits: the position by tools/equations/reference.py, the rest by the formulas of an ellipsoid and of a
rotation. A number is given by the whole number of units of 2^-48 below it. Run it at the top of the repository:
python3 tools/pairs/expected.py
"""
import sys

import mpmath as mp

sys.path[:0] = ["tools/equations"]
from reference import Satellite  # noqa: E402

mp.mp.dps = 40
RADIUS = mp.mpf("6378.135")
EQUATOR = mp.mpf("6378.137")
FLAT = (1 - 1 / mp.mpf("298.257223563")) ** 2
START = mp.mpf(15_400_000)
EPOCH = (mp.mpf("179.78495062") - mp.mpf("1.5")) * 86400
SET = ("10.82419157", ".1859667", "34.2682", "348.7242", "331.7664", "19.3264", "28098e-9")
LAT, LON, HEIGHT, FLOOR, DUT1_MS = "20", "-60", "600", "10", -123
TICKS = (0, 9_000_000, 18_000_000, 27_000_000, 35_999_999)


def of_degrees(text):
    return mp.sin(mp.mpf(text) * mp.pi / 180), mp.cos(mp.mpf(text) * mp.pi / 180)


def sidereal(at):
    t = at / (36525 * 86400)
    seconds = mp.mpf("67310.54841") + (mp.mpf(876600) * 3600 + mp.mpf("8640184.812866")) * t + mp.mpf("0.093104") * t**2 - mp.mpf("6.2e-6") * t**3
    return mp.pi * seconds / 43200


def view(tick):
    at = START + mp.mpf(tick) / 10_000
    r = Satellite(*SET).at((at - EPOCH) / 60)[3]
    angle = sidereal(at + mp.mpf(DUT1_MS) / 1000)
    s, c = mp.sin(angle), mp.cos(angle)
    sf, cf = of_degrees(LAT)
    sl, cl = of_degrees(LON)
    n = EQUATOR / mp.sqrt(cf**2 + FLAT * sf**2)
    h = mp.mpf(HEIGHT) / 1000
    p = ((n + h) * cf * cl / RADIUS, (n + h) * cf * sl / RADIUS, (n * FLAT + h) * sf / RADIUS)
    d = (r["x"] * c + r["y"] * s - p[0], r["y"] * c - r["x"] * s - p[1], r["z"] - p[2])
    out, east = d[0] * cl + d[1] * sl, d[1] * cl - d[0] * sl
    up, north = out * cf + d[2] * sf, d[2] * cf - out * sf
    size = mp.sqrt(east**2 + north**2 + up**2)
    return east / size, north / size, up / size


def main():
    floor = of_degrees(FLOOR)[0]
    for tick in TICKS:
        v = view(tick)
        units = ", ".join(str(int(mp.floor(x * 2**48))) for x in v)
        print(f"    ({tick}, {units}, {'true' if v[2] > floor else 'false'}),  // {mp.nstr(mp.degrees(mp.asin(v[2])), 8)} degrees")


main()
