"""The passes of a satellite over a station in a window, by a separately written SGP4 (tools/equations/reference.py), outside the
gate: when its elevation crosses a flat mask, in ticks of 100 microseconds from the window's start. UT1 is taken as UTC, the
station stands on the ellipsoid of WGS-84. These are the contacts that rows_passes expects of its day of the ISS.

How to run it, at the top of the repository:

    python3 tools/plan/passes.py
"""
import sys

import mpmath as mp

sys.path[:0] = ["tools/day", "tools/equations"]
from compare import TICK, sidereal_turns, to_ticks  # noqa: E402
from reference import Satellite  # noqa: E402

mp.mp.dps = 20
RADIUS_KM = mp.mpf("6378.135")
AXIS_KM, FLATTENING = mp.mpf("6378.137"), 1 / mp.mpf("298.257223563")
STEP = 10 * TICK

# ISS (ZARYA): epoch 2008, day 264.51782528
SATELLITE = Satellite("15.72125391", "0.0006703", "51.6416", "247.4627", "130.5360", "325.0288", "-0.000011606")
EPOCH = to_ticks("2008-09-20T12:25:40.1041Z") + mp.mpf("0.92")
START, END = to_ticks("2008-09-20T12:00:00.0000Z"), to_ticks("2008-09-21T12:00:00.0000Z")
LAT, LON, HEIGHT_KM, MASK = mp.mpf("48.1"), mp.mpf("11.3"), mp.mpf("0.6"), mp.mpf(5)


def station(turn):
    """The station and its zenith, where the Earth has turned so far."""
    lat, angle = mp.radians(LAT), 2 * mp.pi * turn + mp.radians(LON)
    square = FLATTENING * (2 - FLATTENING)
    normal = AXIS_KM / mp.sqrt(1 - square * mp.sin(lat) ** 2)
    across = (normal + HEIGHT_KM) * mp.cos(lat)
    place = (across * mp.cos(angle), across * mp.sin(angle), (normal * (1 - square) + HEIGHT_KM) * mp.sin(lat))
    zenith = (mp.cos(lat) * mp.cos(angle), mp.cos(lat) * mp.sin(angle), mp.sin(lat))
    return place, zenith


def height_above(tick):
    """By how much the sine of the elevation is above that of the mask."""
    at = START + tick
    _, _, _, vector = SATELLITE.at((at - EPOCH) / (60 * TICK))
    place, zenith = station(mp.mpf(sidereal_turns(at)))
    toward = [RADIUS_KM * vector[axis] - own for axis, own in zip("xyz", place)]
    length = mp.sqrt(sum(part * part for part in toward))
    return sum(part * up for part, up in zip(toward, zenith)) / length - mp.sin(mp.radians(MASK))


def crossing(low, high):
    """The tick of the last instant with the sign of the first, between two of unlike signs."""
    rises = height_above(high) > 0
    while high - low > 1:
        middle = (low + high) // 2
        if (height_above(middle) > 0) == rises:
            high = middle
        else:
            low = middle
    return low


def main():
    before, start = height_above(0), None
    for tick in range(STEP, END - START + 1, STEP):
        now = height_above(tick)
        if before <= 0 < now:
            start = crossing(tick - STEP, tick)
        if now <= 0 < before:
            print(start, crossing(tick - STEP, tick))
        before = now


main()
