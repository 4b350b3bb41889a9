#!/usr/bin/env python3
"""Writes crates/rows_view/src/expected.rt: places of stations, and directions and lengths at which they see positions.

All are computed here to 50 digits, by the formulas of an ellipsoid and of a rotation, and share nothing with the program. A
number is given by the whole number of units of 2^-48 below it. Run it at the top of the repository:
python3 tools/stations/expected.py
"""
from fractions import Fraction

import mpmath as mp

mp.mp.dps = 50
RADIUS = mp.mpf("6378.135")
EQUATOR = mp.mpf("6378.137")
FLAT = (1 - 1 / mp.mpf("298.257223563")) ** 2

# latitude, longitude, height in metres
STATIONS = [
    ("90", "0", "0"),
    ("-90", "360", "-500"),
    ("0", "0", "0"),
    ("0", "-180", "9000"),
    ("48.1", "11.3", "600"),
    ("-12.5", "359.999", "-4.25"),
    ("45", "270", "8848.86"),
    ("-33.8688", "151.2093", "58"),
    ("0.000000000000000001", "90.000000000000001", "0.001"),
    ("78.2232", "15.6267", "460"),
]
# sidereal angle in degrees, position in Earth radii (TEME)
VIEWS = [
    ("0", ("1.1", "0", "0")),
    ("280.460618375", ("0.3", "-0.8", "0.9")),
    ("123.456", ("-1.05", "0.02", "-0.4")),
    ("359.999999", ("2", "3", "-3")),
    ("90", ("0.01", "-0.01", "-1.1")),
]
# borders and floors of masks; azimuths and elevations at which they are judged
MASKS = [
    (["0", "90", "180", "270"], ["10", "20", "30", "40"]),
    (["10", "99.5", "180", "270", "355"], ["1", "-90", "60", "0.5", "2"]),
    (["0", "0.000000000000000001", "0.5", "90", "180", "270"], ["80", "5", "10", "15", "20", "25"]),
]
JUDGED = [(a, e) for a in (0, 45, 90, 135, 180, 225, 270, 315, 359, 2) for e in ("-80", "5", "15", "25", "35", "50", "85")] + [
    (45, "10.01"), (45, "9.99"), (9, "2.01"), (10, "1.5"), (99.5, "0"), (99.5, "-89")]

# ranges at which they are judged too, in turn
RANGES = ["0.05", "0.3", "1.7", "9"]

NEAR = Fraction(1, 10**9)


def held(borders, azimuth):
    """The sectors that hold an azimuth, borders included, or lie within 10^-9 degrees of it.

    The cross products of a sector that is no wider than that have no sure sign in the opposite direction either.
    """
    found = []
    for k, b in enumerate(borders):
        start = Fraction(b)
        end = Fraction(borders[k + 1]) if k + 1 < len(borders) else Fraction(borders[0]) + 360
        a = Fraction(azimuth)
        if any(start - NEAR <= turn <= end + NEAR for turn in (a - 360, a, a + 360)) or (
            end - start < NEAR and any(start - NEAR <= turn <= end + NEAR for turn in (a - 180, a + 180))
        ):
            found.append(k)
    return found


def side(mask, azimuth, elevation):
    floors = [Fraction(mask[1][k]) for k in held(mask[0], azimuth)]
    e = Fraction(elevation)
    return 1 if all(e > f for f in floors) else -1 if all(e < f for f in floors) else 0


def units(x):
    return int(mp.floor(x * 2**48))


def of_degrees(text):
    a = mp.mpf(text) * mp.pi / 180
    return mp.sin(a), mp.cos(a)


def place(lat, lon, height):
    sf, cf = of_degrees(lat)
    sl, cl = of_degrees(lon)
    # the normal to the ellipsoid and the point where it meets it, then the height along it
    n = EQUATOR / mp.sqrt(cf**2 + FLAT * sf**2)
    h = mp.mpf(height) / 1000
    return ((n + h) * cf * cl / RADIUS, (n + h) * cf * sl / RADIUS, (n * FLAT + h) * sf / RADIUS)


def lengths(lat, lon, height, sidereal, r):
    sf, cf = of_degrees(lat)
    sl, cl = of_degrees(lon)
    s, c = of_degrees(sidereal)
    x, y, z = map(mp.mpf, r)
    p = place(lat, lon, height)
    d = mp.matrix([x * c + y * s - p[0], y * c - x * s - p[1], z - p[2]])
    # turn about the axis by the longitude, then about east by the latitude
    out, east = d[0] * cl + d[1] * sl, d[1] * cl - d[0] * sl
    up, north = out * cf + d[2] * sf, d[2] * cf - out * sf
    size = mp.sqrt(east**2 + north**2 + up**2)
    return (east, north, up, size)


def view(*seen):
    east, north, up, size = lengths(*seen)
    return (east / size, north / size, up / size)


def quoted(texts):
    return ", ".join(f'\\\\"{t}\\\\"'.replace("\\\\", "\\") for t in texts)


def main():
    out = ["//! Expected values, made by tools/stations/expected.py.", ""]
    out += ["/// Stations, and views of each.", f"pub const STATIONS: usize = {len(STATIONS)};", "", f"pub const VIEWS: usize = {len(VIEWS)};", ""]
    out += ["/// A file of the stations.", "pub const FILE: &str =\n    \"version = 1\\n" + "".join(
        f"[[station]]\\nname = \\\"{k}\\\"\\nlat = \\\"{a}\\\"\\nlon = \\\"{b}\\\"\\nheight = \\\"{h}\\\"\\nmask = \\\"0\\\"\\n" for k, (a, b, h) in enumerate(STATIONS)) + "\";", ""]
    nums = []
    for s in STATIONS:
        nums += [units(v) for v in place(*s)]
    out += ["/// The coordinates of each place: numbers of units of 2^-48, rounded down.", "#[rattlefmt::skip]", f"static PLACES: [i64; {len(nums)}] = ["]
    out += ["    " + ", ".join(map(str, nums[i:i + 3])) + "," for i in range(0, len(nums), 3)] + ["];", ""]
    tv = []
    for a, r in VIEWS:
        s, c = of_degrees(a)
        tv += [units(s), units(c)] + [units(mp.mpf(v)) for v in r]
    out += ["/// The sine and the cosine of the sidereal angle of each view, and the position.", "#[rattlefmt::skip]", f"static TURNS: [i64; {len(tv)}] = ["]
    out += ["    " + ", ".join(map(str, tv[i:i + 5])) + "," for i in range(0, len(tv), 5)] + ["];", ""]
    sv = []
    for s in STATIONS:
        for a, r in VIEWS:
            sv += [units(v) for v in view(*s, a, r)]
    out += ["/// For each station and each view: east, north and up.", "#[rattlefmt::skip]", f"static SIGHTS: [i64; {len(sv)}] = ["]
    out += ["    " + ", ".join(map(str, sv[i:i + 3])) + "," for i in range(0, len(sv), 3)] + ["];", ""]
    lv = []
    for s in STATIONS:
        for a, r in VIEWS:
            lv += [units(v) for v in lengths(*s, a, r)]
    out += ["/// For each station and each view: east, north and up as lengths in Earth radii, and the range.", "#[rattlefmt::skip]", f"static LENGTHS: [i64; {len(lv)}] = ["]
    out += ["    " + ", ".join(map(str, lv[i:i + 4])) + "," for i in range(0, len(lv), 4)] + ["];", ""]
    out += ["/// A file of stations, each with one of the masks.", "pub const MASKED: &str =\n    \"version = 1\\n" + "".join(
        f"[[station]]\\nname = \\\"{k}\\\"\\nlat = \\\"0\\\"\\nlon = \\\"0\\\"\\nheight = \\\"0\\\"\\nborders = [{quoted(b)}]\\nmasks = [{quoted(f)}]\\n" for k, (b, f) in enumerate(MASKS)) + "\";", ""]
    jv, rv = [], []
    for k, (a, e) in enumerate(JUDGED):
        s, c = of_degrees(str(a))
        t, d = of_degrees(e)
        east, north = (0 if a % 180 == 0 else s * d), (0 if a % 180 == 90 else c * d)
        jv += [units(east), units(north), units(t)] + [side(m, a, e) for m in MASKS]
        far = mp.mpf(RANGES[k % len(RANGES)])
        rv += [units(east * far), units(north * far), units(t * far), units(far)]
    out += ["/// Masks, and directions at which they are judged.", f"pub const MASKS: usize = {len(MASKS)};", "", f"pub const JUDGED: usize = {len(JUDGED)};", ""]
    out += ["/// Of each direction: east, north and up, in units of 2^-48; then what it is to each mask: 1 above, -1 below, 0 neither.", "#[rattlefmt::skip]", f"static SIDES: [i64; {len(jv)}] = ["]
    out += ["    " + ", ".join(map(str, jv[i:i + 6])) + "," for i in range(0, len(jv), 6)] + ["];", ""]
    out += ["/// Each of these directions as lengths at some range, and the range.", "#[rattlefmt::skip]", f"static RANGES: [i64; {len(rv)}] = ["]
    out += ["    " + ", ".join(map(str, rv[i:i + 4])) + "," for i in range(0, len(rv), 4)] + ["];", ""]
    for name, what, table in (("place", "A coordinate of a place.", "PLACES"), ("turn", "A number of a view.", "TURNS"), ("seen", "A component of a direction.", "SIGHTS"), ("long", "A length, or a range.", "LENGTHS"), ("judged", "A number of a direction that is judged.", "SIDES"), ("far", "A length, or the range, of such a direction.", "RANGES")):
        out += [f"/// {what}", f"pub fn {name}(k: usize) -> i64 {{", f"    {table}.get(k).copied().unwrap_or(0)", "}", ""]
    open("crates/rows_view/src/expected.rt", "w").write("\n".join(out).rstrip() + "\n")


main()
