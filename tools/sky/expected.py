#!/usr/bin/env python3
"""Writes crates/rows_sky/src/expected.rt: the Earth's turn, the Sun, shadows, the Sun's height and places of stations.

All are computed to 60 digits by tools/equations/sky_reference.py, which shares nothing with the program. A number is given by the
whole number of units of 2^-48 below it. Then each digit of each numeral of that computation is changed, up and down by one, in turn:
a change is noticed where some number of the table moves by more than the greatest width that the tests allow it, since then no
enclosure that is so narrow holds both. What is not noticed is printed, and the number of changes. Needs mpmath. Run it at the top of
the repository: python3 tools/sky/expected.py
"""
import re
import sys
import types
from pathlib import Path

import mpmath as mp

sys.path.insert(0, str(Path(__file__).resolve().parents[1] / "equations"))
import sky_reference

mp.mp.dps = 60
UNIT = 2**48
# nanoseconds from 2000-01-01T12:00:00 UTC; offset of UT1 in milliseconds; time behind it in 64ths of 16,384 minutes
CASES = [
    (-1356911999987654321, 900, 24),
    (-1334536274310000000, -731, 37),
    (-612345678901234567, 333, 50),
    (15403819733568000, 214, 16),
    (803260801500000000, -900, -61),
    (1798761599999999999, 567, -11),
]
# latitude, longitude in degrees, height in metres
STATIONS = [
    ("90", "0", "-500"),
    ("48.1", "11.3", "600"),
    ("-12.5", "359.999", "-4.25"),
    ("45", "-91.25", "9000"),
    ("-33.8688", "151.2093", "58"),
]
# positions in 64ths of an Earth radius, one for each case
POSITIONS = [(-60, 20, 40), (55, -41, 12), (-3, 66, -29), (130, -77, 91), (1, 2, -69), (-44, -48, 20)]
# the greatest width of a number, by what it is, in units: as skies.rt has it
WIDTHS = {"turn": 64, "sun": 256, "depth": 256, "over": 512, "height": 512, "level": 64, "axial": 32}


def seconds(nanos, part):
    return mp.mpf(nanos) / 10**9 + mp.mpf(part) * 983040 / 64


def turning(sky):
    found = []
    for (nanos, dut1, part), position in zip(CASES, POSITIONS):
        at = seconds(nanos, part)
        angle = sky.sidereal_turn(at, dut1)
        sun = sky.sun_direction(at)
        shadow = sky.shadow([mp.mpf(x) / 64 for x in position], sun)
        found += [("turn", mp.sin(angle)), ("turn", mp.cos(angle))] + [("sun", x) for x in sun]
        found += [("depth", shadow["p"]), ("over", shadow["g"])]
    return found


def standing(sky):
    return [found for lat, lon, metres in STATIONS
            for found in zip(("level", "level", "axial"), sky.place(mp.mpf(lat), mp.mpf(lon), metres))]


def heights(sky):
    return [("height", sky.elevation_sine(mp.mpf(lat), mp.mpf(lon), seconds(nanos, part), dut1))
            for nanos, dut1, part in CASES for lat, lon, _ in STATIONS]


def table(sky):
    return turning(sky) + standing(sky) + heights(sky)


def changes(text):
    """Each text with one digit of one numeral changed, with its line, the numeral and the changed one. What explains is left out."""
    for line in re.finditer(r"[^\n]+", text):
        body = "" if '"""' in line.group() else line.group()
        for numeral in re.finditer(r"(?<![A-Za-z_0-9])[0-9][0-9.]*(e-[0-9]+)?", body):
            for at, digit in enumerate(numeral.group()):
                for step in (1, -1):
                    if digit.isdigit() and 0 <= int(digit) + step <= 9:
                        changed = numeral.group()[:at] + str(int(digit) + step) + numeral.group()[at + 1:]
                        start = line.start() + numeral.start()
                        yield text[:start] + changed + text[start + len(numeral.group()):], body.strip(), numeral.group(), changed


def is_noticed(text, known):
    sky = types.ModuleType("sky")
    try:
        exec(compile(text, "sky", "exec"), sky.__dict__)
        return any(abs(a - b) * UNIT > WIDTHS[kind] for (kind, a), (_, b) in zip(table(sky), known))
    except (ArithmeticError, ValueError, TypeError, IndexError, SyntaxError):
        return True


def tell_changes(known):
    text = Path(sky_reference.__file__).read_text(encoding="utf-8")
    start, end = text.index("DAY_SECONDS ="), text.index("def sight")
    head, body = text[:start], text[start:end] + text[text.index("def shadow"):]
    total, silent = 0, 0
    for changed, line, numeral, other in changes(body):
        total += 1
        if not is_noticed(head + changed, known):
            silent += 1
            print(f"not noticed: {other} for {numeral} in: {line}")
    print(f"{total} changes of a digit, {silent} not noticed")


def rows(numbers, across):
    units = [str(int(mp.floor(x * UNIT))) for _, x in numbers]
    return ["    " + ", ".join(units[k:k + across]) + "," for k in range(0, len(units), across)]


def array(comment, name, numbers, across):
    return [comment, "#[rattlefmt::skip]", f"static {name}: [i64; {len(numbers)}] = ["] + rows(numbers, across) + ["];", ""]


def reader(comment, name, of):
    return [comment, f"pub fn {name}(k: usize) -> i64 {{", f"    {of}.get(k).copied().unwrap_or(0)", "}", ""]


def plain(numbers):
    return [("", mp.mpf(x) / UNIT) for x in numbers]


def station_file():
    text = "version = 1\\n"
    for k, (lat, lon, metres) in enumerate(STATIONS):
        text += f'[[station]]\\nname = \\"{k}\\"\\nlat = \\"{lat}\\"\\nlon = \\"{lon}\\"\\nheight = \\"{metres}\\"\\nmask = \\"0\\"\\n'
    return text


def written(sky):
    lines = ["//! Expected values, made by tools/sky/expected.py.", "ghost use Rattle.elements.specs.Offset.{IsOffset};", "", "use elements::Instant;", ""]
    lines += ["/// Instants, and stations.", f"pub const CASES: usize = {len(CASES)};", "", f"pub const STATIONS: usize = {len(STATIONS)};", ""]
    lines += ["/// A file of the stations.", "pub const FILE: &str =", f'    "{station_file()}";', ""]
    lines += ["/// The instant from which the time of a case is counted.", "pub fn base(k: usize) -> Instant {", "    match k {"]
    lines += [f"        {k} => Instant::from_nanos({case[0]:_})," for k, case in enumerate(CASES[:-1])]
    lines += [f"        _ => Instant::from_nanos({CASES[-1][0]:_}),", "    }", "}", ""]
    lines += ["/// The offset of UT1 of a case, in milliseconds.", "pub fn offset(k: usize) -> i32", "    ensures { IsOffset result }", "{", "    match k {"]
    lines += [f"        {k} => {case[1]}," for k, case in enumerate(CASES[:-1])] + [f"        _ => {CASES[-1][1]},", "    }", "}", ""]
    given = [x for case, position in zip(CASES, POSITIONS) for x in (case[2], *position)]
    lines += array("/// The time of each case, in 64ths of 16,384 minutes; and a position, in 64ths of an Earth radius.", "GIVEN", plain(given), 4)
    lines += array("/// Of each case: the sine and the cosine of the sidereal angle, the Sun's direction, the depth and the height of the position.",
                   "SKIES", turning(sky), 7)
    lines += array("/// The coordinates of each station.", "PLACES", standing(sky), 3)
    lines += array("/// The sine of the Sun's elevation, of each case at each station.", "HEIGHTS", heights(sky), len(STATIONS))
    lines += reader("/// A given number.", "given", "GIVEN") + reader("/// A number of the sky.", "sky", "SKIES")
    lines += reader("/// A coordinate of a station.", "place", "PLACES") + reader("/// A height of the Sun.", "height", "HEIGHTS")
    return "\n".join(lines)


def main():
    with open("crates/rows_sky/src/expected.rt", "w", encoding="utf-8") as file:
        file.write(written(sky_reference))
    tell_changes(table(sky_reference))


if __name__ == "__main__":
    main()
