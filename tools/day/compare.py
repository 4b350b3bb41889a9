"""Compares `passplan day` with a computation of its own, outside the gate.

Runs the built program for 2,000 random places, windows and resolutions (fixed seed) and recomputes the sine of the
Sun's elevation in float64 from the public formulas: Greenwich mean sidereal time of 1982 (Aoki et al., Astronomy and
Astrophysics 105, 1982), UT1 taken as UTC, and the low-precision Sun of the Astronomical Almanac, by right ascension,
declination and hour angle. Nothing here is taken from the program's own code. What is checked of each run:

- status 0 with spans, or 1 with UNRESOLVED or FULL; the first lines and the last; the window as it was asked for;
- the spans tile the window, neighbours differ;
- L and N: the sign is right at 20 random instants and at both ends;
- U: no longer than the resolution, and within 2^-23 of 0 at 5 instants, both ends among them;
- UNRESOLVED: one tick longer than the resolution, inside the window, and within 2^-23 of 0 at 5 instants.

How to run it, at the top of the repository, once ./passplan has built the program:

    python3 tools/day/compare.py [PROGRAM]

It prints the seed and the counts, and ends with status 1 where a check failed.
"""
import datetime
import math
import random
import subprocess
import sys

SEED = 20000621
RUNS = 2000
SLACK = 1e-11
GRAZE = 2**-23
TICK = 10_000  # ticks in a second
EPOCH = datetime.datetime(2000, 1, 1, 12)
DAY = 86_400 * TICK


def to_ticks(text):
    """Ticks from 2000-01-01T12:00:00 of an instant with four decimals."""
    whole, parts = text[:-1].split(".")
    assert text[-1] == "Z" and len(parts) == 4, text
    delta = datetime.datetime.strptime(whole, "%Y-%m-%dT%H:%M:%S") - EPOCH
    return (delta.days * 86_400 + delta.seconds) * TICK + int(parts)


def to_text(ticks):
    seconds, parts = divmod(ticks, TICK)
    at = EPOCH + datetime.timedelta(seconds=seconds)
    return "%04d-%02d-%02dT%02d:%02d:%02d.%04dZ" % (at.year, at.month, at.day, at.hour, at.minute, at.second, parts)


def turns_of_rate(numerator, denominator, ticks):
    """The fraction of a turn that numerator / denominator degrees a day make in so many ticks, by whole numbers."""
    whole = 360 * denominator * DAY
    return (numerator * ticks % whole) / whole


def sidereal_turns(ticks):
    """The mean sidereal angle of 1982, in turns."""
    century = 36_525 * DAY
    # The linear term, in units of 1e-6 seconds of sidereal time, a turn being 86,400 seconds.
    linear = (876_600 * 3600 * 10**6 + 8_640_184_812_866) * ticks
    whole = 86_400 * 10**6 * century
    t = ticks / century
    rest = 67310.54841 + 0.093104 * t * t - 6.2e-6 * t * t * t
    return (linear % whole) / whole + rest / 86_400.0


def sun(ticks):
    """The right ascension and the declination of the Sun, in radians."""
    turn = 2.0 * math.pi
    mean_longitude = math.radians(280.460) + turn * turns_of_rate(9_856_474, 10**7, ticks)
    anomaly = math.radians(357.528) + turn * turns_of_rate(9_856_003, 10**7, ticks)
    longitude = mean_longitude + math.radians(1.915 * math.sin(anomaly) + 0.020 * math.sin(2.0 * anomaly))
    tilt = math.radians(23.439 - 0.0000004 * (ticks / DAY))
    ascension = math.atan2(math.cos(tilt) * math.sin(longitude), math.cos(longitude))
    return ascension, math.asin(math.sin(tilt) * math.sin(longitude))


def elevation_sine(lat, lon, ticks):
    """The sine of the Sun's elevation at a place in degrees."""
    ascension, declination = sun(ticks)
    hour_angle = 2.0 * math.pi * sidereal_turns(ticks) + math.radians(lon) - ascension
    f = math.radians(lat)
    return math.sin(f) * math.sin(declination) + math.cos(f) * math.cos(declination) * math.cos(hour_angle)


def equinox(year, month):
    """The last tick before the Sun crosses the equator."""
    low = to_ticks("%04d-%02d-15T00:00:00.0000Z" % (year, month))
    high = low + 14 * DAY
    sign = 1.0 if month == 3 else -1.0
    while high - low > 1:
        mid = (low + high) // 2
        low, high = (mid, high) if sign * sun(mid)[1] < 0.0 else (low, mid)
    return low


def flat_place(year, month, side):
    """A place near a pole where, at an equinox, the Sun touches the horizon and stays on it for seconds: the Earth's
    turn and the Sun's motion in declination cancel to the second order. The latitude, the longitude and the tick."""
    at = equinox(year, month)
    step = 600 * TICK
    rate = (sun(at + step)[1] - sun(at - step)[1]) / (2 * step)
    turning = 2.0 * math.pi * ((sidereal_turns(at + step) - sidereal_turns(at - step)) % 1.0) / (2 * step)
    turning -= math.remainder(sun(at + step)[0] - sun(at - step)[0], 2.0 * math.pi) / (2 * step)
    lat = side * math.degrees(math.atan(turning / abs(rate)))
    hour_angle = 90.0 if side * rate > 0.0 else -90.0
    lon = (hour_angle - 360.0 * sidereal_turns(at) + math.degrees(sun(at)[0])) % 360.0
    return round(lat, 12), round(lon, 12), at


def length_of(rng):
    return rng.choice((10 * DAY, max(1, int(10.0 ** rng.uniform(0.0, math.log10(10 * DAY))))))


def case(rng):
    """A latitude, a longitude, a start, a length and a resolution: anywhere, near the polar circles, at a pole, at a
    pole near an equinox, or where the Sun stays on the horizon for seconds."""
    kind, year, res = rng.random(), rng.randrange(1957, 2056), rng.randint(1, 60)
    lon, length = round(rng.uniform(-180.0, 360.0), rng.randrange(10)), length_of(rng)
    month, side = rng.choice((3, 9)), rng.choice((-1, 1))
    if kind >= 0.9:
        lat, lon, at = flat_place(year, month, side)
        length = max(length, 60 * TICK)
        return lat, lon, at - rng.randrange(length), length, rng.choice((1, 2, 3, 5, 10, res))
    if kind >= 0.8:
        start = to_ticks("%04d-%02d-01T00:00:00.0000Z" % (year, month)) + rng.randrange(25 * DAY)
        return round(side * rng.uniform(89.999, 90.0), rng.randrange(3, 12)), lon, start, length, res
    start = to_ticks("%04d-01-02T00:00:00.0000Z" % year) + rng.randrange(350 * DAY)
    if kind >= 0.6:
        return round(side * rng.uniform(65.5, 67.5), rng.randrange(2, 10)), lon, start, length, res
    return round(rng.uniform(-90.0, 90.0), rng.randrange(10)), lon, start, length, res


class Tally:
    def __init__(self):
        self.wrong = []
        self.counts = dict.fromkeys(("L", "N", "U", "SPANS", "UNRESOLVED", "FULL", "instants"), 0)
        self.widest = 0.0
        self.closest = 1.0
        self.longest = 0

    def expect(self, holds, *what):
        if not holds:
            self.wrong.append(what)


def grazes(tally, place, low, high, rng):
    for at in [low, high] + [rng.uniform(low, high) for _ in range(3)]:
        size = abs(elevation_sine(*place, round(at)))
        tally.counts["instants"] += 1
        tally.widest = max(tally.widest, size)
        tally.expect(size <= GRAZE + SLACK, "grazes", place, low, high, size)


def one_sign(tally, place, letter, low, high, rng):
    sign = 1.0 if letter == "L" else -1.0
    for at in [low, high] + [rng.randint(low, high) for _ in range(20)]:
        product = sign * elevation_sine(*place, at)
        tally.counts["instants"] += 1
        tally.closest = min(tally.closest, product)
        tally.expect(product > -SLACK, "sign", place, letter, low, high, at, product)


def check_spans(tally, place, lines, start, end, res, rng):
    at, before = start, ""
    for line in lines:
        letter, low, high = line.split(" ")
        low, high = to_ticks(low), to_ticks(high)
        tally.expect(low == at and low < high, "tiles", place, line)
        tally.expect(letter != before and letter in ("L", "N", "U"), "letters", place, line)
        tally.counts[letter] += 1
        if letter == "U":
            tally.longest = max(tally.longest, high - low)
            tally.expect(high - low <= res * TICK, "long", place, line)
            grazes(tally, place, low, high, rng)
        else:
            one_sign(tally, place, letter, low, high, rng)
        at, before = high, letter
    tally.expect(at == end, "end", place, to_text(start))
    tally.counts["SPANS"] += 1


def check(tally, program, drawn, rng):
    lat, lon, start, length, res = drawn
    place, end = (lat, lon), start + length
    words = ["day", "--lat=%r" % lat, "--lon=%r" % lon, "--start=" + to_text(start), "--end=" + to_text(end), "--res=%d" % res]
    done = subprocess.run([program] + words, stdout=subprocess.PIPE, check=False)
    text = done.stdout.decode()
    lines = text.split("\n")
    head = ["PASSDAY 1", "WINDOW %s %s %d" % (to_text(start), to_text(end), res)]
    if lines[:2] != head or lines[-2:] != ["END", ""]:
        tally.wrong.append(("frame", words, text[:200]))
        return
    body = lines[2:-2]
    first = body[0].split(" ") if body else [""]
    if first[0] == "UNRESOLVED" and len(body) == 1:
        low, high = to_ticks(first[1]), to_ticks(first[2])
        tally.counts["UNRESOLVED"] += 1
        tally.expect(start <= low and high == low + res * TICK + 1 and high <= end, "unresolved", words, body)
        tally.expect(done.returncode == 1, "status", words, done.returncode)
        grazes(tally, place, low, high, rng)
    elif first[0] == "FULL" and len(body) == 1:
        tally.counts["FULL"] += 1
        tally.expect(done.returncode == 1, "status", words, done.returncode)
    else:
        tally.expect(done.returncode == 0, "status", words, done.returncode)
        check_spans(tally, place, body, start, end, res, rng)


def main():
    program = sys.argv[1] if len(sys.argv) > 1 else "crates/passplan/out/passplan"
    rng, tally = random.Random(SEED), Tally()
    for _ in range(RUNS):
        check(tally, program, case(rng), rng)
    print("seed %d, %d runs" % (SEED, RUNS))
    print(", ".join("%s %d" % row for row in tally.counts.items()))
    print("longest undecided span: %d ticks" % tally.longest)
    print("largest |sine| where undecided: %.3g; least sine on its side where decided: %.3g" % (tally.widest, tally.closest))
    print("wrong: %d" % len(tally.wrong))
    for what in tally.wrong[:20]:
        print(*what)
    return 1 if tally.wrong else 0


if __name__ == "__main__":
    sys.exit(main())
