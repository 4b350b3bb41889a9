"""Compares `passplan plan` with a separately written SGP4, outside the gate.

Runs the built program for 300 random plans (fixed seed): 1 to 5 satellites, 1 to 3 stations, masks by sectors, offsets of UT1,
windows of a minute to ten days in the years 1957 to 2056. The positions are those of orbit.py, the rest is sky.py, in floating
point; cases.py makes the plans. Nothing here is taken from the program's own code. What is checked of each run:

- the text is of the layout (tools/view/plan.py): window, offset, stations and satellites as they were asked for, each OK; the
  spans tile the window, neighbours differ, undecided ones are no longer than the resolution, tables are the visible spans in
  order; the status is 0 where every row is spans, else 1;
- V, H, S, D: the satellite is above, below, sunlit, dark at both ends, at 20 random instants, at every whole second of the
  window inside, and where the margin is least near such a second (golden section);
- U and UNRESOLVED: at 7 instants, both ends among them, the sine of the elevation is within 0.001 of a floor and the position
  within 195 m of the mask (2^-15 Earth radii), or the shadow's g is within 0.001 and 2^-13 of 0;
- each contact that a scan of one second finds, and that is longer than the resolution, has an instant in a V.

FULL and DECAYS never come for these plans, and count as wrong. How to run it, at the top of the repository, once ./passplan has
built the program; numpy comes with Debian's python3-numpy:

    /usr/bin/python3 tools/plan/compare.py [PROGRAM [FIRST LAST]]

It prints the seed, the counts and every discrepancy with the number of its plan (FIRST and LAST run such plans alone), and ends
with status 1 where there is one.
"""
import os
import random
import subprocess
import sys
import tempfile

import numpy as np

sys.path.insert(1, os.path.join(os.path.dirname(os.path.abspath(__file__)), "..", "view"))
import plan as layout  # noqa: E402
from cases import Case, printed  # noqa: E402

SEED = 20261202
PLANS = 300
TICK = 10_000
SLACK = 1e-10
GIVEN, SHARP_LENGTH, SHARP_SHADE = 0.001, 2.0**-15, 2.0**-13
CHUNK = 50_000
GOLDEN = (5.0**0.5 - 1.0) / 2.0
NEAR = 0.2  # margins above it have no minimum below 0 within a second


class Tally:
    def __init__(self):
        self.wrong = []
        self.counts = dict.fromkeys(("plans", "satellites", "pairs", "V", "H", "S", "D", "U", "UNRESOLVED", "instants", "minima", "contacts"), 0)
        self.least = {"V": 9.0, "H": 9.0, "S": 9.0, "D": 9.0}
        self.longest = 0
        self.widest = {"given": 0, "sharp": 0}
        self.plan = 0

    def expect(self, holds, *what):
        if not holds:
            self.wrong.append("plan %d: %s" % (self.plan, " ".join(str(part) for part in what)))


class PairTrack:
    """How far a satellite is above and below a station's mask at seconds from the window's start."""

    letters = ("V", "H")

    def __init__(self, case, sat, row):
        self.case, self.sat, self.station = case, sat, row.station

    def sight(self, at):
        place = self.sat.orbit.at(self.sat.minutes(self.case.start, at))
        return self.station.sight(self.case.sky.sidereal(at), place)

    def margins(self, at):
        return self.station.margins(self.sight(at))

    def grazes(self, at):
        return self.station.grazes(self.sight(at), GIVEN, SHARP_LENGTH, SLACK)


class LitTrack:
    """How far a satellite is from the shadow's border."""

    letters = ("S", "D")

    def __init__(self, case, sat):
        self.case, self.sat = case, sat

    def shade(self, at):
        return self.case.sky.shade(at, self.sat.orbit.at(self.sat.minutes(self.case.start, at)))

    def margins(self, at):
        p, g = self.shade(at)
        return np.maximum(p, g), -np.maximum(p, g)

    def grazes(self, at):
        size = np.abs(self.shade(at)[1])
        return size <= GIVEN + SLACK, size <= SHARP_SHADE + SLACK


def scanned(track, at):
    """The margins at many instants, in pieces that fit the cache."""
    pieces = [track.margins(at[k : k + CHUNK]) for k in range(0, len(at), CHUNK)]
    return [np.concatenate(column) for column in zip(*pieces)]


def drawn(spans, start, rng):
    """Both ends of each span and 20 random instants, in seconds from the window's start, and the span of each."""
    ends = np.array([[span.start - start, span.end - start] for span in spans]) / TICK
    parts = np.concatenate([[0.0, 1.0], rng.random(20)])
    at = ends[:, :1] + (ends[:, 1:] - ends[:, :1]) * parts
    at[:, 1] = ends[:, 1]
    return at.ravel(), np.repeat(np.arange(len(spans)), len(parts))


def golden(margin, low, high):
    """The least margins between the ends of many brackets at once."""
    left, right = high - GOLDEN * (high - low), low + GOLDEN * (high - low)
    at_left, at_right = margin(left), margin(right)
    best = np.minimum(at_left, at_right)
    for _ in range(30):
        go_left = at_left < at_right
        low, high = np.where(go_left, low, left), np.where(go_left, right, high)
        left, right = high - GOLDEN * (high - low), low + GOLDEN * (high - low)
        at_left, at_right = margin(left), margin(right)
        best = np.minimum(best, np.minimum(at_left, at_right))
    return best


def brackets(spans, start, seconds, margin):
    """Around each whole second inside a span whose neighbours have no smaller margin, and each span with hardly a second inside."""
    found = []
    for span in spans:
        low, high = (span.start - start) / TICK, (span.end - start) / TICK
        first, last = np.searchsorted(seconds, [low, high])
        inside = margin[first:last]
        if len(inside) < 3:
            found.append((low, high))
            continue
        least = np.flatnonzero((inside[1:-1] <= inside[:-2]) & (inside[1:-1] <= inside[2:]) & (inside[1:-1] < NEAR)) + 1
        least = np.append(least, np.argmin(inside))
        found.extend((max(low, seconds[first + k] - 1.0), min(high, seconds[first + k] + 1.0)) for k in least)
    return np.array(found)


def check_sides(tally, what, track, spans, start, scan, rng):
    """The margins of one letter's spans: at drawn instants, at whole seconds, at their minima."""
    letter = spans[0].letter
    side = track.letters.index(letter)
    margin = lambda at: track.margins(at)[side]  # noqa: E731
    at, owner = drawn(spans, start, rng)
    values = margin(at)
    for k in np.flatnonzero(values <= -SLACK)[:3]:
        tally.expect(False, what, "side", spans[owner[k]], "at second %.6f" % at[k], values[k])
    seconds, margins = scan[0], scan[1][side]
    ends = np.array([[span.start - start, span.end - start] for span in spans]) / TICK
    place = np.searchsorted(ends[:, 0], seconds, "right") - 1
    inside = (place >= 0) & (seconds <= ends[place, 1])
    for k in np.flatnonzero(inside & (margins <= -SLACK))[:3]:
        tally.expect(False, what, "scan", spans[place[k]], "at second %.6f" % seconds[k], margins[k])
    found = brackets(spans, start, seconds, margins)
    least = golden(margin, found[:, 0], found[:, 1])
    for k in np.flatnonzero(least <= -SLACK)[:3]:
        tally.expect(False, what, "minimum", letter, "near second %.6f" % found[k, 0], least[k])
    tally.counts["instants"] += len(at) + int(np.count_nonzero(inside))
    tally.counts["minima"] += len(found)
    tally.least[letter] = min(tally.least[letter], float(values.min()), float(least.min()))


def check_grazes(tally, what, track, stretches, start, rng):
    ends = np.array([[low - start, high - start] for low, high in stretches]) / TICK
    parts = np.concatenate([[0.0, 0.5, 1.0], rng.random(4)])
    at = (ends[:, :1] + (ends[:, 1:] - ends[:, :1]) * parts).ravel()
    for name, holds in zip(("given", "sharp"), track.grazes(at)):
        for k in np.flatnonzero(~holds)[:3]:
            tally.expect(False, what, "grazes by the %s bound" % name, stretches[k // len(parts)], "at second %.6f" % at[k])
    tally.counts["instants"] += len(at)


def check_contacts(tally, what, track, spans, case, scan):
    """Each run of whole seconds at which the satellite is above, longer than the resolution, meets a visible span."""
    above = np.concatenate([[False], scan[1][1] < -SLACK, [False]])
    edges = np.flatnonzero(above[1:] != above[:-1]).reshape(-1, 2)
    seen = np.array([[span.start - case.start, span.end - case.start] for span in spans if span.letter == "V"]).reshape(-1, 2) / TICK
    for first, behind in edges:
        low, high = scan[0][first], scan[0][behind - 1]
        if high - low <= case.res:
            continue
        tally.counts["contacts"] += 1
        if not np.any((seen[:, 0] <= high) & (seen[:, 1] >= low)):
            close = track.margins(np.linspace(low, high, int((high - low) * 100) + 2))[1]
            tally.expect(np.any(close >= 0.0), what, "no V in the contact of seconds %.1f to %.1f" % (low, high))


def check_row(tally, what, track, row, case, scan, rng):
    if row.kind == "UNRESOLVED":
        tally.counts["UNRESOLVED"] += 1
        check_grazes(tally, what, track, [(row.start, row.end)], case.start, rng)
        return
    tally.expect(row.kind == "SPANS", what, row.kind)
    for letter in track.letters + ("U",):
        spans = [span for span in row.spans if span.letter == letter]
        tally.counts[letter] += len(spans)
        if not spans:
            continue
        if letter == "U":
            tally.longest = max(tally.longest, max(span.end - span.start for span in spans))
            check_grazes(tally, what, track, [(span.start, span.end) for span in spans], case.start, rng)
        else:
            check_sides(tally, what, track, spans, case.start, scan, rng)
    if row.kind == "SPANS" and track.letters[0] == "V":
        check_contacts(tally, what, track, row.spans, case, scan)


def check_text(tally, case, text, status):
    """The plan that a text holds, where it is of the layout and of what was asked for."""
    try:
        read = layout.read_plan(text)
    except layout.Refused as fault:
        tally.expect(False, "not of the layout,", fault)
        return None
    head = read.head
    wanted = (case.start, case.end, case.res, case.dut1, [printed(row.name) for row in case.rows])
    tally.expect(head[:5] == wanted, "head", head[:5], "not", wanted)
    sats = [layout.Sat(sat.number, "OK", sat.name) for sat in case.sats]
    tally.expect(head.sats == sats, "satellites", head.sats, "not", sats)
    tally.expect(status == (0 if layout.is_whole(read) else 1), "status", status)
    return read if head[:5] == wanted and head.sats == sats else None


def check(tally, program, folder, case):
    for name, text in (("c", case.catalogue), ("s", case.stations)):
        with open(os.path.join(folder, name), "wb") as file:
            file.write(text)
    done = subprocess.run([program] + case.words(), cwd=folder, stdout=subprocess.PIPE, check=False)
    read = check_text(tally, case, done.stdout, done.returncode)
    if read is None:
        return
    rng = np.random.default_rng(case.rng.getrandbits(32))
    seconds = np.arange(0.0, (case.end - case.start) / TICK, 1.0)
    for sat in case.sats:
        tracks = [("LIT %d" % sat.number, LitTrack(case, sat), read.lit[sat.number])]
        for index, row in enumerate(case.rows, 1):
            tracks.append(("PAIR %d %d" % (sat.number, index), PairTrack(case, sat, row), read.pair[sat.number, index]))
        for what, track, row in tracks:
            check_row(tally, what, track, row, case, (seconds, scanned(track, seconds)), rng)
        tally.counts["satellites"] += 1
        tally.counts["pairs"] += len(case.rows)


def main():
    program = os.path.abspath(sys.argv[1] if len(sys.argv) > 1 else "crates/passplan/out/passplan")
    first, last = (int(sys.argv[2]), int(sys.argv[3])) if len(sys.argv) > 3 else (1, PLANS)
    tally = Tally()
    with tempfile.TemporaryDirectory() as folder:
        for number in range(first, last + 1):
            tally.plan, before = number, len(tally.wrong)
            check(tally, program, folder, Case(SEED, number))
            tally.counts["plans"] += 1
            for what in tally.wrong[before:]:
                print(what, flush=True)
    print("seed %d, plans %d to %d" % (SEED, first, last))
    print(", ".join("%s %d" % row for row in tally.counts.items()))
    print("longest undecided span: %d ticks" % tally.longest)
    print("least margins: " + ", ".join("%s %.3g" % row for row in tally.least.items()))
    print("wrong: %d" % len(tally.wrong))
    return 1 if tally.wrong else 0


if __name__ == "__main__":
    sys.exit(main())
