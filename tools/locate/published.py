"""Compares `passplan locate` with the published positions of AIAA 2006-6753, outside the gate.

The element sets and the positions are its files SGP4-VER.TLE and tcppver.out; Debian's package python3-sgp4 (2.15-0.1)
has both, in usr/lib/python3/dist-packages/sgp4. Each set is cut to its 69 columns and asked for at each published time within
seven days of its epoch. What is checked:

- a set is not read exactly where a check digit of it is wrong, as in the last of the file, and has the fate that its own
  fields call for: ECCENTRIC, INCLINED, DRAG, DEEP, LOW or OK;
- each published coordinate is at most 5 millimetres outside its bounds: the published program forms ke from the gravitational
  parameter, and does not take the printed one, which moves positions by millimetres in days.

How to run it, at the top of the repository, once ./passplan has built the program:

    python3 tools/locate/published.py SETS POSITIONS [PROGRAM]

It prints, for each set, its fate, how many positions were compared and the farthest one outside, and ends with status 1 where a
check failed.
"""
import math
import os
import subprocess
import sys
import tempfile

from compare import DAYS_NANOS, to_text

NEAR_MM = 5
WEEK_MINUTES = 7 * 1440
KE = 0.0743669161
RADIUS_KM = 6378.135


def read_sets(path):
    """The pairs of lines, each cut to 69 columns."""
    with open(path, encoding="latin-1") as lines:
        kept = [line.rstrip("\n")[:69] for line in lines if line[:2] in ("1 ", "2 ")]
    return list(zip(kept[::2], kept[1::2]))


def read_positions(path):
    """For each set in the file's order, its catalogue number and rows of minutes and three coordinates in kilometres."""
    blocks = []
    with open(path, encoding="latin-1") as lines:
        for line in lines:
            words = line.split()
            if len(words) == 2 and words[1] == "xx":
                blocks.append((int(words[0]), []))
            elif words:
                blocks[-1][1].append([float(word) for word in words[:4]])
    return blocks


def epoch_nanos(line1):
    """The epoch, in nanoseconds from the start of the year 2000."""
    year = int(line1[18:20])
    years = year if year < 57 else year - 100
    day_units = round(float(line1[20:23])) * 10**8 + int(line1[24:32])
    leap_days = (years + 3) // 4
    return (years * 365 + leap_days) * DAYS_NANOS + (day_units - 10**8) * 864_000


def is_checked(line):
    """Whether the check digit is that of the line."""
    return sum(int(byte) if byte.isdigit() else byte == "-" for byte in line[:68]) % 10 == int(line[68])


def expected_fate(line1, line2):
    """UNREAD, a fate, or OK, by the set's own fields; period and perigee by the textbook's recovered motion, in floating point."""
    if not (is_checked(line1) and is_checked(line2)):
        return "UNREAD"
    ecc = int(line2[26:33]) / 1e7
    incl = math.radians(float(line2[8:16]))
    drag = float(line1[53] + "." + line1[54:59].replace(" ", "0")) * 10.0 ** int(line1[59:61])
    if ecc > 0.2:
        return "ECCENTRIC"
    if math.degrees(incl) > 175:
        return "INCLINED"
    if abs(drag) > 0.001:
        return "DRAG"
    motion = float(line2[52:63]) * math.tau / 1440
    turn = 0.75 * 1.082616e-3 * (3 * math.cos(incl) ** 2 - 1) / (1 - ecc**2) ** 1.5
    first = (KE / motion) ** (2 / 3)
    term = turn / first**2
    second = first * (1 - term**2 - term * (1 / 3 + 134 * term**2 / 81))
    motion /= 1 + turn / second**2
    if math.tau / motion >= 225:
        return "DEEP"
    perigee = ((KE / motion) ** (2 / 3) * (1 - ecc) - 1) * RADIUS_KM
    return "LOW" if perigee < 300 else "OK"


def locate(program, folder, number, nanos):
    """The status and the lines of a run."""
    words = ["locate", "--catalogue=sets", "--number=%d" % number, "--at=" + to_text(nanos)]
    run = subprocess.run([program] + words, cwd=folder, capture_output=True, text=True)
    return run.returncode, run.stdout.splitlines()


def outside_mm(lines, row):
    """How far the published position is outside the bounds, in millimetres."""
    ends = [[int(word) for word in line.split()[1:]] for line in lines[3:6]]
    return max(max(low - value * 1e6, value * 1e6 - high) for (low, high), value in zip(ends, row[1:]))


def compare(program, folder, pair, rows):
    """A line on the set, and whether all is well."""
    with open(folder + "/sets", "w", encoding="ascii") as out:
        out.write("\n".join(pair) + "\n")
    epoch, number = epoch_nanos(pair[0]), int(pair[0][2:7])
    status, lines = locate(program, folder, number, epoch)
    fate, wanted = lines[2].split()[2] if status in (0, 1) else "UNREAD", expected_fate(*pair)
    if fate != "OK" or wanted != "OK":
        return "%s, expected %s" % (fate, wanted), fate == wanted
    farthest, count = 0.0, 0
    for row in (row for row in rows if abs(row[0]) <= WEEK_MINUTES):
        status, lines = locate(program, folder, number, epoch + round(row[0] * 60 * 10**9))
        if status != 0 or len(lines) != 7:
            return "at minute %s: %s" % (row[0], lines), False
        farthest, count = max(farthest, outside_mm(lines, row)), count + 1
    return "OK, %d positions, farthest outside %.3f mm" % (count, farthest), farthest <= NEAR_MM


def main():
    program = os.path.abspath(sys.argv[3] if len(sys.argv) > 3 else "crates/passplan/out/passplan")
    sets, blocks = read_sets(sys.argv[1]), read_positions(sys.argv[2])
    well = len(sets) > 0
    with tempfile.TemporaryDirectory() as folder:
        for pair, (number, rows) in zip(sets, blocks):
            assert number == int(pair[0][2:7])
            line, is_well = compare(program, folder, pair, rows)
            well = well and is_well
            print("%05d %s%s" % (number, line, "" if is_well else " WRONG"))
    sys.exit(0 if well else 1)


if __name__ == "__main__":
    main()
