"""Writes a catalogue and a station file of any size, by the formulas of the catalogue that `passplan grid` generates.

    python3 tools/speed/inputs.py SATELLITES STATIONS FOLDER

makes FOLDER/catalogue and FOLDER/stations. Satellite k from 0 has the number 90000 + k, no name, the epoch 2000-06-28T00:00:00,
a mean motion of 15 - (k mod 1000)/1000, the eccentricity (k mod 200)/10000, the inclination 7k mod 176, the node 37k mod 360, the
argument of perigee 91k mod 360, the mean anomaly 137k mod 360 and the drag term 0.0001. Up to 1,000 satellites that is the
generated catalogue; beyond, the mean motion begins again. Stations 1 and 2 are `Equator` and `North` of the generated plan,
station j from 3 has the latitude (37j mod 161) - 80, the longitude 91j mod 360, the height 0 and the mask 5 j mod 20.

Nothing is random, and it needs nothing but Python.
"""
import os
import sys

LETTERS = "ABCDEFGHJKLMNPQRSTUVWXYZ"  # the first place of numbers from 100,000, for 10 to 33
FIRST = 90_000
MOST = 340_000 - FIRST


def closed(columns):
    """A line with its check digit."""
    assert len(columns) == 68, columns
    return columns + str(sum(int(c) if c.isdigit() else c == "-" for c in columns) % 10)


def number_text(number):
    if number < 100_000:
        return "%05d" % number
    return LETTERS[number // 10_000 - 10] + "%04d" % (number % 10_000)


def two_lines(k):
    """The two lines of satellite k."""
    number = number_text(FIRST + k)
    motion, ecc = 15_000 - k % 1000, k % 200
    angles = tuple("%8.4f" % angle for angle in (7 * k % 176, 37 * k % 360, 91 * k % 360, 137 * k % 360))
    one = "1 %sU 00001A   00180.00000000  .00000000  00000-0  10000-3 0    1" % number
    two = "2 %s %s %s %07d %s %s %2d.%03d00000    1" % (number, *angles[:2], ecc * 1000, *angles[2:], motion // 1000, motion % 1000)
    return closed(one) + "\n" + closed(two) + "\n"


def catalogue(count):
    assert 1 <= count <= MOST, count
    return "".join(two_lines(k) for k in range(count))


def station(j):
    if j == 1:
        values = ("Equator", 0, 0, 10)
    elif j == 2:
        values = ("North", 67.9, 21, 5)
    else:
        values = ("Station %d" % j, 37 * j % 161 - 80, 91 * j % 360, 5 * j % 20)
    return '[[station]]\nname = "%s"\nlat = "%s"\nlon = "%s"\nheight = "0"\nmask = "%s"\n' % values


def stations(count):
    assert 1 <= count <= 64, count
    return "version = 1\n" + "".join(station(j) for j in range(1, count + 1))


def write(satellites, count, folder):
    os.makedirs(folder, exist_ok=True)
    for name, text in (("catalogue", catalogue(satellites)), ("stations", stations(count))):
        with open(os.path.join(folder, name), "w", encoding="ascii") as file:
            file.write(text)


if __name__ == "__main__":
    if len(sys.argv) != 4:
        sys.exit(__doc__)
    write(int(sys.argv[1]), int(sys.argv[2]), sys.argv[3])
