"""Prints element sets of the catalogue that `passplan grid` generates, as a table of rows_grid.

    python3 tools/grid/sets.py

reads the two lines that tools/speed/inputs.py writes for each satellite of the table, column by column, and prints the digits and
the places of each number in its shortest decimal form, and the epoch in nanoseconds from 2000-01-01T12:00:00.

It needs nothing but Python.
"""
import datetime
import decimal
import os
import sys

sys.path.insert(0, os.path.join(os.path.dirname(os.path.abspath(__file__)), "..", "speed"))
import inputs  # noqa: E402

SATELLITES = (0, 1, 18, 199, 200, 201, 999)


def shortest(text):
    """The digits without the point and how many stand after it, of a decimal without zeros at the end of its fraction."""
    number = decimal.Decimal(text.strip())
    places = max(0, -number.as_tuple().exponent)
    digits = int(number.scaleb(places))
    while places > 0 and digits % 10 == 0:
        digits, places = digits // 10, places - 1
    return "(%d, %d)" % (digits, places)


def epoch(columns):
    """Nanoseconds from 2000-01-01T12:00:00 of a year and a day of the year."""
    year = 2000 + int(columns[:2])
    start = datetime.datetime(year, 1, 1) - datetime.datetime(2000, 1, 1, 12)
    seconds = decimal.Decimal(start.total_seconds()) + (decimal.Decimal(columns[2:]) - 1) * 86_400
    return int(seconds * 1_000_000_000)


def row(k):
    one, two = inputs.two_lines(k).splitlines()
    drag = decimal.Decimal("0." + one[54:59].strip()).scaleb(int(one[59:61]))
    numbers = (two[52:63], "0." + two[26:33], two[8:16], two[17:25], two[34:42], two[43:51], str(drag))
    return "(%d, %d, %d, [%s])," % (k, int(one[2:7]), epoch(one[18:32]), ", ".join(shortest(text) for text in numbers))


if __name__ == "__main__":
    for satellite in SATELLITES:
        print(row(satellite))
