#!/usr/bin/env python3
"""Prints the rows of crates/rows_day/src/sunrises.rt: instants at which the Sun passes the horizon.

The sine of the Sun's elevation is computed in floating point by right ascension, declination and hour angle, from the public
formulas alone (Greenwich mean sidereal time of 1982, the Astronomical Almanac's low-precision Sun), and its zeros are bisected.
An instant is bracketed by a window that ends a millisecond before it, rounded to one, and another that starts a millisecond
behind it. Run it anywhere: python3 tools/day/sunrises.py
"""
import datetime
import math

EPOCH = datetime.datetime(2000, 1, 1, 12)
PLACES = [
    ("48.1", "11.3", "2000-06-21"),
    ("-0.2", "-78.5", "1975-03-03"),
    ("-36.8", "174.7", "2035-11-07"),
    ("64.1", "-21.9", "2056-09-30"),
]


def elevation_sine(lat, lon, seconds):
    centuries, days = seconds / 3155760000, seconds / 86400
    sidereal = 67310.54841 + (876600 * 3600 + 8640184.812866) * centuries + 0.093104 * centuries**2 - 0.0000062 * centuries**3
    turn = math.pi * math.fmod(sidereal, 86400) / 43200
    anomaly = math.radians(math.fmod(357.528 + 0.9856003 * days, 360))
    mean = math.fmod(280.460 + 0.9856474 * days, 360)
    longitude = math.radians(mean + 1.915 * math.sin(anomaly) + 0.020 * math.sin(2 * anomaly))
    obliquity = math.radians(23.439 - 0.0000004 * days)
    ascension = math.atan2(math.cos(obliquity) * math.sin(longitude), math.cos(longitude))
    declination = math.asin(math.sin(obliquity) * math.sin(longitude))
    hour = turn + math.radians(lon) - ascension
    return math.sin(math.radians(lat)) * math.sin(declination) + math.cos(math.radians(lat)) * math.cos(declination) * math.cos(hour)


def crossing(lat, lon, start):
    """The first passage of the horizon behind an instant, and whether the Sun is up before it."""
    from_, up = start, elevation_sine(lat, lon, start) > 0
    while (elevation_sine(lat, lon, from_ + 60) > 0) == up:
        from_ += 60
    to = from_ + 60
    for _ in range(60):
        middle = (from_ + to) / 2
        if (elevation_sine(lat, lon, middle) > 0) == up:
            from_ = middle
        else:
            to = middle
    return from_, up


def utc(seconds, digits):
    whole = math.floor(seconds)
    moment = EPOCH + datetime.timedelta(seconds=whole)
    return moment.isoformat() + ("." + f"{seconds - whole:.{digits}f}"[2:] if digits else "")


for lat, lon, day in PLACES:
    start = (datetime.datetime.fromisoformat(day) - EPOCH).total_seconds()
    at, up = crossing(float(lat), float(lon), start)
    print(lat, lon, "passes at", utc(at, 4), "and is", "up" if up else "down", "before it")
    second, milli = math.floor(at), round((at - math.floor(at)) * 1000)
    before, behind = ("L", "N") if up else ("N", "L")
    for first, last, mark in [(second, second + (milli - 1) / 1000, before), (second + (milli + 1) / 1000, second + 1, behind)]:
        print(" ", utc(first, 3), utc(last, 3), mark)
