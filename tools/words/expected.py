#!/usr/bin/env python3
"""Reads each line of words of crates/rows_words/stdin by the rules of docs/FORMATS.md, with nothing of the program, and compares
what it asks for, or its first fault, with crates/rows_words/stdout, which is written by hand. Run it at the top of the repository:

    python3 tools/words/expected.py

It prints each line on which the two differ, and ends with status 1 where there is one.
"""
import re
import sys
from datetime import datetime, timedelta
from fractions import Fraction

KEYS = {
    "day": ["lat", "lon", "start", "end", "res"],
    "plan": ["catalogue", "stations", "start", "end", "res"],
    "show": ["catalogue", "start"],
    "locate": ["catalogue", "number", "at"],
    "grid": ["count"],
    "book": ["catalogue", "stations", "start", "end", "res", "antennas"],
}
DATE = re.compile(r"(\d{4})-(?:(\d\d)-(\d\d)|(\d{3}))T(\d\d):(\d\d):(\d\d)(?:\.(\d{1,9}))?Z?", re.ASCII)
DECIMAL = re.compile(r"[+-]?(?:\d+\.?\d*|\.\d+)(?:[Ee][+-]?\d{1,3})?", re.ASCII)
WINDOW_KINDS = ["Shape", "Year", "Order", "Long", "Resolution"]
TICK = 100_000
SECOND = 1_000_000_000


class Fault(Exception):
    """The fault of the words, as it is printed."""


def options(keys, words):
    """For each key that is there, its value, and the word and the byte where it begins."""
    found = {}
    index = 1
    while index < len(words):
        word, at = words[index], index + 1
        key, sign, value = word.partition("=")
        if value and key[:2] == "--" and key[2:] in keys:
            place = (at, len((key + sign).encode()), value)
        elif word[:2] == "--" and word[2:] in keys and index + 1 < len(words) and words[index + 1][:1] not in ("", "-"):
            key, place = word, (at + 1, 0, words[index + 1])
            index += 1
        else:
            raise Fault(f"Usage(Word {{ at: {at} }})")
        if key[2:] in found:
            raise Fault(f"Usage(Twice {{ key: {key[2:].capitalize()} }})")
        found[key[2:]] = place
        index += 1
    for key in keys:
        if key not in found:
            raise Fault(f"Usage(Missing {{ key: {key.capitalize()} }})")
    return found


def instant(text):
    """Nanoseconds from 2000-01-01T12:00:00 UTC, or the kind of the fault."""
    parts = DATE.fullmatch(text)
    if not parts:
        return "Shape"
    year, month, day, of_year, hour, minute, second, behind = parts.groups()
    try:
        if of_year:
            date = datetime(int(year), 1, 1) + timedelta(days=int(of_year) - 1)
            if date.year != int(year):
                return "Shape"
        else:
            date = datetime(int(year), int(month), int(day))
        date = date.replace(hour=int(hour), minute=int(minute), second=int(second))
    except ValueError:
        return "Shape"
    if not 1957 <= int(year) <= 2056:
        return "Year"
    since = date - datetime(2000, 1, 1, 12)
    return (since.days * 86_400 + since.seconds) * SECOND + int((behind or "").ljust(9, "0"))


def decimal(key, text, low, high):
    """The digits and the places of a decimal from `low` to `high`."""
    if DECIMAL.fullmatch(text):
        value = Fraction(text)
        places = next((k for k in range(19) if (value * 10**k).denominator == 1), None)
        if low <= value <= high and places is not None and abs(value * 10**places) < 10**18:
            return f"({value * 10**places}, {places})"
    raise Fault(f"Usage(Value {{ key: {key} }})")


def number(key, text, form, low, high):
    """A whole number of this form, from `low` to `high`."""
    if re.fullmatch(form, text, re.ASCII) and low <= int(text) <= high:
        return int(text)
    raise Fault(f"Usage(Value {{ key: {key} }})")


def window(start, end, res):
    """Start, ticks and resolution of a window, or its first fault by kind."""
    moments = [instant(text) for text in (start, end)]
    moments = ["Shape" if type(moment) is int and moment % TICK else moment for moment in moments]
    faults = [moment for moment in moments if type(moment) is str]
    if not faults and moments[1] <= moments[0]:
        faults.append("Order")
    if not faults and moments[1] - moments[0] > 864_000 * SECOND:
        faults.append("Long")
    if not (re.fullmatch(r"\d{1,2}", res, re.ASCII) and 1 <= int(res) <= 60):
        faults.append("Resolution")
    if faults:
        raise Fault(f"Window({min(faults, key=WINDOW_KINDS.index)})")
    return f"({moments[0]}, {(moments[1] - moments[0]) // TICK}, {int(res) * 10_000})"


def moment(text):
    """An instant, or its fault as that of a window."""
    read = instant(text)
    if type(read) is str:
        raise Fault(f"Window({read})")
    return read


def name(place):
    word, before, text = place
    return f'({word}, {before}, "{text}")'


def asked(command, found):
    """What the values of the keys ask for."""
    texts = {key: place[2] for key, place in found.items()}
    if command == "day":
        lat = decimal("Lat", texts["lat"], -90, 90)
        lon = decimal("Lon", texts["lon"], -180, 360)
        return f"Day({lat}, {lon}, {window(texts['start'], texts['end'], texts['res'])})"
    if command == "show":
        return f"Show {{ catalogue: {name(found['catalogue'])}, start: {moment(texts['start'])} }}"
    if command == "locate":
        which = number("Number", texts["number"], r"\d{1,9}", 0, 999_999_999)
        return f"Locate {{ catalogue: {name(found['catalogue'])}, number: {which}, at: {moment(texts['at'])} }}"
    if command == "grid":
        return f"Grid {{ count: {number('Count', texts['count'], r'[1-9][0-9]*', 1, 1_000)} }}"
    antennas = number("Antennas", texts["antennas"], r"\d{1,2}", 1, 64) if command == "book" else 0
    files = f"catalogue: {name(found['catalogue'])}, stations: {name(found['stations'])}"
    files += f", window: {window(texts['start'], texts['end'], texts['res'])}"
    return f"Book {{ {files}, antennas: {antennas} }}" if command == "book" else f"Plan {{ {files} }}"


def answer(line):
    words = line.split(" ")
    if words[0] not in KEYS:
        return "Err(Usage(Command))"
    try:
        return f"Ok({asked(words[0], options(KEYS[words[0]], words))})"
    except Fault as fault:
        return f"Err({fault})"


def main():
    with open("crates/rows_words/stdin", encoding="utf-8") as lines:
        rows = lines.read().split("\n")[:-1]
    with open("crates/rows_words/stdout", encoding="utf-8") as lines:
        printed = lines.read().split("\n")[:-1]
    wanted = [text for row in rows for text in (row, "  " + answer(row))]
    differ = [(k, a, b) for k, (a, b) in enumerate(zip(wanted, printed)) if a != b]
    for k, a, b in differ:
        print(f"line {k + 1}: by the rules {a!r}, in stdout {b!r}")
    print(f"{len(rows)} rows, {len(differ)} differ, {len(printed) - len(wanted)} lines too many")
    return 1 if differ or len(printed) != len(wanted) else 0


if __name__ == "__main__":
    sys.exit(main())
