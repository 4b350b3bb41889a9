#!/usr/bin/env python3
"""Prints what `show` writes of each beginning of a message, as crates/rows_show/src/cuts.rt lists it.

The beginnings are read here by the layout of messages, line by line and then key by key in the order of the keys, and
share nothing with the program. Run it as python3 tools/catalogue/prefixes.py
"""
import re
from datetime import datetime
from decimal import Decimal
from pathlib import Path

from entries import entries

FILES = Path(__file__).resolve().parents[2] / "crates/rows_show/src/files.rt"
WORDS = {
    "CCSDS_OMM_VERS": ("2.0", "3.0"), "CENTER_NAME": ("EARTH",), "REF_FRAME": ("TEME",), "TIME_SYSTEM": ("UTC",),
    "MEAN_ELEMENT_THEORY": ("SGP4", "SGP/SGP4"),
}
OPTIONAL = ("CENTER_NAME", "REF_FRAME", "TIME_SYSTEM")
RANGES = {
    "MEAN_MOTION": lambda n: 0 < n < 100, "ECCENTRICITY": lambda n: 0 <= n < 1, "INCLINATION": lambda n: 0 <= n <= 180,
    "RA_OF_ASC_NODE": lambda n: abs(n) <= 360, "ARG_OF_PERICENTER": lambda n: abs(n) <= 360,
    "MEAN_ANOMALY": lambda n: abs(n) <= 360, "BSTAR": lambda n: True,
}
ORDER = list(WORDS) + ["EPOCH"] + list(RANGES)[:-1] + ["NORAD_CAT_ID", "BSTAR"]


def is_epoch(text):
    form = re.fullmatch(r"(\d{4}-\d\d-\d\dT\d\d:\d\d:\d\d)(\.\d{1,9})?Z?", text)
    try:
        return bool(form) and bool(datetime.fromisoformat(form[1]))
    except ValueError:
        return False


def number_in(text):
    if text.endswith("]") and "[" in text:
        text = text[: text.rindex("[")].rstrip(" \t\r")
    if re.fullmatch(r"[+-]?(\d+\.?\d*|\.\d+)([Ee][+-]?\d{1,3})?", text):
        return Decimal(text)
    return None


def is_read(key, value):
    if key == "EPOCH":
        return is_epoch(value)
    if key == "NORAD_CAT_ID":
        return bool(re.fullmatch(r"\d{1,9}", value))
    number = number_in(value)
    return number is not None and RANGES[key](number)


def answer(text):
    """The fault of a file, as it is printed behind `error catalogue`, or its mean anomaly."""
    lines = text.split("\n")
    if not text.strip():
        return "empty"
    if not text.startswith("CCSDS_OMM_VERS"):
        return "odd 1"
    values = {}
    for number, keyword, value in entries(lines):
        if keyword is None:
            return "set 1 omm line %d" % number
        values[keyword] = value
    for key in ORDER:
        if key not in values:
            if key not in OPTIONAL:
                return "set 1 omm missing " + key
        elif key in WORDS:
            if values[key] not in WORDS[key]:
                return "set 1 omm unsupported " + key
        elif not is_read(key, values[key]):
            return "set 1 omm value " + key
    return format(number_in(values["MEAN_ANOMALY"]).normalize(), "f")


def message():
    """The message of the test, whose beginnings are meant."""
    found = re.search(r'MESSAGE: &\[u8\] =\s*b"([^"]*)"', FILES.read_text(encoding="utf-8"))
    return found[1].replace("\\n", "\n")


def main():
    text, rows = message(), []
    for length in range(len(text) + 1):
        found = answer(text[:length])
        if rows and rows[-1][1] == found:
            rows[-1][0] = length
        else:
            rows.append([length, found])
    for last, found in rows:
        print('    (%d, "%s"),' % (last, found))


if __name__ == "__main__":
    main()
