#!/usr/bin/env python3
"""Writes crates/rows_messages/src/expected.rt: what catalogues of made-up files must be.

The files are made of pieces that a generator chooses, here and in crates/rows_messages/src/made_up.rt alike. They are
read here by their formats, with nothing of the program: lines are counted and stripped, two-line sets are told by how
lines begin, messages are cut at their versions, and of the sets of one number the nearest is found by sorting. Run it at
the top of the repository, python3 tools/catalogue/expected.py, and then rt fmt in the crate.
"""
import re
from datetime import datetime

from entries import entries

MASK = (1 << 64) - 1
FILES = 2_000
GROUP = 100
START = 275_140_800_000_000_000
DAY = 86_400_000_000_000

A1 = "1 00005U 58002B   00179.78495062  .00000023  00000-0  28098-4 0  4753"
C1 = "1 00005U 58002B   08264.51782528  .00000023  00000-0  28098-4 0  4753"
A2 = "2 00005  34.2682 348.7242 1859667 331.7664  19.3264 10.82419157413667"
S1 = "1 25544U 98067A   08264.51782528 -.00002182  00000-0 -11606-4 0  2927"
U1 = "1 25544U 98067A   08263.48217472 -.00002182  00000-0 -11606-4 0  2923"
S2 = "2 25544  51.6416 247.4627 0006703 130.5360 325.0288 15.72125391563537"
REST = """MEAN_ELEMENT_THEORY = SGP4
MEAN_MOTION = 15.72125391 [rev/day]
ECCENTRICITY = 0.0006703
INCLINATION = 51.6416 [deg]
RA_OF_ASC_NODE = 247.4627 [deg]
ARG_OF_PERICENTER = 130.5360 [deg]
MEAN_ANOMALY = 325.0288 [deg]
BSTAR = -.11606E-4 [1/ER]
"""
FIVE = REST + "NORAD_CAT_ID = 5\nEPOCH = 2008-09-20T00:00:10\n"
NEAR = REST + "NORAD_CAT_ID = 000000005\nEPOCH = 2008-09-20T00:00:09.999999999\nOBJECT_NAME = R\n"
EARLY = REST + "NORAD_CAT_ID = 25544\nEPOCH = 2008-09-19T23:59:50\nOBJECT_NAME =\n"
LATE = REST + "NORAD_CAT_ID = 25544\nEPOCH = 2008-09-20T00:00:10\nOBJECT_NAME = 0  Z\t\n"
VERSION = "CCSDS_OMM_VERS = 2.0\n"
OTHER = "  CCSDS_OMM_VERS\t=\t3.0 \r\n"

TWO_LINE = [
    A1 + "\n" + A2 + "\n", C1 + "\n" + A2 + "\n", S1 + "\n" + S2 + "\n", U1 + "\n" + S2 + "\n",
    "0 N\n" + A1 + "\n" + A2 + "\n", " M\n" + S1 + "\n" + S2 + "\n", "0 N\n\n" + U1 + "\n" + S2 + "\n", "\n",
    " \t\r\n", A1 + "\r\n" + A2 + " \r\n", "N\n", A1 + "\n", A2 + "\n", "1 short\n", "L" * 69 + "\n",
    "K" * 68 + "\n" + C1 + "\n" + A2 + "\n",
]
MESSAGES = [
    VERSION + FIVE, OTHER + EARLY, VERSION + NEAR, VERSION + LATE, "\n", "COMMENT C\n", VERSION + FIVE, OTHER + LATE,
    VERSION, "CCSDS_OMM_VERS\n", "CCSDS_OMM_VERSX = 1\n", "EPOCH = 2008-09-20T00:00:00\n", "A\n", " \t\r\n",
    "OBJECT_NAME = 0 X\n", "CCSDS_OMM_VERS = 4.0\n" + FIVE,
]
KEYS = [
    "CCSDS_OMM_VERS", "OBJECT_NAME", "MEAN_ELEMENT_THEORY", "EPOCH", "MEAN_MOTION", "ECCENTRICITY", "INCLINATION",
    "RA_OF_ASC_NODE", "ARG_OF_PERICENTER", "MEAN_ANOMALY", "NORAD_CAT_ID", "BSTAR",
]


class Fault(Exception):
    pass


def check_digit(line):
    return str(sum(int(c) if c.isdigit() else c == "-" for c in line[:68]) % 10)


for known in (A1, C1, A2, S1, U1, S2):
    assert len(known) == 69 and check_digit(known) == known[68], (known, check_digit(known))


def name_of(text):
    text = re.sub(r"^ *", "", re.sub(r"^0 ", "", re.sub(r"^ *", "", text)))
    return "".join(c if 32 <= ord(c) <= 126 else "?" for c in text[:64]) or "-"


def of_two_lines(first, second):
    for number, line in ((1, first), (2, second)):
        if len(line) != 69:
            raise Fault(1, number * 100 + len(line))
    for number, line in ((1, first), (2, second)):
        if line[0] != str(number):
            raise Fault(2, number)
    if first[2:7] != second[2:7]:
        raise Fault(3, 0)
    day = {"00": 179 - 1, "08": 8 * 365 + 2 + int(first[20:23]) - 1}[first[18:20]]
    return int(first[2:7]), day * DAY + int(first[24:32]) * 864_000 - DAY // 2


def two_line_sets(lines):
    """Each set as its number, epoch and name; a fault comes where it is met."""
    while lines:
        begins = [text.startswith("1 ") for _, text in lines[:2]] + [False]
        name = ""
        if not (begins[0] and not begins[1]):
            if len(lines[0][1]) > 68 or not begins[1]:
                raise Fault("odd", lines[0][0])
            name = lines.pop(0)[1]
        if len(lines) < 2:
            raise Fault("odd", lines[0][0])
        (at, first), (_, second) = lines[:2]
        try:
            number, epoch = of_two_lines(first, second)
        except Fault as fault:
            raise Fault("bad", at, *fault.args)
        yield number, epoch, name_of(name)
        lines = lines[2:]


def of_message(lines):
    values = {}
    for number, keyword, value in entries(lines):
        if keyword is None:
            raise Fault(11, number)
        if keyword in values:
            raise Fault(12, KEYS.index(keyword))
        if keyword in KEYS:
            values[keyword] = value
    for key in KEYS:
        if key not in values and key != "OBJECT_NAME":
            raise Fault(14, KEYS.index(key))
        if key == "CCSDS_OMM_VERS" and values[key] not in ("2.0", "3.0"):
            raise Fault(13, KEYS.index(key))
    whole, _, part = values["EPOCH"].partition(".")
    seconds = (datetime.fromisoformat(whole) - datetime(2000, 1, 1, 12)).total_seconds()
    epoch = int(seconds) * 1_000_000_000 + int((part + "0" * 9)[:9])
    return int(values["NORAD_CAT_ID"]), epoch, name_of(values.get("OBJECT_NAME", ""))


def message_sets(lines):
    begins = [number for number, line in enumerate(lines) if re.match(r"[ \t]*CCSDS_OMM_VERS[ \t]*=", line)]
    first = next(number for number, line in enumerate(lines) if line.strip(" \t\r"))
    begins = [first] + [number for number in begins if number > first]
    for here, there in zip(begins, begins[1:] + [len(lines)]):
        try:
            yield of_message(lines[here:there])
        except Fault as fault:
            raise Fault("bad", here + 1, *fault.args)


def catalogue(text):
    lines = text.split("\n")
    written = [(number, line.rstrip(" \t\r")) for number, line in enumerate(lines, 1) if line.rstrip(" \t\r")]
    if not written:
        raise Fault("empty", 0)
    if written[0][1].startswith("CCSDS_OMM_VERS"):
        sets = list(message_sets(lines))
    else:
        sets = list(two_line_sets(written))
    taken = {}
    for number in dict.fromkeys(number for number, _, _ in sets):
        own = [(abs(epoch - START), at, (number, epoch, name)) for at, (n, epoch, name) in enumerate(sets) if n == number]
        taken[number] = sorted(own)[0][2]
    return list(taken.values())


class Made:
    """The generator of the files."""

    def __init__(self):
        self.state = 20_080_920

    def below(self, count):
        self.state = (self.state * 6364136223846793005 + 1442695040888963407) & MASK
        return (self.state >> 33) % count

    def file(self, number):
        pieces = MESSAGES if number % 2 else TWO_LINE
        text = ""
        if number % 2 and self.below(4) > 0:
            text = VERSION + FIVE
        for _ in range(self.below(7)):
            text += pieces[self.below(16)]
        return text


def mixed(hash_so_far, value):
    return (hash_so_far * 1_000_003 + value) & MASK


def of_answer(answer, text):
    try:
        sets = catalogue(text)
    except Fault as fault:
        kind, *rest = fault.args
        for value in [{"empty": 2, "odd": 3, "bad": 4}[kind]] + rest:
            answer = mixed(answer, value)
        return answer, kind
    answer = mixed(mixed(answer, 1), len(sets))
    for number, epoch, name in sets:
        answer = mixed(mixed(answer, number), epoch & MASK)
        for byte in name.encode("latin1"):
            answer = mixed(answer, byte)
    return answer, "read"


def main():
    made, answers, counts = Made(), [], {}
    for group in range(FILES // GROUP):
        answer = 0
        for number in range(GROUP):
            answer, kind = of_answer(answer, made.file(number))
            counts[kind] = counts.get(kind, 0) + 1
        answers.append(answer)
    with open("crates/rows_messages/src/expected.rt", "w") as out:
        out.write("//! Expected values, made by tools/catalogue/expected.py.\n\n")
        out.write(f"/// What {GROUP} files each must come to, as one number.\n")
        out.write(f"pub(crate) const ANSWERS: [u64; {len(answers)}] = [\n")
        out.writelines(f"    {answer},\n" for answer in answers)
        out.write("];\n")
    print(counts)


if __name__ == "__main__":
    main()
