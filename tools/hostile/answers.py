"""Reads whatever the program prints, strictly, and says whether its exit status goes with it.

    from answers import read_answer, Refused

`read_answer(text, status)` takes the bytes of standard output and the status, and gives the kind of answer: a layout's first word
(`PASSPLAN`), or the refusal without its numbers (`error catalogue set tle check`). What no layout and no table of refusals knows is
`Refused` with the number of the line, and so is a status that does not go with it. Plans and bookings are read by
tools/view/plan.py, the other layouts here.

    python3 tools/hostile/answers.py FOLDER

reads each file of the folder whose name is `<number>.<status>`, prints those that are refused and a count, and ends with status 1
where there is one. It needs nothing but Python.
"""
import os
import re
import sys
from fractions import Fraction

sys.path.insert(1, os.path.join(os.path.dirname(os.path.abspath(__file__)), "..", "view"))
import plan as layout  # noqa: E402
from plan import Refused  # noqa: E402

HOUR = 36_000_000  # ticks of the window of grid
SATELLITES = 16_384
SPANS = 1_048_576
RANGES = ((0, 10**11), (0, 1), (0, 180), (-360, 360), (-360, 360), (-360, 360), (-(10**18), 10**18))  # motion .. drag term
WORDS = "lat lon start end res catalogue stations number at count antennas first second station".split()
KEYS = "version station name lat lon height mask borders masks other dut1_ms".split()
OMM = (
    "CCSDS_OMM_VERS OBJECT_NAME OBJECT_ID CENTER_NAME REF_FRAME TIME_SYSTEM MEAN_ELEMENT_THEORY EPOCH MEAN_MOTION ECCENTRICITY INCLINATION"
    " RA_OF_ASC_NODE ARG_OF_PERICENTER MEAN_ANOMALY NORAD_CAT_ID EPHEMERIS_TYPE BSTAR SEMI_MAJOR_AXIS BTERM AGOM"
).split()
COUNT = "[1-9][0-9]{0,8}"
WHOLE = "(?:0|%s)" % COUNT
DECIMAL = re.compile("(-?)(0|[1-9][0-9]{0,17})(?:[.]([0-9]{0,17}[1-9]))?")
INSTANT = re.compile("([0-9T:-]{19}[.][0-9]{4})[0-9]{5}Z")
SIGNED = re.compile("0|-?[1-9][0-9]{0,18}")


def any_of(words):
    return "(?:%s)" % "|".join(words)


# of each refusal: the status, the words that it is told by, and what follows them
REFUSALS = [
    (2, "error usage nocommand", ""),
    (2, "error usage command", ""),
    (2, "error usage word", " " + COUNT),
    *((2, "error usage " + kind, " " + any_of(WORDS)) for kind in ("twice", "missing", "value")),
    *((3, "error window " + kind, "") for kind in ("shape", "year", "order", "long", "resolution")),
    (4, "error catalogue empty", ""),
    (4, "error catalogue odd", " " + COUNT),
    (4, "error catalogue toomany", ""),
    *((5, "error stations " + kind, "") for kind in ("notutf8", "nottoml", "empty", "toomany")),
    *((5, "error stations " + kind, " %s %s" % (WHOLE, any_of(KEYS))) for kind in ("shape", "range")),
    *((5, "error stations " + kind, " " + COUNT) for kind in ("twice", "mask")),
    (6, "error read", ""),
    (7, "error toolong", ""),
    (9, "error memory", ""),
]
SET_FAULTS = [
    ("tle length", " [12] " + WHOLE),
    ("tle linenumber", " [12]"),
    ("tle check", " [12] [0-9] [0-9]"),
    ("tle column", " [12] [0-9]{1,2}"),
    ("tle differ", ""),
    ("tle theory", ""),
    ("tle range", " [12] [0-9]{1,2}"),
    ("omm line", " " + COUNT),
    *(("omm " + kind, " " + any_of(OMM)) for kind in ("missing", "twice", "unsupported", "value")),
]
PATTERNS = [(status, words, re.compile(words + rest)) for status, words, rest in REFUSALS]
SET_PATTERNS = [("error catalogue set " + words, re.compile("error catalogue set %s %s%s" % (COUNT, words, rest))) for words, rest in SET_FAULTS]


def read_refusal(lines, status):
    line = lines.next("a refusal")
    found = [(wanted, words) for wanted, words, pattern in PATTERNS if pattern.fullmatch(line)]
    found += [(4, words) for words, pattern in SET_PATTERNS if pattern.fullmatch(line)]
    if not found:
        lines.refuse("no refusal of the table")
    if found[0][0] != status:
        lines.refuse("a refusal of status %d, and the status is %d" % (found[0][0], status))
    if len(lines.lines) != 1:
        lines.number += 1
        lines.refuse("a line behind a refusal")
    return found[0][1]


def read_day(lines):
    """Whether it is spans; else one line says why not."""
    lines.next("PASSDAY")
    head = layout.read_window(lines)
    kind = lines.ahead()
    if kind == "UNRESOLVED":
        start, end = (lines.tick(text) for text in lines.fields(kind, 2))
        if not head.start <= start or end > head.end or end != start + head.resolution * layout.TICK + 1:
            lines.refuse("UNRESOLVED is one tick longer than the resolution, in the window")
    elif kind == "FULL":
        if not head.start <= lines.tick(lines.fields(kind, 1)[0]) < head.end:
            lines.refuse("FULL is at a tick of the window")
    else:
        count = sum(line[:2] in ("L ", "N ", "U ") for line in lines.lines)
        layout.read_spans(lines, head, ("L", "N", "U"), count)
    lines.end()
    return kind not in ("UNRESOLVED", "FULL")


def instant(lines, text):
    match = INSTANT.fullmatch(text)
    if not match:
        lines.refuse("%r is no instant with nine decimals" % text)
    lines.tick(match[1] + "Z")


def decimal(lines, text, low, high):
    """A decimal in the one form that is printed, between two whole numbers."""
    match = DECIMAL.fullmatch(text)
    if not match or match[1] and not (match[2] != "0" or match[3]):
        lines.refuse("%r is no decimal" % text)
    if len(match[2].lstrip("0") + (match[3] or "")) > 18 or not low <= Fraction(text) <= high:
        lines.refuse("%r has too many digits, or is not from %d to %d" % (text, low, high))


def read_show(lines):
    lines.next("PASSSHOW")
    numbers = set()
    while lines.ahead() == "SET" or not numbers:
        number, epoch, *values, name = lines.fields("SET", 10, names=1)
        number = lines.whole(number, 0, 999_999_999)
        if number in numbers:
            lines.refuse("number %d stands twice" % number)
        numbers.add(number)
        instant(lines, epoch)
        for text, (low, high) in zip(values, RANGES):
            decimal(lines, text, low, high)
        layout.read_name(lines, name)
    lines.end()
    return True


def read_locate(lines):
    """Whether there are bounds."""
    lines.next("PASSLOCATE")
    instant(lines, lines.fields("AT", 1)[0])
    kind = lines.ahead()
    if kind == "MISSING":
        lines.whole(lines.fields("MISSING", 1)[0], 0, 999_999_999)
        lines.end()
        return False
    sats = layout.read_sats(lines)
    if len(sats) != 1:
        lines.refuse("one satellite is located")
    is_there = sats[0].fate == "OK" and lines.ahead() != "DECAYED"
    if is_there:
        for letter in "XYZ":
            low, high = lines.fields(letter, 2)
            if not SIGNED.fullmatch(low) or not SIGNED.fullmatch(high) or not 0 <= int(high) - int(low) <= 10_000:
                lines.refuse("bounds are two whole numbers, at most 10,000 millimetres apart")
    elif sats[0].fate == "OK" and lines.next("DECAYED") != "DECAYED":
        lines.refuse("not the line DECAYED")
    lines.end()
    return is_there


def read_grid(lines):
    """Whether no pair and no satellite is left out. The ticks of the pairs that are spans add up to their windows."""
    lines.next("PASSGRID")
    most = 2**64 - 1
    sats = lines.whole(lines.fields("SATS", 1)[0], 1, 1000)
    refused = lines.whole(lines.fields("REFUSED", 1)[0], 0, sats)
    spans, ticks = 0, 0
    for word in ("VISIBLE", "HIDDEN", "UNDECIDED"):
        count, length = (lines.whole(text, 0, most) for text in lines.fields(word, 2))
        if length < count:
            lines.refuse("a span has a tick at least")
        spans, ticks = spans + count, ticks + length
    without = [lines.whole(lines.fields(word, 1)[0], 0, 2 * sats) for word in ("UNRESOLVED", "FULL", "DECAYS")]
    pairs = 2 * (sats - refused) - sum(without)
    if not pairs <= spans <= SPANS or ticks != pairs * HOUR:
        lines.refuse("%d pairs are spans, which tile their windows" % pairs)
    lines.whole(lines.fields("CELLS", 1)[0], 0, most)
    lines.end()
    return refused == 0 and sum(without) == 0


def read_plan(text):
    plan = layout.read_plan(text)
    rows = list(plan.lit.values()) + list(plan.pair.values())
    if len(plan.head.sats) > SATELLITES or sum(len(row.spans) for row in rows) > SPANS:
        raise Refused(1, "more satellites or spans than a run has")
    return layout.is_whole(plan)


def read_book(text):
    """Whether no station has too many contacts; None where it is not told whether every row is spans."""
    book = layout.read_book(text)
    is_whole = all(sat.fate == "OK" for sat in book.head.sats) and not any(one.too_many for one in book.bookings)
    return None if is_whole else False


PRODUCTS = {"PASSDAY": read_day, "PASSSHOW": read_show, "PASSLOCATE": read_locate, "PASSGRID": read_grid}
TEXTS = {"PASSPLAN": read_plan, "PASSBOOK": read_book}


def read_answer(text, status):
    lines = layout.Lines(text)
    first = lines.lines[0] if lines.lines else ""
    kind = first[:-2]
    if first != kind + " 1" or kind not in PRODUCTS and kind not in TEXTS:
        return read_refusal(lines, status)
    is_whole = PRODUCTS[kind](lines) if kind in PRODUCTS else TEXTS[kind](text)
    wanted = (0, 1) if is_whole is None else (0,) if is_whole else (1,)
    if status not in wanted:
        raise Refused(1, "the status is %d, and the text says %s" % (status, " or ".join("%d" % one for one in wanted)))
    return kind


def main():
    if len(sys.argv) != 2:
        sys.exit(__doc__)
    count = failed = 0
    for name in sorted(os.listdir(sys.argv[1])):
        with open(os.path.join(sys.argv[1], name), "rb") as file:
            text = file.read()
        count += 1
        try:
            read_answer(text, int(name.rpartition(".")[2]))
        except Refused as fault:
            failed += 1
            print("%s: %s" % (name, fault))
    print("answers.py: %d texts, %d refused" % (count, failed))
    return 1 if failed else 0


if __name__ == "__main__":
    sys.exit(main())
