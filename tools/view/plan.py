"""Reads what `passplan plan` and `passplan book` print: every line of the two layouts, and nothing else.

    from plan import read_plan, read_book, Refused

Both take the bytes of the whole text. What the layout does not know is refused: `Refused` has the number of the line, counted
from 1, and what stood there. Instants are whole numbers of ticks of 0.1 milliseconds from 2000-01-01T12:00:00 UTC, never
floating point. Lines are not only read one by one; what the layout promises of them together is checked too: indices in order,
a row for each accepted satellite and each station, spans that tile the window, neighbours that differ, undecided spans no longer
than the resolution, and tables that are exactly the visible spans in order.

To see whether a text is read:

    python3 tools/view/plan.py FILE

It prints what the text has, or the refusal and ends with status 1. It needs nothing but Python.
"""
import datetime
import re
import sys
from typing import NamedTuple

TICK = 10_000  # ticks in a second
DAY = 86_400 * TICK
NOON = datetime.date(2000, 1, 1).toordinal()
LONGEST = 10 * DAY
STATIONS = 64
FATES = ("ECCENTRIC", "INCLINED", "DRAG", "DEEP", "LOW", "EDGE", "FAR")
WHOLE = re.compile("0|[1-9][0-9]*")
OFFSET = re.compile("-?[1-9][0-9]{0,2}")
INSTANT = re.compile("([0-9]{4}-[0-9]{2}-[0-9]{2})T([0-9]{2}):([0-9]{2}):([0-9]{2})[.]([0-9]{4})Z")
NAME = re.compile("[ -~]{1,64}")


class Refused(Exception):
    """A text that is not of the layout: the number of the line, from 1, and why."""

    def __init__(self, line, why):
        super().__init__("line %d: %s" % (line, why))
        self.line = line
        self.why = why


class Span(NamedTuple):
    letter: str
    start: int
    end: int


class Row(NamedTuple):
    """An answer: SPANS with its spans; UNRESOLVED with two ticks; FULL or DECAYS with one, twice."""

    kind: str
    spans: list
    start: int
    end: int


class Sat(NamedTuple):
    number: int
    fate: str
    name: str


class Contact(NamedTuple):
    start: int
    end: int
    number: int


class Use(NamedTuple):
    contact: Contact
    antenna: int


class Price(NamedTuple):
    start: int
    end: int
    price: int


class Booking(NamedTuple):
    """A station's contacts: their number, whether there are too many, the value, those with an antenna, and prices."""

    contacts: int
    too_many: bool
    value: int
    uses: list
    prices: list


class Head(NamedTuple):
    start: int
    end: int
    resolution: int  # seconds
    dut1: int  # milliseconds
    stations: list  # names
    sats: list


class Plan(NamedTuple):
    head: Head
    lit: dict  # by number
    pair: dict  # by number and index of the station from 1
    tables: list  # of contacts, by station


class Book(NamedTuple):
    head: Head
    bookings: list  # by station


def to_text(tick):
    """The instant of a tick, as the program prints it."""
    days, rest = divmod(tick + DAY // 2, DAY)
    seconds, parts = divmod(rest, TICK)
    day = datetime.date.fromordinal(NOON + days)
    return "%sT%02d:%02d:%02d.%04dZ" % (day.isoformat(), seconds // 3600, seconds // 60 % 60, seconds % 60, parts)


class Lines:
    """The lines of a text, one after another, with the number of the one read last."""

    def __init__(self, text):
        self.number = 0
        self.days = {}
        lines = text.split(b"\n")
        for number, line in enumerate(lines, 1):
            if not line.isascii():
                raise Refused(number, "a byte that is not ASCII")
        if lines[-1] != b"":
            raise Refused(len(lines), "the text does not end with a line feed")
        self.lines = text.decode("ascii").split("\n")[:-1]

    def refuse(self, why):
        line = self.lines[self.number - 1] if 0 < self.number <= len(self.lines) else ""
        raise Refused(self.number, "%s: %r" % (why, line[:120]))

    def next(self, wanted):
        self.number += 1
        if self.number > len(self.lines):
            raise Refused(self.number, "the text ends where %s should stand" % wanted)
        return self.lines[self.number - 1]

    def ahead(self):
        """The first word of the next line."""
        return self.lines[self.number].split(" ", 1)[0] if self.number < len(self.lines) else ""

    def fields(self, word, count, names=0):
        """The fields behind the word that the next line begins with; the last one, a name, keeps its blanks."""
        line = self.next(word)
        fields = line.split(" ", count) if names else line.split(" ")
        if fields[0] != word or len(fields) != count + 1:
            self.refuse("not a %s line" % word)
        return fields[1:]

    def whole(self, text, low, high):
        if not WHOLE.fullmatch(text) or not low <= int(text) <= high:
            self.refuse("%r is no whole number from %d to %d" % (text, low, high))
        return int(text)

    def tick(self, text):
        match = INSTANT.fullmatch(text)
        if not match:
            self.refuse("%r is no instant" % text)
        day, hours, minutes, seconds, parts = match.groups()
        if day not in self.days:
            try:
                self.days[day] = (datetime.date.fromisoformat(day).toordinal() - NOON) * DAY - DAY // 2
            except ValueError:
                self.refuse("%r is no day" % day)
            if not "1957" <= day[:4] <= "2056":
                self.refuse("%r is not in the years 1957 to 2056" % day)
        if hours > "23" or minutes > "59" or seconds > "59":
            self.refuse("%r is no time of a day" % text)
        return self.days[day] + (int(hours) * 3600 + int(minutes) * 60 + int(seconds)) * TICK + int(parts)

    def name(self, text):
        if not NAME.fullmatch(text):
            self.refuse("a name has 1 to 64 bytes from 32 to 126")
        return text

    def end(self):
        if self.next("END") != "END":
            self.refuse("not the line END")
        if self.number != len(self.lines):
            self.number += 1
            self.refuse("a line behind END")


def read_head(lines, first):
    if lines.next(first) != first:
        lines.refuse("the first line is not %s" % first)
    window, dut1 = read_window(lines), 0
    if lines.ahead() == "DUT1":
        text = lines.fields("DUT1", 1)[0]
        if not OFFSET.fullmatch(text) or not -900 <= int(text) <= 900:
            lines.refuse("%r is no offset from -900 to 900 but 0" % text)
        dut1 = int(text)
    return window._replace(dut1=dut1, stations=read_stations(lines), sats=read_sats(lines))


def read_window(lines):
    start, end, resolution = lines.fields("WINDOW", 3)
    start, end = lines.tick(start), lines.tick(end)
    if not 0 < end - start <= LONGEST:
        lines.refuse("a window is longer than nothing and at most ten days long")
    return Head(start, end, lines.whole(resolution, 1, 60), 0, [], [])


def read_stations(lines):
    names = []
    while lines.ahead() == "STATION" or not names:
        index, name = lines.fields("STATION", 2, names=1)
        if lines.whole(index, 1, STATIONS) != len(names) + 1:
            lines.refuse("stations are counted from 1 without a gap")
        names.append(lines.name(name))
    return names


def read_sats(lines):
    sats, numbers = [], set()
    while lines.ahead() == "SAT" or not sats:
        number, fate, name = lines.fields("SAT", 3, names=1)
        number = lines.whole(number, 0, 999_999_999)
        if number in numbers:
            lines.refuse("number %d stands twice" % number)
        if fate != "OK" and fate not in FATES:
            lines.refuse("%r is no fate" % fate)
        numbers.add(number)
        sats.append(Sat(number, fate, read_name(lines, name)))
    return sats


def read_name(lines, name):
    """The name of a satellite, which has no blank in front."""
    if name.startswith(" "):
        lines.refuse("the name of a satellite does not begin with a blank")
    return lines.name(name)


def read_row(lines, head, word, letters, number, index):
    """The answer of the next line, and its spans."""
    line = lines.next(word)
    fields = line.split(" ")
    keys = [word, str(number)] + ([str(index)] if index else [])
    if fields[: len(keys)] != keys:
        lines.refuse("not the line %s" % " ".join(keys))
    kind, rest = (fields[len(keys) :] or [""])[0], fields[len(keys) + 1 :]
    if kind == "SPANS" and len(rest) == 1:
        return Row(kind, read_spans(lines, head, letters, lines.whole(rest[0], 1, 10**9)), head.start, head.end)
    if kind == "UNRESOLVED" and len(rest) == 2:
        start, end = lines.tick(rest[0]), lines.tick(rest[1])
        if not head.start <= start or end > head.end or end != start + head.resolution * TICK + 1:
            lines.refuse("UNRESOLVED is one tick longer than the resolution, in the window")
        return Row(kind, [], start, end)
    if kind in ("FULL", "DECAYS") and len(rest) == 1:
        at = lines.tick(rest[0])
        if not head.start <= at < head.end:
            lines.refuse("%s is at a tick of the window" % kind)
        return Row(kind, [], at, at)
    return lines.refuse("no answer")


def read_spans(lines, head, letters, count):
    spans, at, before, longest = [], head.start, "", head.resolution * TICK
    for _ in range(count):
        fields = lines.next("a span").split(" ")
        if len(fields) != 3 or fields[0] not in letters:
            lines.refuse("not a span of letters %s" % ", ".join(letters))
        letter, start, end = fields[0], lines.tick(fields[1]), lines.tick(fields[2])
        if start != at or end <= start or end > head.end:
            lines.refuse("spans tile the window in order")
        if letter == before:
            lines.refuse("neighbours differ")
        if letter == "U" and end - start > longest:
            lines.refuse("an undecided span is no longer than the resolution")
        spans.append(Span(letter, start, end))
        at, before = end, letter
    if at != head.end:
        lines.refuse("the last span ends before the window")
    return spans


def read_table(lines, head, plan_pairs, index):
    """The contacts of a station, which are its visible spans in order."""
    wanted = sorted(
        Contact(span.start, span.end, sat.number)
        for sat in head.sats
        if sat.fate == "OK"
        for span in plan_pairs[sat.number, index].spans
        if span.letter == "V"
    )
    at, count = lines.fields("TABLE", 2)
    if lines.whole(at, 1, STATIONS) != index:
        lines.refuse("the table of station %d should stand here" % index)
    if lines.whole(count, 0, 10**9) != len(wanted):
        lines.refuse("the station has %d visible spans" % len(wanted))
    for contact in wanted:
        start, end, number = lines.fields("PASS", 3)
        if Contact(lines.tick(start), lines.tick(end), lines.whole(number, 0, 999_999_999)) != contact:
            lines.refuse("the visible span %s %s of %d should stand here" % (to_text(contact.start), to_text(contact.end), contact.number))
    return wanted


def read_plan(text):
    lines = Lines(text)
    head = read_head(lines, "PASSPLAN 1")
    lit, pair = {}, {}
    for sat in head.sats:
        if sat.fate != "OK":
            continue
        lit[sat.number] = read_row(lines, head, "LIT", ("S", "D", "U"), sat.number, 0)
        for index in range(1, len(head.stations) + 1):
            pair[sat.number, index] = read_row(lines, head, "PAIR", ("V", "H", "U"), sat.number, index)
    tables = [read_table(lines, head, pair, index) for index in range(1, len(head.stations) + 1)]
    lines.end()
    return Plan(head, lit, pair, tables)


def read_booking(lines, head, index, accepted):
    line = lines.next("BOOK").split(" ")
    if len(line) != 4 or line[:2] != ["BOOK", str(index)]:
        lines.refuse("not the line BOOK %d" % index)
    if line[2] == "TOOMANY":
        return Booking(lines.whole(line[3], 65_537, 10**9), True, 0, [], [])
    count, value = lines.whole(line[2], 0, 65_536), lines.whole(line[3], 0, 2**64 - 1)
    return Booking(count, False, value, read_uses(lines, head, count, value, accepted), read_prices(lines, head, count))


def read_uses(lines, head, count, value, accepted):
    """The contacts that have an antenna; the value is their length in ticks. Where there are contacts one has an antenna, since
    no value is 0, and those of a satellite are apart, since between two visible spans lies another one."""
    uses, busy, seen, left = [], {}, {}, value
    while lines.ahead() == "USE":
        start, end, number, antenna = lines.fields("USE", 4)
        contact = Contact(lines.tick(start), lines.tick(end), lines.whole(number, 0, 999_999_999))
        antenna, left = lines.whole(antenna, 1, 64), left - (contact.end - contact.start)
        if not head.start <= contact.start < contact.end <= head.end:
            lines.refuse("a contact lies in the window")
        if contact.number not in accepted:
            lines.refuse("%d is no accepted satellite" % contact.number)
        if uses and contact <= uses[-1].contact:
            lines.refuse("contacts stand by start, end, number")
        if contact.start < busy.get(antenna, contact.start):
            lines.refuse("antenna %d has two contacts at once" % antenna)
        if contact.start <= seen.get(contact.number, contact.start - 1):
            lines.refuse("two contacts of %d are not apart" % contact.number)
        busy[antenna] = seen[contact.number] = contact.end
        uses.append(Use(contact, antenna))
        if len(uses) > count or left < 0:
            lines.refuse("more contacts have an antenna than the line BOOK counts")
    if left != 0 or count and not uses:
        lines.next("USE")
        lines.refuse("the contacts that have an antenna are shorter than the value in the line BOOK, or none of them has one")
    return uses


def read_prices(lines, head, count):
    """The prices above 0. There is at most one for each stretch between neighbouring ends of the station's contacts."""
    prices = []
    while lines.ahead() == "PRICE":
        start, end, price = lines.fields("PRICE", 3)
        price = Price(lines.tick(start), lines.tick(end), lines.whole(price, 1, 2**64 - 1))
        if not (prices[-1].end if prices else head.start) <= price.start < price.end <= head.end:
            lines.refuse("prices stand in order, for stretches that do not overlap")
        prices.append(price)
        if len(prices) > 2 * count - 1:
            lines.refuse("%d contacts have fewer stretches between their ends" % count)
    return prices


def read_book(text):
    lines = Lines(text)
    head = read_head(lines, "PASSBOOK 1")
    accepted = {sat.number for sat in head.sats if sat.fate == "OK"}
    bookings = [read_booking(lines, head, index, accepted) for index in range(1, len(head.stations) + 1)]
    lines.end()
    return Book(head, bookings)


def is_whole(plan):
    """Whether the run that printed the plan ended with status 0."""
    rows = list(plan.lit.values()) + list(plan.pair.values())
    return all(sat.fate == "OK" for sat in plan.head.sats) and all(row.kind == "SPANS" for row in rows)


def main():
    if len(sys.argv) != 2:
        sys.exit(__doc__)
    with open(sys.argv[1], "rb") as file:
        text = file.read()
    try:
        read = read_book(text) if text.startswith(b"PASSBOOK") else read_plan(text)
    except Refused as fault:
        print("refused, %s" % fault)
        return 1
    head = read.head
    print("%s to %s, %d stations, %d satellites" % (to_text(head.start), to_text(head.end), len(head.stations), len(head.sats)))
    if isinstance(read, Plan):
        kinds = [row.kind for row in list(read.lit.values()) + list(read.pair.values())]
        print(", ".join("%s %d" % (kind, kinds.count(kind)) for kind in ("SPANS", "UNRESOLVED", "FULL", "DECAYS")))
    else:
        print("%d contacts, %d with an antenna" % (sum(b.contacts for b in read.bookings), sum(len(b.uses) for b in read.bookings)))
    return 0


if __name__ == "__main__":
    sys.exit(main())
