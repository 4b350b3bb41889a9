"""Writes what a plan or a booking says as tables of comma-separated values, by the standard csv module.

passes.csv      a line for each certainly visible span, by station and time
unplanned.csv   a line for each satellite that was refused and each row that has no spans, so that no absence is silent
bookings.csv    a line for each contact that has an antenna

Instants stand as the program prints them, and so do stations; where two have the same printed name, with their number behind it.
The certainly sunlit share of a pass is the length of its common part with the sunlit
spans, over its length, in decimals cut off, never rounded up; it is empty where the satellite's light is not known.
"""
import csv

from plan import to_text

REFUSED = {
    "ECCENTRIC": "not planned, the eccentricity is above 0.2",
    "INCLINED": "not planned, the inclination is above 175 degrees",
    "DRAG": "not planned, the drag term is above 0.001 in size",
    "DEEP": "not planned, the period is 225 minutes or more, or too near to that",
    "LOW": "not planned, the perigee is too low",
    "EDGE": "not planned, the perigee is too near to 220 km, where the equations change",
    "FAR": "not planned, the epoch is more than seven days from an end of the window",
}
PASSES = ("station", "satellite", "name", "certain from", "certain to", "possible from", "possible to", "certainly sunlit share")
UNPLANNED = ("station", "satellite", "name", "what", "why")
BOOKINGS = ("station", "antenna", "satellite", "from", "to")


def row_words(row):
    """Why a row has no spans, in words."""
    if row.kind == "UNRESOLVED":
        return "it only grazes from %s to %s, longer than the resolution" % (to_text(row.start), to_text(row.end))
    if row.kind == "FULL":
        return "the plan's spans were used up when it came to %s" % to_text(row.start)
    return "by its equations the satellite has come down at %s" % to_text(row.start)


def station_names(head):
    """The names of the stations as they are printed, those that stand twice with their number."""
    twice = {name for name in head.stations if head.stations.count(name) > 1}
    return ["%s (station %d)" % (name, k) if name in twice else name for k, name in enumerate(head.stations, 1)]


class Pass:
    """A certainly visible span of a satellite at a station, with the undecided spans around it joined."""

    def __init__(self, plan, index, station, sat, k):
        spans = plan.pair[sat.number, index].spans
        self.index, self.sat, self.station = index, sat, station
        self.start, self.end = spans[k].start, spans[k].end
        before, after = spans[k - 1] if k > 0 else None, spans[k + 1] if k + 1 < len(spans) else None
        self.first = before.start if before and before.letter == "U" else self.start
        self.last = after.end if after and after.letter == "U" else self.end
        self.lit = self.lit_ticks(plan.lit[sat.number])

    def lit_ticks(self, row):
        """The ticks of the pass that are certainly sunlit; none where the light is not known."""
        if row.kind != "SPANS":
            return None
        common = (min(self.end, s.end) - max(self.start, s.start) for s in row.spans if s.letter == "S")
        return sum(ticks for ticks in common if ticks > 0)

    def share(self):
        if self.lit is None:
            return ""
        whole, parts = divmod(10_000 * self.lit // (self.end - self.start), 10_000)
        return "%d.%04d" % (whole, parts)


def passes(plan):
    """All passes, by station, start, end and number, as the tables of the plan have them."""
    sats = [sat for sat in plan.head.sats if sat.fate == "OK"]
    for index, station in enumerate(station_names(plan.head), 1):
        found = [
            Pass(plan, index, station, sat, k)
            for sat in sats
            for k, span in enumerate(plan.pair[sat.number, index].spans)
            if span.letter == "V"
        ]
        yield from sorted(found, key=lambda one: (one.start, one.end, one.sat.number))


def unplanned(plan):
    """For each refused satellite and each row without spans: station, number, name, what, why."""
    for sat in plan.head.sats:
        if sat.fate != "OK":
            yield "", sat.number, sat.name, sat.fate, REFUSED[sat.fate]
            continue
        if plan.lit[sat.number].kind != "SPANS":
            yield "", sat.number, sat.name, "light " + plan.lit[sat.number].kind, row_words(plan.lit[sat.number])
        for index, station in enumerate(station_names(plan.head), 1):
            row = plan.pair[sat.number, index]
            if row.kind != "SPANS":
                yield station, sat.number, sat.name, row.kind, row_words(row)


def write(path, head, rows):
    with open(path, "w", newline="", encoding="ascii") as file:
        table = csv.writer(file, lineterminator="\n")
        table.writerow(head)
        table.writerows(rows)


def write_passes(path, plan):
    instants = lambda one: (to_text(at) for at in (one.start, one.end, one.first, one.last))  # noqa: E731
    write(path, PASSES, ((one.station, one.sat.number, one.sat.name, *instants(one), one.share()) for one in passes(plan)))


def write_unplanned(path, plan):
    write(path, UNPLANNED, unplanned(plan))


def write_bookings(path, book):
    rows = (
        (station, use.antenna, use.contact.number, to_text(use.contact.start), to_text(use.contact.end))
        for station, booking in zip(station_names(book.head), book.bookings)
        for use in booking.uses
    )
    write(path, BOOKINGS, rows)
