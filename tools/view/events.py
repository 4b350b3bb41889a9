"""Writes the passes of a plan as a calendar of RFC 5545, by the package icalendar: one event for each certainly visible span.

A calendar has no parts of a second. An event begins at the first whole second of its span and ends at the last, so that the
satellite certainly is visible throughout; a span that holds no two whole seconds has the ones around it, and its description says
so. The description has the exact instants, the undecided time at both ends, and the certainly sunlit share. An event's identifier
is made of the satellite's number, the station's name and the span, and its stamp is the start of the window: the same plan gives
the same bytes.
"""
import datetime
import hashlib
import os

import icalendar

from plan import TICK, to_text
from tables import passes, unplanned

NOON = datetime.datetime(2000, 1, 1, 12, tzinfo=datetime.timezone.utc)


def second(count):
    """The instant so many seconds after 2000-01-01T12:00:00 UTC."""
    return NOON + datetime.timedelta(seconds=count)


def length_text(ticks):
    """A number of ticks as seconds."""
    return "%d.%04d s" % divmod(ticks, TICK)


def identifier(one):
    """Of the number, the station and the span."""
    key = hashlib.sha256(one.station.encode("ascii")).hexdigest()[:16]
    return "%d-%s-%d-%d@passplan" % (one.sat.number, key, one.start, one.end)


def whole_seconds(one):
    """The first and the last second of an event, and whether these lie inside the span."""
    first, last = -(-one.start // TICK), one.end // TICK
    if first < last:
        return first, last, True
    return one.start // TICK, -(-one.end // TICK), False


def describe(one, inside):
    lines = [
        "Certainly visible from %s to %s." % (to_text(one.start), to_text(one.end)),
        "Undecided before it: %s; after it: %s." % (length_text(one.start - one.first), length_text(one.last - one.end)),
    ]
    lines.append("Certainly sunlit share: %s." % one.share() if one.lit is not None else "Whether it is sunlit is not known.")
    if not inside:
        lines.append("The span is shorter than the whole seconds of this event.")
    return "\n".join(lines)


def event_of(one, stamp):
    first, last, inside = whole_seconds(one)
    event = icalendar.Event()
    called = "" if one.sat.name == "-" else " " + one.sat.name
    event.add("uid", identifier(one))
    event.add("dtstamp", stamp)
    for name, at in (("dtstart", first), ("dtend", last)):
        event.add(name, second(at))
        event[name].params.pop("TZID", None)  # some versions write it beside the Z of UTC, where it has no place
    event.add("summary", "%d%s over %s" % (one.sat.number, called, one.station))
    event.add("location", one.station)
    event.add("description", describe(one, inside))
    return event


def calendar_of(plan):
    stamp = second(plan.head.start // TICK)
    calendar = icalendar.Calendar()
    calendar.add("prodid", "-//passplan//tools view//EN")
    calendar.add("version", "2.0")
    calendar.add("x-wr-calname", "Passes from %s to %s" % (to_text(plan.head.start), to_text(plan.head.end)))
    missing = ["%d %s%s: %s, %s" % (row[1], row[2], " over " + row[0] if row[0] else "", row[3], row[4]) for row in unplanned(plan)]
    if missing:
        calendar.add("x-wr-caldesc", "Not in this calendar:\n" + "\n".join(missing))
    for one in passes(plan):
        calendar.add_component(event_of(one, stamp))
    return calendar


def write_events(path, plan):
    """Whether there is a calendar: one without an event is none by the standard, so none is left there."""
    if not any(plan.tables):
        if os.path.exists(path):
            os.remove(path)
        return False
    with open(path, "wb") as file:
        file.write(calendar_of(plan).to_ical())
    return True
