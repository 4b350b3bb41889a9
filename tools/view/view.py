"""Writes tables, a calendar and pictures of what `passplan plan` printed, and a table of what `passplan book` printed.

    /usr/bin/python3 tools/view/view.py PLAN FOLDER [--station=INDEX].. [--number=NUMBER].. [--pass=K] [--only=WHAT]..

PLAN is a file with the printed text, or - for standard input. FOLDER is made where it is not there. Of a plan it has then
passes.csv, unplanned.csv, passes.ics, the pages plan.png and plan.svg (or plan-001 and so on, listed in pages.csv), and
edges.png and edges.svg with one pass near its edges; of a booking bookings.csv and the pages booking.png and booking.svg.

    --station, --number   draw these stations and satellites only
    --pass                draw the edges of this pass, counted from 1 in passes.csv
    --only                write only these: passes, events, plan, edges; and png or svg to draw only these

The text is read strictly (plan.py): what is not of the layout is refused with the number of its line, and status 1.
"""
import argparse
import os
import sys

import plan as layout

WHAT = ("passes", "events", "plan", "edges")
KINDS = ("png", "svg")
LACKS = "view: %s is not installed; on Debian: apt-get install python3-icalendar python3-matplotlib, then /usr/bin/python3"


def words():
    parser = argparse.ArgumentParser(description=__doc__, formatter_class=argparse.RawDescriptionHelpFormatter)
    parser.add_argument("plan")
    parser.add_argument("folder")
    parser.add_argument("--station", type=int, action="append", default=[])
    parser.add_argument("--number", type=int, action="append", default=[])
    parser.add_argument("--pass", type=int, default=0, dest="which")
    parser.add_argument("--only", choices=WHAT + KINDS, action="append", default=[])
    return parser.parse_args()


def read(name):
    with open(0 if name == "-" else name, "rb") as file:
        text = file.read()
    return layout.read_book(text) if text.startswith(b"PASSBOOK") else layout.read_plan(text)


def write_all(plan, asked):
    """What was asked for; each part takes its package only where it is needed."""
    what = [name for name in asked.only if name in WHAT] or WHAT
    kinds = [name for name in asked.only if name in KINDS] or KINDS
    if "passes" in what:
        import tables

        tables.write_passes(os.path.join(asked.folder, "passes.csv"), plan)
        tables.write_unplanned(os.path.join(asked.folder, "unplanned.csv"), plan)
    if "events" in what:
        import events

        if not events.write_events(os.path.join(asked.folder, "passes.ics"), plan):
            print("view: no pass is certainly visible, so there is no calendar", file=sys.stderr)
    if "plan" in what or "edges" in what:
        import pictures

        if "plan" in what:
            pictures.draw_plan(plan, asked.folder, kinds, asked.station, asked.number)
        if "edges" in what and not pictures.draw_edges(plan, asked.folder, kinds, asked.which):
            print("view: no such pass, so no picture of its edges", file=sys.stderr)


def write_booking(book, asked):
    kinds = [name for name in asked.only if name in KINDS] or KINDS
    if "passes" in asked.only or not set(asked.only) & set(WHAT):
        import tables

        tables.write_bookings(os.path.join(asked.folder, "bookings.csv"), book)
    if "plan" in asked.only or not set(asked.only) & set(WHAT):
        import pictures

        pictures.draw_book(book, asked.folder, kinds, asked.station)


def main():
    asked = words()
    try:
        plan = read(asked.plan)
    except layout.Refused as fault:
        print("view: %s: %s" % (asked.plan, fault), file=sys.stderr)
        return 1
    os.makedirs(asked.folder, exist_ok=True)
    if not all(1 <= index <= len(plan.head.stations) for index in asked.station):
        print("view: the plan has stations 1 to %d" % len(plan.head.stations), file=sys.stderr)
        return 1
    try:
        (write_booking if isinstance(plan, layout.Book) else write_all)(plan, asked)
    except ModuleNotFoundError as lack:
        print(LACKS % lack.name, file=sys.stderr)
        return 2
    return 0


if __name__ == "__main__":
    sys.exit(main())
