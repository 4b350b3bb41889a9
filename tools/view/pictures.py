"""Draws a plan with matplotlib: a row for each satellite at each station, and one pass near its edges; of a booking, a row for
each antenna of each station.

What is visible is a full bar, what is hidden a thin line, what is undecided a hatched bar or, where it is narrower than a point,
a black stroke; sunlit is a pale strip below, dark a dotted line. So shapes tell them apart, and the colours are those of Okabe and Ito,
which people without colour vision can tell apart too. Rows without spans and refused satellites say why in words. Time is UTC.

A page has at most 50 rows and 24 hours; a longer window or more rows take more pages, which pages.csv lists. Bars are drawn to
scale; a visible or sunlit bar narrower than a point of the page is drawn one point wide, so that none is lost.
"""
import csv
import os

import matplotlib

matplotlib.use("Agg")
from matplotlib import pyplot  # noqa: E402
from matplotlib.patches import Patch  # noqa: E402
from matplotlib.lines import Line2D  # noqa: E402
from matplotlib.ticker import MaxNLocator  # noqa: E402

from plan import TICK, Span, to_text  # noqa: E402
from tables import REFUSED, passes, row_words  # noqa: E402

matplotlib.rcParams.update({"text.parse_math": False, "svg.hashsalt": "passplan", "hatch.linewidth": 0.6, "font.size": 8})
VISIBLE, HIDDEN, UNDECIDED, SUNLIT, DARK = "#0072B2", "#999999", "#D55E00", "#F0E442", "#333333"
ROWS = 50
SLICE = 24 * 3600 * TICK
WORDS = {"V": "visible", "H": "hidden", "U": "undecided"}
WIDTH, LEFT, RIGHT = 13.0, 2.1, 0.5
ROW = 0.23
SHOWN = [
    Patch(facecolor=VISIBLE, edgecolor="black", linewidth=0.5, label="certainly visible"),
    Line2D([], [], color=HIDDEN, linewidth=1.2, label="certainly hidden"),
    Patch(facecolor="white", edgecolor=UNDECIDED, hatch="/////", label="undecided"),
    Line2D([], [], color="black", marker="|", markersize=9, linewidth=0, label="undecided, narrower than a point"),
    Patch(facecolor=SUNLIT, edgecolor="black", linewidth=0.4, label="certainly sunlit (strip below)"),
    Line2D([], [], color=DARK, linewidth=0.9, linestyle=":", label="certainly dark (strip below)"),
]
BOOKED = [Patch(facecolor=VISIBLE, edgecolor="black", linewidth=0.5, label="certainly visible and booked, with the satellite's number")]
STEPS = [1, 2, 5, 10, 20, 50, 100, 200, 500, 1000, 2000, 5000] + [
    TICK * s for s in (1, 2, 5, 10, 15, 30, 60, 120, 300, 600, 900, 1800, 3600, 7200, 10_800, 14_400, 21_600, 43_200)
]


def shortened(text, room):
    return text if len(text) <= room else text[: room - 2] + ".."


def plan_rows(plan, stations, numbers):
    """The rows of the picture by station: each is the station's index and a satellite."""
    sats = [sat for sat in plan.head.sats if not numbers or sat.number in numbers]
    for index in stations or range(1, len(plan.head.stations) + 1):
        yield [(index, sat) for sat in sats]


def paged(groups, lines=1):
    """Pages of rows of so many lines. A station begins a page where it would not fit on the one before; its name takes a line."""
    pages, room, most = [], 0, ROWS // lines
    for rows in groups:
        length = -(-len(rows) // max(-(-len(rows) // most), 1)) or 1  # as even as they can be
        for at in range(0, len(rows), length):
            part = rows[at : at + length]
            if room < lines * len(part) + 1:
                pages.append([])
                room = ROWS + 1
            pages[-1].append(part)
            room -= lines * len(part) + 1
    return pages


def slices(head):
    """The window, or its parts of 24 hours."""
    if head.end - head.start <= SLICE + SLICE // 12:
        return [(head.start, head.end)]
    return [(at, min(at + SLICE, head.end)) for at in range(head.start, head.end, SLICE)]


class Page:
    """The axes of a page over a slice of time, in seconds from its start."""

    def __init__(self, head, rows, start, end, title="Plan", which=""):
        self.start, self.end, self.wide = start, end, (end - start) / TICK
        height = 1.3 + ROW * rows
        self.figure = pyplot.figure(figsize=(WIDTH, height))
        self.axes = self.figure.add_axes([LEFT / WIDTH, 0.55 / height, 1 - (LEFT + RIGHT) / WIDTH, ROW * rows / height])
        self.axes.set_xlim(0.0, self.wide)
        self.axes.set_ylim(rows, 0)
        self.point = self.wide / ((WIDTH - LEFT - RIGHT) * 72)
        self.labels = []
        window = "%s of %s to %s UTC" % (title, to_text(start)[:-1], to_text(end)[:-1])
        offset = ", UT1 - UTC = %d ms" % head.dut1 if head.dut1 else ""
        said = "%s, resolution %d s%s%s" % (window, head.resolution, offset, which)
        self.figure.text(0.15 / WIDTH, 1 - 0.15 / height, said, va="top", fontsize=11)
        self.legend(height, SHOWN if title == "Plan" else BOOKED)
        set_times(self.axes, start, end, start, TICK)

    def legend(self, height, shown):
        self.figure.legend(handles=shown, loc="upper left", bbox_to_anchor=(0.09 / WIDTH, 1 - 0.4 / height), ncol=6, frameon=False, columnspacing=1.2)

    def shown(self, spans, letter):
        """The spans of a letter in the slice, as a start and a width in seconds; narrow ones a point wide."""
        found = []
        for span in spans:
            low, high = max(span.start, self.start), min(span.end, self.end)
            if span.letter == letter and low < high:
                low, wide = (low - self.start) / TICK, (high - low) / TICK
                found.append((low, wide) if wide >= self.point else (low + wide / 2 - self.point / 2, self.point))
        return found

    def band(self, spans, letters, top, height, bar, line):
        """Bars for the first letter, lines for the second, hatched bars or strokes for what is undecided."""
        middle = top + height / 2
        lines = self.shown(spans, letters[1])
        self.axes.hlines([middle] * len(lines), [at for at, _ in lines], [at + wide for at, wide in lines], **line)
        self.axes.broken_barh(self.shown(spans, letters[0]), (top, height), **bar)
        undecided = self.shown(spans, "U")
        wide = [(at, width) for at, width in undecided if width > self.point]
        narrow = [at + width / 2 for at, width in undecided if width <= self.point]
        self.axes.broken_barh(wide, (top, height), facecolor="white", edgecolor=UNDECIDED, hatch="/////", linewidth=0.8, zorder=3)
        self.axes.vlines(narrow, [top - 0.06] * len(narrow), [top + height + 0.06] * len(narrow), color="black", linewidth=0.5, zorder=4)

    def row(self, at, plan, index, sat):
        if len(self.labels) % 2:
            self.axes.axhspan(at, at + 1, color="#F5F5F5", zorder=0)
        self.labels.append((at + 0.4, shortened("%d %s" % (sat.number, sat.name if sat.name != "-" else ""), 30)))
        if sat.fate != "OK":
            return self.words(at + 0.4, "%s: %s" % (sat.fate, REFUSED[sat.fate]), 7.5)
        pair, lit = plan.pair[sat.number, index], plan.lit[sat.number]
        bar = dict(facecolor=VISIBLE, edgecolor="black", linewidth=0.4, zorder=2)
        self.band(pair.spans, ("V", "H"), at + 0.12, 0.46, bar, dict(color=HIDDEN, linewidth=1.2, zorder=1))
        strip = dict(facecolor=SUNLIT, edgecolor="black", linewidth=0.25, zorder=2)
        self.band(lit.spans, ("S", "D"), at + 0.7, 0.18, strip, dict(color=DARK, linewidth=0.9, linestyle=":", zorder=1))
        if pair.kind != "SPANS":
            self.words(at + 0.35, "%s: %s" % (pair.kind, row_words(pair)), 7.5)
        if lit.kind != "SPANS":
            self.words(at + 0.79, "light %s: %s" % (lit.kind, row_words(lit)), 6)
        return None

    def antenna(self, at, number, uses):
        """The contacts of an antenna, each with its satellite's number above where it has room."""
        self.labels.append((at + 1.35, "antenna %d" % number))
        self.axes.hlines(at + 1.35, 0.0, self.wide, color=HIDDEN, linewidth=0.6, zorder=1)
        free = 0.0
        for use in sorted(uses):
            for low, wide in self.shown([Span("V", use.contact.start, use.contact.end)], "V"):
                self.axes.broken_barh([(low, wide)], (at + 1.1, 0.5), facecolor=VISIBLE, edgecolor="black", linewidth=0.4, zorder=2)
                if low + wide / 2 >= free:
                    text = "%d" % use.contact.number
                    self.axes.text(low + wide / 2, at + 1.05, text, rotation=90, ha="center", va="bottom", fontsize=5.5, zorder=3)
                    free = low + wide / 2 + 7 * self.point

    def words(self, at, text, size):
        self.axes.text(self.point * 4, at, text, va="center", fontsize=size, style="italic", zorder=6)

    def station(self, at, index, name, more=""):
        self.axes.axhspan(at, at + 1, color="#EEEEEE", zorder=0)
        self.axes.text(self.point * 4, at + 0.55, "Station %d: %s%s" % (index, name, more), va="center", fontsize=9, weight="bold")

    def saved(self, folder, name, kinds):
        self.axes.set_yticks([at for at, _ in self.labels])
        self.axes.set_yticklabels([text for _, text in self.labels])
        self.axes.tick_params(axis="y", length=0)
        saved(self.figure, folder, name, kinds)


def saved(figure, folder, name, kinds):
    for kind in kinds:
        figure.savefig(os.path.join(folder, "%s.%s" % (name, kind)), dpi=130, metadata={"Date": None} if kind == "svg" else None)
    pyplot.close(figure)


def set_times(axes, start, end, origin, unit):
    """Ticks at round UTC times; the day stands under the first and under each midnight."""
    step = next((s for s in STEPS if (end - start) / s <= 13), STEPS[-1])
    first = -(-start // step) * step
    at, labels, before = [], [], ""
    for tick in range(first, end + 1, step):
        text = to_text(tick)
        day, time = text[:10], text[11:24]
        time = time[:5] if step >= 60 * TICK else time[:8] if step >= TICK else time
        labels.append(time + ("\n" + day if day != before else ""))
        at.append((tick - origin) / unit)
        before = day
    axes.set_xticks(at)
    axes.set_xticklabels(labels)
    axes.grid(axis="x", color="#CCCCCC", linewidth=0.5)
    axes.set_axisbelow(True)


def draw_plan(plan, folder, kinds, stations, numbers):
    """All pages; the list of what each shows."""
    pages, listed = paged(plan_rows(plan, stations, numbers)), []
    parts = slices(plan.head)
    count = len(pages) * len(parts)
    for groups in pages:
        for start, end in parts:
            name = "plan" if count == 1 else "plan-%03d" % (len(listed) + 1)
            which = "" if count == 1 else ", page %d of %d" % (len(listed) + 1, count)
            draw_page(plan, groups, start, end, which).saved(folder, name, kinds)
            shown = ", ".join("%d: %d to %d" % (rows[0][0], rows[0][1].number, rows[-1][1].number) for rows in groups)
            listed.append((name, to_text(start), to_text(end), shown))
    if len(listed) > 1:
        with open(os.path.join(folder, "pages.csv"), "w", newline="", encoding="ascii") as file:
            csv.writer(file, lineterminator="\n").writerows([("page", "from", "to", "station: satellites"), *listed])
    return listed


def draw_page(plan, groups, start, end, which=""):
    page, at = Page(plan.head, sum(len(rows) + 1 for rows in groups), start, end, which=which), 0
    for rows in groups:
        page.station(at, rows[0][0], plan.head.stations[rows[0][0] - 1])
        for index, sat in rows:
            at += 1
            page.row(at, plan, index, sat)
        at += 1
    return page


def booking_rows(book, stations):
    """By station: its antennas that have contacts; 0 where none has."""
    for index in stations or range(1, len(book.head.stations) + 1):
        yield [(index, antenna) for antenna in sorted({use.antenna for use in book.bookings[index - 1].uses})] or [(index, 0)]


def duration(ticks):
    seconds, parts = divmod(ticks, TICK)
    return "%d:%02d:%02d.%04d" % (seconds // 3600, seconds // 60 % 60, seconds % 60, parts)


def draw_book(book, folder, kinds, stations):
    """All pages of a booking; how many there are."""
    pages, parts, drawn = paged(booking_rows(book, stations), 2), slices(book.head), 0
    count = len(pages) * len(parts)
    for groups in pages:
        for start, end in parts:
            drawn += 1
            name, which = ("booking", "") if count == 1 else ("booking-%03d" % drawn, ", page %d of %d" % (drawn, count))
            draw_bookings(book, groups, start, end, which).saved(folder, name, kinds)
    return count


def draw_bookings(book, groups, start, end, which=""):
    page, at = Page(book.head, sum(2 * len(rows) + 1 for rows in groups), start, end, "Booking", which), 0
    for rows in groups:
        index = rows[0][0]
        booking = book.bookings[index - 1]
        booked = ", %d of %d contacts, %s booked" % (len(booking.uses), booking.contacts, duration(booking.value))
        page.station(at, index, book.head.stations[index - 1], "" if booking.too_many else booked)
        at += 1
        for _, antenna in rows:
            if antenna:
                page.antenna(at, antenna, [use for use in booking.uses if use.antenna == antenna])
            else:
                said = "TOOMANY: %d contacts, more than can be booked" % booking.contacts if booking.too_many else "no contacts"
                page.words(at + 1, said, 7.5)
            at += 2
    return page


def chosen_pass(plan, number):
    """The pass of this number in passes.csv, from 1; without one the first that has undecided spans at both ends, else the first."""
    found = list(passes(plan))
    if number:
        return found[number - 1] if number <= len(found) else None
    both = [one for one in found if one.first < one.start and one.end < one.last]
    return (both or found or [None])[0]


def draw_edges(plan, folder, kinds, number):
    """One pass near its two edges, on the scale of the undecided spans."""
    one = chosen_pass(plan, number)
    if one is None:
        return False
    figure, both = pyplot.subplots(1, 2, figsize=(WIDTH, 2.9))
    figure.subplots_adjust(left=0.03, right=0.97, top=0.66, bottom=0.19, wspace=0.09)
    spans = plan.pair[one.sat.number, one.index].spans
    name = "" if one.sat.name == "-" else " " + one.sat.name
    title = "The edges of a pass of %d%s over %s\ncertainly visible from %s to %s UTC"
    title %= (one.sat.number, name, one.station, to_text(one.start)[:-1], to_text(one.end)[:-1])
    figure.text(0.012, 0.96, title, va="top", fontsize=10, linespacing=1.5)
    rises = edge_words(one.first, one.start, "It rises", plan.head.start, "before the window begins")
    sets = edge_words(one.end, one.last, "It sets", plan.head.end, "after the window ends")
    draw_edge(both[0], spans, plan.head, one.first, one.start, rises)
    draw_edge(both[1], spans, plan.head, one.end, one.last, sets)
    saved(figure, folder, "edges", kinds)
    return True


def edge_words(low, high, title, border, otherwise):
    """What is said of an edge: how long it is undecided, or why it is not."""
    if low < high:
        return "%s: undecided for %d.%d ms" % (title, (high - low) // 10, (high - low) % 10)
    return "%s %s" % (title, otherwise if low == border else "without an undecided tick")


def draw_edge(axes, spans, head, low, high, title):
    """The spans around an undecided one, in milliseconds or seconds from its start."""
    length = max(high - low, 1)
    start, end = low - 2 * length, high + 2 * length
    unit, unit_name = (10, "milliseconds") if length < TICK else (TICK, "seconds")
    for span in spans:
        first, last = max(span.start, start), min(span.end, end)
        if first >= last:
            continue
        at, wide = (first - low) / unit, (last - first) / unit
        if span.letter == "V":
            axes.broken_barh([(at, wide)], (0.25, 0.5), facecolor=VISIBLE, edgecolor="black", linewidth=0.5)
        elif span.letter == "H":
            axes.hlines(0.5, at, at + wide, color=HIDDEN, linewidth=2.0)
        else:
            axes.broken_barh([(at, wide)], (0.25, 0.5), facecolor="white", edgecolor=UNDECIDED, hatch="/////", linewidth=0.9)
        if 20 * (last - first) > end - start:
            axes.text(at + wide / 2, 0.86, WORDS[span.letter], ha="center", va="center")
    for first, last, words in ((start, head.start, "before the window"), (head.end, end, "after the window")):
        if 20 * (last - first) > end - start:
            axes.text(((first + last) / 2 - low) / unit, 0.5, words, ha="center", va="center", style="italic")
    axes.set_title(title, fontsize=9, loc="left")
    axes.set_xlim((start - low) / unit, (end - low) / unit)
    axes.set_ylim(0, 1)
    axes.set_yticks([])
    axes.xaxis.set_major_locator(MaxNLocator(6))
    axes.set_xlabel("%s from %s UTC" % (unit_name, to_text(low)[:-1]))
