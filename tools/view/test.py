"""Tests of the tools that read and show plans.

    /usr/bin/python3 tools/view/test.py [TEXT..]

The reader is tried on the samples as they stand, and on each sample with one line changed, left out or doubled: each such text
is refused, at the line that is wrong. Further texts that the program printed are read, made tables and calendars, and counted. Tables, calendar and pictures are held against counts and sums taken from the sample's lines
by a few lines of this script. The calendar is read back by icalendar. Where icalendar or matplotlib is not installed, the tests
that need it are skipped and say so.
"""
import csv
import datetime
import io
import os
import subprocess
import sys
import tempfile
import unittest

HERE = os.path.dirname(os.path.abspath(__file__))
sys.path.insert(0, HERE)
import plan as layout  # noqa: E402
import tables  # noqa: E402

try:
    import icalendar
except ModuleNotFoundError:
    icalendar = None
try:
    import matplotlib
except ModuleNotFoundError:
    matplotlib = None

PLANS = ("deep.txt", "station.txt", "two.txt", "answers.txt")
BOOKS = ("book.txt",)
MORE = {"PASSPLAN": [], "PASSBOOK": []}  # texts that are given
LACK = "%s is not installed (apt-get install python3-icalendar python3-matplotlib, then /usr/bin/python3)"


def sample(name):
    with open(os.path.join(HERE, "samples", name), "rb") as file:
        return file.read()


def lines_of(name):
    return sample(name).decode().split("\n")[:-1]


def read(name, lines):
    text = "".join(line + "\n" for line in lines).encode()
    return layout.read_book(text) if name in BOOKS or name in MORE["PASSBOOK"] else layout.read_plan(text)


def instant(text):
    """An instant as whole units of 0.1 milliseconds, by the standard library."""
    at = datetime.datetime.strptime(text[:19], "%Y-%m-%dT%H:%M:%S") - datetime.datetime(2000, 1, 1, 12)
    return (at.days * 86_400 + at.seconds) * 10_000 + int(text[20:24])


def spans_below(lines, head):
    """The letters and instants of the lines behind the line that begins so."""
    at = next(k for k, line in enumerate(lines) if line.startswith(head + " SPANS")) + 1
    count = int(lines[at - 1].split()[-1])
    return [(line[0], instant(line.split()[1]), instant(line.split()[2])) for line in lines[at : at + count]]


class Reads(unittest.TestCase):
    def refused(self, name, lines, wanted):
        with self.assertRaises(layout.Refused, msg="%s with line %d wrong is read" % (name, wanted)) as caught:
            read(name, lines)
        self.assertEqual(caught.exception.line, wanted, (name, str(caught.exception)))

    def test_samples_are_read(self):
        for name in (*PLANS, *MORE["PASSPLAN"]):
            plan, lines = read(name, lines_of(name)), lines_of(name)
            rows = list(plan.lit.values()) + list(plan.pair.values())
            self.assertEqual(sum(len(row.spans) for row in rows), sum(line[1] == " " for line in lines), name)
            self.assertEqual([len(table) for table in plan.tables], [int(line.split()[2]) for line in lines if line.startswith("TABLE ")])
            self.assertEqual(len(plan.head.sats), sum(line.startswith("SAT ") for line in lines))
        for name in (*BOOKS, *MORE["PASSBOOK"]):
            book, lines = read(name, lines_of(name)), lines_of(name)
            self.assertEqual(sum(len(one.uses) for one in book.bookings), sum(line.startswith("USE ") for line in lines))
            self.assertEqual(sum(len(one.prices) for one in book.bookings), sum(line.startswith("PRICE ") for line in lines))

    def test_instants_are_whole_ticks(self):
        for name in PLANS:
            for line in lines_of(name):
                for word in line.split(" ")[1:]:
                    if layout.INSTANT.fullmatch(word):
                        self.assertEqual(layout.to_text(instant(word)), word)
        plan = read("answers.txt", lines_of("answers.txt"))
        self.assertEqual((plan.head.start, plan.head.end), (-450_000_000, -414_000_000))
        self.assertTrue(all(type(end) is int for row in plan.pair.values() for span in row.spans for end in span[1:]))

    def test_a_changed_line_is_refused(self):
        for name in PLANS + BOOKS:
            lines = lines_of(name)
            for k in range(len(lines)):
                for changed in (lines[k] + "\t", " " + lines[k], lines[k].lower(), "", lines[k] + "\r", lines[k] + "\u00e4"):
                    self.refused(name, lines[:k] + [changed] + lines[k + 1 :], k + 1)

    def test_a_doubled_line_is_refused(self):
        for name in PLANS + BOOKS:
            lines = lines_of(name)
            for k in range(len(lines)):
                self.refused(name, lines[: k + 1] + lines[k:], k + 2)

    def test_a_cut_text_is_refused(self):
        for name in PLANS + BOOKS:
            lines = lines_of(name)
            for k in range(len(lines)):
                self.refused(name, lines[:k], k + 1)
            with self.assertRaises(layout.Refused):
                (layout.read_book if name in BOOKS else layout.read_plan)(sample(name)[:-1])

    def test_a_left_out_line_is_refused(self):
        fates = tuple(" %s " % fate for fate in layout.FATES)
        for name in PLANS:
            lines = lines_of(name)
            for k, line in enumerate(lines):
                free = line.startswith("DUT1 ") or line.startswith("SAT ") and any(fate in line for fate in fates) and name != "deep.txt"
                if not free:
                    with self.assertRaises(layout.Refused, msg="%s without line %d is read" % (name, k + 1)):
                        read(name, lines[:k] + lines[k + 1 :])

    def test_wrong_values_are_refused_at_their_line(self):
        for name, old, new, *later in CHANGES:
            lines = lines_of(name)
            self.assertEqual(lines.count(old), 1, (name, old))
            k = lines.index(old)
            self.refused(name, lines[:k] + [new] + lines[k + 1 :], k + 1 + sum(later))


WINDOW = "WINDOW 1999-12-31T23:30:00.0000Z 2000-01-01T00:30:00.0000Z 10"
USE = "USE 2000-06-27T00:05:00.0000Z 2000-06-27T00:15:00.0000Z 90002 2"
LAST_USE = "USE 2000-06-27T00:10:00.0000Z 2000-06-27T00:20:00.0000Z 90004 1"
PRICE = "PRICE 2000-06-27T00:05:00.0000Z 2000-06-27T00:10:00.0000Z 2000000"
CHANGES = [
    ("answers.txt", "PASSPLAN 1", "PASSPLAN 2"),
    ("answers.txt", WINDOW, WINDOW[:-2] + "61"),
    ("answers.txt", WINDOW, WINDOW[:-2] + "010"),
    ("answers.txt", WINDOW, "WINDOW 2000-01-01T00:30:00.0000Z 2000-01-01T00:30:00.0000Z 10"),
    ("answers.txt", WINDOW, "WINDOW 1999-12-31T23:30:00.0000Z 2000-01-10T23:30:00.0001Z 10"),
    ("answers.txt", WINDOW, WINDOW.replace("1999-12-31T23:30", "1999-12-31T24:00")),
    ("answers.txt", WINDOW, WINDOW.replace("1999-12-31T23:30:00", "1999-12-31T23:30:60")),
    ("answers.txt", WINDOW, WINDOW.replace("1999-12-31", "1999-02-29")),
    ("answers.txt", WINDOW, WINDOW.replace("23:30:00.0000Z", "23:30:00.0000")),
    ("answers.txt", WINDOW, WINDOW.replace("23:30:00.0000Z", "23:30:00.00000Z")),
    ("answers.txt", "DUT1 900", "DUT1 0"),
    ("answers.txt", "DUT1 900", "DUT1 901"),
    ("answers.txt", "DUT1 900", "DUT1 +900"),
    ("answers.txt", "STATION 2  -", "STATION 3  -"),
    ("answers.txt", "STATION 2  -", "STATION 2 "),
    ("answers.txt", "STATION 2  -", "STATION 2 " + 65 * "x"),
    ("answers.txt", "SAT 3 ECCENTRIC \"", "SAT 3 ECCENTRC \""),
    ("answers.txt", "SAT 3 ECCENTRIC \"", "SAT 0 ECCENTRIC \""),
    ("answers.txt", "SAT 3 ECCENTRIC \"", "SAT 03 ECCENTRIC \""),
    ("answers.txt", "SAT 999999999 OK x_1 $\\alpha$; a,b", "SAT 1000000000 OK x"),
    ("answers.txt", "SAT 5 DRAG -", "SAT 5 DRAG  -"),
    ("answers.txt", "LIT 0 UNRESOLVED 1999-12-31T23:30:00.0000Z 1999-12-31T23:30:10.0001Z", "LIT 0 UNRESOLVED 1999-12-31T23:30:00.0000Z 1999-12-31T23:30:10.0000Z"),
    ("answers.txt", "LIT 0 UNRESOLVED 1999-12-31T23:30:00.0000Z 1999-12-31T23:30:10.0001Z", "LIT 0 UNRESOLVED 1999-12-31T23:29:59.9999Z 1999-12-31T23:30:10.0000Z"),
    ("answers.txt", "PAIR 0 3 FULL 1999-12-31T23:30:00.0000Z", "PAIR 0 3 FULL 2000-01-01T00:30:00.0000Z"),
    ("answers.txt", "PAIR 0 3 FULL 1999-12-31T23:30:00.0000Z", "PAIR 0 3 FULL"),
    ("answers.txt", "PAIR 0 3 FULL 1999-12-31T23:30:00.0000Z", "PAIR 0 3 FULL 1999-12-31T23:30:00.0000Z 1999-12-31T23:30:00.0000Z"),
    ("answers.txt", "PAIR 0 3 FULL 1999-12-31T23:30:00.0000Z", "PAIR 0 4 FULL 1999-12-31T23:30:00.0000Z"),
    ("answers.txt", "PAIR 0 3 FULL 1999-12-31T23:30:00.0000Z", "PAIR 0 3 SPANS 0"),
    ("answers.txt", "PAIR 999999999 2 DECAYS 2000-01-01T00:29:59.9999Z", "PAIR 999999999 2 DECAYED 2000-01-01T00:29:59.9999Z"),
    ("answers.txt", "U 1999-12-31T23:30:00.0001Z 1999-12-31T23:30:10.0001Z", "U 1999-12-31T23:30:00.0001Z 1999-12-31T23:30:10.0002Z"),
    ("answers.txt", "U 1999-12-31T23:30:00.0001Z 1999-12-31T23:30:10.0001Z", "V 1999-12-31T23:30:00.0001Z 1999-12-31T23:30:10.0001Z"),
    ("answers.txt", "U 1999-12-31T23:30:00.0001Z 1999-12-31T23:30:10.0001Z", "S 1999-12-31T23:30:00.0001Z 1999-12-31T23:30:10.0001Z"),
    ("answers.txt", "U 1999-12-31T23:30:00.0001Z 1999-12-31T23:30:10.0001Z", "U 1999-12-31T23:30:00.0002Z 1999-12-31T23:30:10.0001Z"),
    ("answers.txt", "U 1999-12-31T23:30:00.0001Z 1999-12-31T23:30:10.0001Z", "U 1999-12-31T23:30:00.0001Z 1999-12-31T23:30:00.0001Z"),
    ("answers.txt", "U 2000-01-01T00:29:50.0000Z 2000-01-01T00:30:00.0000Z", "U 2000-01-01T00:29:50.0000Z 2000-01-01T00:29:59.9999Z"),
    ("answers.txt", "H 1999-12-31T23:30:00.0000Z 1999-12-31T23:59:59.9999Z", "H 1999-12-31T23:29:59.9999Z 1999-12-31T23:59:59.9999Z"),
    ("answers.txt", "TABLE 1 3", "TABLE 1 2"),
    ("answers.txt", "TABLE 2 0", "TABLE 3 0"),
    ("answers.txt", "PASS 1999-12-31T23:59:59.9999Z 2000-01-01T00:30:00.0000Z 999999999", "PASS 1999-12-31T23:59:59.9999Z 2000-01-01T00:30:00.0000Z 0"),
    ("answers.txt", "END", "END "),
    ("book.txt", "BOOK 1 4 18000000", "BOOK 1 4 18000001", 4),
    ("book.txt", "BOOK 1 4 18000000", "BOOK 1 4 17999999", 3),
    ("book.txt", "BOOK 1 4 18000000", "BOOK 1 2 18000000", 3),
    ("book.txt", "BOOK 2 0 0", "BOOK 2 0 1", 1),
    ("book.txt", "BOOK 3 TOOMANY 65537", "BOOK 3 TOOMANY 65536"),
    ("book.txt", "BOOK 3 TOOMANY 65537", "BOOK 3 65537 0"),
    ("book.txt", USE, USE[:-1] + "1"),
    ("book.txt", USE, USE[:-1] + "0"),
    ("book.txt", USE, USE[:-1] + "65"),
    ("book.txt", USE, USE.replace("90002", "90003")),
    ("book.txt", USE, USE.replace("00:05:00.0000Z", "00:00:00.0000Z").replace("90002", "90000")),
    ("book.txt", USE, USE.replace("00:05:00.0000Z", "00:15:00.0000Z")),
    ("book.txt", USE, USE.replace("00:15:00.0000Z", "01:00:00.0001Z")),
    ("book.txt", LAST_USE, LAST_USE.replace("90004", "90001")),
    ("book.txt", PRICE, PRICE[:-7] + "0"),
    ("book.txt", PRICE, PRICE[:-7] + "18446744073709551616"),
    ("book.txt", PRICE, PRICE.replace("00:05:00.0000Z", "00:10:00.0000Z")),
    ("book.txt", PRICE, PRICE.replace("00:10:00.0000Z", "00:10:00.0001Z"), 1),
    ("book.txt", "BOOK 2 0 0", "BOOK 2 1 0", 1),
]


class Tables(unittest.TestCase):
    def rows(self, write, read_text):
        with tempfile.TemporaryDirectory() as folder:
            path = os.path.join(folder, "table")
            write(path, read_text)
            with open(path, newline="", encoding="ascii") as file:
                return list(csv.reader(file))

    def test_a_pass_for_each_visible_span(self):
        for name in (*PLANS, *MORE["PASSPLAN"]):
            lines = lines_of(name)
            rows = self.rows(tables.write_passes, read(name, lines))
            self.assertEqual(rows[0], list(tables.PASSES))
            found = [(row[3], row[4], row[1]) for row in rows[1:]]
            self.assertEqual(found, [tuple(line.split()[1:]) for line in lines if line.startswith("PASS ")], name)
            self.assertEqual(len(rows) - 1, sum(line.startswith("V ") for line in lines))

    def test_possible_ends_join_the_undecided_spans(self):
        rows = self.rows(tables.write_passes, read("answers.txt", lines_of("answers.txt")))[1:]
        self.assertEqual(rows[0][3:], ["1999-12-31T23:30:00.0000Z", "1999-12-31T23:30:00.0001Z", "1999-12-31T23:30:00.0000Z", "1999-12-31T23:30:10.0001Z", ""])
        self.assertEqual(rows[2][3:], ["1999-12-31T23:30:10.0001Z", "1999-12-31T23:30:11.9999Z", "1999-12-31T23:30:00.0001Z", "1999-12-31T23:30:11.9999Z", ""])
        self.assertEqual(rows[1][2:], ["x_1 $\\alpha$; a,b", "1999-12-31T23:30:00.0000Z", "2000-01-01T00:30:00.0000Z", "1999-12-31T23:30:00.0000Z", "2000-01-01T00:30:00.0000Z", "0.0013"])
        self.assertEqual(rows[3][7], "0.0000")

    def test_the_sunlit_share_is_that_of_the_lines(self):
        for name in ("station.txt", "two.txt"):
            lines = lines_of(name)
            for row in self.rows(tables.write_passes, read(name, lines))[1:]:
                start, end = instant(row[3]), instant(row[4])
                lit = [max(0, min(end, high) - max(start, low)) for letter, low, high in spans_below(lines, "LIT " + row[1]) if letter == "S"]
                share, exact = float(row[7]), sum(lit) / (end - start)
                self.assertTrue(exact - 0.0001 < share <= exact + 1e-12, (row, exact))

    def test_nothing_is_left_out_silently(self):
        rows = self.rows(tables.write_unplanned, read("answers.txt", lines_of("answers.txt")))[1:]
        self.assertEqual([row[3] for row in rows], ["light UNRESOLVED", "UNRESOLVED", "FULL", "DECAYS", *layout.FATES])
        self.assertTrue(all(row[4] for row in rows))
        self.assertEqual(self.rows(tables.write_unplanned, read("station.txt", lines_of("station.txt")))[1:], [])

    def test_bookings(self):
        rows = self.rows(tables.write_bookings, read("book.txt", lines_of("book.txt")))
        self.assertEqual(rows[0], ["station", "antenna", "satellite", "from", "to"])
        self.assertEqual(rows[2], ["Pole", "2", "90002", "2000-06-27T00:05:00.0000Z", "2000-06-27T00:15:00.0000Z"])
        self.assertEqual(len(rows), 4)
        for name in MORE["PASSBOOK"]:
            found = [" ".join((row[3], row[4], row[2], row[1])) for row in self.rows(tables.write_bookings, read(name, lines_of(name)))[1:]]
            self.assertEqual(found, [line[4:] for line in lines_of(name) if line.startswith("USE ")], name)

    def test_stations_of_one_name_are_told_apart(self):
        rows = self.rows(tables.write_unplanned, read("answers.txt", lines_of("answers.txt")))[1:]
        self.assertEqual([row[0] for row in rows if row[0]], [" - (station 2)", " - (station 3)", " - (station 2)"])


@unittest.skipUnless(icalendar, LACK % "icalendar")
class Events(unittest.TestCase):
    def calendar(self, name):
        import events

        text = events.calendar_of(read(name, lines_of(name))).to_ical()
        self.assertEqual(text, events.calendar_of(read(name, lines_of(name))).to_ical())
        return text, icalendar.Calendar.from_ical(text)

    def test_an_event_for_each_visible_span(self):
        for name in (*PLANS, *MORE["PASSPLAN"]):
            text, calendar = self.calendar(name)
            found = [part for part in calendar.walk("VEVENT")]
            self.assertEqual(len(found), sum(line.startswith("V ") for line in lines_of(name)), name)
            self.assertEqual(len({str(event["uid"]) for event in found}), len(found))
            self.assertEqual(text.count(b"BEGIN:VEVENT"), len(found))
            self.assertEqual((str(calendar["version"]), "prodid" in calendar), ("2.0", True))

    def test_events_are_utc_inside_their_spans(self):
        for name in (*PLANS, *MORE["PASSPLAN"]):
            contacts = [line.split()[1:] for line in lines_of(name) if line.startswith("PASS ")]
            events = self.calendar(name)[1].walk("VEVENT")
            for (low, high, number), event in zip(contacts, events):
                start, end = (event[key].dt for key in ("dtstart", "dtend"))
                self.assertEqual((start.utcoffset(), start < end), (datetime.timedelta(0), True))
                start, end = (instant(at.strftime("%Y-%m-%dT%H:%M:%S.0000Z")) for at in (start, end))
                if "shorter than the whole seconds" not in event["description"]:
                    self.assertTrue(instant(low) <= start < instant(low) + 10_000 and instant(high) - 10_000 < end <= instant(high))
                self.assertTrue(event["summary"].startswith(number))
                self.assertIn("Certainly visible from %s to %s." % (low, high), event["description"])

    def test_no_calendar_without_an_event(self):
        import events

        with tempfile.TemporaryDirectory() as folder:
            path = os.path.join(folder, "passes.ics")
            self.assertTrue(events.write_events(path, read("station.txt", lines_of("station.txt"))))
            self.assertFalse(events.write_events(path, read("deep.txt", lines_of("deep.txt"))))
            self.assertEqual(os.listdir(folder), [])

    def test_lines_are_those_of_the_standard(self):
        for name in (*PLANS, *MORE["PASSPLAN"]):
            lines = self.calendar(name)[0].split(b"\r\n")
            self.assertEqual(lines[-1], b"")
            self.assertTrue(all(len(line) <= 75 and b"\n" not in line for line in lines))
            self.assertFalse(any(b"TZID" in line for line in lines))

    def test_what_is_missing_is_said(self):
        calendar = self.calendar("answers.txt")[1]
        for word in ("UNRESOLVED", "FULL", "DECAYS", "eccentricity", "seven days"):
            self.assertIn(word, calendar["x-wr-caldesc"])


@unittest.skipUnless(matplotlib, LACK % "matplotlib")
class Pictures(unittest.TestCase):
    def test_pages_and_edges(self):
        import pictures

        for name, pages, edges in (("deep.txt", 1, False), ("station.txt", 1, True), ("two.txt", 1, True), ("answers.txt", 1, True)):
            with tempfile.TemporaryDirectory() as folder:
                plan = read(name, lines_of(name))
                listed = pictures.draw_plan(plan, folder, ("png", "svg"), [], [])
                self.assertEqual((len(listed), pictures.draw_edges(plan, folder, ("png", "svg"), 0)), (pages, edges))
                for file in os.listdir(folder):
                    with open(os.path.join(folder, file), "rb") as picture:
                        head = picture.read(200)
                    self.assertTrue(head.startswith(b"\x89PNG") if file.endswith("png") else b"<?xml" in head, file)
                self.assertEqual(len(os.listdir(folder)), 2 * pages + 2 * edges)

    def test_rows_without_spans_are_said_in_words(self):
        import pictures

        plan = read("answers.txt", lines_of("answers.txt"))
        page = pictures.draw_page(plan, list(pictures.plan_rows(plan, [], [])), plan.head.start, plan.head.end)
        said = "\n".join(text.get_text() for text in page.axes.texts)
        for word in ("UNRESOLVED", "FULL", "DECAYS", *layout.FATES, "only grazes", "used up", "come down"):
            self.assertIn(word, said)

    def test_edges_are_said_in_words(self):
        import pictures

        said = [pictures.edge_words(*row, 0, "before it begins") for row in ((3, 12, "It rises"), (0, 0, "It rises"), (5, 5, "It rises"))]
        self.assertEqual(said, ["It rises: undecided for 0.9 ms", "It rises before it begins", "It rises without an undecided tick"])

    def test_bookings_are_drawn(self):
        import pictures

        book = read("book.txt", lines_of("book.txt"))
        page = pictures.draw_bookings(book, list(pictures.booking_rows(book, [])), book.head.start, book.head.end)
        said = [text.get_text() for text in page.axes.texts]
        self.assertEqual(said.count("90001") + said.count("90002") + said.count("90004"), 3)
        self.assertEqual([text for text in said if text.startswith("TOOMANY: 65537") or text == "no contacts"], said[-3::2])
        self.assertEqual([text for _, text in page.labels], ["antenna 1", "antenna 2"])
        many = pictures.paged([[(1, antenna) for antenna in range(1, 65)], [(2, 0)]], 2)
        self.assertEqual(([len(rows) for groups in many for rows in groups], len(many)), ([22, 22, 20, 1], 3))
        with tempfile.TemporaryDirectory() as folder:
            self.assertEqual((pictures.draw_book(book, folder, ("png",), []), os.listdir(folder)), (1, ["booking.png"]))

    def test_many_rows_and_days_take_more_pages(self):
        import pictures

        day = 86_400 * layout.TICK
        sats = [layout.Sat(number, "OK", "-") for number in range(100)]
        head = layout.Head(0, 3 * day, 1, 0, ["S%d" % k for k in range(10)], sats)
        row = layout.Row("SPANS", [layout.Span("H", 0, 3 * day)], 0, 3 * day)
        plan = layout.Plan(head, {k: row for k in range(100)}, {(k, j): row for k in range(100) for j in range(1, 11)}, [[]] * 10)
        pages = pictures.paged(pictures.plan_rows(plan, [], []))
        self.assertEqual(sum(len(rows) for groups in pages for rows in groups), 1000)
        self.assertTrue(all(sum(len(rows) for rows in groups) <= pictures.ROWS for groups in pages))
        self.assertEqual(pictures.slices(head), [(0, day), (day, 2 * day), (2 * day, 3 * day)])


class Command(unittest.TestCase):
    def run_view(self, *words, **more):
        return subprocess.run([sys.executable, os.path.join(HERE, "view.py"), *words], capture_output=True, check=False, **more)

    def test_a_refused_text_ends_with_its_line(self):
        with tempfile.TemporaryDirectory() as folder:
            done = self.run_view("-", folder, input=sample("deep.txt").replace(b"DEEP", b"DEAP"))
            self.assertEqual((done.returncode, b"line 4" in done.stderr), (1, True), done.stderr)

    def test_tables_need_no_package(self):
        with tempfile.TemporaryDirectory() as folder:
            done = self.run_view(os.path.join(HERE, "samples", "station.txt"), folder, "--only=passes")
            self.assertEqual((done.returncode, done.stderr), (0, b""))
            self.assertEqual(sorted(os.listdir(folder)), ["passes.csv", "unplanned.csv"])


def main():
    for name in map(os.path.abspath, sys.argv[1:]):
        MORE[lines_of(name)[0].partition(" ")[0]].append(name)
    for name, package in (("icalendar", icalendar), ("matplotlib", matplotlib)):
        if package is None:
            print("test.py: skipping: " + LACK % name)
    shown = io.StringIO()
    done = unittest.TextTestRunner(stream=shown).run(unittest.defaultTestLoader.loadTestsFromModule(sys.modules[__name__]))
    print(shown.getvalue() if not done.wasSuccessful() else "", end="")
    print("test.py: %d tests, %d failed, %d skipped" % (done.testsRun, len(done.failures) + len(done.errors), len(done.skipped)))
    return 0 if done.wasSuccessful() else 1


if __name__ == "__main__":
    sys.exit(main())
