"""Compares `passplan book` with exhaustive search, outside the gate.

    python3 tools/book/exhaustive.py [PROGRAM [FIRST LAST]]

Runs `plan` and `book` of the built program for 300 random cases (fixed seed) and for each station of each of them checks:

- the two runs have one window, stations and satellites, and end with one status; the BOOK line counts the contacts of the plan's table;
- each USE line is a contact of that table, with an antenna that there is; contacts of one antenna share at most an end;
- the value is the greatest of all subsets of the contacts that the antennas can take, found by trying each (a subset can be taken
  exactly where no more contacts than antennas overlap anywhere);
- the PRICE lines are stretches between neighbouring ends of contacts, and certify the booking: its value is the number of antennas times
  the sum of the prices, plus the sum over all contacts of what their length is above the prices inside, where it is.

A case is 1 to 7 satellites of the catalogue of tools/speed/inputs.py over one or two stations with a mask between -90 and 10 degrees, a
window of some minutes to two hours, and 1 to 3 antennas; one with more than 8 contacts at a station, or with none, is drawn again. Nothing
is taken from the program but its printed text (tools/view/plan.py). It needs nothing but Python. It prints the seed, the counts and every
discrepancy with the number of its case (FIRST and LAST run such cases alone), and ends with status 1 where there is one.
"""
import os
import random
import subprocess
import sys
import tempfile

TOP = os.path.normpath(os.path.join(os.path.dirname(os.path.abspath(__file__)), "..", ".."))
sys.path[1:1] = [os.path.join(TOP, "tools", "view"), os.path.join(TOP, "tools", "speed")]
import inputs  # noqa: E402
import plan as layout  # noqa: E402

SEED = 20261203
CASES = 300
MOST = 8
MASKS = [-90, -75, -60, -50, -40, -30, -20, -10, 0, 10]


def overlap(contacts):
    """The greatest number of contacts that overlap somewhere; they all go on at the beginning of one of them."""
    return max((sum(other.start <= one.start < other.end for other in contacts) for one in contacts), default=0)


def greatest(contacts, antennas, value):
    """The greatest value of a subset that the antennas can take, each subset tried."""
    best = 0
    for subset in range(1 << len(contacts)):
        chosen = [one for k, one in enumerate(contacts) if subset >> k & 1]
        worth = sum(map(value, chosen))
        if worth > best and overlap(chosen) <= antennas:
            best = worth
    return best


def certifies(contacts, antennas, booked, prices, value):
    """Whether prices by stretch certify a booking of this value."""
    ends = sorted({end for one in contacts for end in (one.start, one.end)})
    if any((price.start, price.end) not in zip(ends, ends[1:]) for price in prices):
        return False
    inside = lambda one: sum(price.price for price in prices if one.start <= price.start and price.end <= one.end)  # noqa: E731
    return booked == antennas * sum(price.price for price in prices) + sum(max(0, value(one) - inside(one)) for one in contacts)


def known():
    """Three contacts of which the middle one overlaps both others, worth 10, 12 and 10: values found by hand."""
    contacts = [layout.Contact(0, 10, 1), layout.Contact(5, 15, 2), layout.Contact(10, 20, 3)]
    value = {1: 10, 2: 12, 3: 10}
    worth = lambda one: value[one.number]  # noqa: E731
    prices = [layout.Price(5, 10, 10), layout.Price(10, 15, 10)]
    assert (overlap(contacts), overlap(contacts[::2]), overlap([])) == (2, 1, 0)
    assert [greatest(contacts, k, worth) for k in (1, 2, 3)] == [20, 32, 32]
    assert certifies(contacts, 1, 20, prices, worth) and certifies(contacts, 2, 32, [], worth) and certifies([], 1, 0, [], worth)
    assert not certifies(contacts, 1, 20, [], worth) and not certifies(contacts, 2, 32, prices, worth)
    assert not certifies(contacts, 1, 20, [layout.Price(5, 15, 10)], worth) and not certifies(contacts, 1, 22, prices, worth)


class Tally:
    def __init__(self):
        self.wrong = []
        self.counts = dict.fromkeys(("cases", "drawn again", "stations", "contacts", "booked", "prices", "stations short of antennas"), 0)
        self.case = 0

    def expect(self, holds, *what):
        if not holds:
            self.wrong.append("case %d: %s" % (self.case, " ".join(str(part) for part in what)))


def drawn(rng, folder):
    """Writes the files of a case; its words."""
    sats = rng.sample(range(1000), rng.randint(1, 7))
    text = "version = 1\n"
    for index in range(1, rng.choice([1, 1, 2]) + 1):
        values = (index, rng.randint(-90, 90), rng.randint(-180, 360), rng.choice(MASKS))
        text += '[[station]]\nname = "S%d"\nlat = "%d"\nlon = "%d"\nheight = "0"\nmask = "%d"\n' % values
    for name, written in (("c", "".join(inputs.two_lines(k) for k in sats)), ("s", text)):
        with open(os.path.join(folder, name), "w", encoding="ascii") as file:
            file.write(written)
    first = rng.randrange(86_400)
    last = first + rng.randint(300, 7200)
    at = ["2000-06-%02dT%02d:%02d:%02dZ" % (28 + t // 86_400, t // 3600 % 24, t // 60 % 60, t % 60) for t in (first, last)]
    return ["--catalogue=c", "--stations=s", "--start=" + at[0], "--end=" + at[1], "--res=%d" % rng.randint(1, 60)]


def printed(program, folder, *words):
    done = subprocess.run([program, *words], cwd=folder, capture_output=True, check=False)
    return done.returncode, done.stdout


def station(tally, contacts, booking, antennas):
    length = lambda one: one.end - one.start  # noqa: E731
    tally.expect(booking.contacts == len(contacts) and not booking.too_many, "contacts", booking.contacts, len(contacts))
    tally.expect(all(use.contact in contacts for use in booking.uses), "a USE line is no contact of the table")
    tally.expect(all(use.antenna <= antennas for use in booking.uses), "an antenna that is not there")
    best = greatest(contacts, antennas, length)
    tally.expect(booking.value == best, "value", booking.value, "greatest", best)
    tally.expect(certifies(contacts, antennas, booking.value, booking.prices, length), "the prices do not certify", booking)
    tally.counts["stations"] += 1
    tally.counts["contacts"] += len(contacts)
    tally.counts["booked"] += len(booking.uses)
    tally.counts["prices"] += len(booking.prices)
    tally.counts["stations short of antennas"] += best < sum(map(length, contacts))


def one_case(program, number, tally):
    rng, tally.case = random.Random("%d case %d" % (SEED, number)), number
    with tempfile.TemporaryDirectory() as folder:
        while True:
            words, antennas = drawn(rng, folder), rng.randint(1, 3)
            planned, text = printed(program, folder, "plan", *words)
            plan = layout.read_plan(text)
            if 1 <= max(map(len, plan.tables)) <= MOST:
                break
            tally.counts["drawn again"] += 1
        status, text = printed(program, folder, "book", *words, "--antennas=%d" % antennas)
        book = layout.read_book(text)
    tally.counts["cases"] += 1
    tally.expect(status == planned, "status", status, "of the plan", planned)
    tally.expect(book.head == plan.head, "another head")
    for contacts, booking in zip(plan.tables, book.bookings):
        station(tally, contacts, booking, antennas)


def main():
    known()
    program = os.path.abspath(sys.argv[1] if len(sys.argv) > 1 else os.path.join(TOP, "crates/passplan/out/passplan"))
    first, last = (int(word) for word in sys.argv[2:4]) if len(sys.argv) > 3 else (1, CASES)
    tally = Tally()
    for number in range(first, last + 1):
        try:
            one_case(program, number, tally)
        except layout.Refused as fault:
            tally.wrong.append("case %d: %s" % (number, fault))
    print("seed %d: %s" % (SEED, ", ".join("%s %d" % row for row in tally.counts.items())))
    for line in tally.wrong:
        print(line)
    print("exhaustive.py: %d wrong" % len(tally.wrong))
    return 1 if tally.wrong else 0


if __name__ == "__main__":
    sys.exit(main())
