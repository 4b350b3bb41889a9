"""Expected texts of `book` for satellites that one station sees throughout an hour; the rows of crates/rows_book.

Every allocation of the contacts is tried, so the greatest value is found by search; of the one stretch that all contacts fill
every price that can matter is tried, so the prices that certify the value are known too. Nothing is taken from the program.
Prints the element sets, then for each case the greatest value, the choices of antennas that reach it, and the range of prices.

    python3 tools/book/expected.py
"""
import itertools

HOUR = 36_000_000  # ticks of 100 microseconds


def checked(line):
    """A line of 68 columns with its check digit."""
    total = sum(int(c) if c.isdigit() else (c == "-") for c in line)
    return line + str(total % 10)


def element_set(number, motion="15.00000000"):
    """A circle over the equator at 2000-06-27T00:00:00."""
    first = "1 %05dU 00001A   00179.00000000  .00000000  00000-0  00000-0 0    1" % number
    second = "2 %05d   0.0000   0.0000 0010000   0.0000   0.0000 %11s    1" % (number, motion)
    return [checked(first), checked(second)]


def overlap(one, other):
    return one[0] < other[1] and other[0] < one[1]


def is_allocation(contacts, used):
    pairs = itertools.combinations(range(len(contacts)), 2)
    return not any(used[i] == used[j] != 0 and overlap(contacts[i], contacts[j]) for i, j in pairs)


def best(contacts, antennas):
    """The greatest value, and the allocations that reach it."""
    def value(used):
        return sum(to - start for (start, to), antenna in zip(contacts, used) if antenna)
    choices = itertools.product(range(antennas + 1), repeat=len(contacts))
    allowed = [used for used in choices if is_allocation(contacts, used)]
    greatest = max(map(value, allowed))
    return greatest, [used for used in allowed if value(used) == greatest]


def certifying_prices(many, antennas, value):
    """The prices of the one stretch that certify a value, among those between which the bound is linear."""
    def bound(price):
        return antennas * price + many * max(0, HOUR - price)
    return [price for price in (0, 1, HOUR - 1, HOUR, HOUR + 1) if bound(price) == value]


def main():
    for number in (90001, 90002, 90003):
        print("\n".join(element_set(number)))
    for many, antennas in ((1, 1), (2, 1), (2, 2), (3, 2)):
        value, choices = best([(0, HOUR)] * many, antennas)
        prices = certifying_prices(many, antennas, value)
        print(many, "contacts", antennas, "antennas: value", value, "prices", prices, "allocations", choices)


if __name__ == "__main__":
    main()
