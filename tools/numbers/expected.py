#!/usr/bin/env python3
"""Writes crates/rows_numbers/src/expected.rt: what intervals of numbers and of angles must be.

Every value is made here from exact fractions and from series of 60 digits, by the meaning of the operations and not by
the program's steps; only the ends of sines and cosines follow the program's rounding, and each is checked here to hold
the true numbers and to be at most 16 units wider. Run it at the top of the repository,
python3 tools/numbers/expected.py, and then rt fmt in the crate.
"""
from fractions import Fraction as F
from math import floor, isqrt

ONE = 1 << 48
NO_LOW, NO_HIGH = -(1 << 63), (1 << 63) - 1
FIRST, LAST = NO_LOW + 1, NO_HIGH - 1
MASK = (1 << 64) - 1


# ---- tightest intervals, by definition
def ceil(x):
    return -floor(-x)


def cut(low, high):
    """The tightest interval of numbers from low to high, in units."""
    lo, hi = floor(low), ceil(high)
    lo = LAST if lo > LAST else NO_LOW if lo < FIRST else lo
    hi = NO_HIGH if hi > LAST else FIRST if hi < FIRST else hi
    return lo, hi


WHOLE = (NO_LOW, NO_HIGH)


def bounded(v):
    return v[0] != NO_LOW and v[1] != NO_HIGH


def sum_of(low_ends, high_ends):
    """The interval whose ends are sums; an end that is made from an unbounded end is unbounded."""
    lo, _ = cut(sum(low_ends), sum(low_ends))
    _, hi = cut(sum(high_ends), sum(high_ends))
    return lo, hi


def plus(a, b):
    lo, hi = sum_of((a[0], b[0]), (a[1], b[1]))
    return NO_LOW if NO_LOW in (a[0], b[0]) else lo, NO_HIGH if NO_HIGH in (a[1], b[1]) else hi


def minus(a, b):
    lo, hi = sum_of((a[0], -b[1]), (a[1], -b[0]))
    return NO_LOW if a[0] == NO_LOW or b[1] == NO_HIGH else lo, NO_HIGH if a[1] == NO_HIGH or b[0] == NO_LOW else hi


def negate(a):
    return minus((0, 0), a)


def times(a, b):
    if not (bounded(a) and bounded(b)):
        return WHOLE
    corners = [F(x * y, ONE) for x in a for y in b]
    return cut(min(corners), max(corners))


def divided(a, b):
    if not (bounded(a) and bounded(b)) or b[0] <= 0 <= b[1]:
        return WHOLE
    corners = [F(x * ONE, y) for x in a for y in b]
    return cut(min(corners), max(corners))


def hull(a, b):
    return min(a[0], b[0]), max(a[1], b[1])


def meet(a, b):
    lo, hi = max(a[0], b[0]), min(a[1], b[1])
    return (lo, hi) if lo <= hi else a


def max_const(a, b):
    return max(a[0], b[0]), max(a[1], b[1])


def width(a):
    return a[1] - a[0] if bounded(a) else MASK


def from_ratio(num, den):
    x = F(num, den) * ONE
    return cut(x, x)


# ---- sine and cosine to 60 digits and more, of units
BITS = 260
PI = F(31415926535897932384626433832795028841971693993751058209749445923078164062862089986280348253421170679, 10**100)


def series(y, first):
    """The whole series of the sine (first = 1) or the cosine (first = 0) at y, in fractions of 2^-BITS."""
    y = floor(y * (1 << BITS))
    square = y * y >> BITS
    term, total, n = (y if first else 1 << BITS), 0, first
    while term:
        total += term
        term = -(term * square >> BITS) // ((n + 1) * (n + 2))
        n += 2
        if abs(term) <= 1:
            break
    return F(total, 1 << BITS)


def quarter(x):
    """The nearest whole number of quarter turns, and the angle less them."""
    k = floor(x / (PI / 2) + F(1, 2))
    return k, x - k * (PI / 2)


def true_pair(units):
    k, y = quarter(F(units, ONE))
    s, c = series(y, 1), series(y, 0)
    return [(s, c), (c, -s), (-s, -c), (-c, s)][k % 4]


def true_range(lo, hi):
    """The least and the greatest sine and cosine between two ends, in units."""
    pairs = [true_pair(lo), true_pair(hi)]
    out = []
    for which, shift in ((0, F(1)), (1, F(0))):
        values = [p[which] for p in pairs]
        # the greatest is 1 at (shift + 4 n) quarter turns, the least -1 at (shift + 2 + 4 n)
        for extreme, place in ((1, shift), (-1, shift + 2)):
            n = ceil((F(lo, ONE) / (PI / 2) - place) / 4)
            if (place + 4 * n) * (PI / 2) <= F(hi, ONE):
                values.append(F(extreme))
        out += [min(values) * ONE, max(values) * ONE]
    return out


# ---- the ends of sines and cosines, as the program rounds them
EIGHTH, SCALE = 3622009729038561421, 1 << 62
LIMIT = ONE + 1


def sums(angle):
    square = angle * angle // SCALE
    cosine = sine = SCALE
    for d in (306, 240, 182, 132, 90, 56, 30, 12, 2):
        cosine = SCALE - square * cosine // SCALE // d
    for d in (342, 272, 210, 156, 110, 72, 42, 20, 6):
        sine = SCALE - square * sine // SCALE // d
    return angle * sine // SCALE, cosine


def sincos(v):
    if not bounded(v):
        return (-LIMIT, LIMIT), (-LIMIT, LIMIT)
    w = v[1] - v[0]
    middle, radius = v[0] + w // 2, w - w // 2
    scaled = middle << 14
    k = (scaled + EIGHTH) // (2 * EIGHTH)
    rest = scaled - k * 2 * EIGHTH
    s, c = sums(abs(rest))
    s = -s if rest < 0 else s
    pair = [(s, c), (c, -s), (-s, -c), (-c, s)][k % 4]
    ends = []
    for value in pair:
        units = value >> 14
        ends.append((max(units - radius - 1, -LIMIT), min(units + radius + 2, LIMIT)))
    return tuple(ends)


def checked_sincos(v):
    sines, cosines = sincos(v)
    if bounded(v):
        least_sine, most_sine, least_cosine, most_cosine = true_range(*v)
        assert sines[0] <= least_sine and most_sine <= sines[1], v
        assert cosines[0] <= least_cosine and most_cosine <= cosines[1], v
        for r in (sines, cosines):
            assert r[1] - r[0] <= v[1] - v[0] + 16 and -LIMIT <= r[0] and r[1] <= LIMIT, v
    return sines, cosines


# ---- operands, drawn as the test draws them
class Draw:
    def __init__(self, seed):
        self.state = seed

    def next(self):
        s = self.state
        s ^= s >> 12
        s ^= s << 25 & MASK
        s ^= s >> 27
        self.state = s
        return s * 0x2545F4914F6CDD1D & MASK

    def number(self):
        """A number of 64 bits, of any size."""
        kind = self.next() >> 58
        value = signed(self.next())
        return LIMITS[kind] if kind < len(LIMITS) else value >> kind % 48

    def interval(self):
        a, b = self.number(), self.number()
        lo, hi = min(a, b), max(a, b)
        return WHOLE if lo == NO_HIGH or hi == NO_LOW else (lo, hi)


LIMITS = [NO_LOW, NO_LOW + 1, NO_LOW + 2, -(1 << 62), -ONE - 1, -ONE, -1, 0, 0, 1, ONE, ONE + 1, 1 << 62, NO_HIGH - 2, NO_HIGH - 1, NO_HIGH]


def signed(n):
    return n - (1 << 64) if n >> 63 else n


def mixed(digest, value):
    digest = (digest ^ value & MASK) * 0x9E3779B97F4A7C15 & MASK
    return digest ^ digest >> 29


def operand_digests():
    draw, digests = Draw(1), []
    for _ in range(20):
        digest = 0
        for _ in range(100):
            a, b = draw.interval(), draw.interval()
            for r in (plus(a, b), minus(a, b), negate(a), times(a, b), divided(a, b), hull(a, b), meet(a, b), max_const(a, b)):
                digest = mixed(mixed(digest, r[0]), r[1])
            digest = mixed(digest, width(a))
        digests.append(digest)
    return digests


def ratio_digests():
    draw, digests = Draw(2), []
    for _ in range(10):
        digest = 0
        for _ in range(100):
            num = (draw.number() << 64) + draw.next() >> (draw.next() >> 57)
            den = (draw.number() << 64) + draw.next() >> (draw.next() >> 57)
            if den > 0:
                r = from_ratio(num, den)
                digest = mixed(mixed(digest, r[0]), r[1])
        digests.append(digest)
    return digests


# an eighth of a turn in units, times 2^64
EIGHTH_PARTS = floor(PI / 4 * (1 << 112))


def angle_of(draw):
    """Ends of the range, ties between quarter turns, and widths of 0, 1, a million and 2^40 units."""
    kind = draw.next() >> 61
    value = draw.number()
    if kind < 2:
        start = ((2 * (value >> 50) + 1) * EIGHTH_PARTS >> 64) + (signed(draw.next()) >> 61)
    else:
        start = value
    wide = [0, 1, 1000000, 1 << 40][draw.next() >> 62]
    start = max(start, FIRST)
    return min(start, LAST - wide), min(start, LAST - wide) + wide


def angle_digests():
    draw, digests = Draw(3), []
    for _ in range(30):
        digest = 0
        for _ in range(100):
            for r in checked_sincos(angle_of(draw)):
                digest = mixed(mixed(digest, r[0]), r[1])
        digests.append(digest)
    return digests


# ---- a formula by each method of an enclosure
def whole_cube_root(n):
    low, high = 0, 1 << (n.bit_length() // 3 + 1)
    while low + 1 < high:
        middle = (low + high) // 2
        low, high = (middle, high) if middle**3 <= n else (low, middle)
    return low


def sqrt(v):
    """Every r with |r^2 - x| <= 2^-60 for a held x lies between these."""
    return isqrt(max(v[0] * ONE - (1 << 36), 0)), isqrt(v[1] * ONE + (1 << 36)) + 1


def cbrt2(v):
    lo = v[0] * v[0] * ONE - (1 << 84) if v[0] > 0 else 0
    return whole_cube_root(max(lo, 0)), whole_cube_root(v[1] * v[1] * ONE + (1 << 84)) + 1


def each_method(x, y):
    pi = (floor(PI * ONE), floor(PI * ONE) + 1)
    line = hull(x, y)
    sines, cosines = checked_sincos(line)
    return [x, pi, line, plus(line, x), minus(line, pi), times(line, pi), divided(pi, line), negate(line), max_const(line, y), sines, cosines, sqrt(line), cbrt2(line)]


def rows(name, doc, kind, values):
    body = "".join(f"    {v},\n" for v in values)
    return f"\n/// {doc}\npub const {name}: [{kind}; {len(values)}] = [\n{body}];\n"


def pair(v):
    return f"({v[0]}, {v[1]})"


def angle_rows():
    out = []
    for lo, hi in ANGLES:
        least_sine, most_sine, least_cosine, most_cosine = true_range(lo, hi)
        checked_sincos((lo, hi))
        out.append(f"({lo}, {hi}, {floor(least_sine)}, {ceil(most_sine)}, {floor(least_cosine)}, {ceil(most_cosine)})")
    return out


def near(turns):
    """The whole units below so many quarter turns."""
    return floor(turns * PI / 2 * ONE)


ANGLES = (
    [(x, x) for x in (0, 1, -1, ONE, -ONE, ONE // 2, -5 * ONE, 100 * ONE, FIRST, LAST)]
    + [(near(F(k, 2)) + d, near(F(k, 2)) + d) for k in (1, -1, 3, 5, 41719, -41719) for d in (0, 1)]
    + [(near(F(k)) - 1, near(F(k)) + 2) for k in (-3, -2, -1, 0, 1, 2, 3, 20860)]
    + [(-ONE, ONE), (0, near(F(4))), (near(F(1)), near(F(3))), (FIRST, LAST), (0, LAST), (LAST - 1000000, LAST), (ONE, ONE + (1 << 40))]
)


def main():
    x, y = (ONE // 2, ONE // 2 + 3), (3 * ONE, 3 * ONE + 1)
    text = "//! Expected values, made by tools/numbers/expected.py.\n"
    text += rows("OPERANDS", "What 100 pairs of operands each must give, as one number.", "u64", operand_digests())
    text += rows("RATIOS", "What 100 ratios each must give, as one number.", "u64", ratio_digests())
    text += rows("ANGLES", "What 100 intervals of angles each must give, as one number.", "u64", angle_digests())
    text += f"\n/// An eighth of a turn in units of 2^-48, times 2^64.\npub const EIGHTH_PARTS: i128 = {EIGHTH_PARTS};\n"
    text += rows("LIMITS", "Ends at every limit, and about 0 and 1.", "i64", LIMITS)
    text += rows("PAIRS", "Two ends of an interval of angles, in units of 2^-48. Then the least and the greatest sine and cosine of\n/// its numbers, rounded outward to units.", "(i64, i64, i64, i64, i64, i64)", angle_rows())
    text += rows("METHODS", "The ends that each method of an enclosure must give.", "(i64, i64)", [pair(v) for v in each_method(x, y)])
    with open("crates/rows_numbers/src/expected.rt", "w") as file:
        file.write(text)


main()
