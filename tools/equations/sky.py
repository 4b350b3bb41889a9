"""Compares the definitions of the sky, read from crates/sgp4_model/specs as they stand, with a separate computation.

    python3 tools/equations/sky.py             200 cases of seed 1982, each quantity to a relative 1e-25
    python3 tools/equations/sky.py --mutate    each digit, sign, operator and name changed in turn: what is not noticed

A case is a station, an instant from 1957 to 2057, an offset of UT1 and a position. Compared are sidereal time, the Sun, the place on
the ellipsoid, the local axes, range and direction, the numbers of the shadow and of daylight. There sine and cosine count as exact
ones; pairs as they are defined (sums, tolerance, quarter turns) are tried by themselves. Needs mpmath. It ends with status 1 at the
first difference. It proves nothing and stands outside the checks of the crates.
"""
import random
import sys
from fractions import Fraction
from pathlib import Path

import mpmath as mp

import mutants
import sky_reference as reference
from spec_text import Evaluator, Failed, Quantities, Specs, real, texts_below

mp.mp.dps = 60
SEED, COUNT, LIMIT = 1982, 200, mp.mpf(10) ** -25
SMALL, TINY = Fraction(1, 10**40), mp.mpf(10) ** -40
SPECS = Path(__file__).resolve().parents[2] / "crates" / "sgp4_model" / "specs"
ROOTS = ["Sidereal", "Sun", "StationPlace", "Wgs84", "LocalAxes", "Sight", "Light", "DaySolution"]
MUTATED = ROOTS + ["Vector", "Degrees", "Angle", "AngleSums"]
# names that stand for each other in changed texts; and lines that are not evaluated: the track of daylight speaks of every solution
NAMES = [("lat", "lon"), ("of_latitude", "of_longitude"), ("a", "b"), ("r", "sun"), ("x", "y", "z"), ("p", "g"), ("at", "dut1"),
         ("anomaly", "twice_anomaly", "longitude", "tilt"), ("sine", "sine_of_twice"), ("equator_km", "earth_radius_km"),
         ("sun_mean_longitude", "sun_mean_anomaly", "obliquity"), ("v", "turn"), ("toward", "place"), ("given", "sharp")]
# quarter turns, and how many eighths of a turn lie beyond them
TURNS = [(0, "0.3"), (1, "-0.7"), (2, "1"), (3, "-1"), (-1, "0.9"), (-2, "0"), (-3, "-0.5"), (-4, "0.8"), (-6, "-0.2"), (11, "-0.99"), (1998, "1")]
UNREAD = ("EachDaySolution", "day_track", "ticks", "yes", "no", "grazes", "sinks")


def decimal(value, places):
    return Fraction(round(value * 10**places), 10**places)


def case(rng, number):
    """Poles, the equator and the ends of the ranges are among the stations; some positions are near them."""
    lat = [Fraction(90), Fraction(-90), Fraction(0)][number // 20 % 3] if number % 20 == 3 else decimal(rng.uniform(-90, 90), 6)
    lon = Fraction(rng.choice([-180, 0, 90, 360])) if number % 20 == 5 else decimal(rng.uniform(-180, 360), 6)
    height = Fraction(rng.choice([-500, 0, 9000])) if number % 20 == 9 else decimal(rng.uniform(-500, 9000), 3)
    at, dut1 = Fraction(rng.randrange(-1_356_998_400 * 10**9, 1_798_761_600 * 10**9), 10**9), rng.randint(-900, 900)
    direction = reference.unit(mp.mpf(rng.uniform(0, 7)), mp.mpf(rng.uniform(-1.5, 1.5)))
    if number % 3 == 0:
        there = reference.around_pole(reference.place(real(lat), real(lon), real(height)), -reference.sidereal_turn(real(at), dut1))
        direction = [part + rng.uniform(-0.2, 0.2) for part in there]
    length = rng.uniform(1.02, 1.4) if number % 2 else rng.uniform(1.02, 6)
    position = [decimal(length * part / mp.norm(direction), 12) for part in direction]
    return dict(lat=lat, lon=lon, height=height, at=at, dut1=Fraction(dut1), position=position)


def vector(parts):
    return Quantities("Vector", dict(zip("xyz", parts)))


def pair(angle):
    return dict(sine=mp.sin(angle), cosine=mp.cos(angle))


class Comparison:
    def __init__(self, texts):
        self.specs = Specs(texts)
        self.worst, self.outcomes = mp.mpf(0), {}

    def same(self, what, ours, theirs):
        ours = ours.fields if isinstance(ours, Quantities) else {"": ours}
        theirs = theirs if isinstance(theirs, dict) else {"": theirs}
        if set(ours) != set(theirs):
            raise Failed(f"{what}: fields differ: {set(ours) ^ set(theirs)}")
        for name, value in ours.items():
            if value is None:
                raise Failed(f"{what} {name} has no value")
            a, b = real(value), real(theirs[name])
            size = max(abs(a), abs(b))
            difference = mp.mpf(0) if size < TINY else abs(a - b) / size
            if difference > LIMIT:
                raise Failed(f"{what} {name}: {mp.nstr(a, 15)} by the definitions, {mp.nstr(b, 15)} by the reference")
            self.worst = max(self.worst, difference)

    def is_said(self, maker, name, args, outcome):
        """Whether a fact holds, by its name, where it is to hold."""
        try:
            maker.named_fact(name, args)
            found = True
        except Failed:
            found = False
        if found != outcome:
            raise Failed(f"{name} of {[mp.nstr(real(x), 15) if not isinstance(x, Quantities) else x.fields for x in args]}")
        if found:
            self.outcomes[name] = self.outcomes.get(name, 0) + 1

    def fresh(self, name):
        return Quantities(None, {name: None}), name

    def case(self, given):
        row = Quantities("StationRecord", dict(lat=given["lat"], lon=given["lon"], height=given["height"], sectors=None))
        numbers = [real(given[name]) for name in ("lat", "lon", "height", "at", "dut1")]
        place = [real(part) for part in given["position"]]
        self.turning(given, *numbers[3:], place)
        self.station(row, given, numbers, place)
        self.light(given, numbers, place)

    def turning(self, given, at, dut1, position):
        maker, turn = Evaluator(self.specs, LIMIT), self.specs.unknown("Pair")
        ut1 = maker.defined("in_ut1", [given["dut1"], given["at"]], None)
        seconds = maker.defined("sidereal_seconds", [maker.defined("centuries", [ut1], None)], None)
        self.same("sidereal seconds", seconds, reference.sidereal_time(at, dut1))
        maker.named_fact("IsSiderealPair", [mp.mpf(mp.pi), given["at"], given["dut1"], turn])
        self.same("sidereal angle", turn, pair(reference.sidereal_turn(at, dut1)))
        fixed = maker.defined("earth_fixed", [turn, vector(given["position"])], None)
        self.same("Earth-fixed", fixed, dict(zip("xyz", reference.around_pole(position, reference.sidereal_turn(at, dut1)))))

    def station(self, row, given, numbers, position):
        maker, found, distance = Evaluator(self.specs, LIMIT), self.specs.unknown("SightRecord"), self.fresh("range")
        maker.facts("IsSight", [row, mp.mpf(mp.pi), given["at"], given["dut1"], vector(given["position"]), distance, found])
        lat, lon, height = numbers[:3]
        self.same("station", maker.fresh["place"], dict(zip("xyz", reference.place(lat, lon, height))))
        length, direction = reference.sight(*numbers, position)
        self.same("range", maker.known(distance), length)
        self.same("direction", found, direction)

    def light(self, given, numbers, position):
        maker, sun = Evaluator(self.specs, LIMIT), self.specs.unknown("Vector")
        lat, lon, _, at, dut1 = numbers
        maker.facts("IsSun", [mp.mpf(mp.pi), given["at"], sun])
        angles = reference.sun(at)
        for name, angle in [("anomaly", angles["anomaly"]), ("twice_anomaly", 2 * angles["anomaly"]), ("longitude", angles["longitude"]),
                            ("tilt", angles["tilt"])]:
            self.same(name, maker.fresh[name], pair(mp.radians(angle)))
        self.same("Sun", sun, dict(zip("xyz", reference.sun_direction(at))))
        shade, shadow = maker.defined("shadow_of", [vector(given["position"]), sun], None), reference.shadow(position, reference.sun_direction(at))
        self.same("shadow", shade, shadow)
        lit = shadow["p"] > 0 or mp.sqrt(shadow["g"] + 1) > 1
        self.is_said(maker, "IsSunlit", [shade], lit)
        self.is_said(maker, "IsDark", [shade], not lit)
        product, sine = self.fresh("product"), reference.elevation_sine(lat, lon, at, dut1)
        maker.facts("IsDaySolution", [given["lat"], given["lon"], given["at"], given["dut1"], product])
        self.same("daylight", maker.known(product), sine)
        self.is_said(maker, "IsDaylight", [maker.known(product)], sine > 0)
        self.is_said(maker, "IsNight", [maker.known(product)], sine < 0)

    def edges(self):
        """Pi's bracket, signs at 0, what grazes, a range of 0."""
        maker, zero = Evaluator(self.specs, LIMIT), Fraction(0)
        least, unit = Fraction(int(mp.floor(mp.pi * mp.mpf(10) ** 36)), 10**36), Fraction(1, 10**36)
        for value, outcome in [(least, True), (least - SMALL, False), (least + unit, True), (least + unit + SMALL, False)]:
            self.is_said(maker, "IsPi", [value], outcome)
        for p in (-SMALL, zero, SMALL):
            for g in (-SMALL, zero, SMALL):
                held = Quantities("ShadowRecord", dict(p=p, g=g))
                self.is_said(maker, "IsSunlit", [held], p > 0 or g > 0)
                self.is_said(maker, "IsDark", [held], p < 0 and g < 0)
            self.is_said(maker, "IsDaylight", [p], p > 0)
            self.is_said(maker, "IsNight", [p], p < 0)
        self.grazing(maker)
        self.angles(maker)
        for toward, outcome in [(vector([zero] * 3), False), (vector([zero, zero, Fraction(1)]), True)]:
            args = [Quantities("Pair", pair(0)), Quantities("Pair", pair(0)), toward, self.fresh("range"), self.specs.unknown("SightRecord")]
            self.is_said(maker, "IsDirection", args, outcome)

    def angles(self, maker):
        """Pairs as they are defined: sums at the angle less its quarter turns, to a tolerance, turned back."""
        for sign in (1, -1):
            self.field(maker, "IsSinCos", "in_range", dict(pi=mp.mpf(mp.pi), x=sign * mp.pi / 4, quarters=Fraction(0)), True)
        for quarters, eighths in TURNS:
            y = reference.number(eighths) * (mp.pi / 4 - real(SMALL))
            sine = mp.fsum((-1) ** j * y ** (2 * j + 1) / mp.factorial(2 * j + 1) for j in range(10))
            cosine = mp.fsum((-1) ** j * y ** (2 * j) / mp.factorial(2 * j) for j in range(10))
            turned = mp.mpc(cosine, sine) * mp.mpc(0, 1) ** quarters
            held = dict(pi=mp.mpf(mp.pi), x=quarters * mp.pi / 2 + y, s=turned.imag, c=turned.real, quarters=Fraction(quarters))
            for far, outcome in [(0, True), (1, False)]:
                off = mp.mpf(2) ** -60 + (2 * far - 1) * real(SMALL)
                for sign in (1, -1):
                    inner = Quantities("Pair", dict(sine=sine + sign * off, cosine=cosine + sign * off))
                    for field in ("sine_near", "cosine_near"):
                        self.field(maker, "IsSinCos", field, dict(held, inner=inner), outcome)
            held["inner"] = Quantities("Pair", dict(sine=sine, cosine=cosine))
            for field in ("in_range", "sine_is", "cosine_is"):
                self.field(maker, "IsSinCos", field, held, True)
            self.field(maker, "IsSinCos", "sine_is", dict(held, s=turned.imag + 1), False)
            self.field(maker, "IsSinCos", "cosine_is", dict(held, c=turned.real + 1), False)
            for sign in (1, -1):
                past = quarters * mp.pi / 2 + sign * (mp.pi / 4 + real(SMALL))
                self.field(maker, "IsSinCos", "in_range", dict(held, x=past), False)

    @staticmethod
    def field(maker, record, field, held, outcome):
        if maker.only(record, field, held) != outcome:
            raise Failed(f"{record}.{field} of {[mp.nstr(real(x), 15) for x in held.values() if not isinstance(x, Quantities)]}")

    def grazing(self, maker):
        for record, field, bound in [("GrazesShadow", "given", Fraction(1, 1000)), ("GrazesShadow", "sharp", Fraction(1, 2**13)),
                                     ("GrazesHorizon", "given", Fraction(1, 1000)), ("GrazesHorizon", "sharp", Fraction(1, 2**23))]:
            for value, outcome in [(bound, True), (-bound, True), (bound + SMALL, False), (-bound - SMALL, False)]:
                held = {"v": Quantities("ShadowRecord", dict(p=Fraction(-9), g=value)), "product": value}
                self.field(maker, record, field, held, outcome)
        for name, of_bound in [("GrazesShadow", lambda g: Quantities("ShadowRecord", dict(p=Fraction(-9), g=g))), ("GrazesHorizon", lambda g: g)]:
            bound = Fraction(1, 2**13) if name == "GrazesShadow" else Fraction(1, 2**23)
            self.is_said(maker, name, [of_bound(bound)], True)
            self.is_said(maker, name, [of_bound(-bound - SMALL)], False)
        for depth, outcome in [(-SMALL, True), (Fraction(0), False), (SMALL, False)]:
            self.is_said(maker, "GrazesShadow", [Quantities("ShadowRecord", dict(p=depth, g=Fraction(0)))], outcome)


def run(texts, cases):
    comparison = Comparison(texts)
    comparison.case(cases[0])
    comparison.edges()
    for given in cases[1:]:
        comparison.case(given)
    return comparison


def is_noticed(texts, cases):
    try:
        run(texts, cases)
        return False
    except (Failed, SyntaxError, ArithmeticError, ValueError, TypeError, AttributeError, KeyError, IndexError):
        return True


def main():
    texts, rng = texts_below(SPECS, ROOTS), random.Random(SEED)
    cases = [case(rng, number) for number in range(COUNT)]
    try:
        result = run(texts, cases)
    except Failed as fault:
        print(f"they differ: {fault}")
        return 1
    print(f"{COUNT} cases of the sky of seed {SEED} agree, worst relative difference {mp.nstr(result.worst, 3)}")
    print("  " + ", ".join(f"{count} {name}" for name, count in sorted(result.outcomes.items())))
    if "--mutate" in sys.argv:
        mutants.judge(mutants.mutants(texts, MUTATED, NAMES, UNREAD), lambda changed: is_noticed(changed, cases[:40]))
    return 0


if __name__ == "__main__":
    sys.exit(main())
