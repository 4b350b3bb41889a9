"""The guards, branches and tolerances of the orbit's definitions at their ends."""
from fractions import Fraction

from spec_text import Evaluator, Failed, Quantities

SMALL, PART = Fraction(1, 10**30), Fraction(1, 2**60)
RADIUS_KM = Fraction(6378135, 1000)
# what the simple form sets to 0, by record, its field of the simple form and its field of the full one
SIMPLE = [("IsPeriodicEccentricityDragCoefficient", "c5_is_simple", "c5_is"), ("IsRemainingCoefficients", "omgcof_is_simple", "omgcof_is"),
          ("IsRemainingCoefficients", "xmcof_is_simple", "xmcof_is"), ("IsHigherDragTerms", "simple", "full")]


class Edges:
    def __init__(self, specs, limit):
        self.specs, self.maker = specs, Evaluator(specs, limit)

    def all(self):
        for part in (self.mean_guards, self.position_guards, self.circles, self.raised,
                     self.simple, self.sinking, self.kepler, self.roots, self.epoch):
            part()

    @staticmethod
    def wanted(found, outcome, what):
        if found != outcome:
            raise Failed(what)

    def tried(self, name, args):
        try:
            self.maker.named_fact(name, args)
            return True
        except Failed:
            return False

    def only(self, record, field, local, outcome, what):
        self.wanted(self.maker.only(record, field, local), outcome, f"{record}.{field}: {what}")

    def filled(self, kind, other, values):
        """A record of quantities with these values, and another one in all other fields."""
        held = self.specs.unknown(kind)
        held.fields = {key: other if inner is None else inner for key, inner in held.fields.items()}
        held.fields.update(values)
        return held

    def at(self, record, field, names, kind, values, outcome, other):
        """A field of a record at some values, while all other quantities have a value at which it would answer otherwise."""
        self.only(record, field, {name: self.filled(kind, other, values) for name in names}, outcome, str(values))

    def mean_guards(self):
        """The eccentricity before it is raised: at least -0.001, below 1. The semimajor axis: at least 1."""
        for ecc, outcome in [(Fraction(-1, 1000), True), (Fraction(-1, 1000) - SMALL, False), (1 - SMALL, True), (Fraction(1), False)]:
            self.wanted(self.tried("IsEccentricityGuarded", [ecc]), outcome, "guard on the eccentricity")
            self.at("IsMean", "guarded", ["secular"], "SecularRecord", {"ecc": ecc}, outcome, Fraction(2) if outcome else Fraction(0))
        self.at("IsMean", "axis_guarded", ["m"], "MeanRecord", {"am": Fraction(1)}, True, Fraction(-9))
        self.at("IsMean", "axis_guarded", ["m"], "MeanRecord", {"am": 1 - SMALL}, False, Fraction(9))

    def position_guards(self):
        """The corrected eccentricity: below 1. The semilatus rectum: above 0. The distance: at least 1.02."""
        for sign in (1, -1):
            for turn in (1, -1):
                edge = {"ax": sign * Fraction(3, 4), "ay": turn * Fraction(1, 4)}
                self.at("IsLongPeriod", "guarded", ["q"], "PeriodicRecord", edge, False, Fraction(0))
                inside = dict(edge, ay=edge["ay"] * (1 - SMALL))
                self.at("IsLongPeriod", "guarded", ["q"], "PeriodicRecord", inside, True, Fraction(9))
        ends = [("pl", "IsShortPeriodPreliminaries", SMALL), ("mrt", "IsPosition", Fraction(102, 100))]
        for name, record, value in ends:
            self.at(record, "guarded", ["q", "periodic"], "PeriodicRecord", {name: value}, True, Fraction(-9))
            self.at(record, "guarded", ["q", "periodic"], "PeriodicRecord", {name: value - SMALL}, False, Fraction(9))

    def circles(self):
        """Terms that are divided by the eccentricity are there above 0.0001, where something is divided that is not 0."""
        around = dict(e=Fraction(1, 10**4), c3=Fraction(9), xmcof=Fraction(9), eta=Fraction(0), rp=Fraction(9))
        held = {name: Quantities(None, around) for name in "zmdgrf"}
        for record, first, second in [("IsPerigeeDragCoefficient", "c3_is", "c3_is_else"), ("IsRemainingCoefficients", "xmcof_is", "xmcof_is_else")]:
            self.only(record, first, held, True, "at the limit")
            self.only(record, second, held, False, "at the limit")
        self.only("IsRemainingCoefficients", "e_eta_divides", held, True, "at the limit")
        around.update(e=Fraction(1, 10**4) + SMALL)
        self.only("IsRemainingCoefficients", "e_eta_divides", held, False, "above the limit")
        around.update(e=Fraction(0), eta=Fraction(1))
        self.only("IsRemainingCoefficients", "e_eta_divides", held, True, "on a circle")

    def raised(self):
        """The eccentricity is raised below 0.000001."""
        least = Fraction(1, 10**6)
        for ecc, kept in [(least, True), (least - SMALL, False)]:
            held = {"s": Quantities(None, {"ecc": ecc}), "m": Quantities(None, {"em": Fraction(9)})}
            self.only("IsMeanOf", "em_is", held, not kept, f"at {ecc}")
            self.only("IsMeanOf", "em_is_else", held, kept, f"at {ecc}")
            held["m"].fields["em"] = ecc if kept else least
            self.only("IsMeanOf", "em_is", held, True, f"raised at {ecc}")
            self.only("IsMeanOf", "em_is_else", held, True, f"raised at {ecc}")

    def simple(self):
        """Nine constants are 0 where the perigee is under 220 km. Neither form asks anything of the other's sets."""
        kinds = dict(z="EpochRecord", m="MotionRecord", d="DensityRecord", g="DragRecord", r="RatesRecord", f="CoefficientRecord",
                     h="HigherDragRecord")
        for perigee, is_simple in [(Fraction(220), False), (220 - SMALL, True), (Fraction(300), False), (Fraction(156), True)]:
            radius = 1 + perigee / RADIUS_KM
            held = {name: self.filled(kind, Fraction(9), {"rp": radius} if name == "m" else {}) for name, kind in kinds.items()}
            for record, simple, full in SIMPLE:
                self.only(record, simple, held, not is_simple, f"at {perigee} km")
                self.only(record, full, held, is_simple, f"at {perigee} km")
            self.only("IsRemainingCoefficients", "e_eta_divides", dict(held, d=self.filled("DensityRecord", Fraction(0), {})), is_simple, "e eta")
            for name, outcome in [("IsSimpleMotion", is_simple), ("IsFullMotion", not is_simple)]:
                self.wanted(self.tried(name, [held["m"]]), outcome, f"{name} at {perigee} km")
            kept = self.filled("ConstRecord", Fraction(9), {"e": Fraction(1, 4), "a": radius * Fraction(4, 3)})
            self.wanted(self.tried("IsSimple", [kept]), is_simple, f"IsSimple at {perigee} km")
        none = self.filled("HigherDragRecord", Fraction(0), {"w": Fraction(9)})
        low = {"m": self.filled("MotionRecord", Fraction(9), {"rp": Fraction(1)}), "d": None, "g": None, "h": none}
        self.only("IsHigherDragTerms", "simple", low, True, "all 0 but w")
        for name in none.fields:
            if name != "w":
                lone = self.filled("HigherDragRecord", Fraction(0), {name: Fraction(1)})
                self.only("IsHigherDragTerms", "simple", dict(low, h=lone), False, f"{name} is not 0")

    def sinking(self):
        """Sinks: the eccentricity is below -0.0009 or the axis below 1.001; or the distance below 1.021."""
        ecc, axis, distance = Fraction(-9, 10**4), Fraction(1001, 1000), Fraction(1021, 1000)
        ends = [(ecc, axis, False), (ecc - SMALL, axis, True), (ecc, axis - SMALL, True), (ecc - SMALL, axis - SMALL, True)]
        for first, second, outcome in ends:
            held = {"secular": self.filled("SecularRecord", 9 if outcome else Fraction(-9), {"ecc": first}),
                    "mean": self.filled("MeanRecord", Fraction(9) if outcome else Fraction(-9), {"am": second})}
            self.only("IsSinkingMean", "sinks", held, outcome, f"at {first}, {second}")
        for value, outcome in [(distance, False), (distance - SMALL, True)]:
            self.at("IsSinkingPosition", "sinks", ["periodic"], "PeriodicRecord", {"mrt": value}, outcome, Fraction(9) if outcome else Fraction(-9))

    def kepler(self):
        """Kepler's equation, up to 2^-60."""
        rest = Quantities("Pair", {"sine": Fraction(0), "cosine": Fraction(0)})
        for angle, outcome in [(PART, True), (-PART, True), (PART + SMALL, False), (-PART - SMALL, False)]:
            local = dict(u=Fraction(5), ax=Fraction(3), ay=Fraction(4), angle=5 + angle, turn=rest)
            self.only("SolvesKepler", "residual", local, outcome, "Kepler's tolerance")

    def roots(self):
        """Roots, up to 2^-60."""
        one, two, third = Fraction(1), Fraction(2), PART / 3
        near, far = 1 - Fraction(1, 10**6), 1 + Fraction(1, 10**6)
        for x, r, outcome in [(4 + PART, two, True), (4 - PART, two, True), (4 + PART + SMALL, two, False), (4 - PART - SMALL, two, False),
                              (Fraction(0), Fraction(0), True), (4 * one, -two, False), (-PART, Fraction(0), False)]:
            self.wanted(self.within("IsSqrt", [x, r]), outcome, f"root {r} of {x}")
        for x, r, outcome in [(8 * one, 4 * one, True), (one, 1 + third * near, True), (one, 1 - third * near, True), (one, 1 + third * far, False),
                              (one, 1 - third * far, False), (Fraction(0), PART, False), (PART, Fraction(0), False), (-8 * one, 4 * one, False)]:
            self.wanted(self.within("IsCbrt2", [x, r]), outcome, f"power {r} of {x}")

    def within(self, name, args):
        """Whether a record of facts holds of given values, as its fields say it."""
        try:
            self.maker.facts(name, args)
            return True
        except Failed:
            return False

    def epoch(self):
        """Sine before cosine, and the minutes from an epoch."""
        self.wanted([name for name, _ in self.specs.records["IsSinCos"]["params"]], ["pi", "x", "s", "c"], "sine before cosine")
        held = self.filled("SetRecord", None, {"epoch": Fraction(3 * 10**9)})
        self.wanted(self.maker.defined("minutes_since_epoch", [held, Fraction(123)], None), 2, "minutes from the epoch")
