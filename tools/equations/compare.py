"""Compares the definitions of the orbit equations, read from crates/sgp4_model/specs as they stand, with a separate SGP4.

    python3 tools/equations/compare.py             200 element sets of seed 20260, each quantity to a relative 1e-30
    python3 tools/equations/compare.py --mutate    each digit, sign, operator and name changed in turn: what is not noticed

Needs mpmath. It ends with status 1 at the first difference. It proves nothing and stands outside the checks of the crates.
"""
import random
import sys
from fractions import Fraction
from functools import lru_cache
from pathlib import Path

import mpmath as mp

import mutants
import reference
from edges import Edges
from spec_text import Evaluator, Failed, Quantities, Specs, Unheld, real, texts_below

mp.mp.dps = 60
SEED, COUNT, LIMIT = 20260, 200, mp.mpf(10) ** -30
TINY = mp.mpf(10) ** -40
SPECS = Path(__file__).resolve().parents[2] / "crates" / "sgp4_model" / "specs"
ROOTS = ["Constants", "MeanElements", "Position", "EpochTime", "Simple", "Sinking"]
MUTATED = ["Root", "Wgs72", "Degrees", "MeanMotion", "EpochAngles", "Density", "Drag", "Rates", "Coefficients", "HigherDrag", "Constants",
           "MeanElements", "Kepler", "Position", "EpochTime", "Simple", "Sinking"]
# names of facts that stand for each other in changed texts
NAMES = [("IsSimpleMotion", "IsFullMotion"), ("IsFullHigherDrag", "IsNoHigherDrag"), ("near_circle", "least_ecc", "least_distance")]
# the guards of the definitions, by the reference's names
GUARDS = {"IsLongPeriod.guarded": "eccentricity", "IsShortPeriodPreliminaries.guarded": "semilatus rectum", "IsPosition.guarded": "distance"}
ELEMENTS = ["motion", "ecc", "incl", "node", "argp", "anomaly", "bstar"]


def decimal(value, places):
    return Fraction(round(value * 10**places), 10**places)


def element_set(rng, number):
    """An element set of a near-Earth satellite, of the simple form or the full one. Some stand on the edges of the branches, some
    below the density's base."""
    low = number % 20 == 7
    perigee = rng.uniform(20, 76) if low else rng.choice([rng.uniform(160, 280), rng.uniform(220, 600), rng.uniform(300, 3500)])
    ecc = [rng.uniform(0, 0.2), rng.uniform(0, 0.003), 0.0, 0.0001, 0.0001001, 0.0000999][rng.choice([0, 0, 0, 1, 1, 2, 3, 4, 5])]
    ecc = rng.uniform(0.02, 0.2) if low else ecc
    axis = (1 + perigee / 6378.135) / (1 - ecc)
    motion = 0.0743669161 / axis**1.5 * 1440 / (2 * 3.141592653589793)
    bstar = rng.choice([0.0, rng.uniform(-1e-3, 1e-3), rng.uniform(0, 1e-3), rng.uniform(0, 1e-4)])
    incl = rng.choice([rng.uniform(0, 175), rng.uniform(0, 175), 0.0, 63.4349, 90.0, 175.0])
    angles = [rng.uniform(0, 360) for _ in range(3)]
    values = [decimal(motion, 8), decimal(ecc, 7), decimal(incl, 4)] + [decimal(x, 4) for x in angles] + [decimal(bstar, 9)]
    return dict(zip(ELEMENTS, values), epoch=Fraction(rng.randrange(-(10**18), 10**18)))


def times(rng):
    return [Fraction(0)] + [decimal(rng.uniform(-10080, 10080), 6) for _ in range(3)]


def mean_elements(rng):
    """Mean elements of no set in particular, on both sides of the guards."""
    ecc = rng.choice([rng.uniform(0, 0.999), rng.uniform(0, 0.3)])
    axis = rng.uniform(1, 1.3) / (1 - ecc) if rng.random() < 0.6 else rng.uniform(0.5, 2)
    return dict(am=decimal(axis, 8), em=decimal(ecc, 8), ml=decimal(rng.uniform(-50, 50), 8), wm=decimal(rng.uniform(-9, 9), 8),
                om=decimal(rng.uniform(-9, 9), 8))


def flat(prefix, value):
    if isinstance(value, Quantities):
        value = value.fields
    if isinstance(value, dict):
        return {name: inner for field, part in value.items() for name, inner in flat(f"{prefix}.{field}", part).items()}
    return {prefix: value}


def answer(maker, name, args):
    """None where a record of facts holds, else the field at which a comparison fails."""
    try:
        maker.facts(name, args)
        return None
    except Unheld as fault:
        return str(fault).split(": ")[-2]


def holds(maker, name, args):
    """Whether a fact holds, by its name."""
    try:
        maker.named_fact(name, args)
        return True
    except Failed:
        return False


@lru_cache(maxsize=None)
def satellite_of(numbers):
    satellite = reference.Satellite(*(real(number) for number in numbers))
    satellite.at, satellite.position = lru_cache(maxsize=None)(satellite.at), lru_cache(maxsize=None)(satellite.position)
    return satellite


class Comparison:
    def __init__(self, texts):
        self.specs = Specs(texts)
        self.worst, self.fields, self.outcomes = mp.mpf(0), set(), {}

    def same(self, what, ours, theirs):
        ours, theirs = flat(what, ours), flat(what, theirs)
        if set(ours) != set(theirs):
            raise Failed(f"fields differ: {set(ours) ^ set(theirs)}")
        for name, value in ours.items():
            if value is None and theirs[name] is None:
                continue
            if value is None or theirs[name] is None:
                raise Failed(f"{name} has no value")
            a, b = real(value), real(theirs[name])
            size = max(abs(a), abs(b))
            difference = mp.mpf(0) if size < TINY else abs(a - b) / size
            if difference > LIMIT:
                raise Failed(f"{name}: {mp.nstr(a, 15)} by the definitions, {mp.nstr(b, 15)} by the reference")
            self.worst = max(self.worst, difference)
            self.fields.add(name)

    def count(self, outcome):
        self.outcomes[outcome] = self.outcomes.get(outcome, 0) + 1

    def constants(self, values):
        maker = Evaluator(self.specs, LIMIT)
        element = Quantities("SetRecord", dict(values))
        kept = self.specs.unknown("ConstRecord")
        maker.facts("IsConsts", [element, mp.mpf(mp.pi), kept])
        satellite = satellite_of(tuple(values[name] for name in ELEMENTS))
        self.same("quantities", maker.fresh["quantities"], satellite.constants())
        self.same("constants", kept, satellite.kept())
        motion = maker.fresh["quantities"].fields["motion"]
        self.same("period", maker.defined("period_of", [mp.mpf(mp.pi), motion], None), satellite.period_minutes())
        self.same("perigee", maker.defined("perigee_of", [motion], None), satellite.perigee_km())
        self.same("perigee", maker.defined("perigee_km", [kept], None), satellite.perigee_km())
        simple = satellite.isimp
        for name, about, outcome in [("IsSimpleMotion", motion, simple), ("IsFullMotion", motion, not simple), ("IsSimple", kept, simple)]:
            if holds(maker, name, [about]) != outcome:
                raise Failed(name)
        self.count("sets of the simple form" if simple else "sets of the full form")
        return kept, satellite

    def at_time(self, kept, satellite, minutes):
        maker = Evaluator(self.specs, LIMIT)
        mean = self.specs.unknown("MeanRecord")
        secular, their_mean, periodic, vector = satellite.at(real(minutes))
        guards = satellite.guards(secular, their_mean)
        found = answer(maker, "IsMean", [kept, mp.mpf(mp.pi), minutes, mean])
        self.same("secular", maker.fresh["secular"], secular)
        self.same("mean", mean, their_mean)
        local = {"secular": maker.fresh["secular"], "m": mean}
        for field, guard in [("guarded", "ecc"), ("axis_guarded", "axis")]:
            if maker.only("IsMean", field, local) != guards[guard]:
                raise Failed(f"IsMean.{field}")
        if (found is None) != all(guards.values()):
            raise Failed(f"the mean elements: {found}")
        for guard in guards:
            if not guards[guard]:
                self.count(f"mean elements refused by their {guard}")
        if found is None:
            self.count("mean elements raised" if secular["ecc"] < mp.mpf(10) ** -6 else "mean elements")
            self.place(kept, mean, periodic, vector)

    def place(self, kept, mean, periodic, vector):
        maker = Evaluator(self.specs, LIMIT)
        ours, root = self.specs.unknown("Vector"), Quantities("Root", {"root": None})
        found = answer(maker, "IsPosition", [kept, mean, mp.mpf(mp.pi), (root, "root"), ours])
        if found is not None:
            if GUARDS.get(found) != periodic:
                raise Failed(f"{found} fails, and by the reference {periodic if vector is None else 'nothing'}")
            self.count(f"positions refused by their {periodic}")
            return
        if vector is None:
            raise Failed(f"the reference refuses the position by its {periodic}")
        self.same("periodic", maker.fresh["periodic"], periodic)
        self.same("position", ours, vector)
        self.count("positions")

    def synthetic(self, kept, satellite, values):
        numbers = [real(values[name]) for name in ("am", "em", "ml", "wm", "om")]
        self.place(kept, Quantities("MeanRecord", dict(values)), *satellite.position(*numbers))


def run(texts, sets, rng, per_set=3):
    comparison = Comparison(texts)
    Edges(comparison.specs, LIMIT).all()
    for values in sets:
        kept, satellite = comparison.constants(values)
        for minutes in times(rng):
            comparison.at_time(kept, satellite, minutes)
        for _ in range(per_set):
            comparison.synthetic(kept, satellite, mean_elements(rng))
    return comparison


def sample(sets):
    """A few sets that reach each branch: the first with much drag, the last two of the simple form, one below the density's base."""
    plain = [s for s in sets if s["incl"] not in (0, 90)]
    full = [s for s in plain if not satellite_of(tuple(s[name] for name in ELEMENTS)).isimp]
    drag = max((s for s in full if Fraction(1, 10) > s["ecc"] > Fraction(1, 100)), key=lambda s: s["motion"] * (s["bstar"] > Fraction(1, 10000)))
    wanted = [lambda s: s["ecc"] == 0 and s["bstar"] > 0, lambda s: s["ecc"] == Fraction(1, 10000) and s["bstar"],
              lambda s: Fraction(1, 10000) < s["ecc"] < Fraction(2, 10000) and s["bstar"]]
    simple = next(s for s in plain if s not in full and s["ecc"] > Fraction(1, 100) and s["bstar"] > Fraction(1, 10000))
    return [drag] + [next(s for s in full if test(s)) for test in wanted] + [simple, sets[7]]


def is_noticed(texts, few):
    try:
        run(texts, few, random.Random(1), 10)
        return False
    except (Failed, SyntaxError, ArithmeticError, ValueError, TypeError, AttributeError, KeyError, IndexError):
        return True


def main():
    texts = texts_below(SPECS, ROOTS)
    rng = random.Random(SEED)
    sets = [element_set(rng, number) for number in range(COUNT)]
    try:
        result = run(texts, sets, rng)
    except Failed as fault:
        print(f"they differ: {fault}")
        return 1
    print(f"{COUNT} element sets of seed {SEED}: {len(result.fields)} quantities agree, worst relative difference {mp.nstr(result.worst, 3)}")
    for outcome, found in sorted(result.outcomes.items()):
        print(f"  {found:5} {outcome}")
    if "--mutate" in sys.argv:
        few = sample(sets)
        mutants.judge(mutants.mutants(texts, MUTATED, NAMES, ("IsPairOfDegrees",)), lambda changed: is_noticed(changed, few))
    return 0


if __name__ == "__main__":
    sys.exit(main())
