#!/usr/bin/env python3
"""Compares the sums of sine and cosine, as specs/AngleSums.antt of sgp4_model states them, with the textbook.

The two definitions are read from the text of the file, so that a slip there cannot be hidden by a copy. At 1,000
angles of a fixed seed, within an eighth of a turn of 0, each sum is compared with mpmath's value to 60 digits. The
greatest differences are those of the terms that the sums leave out: y^21/21! and y^20/20!.

Run: python3 tools/angles/compare_sums.py   (needs mpmath)
"""
import random
import re
from fractions import Fraction
from math import factorial
from pathlib import Path

import mpmath

SEED = 20261201
mpmath.mp.dps = 60
text = (Path(__file__).parents[2] / "crates/sgp4_model/specs/AngleSums.antt").read_text()


def powers_of(name):
    """The powers of a sum's terms, with their signs."""
    body = re.search(rf"^{name} y =\n((?:    .*\n?)+)", text, re.M)[1]
    body = body.replace("+ℚ", "+").replace("-ℚ", "-")
    parts = re.findall(r"([+-]?)\s*term y (\d+)", body)
    assert re.sub(r"[+-]?\s*term y \d+", "", body).strip() == "", "more than terms"
    return [(-1 if sign == "-" else 1, int(power)) for sign, power in parts]


def sum_at(powers, y):
    return sum(sign * y**power / factorial(power) for sign, power in powers)


def exact(x):
    return mpmath.mpf(x.numerator) / mpmath.mpf(x.denominator)


sine, cosine = powers_of("sine_sum"), powers_of("cosine_sum")
assert len(sine) == len(cosine) == 10
rng = random.Random(SEED)
worst = [mpmath.mpf(0), mpmath.mpf(0)]
for _ in range(1000):
    y = Fraction(rng.randint(-785398163397448309, 785398163397448309), 10**18)
    for k, (powers, textbook) in enumerate(((sine, mpmath.sin), (cosine, mpmath.cos))):
        worst[k] = max(worst[k], abs(exact(sum_at(powers, y)) - textbook(exact(y))))
print(f"seed {SEED}, 1,000 angles: sine within {mpmath.nstr(worst[0], 3)}, cosine within {mpmath.nstr(worst[1], 3)}")
assert worst[0] < mpmath.mpf(2) ** -66 and worst[1] < mpmath.mpf(2) ** -66
