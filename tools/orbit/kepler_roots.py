#!/usr/bin/env python3
"""Writes crates/rows_kepler/src/expected.rt: how far roots of Kepler's equation lie from u, for cases that are drawn alike
here and by the test, to 40 digits. Run it at the top of the repository: python3 tools/orbit/kepler_roots.py
"""
import mpmath as mp

mp.mp.dps = 40
ONE = 1 << 48
CASES = 334
# sizes of ax and ay together, in units of 2^-48: 0.001, 0.02, 0.2, 0.31, 0.6, 0.9
SIZES = [ONE // 1000, ONE // 50, ONE // 5, ONE * 31 // 100, ONE * 3 // 5, ONE * 9 // 10]
# bits of u in units: up to 4, 1,024 and 16,384 radians
BITS = [50, 58, 62]


def drawn():
    state = 1
    while True:
        state = (state * 6364136223846793005 + 1442695040888963407) % 2**64
        yield state


def cases():
    draw = drawn()
    for i in range(CASES):
        u = (next(draw) >> (64 - BITS[i // 6 % 3])) * (-1) ** (next(draw) >> 63)
        size = SIZES[i % 6]
        ax = size // 65536 * (next(draw) >> 48)
        ay = size - ax
        yield u, ax * (-1) ** (next(draw) >> 63), ay * (-1) ** (next(draw) >> 63)


def root(u, ax, ay):
    """By halving, since what is left of the equation rises with the angle."""
    low, high = u - 1, u + 1
    for _ in range(115):
        middle = (low + high) / 2
        if middle + ay * mp.cos(middle) - ax * mp.sin(middle) - u > 0:
            high = middle
        else:
            low = middle
    return low


def main():
    lines = []
    for u, ax, ay in cases():
        angle = root(mp.mpf(u) / ONE, mp.mpf(ax) / ONE, mp.mpf(ay) / ONE)
        lines.append(f"    {int(mp.floor(angle * ONE)) - u},")
    sizes = "".join(f"    {size},\n" for size in SIZES)
    text = f"""//! Expected values, made by tools/orbit/kepler_roots.py.

/// Sizes of ax and ay together, in units of 2^-48.
pub const SIZES: [i64; {len(SIZES)}] = [
{sizes}];

/// How many whole units the root of each case lies above u.
pub const ROOTS: [i64; {CASES}] = [
""" + "\n".join(lines) + "\n];\n"
    with open("crates/rows_kepler/src/expected.rt", "w") as file:
        file.write(text)


main()
