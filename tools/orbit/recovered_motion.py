#!/usr/bin/env python3
"""Writes crates/rows_motion/src/expected.rt: what is recovered from element sets, and which sets are refused.

Both come from tools/equations/reference.py, which shares nothing with the program, to 50 digits; a number is given by the
whole numbers of units of 2^-48 next to it. Run it at the top of the repository: python3 tools/orbit/recovered_motion.py
"""
import sys

import mpmath as mp

sys.path.insert(0, "tools/equations")
from reference import Satellite  # noqa: E402

mp.mp.dps = 50
# motion (revolutions per day), eccentricity, inclination, B*
SETS = [
    ("10.82419157", "0.1859667", "34.2682", "0.000028098"),
    ("15.72125391", "0.0006703", "51.6416", "-0.000011606"),
    ("15.90000000", "0", "0", "0.001"),
    ("15", "0.001", "0", "0"),
    ("14.19552001", "0.0011476", "98.7", "0.000043"),
    ("11.25", "0.12", "63.4349", "-0.001"),
    ("6.5", "0.2", "175", "0"),
    ("6.4", "0.00000001", "89.99999999", "-0.000000001"),
]


def perigee(satellite):
    return (satellite.rp - 1) * satellite.re


def period(satellite):
    return 2 * mp.pi / satellite.no


def fate(motion, ecc, incl, bstar):
    """The name of the fault, or None."""
    if mp.mpf(ecc) > mp.mpf("0.2"):
        return "Eccentric"
    if mp.mpf(incl) > 175:
        return "Inclined"
    if abs(mp.mpf(bstar)) > mp.mpf("0.001"):
        return "Drag"
    if mp.mpf(motion) >= 17:
        return "Low"
    satellite = Satellite(motion, ecc, incl, "0", "0", "0", bstar)
    if period(satellite) >= 225:
        return "Deep"
    return "Low" if perigee(satellite) < 300 else None


def edge(low, high, ecc, incl, inside):
    """The motion, to eight places, up to which `inside` holds, from one where it holds to one where it does not."""
    low, high = int(mp.mpf(low) * 10**8), int(mp.mpf(high) * 10**8)
    while abs(high - low) > 1:
        mid = (low + high) // 2
        satellite = Satellite(mp.mpf(mid) / 10**8, ecc, incl, "0", "0", "0", "0")
        low, high = (mid, high) if inside(satellite) else (low, mid)
    return low


def eight(digits):
    return "%d.%08d" % divmod(digits, 10**8)


def refusals():
    rows = [
        ("10", "0.2000001", "34", "0"),
        ("10", "0.200000000000000001", "175.1", "0.1"),
        ("17", "0.9", "0", "0"),
        ("10", "0.2", "175.0001", "0"),
        ("3", "0.1", "180", "0.0011"),
        ("14", "0.0001", "98", "0.0010001"),
        ("14", "0.0001", "98", "-0.001000000000000001"),
        ("6", "0.1", "98", "-0.0010001"),
        ("17.00000000", "0.001", "0", "0"),
        ("17", "0.2", "0", "0.001"),
        ("1450", "0", "0", "0"),
        ("6.00000000", "0.001", "0", "0"),
        ("6.3", "0.1", "0", "0"),
        ("0.000000000000000001", "0", "0", "0"),
        ("15.5", "0.2", "30", "0"),
        ("16.5", "0", "30", "0"),
    ]
    for ecc, incl in (("0", "0"), ("0.02", "98"), ("0.1", "60"), ("0.2", "175")):
        if mp.mpf(ecc) < mp.mpf("0.15"):
            last = edge("9", "16.9", ecc, incl, lambda s: perigee(s) >= 300)
            rows += [(eight(last - 40), ecc, incl, "0"), (eight(last + 40), ecc, incl, "0")]
        last = edge("7", "6.3", ecc, incl, lambda s: period(s) < 225)
        rows += [(eight(last + 40), ecc, incl, "0"), (eight(last - 40), ecc, incl, "0")]
    for ecc, incl in (("0", "0"), ("0.1", "60")):
        last = edge("9", "16.9", ecc, incl, lambda s: perigee(s) >= 220)
        rows += [(eight(last - 40), ecc, incl, "0"), (eight(last), ecc, incl, "0"), (eight(last + 40), ecc, incl, "0")]
    return rows


def units(x):
    return "[%d, %d]" % (int(mp.floor(x * 2**48)), int(mp.ceil(x * 2**48)))


def text(word):
    return 'b"%s"' % word


def main():
    with open("crates/rows_motion/src/expected.rt", "w") as out:
        out.write("//! Expected values, made by tools/orbit/recovered_motion.py.\n\nuse sgp4_shape::SatFault;\n\n")
        out.write("/// The mean motion in revolutions per day, the eccentricity, the inclination in degrees and the drag term.\n")
        out.write("pub type Given = (&'static [u8], &'static [u8], &'static [u8], &'static [u8]);\n\n")
        out.write("/// What is given, and numbers of units of 2^-48 next to what is recovered; last the period over 16,384 minutes\n")
        out.write("/// and the perigee in kilometres.\n")
        out.write("pub const RECOVERED: [(Given, [[i64; 2]; 14]); %d] = [\n" % len(SETS))
        for motion, ecc, incl, bstar in SETS:
            assert fate(motion, ecc, incl, bstar) is None
            s = Satellite(motion, ecc, incl, "0", "0", "0", bstar)
            values = [s.inclo, s.cosio, s.sinio, s.ecco, s.no * 16384, s.ao, s.omeosq, s.rteosq, s.po, s.rp, s.con41, s.con42, period(s) / 16384, perigee(s)]
            out.write("    ((%s), [%s]),\n" % (", ".join(map(text, (motion, ecc, incl, bstar))), ", ".join(map(units, values))))
        out.write("];\n\n")
        rows = refusals()
        out.write("/// What is given, and the fault, if the set is refused.\n")
        out.write("pub const FATES: [(Given, Option<SatFault>); %d] = [\n" % len(rows))
        for row in rows:
            fault = fate(*row)
            if mp.mpf(row[0]) <= mp.mpf("6.3") and fault is None:
                raise SystemExit("a slow set")
            out.write("    ((%s), %s),\n" % (", ".join(map(text, row)), "Some(SatFault::%s)" % fault if fault else "None"))
        out.write("];\n")


main()
