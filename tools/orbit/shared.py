"""What the scripts of this folder share: the constants of an element set as the program scales them, and some sets."""
import sys

import mpmath as mp

sys.path.insert(0, "tools/equations")
from reference import Satellite  # noqa: E402, F401

mp.mp.dps = 50
# the constants in the order of the program's record, by the power of 16,384 minutes that each carries
POWERS = [
    "i c si e w0 o0 m0 bstar a eta con41 c5 xmcof xlcof aycof delmo sin_m0",
    "n0 mdot wdot odot c1 c4 omgcof t2cof",
    "d2 nodecf t3cof",
    "d3 t4cof",
    "d4 t5cof",
]
# motion (revolutions per day), eccentricity, inclination, node, argument of perigee, mean anomaly, B*
FIVE_SETS = [
    ("15.48919393", "0.0006703", "51.6416", "247.4627", "130.5360", "325.0288", "0.00011606"),
    ("14.19552001", "0.0011476", "98.7000", "12.3456", "88.1234", "271.9876", "0.000043"),
    ("11.25000000", "0.1200000", "63.4349", "300.5000", "270.0000", "15.2500", "-0.001"),
    ("15.70000000", "0.0000000", "0.0000", "0.0000", "0.0000", "0.0000", "0.001"),
    ("7.00000000", "0.1999999", "174.9999", "359.9999", "180.0000", "90.0000", "0.0005"),
]


def scaled_constants(satellite):
    """The 32 constants of a set, each times its power of 16,384."""
    kept = satellite.kept()
    return [kept[name] * 16384**power for power, names in enumerate(POWERS) for name in names.split()]
