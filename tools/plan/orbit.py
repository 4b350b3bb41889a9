"""SGP4 of near-Earth satellites in floating point, over many instants at once.

Written from Spacetrack Report No. 3 (1980) and AIAA 2006-6753, in the arrangement of the report: its full form, for perigees from
220 km, with the constants of WGS-72 and the value of ke that the report prints. It shares nothing with the other scripts of this
repository. The comparison of plans stands on it.

To hold it against the published positions, whose two files tools/locate/published.py names:

    /usr/bin/python3 tools/plan/orbit.py SETS POSITIONS

It prints, for each set that the program would accept, the farthest of the positions within seven days, and ends with status 1
where one is 10 metres away.
"""
import math
import sys

import numpy as np

KE = 0.0743669161
RADIUS_KM = 6378.135
J2, J3, J4 = 1.082616e-3, -2.53881e-6, -1.65597e-6
K2, K4, A30 = J2 / 2.0, -3.0 * J4 / 8.0, -J3
DENSITY_BASE = 1.0 + 78.0 / RADIUS_KM
DENSITY = ((120.0 - 78.0) / RADIUS_KM) ** 4
TURN = 2.0 * math.pi
NEAR_M = 10.0
WEEK_MINUTES = 10_080.0


class Orbit:
    """The constants of an element set. Angles are in degrees, the mean motion in revolutions a day."""

    def __init__(self, motion, ecc, incl, node, argp, anomaly, bstar):
        self.e, self.bstar = ecc, bstar
        self.i, self.node0, self.argp0, self.anomaly0 = (math.radians(angle) for angle in (incl, node, argp, anomaly))
        self.theta, self.sin_i = math.cos(self.i), math.sin(self.i)
        self.recover(motion * TURN / 1440.0)
        self.drag()
        self.rates()

    def recover(self, motion):
        """The original mean motion and semimajor axis."""
        beta2 = 1.0 - self.e**2
        shape = 1.5 * K2 * (3.0 * self.theta**2 - 1.0) / beta2**1.5
        a1 = (KE / motion) ** (2.0 / 3.0)
        d1 = shape / a1**2
        a0 = a1 * (1.0 - d1 / 3.0 - d1**2 - 134.0 / 81.0 * d1**3)
        self.n = motion / (1.0 + shape / a0**2)
        self.a = (KE / self.n) ** (2.0 / 3.0)
        self.beta = math.sqrt(beta2)
        self.period = TURN / self.n
        self.perigee_km = (self.a * (1.0 - self.e) - 1.0) * RADIUS_KM

    def drag(self):
        """The drag coefficients C1 to C5 and D2 to D4."""
        e, a, n, theta2, bstar = self.e, self.a, self.n, self.theta**2, self.bstar
        xi = 1.0 / (a - DENSITY_BASE)
        eta = self.eta = a * e * xi
        psi = abs(1.0 - eta**2)
        strength = DENSITY * xi**4
        common = strength * n / psi**3.5
        c2 = common * (
            a * (1.0 + 1.5 * eta**2 + 4.0 * e * eta + e * eta**3)
            + 1.5 * K2 * xi / psi * (1.5 * theta2 - 0.5) * (8.0 + 24.0 * eta**2 + 3.0 * eta**4)
        )
        c1 = self.c1 = bstar * c2
        c3 = strength * xi * A30 * n * self.sin_i / (K2 * e) if e > 0.0001 else 0.0
        turned = 0.75 * (1.0 - theta2) * (2.0 * eta**2 - e * eta - e * eta**3) * math.cos(2.0 * self.argp0)
        even = 3.0 * (1.0 - 3.0 * theta2) * (1.0 + 1.5 * eta**2 - 2.0 * e * eta - 0.5 * e * eta**3)
        bracket = 2.0 * eta * (1.0 + e * eta) + 0.5 * e + 0.5 * eta**3 - 2.0 * K2 * xi / (a * psi) * (even + turned)
        self.c4 = 2.0 * common * a * self.beta**2 * bracket
        self.c5 = 2.0 * strength / psi**3.5 * a * self.beta**2 * (1.0 + 2.75 * eta * (eta + e) + e * eta**3)
        d2 = self.d2 = 4.0 * a * xi * c1**2
        d3 = self.d3 = 4.0 / 3.0 * a * xi**2 * (17.0 * a + DENSITY_BASE) * c1**3
        d4 = self.d4 = 2.0 / 3.0 * a**2 * xi**3 * (221.0 * a + 31.0 * DENSITY_BASE) * c1**4
        self.longitude = (
            1.5 * c1,
            d2 + 2.0 * c1**2,
            0.25 * (3.0 * d3 + 12.0 * c1 * d2 + 10.0 * c1**3),
            0.2 * (3.0 * d4 + 12.0 * c1 * d3 + 6.0 * d2**2 + 30.0 * c1**2 * d2 + 15.0 * c1**4),
        )
        self.perigee_drag = bstar * c3 * math.cos(self.argp0)
        self.anomaly_drag = -2.0 / 3.0 * strength * bstar / (e * eta) if e > 0.0001 else 0.0

    def rates(self):
        """The secular rates of mean anomaly, perigee and node."""
        theta, theta2, n = self.theta, self.theta**2, self.n
        p2 = (self.a * self.beta**2) ** 2
        first, second, fourth = 3.0 * K2 * n / p2, 3.0 * K2**2 * n / p2**2, 1.25 * K4 * n / p2**2
        self.anomaly_rate = n + self.beta * (
            0.5 * first * (3.0 * theta2 - 1.0) + 0.0625 * second * (13.0 - 78.0 * theta2 + 137.0 * theta2**2)
        )
        self.argp_rate = (
            -0.5 * first * (1.0 - 5.0 * theta2)
            + 0.0625 * second * (7.0 - 114.0 * theta2 + 395.0 * theta2**2)
            + fourth * (3.0 - 36.0 * theta2 + 49.0 * theta2**2)
        )
        self.node_rate = theta * (-first + 0.5 * second * (4.0 - 19.0 * theta2) + 2.0 * fourth * (3.0 - 7.0 * theta2))
        self.node_drag = -3.5 * first * theta * self.beta**2 * self.c1

    def at(self, minutes):
        """The positions, in Earth radii, at an array of minutes from the epoch: three arrays."""
        t = np.asarray(minutes, dtype=float)
        plain = self.anomaly0 + self.anomaly_rate * t
        swing = self.anomaly_drag * ((1.0 + self.eta * np.cos(plain)) ** 3 - (1.0 + self.eta * math.cos(self.anomaly0)) ** 3)
        moved = self.perigee_drag * t + swing
        anomaly = plain + moved
        argp = self.argp0 + self.argp_rate * t - moved
        node = self.node0 + self.node_rate * t + self.node_drag * t**2
        shrink = 1.0 - t * (self.c1 + t * (self.d2 + t * (self.d3 + t * self.d4)))
        e = self.e - self.bstar * (self.c4 * t + self.c5 * (np.sin(anomaly) - math.sin(self.anomaly0)))
        e = np.maximum(e, 1e-6)
        a = self.a * shrink**2
        q2, q3, q4, q5 = self.longitude
        mean = anomaly + argp + self.n * t**2 * (q2 + t * (q3 + t * (q4 + t * q5)))
        return self.periodic(a, e, argp, mean, node)

    def periodic(self, a, e, argp, mean, node):
        """Long-period terms, Kepler's equation, short-period terms."""
        theta, theta2, sin_i = self.theta, self.theta**2, self.sin_i
        long = A30 * sin_i / (4.0 * K2 * a * (1.0 - e**2))
        ax = e * np.cos(argp)
        ay = e * np.sin(argp) + long
        u = mean + 0.5 * long * ax * (3.0 + 5.0 * theta) / (1.0 + theta)
        sin_e, cos_e = kepler(u, ax, ay)
        ecos, esin, e2 = ax * cos_e + ay * sin_e, ax * sin_e - ay * cos_e, ax**2 + ay**2
        p, r, root = a * (1.0 - e2), a * (1.0 - ecos), np.sqrt(1.0 - e2)
        cos_u = a / r * (cos_e - ax + ay * esin / (1.0 + root))
        sin_u = a / r * (sin_e - ay - ax * esin / (1.0 + root))
        sin_2u, cos_2u = 2.0 * sin_u * cos_u, 1.0 - 2.0 * sin_u**2
        radius = r * (1.0 - 1.5 * K2 / p**2 * root * (3.0 * theta2 - 1.0)) + 0.5 * K2 / p * (1.0 - theta2) * cos_2u
        latitude = -0.25 * K2 / p**2 * (7.0 * theta2 - 1.0) * sin_2u
        node = node + 1.5 * K2 * theta / p**2 * sin_2u
        i = self.i + 1.5 * K2 * theta * sin_i / p**2 * cos_2u
        sin_l, cos_l = np.sin(latitude), np.cos(latitude)
        sin_w, cos_w = sin_u * cos_l + cos_u * sin_l, cos_u * cos_l - sin_u * sin_l
        sin_n, cos_n, sin_j, cos_j = np.sin(node), np.cos(node), np.sin(i), np.cos(i)
        x = radius * (cos_n * cos_w - sin_n * cos_j * sin_w)
        y = radius * (sin_n * cos_w + cos_n * cos_j * sin_w)
        return x, y, radius * sin_j * sin_w


def kepler(u, ax, ay):
    """Sine and cosine of the root of E + ay cos E - ax sin E = u, by Newton's steps."""
    root = u
    for _ in range(20):
        sine, cosine = np.sin(root), np.cos(root)
        step = (root + ay * cosine - ax * sine - u) / (1.0 - ay * sine - ax * cosine)
        root = root - step
        if np.max(np.abs(step), initial=0.0) < 1e-9:  # the next step would be below the spacing of the numbers
            return np.sin(root), np.cos(root)
    raise ArithmeticError("no root of Kepler's equation")


def read_published(sets, positions):
    """For each set its orbit, its number and rows of minutes and kilometres."""
    with open(sets, encoding="latin-1") as lines:
        kept = [line for line in lines if line[:2] in ("1 ", "2 ")]
    blocks = {}
    with open(positions, encoding="latin-1") as lines:
        for line in lines:
            words = line.split()
            if len(words) == 2 and words[1] == "xx":
                rows = blocks.setdefault(int(words[0]), [])
            elif words:
                rows.append([float(word) for word in words[:4]])
    for one, two in zip(kept[::2], kept[1::2]):
        bstar = float(one[53] + "0." + one[54:59].replace(" ", "0")) * 10.0 ** int(one[59:61])
        angles = [float(two[at : at + 8]) for at in (8, 17, 34, 43)]
        ecc = float("0." + two[26:33].replace(" ", "0"))
        yield int(two[2:7]), Orbit(float(two[52:63]), ecc, *angles, bstar), blocks[int(two[2:7])]


def main():
    far = 0.0
    for number, orbit, rows in read_published(sys.argv[1], sys.argv[2]):
        if not (orbit.e <= 0.2 and abs(orbit.bstar) <= 0.001 and orbit.period < 225.0 and orbit.perigee_km >= 300.0):
            continue
        rows = np.array([row for row in rows if abs(row[0]) <= WEEK_MINUTES])
        places = np.array(orbit.at(rows[:, 0])) * RADIUS_KM * 1000.0
        away = float(np.max(np.abs(places.T - rows[:, 1:] * 1000.0)))
        far = max(far, away)
        print("%05d: %d positions, the farthest %.4f m away" % (number, len(rows), away))
    return 1 if far >= NEAR_M else 0


if __name__ == "__main__":
    sys.exit(main())
