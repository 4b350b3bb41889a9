#!/usr/bin/env python3
"""Compares what stations see with a separately written computation, outside the gate.

Makes random stations and satellites (fixed seed): latitudes and longitudes of up to 15 decimals, the poles, the equator and the
ends of the ranges among them, heights over the whole range, sidereal angles, and positions from 1.02 to 6 Earth radii out, some
of them near the station. A program of its own, which this script puts beside the crates for as long as it runs, makes each
station by `Station::fix` and prints the bounds of its place, of `sight` and of `lengths`. They are computed here in 30 digits in
another way: the place by the reduced latitude, the direction by two turns of the axes, and the azimuth and the elevation by
angles. What is checked of each case:

- each coordinate of the place lies in its bounds, which are at most 4,096 units of 2^-48 wide;
- the components of the direction, the lengths and the range lie in theirs;
- the cross product of the direction with the azimuth is held at 0, and the inner product is above 0;
- the sine of the elevation lies in the bounds of `up`.

How to run it, at the top of the repository, with the crates below built (rt check in crates/station_view):

    python3 tools/stations/compare.py [CASES]

It prints the seed, the count and the widest bounds, and ends with status 1 where a check failed.
"""
import os
import random
import shutil
import subprocess
import sys

import mpmath as mp

mp.mp.dps = 30
SEED = 20261128
UNIT = mp.mpf(2) ** -48
RADIUS, AXIS, FLATTENING = mp.mpf("6378.135"), mp.mpf("6378.137"), 1 / mp.mpf("298.257223563")
FOLDER = "crates/views_tried"
STANDS_ON = "station_view station_file earth_frame enc_plain fixed_iv elements decimals civil_time toml trig_enc root_enc algebra exact sgp4_model sgp4_shape kepler_enc sgp4_periodic"
PROGRAM = r'''//! Prints the bounds of what stations see, a line a case.
#![tactic(auto)]

use earth_frame::Turn;
use elements::{Decimal, Text, read_decimal};
use enc_plain::Plain;
use fixed_iv::{Enc, Iv, Vec3};
use station_file::{MaskRow, StationRow};
use station_view::{Station, lengths, sight};
use std::io;

/// A decimal of a word, or 0.
fn number(word: Option<&str>) -> Decimal {
    match word {
        Some(text) => match read_decimal(text.as_bytes()) {
            Ok(number) => number,
            Err(_) => Decimal::whole(0),
        },
        None => Decimal::whole(0),
    }
}

/// An enclosure of one number of units of 2^-48.
fn exactly(units: Decimal) -> Plain {
    Plain::constant(Iv::from_ends(units.digits(), units.digits()))
}

fn main(rt: HostRuntime) -> io::Result<()> {
    let alloc = rt.alloc();
    for line in rt.lines(alloc) {
        let line = line?;
        let mut words = line.as_str().split(' ');
        let (lat, lon, height) = (number(words.next()), number(words.next()), number(words.next()));
        let by = Turn { sin: exactly(number(words.next())), cos: exactly(number(words.next())) };
        let at = Vec3 {
            x: exactly(number(words.next())),
            y: exactly(number(words.next())),
            z: exactly(number(words.next())),
        };
        let Ok(mask) = MaskRow::flat(alloc, Decimal::whole(0)) else { continue };
        let Ok(name) = Text::copy(alloc, b"S") else { continue };
        let row = StationRow { name, lat, lon, height, mask };
        let Ok(station) = Station::fix(alloc, &row) else { continue };
        let long = lengths(&station, &by, &at);
        let place = &station.place;
        for v in [place.x, place.y, place.z] {
            let (lo, hi) = v.ends();
            print!(rt; "{lo} {hi} ")?;
        }
        if let Some(seen) = sight(&station, &by, &at) {
            for v in [seen.east, seen.north, seen.up, long.east, long.north, long.up, long.range] {
                let (lo, hi) = v.bounds().ends();
                print!(rt; "{lo} {hi} ")?;
            }
        }
        println!(rt; "")?;
    }
    Ok(())
}
'''


def decimal(rng, low, high):
    """A decimal of the range, as it is written."""
    places = rng.choice((0, 0, 1, 2, 4, 7, 15 if max(-low, high) < 1000 else 14))  # a decimal has less than 19 digits
    n = rng.randint(low * 10**places, high * 10**places)
    digits = "%0*d" % (places + 1, abs(n))
    return ("-" if n < 0 else "") + (digits[:-places] + "." + digits[-places:] if places else digits)


def radians(degrees):
    return mp.mpf(degrees) * mp.pi / 180


class Case:
    def __init__(self, rng):
        self.lat = rng.choice(("90", "-90", "0", decimal(rng, -90, 90), decimal(rng, -90, 90), decimal(rng, -90, 90)))
        self.lon = rng.choice(("-180", "360", "0", decimal(rng, -180, 360), decimal(rng, -180, 360), decimal(rng, -180, 360)))
        self.height = rng.choice(("-500", "9000", "0", decimal(rng, -500, 9000), decimal(rng, -500, 9000)))
        turn = mp.mpf(rng.randrange(10**15)) / 10**15 * 2 * mp.pi
        self.sine, self.cosine = (int(mp.nint(f(turn) / UNIT)) for f in (mp.sin, mp.cos))
        out = mp.mpf(rng.choice((1.02, 1.05, 1.2, 2, 4, 6)))
        if rng.random() < 0.3:  # above the station, nearly
            u = mp.matrix(self.place()) + mp.matrix([mp.mpf(rng.randrange(-100, 101)) / 2000 for _ in range(3)])
            s, c = self.sine * UNIT, self.cosine * UNIT
            u = mp.matrix([u[0] * c - u[1] * s, u[0] * s + u[1] * c, u[2]])
        else:
            u = mp.matrix([mp.mpf(rng.gauss(0, 1)) for _ in range(3)])
        u *= out / mp.norm(u)
        self.at = [int(mp.nint(v / UNIT)) for v in u]

    def words(self):
        return " ".join(map(str, (self.lat, self.lon, self.height, self.sine, self.cosine, *self.at)))

    def place(self):
        """By the reduced latitude: the point of the ellipsoid's own circle, then the height along the normal."""
        f, l, h = radians(self.lat), radians(self.lon), mp.mpf(self.height) / 1000
        polar = AXIS * (1 - FLATTENING)
        reduced = mp.atan2(polar * mp.sin(f), AXIS * mp.cos(f))
        level = AXIS * mp.cos(reduced) + h * mp.cos(f)
        return [v / RADIUS for v in (level * mp.cos(l), level * mp.sin(l), polar * mp.sin(reduced) + h * mp.sin(f))]

    def lengths(self):
        """The difference, turned about the axis by the longitude, then about east by the latitude."""
        s, c = self.sine * UNIT, self.cosine * UNIT
        x, y, z = (v * UNIT for v in self.at)
        p = self.place()
        w = mp.mpc(x, y) * mp.mpc(c, -s) - mp.mpc(p[0], p[1])
        w *= mp.expj(-radians(self.lon))
        v = mp.mpc(w.real, z - p[2]) * mp.expj(-radians(self.lat))
        east, north, up = w.imag, v.imag, v.real
        return east, north, up, mp.sqrt(east**2 + north**2 + up**2)


def run(cases):
    os.makedirs(FOLDER + "/src")
    kept = open("crates.txt").read()
    try:
        open(FOLDER + "/src/main.rt", "w").write(PROGRAM)
        open("crates.txt", "a").write(f"views_tried: {STANDS_ON}\n")
        text = "".join(c.words() + "\n" for c in cases)
        open(FOLDER + "/stdin", "w").write(text)
        done = subprocess.run(["rt", "try"], cwd=FOLDER, input=text, capture_output=True, text=True)
        lines = [line for line in done.stdout.splitlines() if line[:1] in "-0123456789" and line.strip()]
        if len(lines) != len(cases):
            sys.exit(f"the program printed {len(lines)} lines of {len(cases)}\n{done.stdout[-2000:]}\n{done.stderr[-2000:]}")
        return [list(map(int, line.split())) for line in lines]
    finally:
        open("crates.txt", "w").write(kept)
        shutil.rmtree(FOLDER)


def main():
    count = int(sys.argv[1]) if len(sys.argv) > 1 else 500
    rng = random.Random(SEED)
    cases = [Case(rng) for _ in range(count)]
    failed, near, widest = [], 0, [0] * 10

    for k, (case, found) in enumerate(zip(cases, run(cases))):
        bounds = list(zip(found[::2], found[1::2]))

        def check(what, holds):
            if not holds:
                failed.append(f"case {k} ({case.words()}): {what}")

        def within(b, value):
            return mp.mpf(b[0]) * UNIT <= value <= mp.mpf(b[1]) * UNIT

        for axis, b, value in zip("xyz", bounds, case.place()):
            check(f"place {axis}", within(b, value) and b[1] - b[0] <= 4096)
        east, north, up, far = case.lengths()
        if len(bounds) == 3:
            near += 1
            check("nothing seen, though far", far < mp.mpf(1) / 60)
            continue
        names = ("east", "north", "up", "east length", "north length", "up length", "range")
        for name, b, value in zip(names, bounds[3:], (east / far, north / far, up / far, east, north, up, far)):
            check(name, within(b, value))
        azimuth, elevation = mp.atan2(east, north), mp.atan2(up, mp.hypot(east, north))
        e, n = bounds[3], bounds[4]
        cross = [mp.mpf(a) * mp.cos(azimuth) - mp.mpf(b) * mp.sin(azimuth) for a in e for b in n]
        inner = [mp.mpf(a) * mp.sin(azimuth) + mp.mpf(b) * mp.cos(azimuth) for a in e for b in n]
        check("azimuth", min(cross) <= 0 <= max(cross) and (min(inner) > 0 or mp.cos(elevation) < mp.mpf(10) ** -9))
        check("elevation", within(bounds[5], mp.sin(elevation)))
        widest = [max(w, b[1] - b[0]) for w, b in zip(widest, bounds)]
    for line in failed[:20]:
        print(line)
    print(f"seed {SEED}: {count} cases, {near} too near to be seen, {len(failed)} checks failed; widest bounds in units of 2^-48: "
          f"place {max(widest[:3])}, direction {max(widest[3:6])}, lengths {max(widest[6:9])}, range {widest[9]}")
    sys.exit(1 if failed else 0)


main()
