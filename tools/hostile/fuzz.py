"""Runs the built program on mutated files and words, and expects an answer of the tables each time, within a time limit.

    python3 tools/hostile/fuzz.py [--seed N] [--minutes M] [--program PROGRAM] [--case K] [--keep FOLDER]

Each case is made from the seed and its number alone; `--case` runs one alone. It has a command, files of two-line sets or messages and
of stations (examples/, tools/speed/inputs.py, runs.py) and words; most of them are then mutated: bytes, slices and lines are cut,
doubled, swapped, changed, digits exchanged, columns and values replaced by extreme ones. Check digits are mended after most changes,
so that deeper code is reached. What is printed is read by answers.py; a status that does not go with it, a signal, anything on
standard error, `error memory`, or 20 seconds are failures. A failing case is kept: FOLDER/<seed>-<case> has its files and a script `run.sh`.

It prints the seed, each failure, how many cases ended with which answer, and ends with status 1 where one failed. It needs nothing but
Python.
"""
import argparse
import os
import random
import re
import shlex
import sys
import tempfile
import time

import runs
from answers import Refused, read_answer
from runs import MESSAGE, OPEN, POLE, SETS, TOP, run, write_files

sys.path.insert(0, os.path.join(TOP, "tools", "speed"))  # whose inputs.py is meant, not the one beside this
import inputs as made  # noqa: E402

SECONDS = 20
EXTREME = [
    b"0", b"-0", b"00", b"1", b"-1", b"9", b"99999", b"999999999", b"1000000000", b"4294967296", b"9223372036854775808",
    b"18446744073709551616", b"1E17", b"1E18", b"1E-18", b"1E-19", b"1E1000", b".", b"-.", b"+", b"1.", b".5", b"999999999999999999",
    b"0.000000000000000001", b"90", b"-90.0000000001", b"180", b"360", b"-180", b"359.9999999999", b"175", b"175.0001", b"0.2",
    b"0.2000001", b"225", b"6.4", b"6.3", b"16.3", b"17", b"1957-01-01T00:00:00", b"2056-12-31T23:59:59.9999Z", b"2057-01-01T00:00:00Z",
    b"2000-06-27T00:00:60Z", b"2001-366T00:00:00", b"2000-02-29T00:00:00.00005Z", b"\xff", b"\xc3\xa4", b"A" * 64,
]
TOML = [b"[[station]]\n", b"version = 2\n", b"dut1_ms = 900\n", b"dut1_ms = -901\n", b'mask = "5"\n', b"borders = []\n", b'name = ""\n']
TOML += [b'masks = ["0"]\n', b'borders = ["0", "90", "180", "270"]\n', b"inf", b"true", b"1979-05-27", b"\\u0000", b'"""', b"'''"]
TOML += [b"[", b"]", b"{", b"}", b"=", b".", b",", b"#", b"\\"]
KVN = [b"CCSDS_OMM_VERS = 2.0\n", b"MEAN_ELEMENT_THEORY = SGP/SGP4\n", b"SEMI_MAJOR_AXIS = 7000\n", b"BTERM = 1\n", b"AGOM = 1\n"]
KVN += [b"COMMENT x\n", b"EPHEMERIS_TYPE = 2\n", b" [deg]"]
COLUMNS = {1: [(3, 7), (19, 20), (21, 32), (54, 61), (63, 63)], 2: [(3, 7), (9, 16), (18, 25), (27, 33), (35, 42), (44, 51), (53, 63)]}
KEYS = "lat lon start end res catalogue stations number at count antennas first second station".split()
COMMANDS = {
    "day": ["lat", "lon", "start", "end", "res"],
    "plan": ["catalogue", "stations", "start", "end", "res"],
    "show": ["catalogue", "start"],
    "locate": ["catalogue", "number", "at"],
    "grid": ["count"],
    "book": ["catalogue", "stations", "start", "end", "res", "antennas"],
}


def mended(line):
    """A line of a two-line set with its check digit, where it has the columns for one."""
    if len(line) < 69 or line[:2] not in (b"1 ", b"2 "):
        return line
    return line[:68] + b"%d" % (sum(c - 48 if 48 <= c < 58 else c == 45 for c in line[:68]) % 10) + line[69:]


def slice_of(rng, text, most):
    at = rng.randrange(len(text) + 1)
    return at, min(len(text), at + rng.randint(1, most))


def changed(rng, text, words):
    """The text with one mutation."""
    low, high = slice_of(rng, text, rng.choice([1, 1, 4, 30, 400]))
    kind = rng.randrange(11)
    if kind == 0:
        return text[:low] + text[high:]
    if kind == 1:
        return text[:high] + text[low:high] * rng.choice([1, 1, 2, 40]) + text[high:]
    if kind == 2:
        return text[:low] + bytes(rng.randrange(256) for _ in range(high - low)) + text[high:]
    if kind == 3:
        return text[:low] + bytes([text[low] ^ 1 << rng.randrange(8)]) + text[low + 1 :] if low < len(text) else text
    if kind == 4:
        return text[: rng.randrange(len(text) + 1)]
    if kind == 5:
        return text[:low] + rng.choice(words) + text[low if rng.random() < 0.5 else high :]
    if kind == 6:
        lines = text.split(b"\n")
        a, b = rng.randrange(len(lines)), rng.randrange(len(lines))
        lines[a], lines[b] = rng.choice([(lines[b], lines[a]), (lines[b], lines[b]), (b"", lines[b])])
        return b"\n".join(lines)
    if kind == 7:
        return re.sub(rb"[-+0-9.eE]+(?=[^-+0-9.eE]*$)", lambda _: rng.choice(EXTREME), text[:high]) + text[high:]
    digits = [k for k, c in enumerate(text) if 48 <= c < 58]
    if not digits:
        return text
    at = rng.choice(digits)
    if kind == 8:
        other = rng.choice(digits)
        low, high = min(at, other), max(at, other)
        return text[:low] + text[high : high + 1] + text[low + 1 : high] + text[low : low + 1] + text[high + 1 :] if low < high else text
    return text[:at] + rng.choice(b"0123456789").to_bytes(1, "big") + text[at + 1 :]


def column_changed(rng, text):
    """A field of a line of a two-line set replaced by an extreme value, or by that of another line."""
    lines = text.split(b"\n")
    whole = [k for k, line in enumerate(lines) if len(line) >= 69 and line[:2] in (b"1 ", b"2 ")]
    if not whole:
        return text
    k = rng.choice(whole)
    first, last = rng.choice(COLUMNS[lines[k][0] - 48])
    wide = last - first + 1
    other = lines[rng.choice(whole)][first - 1 : last]
    value = rng.choice([rng.choice(EXTREME).rjust(wide)[-wide:], b"9" * wide, b"0" * wide, b" " * wide, other, b"%0*d" % (wide, rng.randrange(10**wide))])
    lines[k] = lines[k][: first - 1] + value + lines[k][last:]
    return b"\n".join(lines)


class Case:
    """The files and the words of a case."""

    def __init__(self, seed, number):
        self.rng = rng = random.Random("%d fuzz %d" % (seed, number))
        self.command = rng.choice(["day", "plan", "plan", "plan", "show", "show", "locate", "locate", "book", "grid"])
        day = rng.choice([27, 28, 29])
        self.satellites = [rng.randrange(1000) for _ in range(rng.randint(1, 4))]
        start, length = "2000-06-%02dT%02d:00:00" % (day, rng.randrange(24)), rng.choice([1, 20, 60])
        self.values = {
            "lat": str(rng.randint(-90, 90)), "lon": str(rng.randint(-180, 360)), "start": start + "Z", "res": str(rng.randint(1, 60)),
            "end": start[:-5] + rng.choice(["%02d:00Z" % min(length, 59), "59:59.9999Z"]), "at": start + rng.choice(["", ".123456789Z"]),
            "number": str(rng.choice([25544, 90_001, *(90_000 + k for k in self.satellites * 4)])), "catalogue": "c", "stations": "s",
            "count": str(rng.choice([1, 1, 2, 5])), "antennas": str(rng.randint(1, 4)),
        }
        with open(os.path.join(TOP, "examples", "iss.tle"), "rb") as sets, open(os.path.join(TOP, "examples", "stations.toml"), "rb") as places:
            self.files = {"c": self.catalogue(sets.read()), "s": self.stations(places.read())}
        self.words = self.written()

    def catalogue(self, example):
        rng = self.rng
        sets = b"".join(made.two_lines(k).encode() for k in self.satellites)
        near = MESSAGE.replace(b"2008-09-20T12:25:40.104192", b"2000-06-28T00:00:00")
        two = near + near.replace(b"25544", b"%d" % rng.randrange(10**9))
        text = rng.choice([sets, sets, sets, SETS, example + sets, b"0 NAME\r\n" + sets, MESSAGE, near, two])
        words = EXTREME + (KVN if text.startswith(b"CCSDS") else [SETS, b"0 NAME\n", b"1 ", b"2 ", b"\r\n"])
        for _ in range(rng.choice([0, 0, 1, 1, 2, 3, 8])):
            text = column_changed(rng, text) if rng.random() < 0.5 else changed(rng, text, words)
        return b"\n".join(map(mended, text.split(b"\n"))) if rng.random() < 0.8 else text

    def stations(self, example):
        rng = self.rng
        text = rng.choice([example, POLE, OPEN, OPEN, made.stations(rng.randint(1, 3)).encode()])
        for _ in range(rng.choice([0, 0, 0, 1, 1, 2, 6])):
            text = changed(rng, text, TOML + EXTREME)
        return text

    def written(self):
        """The words, of which most cases change none."""
        rng, words = self.rng, [self.command.encode()]
        for key in COMMANDS[self.command]:
            value = self.values[key].encode()
            if rng.random() < 0.03:
                value = rng.choice([rng.choice(EXTREME), changed(rng, value, EXTREME), b""])
            words += [b"--%s=%s" % (key.encode(), value)] if rng.random() < 0.7 else [b"--" + key.encode(), value]
        for _ in range(rng.choice([0] * 12 + [1, 2, 5])):
            k = rng.randrange(len(words))
            more = rng.choice([words[k], b"--%s=1" % rng.choice(KEYS).encode(), changed(rng, words[k], EXTREME), b"--", b"-", b""])
            words[k : k + rng.randint(0, 1)] = [more]
        return [word.replace(b"\0", b"0") for word in words]


def outcome(program, case, folder):
    """The kind of answer, and how the run ended; the kind begins with `wrong` where it is none."""
    write_files(folder, case.files)
    ended = run(program, case.words, folder, SECONDS)
    if ended.status is None:
        return "wrong: no end in %d seconds" % SECONDS, ended
    if ended.err:
        return "wrong: something on standard error", ended
    try:
        kind = read_answer(ended.out, ended.status)
    except Refused as fault:
        return "wrong: %s" % fault, ended
    return "wrong: error memory, where there is enough" if kind == "error memory" else kind, ended


def keep(folder, case, kind):
    os.makedirs(folder, exist_ok=True)
    write_files(folder, case.files)
    with open(os.path.join(folder, "run.sh"), "wb") as file:
        quoted = b" ".join(word if word.isalnum() else b"$'%s'" % b"".join(b"\\x%02x" % c for c in word) for word in case.words)
        shown = shlex.join(word.decode("latin-1") for word in case.words)
        file.write(b"# %s\n# words: %s\n" % tuple(text.replace("\n", " ").encode() for text in (kind, shown)))
        file.write(b'program=$(realpath "$1") && cd "$(dirname "$0")" && exec "$program" ' + quoted + b"\n")


def words():
    parser = argparse.ArgumentParser(description=__doc__, formatter_class=argparse.RawDescriptionHelpFormatter)
    parser.add_argument("--seed", type=int, default=20261202)
    parser.add_argument("--minutes", type=float, default=1.0)
    parser.add_argument("--program", default=runs.PROGRAM)
    parser.add_argument("--case", type=int)
    parser.add_argument("--keep", default="failing")
    return parser.parse_args()


def main():
    asked, kinds, failed, number = words(), {}, 0, 0
    program, until = os.path.abspath(asked.program), time.monotonic() + 60 * asked.minutes
    print("seed %d" % asked.seed)
    with tempfile.TemporaryDirectory() as folder:
        numbers = iter(int, 1) if asked.case is None else [0]
        for _ in numbers:
            number = number + 1 if asked.case is None else asked.case
            case = Case(asked.seed, number)
            kind, ended = outcome(program, case, folder)
            if kind.startswith("wrong"):
                failed += 1
                keep(os.path.join(asked.keep, "%d-%d" % (asked.seed, number)), case, kind)
                print("case %d: %s; %s" % (number, kind, ended.said()))
            kind = kind.split(":")[0]
            kinds[kind] = kinds.get(kind, 0) + 1
            if asked.case is None and time.monotonic() > until:
                break
    for kind, count in sorted(kinds.items()):
        print("%8d %s" % (count, kind))
    print("fuzz.py: %d cases, %d failed" % (sum(kinds.values()), failed))
    return 1 if failed else 0


if __name__ == "__main__":
    sys.exit(main())
