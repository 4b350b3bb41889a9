"""Files and words that the tools beside it give to the program, and one call that runs it."""
import os
import subprocess
import sys

sys.path.insert(1, os.path.join(os.path.dirname(os.path.abspath(__file__)), "..", "view"))
TOP = os.path.normpath(os.path.join(os.path.dirname(os.path.abspath(__file__)), "..", ".."))
PROGRAM = os.path.join(TOP, "crates/passplan/out/passplan")
MOST = 16_777_216  # bytes of a file
SETS = (
    b"1 90001U 00001A   00179.00000000  .00000000  00000-0  00000-0 0    12\n"
    b"2 90001   0.0000   0.0000 0010000   0.0000   0.0000 15.00000000    10\n"
)
MESSAGE = b"""CCSDS_OMM_VERS = 2.0
COMMENT keywords in an order of their own
CREATION_DATE = 2008-09-21T00:00:00
OBJECT_NAME = ISS (ZARYA)
OBJECT_ID = 1998-067A
CENTER_NAME = EARTH
REF_FRAME = TEME
TIME_SYSTEM = UTC
MEAN_ELEMENT_THEORY = SGP4
BSTAR = -.11606E-4 [1/ER]
EPOCH = 2008-09-20T12:25:40.104192
NORAD_CAT_ID = 25544
MEAN_MOTION = 15.72125391 [rev/day]
ECCENTRICITY = 0.0006703
INCLINATION = 51.6416 [deg]
RA_OF_ASC_NODE = 247.4627 [deg]
ARG_OF_PERICENTER = 130.5360 [deg]
MEAN_ANOMALY = 325.0288 [deg]
"""
POLE = b'version = 1\n[[station]]\nname = "Pole"\nlat = "90"\nlon = "0"\nheight = "0"\nmask = "0"\n'
OPEN = POLE.replace(b'mask = "0"', b'mask = "-90"')
HOUR = ["--start=2000-06-27T00:00:00Z", "--end=2000-06-27T01:00:00Z", "--res=1"]
FILES = {"c": SETS, "m": MESSAGE, "p": POLE, "o": OPEN}
RUNS = {
    "plan": ["plan", "--catalogue=c", "--stations=p"] + HOUR,
    "show": ["show", "--catalogue=m", "--start=2008-09-20T00:00:00Z"],
    "locate": ["locate", "--catalogue=c", "--number=90001", "--at=2000-06-27T00:00:00Z"],
    "day": ["day", "--lat=90", "--lon=0", "--start=2000-06-21T00:00:00Z", "--end=2000-06-21T01:00:00Z", "--res=1"],
    "grid": ["grid", "--count=1"],
    "book": ["book", "--catalogue=c", "--stations=o"] + HOUR + ["--antennas=1"],
}


def write_files(folder, files=None):
    for name, text in (FILES if files is None else files).items():
        with open(os.path.join(folder, name), "wb") as file:
            file.write(text)


class Ended:
    """How a run ended: its status (minus the signal where it was one; None at the time limit) and what it printed."""

    def __init__(self, status, out, err):
        self.status, self.out, self.err = status, out, err

    def said(self):
        """As much as a line of a report has room for."""
        return "status %s, printed %r%s" % (self.status, self.out[:80], ", on standard error %r" % self.err[:80] if self.err else "")


def run(program, words, folder, seconds=120, **more):
    given = dict(cwd=folder, stdin=subprocess.DEVNULL, stdout=subprocess.PIPE, stderr=subprocess.PIPE, env={})
    given.update(more)
    call = [os.fsencode(program), *(word if isinstance(word, bytes) else word.encode() for word in words)]
    with subprocess.Popen(call, **given) as child:
        try:
            out, err = child.communicate(timeout=seconds)
        except subprocess.TimeoutExpired:
            child.kill()
            out, err = child.communicate()
            return Ended(None, out or b"", err or b"")
    return Ended(child.returncode, out or b"", err or b"")


def knows(program, name):
    """Whether the program has the command."""
    return run(program, [name], ".").out != b"error usage command\n"
