"""Tests of the reader of answers: texts that the layouts allow are read, each of them with one thing wrong is refused.

    python3 tools/hostile/test.py

It needs nothing but Python. The texts are written by hand from docs/FORMATS.md; tools/view/test.py has plans and bookings.
"""
import os
import sys

from answers import Refused, read_answer

HERE = os.path.dirname(os.path.abspath(__file__))
START, END = "2000-06-21T00:00:00.0000Z", "2000-06-21T01:00:00.0000Z"
DAY = "PASSDAY 1\nWINDOW %s %s 1\n" % (START, END)
SHOW = "PASSSHOW 1\nSET 5 2000-06-27T18:50:19.733568000Z 10.82419157 0.1859667 34.2682 348.7242 331.7664 -19.3264 0.000028098 A B\nEND\n"
AT = "PASSLOCATE 1\nAT 2000-06-27T18:50:19.733568000Z\n"
PLACE = AT + "SAT 5 OK -\nX 7022465292 7022465293\nY -1400082968 -1400082968\nZ -9 9991\nEND\n"
GRID = "PASSGRID 1\nSATS 3\nREFUSED 1\nVISIBLE 1 600\nHIDDEN 4 107999000\nUNDECIDED 1 400\nUNRESOLVED 1\nFULL 0\nDECAYS 0\nCELLS 9\nEND\n"
# status, text, then what is changed and what it becomes: each change makes a text that is refused
ROWS = [
    (0, DAY + "L %s %s\nEND\n" % (START, END), ("L ", "V "), (END + "\n", START + "\n"), ("END\n", "END"), ("END\n", "END\nEND\n"), ("DAY 1", "DAY 2")),
    (1, DAY + "UNRESOLVED %s 2000-06-21T00:00:01.0001Z\nEND\n" % START, ("01.0001", "01.0000"), ("UNRESOLVED", "DECAYS"), ("Z 1\n", "Z 2\n")),
    (1, DAY + "FULL %s\nEND\n" % START, ("FULL 2000-06-21T00", "FULL 2000-06-21T01"), ("FULL", "FULL ")),
    (0, SHOW, ("10.82419157", "10.824191570"), ("10.82", "010.82"), ("0.1859667", "1.1859667"), ("568000Z", "568Z"), ("-19.3264", "-0"), ("A B", " A B"), (" A B", "")),
    (0, SHOW, ("0.000028098", "1.000000000000000001"), ("SET 5", "SET 05"), ("SET 5", "SET 1000000000"), ("34.2682", "180.0001"), ("19.3264", "360.0001")),
    (0, PLACE, ("X ", "Y "), ("-9 9991", "-9 9992"), ("-9 9991", "9 8"), ("Z -9", "Z -09"), ("OK", "LOW"), ("SAT 5 OK -\n", "SAT 5 OK -\nDECAYED\n")),
    (1, AT + "MISSING 6\nEND\n", ("6\n", "06\n"), ("MISSING", "MISSED"), ("MISSING 6\n", "MISSING 6\nSAT 6 LOW -\n")),
    (1, AT + "SAT 6 FAR -\nEND\n", ("FAR", "OK"), ("FAR", "NEAR"), ("SAT 6 FAR -\n", "SAT 6 FAR -\nSAT 7 FAR -\n")),
    (1, AT + "SAT 6 OK -\nDECAYED\nEND\n", ("DECAYED", "DECAYS"), ("OK", "FAR")),
    (1, GRID, ("600", "601"), ("HIDDEN 4", "HIDDEN 0"), ("SATS 3", "SATS 1001"), ("FULL 0", "FULL 1"), ("REFUSED 1", "REFUSED 0"), ("CELLS 9\n", ""), ("VISIBLE 1", "VISIBLE 601")),
    (2, "error usage nocommand\n", ("nocommand", "nocommands"), ("\n", "\n\n"), ("\n", "")),
    (2, "error usage word 12\n", ("12", "0"), ("12", "x"), (" 12", "")),
    (2, "error usage value antennas\n", ("antennas", "antenna"), ("value", "values")),
    (3, "error window order\n", ("order", "orders"), ("window", "usage")),
    (4, "error catalogue odd 1\n", ("1", "01"), ("odd", "even")),
    (4, "error catalogue set 1 tle check 2 6 7\n", ("2 6 7", "3 6 7"), ("2 6 7", "2 6 10"), ("tle", "omm"), ("set 1", "set 0")),
    (4, "error catalogue set 9 omm twice EPOCH\n", ("EPOCH", "epoch"), ("twice", "thrice")),
    (5, "error stations shape 0 dut1_ms\n", ("dut1_ms", "dut1"), ("shape 0", "shape 00")),
    (5, "error stations twice 2\n", ("2", "0"), ("twice", "shape")),
    (6, "error read\n", ("read", "reads")),
    (7, "error toolong\n", ("toolong", "too long")),
    (9, "error memory\n", ("memory", "Memory")),
]
SAMPLES = {"deep.txt": 1, "station.txt": 0, "two.txt": 1, "answers.txt": 1, "book.txt": 1}


def is_read(text, status):
    try:
        return bool(read_answer(text, status))
    except Refused:
        return False


def main():
    count, failed = 0, []
    rows = [(status, text.encode(), changes) for status, text, *changes in ROWS]
    for name, status in SAMPLES.items():
        with open(os.path.join(HERE, "..", "view", "samples", name), "rb") as file:
            rows.append((status, file.read(), []))
    for status, text, changes in rows:
        count += 1
        failed += [] if is_read(text, status) else [("not read", status, text)]
        for other in range(256):
            count += 1
            failed += [("read with status %d" % other, text)] if other != status and is_read(text, other) else []
        for old, new in changes:
            count += 1
            wrong = text.replace(old.encode(), new.encode(), 1)
            assert wrong != text, (old, text)
            failed += [("read", status, wrong)] if is_read(wrong, status) else []
    for one in failed:
        print("failed:", *one)
    print("test.py: %d checks, %d failed" % (count, len(failed)))
    return 1 if failed else 0


if __name__ == "__main__":
    sys.exit(main())
