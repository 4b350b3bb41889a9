"""Measures `passplan plan` on catalogues of four sizes, outside the gate.

    python3 tools/speed/measure.py [PROGRAM [CASE..]]

| Case | Satellites | Stations | Window |
|---|---|---|---|
| day | 100 | 10 | 2000-06-28, 1 day |
| wide | 1,000 | 1 | 2000-06-28, 1 day |
| minute | 16,384 | 64 | 2000-06-28T00:00:00Z, 1 minute |
| long | 1 | 1 | 2000-06-23, 10 days |

The resolution is 10 seconds throughout; inputs.py has the inputs. `minute` has more rows than a plan has spans, so that its last
rows are FULL, and its status is 1. The program is looked for where ./passplan builds it. Each run prints its status, seconds of
CPU of the run alone, the greatest resident memory, the bytes printed, the rows by their answers, the spans, the contacts, and
seconds of CPU for a row. It runs one program at a time; a busy machine makes the seconds of CPU a little more.
"""
import os
import subprocess
import sys
import tempfile
import time

import inputs

CASES = {
    "day": (100, 10, "2000-06-28T00:00:00Z", "2000-06-29T00:00:00Z"),
    "wide": (1_000, 1, "2000-06-28T00:00:00Z", "2000-06-29T00:00:00Z"),
    "minute": (16_384, 64, "2000-06-28T00:00:00Z", "2000-06-28T00:01:00Z"),
    "long": (1, 1, "2000-06-23T00:00:00Z", "2000-07-03T00:00:00Z"),
}
ANSWERS = (b"SPANS", b"UNRESOLVED", b"FULL", b"DECAYS")


def peak_kilobytes(pid):
    """The greatest resident memory of a running process up to now; 0 where it has ended."""
    with open("/proc/%d/status" % pid, encoding="ascii", errors="replace") as lines:
        return next((int(line.split()[1]) for line in lines if line.startswith("VmHWM:")), 0)


def run(program, folder, start, end):
    """The status, the CPU seconds and the resident megabytes of one run, whose text goes to FOLDER/plan.

    The memory is asked for a hundred times a second: what the system tells at the end also counts this script's own."""
    words = ["plan", "--catalogue=catalogue", "--stations=stations", "--start=" + start, "--end=" + end, "--res=10"]
    with open(os.path.join(folder, "plan"), "wb") as out:
        started, peak, ended = subprocess.Popen([program] + words, cwd=folder, stdout=out), 0, 0
        while not ended:
            peak = max(peak, peak_kilobytes(started.pid))
            ended, status, used = os.wait4(started.pid, os.WNOHANG)
            time.sleep(0 if ended else 0.01)
        started.returncode = os.waitstatus_to_exitcode(status)
    return started.returncode, used.ru_utime + used.ru_stime, peak / 1024


def counted(path):
    """The rows by answer, refused satellites, spans and contacts of a printed plan, read line by line."""
    counts = dict.fromkeys(ANSWERS + (b"refused", b"spans", b"contacts", b"end"), 0)
    with open(path, "rb") as lines:
        for line in lines:
            fields = line.split()
            if fields[0] in (b"LIT", b"PAIR"):
                counts[fields[2 if fields[0] == b"LIT" else 3]] += 1
            elif fields[0] == b"SAT":
                counts[b"refused"] += fields[2] != b"OK"
            elif fields[0] == b"PASS":
                counts[b"contacts"] += 1
            elif len(fields[0]) == 1:
                counts[b"spans"] += 1
            elif fields[0] == b"END":
                counts[b"end"] += 1
    return counts


def measure(program, name):
    """One case. Whether it ended as a plan does."""
    satellites, stations, start, end = CASES[name]
    with tempfile.TemporaryDirectory() as folder:
        inputs.write(satellites, stations, folder)
        status, seconds, memory = run(program, folder, start, end)
        path = os.path.join(folder, "plan")
        size, counts = os.path.getsize(path), counted(path)
    rows = sum(counts[answer] for answer in ANSWERS)
    print("%s: %d satellites, %d stations, %s to %s" % (name, satellites, stations, start, end))
    print("  status %d, %.2f CPU seconds, %.1f MB resident, %d bytes printed" % (status, seconds, memory, size))
    print("  %d rows: %s; %d satellites refused" % (rows, ", ".join("%s %d" % (a.decode(), counts[a]) for a in ANSWERS), counts[b"refused"]))
    print("  %d spans, %d contacts; %.3f milliseconds of CPU a row" % (counts[b"spans"], counts[b"contacts"], 1000 * seconds / max(rows, 1)), flush=True)
    return status in (0, 1) and counts[b"end"] == 1 and rows == (satellites - counts[b"refused"]) * (stations + 1)


def main():
    program = os.path.abspath(sys.argv[1] if len(sys.argv) > 1 else "crates/passplan/out/passplan")
    names = sys.argv[2:] or list(CASES)
    if not all(name in CASES for name in names):
        sys.exit("measure.py: the cases are %s" % ", ".join(CASES))
    well = [measure(program, name) for name in names]
    if not all(well):
        print("wrong: a run did not end with a whole text")
    return 0 if all(well) else 1


if __name__ == "__main__":
    sys.exit(main())
