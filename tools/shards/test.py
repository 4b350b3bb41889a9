"""Tests of shards: 200 satellites and 3 stations, cut, planned by GNU parallel, merged, and compared byte by byte with one run.

    python3 tools/shards/test.py [PROGRAM]

The catalogue is that of tools/speed/inputs.py, made harder: names, blank lines, numbers beyond 99,999, a second set for every
tenth satellite at the end of the file, every thirteenth satellite refused; once as two-line sets, once as messages. Then what must be
refused is tried: a shard that is missing, cut, doubled, of another window, of other stations, one whose run failed, one that is
full, catalogues that cannot be cut. It prints each check that fails and a count, and ends with status 1 where one fails.
"""
import os
import shutil
import subprocess
import sys
import tempfile

HERE = os.path.dirname(os.path.abspath(__file__))
sys.path[1:1] = [os.path.join(HERE, "..", "speed"), os.path.join(HERE, "..", "view")]
import inputs  # noqa: E402
import plan as layout  # noqa: E402

SATELLITES, STATIONS, SHARDS = 200, 3, 7
START, END, RES = "2000-06-28T00:00:00Z", "2000-06-28T01:30:00Z", "10"
FAILED = []
COUNT = [0]


def expect(holds, *what):
    COUNT[0] += 1
    if not holds:
        FAILED.append(what)
        print("failed:", *what)


def moved(k):
    """Satellite k, from 0 to 199, as number 90000 + 60 k: numbers beyond 99,999 among them."""
    return 60 * k


def lines_of(k, day="180.00000000"):
    one, two = inputs.two_lines(moved(k)).split("\n")[:2]
    ecc = "2500000" if k % 13 == 12 else two[26:33]
    return [inputs.closed(one[:20] + day + one[32:68]), inputs.closed(two[:26] + ecc + two[33:68])]


def two_line_catalogue():
    lines = []
    for k in range(SATELLITES):
        lines += (["0 NAME %d" % k] if k % 3 else []) + lines_of(k) + ([" \t"] if k % 17 == 0 else [])
    for k in range(0, SATELLITES, 10):
        lines += ["OTHER"] + lines_of(k, "179.50000000" if k % 20 else "180.02000000")
    return "\r\n".join(lines + [""])


def message(k, epoch):
    motion, ecc = (15_000 - moved(k) % 1000) / 1000, 0.25 if k % 13 == 12 else moved(k) % 200 / 10_000
    name = ["OBJECT_NAME = NAME %d" % k] if k % 3 else []
    values = (motion, ecc, 7 * moved(k) % 176, 37 * moved(k) % 360, 91 * moved(k) % 360, 137 * moved(k) % 360)
    keys = ("MEAN_MOTION", "ECCENTRICITY", "INCLINATION", "RA_OF_ASC_NODE", "ARG_OF_PERICENTER", "MEAN_ANOMALY")
    return [
        "%sCCSDS_OMM_VERS = 2.0" % (" " * (k % 3)), *name, "MEAN_ELEMENT_THEORY = SGP4", "EPOCH = " + epoch,
        *("%s = %s" % row for row in zip(keys, values)), "", "BSTAR = 0.0001", "NORAD_CAT_ID = %05d" % (7 + moved(k)),
    ]


def message_catalogue():
    lines = [line for k in range(SATELLITES) for line in message(k, "2000-06-28T00:00:00")]
    lines += [line for k in range(0, SATELLITES, 10) for line in message(k, "2000-06-28T00:%02d:00" % (k % 60))]
    return "\n".join(lines + [""])


def script(name, *words, **more):
    call = [sys.executable] if name.endswith(".py") else []
    return subprocess.run([*call, os.path.join(HERE, name), *words], capture_output=True, check=False, **more)


def cut(folder, count=SHARDS, start=START, stations="stations", catalogue="catalogue", cwd=None):
    return script("cut.py", catalogue, stations, start, END, RES, str(count), folder, cwd=cwd)


def write(path, text):
    with open(path, "w", encoding="ascii", newline="") as file:
        file.write(text)


def read(path):
    with open(path, "rb") as file:
        return file.read()


def whole_run(program, folder):
    words = ["plan", "--catalogue=catalogue", "--stations=stations", "--start=" + START, "--end=" + END, "--res=" + RES]
    return subprocess.run([program] + words, cwd=folder, capture_output=True, check=False)


def agree(program, folder, what):
    """Cut, plan and merge; the plan of one run, and the folder of the shards."""
    shards = os.path.join(folder, "shards")
    expect(cut("shards", cwd=folder).returncode == 0, what, "is cut")
    done = script("run.sh", program, shards, "--jobs", "1")
    expect(done.returncode == 0, what, "every shard is planned", done.stderr.decode()[-500:])
    one, many = whole_run(program, folder), script("merge.py", shards)
    expect(one.returncode in (0, 1), what, "the whole catalogue is planned", one.stdout[:200])
    expect(many.stdout == one.stdout, what, "equal bytes", len(many.stdout), len(one.stdout), many.stderr.decode())
    expect(many.returncode == one.returncode, what, "equal status", many.returncode, one.returncode)
    head = layout.read_plan(one.stdout).head
    expect((len(head.sats), len(head.stations)) == (SATELLITES, STATIONS), what, "as many as asked for")
    expect(sum(sat.fate != "OK" for sat in head.sats) == SATELLITES // 13, what, "refused satellites among them")
    before = os.stat(os.path.join(shards, "shard-0002.plan")).st_mtime_ns
    os.remove(os.path.join(shards, "shard-0003.plan"))
    again = script("run.sh", program, shards, "--jobs", "1")
    expect(again.returncode == 0 and os.stat(os.path.join(shards, "shard-0002.plan")).st_mtime_ns == before, what, "a second call leaves out what is done")
    expect(script("one.sh", program, shards, "shard-0003").returncode == 0, what, "one shard again")
    return one.stdout, shards


def refused(folder, shards, word, change):
    """The merge of a copy of the shards with one change is refused with this word, and writes nothing."""
    copy = os.path.join(folder, "copy")
    shutil.rmtree(copy, ignore_errors=True)
    shutil.copytree(shards, copy)
    change(copy)
    done = script("merge.py", copy)
    said = done.stderr.decode()
    expect(done.returncode == 2 and done.stdout == b"" and word in said, "refused:", word, "got", done.returncode, said)


def replaced(name, old, new):
    def change(copy):
        path = os.path.join(copy, name)
        text = read(path)
        assert old in text, (name, old)
        with open(path, "wb") as file:
            file.write(text.replace(old, new, 1))

    return change


def moved_file(source, target):
    return lambda copy: shutil.copyfile(os.path.join(copy, source), os.path.join(copy, target))


def cut_short(copy):
    path = os.path.join(copy, "shard-0002.plan")
    os.truncate(path, os.path.getsize(path) // 2)


def refusals(program, folder, shards):
    refused(folder, shards, "shard-0003 is missing", lambda copy: os.remove(os.path.join(copy, "shard-0003.status")))
    refused(folder, shards, "shard-0003 is missing", lambda copy: os.remove(os.path.join(copy, "shard-0003.plan")))
    refused(folder, shards, "shard-0002.plan is cut", cut_short)
    refused(folder, shards, "those of shard-0001", moved_file("shard-0001.plan", "shard-0003.plan"))
    refused(folder, shards, "no shard in the manifest", moved_file("shard-0001.plan", "shard-0008.plan"))
    refused(folder, shards, "another station file", replaced("stations", b'mask = "15"', b'mask = "16"'))
    refused(folder, shards, "another window", replaced("request", b"01:30:00Z", b"01:30:01Z"))
    refused(folder, shards, "another shard of the catalogue", replaced("shard-0004.status", b" ", b" 0"))
    refused(folder, shards, "failed with status 4", replaced("shard-0004.status", read(os.path.join(shards, "shard-0004.status"))[:2], b"4 "))
    refused(folder, shards, "not the plan of a run", replaced("shard-0004.status", b"1 ", b"0 "))
    refused(folder, shards, "the manifest is cut", replaced("manifest", b"END\n", b""))
    refused(folder, shards, "--beyond", replaced("manifest", b"SETS 220", b"SETS 20000"))
    refused(folder, shards, "cut the catalogue into more shards", full)
    for word, words in (("another window", {"start": "2000-06-28T00:00:01Z"}), ("another list of stations", {"stations": "less"})):
        other = os.path.join(folder, "other")
        shutil.rmtree(other, ignore_errors=True)
        cut("other", cwd=folder, **words)
        script("one.sh", program, other, "shard-0005")
        same = read(os.path.join(shards, "shard-0005.status"))
        refused(folder, shards, word, lambda copy: (moved_file("../other/shard-0005.plan", "shard-0005.plan")(copy), replaced("shard-0005.status", read(os.path.join(copy, "shard-0005.status")), same)(copy)))


def full(copy):
    """A pair row that is spans without a visible one, made full."""
    path = os.path.join(copy, "shard-0006.plan")
    lines = read(path).decode().split("\n")
    at = next(k for k, line in enumerate(lines) if line.startswith("PAIR ") and line.endswith(" SPANS 1") and lines[k + 1].startswith("H"))
    lines[at : at + 2] = [lines[at].replace("SPANS 1", "FULL " + lines[at + 1].split()[1])]
    write(path, "\n".join(lines))


def uncut(folder):
    """Catalogues that cannot be cut, the line that is named, and folders that are not empty."""
    one, two = lines_of(0)
    wrong = [("\n \r\n", 1), (one + "\n", 1), ("NAME\n" + one + "\n", 1), ("NAME\nNAME\n" + one + "\n" + two, 1), (one + "\n" + two + "\n\n" + two + "\n", 4)]
    wrong += [(one[:2] + "I0005" + one[7:] + "\n" + two, 1), ("CCSDS_OMM_VERS = 2.0\nBSTAR = 0\n", 1), ("CCSDS_OMM_VERS = 2.0\nNORAD_CAT_ID = 1\n\nCCSDS_OMM_VERS = 2.0\n", 4)]
    for text, line in wrong:
        write(os.path.join(folder, "wrong"), text)
        done = cut("never", catalogue="wrong", cwd=folder)
        expect(done.returncode == 2 and b"line %d:" % line in done.stderr, "not cut:", repr(text[:40]), done.stderr.decode())
        shutil.rmtree(os.path.join(folder, "never"), ignore_errors=True)
    expect(cut("shards", cwd=folder).returncode == 2, "a folder that is not empty is refused")
    write(os.path.join(folder, "wrong"), "\n".join([one, two, *lines_of(1)]))
    expect(cut("few", catalogue="wrong", cwd=folder).returncode == 0, "two satellites are cut")
    names = [name for name in os.listdir(os.path.join(folder, "few")) if name.startswith("shard-")]
    expect(len(names) == 2, "no shard is empty", names)


def failing(program, folder):
    """A shard whose run fails fails the whole."""
    texts = [line for k in range(4) for line in lines_of(k)]
    write(os.path.join(folder, "broken"), "\n".join(texts[:-1] + [texts[-1][:-2]]) + "\n")
    shards = os.path.join(folder, "failing")
    expect(cut("failing", count=4, catalogue="broken", cwd=folder).returncode == 0, "a wrong set is cut")
    expect(script("run.sh", program, shards, "--jobs", "1").returncode == 1, "a failed shard fails the run")
    done = script("merge.py", shards)
    expect(done.returncode == 2 and b"shard-0004 failed with status 4: error catalogue set" in done.stderr, "the fault is told", done.stderr.decode())


def main():
    program = os.path.abspath(sys.argv[1] if len(sys.argv) > 1 else os.path.join(HERE, "../../crates/passplan/out/passplan"))
    if shutil.which("parallel") is None:
        print("test.py: skipped, parallel is not installed (apt-get install parallel)")
        return 0
    for what, catalogue in (("two-line sets", two_line_catalogue()), ("messages", message_catalogue())):
        with tempfile.TemporaryDirectory() as folder:
            write(os.path.join(folder, "catalogue"), catalogue)
            write(os.path.join(folder, "stations"), inputs.stations(STATIONS))
            write(os.path.join(folder, "less"), inputs.stations(STATIONS - 1))
            shards = agree(program, folder, what)[1]
            if what == "two-line sets":
                refusals(program, folder, shards)
                uncut(folder)
                failing(program, folder)
    print("test.py: %d checks, %d failed" % (COUNT[0], len(FAILED)))
    return 1 if FAILED else 0


if __name__ == "__main__":
    sys.exit(main())
