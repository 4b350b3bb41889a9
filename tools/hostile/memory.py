"""Refuses the memory of a run, one allocation after another: each run ends as it does with ample memory, or with `error memory`,
status 9 and nothing else written.

    python3 tools/hostile/memory.py [PROGRAM]            the built program, with the allocations of the C library (shim.c, by cc)
    python3 tools/hostile/memory.py --try [FIRST LAST]   the crate passplan before it is proved, by `rt try --fail-alloc N`

The runs are a plan of the pole, `show` of a message, `locate`, `day`, `grid --count=1` and `book`; a command that the program has not
is skipped, and that is said. The first form takes each number twice: this allocation alone, and it with all behind it. It needs a
program that is linked with the C library dynamically, as `rt run` links it, and seconds. The second builds the program for each
number, takes minutes, and stops behind eight usual outcomes in a row, since `rt try` does not say how many allocations there are;
FIRST and LAST bound the numbers. Both print a line for each run and end with status 1 where an outcome is another one.
"""
import os
import re
import subprocess
import sys
import tempfile

from runs import FILES, PROGRAM, RUNS, TOP, Ended, knows, run, write_files

WANT = (9, b"error memory\n")
ROW = 8


def built_shim(folder):
    """The shim as a library in the folder, or None where the program cannot take it."""
    made = os.path.join(folder, "shim.so")
    source = os.path.join(os.path.dirname(os.path.abspath(__file__)), "shim.c")
    call = ["cc", "-O1", "-fno-builtin", "-shared", "-fPIC", "-o", made, source]
    return made if subprocess.run(call, check=False).returncode == 0 else None


class Tally:
    def __init__(self):
        self.failed = 0

    def one(self, name, number, usual, ended):
        """Whether the outcome is want of memory; another one than that and the usual one is a failure."""
        found = (ended.status, ended.out)
        if ended.err or found not in (WANT, (usual.status, usual.out)):
            self.failed += 1
            print("%s, allocation %s: %s" % (name, number, ended.said()))
        return found == WANT


def refuse(program, shim, folder, name, tally):
    count = os.path.join(folder, "count")
    given = {"LD_PRELOAD": shim, "REFUSE_COUNT": count}
    usual = run(program, RUNS[name], folder, env=given)
    if usual.status not in (0, 1) or usual.err:
        tally.failed += 1
        return print("%s: %s" % (name, usual.said()))
    with open(count, encoding="ascii") as file:
        calls = int(file.read())
    wants = {}
    for mode in ("REFUSE_AT", "REFUSE_FROM"):
        ends = (run(program, RUNS[name], folder, env={**given, mode: str(k)}) for k in range(1, calls + 1))
        wants[mode] = sum(tally.one(name, "%d (%s)" % (k, mode), usual, ended) for k, ended in enumerate(ends, 1))
    if min(wants.values()) == 0:
        tally.failed += 1
        print("%s: no refused allocation was noticed" % name)
    told = "%s: %d allocations; error memory where one is refused: %d, where all from one on are: %d; the others as usual"
    return print(told % (name, calls, wants["REFUSE_AT"], wants["REFUSE_FROM"]))


def with_shim(program):
    tally = Tally()
    with tempfile.TemporaryDirectory() as folder:
        write_files(folder)
        shim = built_shim(folder)
        if shim is None:
            print("memory.py: skipped, there is no cc")
            return 0
        for name in RUNS:
            if knows(program, name):
                refuse(program, shim, folder, name, tally)
            else:
                print("%s: skipped, the program has no such command" % name)
    print("memory.py: %d failed" % tally.failed)
    return 1 if tally.failed else 0


def tried(folder, words, number):
    data = [part for name in FILES for part in ("--data", "%s=%s" % (name, os.path.join(folder, name)))]
    refuse_one = ["--fail-alloc", str(number)] if number else []
    call = ["rt", "try", *refuse_one, *data, "--", *words]
    done = subprocess.run(call, cwd=os.path.join(TOP, "crates/passplan"), capture_output=True, stdin=subprocess.DEVNULL, check=False)
    ended = re.search(rb"^run=ended status=(\d+)", done.stderr, re.M)
    return Ended(int(ended[1]) if ended else None, done.stdout, b"" if ended else done.stderr[-300:])


def by_try(first, last):
    tally = Tally()
    with tempfile.TemporaryDirectory() as folder:
        write_files(folder)
        for name, words in RUNS.items():
            usual = tried(folder, words, 0)
            if usual.out == b"error usage command\n":
                print("%s: skipped, the program has no such command" % name)
                continue
            wants = row = 0
            for number in range(first, last + 1):
                is_want = tally.one(name, number, usual, tried(folder, words, number))
                wants, row = wants + is_want, 0 if is_want else row + 1
                if row == ROW:
                    break
            tally.failed += wants == 0
            print("%s: %d refused with error memory, up to allocation %d" % (name, wants, number))
    print("memory.py: %d failed" % tally.failed)
    return 1 if tally.failed else 0


def main():
    if sys.argv[1:2] == ["--try"]:
        first, last = map(int, sys.argv[2:4] or (1, 10_000))
        return by_try(first, last)
    return with_shim(os.path.abspath(sys.argv[1] if len(sys.argv) > 1 else PROGRAM))


if __name__ == "__main__":
    sys.exit(main())
