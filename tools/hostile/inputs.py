"""Runs the built program on what it was not made for, and expects an answer of the tables (README, docs/FORMATS.md) each time: never a
signal, never another status, nothing on standard error.

    python3 tools/hostile/inputs.py [PROGRAM [PART..]]

| Part | What is tried |
|---|---|
| `memory` | limits of address space, from what the program needs to be loaded, in steps up to 8 MB beyond what a plan needs: the usual outcome or `error memory` |
| `outputs` | a standard output that is closed, read-only, full, a directory, a pipe whose reader has gone, a file whose size is limited; closed inputs |
| `files` | named pipes, written whole, in bytes and not at all; devices, files of /proc, folders, sockets, links in a ring, names that are too long |
| `names` | names of files and words with each byte but 0 |
| `bytes` | 16 MiB of each byte, and of lines that go deep, as catalogue and as stations, with ample memory and with 8 MB beyond what a plan needs |

It needs nothing but Python on Linux, minutes, and 40 MB of disk. It prints each failure and a count for each part, and ends with
status 1 where there is a failure.
"""
import os
import resource
import signal
import socket
import sys
import tempfile
import threading
import time

import runs
from answers import Refused, read_answer
from runs import HOUR, MOST, POLE, RUNS, SETS, knows, run, write_files

STEP = 64 * 1024
SPARE = 8 * 1024 * 1024
SECONDS = 120
START = "--start=2008-09-20T00:00:00Z"
PLAN = RUNS["plan"]


class Tally:
    def __init__(self, program, folder):
        self.program, self.folder, self.need = program, folder, 0
        self.count, self.failed, self.kinds, self.slowest = 0, 0, {}, (0.0, "")

    def run(self, words, limit=0, **more):
        if limit:
            more["preexec_fn"] = lambda: resource.setrlimit(resource.RLIMIT_AS, (limit, limit))
        begun = time.monotonic()
        ended = run(self.program, words, self.folder, SECONDS, **more)
        self.slowest = max(self.slowest, (time.monotonic() - begun, str(words)[:100]))
        return ended

    def expect(self, holds, what, ended):
        self.count += 1
        if not holds:
            self.failed += 1
            print("failed: %s: %s" % (what, ended.said()))

    def answers(self, what, ended, *wanted, is_short=False):
        """The run ended with an answer of the tables, and where some are named with one of these; with `error memory` only where it
        was short of it."""
        try:
            kind = read_answer(ended.out, ended.status) if ended.status is not None else "no end in %d seconds" % SECONDS
        except Refused as fault:
            kind = str(fault)
        holds = kind.startswith(("PASS", "error ")) and not ended.err and (not wanted or kind in wanted)
        holds = holds and (is_short or kind != "error memory")
        self.expect(holds, "%s (%s)" % (what, kind), ended)
        self.kinds[kind] = self.kinds.get(kind, 0) + 1


def least_limit(tally, words, usual):
    """The least limit of address space, in steps, under which the run ends as usual, found by halving."""
    low, high = 0, 4 * 1024**3 // STEP
    while high - low > 1:
        middle = (low + high) // 2
        ended = tally.run(words, middle * STEP)
        low, high = (low, middle) if (ended.status, ended.out) == usual else (middle, high)
    return high * STEP


def memory(tally):
    """Below the limit under which a run without words ends as usual the system cannot load the program, which says nothing of it."""
    for name, words in RUNS.items():
        if not knows(tally.program, name):
            print("memory: skipped %s, the program has no such command" % name)
            continue
        ended = tally.run(words)
        usual = (ended.status, ended.out)
        loads = least_limit(tally, [], (2, b"error usage nocommand\n"))
        need = least_limit(tally, words, usual)
        ends = []
        for k in range(129):
            limit = loads + (need + SPARE - loads) * k // 128 // 4096 * 4096
            ended = tally.run(words, limit)
            ends.append((ended.status, ended.out) == usual)
            tally.expect(not ended.err and (ends[-1] or (ended.status, ended.out) == (9, b"error memory\n")), "%s with %d bytes" % (name, limit), ended)
        print("memory: %s needs %d kB of address space, of which %d to be loaded" % (name, need // 1024, loads // 1024))


def outputs(tally):
    """A product that cannot be written is status 8, a refusal keeps its status."""
    absent = ["show", "--catalogue=absent", START]
    cases = [(words, 8) for name, words in RUNS.items() if knows(tally.program, name)] + [(["--help"], 2), (absent, 6)]
    reader, writer = os.pipe()
    os.close(reader)
    closed = {"preexec_fn": lambda: os.close(1), "stdout": None}
    limited = lambda: (signal.signal(signal.SIGXFSZ, signal.SIG_IGN), resource.setrlimit(resource.RLIMIT_FSIZE, (10, 10)))  # noqa: E731
    with open("/dev/full", "wb") as full, open("/dev/null", "rb") as only, open(os.path.join(tally.folder, "short"), "wb") as short:
        where = os.open(tally.folder, os.O_RDONLY)
        kinds = [("closed", closed), ("read-only", {"stdout": only}), ("full", {"stdout": full}), ("a folder", {"stdout": where})]
        kinds += [("a pipe without a reader", {"stdout": writer}), ("a file of 10 bytes", {"stdout": short, "preexec_fn": limited})]
        for words, wanted in cases:
            for kind, more in kinds:
                short.seek(0)
                short.truncate()
                ended = tally.run(words, **more)
                tally.expect(ended.status == wanted and not ended.err, "%s, standard output %s" % (words[0], kind), ended)
            everything = tally.run(words, preexec_fn=lambda: [os.close(k) for k in (0, 1, 2)], stdin=None, stdout=None, stderr=None)
            tally.expect(everything.status == wanted, "%s, all closed" % words[0], everything)
            tally.answers("%s, standard input closed" % words[0], tally.run(words, stdin=None, preexec_fn=lambda: os.close(0)))
        os.close(where)
    os.close(writer)


def through_pipe(tally, text, pieces):
    """How a plan ends whose catalogue is a named pipe into which the text goes in pieces."""
    path = os.path.join(tally.folder, "pipe")
    os.mkfifo(path)

    def feed():
        try:
            with open(path, "wb", buffering=0) as pipe:
                for at in range(0, len(text), pieces):
                    pipe.write(text[at : at + pieces])
        except BrokenPipeError:
            pass

    feeder = threading.Thread(target=feed)
    feeder.start()
    ended = tally.run(["plan", "--catalogue=pipe", "--stations=p"] + HOUR)
    os.close(os.open(path, os.O_RDONLY | os.O_NONBLOCK))  # where the program did not open it, this lets the feeder end
    feeder.join()
    os.remove(path)
    return ended


PROC = ["/proc/self/" + name for name in "auxv cmdline exe fd io limits maps mounts pagemap smaps stat status syscall wchan".split()]
PROC += ["/proc/" + name for name in "cpuinfo filesystems interrupts loadavg meminfo stat uptime version".split()]


def files(tally):
    for pieces in (len(SETS), 1, 69, 70, 4096):
        tally.answers("a pipe in pieces of %d" % pieces, through_pipe(tally, SETS, pieces), "PASSPLAN")
    tally.answers("a pipe with nothing", through_pipe(tally, b"", 1), "error catalogue empty")
    tally.answers("a pipe of 16 MiB", through_pipe(tally, b"\n" * MOST, 65_536), "error catalogue empty")
    tally.answers("a pipe of a byte more", through_pipe(tally, b"\n" * (MOST + 1), 65_536), "error toolong")
    tally.answers("a pipe that ends within a line", through_pipe(tally, SETS[:100], 7), "error catalogue set tle length", "error catalogue odd")
    with socket.socket(socket.AF_UNIX) as own:
        own.bind(os.path.join(tally.folder, "socket"))
    os.symlink("ring", os.path.join(tally.folder, "ring"))
    os.symlink("c", os.path.join(tally.folder, "link"))
    reads = dict.fromkeys(("socket", "ring", ".", "/", "c/", "x" * 5000, "/proc/self/mem"), "error read")
    reads.update(dict.fromkeys(("/dev/zero", "/dev/full", "/dev/urandom"), "error toolong"))
    reads.update({"/dev/null": "error catalogue empty", "/dev/stdin": "error catalogue empty", "link": "PASSSHOW"})
    for name, wanted in reads.items():
        tally.answers("catalogue %r" % name[:20], tally.run(["show", "--catalogue=" + name, START]), wanted)
    for name in PROC:
        tally.answers("catalogue " + name, tally.run(["show", "--catalogue=" + name, START]))
        tally.answers("stations " + name, tally.run(["plan", "--catalogue=c", "--stations=" + name] + HOUR))


def is_text(word):
    try:
        return bool(word.decode())
    except UnicodeDecodeError:
        return False


def names(tally):
    """A word that is no UTF-8 is refused at its place; any other name opens the file of that name."""
    for byte in range(1, 256):
        for name in (bytes([byte]), b"a%cb" % byte, "\u00e4%c" % byte if byte < 128 else bytes([0xC3, byte])):
            name = name.encode() if isinstance(name, str) else name
            is_file = b"/" not in name and name not in (b".", b"..")
            if is_file:
                write_files(os.fsencode(tally.folder), {name: SETS})
            wanted = ("PASSSHOW" if is_file else "error read",) if is_text(name) else ("error usage word",)
            tally.answers("the name %r" % name, tally.run(["show", b"--catalogue=" + name, START]), *wanted)
            dashed = ("error usage word",) if name.startswith(b"-") else wanted
            tally.answers("the name %r in a word" % name, tally.run(["show", START, "--catalogue", name]), *dashed)
            if is_file:
                os.remove(os.path.join(os.fsencode(tally.folder), name))
                write_files(tally.folder)  # one of which may have had this name
        byte = bytes([byte])
        tally.answers("the command %r" % byte, tally.run([byte]), "error usage command")
        tally.answers("the option %r" % byte, tally.run(["show", START, b"--" + byte + b"=c"]), "error usage word")
        tally.answers("the number %r" % byte, tally.run(["locate", "--catalogue=c", b"--number=" + byte, "--at=2000-06-27T00:00:00Z"]))
        tally.answers("the instant %r" % byte, tally.run(["show", "--catalogue=c", b"--start=2008-09-20T00:00:00" + byte]))
    tally.answers("many words", tally.run(["day"] * 20_000), "error usage word")
    tally.answers("a long word", tally.run(["show", START, "--catalogue=" + "x" * 120_000]), "error read")
    tally.answers("no words, no name", tally.run([]), "error usage nocommand")


LINES = [SETS, SETS[:70], SETS[70:], b"1 \n", b"0 NAME\n", b" \t\r\n", b"CCSDS_OMM_VERS = 2.0\n", b"COMMENT\n", b"=\n", b"\xc3\xa4", b"\xf0\x9f\x9b\xb0"]
LINES += [runs.MESSAGE, POLE, b"[[station]]\n", b"[a]\n", b"a.", b"a=[", b"[", b"{", b"a={b=", b'"', b'"""', b"'''", b"\\", b"# \n", b"0", b"1_", b"9e", b"a=1\n"]
HEADS = [b"", b"a=", b"version = 1\n", POLE, b"CCSDS_OMM_VERS = 2.0\nOBJECT_NAME = ", SETS, b"version = 1\nstation = [", b"version = "]


def numbered():
    """Lines that all differ, up to 16 MiB."""
    return b"".join(b"k%07d = %d\n" % (k, k) for k in range(MOST // 19))


def big(tally):
    for byte in range(256):
        yield "byte %d" % byte, bytes([byte]) * MOST
    for line in LINES:
        for head in HEADS:
            yield "%r and then %r" % (head[:20], line[:20]), (head + line * (MOST // len(line)))[:MOST]
    yield "lines that differ", numbered()
    yield "a byte too many", b"\n" * (MOST + 1)


def whole_bytes(tally):
    limit = tally.need + SPARE
    for what, text in big(tally):
        write_files(tally.folder, {"big": text})
        for words in (["show", "--catalogue=big", START], ["plan", "--catalogue=c", "--stations=big"] + HOUR):
            tally.answers("16 MiB, %s, %s" % (words[0], what), tally.run(words))
            tally.answers("16 MiB, %s, %s, little memory" % (words[0], what), tally.run(words, limit), is_short=True)


PARTS = {"memory": memory, "outputs": outputs, "files": files, "names": names, "bytes": whole_bytes}


def main():
    program = os.path.abspath(sys.argv[1] if len(sys.argv) > 1 else runs.PROGRAM)
    failed = 0
    for part in sys.argv[2:] or PARTS:
        with tempfile.TemporaryDirectory() as folder:
            write_files(folder)
            tally = Tally(program, folder)
            if part == "bytes":
                ended = tally.run(PLAN)
                tally.need = least_limit(tally, PLAN, (ended.status, ended.out))
            PARTS[part](tally)
            failed += tally.failed
            kinds = ", ".join("%s %d" % row for row in sorted(tally.kinds.items()))
            print("%s: %d checks, %d failed; slowest %.1f s %s%s" % (part, tally.count, tally.failed, *tally.slowest, "; " + kinds if kinds else ""))
    return 1 if failed else 0


if __name__ == "__main__":
    sys.exit(main())
