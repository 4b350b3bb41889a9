"""Cuts a catalogue into shards by satellites, so that each can be planned by a run of its own.

    python3 tools/shards/cut.py CATALOGUE STATIONS START END RES COUNT FOLDER

makes FOLDER, which must not be there or be empty, with

    shard-0001 ..   files of element sets: all sets of a number stand in one shard, in the order of the catalogue, and the shards
                    have the satellites in the order in which they first appear there
    stations        the station file
    request         the words --start, --end and --res, one a line
    manifest        the sets of the catalogue, and for each shard its digest and the numbers of its satellites

COUNT shards have as many satellites each, up to one; where there are fewer satellites than that, each has a shard. Then run.sh or
slurm.sh plans them and merge.py puts the plans together.

Only what is needed to cut is read: which lines make a set and its number. A file in which these cannot be found is refused with
the line, and status 2; the program says of the whole file what is wrong with it. All other faults the run of a shard finds.
It needs nothing but Python.
"""
import hashlib
import os
import shutil
import sys

LETTERS = b"ABCDEFGHJKLMNPQRSTUVWXYZ"  # of catalogue numbers from 100,000, for 10 to 33
FIRST_WORD = b"CCSDS_OMM_VERS"
NUMBER = b"NORAD_CAT_ID"
MOST_SHARDS = 9999


class NotCut(Exception):
    """A file that cannot be cut: the line, from 1, and why."""

    def __init__(self, line, why):
        super().__init__("line %d: %s; run the program on the whole file, it says what is wrong" % (line, why))


def written_lines(data):
    """The lines that are not blank, without blanks at their ends, with their numbers from 1."""
    lines = (line.rstrip(b" \t\r") for line in data.split(b"\n"))
    return [(number, line) for number, line in enumerate(lines, 1) if line]


def alpha_number(text, line):
    """The number of columns 3 to 7."""
    digits = text.lstrip(b" ")
    if digits.isdigit():
        return int(digits)
    if len(digits) == 5 and digits[:1] in [LETTERS[k : k + 1] for k in range(24)] and digits[1:].isdigit():
        return (LETTERS.index(digits[0]) + 10) * 10_000 + int(digits[1:])
    raise NotCut(line, "no catalogue number in columns 3 to 7")


def two_line_sets(lines):
    """Each set's number and its lines, the name line among them."""
    starts = lambda k: k < len(lines) and lines[k][1].startswith(b"1 ")  # noqa: E731
    at = 0
    while at < len(lines):
        first = at if starts(at) and not starts(at + 1) else at + 1
        if first + 1 >= len(lines) or not starts(first):
            raise NotCut(lines[at][0], "neither a set nor a name before one")
        kept = [line for _, line in lines[at : first + 2]]
        yield alpha_number(lines[first][1][2:7], lines[first][0]), kept
        at = first + 2


def keyword(line):
    return line.partition(b"=")[0].strip(b" \t")


def messages(lines):
    """Each message's number and its lines."""
    starts = [k for k, (_, line) in enumerate(lines) if k == 0 or keyword(line) == FIRST_WORD]
    for first, last in zip(starts, starts[1:] + [len(lines)]):
        kept = [lines[first][1].lstrip(b" \t")] + [line for _, line in lines[first + 1 : last]]
        values = [line.partition(b"=")[2].strip(b" \t") for line in kept if keyword(line) == NUMBER]
        if len(values) != 1 or not values[0].isdigit() or len(values[0]) > 9:
            raise NotCut(lines[first][0], "a message without one catalogue number")
        yield int(values[0]), kept


def sets_of(data):
    lines = written_lines(data)
    if not lines:
        raise NotCut(1, "no element sets")
    return list(messages(lines) if lines[0][1].startswith(FIRST_WORD) else two_line_sets(lines))


def shares(sets, count):
    """The numbers of each shard, in order of first appearance."""
    numbers = list(dict.fromkeys(number for number, _ in sets))
    count = min(count, len(numbers))
    ends = [len(numbers) * k // count for k in range(count + 1)]
    return [numbers[low:high] for low, high in zip(ends, ends[1:])]


def shard_text(sets, numbers, is_message):
    chosen = set(numbers)
    text = b"".join(line + b"\n" for number, lines in sets if number in chosen for line in lines)
    if not is_message and text.startswith(FIRST_WORD):
        raise NotCut(1, "a shard would begin with a name that begins with CCSDS_OMM_VERS")
    return text


def write(path, data):
    with open(path, "wb") as file:
        file.write(data)


def cut(data, count, folder):
    """Writes the shards and the manifest."""
    sets = sets_of(data)
    is_message = sets[0][1][0].startswith(FIRST_WORD)
    lines = ["SHARDS 1", "SETS %d" % len(sets)]
    for k, numbers in enumerate(shares(sets, count), 1):
        text, name = shard_text(sets, numbers, is_message), "shard-%04d" % k
        write(os.path.join(folder, name), text)
        lines.append("SHARD %s %s %s" % (name, hashlib.sha256(text).hexdigest(), " ".join(str(number) for number in numbers)))
    write(os.path.join(folder, "manifest"), "\n".join([*lines, "END", ""]).encode())
    return len(lines) - 2, len(sets)


def main():
    if len(sys.argv) != 8 or not sys.argv[6].isdigit() or not 1 <= int(sys.argv[6]) <= MOST_SHARDS:
        sys.exit(__doc__)
    catalogue, stations, start, end, res, count, folder = sys.argv[1:]
    if os.path.isdir(folder) and os.listdir(folder):
        print("cut.py: %s is not empty" % folder, file=sys.stderr)
        return 2
    os.makedirs(folder, exist_ok=True)
    with open(catalogue, "rb") as file:
        data = file.read()
    try:
        shards, sets = cut(data, int(count), folder)
    except NotCut as fault:
        print("cut.py: %s: %s" % (catalogue, fault), file=sys.stderr)
        return 2
    shutil.copyfile(stations, os.path.join(folder, "stations"))
    write(os.path.join(folder, "request"), ("--start=%s\n--end=%s\n--res=%s\n" % (start, end, res)).encode())
    print("%d shards of %d sets in %s" % (shards, sets, folder))
    return 0


if __name__ == "__main__":
    sys.exit(main())
