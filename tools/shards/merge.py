"""Puts the plans of the shards of a folder together: the bytes that one run on the whole catalogue prints.

    python3 tools/shards/merge.py FOLDER [--beyond] > PLAN

Satellites and their rows stand in the order of the shards, which is that of the catalogue; each table has the contacts of all
shards by start, end and number. It ends with status 0 or 1, as the run on the whole catalogue does, and with 2 and a message where
the shards make no plan:

- a shard of the manifest has no plan, its run has not ended, or it ended with a status above 1;
- a plan is cut or not of the layout (tools/view/plan.py), has the satellites of another shard, or is of no shard;
- a shard was planned with another window, resolution, offset, other stations or another catalogue than the folder has;
- a row is FULL, since what is full is the plan of its shard: cut the catalogue into more shards. (With one shard it is taken.)

More than 1,048,576 spans or 16,384 element sets are more than one run takes: the merged plan is then no run's, and is written only
with --beyond. What it says of each satellite is what the run of its shard says. It needs nothing but Python.
"""
import hashlib
import os
import sys

sys.path.insert(1, os.path.join(os.path.dirname(os.path.abspath(__file__)), "..", "view"))
import plan as layout  # noqa: E402

SPANS = 1_048_576
SETS = 16_384


class NotMerged(Exception):
    pass


def read_file(path):
    with open(path, "rb") as file:
        return file.read()


def digest(path):
    return hashlib.sha256(read_file(path)).hexdigest()


def read_manifest(folder):
    """The sets of the catalogue, and each shard's name, digest and numbers."""
    lines = read_file(os.path.join(folder, "manifest")).decode().split("\n")
    if lines[0] != "SHARDS 1" or lines[-2:] != ["END", ""]:
        raise NotMerged("the manifest is cut")
    shards = [line.split(" ") for line in lines[2:-2]]
    return int(lines[1].split(" ")[1]), [(fields[1], fields[2], [int(number) for number in fields[3:]]) for fields in shards]


def ended(folder, name, wanted):
    """The status of a shard's run, with what the run read."""
    path = os.path.join(folder, name)
    if not os.path.exists(path + ".status"):
        raise NotMerged("%s is missing: its run has not ended" % name)
    status, *digests = read_file(path + ".status").decode().split()
    if int(status) > 1:
        said = read_file(path + ".plan").decode(errors="replace").strip() if os.path.exists(path + ".plan") else ""
        raise NotMerged("%s failed with status %s: %s" % (name, status, said[:200]))
    for what, found, right in zip(("shard of the catalogue", "station file", "window or resolution"), digests, wanted):
        if found != right:
            raise NotMerged("%s was planned with another %s" % (name, what))
    if not os.path.exists(path + ".plan"):
        raise NotMerged("%s is missing: it has no plan" % name)
    return int(status)


class Part:
    """The plan of a shard: its head, lines of satellites and rows, contacts by station."""

    def __init__(self, folder, name, status, alone):
        text = read_file(os.path.join(folder, name + ".plan"))
        try:
            plan = layout.read_plan(text)
        except layout.Refused as fault:
            raise NotMerged("%s.plan is cut or damaged: %s" % (name, fault)) from fault
        rows = list(plan.lit.values()) + list(plan.pair.values())
        if not alone and any(row.kind == "FULL" for row in rows):
            raise NotMerged("%s has used up its spans (FULL): cut the catalogue into more shards" % name)
        if layout.is_whole(plan) != (status == 0):
            raise NotMerged("%s.plan is not the plan of a run that ended with status %d" % (name, status))
        self.name, self.head, self.tables = name, plan.head, plan.tables
        self.numbers = [sat.number for sat in plan.head.sats]
        self.spans = sum(len(row.spans) for row in rows)
        lines = text.split(b"\n")
        first = 2 + (plan.head.dut1 != 0) + len(plan.head.stations)
        table = next(k for k, line in enumerate(lines) if line.startswith(b"TABLE "))
        last = first + len(self.numbers)
        self.top, self.sats, self.rows = lines[:first], lines[first:last], lines[last:table]

    def agrees(self, other):
        """Window, resolution, offset and stations are the other's."""
        names = ("window", "window", "resolution", "offset of UT1", "list of stations")
        for what, mine, its in zip(names, self.head, other.head):
            if mine != its:
                raise NotMerged("%s has another %s than %s" % (self.name, what, other.name))


def read_parts(folder, shards):
    """The shards' plans, and whether all are whole."""
    owners = {number: name for name, _, numbers in shards for number in numbers}
    shared = [digest(os.path.join(folder, name)) for name in ("stations", "request")]
    names, parts, whole = [name for name, _, _ in shards], [], True
    for file in sorted(os.listdir(folder)):
        if file.endswith(".plan") and file[: -len(".plan")] not in names:
            raise NotMerged("%s is the plan of no shard in the manifest" % file)
    for name, sum_of, numbers in shards:
        status = ended(folder, name, [sum_of, *shared])
        part = Part(folder, name, status, len(shards) == 1)
        if part.numbers != numbers:
            other = owners.get(part.numbers[0], "no shard") if part.numbers[0] != numbers[0] else "fewer, or in another order"
            raise NotMerged("%s.plan has other satellites than its shard: those of %s" % (name, other))
        part.agrees(parts[0] if parts else part)
        parts.append(part)
        whole = whole and status == 0
    return parts, whole


def merged(parts):
    """The lines of the whole plan."""
    yield from parts[0].top
    for part in parts:
        yield from part.sats
    for part in parts:
        yield from part.rows
    for k in range(len(parts[0].head.stations)):
        contacts = sorted(contact for part in parts for contact in part.tables[k])
        yield b"TABLE %d %d" % (k + 1, len(contacts))
        for contact in contacts:
            yield b"PASS %s %s %d" % (layout.to_text(contact.start).encode(), layout.to_text(contact.end).encode(), contact.number)
    yield b"END"


def check_limits(parts, sets, beyond):
    spans = sum(part.spans for part in parts)
    if not beyond and (spans > SPANS or sets > SETS):
        raise NotMerged("%d spans and %d element sets are more than one run takes; --beyond merges them nevertheless" % (spans, sets))


def main():
    beyond, words = "--beyond" in sys.argv[1:], [word for word in sys.argv[1:] if word != "--beyond"]
    if len(words) != 1:
        sys.exit(__doc__)
    try:
        sets, shards = read_manifest(words[0])
        parts, whole = read_parts(words[0], shards)
        check_limits(parts, sets, beyond)
    except (NotMerged, OSError) as fault:
        print("merge.py: %s" % fault, file=sys.stderr)
        return 2
    for line in merged(parts):
        sys.stdout.buffer.write(line + b"\n")
    return 0 if whole else 1


if __name__ == "__main__":
    sys.exit(main())
