"""Makes the tables of expected values again that stand in crates of tests, and compares them with what stands there.

    python3 tools/program/tables.py

Each script that writes a table is run in a folder of its own, and its text compared with the file in crates, but for blanks, ends of
lines, commas and `_`, which the formatter places. Of the scripts that print rows, each row must stand in its file in its form. So a
value that was changed in the table alone, or a script that makes another one than it did, is seen. It prints each difference and a
count, and ends with status 1 where there is one. It needs mpmath; `prefixes.py` is left out where Python has no tomllib, and that is said.
"""
import importlib.util
import os
import re
import subprocess
import sys
import tempfile

TOP = os.path.normpath(os.path.join(os.path.dirname(os.path.abspath(__file__)), "..", ".."))
WRITERS = {
    "tools/catalogue/expected.py": "rows_messages", "tools/numbers/expected.py": "rows_numbers", "tools/numbers/slope_values.py": "rows_lin",
    "tools/orbit/constants.py": "rows_init", "tools/orbit/kepler_roots.py": "rows_kepler", "tools/orbit/mean_elements.py": "rows_orbit",
    "tools/orbit/positions.py": "rows_place", "tools/orbit/recovered_motion.py": "rows_motion", "tools/shade/expected.py": "rows_shade",
    "tools/sky/expected.py": "rows_sky", "tools/stations/expected.py": "rows_view",
}


def form(text):
    """A text without what the formatter places, and without comments."""
    return re.sub(r"[\s,_]", "", re.sub(r"//[^\n]*", "", text))


def sunrise(line):
    """A printed window as the program's line of its span."""
    first, last, mark = line.split()
    return f"{mark} {first}0Z {last}0Z"


def prefix(line):
    """A printed fault of front parts as a row of the table: their greatest length, and the fault."""
    _, last, fault, *rest = line.split(" ")
    if fault.startswith("("):
        _, index, key = (part.strip("(),'") for part in [fault] + rest[:2])
        fault = f"Shape {{ index: {index}, key: StKey::{key} }}"
    return f"({last}, StFault::{fault})"


# scripts that print rows: the file, which of the lines are rows, and a row in the form of the file
PRINTERS = {
    "tools/catalogue/prefixes.py": ("rows_show/src/cuts.rt", lambda line: True, lambda line: line),
    "tools/numbers/root_digests.py": ("rows_roots/src/classes.rt", lambda line: True, lambda line: line),
    "tools/grid/sets.py": ("rows_grid/src/sets.rt", lambda line: True, lambda line: line),
    "tools/pairs/expected.py": ("rows_cells/src/pairs.rt", lambda line: True, lambda line: line),
    "tools/day/sunrises.py": ("rows_day/src/sunrises.rt", lambda line: line.startswith(" "), sunrise),
    "tools/stations/prefixes.py": ("rows_stations/src/stations.rt", lambda line: " None " not in line, prefix),
}


def run(script, folder):
    """What a script prints, run at the top of a copy; None where it fails."""
    environment = dict(os.environ, PYTHONDONTWRITEBYTECODE="1")
    done = subprocess.run([sys.executable, script], cwd=folder, env=environment, capture_output=True, text=True)
    if done.returncode != 0:
        print(f"{script} fails: {done.stderr.strip().splitlines()[-1:]}")
        return None
    return done.stdout


def text_of(path):
    with open(path, encoding="utf-8") as file:
        return file.read()


def is_written_alike(script, crate, folder):
    path = f"crates/{crate}/src/expected.rt"
    os.makedirs(os.path.dirname(os.path.join(folder, path)))
    if run(script, folder) is None:
        return False
    alike = form(text_of(os.path.join(folder, path))) == form(text_of(os.path.join(TOP, path)))
    if not alike:
        print(f"{script} writes another {path}")
    return alike


def is_printed_alike(script, path, is_row, row, folder):
    printed, held = run(script, folder), form(text_of(os.path.join(TOP, "crates", path)))
    if printed is None:
        return False
    rows = [row(line) for line in printed.splitlines() if is_row(line)]
    absent = [line for line in rows if form(line) not in held]
    for line in absent:
        print(f"{script} prints a row that is not in crates/{path}: {line}")
    return bool(rows) and not absent


def main():
    found = []
    with tempfile.TemporaryDirectory() as folder:
        os.symlink(os.path.join(TOP, "tools"), os.path.join(folder, "tools"))
        for script, crate in WRITERS.items():
            found.append(is_written_alike(script, crate, folder))
        for script, about in PRINTERS.items():
            if script == "tools/stations/prefixes.py" and importlib.util.find_spec("tomllib") is None:
                print(f"{script} is left out: this Python has no tomllib")
                continue
            found.append(is_printed_alike(script, *about, folder))
    print(f"{len(found)} tables, {found.count(False)} differ")
    return 1 if False in found else 0


if __name__ == "__main__":
    sys.exit(main())
