"""The lines of a message, for the scripts beside it."""
import re


def entries(lines):
    """Of each line that counts its number from 1, its keyword and its value; no keyword where it has no form."""
    for number, line in enumerate(lines, 1):
        line = line.strip(" \t\r")
        if not line or re.match(r"COMMENT($|[ \t])", line):
            continue
        entry = re.match(r"([A-Z0-9_]+)[ \t]*=[ \t]*(.*)$", line)
        yield (number, entry[1], entry[2]) if entry else (number, None, None)
