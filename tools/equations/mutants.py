"""Texts of definitions with one token of a formula changed: a digit, a sign, an operator or a name."""
import re

from spec_text import Specs

SWAPS = {"+ℚ": ["-ℚ"], "-ℚ": ["+ℚ"], "*ℚ": ["/ℚ", "+ℚ"], "/ℚ": ["*ℚ"], "≤ℚ": ["<ℚ"], "<ℚ": ["≤ℚ"], "sine": ["cosine"], "cosine": ["sine"],
         "neg_ℚ": [""], "abs_ℚ": [""], "one_ℚ": ["zero_ℚ"], "zero_ℚ": ["one_ℚ"], "whole": ["decimal 1"]}
WORD = re.compile(r"[A-Za-z_ℚ][\w'ℚ]*|\d+|[-+*/^]ℚ|[≤<]ℚ|→")
UNREAD = ("--", "use ", "module", "abbrev", "unfoldable", "pub record", "pub data", "record {", "}")


def digits(word):
    """A numeral with each of its digits changed by one, up and down."""
    for place, digit in enumerate(word):
        for new in (int(digit) + 1, int(digit) - 1):
            if 0 <= new <= 9:
                yield word[:place] + str(new) + word[place + 1 :]


def changes(word, names):
    """What a token is changed to; `names` are lists of names that stand for each other."""
    found = list(digits(word)) if word.isdigit() else list(SWAPS.get(word, []))
    for group in names:
        if word in group:
            place = group.index(word)
            found += [group[(place + step) % len(group)] for step in (1, -1, 2)]
    return [new for new in dict.fromkeys(found) if new != word]


def formulas(text, unread):
    """The tokens of a text's formulas: the number of the line, the token's match, and the names that are open there."""
    opened = []
    for number, line in enumerate(text.split("\n")):
        found = re.match(r"\s*open \w+ use \{(.*)\}", line)
        opened = [] if line.startswith("module") else opened + (found.group(1).split(", ") if found else [])
        if found or not line.strip() or line.strip().startswith(UNREAD + unread):
            continue
        left = re.match(r"\s*(pub \S+ :|\w[\w ]* =(?= )|\w[\w ]* =$)", line)
        if re.match(r"\s*pub \w+ : \w+$", line):
            continue
        for token in WORD.finditer(line, left.end() if left else 0):
            yield number, line, token, opened


def mutants(texts, files, names=(), unread=()):
    """Texts with one token of a formula of these files changed, and where; lines that begin with `unread` are left out. The names of a
    record's fields stand for each other, and so do names that are opened together."""
    records = Specs(texts).records.values()
    fields = [[field for field, _ in record["fields"]] for record in records if record["quantities"]]
    for name in files:
        lines = texts[name].split("\n")
        for number, line, token, opened in formulas(texts[name], unread):
            word, before, after = token.group(), line[: token.start()], line[token.end() :]
            for new in changes(word, fields if before.endswith(".") else [opened, *names]):
                text = "\n".join(lines[:number] + [before + new + after] + lines[number + 1 :])
                yield f"{name}:{number + 1}: {word} -> {new or 'nothing'} in{before}[{word}]{after}", dict(texts, **{name: text})



def judge(changed, is_noticed):
    """Tries each change, prints those that are not noticed, and counts."""
    tried, left = 0, 0
    for where, texts in changed:
        tried += 1
        if not is_noticed(texts):
            left += 1
            print("not noticed:", where, flush=True)
    print(f"{tried} changes, {left} not noticed")
