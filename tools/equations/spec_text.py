"""Reads the definitions of crates/sgp4_model/specs as they stand and evaluates them in high precision.

A record of facts is gone through field by field: an equation gives its left side a value, or is checked where it has one;
IsPi, IsSinCos, IsSqrt and IsCbrt2 give their results the exact values; a fact under a condition counts where the condition
holds; a name of a fact stands for what it says; every other fact is checked. A quotient by anything but a constant is refused where no fact said before, in the same words,
that its divisor is not 0. No formula of the orbit stands in this file.
"""
import re
from functools import lru_cache
from fractions import Fraction
from pathlib import Path

import mpmath as mp

TOKEN = re.compile(r"\s+|--[^\n]*\n|([A-Za-z_ℚℕℤ][\w₀-₉'ℚℕℤ]*|\d+|[-+*/^]ℚ|[≤<]ℚ|≡|→|×|¬|[-+*/^%(){}:;,.=λ∷|⊎])")
SET_TYPES = {"ℚ", "ℕ", "ℤ"}
BINARY = {"⊎": (3, 0), "≡": (4, 0), "≤ℚ": (4, 0), "<ℚ": (4, 0), "+ℚ": (6, 1), "-ℚ": (6, 1), "*ℚ": (7, 1), "/ℚ": (7, 1), "^ℚ": (8, 2), "^": (8, 2),
          "-": (6, 1), "*": (7, 1), "%": (7, 1)}


class Failed(Exception):
    """A fact of the definitions does not hold."""


class Unheld(Failed):
    """A comparison of the definitions does not hold, or no side of an alternative."""


def tokens_of(text):
    tokens, at = [], 0
    text += "\n"
    while at < len(text):
        match = TOKEN.match(text, at)
        if not match:
            raise SyntaxError(f"cannot read {text[at:at + 40]!r}")
        if match.group(1):
            tokens.append(match.group(1))
        at = match.end()
    return tokens


class Parser:
    """Terms: ('num', n), ('name', path), ('app', f, args), (operator, a, b), ('arrow', a, b), ('record', fields), ('field', a, name)."""

    def __init__(self, tokens):
        self.tokens, self.at = tokens, 0

    def peek(self):
        return self.tokens[self.at] if self.at < len(self.tokens) else None

    def take(self, wanted=None):
        token = self.peek()
        if wanted is not None and token != wanted:
            raise SyntaxError(f"{wanted} wanted, {token} found: {' '.join(self.tokens)}")
        self.at += 1
        return token

    def term(self):
        left = self.binary(0)
        if self.peek() == "→":
            self.take()
            return ("arrow", left, self.term())
        return left

    def binary(self, least):
        left = self.application()
        while self.peek() in BINARY and BINARY[self.peek()][0] >= least:
            level, side = BINARY[self.peek()]
            operator = self.take()
            right = self.binary(level if side == 2 else level + 1)
            left = (operator, left, right)
        return left

    def application(self):
        head, args = self.atom(), []
        while self.peek() is not None and (self.peek() == "(" or re.match(r"[\w¬]", self.peek())):
            args.append(self.atom())
        return ("app", head, args) if args else head

    def atom(self):
        token = self.take()
        if token == "(":
            inner = self.term()
            self.take(")")
            while self.peek() == ".":
                self.take()
                inner = ("field", inner, self.take())
            return inner
        if token.isdigit():
            return ("num", int(token))
        if token == "record":
            return self.record()
        if not re.match(r"[\w¬]", token):
            raise SyntaxError(f"{token}: {' '.join(self.tokens)}")
        path = [token]
        while self.peek() == ".":
            self.take()
            path.append(self.take())
        return ("name", tuple(path))

    def record(self):
        self.take("{")
        fields = {}
        while self.peek() != "}":
            name = self.take()
            self.take("=")
            fields[name] = self.term()
            if self.peek() == ";":
                self.take()
        self.take("}")
        return ("record", fields)


@lru_cache(maxsize=None)
def parse(text):
    parser = Parser(tokens_of(text))
    term = parser.term()
    if parser.peek() is not None:
        raise SyntaxError(f"left over {parser.tokens[parser.at:]}")
    return term


class Quantities:
    """A value of a record of quantities; a field is None until a fact gives it its value."""

    def __init__(self, kind, fields):
        self.kind, self.fields = kind, fields


def parameters(text):
    found = []
    for group in re.findall(r"\(([^()]*)\)", text):
        names, _, kind = group.partition(":")
        found += [(name, kind.strip()) for name in names.split()]
    return found


def indent_of(line):
    return len(line) - len(line.lstrip(" "))


def texts_below(folder, roots):
    """The texts of these spec files and of all files of the crate that they use, lower ones first."""
    texts = {}

    def add(name):
        text = (Path(folder) / f"{name}.antt").read_text()
        for lower in re.findall(r"^use Rattle\.sgp4_model\.specs\.([A-Z]\w*)\.", text, re.M):
            if lower not in texts:
                add(lower)
        texts[name] = text

    for root in roots:
        add(root)
    return texts


class Specs:
    """The records and functions of some spec files, by name."""

    def __init__(self, texts):
        self.records, self.functions = {}, {}
        for text in texts.values():
            self.read(text)

    def read(self, text):
        lines = [line for line in text.split("\n") if line.strip() and not line.strip().startswith("--")]
        outer, opened, at = [], {}, 0
        while at < len(lines):
            end = at + 1
            start = indent_of(lines[at])
            block = lines[at]
            inside_module = re.match(r"module _ (.*) where", block)
            while not inside_module and end < len(lines) and (indent_of(lines[end]) > start or lines[end].strip() == "}"):
                end += 1
            body = lines[at:end]
            at = end
            if inside_module:
                outer, opened = parameters(inside_module.group(1)), {}
                continue
            if start == 0:
                outer, opened = [], {}
            head = body[0].strip()
            if head.startswith("open "):
                value, names = re.match(r"open (\w+) use \{(.*)\}", head).groups()
                opened.update({name.strip(): (value, name.strip()) for name in names.split(",")})
            elif head.startswith("pub record "):
                self.read_record(body, start, list(outer), dict(opened))
            elif re.match(r"(abbrev |unfoldable )?pub [\w◌]", head):
                self.signature = head
            elif " = " in head or head.endswith("="):
                clause = re.match(r"(\S+)((?: (?:\w+|\([\w ()]*\)))*) =(.*)", "\n".join(body).strip(), re.S)
                if clause:
                    name, args, right = clause.groups()
                    patterns = [("name", (param,)) for param, _ in outer] + (parse(f"f {args}")[2] if args else [])
                    self.functions.setdefault(name, []).append((patterns, right, dict(opened)))

    def read_record(self, body, start, outer, opened):
        name, rest = re.match(r"pub record (\S+)(.*): Type \d where", body[0].strip()).groups()
        fields, at = [], 1
        while at < len(body):
            end = at + 1
            while end < len(body) and indent_of(body[end]) > indent_of(body[at]):
                end += 1
            field, kind = re.match(r"pub (\S+) : ?(.*)", "\n".join(body[at:end]).strip(), re.S).groups()
            fields.append((field, kind))
            at = end
        kinds = {kind for _, kind in fields}
        self.records[name] = {"params": outer + parameters(rest), "outer": outer, "fields": fields, "opened": opened}
        self.records[name]["quantities"] = not (outer or rest.strip()) and all(self.is_quantity(kind) for kind in kinds)

    def is_quantity(self, kind):
        known = kind in self.records and self.records[kind]["quantities"]
        return kind in SET_TYPES or kind.startswith("List ") or known

    def unknown(self, kind):
        fields = {}
        for name, inner in self.records[kind]["fields"]:
            fields[name] = None if inner in SET_TYPES else self.unknown(inner)
        return Quantities(kind, fields)


def both(a, b):
    """Two numbers of one kind: fractions while both are exact."""
    if isinstance(a, Fraction) and isinstance(b, Fraction):
        return a, b
    return real(a), real(b)


def real(a):
    return mp.mpf(a.numerator) / a.denominator if isinstance(a, Fraction) else mp.mpf(a)


def matches(pattern, value, local):
    """Whether a value is of a clause's pattern; its names are added to the local ones."""
    head = pattern[1][1][0] if pattern[0] == "app" else pattern[1][0]
    if head == "zero":
        return value == 0
    if head in ("suc", "pos", "negsuc"):
        inner = {"suc": lambda: value - 1, "pos": lambda: value, "negsuc": lambda: -value - 1}[head]()
        return inner >= 0 and matches(pattern[2][0], inner, local)
    local[head] = value
    return True


class Evaluator:
    def __init__(self, specs, tolerance):
        self.specs, self.tolerance = specs, tolerance
        self.fresh, self.divisors = {}, set()

    # ---- values

    def place(self, path, env):
        """The record and the field that a path names, or (None, value)."""
        name, rest = path[0], list(path[1:])
        if name in env["local"]:
            value = env["local"][name]
            if not rest:
                return None, value
        elif name in env["opened"]:
            value, field = env["opened"][name]
            value, rest = env["local"][value], [field] + rest
        else:
            return None, self.defined(name, [], env)
        for field in rest[:-1]:
            value = value.fields[field]
        if rest[-1] not in value.fields:
            raise Failed(f"no field {'.'.join(path)}")
        return value, rest[-1]

    def value(self, term, env):
        kind = term[0]
        if kind == "num":
            return Fraction(term[1])
        if kind == "name":
            record, field = self.place(term[1], env)
            found = field if record is None else record.fields[field]
            if isinstance(found, tuple):
                found = found[0].fields[found[1]]
            if found is None:
                raise Failed(f"{'.'.join(term[1])} is used before it has a value")
            return found
        if kind == "app":
            return self.defined(term[1][1][0], [self.value(arg, env) for arg in term[2]], env)
        if kind == "record":
            return Quantities(None, {name: self.value(inner, env) for name, inner in term[1].items()})
        if kind == "field":
            return self.value(term[1], env).fields[term[2]]
        a, b = both(self.value(term[1], env), self.value(term[2], env))
        if kind == "+ℚ":
            return a + b
        if kind in ("-ℚ", "-"):
            return a - b
        if kind in ("*ℚ", "*"):
            return a * b
        if kind == "%":
            return a % b
        if kind == "/ℚ":
            words, constant = self.words(term[2], env)
            if not constant and words not in self.divisors:
                raise Failed("division by what was not said to be other than 0")
            return a / b
        if kind in ("^ℚ", "^"):
            return a ** int(b)
        raise SyntaxError(kind)

    def words(self, term, env):
        """A term with its names as places, and whether it is a constant."""
        if term[0] == "num":
            return term, True
        if term[0] == "name":
            if term[1][0] not in env["local"] and term[1][0] not in env["opened"]:
                return term, True
            record, field = self.place(term[1], env)
            return ("place", id(record) if record is not None else None, field if record is not None else term[1]), False
        parts = [self.words(part, env) for part in (term[2] if term[0] == "app" else term[1:])]
        head = term[1] if term[0] == "app" else term[0]
        return (head,) + tuple(part for part, _ in parts), all(constant for _, constant in parts)

    def defined(self, name, args, env):
        if name in ("zero_ℚ", "one_ℚ"):
            return Fraction(int(name == "one_ℚ"))
        if name == "ratio":
            return Fraction(args[0]) / args[1]
        if name in ("pos", "of_int"):
            return args[0]
        if name == "suc":
            return args[0] + 1
        if name == "neg_ℚ":
            return -args[0]
        if name == "abs_ℚ":
            return abs(args[0])
        return self.value(*self.opened(name, args))

    def opened(self, name, args):
        """What a function's clause says, with the names that it knows."""
        for patterns, right, opened in self.specs.functions[name]:
            if len(patterns) != len(args):
                raise SyntaxError(f"{name} takes {patterns}")
            local = {}
            if all([matches(pattern, arg, local) for pattern, arg in zip(patterns, args)]):
                return parse(right), {"local": local, "opened": opened}
        raise Failed(f"{name} has no clause for {args}")

    # ---- facts

    def facts(self, name, args, caller=None):
        """Goes through the fields of a record of facts. Inside a module its own parameters are not written."""
        record = self.specs.records[name]
        params = [param for param, _ in record["params"]]
        if caller and len(args) + len(record["outer"]) == len(params):
            args = [caller["local"][param] for param, _ in record["outer"]] + args
        if len(params) != len(args):
            raise SyntaxError(f"{name} takes {params}")
        env = {"local": dict(zip(params, args)), "opened": record["opened"]}
        for field, kind in record["fields"]:
            if kind in SET_TYPES:
                env["local"][field] = (Quantities(None, {field: None}), field)
                continue
            if kind in self.specs.records and self.specs.records[kind]["quantities"]:
                env["local"][field] = self.fresh[field] = self.specs.unknown(kind)
                continue
            try:
                self.fact(parse(kind), env)
            except Failed as fault:
                raise type(fault)(f"{name}.{field}: {fault}") from None

    def argument(self, term, env):
        """A value, or the place (record, field) of a number that is not known yet."""
        if term[0] == "name":
            record, field = self.place(term[1], env)
            place = (record, field) if record is not None else field
            if isinstance(place, tuple) and place[0].fields[place[1]] is None:
                return place
        return self.value(term, env)

    def give(self, place, value):
        """Gives a place its value, or compares it with the one that it has."""
        if isinstance(place, tuple):
            place[0].fields[place[1]] = value
        elif isinstance(place, Quantities):
            if set(place.fields) != set(value.fields):
                raise Failed(f"fields {set(place.fields) ^ set(value.fields)}")
            for field, inner in value.fields.items():
                self.give((place, field) if place.fields[field] is None else place.fields[field], inner)
        elif abs(real(place) - real(value)) > self.tolerance:
            raise Failed(f"{mp.nstr(real(place), 20)} is not {mp.nstr(real(value), 20)}")

    @staticmethod
    def known(place):
        return place[0].fields[place[1]] if isinstance(place, tuple) else place

    def only(self, record, field, local):
        """Whether one field of a record of facts holds of the given values."""
        about = self.specs.records[record]
        try:
            self.fact(parse(dict(about["fields"])[field]), {"local": local, "opened": about["opened"]})
            return True
        except Failed:
            return False

    def holds(self, term, env):
        """Whether a condition holds of values that are known."""
        try:
            self.fact(term, env)
            return True
        except Unheld:
            return False

    def fact(self, term, env):
        kind = term[0]
        if kind == "arrow":
            if self.holds(term[1], env):
                self.fact(term[2], env)
        elif kind in ("≤ℚ", "<ℚ"):
            a, b = both(self.value(term[1], env), self.value(term[2], env))
            if not (a <= b if kind == "≤ℚ" else a < b):
                raise Unheld("the guard fails")
        elif kind == "⊎":
            if not any([self.holds(side, env) for side in term[1:]]):
                raise Unheld("neither holds")
        elif kind == "≡":
            self.give(self.argument(term[1], env), self.value(term[2], env))
        else:
            name = term[1][1][0] if kind == "app" else term[1][0]
            args = [self.argument(arg, env) for arg in term[2]] if kind == "app" else []
            if name == "IsDivisor":
                self.divisors.add(self.words(term[2][0], env)[0])
            self.named_fact(name, args, env)

    def named_fact(self, name, args, env=None):
        if name == "IsPi":
            self.give(args[0], mp.mpf(mp.pi))
            self.facts(name, [self.known(args[0])])
        elif name == "IsSinCos":
            _, x, sine, cosine = args
            self.give(sine, mp.sin(real(x)))
            self.give(cosine, mp.cos(real(x)))
        elif name == "IsSqrt":
            if args[0] < 0:
                raise Failed("root of a negative number")
            self.give(args[1], mp.sqrt(real(args[0])))
            self.facts(name, [args[0], self.known(args[1])])
        elif name == "IsCbrt2":
            if not args[0] > 0:
                raise Failed("power of a number that is not positive")
            self.give(args[1], mp.cbrt(real(args[0]) ** 2))
            self.facts(name, [args[0], self.known(args[1])])
        elif name == "IsDivisor":
            if args[0] == 0:
                raise Failed("division by 0")
        elif name == "SolvesKepler" and isinstance(args[4], tuple):
            self.give(args[4], self.kepler_root(args))
            self.facts(name, args[:4] + [self.known(args[4])] + args[5:])
        elif name in self.specs.functions:
            self.fact(*self.opened(name, args))
        else:
            self.facts(name, args, env)

    def kepler_root(self, args):
        """The angle at which the residual of the spec's text is 0."""
        _, u, ax, ay, _, _ = args

        def residual(angle):
            turn = Quantities("Pair", {"sine": mp.sin(angle), "cosine": mp.cos(angle)})
            return self.defined("kepler_residual", [u, ax, ay, angle, turn], None)

        return mp.findroot(residual, real(u))
