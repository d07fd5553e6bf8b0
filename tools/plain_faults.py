"""A plain reader of the four texts: the first fault with its place, or else what the text stands for.

It is written from docs/FORMATS.md and the definitions alone, reads whole files, and looks for every fault there is
before it takes the first. `tools/damaged_test` compares the program with it. Instances, plans, scripts and certificates
are read as bytes; a fault is the line that the program says, without `refused`, as `instance syntax 4`. This file is
independent on purpose: it imports nothing of the package `gadvresa`, so the two can't share a fault.
"""
import re
from collections import Counter
from fractions import Fraction

COUNTS, MILLION = 10 ** 12, 10 ** 6
TOO_LARGE = 10 ** 20
DEPTH = 16
LIMITS = {"periods": 512, "scenarios": 1024, "resources": 32, "seasons": 64, "interventions": 1024,
          "exclusions": 65536, "risk-cells": 10 ** 8, "workload-entries": 32 * 10 ** 6}
BYTES = {"instance": 2 ** 31 - 1, "plan": 2 ** 24, "certificate": 2 ** 28, "script": 2 ** 29}


class Fault(Exception):
    """A refusal: the words behind `refused`."""


def fault(*words):
    return Fault(" ".join(str(word) for word in words))


# JSON: a value is a node with its kind, its offsets and what it holds.

class Node:
    def __init__(self, kind, at, end, value):
        self.kind, self.at, self.end, self.value = kind, at, end, value


BLANKS, DIGITS, HEX = b" \t\n\r", b"0123456789", b"0123456789abcdefABCDEF"
ESCAPES = {ord('"'): '"', ord("\\"): "\\", ord("/"): "/", ord("b"): "\b", ord("f"): "\f", ord("n"): "\n",
           ord("r"): "\r", ord("t"): "\t"}


class Json:
    """The one value of a text, byte by byte. A fault is the first byte that no JSON text has behind those before it."""

    def __init__(self, text):
        self.text, self.at = text, 0

    def read(self):
        self.blanks()
        node = self.value(0)
        self.blanks()
        if self.at < len(self.text):
            self.wrong()
        return node

    def wrong(self):
        raise fault("syntax", self.at)

    def peek(self):
        return self.text[self.at] if self.at < len(self.text) else None

    def take(self, allowed):
        """The next byte, which has to be one of these."""
        byte = self.peek()
        if byte is None or byte not in allowed:
            self.wrong()
        self.at += 1
        return byte

    def blanks(self):
        while self.peek() is not None and self.peek() in BLANKS:
            self.at += 1

    def value(self, depth):
        byte, at = self.peek(), self.at
        if byte is None:
            self.wrong()
        if byte in b"[{":
            if depth == DEPTH:
                raise fault("too deep", at)
            self.at += 1
            kind, value = ("list", self.items(depth + 1)) if byte == ord("[") else ("object", self.members(depth + 1))
        elif byte == ord('"'):
            kind, value = "text", self.string()
        elif byte in b"-0123456789":
            kind, value = "number", self.number()
        else:
            kind, value = "word", self.word()
        return Node(kind, at, self.at, value)

    def word(self):
        for word in (b"null", b"true", b"false"):
            if self.peek() == word[0]:
                for byte in word:
                    self.take([byte])
                return word
        self.wrong()

    def number(self):
        begin = self.at
        if self.peek() == ord("-"):
            self.at += 1
        if self.take(DIGITS) != ord("0"):
            self.digits()
        if self.peek() == ord("."):
            self.at += 1
            self.take(DIGITS)
            self.digits()
        if self.peek() in (ord("e"), ord("E")):
            self.at += 1
            if self.peek() in (ord("+"), ord("-")):
                self.at += 1
            self.take(DIGITS)
            self.digits()
        return self.text[begin:self.at].decode()

    def digits(self):
        while self.peek() is not None and self.peek() in DIGITS:
            self.at += 1

    def items(self, depth):
        """The values of a list behind its bracket."""
        items = []
        self.blanks()
        if self.peek() == ord("]"):
            self.at += 1
            return items
        while True:
            self.blanks()
            items.append(self.value(depth))
            self.blanks()
            if self.take(b",]") == ord("]"):
                return items

    def members(self, depth):
        """The members of an object behind its brace, each the offset of its key, its text and its value."""
        members = []
        self.blanks()
        if self.peek() == ord("}"):
            self.at += 1
            return members
        while True:
            self.blanks()
            at = self.at
            if self.peek() != ord('"'):
                self.wrong()
            key = self.string()
            self.blanks()
            self.take(b":")
            self.blanks()
            members.append((at, key, self.value(depth)))
            self.blanks()
            if self.take(b",}") == ord("}"):
                return members

    def string(self):
        """The bytes of a text, with its escapes resolved."""
        self.take(b'"')
        held = bytearray()
        while True:
            byte = self.peek()
            if byte is None or byte < 32:
                self.wrong()
            if byte == ord('"'):
                self.at += 1
                return bytes(held)
            if byte == ord("\\"):
                self.at += 1
                held += self.escape()
            else:
                held += self.character()

    def character(self):
        """One character in UTF-8."""
        begin, first = self.at, self.peek()
        low, high = 0x80, 0xBF
        if first < 0x80:
            more = 0
        elif 0xC2 <= first <= 0xDF:
            more = 1
        elif 0xE0 <= first <= 0xEF:
            more = 2
            low, high = {0xE0: (0xA0, 0xBF), 0xED: (0x80, 0x9F)}.get(first, (low, high))
        elif 0xF0 <= first <= 0xF4:
            more = 3
            low, high = {0xF0: (0x90, 0xBF), 0xF4: (0x80, 0x8F)}.get(first, (low, high))
        else:
            self.wrong()
        self.at += 1
        for _ in range(more):
            self.take(range(low, high + 1))
            low, high = 0x80, 0xBF
        return self.text[begin:self.at]

    def escape(self):
        byte = self.take(b'"\\/bfnrtu')
        if byte != ord("u"):
            return ESCAPES[byte].encode()
        unit = self.hexes(HEX)
        if 0xD800 <= unit <= 0xDBFF:
            self.take(b"\\")
            self.take(b"u")
            low = self.hexes(b"dD", b"cdefCDEF")
            unit = 0x10000 + (unit - 0xD800) * 0x400 + (low - 0xDC00)
        return chr(unit).encode()

    def hexes(self, first, second=None):
        """Four hexadecimal digits, which are no low surrogate unless its first two are asked for."""
        one = self.take(first)
        if second is None:
            second = b"0123456789abAB89" if one in b"dD" else HEX
        two = self.take(second)
        return int(bytes([one, two, self.take(HEX), self.take(HEX)]), 16)


def parts(token):
    """The whole number and the power of ten of a number token, without its zeros at the end."""
    match = re.fullmatch(r"(-?)(\d+)(?:\.(\d+))?(?:[eE]([+-]?\d+))?", token)
    sign, whole, decimals, power = match.groups()
    digits = int(whole + (decimals or ""))
    if digits == 0:
        return 0, 0
    power = int(power or 0) - len(decimals or "")
    while digits % 10 == 0:
        digits, power = digits // 10, power + 1
    return (-digits if sign else digits), power


def exact(token, scale, most):
    """The value times 10^scale, where it is a whole number of at most so many digits; else None."""
    digits, power = parts(token)
    power += scale
    if digits and (power < 0 or power + len(str(abs(digits))) > most):
        return None
    return digits * 10 ** power


def number_token(text):
    """Whether a text is one number token."""
    return re.fullmatch(rb"-?(0|[1-9][0-9]*)(\.[0-9]+)?([eE][+-]?[0-9]+)?", text) is not None


def whole_of(node):
    if node.kind == "number":
        token = node.value
    elif node.kind == "text" and number_token(node.value):
        token = node.value.decode()
    else:
        return None
    value = exact(token, 0, 9)
    return value if value is not None and 0 <= value <= 999_999_999 else None


def millionths_of(node):
    if node.kind != "number":
        return None
    value = exact(node.value, 6, 7)
    return value if value is not None and 0 <= value <= MILLION else None


def fixed_of(token):
    """The nearest count of 10^-12, halves away from 0, and whether it differs; None where it is too large."""
    digits, power = parts(token)
    size = len(str(abs(digits))) + power
    if digits and size > 9:
        return None
    if digits and size < -20:
        return 0, True
    value = Fraction(digits) * Fraction(10) ** (power + 12)
    count = (abs(value) + Fraction(1, 2)).__floor__() * (-1 if value < 0 else 1)
    return None if abs(count) >= TOO_LARGE else (count, count != value)


def is_name(text):
    return 1 <= len(text) <= 128 and all(byte > 32 and byte != 127 for byte in text)


def key_number(text):
    """The number of a period or start key, or None."""
    return int(text) if re.fullmatch(rb"[0-9]{1,9}", text) else None


ROOT = ["Resources", "Seasons", "Interventions", "Exclusions", "T", "Scenarios_number", "Quantile", "Alpha"]
ORDER = ["double", "bad name", "missing", "shape", "too large", "limit"]


class Shape:
    """Every fault of shape of a tree, with its place, and the numbers that reading changes."""

    def __init__(self, root, limits):
        self.limits = limits
        self.faults, self.rounded = [], 0
        self.counts = {"risk-cells": 0, "workload-entries": 0}
        self.root(root)
        if self.faults:
            at, _, words = min(self.faults)
            raise fault(words[0], at, *words[1:])

    def found(self, at, *words):
        self.faults.append((at, ORDER.index(words[0]), words))

    def is_kind(self, node, kind):
        if node.kind != kind:
            self.found(node.at, "shape")
        return node.kind == kind

    def keys(self, node, named=None):
        """The members of an object, with faults of keys that come again, and of names."""
        if not self.is_kind(node, "object"):
            return []
        seen = set()
        for at, key, _ in node.value:
            if key in seen:
                self.found(at, "double")
            seen.add(key)
            if named is not None and not is_name(key):
                self.found(at, "bad name")
            if named and len(seen) > self.limits[named]:
                self.found(at, "limit", named)
        return node.value

    def required(self, node, names):
        """The first member of each required key of an object, and a fault at its end where one is missing."""
        first = {}
        for _, key, value in self.keys(node):
            first.setdefault(key.decode(), value)
        if node.kind == "object":
            missing = [name for name in names if name not in first]
            if missing:
                self.found(node.end - 1, "missing", missing[0])
        return first

    def each(self, node, names, judges):
        """Judges each value of the required keys, also of one that comes again."""
        self.required(node, names)
        for _, key, value in node.value if node.kind == "object" else []:
            if key.decode() in judges:
                judges[key.decode()](value)

    def root(self, node):
        self.each(node, ROOT, {
            "Resources": lambda value: self.entries(value, "resources", self.resource),
            "Seasons": lambda value: self.entries(value, "seasons", lambda it: self.list_of(it, self.whole)),
            "Interventions": lambda value: self.entries(value, "interventions", self.intervention),
            "Exclusions": lambda value: self.entries(value, "exclusions", self.exclusion),
            "T": lambda value: self.ranged(value, "periods"),
            "Scenarios_number": lambda value: self.list_of(value, lambda it: self.ranged(it, "scenarios")),
            "Quantile": lambda value: self.share(value, 1), "Alpha": lambda value: self.share(value, 0)})

    def entries(self, node, named, judge):
        for _, _, value in self.keys(node, named):
            judge(value)

    def list_of(self, node, judge):
        if self.is_kind(node, "list"):
            for item in node.value:
                judge(item)

    def whole(self, node):
        if whole_of(node) is None:
            self.found(node.at, "shape")
        return whole_of(node)

    def ranged(self, node, which):
        value = self.whole(node)
        if value is not None and not 1 <= value <= self.limits[which]:
            self.found(node.at, "limit", which)

    def share(self, node, least):
        value = millionths_of(node)
        if value is None or value < least:
            self.found(node.at, "shape")

    def resource(self, node):
        limits = lambda value: self.list_of(value, self.decimal)
        self.each(node, ["max", "min"], {"max": limits, "min": limits})

    def intervention(self, node):
        self.each(node, ["tmax", "Delta", "workload", "risk"], {
            "tmax": self.whole, "Delta": lambda value: self.list_of(value, self.whole), "workload": self.workload,
            "risk": lambda value: self.numbered(value, lambda it: self.numbered(it, self.risks))})

    def workload(self, node):
        for _, _, value in self.keys(node, ""):
            self.numbered(value, lambda it: self.numbered(it, lambda x: self.decimal(x, "workload-entries")))

    def risks(self, node):
        self.list_of(node, lambda it: self.decimal(it, "risk-cells"))

    def numbered(self, node, judge):
        """An object whose keys are periods or starts, equal where their numbers are."""
        if not self.is_kind(node, "object"):
            return
        seen, texts = set(), set()
        for at, key, value in node.value:
            number = key_number(key)
            if number is None:
                self.found(at, "shape")
            if (number if number is not None else key) in (seen if number is not None else texts):
                self.found(at, "double")
            (seen if number is not None else texts).add(number if number is not None else key)
            judge(value)

    def decimal(self, node, counted=None):
        if not self.is_kind(node, "number"):
            return
        read = fixed_of(node.value)
        if read is None:
            self.found(node.at, "too large")
        else:
            self.rounded += read[1]
        if counted:
            self.counts[counted] += 1
            if self.counts[counted] > self.limits[counted]:
                self.found(node.at, "limit", counted)

    def exclusion(self, node):
        if not self.is_kind(node, "list"):
            return
        for item in node.value[:3]:
            if self.is_kind(item, "text") and not is_name(item.value):
                self.found(item.at, "bad name")
        if len(node.value) < 3:
            self.found(node.end - 1, "shape")
        if len(node.value) > 3:
            self.found(node.value[3].at, "shape")


def member(node, name):
    return next(value for _, key, value in node.value if key == name.encode())


def wholes(node):
    return [whole_of(item) for item in node.value]


def fixed(node):
    return fixed_of(node.value)[0]


class Instance:
    """The tables of an instance, or the first fault of its text, its shape or across it."""

    def __init__(self, text, slack=0, limits=None):
        if len(text) > BYTES["instance"]:
            raise fault("instance too long")
        try:
            root = Json(text).read()
            self.rounded = Shape(root, limits or LIMITS).rounded
            self.take(root, slack)
        except Fault as why:
            raise Fault(f"instance {why}") from None

    def take(self, root, slack):
        self.periods = whole_of(member(root, "T"))
        self.scenarios = wholes(member(root, "Scenarios_number"))
        self.quantile, self.alpha = (millionths_of(member(root, name)) for name in ("Quantile", "Alpha"))
        if len(self.scenarios) != self.periods:
            raise fault("scenario list")
        self.resources = [key for _, key, _ in member(root, "Resources").value]
        self.upper, self.lower = [], []
        for _, key, value in member(root, "Resources").value:
            upper, lower = member(value, "max").value, member(value, "min").value
            if len(upper) != self.periods or len(lower) != self.periods:
                raise fault("band length", key.decode())
            self.upper.append([fixed(it) + slack for it in upper])
            self.lower.append([fixed(it) - slack for it in lower])
        self.seasons = {key: set(wholes(value)) & set(range(1, self.periods + 1))
                        for _, key, value in member(root, "Seasons").value}
        self.names, self.duration, self.loads, self.risks, self.soft = [], [], {}, {}, set()
        for _, key, value in member(root, "Interventions").value:
            self.intervention(key, value)
        self.exclusions = []
        for _, key, value in member(root, "Exclusions").value:
            one, two, season = (item.value for item in value.value)
            for text, known in ((one, self.names), (two, self.names), (season, self.seasons)):
                if text not in known:
                    raise fault("unknown", text.decode())
            self.exclusions.append((key, self.names.index(one), self.names.index(two), self.seasons[season]))

    def intervention(self, key, value):
        i, name = len(self.names), key.decode()
        last = whole_of(member(value, "tmax"))
        if not 1 <= last <= self.periods:
            raise fault("bad tmax", name)
        duration = wholes(member(value, "Delta"))
        if len(duration) < last:
            raise fault("no delta", name)
        workload = member(value, "workload").value
        for _, resource, _ in workload:
            if resource not in self.resources:
                raise fault("unknown", resource.decode())
        self.names.append(key)
        self.duration.append(duration[:last])
        risk = {key_number(period): {key_number(start): it for _, start, it in by_start.value}
                for _, period, by_start in member(value, "risk").value}
        for s in self.allowed(i):
            for t in self.run(i, s):
                numbers = risk.get(t, {}).get(s)
                if numbers is None:
                    raise fault("no risk", name, t, s)
                if len(numbers.value) != self.scenarios[t - 1]:
                    raise fault("scenario count", name, t, s)
                read = [fixed_of(it.value) for it in numbers.value]
                self.risks[i, s, t] = [count for count, _ in read]
                if any(changed for _, changed in read):
                    self.soft.add((i, s, t))
        for _, resource, by_period in workload:
            for _, period, by_start in by_period.value:
                for _, start, load in by_start.value:
                    self.loads[i, key_number(start), key_number(period), self.resources.index(resource)] = fixed(load)

    def last(self, i):
        return len(self.duration[i])

    def is_allowed(self, i, s):
        return 1 <= s <= self.last(i) and s + self.duration[i][s - 1] <= self.periods + 1

    def allowed(self, i):
        return [s for s in range(1, self.last(i) + 1) if self.is_allowed(i, s)]

    def run(self, i, s):
        return range(s, s + self.duration[i][s - 1])

    def load(self, i, s, t, c):
        return self.loads.get((i, s, t, c), 0) if t in self.run(i, s) else 0

    def rank(self, t):
        return up(self.quantile * self.scenarios[t - 1], MILLION)


def up(number, divisor):
    return -(-number // divisor)


def decimal(count):
    return f"{'-' if count < 0 else ''}{abs(count) // COUNTS}.{abs(count) % COUNTS:012}"


# Plans, scripts and certificates, line by line.

def lines_of(text):
    """The bytes between line feeds; an empty rest behind the last one is no line."""
    lines = text.split(b"\n")
    return lines[:-1] if lines[-1] == b"" else lines


def read_plan(inst, text):
    if len(text) > BYTES["plan"]:
        raise fault("plan too long")
    starts, seen = [None] * len(inst.names), set()
    for n, line in enumerate(lines_of(text), 1):
        line = line[:-1] if line.endswith(b"\r") else line
        if line.strip(b" ") == b"":
            continue
        match = re.fullmatch(rb"([^ ]+) +([0-9]{1,9}) *", line, re.DOTALL)
        if not match:
            raise fault("plan bad line", n)
        name, start = match.groups()
        if name not in inst.names:
            raise fault("plan unknown name", n)
        if name in seen:
            raise fault("plan twice", n)
        seen.add(name)
        starts[inst.names.index(name)] = int(start)
    return starts


def read_script(inst, text):
    if len(text) > BYTES["script"]:
        raise fault("script too long")
    script = []
    for n, line in enumerate(lines_of(text), 1):
        move = re.fullmatch(rb"move ([^ ]+) (0|[1-9][0-9]{0,8})", line, re.DOTALL)
        swap = re.fullmatch(rb"swap ([^ ]+) ([^ ]+)", line, re.DOTALL)
        if not (move or swap or line == b"undo"):
            raise fault("script bad line", n)
        names = [move[1]] if move else [swap[1], swap[2]] if swap else []
        if any(name not in inst.names for name in names):
            raise fault("script unknown name", n)
        places = [inst.names.index(name) for name in names]
        script.append(("move", places[0], int(move[2])) if move else ("swap", *places) if swap else ("undo",))
    return script


NUMBER = rb"(0|[1-9][0-9]{0,18})"


def fields(form, line):
    """The numbers of a line of a form in which N stands for one; None where the line hasn't it."""
    match = re.fullmatch(form.replace(b"N", NUMBER), line)
    return [int(text) for text in match.groups()] if match else None


class Certificate:
    """The bound (None for none), the price lists and the tree of a text, or the first line with a fault."""

    def __init__(self, inst, text, versions=(1, 2)):
        if len(text) > BYTES["certificate"]:
            raise fault("certificate too long")
        self.inst, self.rest, self.n = inst, text, 0
        version = self.line()
        if version not in [b"mpcert %d" % number for number in versions]:
            self.bad()
        self.version = int(version[-1:])
        self.bound = self.read_bound(self.line())
        many = self.fields_of(rb"lists N", self.line())[0]
        self.within(many, 0, 16)
        self.lists = []
        line = self.line()
        self.expect(line, many)
        for left in reversed(range(many)):
            line = self.prices()
            self.expect(line, left)
            self.enough(self.lists[-1])
        self.leaves = self.tree([[1, inst.last(i)] for i in range(len(inst.names))])
        if self.rest:
            self.n += 1
            self.bad()

    def expect(self, line, left):
        """Takes the line that begins the next price list, or the tree where none is left."""
        if line != (b"prices" if left else b"tree"):
            self.bad()

    def line(self):
        """The next line, which is needed."""
        self.n += 1
        line, feed, self.rest = self.rest.partition(b"\n")
        if not feed:
            raise fault("certificate cut", self.n)
        return line

    def bad(self):
        raise fault("certificate bad line", self.n)

    def bounds(self):
        raise fault("certificate bounds", self.n)

    def within(self, number, least, most):
        if not least <= number <= most:
            self.bounds()

    def fields_of(self, form, line):
        numbers = fields(form, line)
        if numbers is None:
            self.bad()
        return numbers

    def read_bound(self, line):
        if line == b"bound none":
            return None
        match = re.fullmatch(rb"bound (0|-?[1-9][0-9]{0,36})", line)
        if not match:
            self.bad()
        bound = int(match[1])
        if abs(bound) > 10 ** 36:
            self.bounds()
        return bound

    def prices(self):
        """The entries of one list, and the line behind them."""
        taken = {"up": {}, "lo": {}, "ex": {}, "cap": False, "groups": {}, "off": {}, "clq": []}
        self.lists.append(taken)
        before = ()
        while True:
            line = self.line()
            if line in (b"prices", b"tree"):
                return line
            entry = self.entry(line)
            if entry is None or entry[0] <= before:
                self.bad()
            before, kind, numbers = entry
            getattr(self, f"take_{kind}")(taken, kind, *numbers)

    def entry(self, line):
        """The place of an entry in their order, its kind and its numbers; None where the line is no entry."""
        numbers_of = lambda: [int(word) for word in line.split(b" ")[1:]]
        for order, kind in enumerate(("up", "lo")):
            numbers = fields(kind.encode() + rb" N N N", line)
            if numbers:
                return (order, *numbers[:2]), kind, numbers
        if self.version < 3 and re.fullmatch(rb"tail N N( N)*".replace(b"N", NUMBER), line):
            numbers = numbers_of()
            return ((2, numbers[0]), "tail", numbers) if ascend(numbers[2:]) else None
        numbers = fields(rb"ex N N N", line) if self.version > 1 else None
        if numbers:
            return (3, *numbers[:2]), "ex", numbers
        return self.further_entry(line, numbers_of) if self.version == 3 else None

    def further_entry(self, line, numbers_of):
        """The same of the entries of version 3 alone."""
        if line == b"cap":
            return (4,), "cap", []
        if re.fullmatch(rb"tail N( N N)*".replace(b"N", NUMBER), line):
            t, *members = numbers_of()
            group = list(zip(members[::2], members[1::2]))
            return ((5, t, members[0] if members else 0), "group", [t, group]) if ascend(members[::2]) else None
        numbers = fields(rb"off N N N N", line)
        if numbers:
            return (6, *numbers[:3]), "off", numbers
        if re.fullmatch(rb"clq N N( N)*".replace(b"N", NUMBER), line):
            t, v, *members = numbers_of()
            return ((7, t, members), "clq", [t, v, members]) if ascend(members) else None
        return None

    def take_up(self, taken, kind, c, t, v):
        self.within(c, 1, len(self.inst.resources))
        self.within(t, 1, self.inst.periods)
        self.within(v, 1, 10 ** 9)
        taken[kind][c, t] = v

    take_lo = take_up

    def take_tail(self, taken, kind, t, weight, *places):
        self.within(t, 1, self.inst.periods)
        self.within(weight, 1, 1000)
        n = self.inst.scenarios[t - 1]
        for place in places:
            self.within(place, 1, n)
        self.within(len(places), n - self.inst.rank(t) + 1, n)
        taken["groups"][t] = weight, [[(place, weight)] for place in places]

    def take_ex(self, taken, kind, e, t, v):
        self.within(e, 1, len(self.inst.exclusions))
        if t not in self.inst.exclusions[e - 1][3]:
            self.bounds()
        self.within(v, 1, 10 ** 9)
        taken[kind][e, t] = v

    def take_cap(self, taken, kind):
        taken["cap"] = True

    def take_group(self, taken, kind, t, group):
        self.within(t, 1, self.inst.periods)
        if t not in taken["groups"]:
            self.enough(taken)
        total = sum(weight for _, weight in group)
        self.within(total, 1, 1000)
        weight, groups = taken["groups"].setdefault(t, (total, []))
        others = {k for other in groups for k, _ in other}
        for k, v in group:
            self.within(k, 1, self.inst.scenarios[t - 1])
            self.within(v, 1, 1000)
            if k in others:
                self.bounds()
        if total != weight:
            self.bounds()
        groups.append(group)

    def take_off(self, taken, kind, t, i, g, v):
        self.enough(taken)
        self.within(t, 1, self.inst.periods)
        self.within(i, 1, len(self.inst.names))
        self.within(g, 1, len(taken["groups"].get(t, (0, []))[1]))
        self.within(v, 1, 10 ** 9)
        taken[kind][t, i - 1, g - 1] = v

    def take_clq(self, taken, kind, t, v, members):
        self.enough(taken)
        inst = self.inst
        self.within(t, 1, inst.periods)
        self.within(v, 1, 10 ** 9)
        self.within(len(members), 2, len(inst.names))
        self.within(len(taken[kind]), 0, 4095)
        for i in members:
            self.within(i, 1, len(inst.names))
        pairs = {frozenset((one, two)) for _, one, two, season in inst.exclusions if t in season}
        if any(frozenset((i - 1, j - 1)) not in pairs for j in members for i in members if i < j):
            self.bounds()
        taken[kind].append((t, v, [i - 1 for i in members]))

    def enough(self, taken):
        """Takes a line that ends the groups of the last period that has some, which have to be enough."""
        if self.version == 3 and taken["groups"]:
            t = max(taken["groups"])
            least = self.inst.scenarios[t - 1] - self.inst.rank(t) + 1
            self.within(len(taken["groups"][t][1]), least, self.inst.scenarios[t - 1])

    def tree(self, root):
        """The leaves in their order, each with its kind, its numbers and its box."""
        inst, leaves, open_boxes = self.inst, [], [root]
        while open_boxes:
            box = open_boxes.pop()
            line = self.line()
            if (numbers := fields(rb"split N N", line)) is not None:
                i, s = numbers
                self.within(i, 1, len(inst.names))
                low, high = box[i - 1]
                self.within(s, low, high - 1)
                left, right = [list(it) for it in box], [list(it) for it in box]
                left[i - 1], right[i - 1] = [low, s], [s + 1, high]
                open_boxes += [right, left]
            elif line == b"point":
                leaves.append(("point", [], box))
            elif (numbers := fields(rb"cost N", line)) is not None:
                self.within(numbers[0], 0, len(self.lists))
                leaves.append(("cost", numbers, box))
            elif (match := re.fullmatch(rb"band N N (over|under)".replace(b"N", NUMBER), line)) is not None:
                c, t = int(match[1]), int(match[2])
                self.within(c, 1, len(inst.resources))
                self.within(t, 1, inst.periods)
                leaves.append((match[3].decode(), [c, t], box))
            elif (numbers := fields(rb"excl N", line)) is not None:
                self.within(numbers[0], 1, len(inst.exclusions))
                leaves.append(("excl", numbers, box))
            elif (numbers := fields(rb"empty N", line)) is not None:
                self.within(numbers[0], 1, len(inst.names))
                leaves.append(("empty", numbers, box))
            else:
                self.bad()
        return leaves


def ascend(numbers):
    return all(one < two for one, two in zip(numbers, numbers[1:]))


LIST_0 = {"up": {}, "lo": {}, "ex": {}, "cap": False, "groups": {}, "off": {}, "clq": []}


# What the commands say.

class Judged:
    """Rules, values and leaves of an instance, from scratch."""

    def __init__(self, inst):
        self.inst, self.prices, self.caps = inst, {}, {}

    def in_progress(self, starts, t):
        return [(i, s) for i, s in enumerate(starts) if t in self.inst.run(i, s)]

    def broken_start(self, starts):
        for i, s in enumerate(starts):
            name = self.inst.names[i].decode()
            if s is None:
                return f"S1 {name}"
            if not 1 <= s <= self.inst.last(i):
                return f"S2 {name} {s}"
            if not self.inst.is_allowed(i, s):
                return f"S3 {name} {s}"
        return None

    def total(self, starts, c, t):
        return sum(self.inst.load(i, s, t, c) for i, s in self.in_progress(starts, t))

    def meetings(self, exclusion, starts):
        _, one, two, season = exclusion
        both = set(self.inst.run(one, starts[one])) & set(self.inst.run(two, starts[two])) & season
        return sorted(both)

    def broken(self, starts):
        """The first broken rule, or None."""
        inst = self.inst
        if self.broken_start(starts):
            return self.broken_start(starts)
        for c, name in enumerate(inst.resources):
            for t in range(1, inst.periods + 1):
                load, upper, lower = self.total(starts, c, t), inst.upper[c][t - 1], inst.lower[c][t - 1]
                if load > upper:
                    return f"B1 {name.decode()} {t} {decimal(load)} {decimal(upper)}"
                if load < lower:
                    return f"B2 {name.decode()} {t} {decimal(load)} {decimal(lower)}"
        for exclusion in inst.exclusions:
            meetings = self.meetings(exclusion, starts)
            if meetings:
                return f"X1 {exclusion[0].decode()} {meetings[0]}"
        return None

    def violation(self, starts):
        inst, sum_ = self.inst, 0
        for c in range(len(inst.resources)):
            for t in range(1, inst.periods + 1):
                load = self.total(starts, c, t)
                sum_ += max(0, load - inst.upper[c][t - 1]) + max(0, inst.lower[c][t - 1] - load)
        return sum_ + COUNTS * sum(1 for exclusion in inst.exclusions if self.meetings(exclusion, starts))

    def period_values(self, starts):
        """For each period: n, the sum of the sums, the excess, and how many in progress are soft."""
        inst = self.inst
        for t in range(1, inst.periods + 1):
            n, running = inst.scenarios[t - 1], self.in_progress(starts, t)
            sums = sorted(sum(inst.risks[i, s, t][k] for i, s in running) for k in range(n))
            total = sum(sums)
            excess = max(0, n * sums[inst.rank(t) - 1] - total)
            yield n, total, excess, sum((i, s, t) in inst.soft for i, s in running)

    def numerator(self, total, excess):
        return self.inst.alpha * total + (MILLION - self.inst.alpha) * excess

    def score(self, starts):
        return sum(self.numerator(total, excess) // n for n, total, excess, _ in self.period_values(starts))

    def feasible(self, starts):
        inst, values = self.inst, list(self.period_values(starts))
        divisor = inst.periods * MILLION
        wide = sum(up(e * (2 * MILLION - inst.alpha), 2) for _, _, _, e in values)
        half = sum(up(e, 2) for _, _, _, e in values)
        roof = sum(up(self.numerator(total, excess), n) for n, total, excess, _ in values)
        pairs = {"cost": ((self.score(starts) - wide) // divisor, up(roof + wide, divisor)),
                 "mean": ((sum(total // n for n, total, _, _ in values) - half) // inst.periods,
                          up(sum(up(total, n) for n, total, _, _ in values) + half, inst.periods)),
                 "excess": (sum(max(0, excess // n - e) for n, _, excess, e in values) // inst.periods,
                            up(sum(up(excess, n) + e for n, _, excess, e in values), inst.periods))}
        said = [f"{name} {decimal(low)} {decimal(high)}" for name, (low, high) in pairs.items()]
        return ["feasible", f"score {self.score(starts)}", *said]

    # Prices and leaves.

    def price(self, prices, i, s):
        """The price of a start by a list, computed once."""
        key = (id(prices), i, s)
        if key not in self.prices:
            self.prices[key] = self.new_price(prices, i, s)
        return self.prices[key]

    def new_price(self, prices, i, s):
        inst = self.inst
        total = self.base(prices, i, s)
        for t in inst.run(i, s):
            for c in range(1, len(inst.resources) + 1):
                load = inst.load(i, s, t, c - 1)
                counted = min(load, self.cap(c, t)) if prices["cap"] else load
                total += prices["up"].get((c, t), 0) * load - prices["lo"].get((c, t), 0) * counted
        for (e, t), v in prices["ex"].items():
            _, one, two, _ = inst.exclusions[e - 1]
            if t in inst.run(i, s):
                total += COUNTS * v * ((one == i) + (two == i))
        return total + COUNTS * sum(v for t, v, members in prices["clq"] if i in members and t in inst.run(i, s))

    def cap(self, c, t):
        """The cap of a lower limit, computed once: the limit, or 0, and all that loads below 0 can take away."""
        if (c, t) not in self.caps:
            load = lambda i, s: self.inst.load(i, s, t, c - 1) if t in self.inst.run(i, s) else 0
            taken = [max([0] + [-load(i, s) for s in self.inst.allowed(i)]) for i in range(len(self.inst.names))]
            self.caps[c, t] = max(0, self.inst.lower[c - 1][t - 1]) + sum(taken)
        return self.caps[c, t]

    def base(self, prices, i, s):
        """What a start adds to a plan's value at least, by the groups of a list."""
        inst, total = self.inst, 0
        for t in inst.run(i, s):
            numbers, n = inst.risks[i, s, t], inst.scenarios[t - 1]
            whole = 1000 * inst.alpha * sum(numbers)
            if t in prices["groups"]:
                weight, groups = prices["groups"][t]
                least = min(sum(v * numbers[k - 1] for k, v in group) + COUNTS * prices["off"].get((t, i, g), 0)
                            for g, group in enumerate(groups))
                whole += (MILLION - inst.alpha) * (n * least - weight * sum(numbers))
            total += whole // (1000 * n)
        return total

    def offsets_cost(self, prices):
        """What the offsets take off: for each period the greatest sum of a group."""
        sums = Counter()
        for (t, _, g), v in prices["off"].items():
            sums[t, g] += v
        most = {t: max(v for (u, _), v in sums.items() if u == t) for t, _ in sums}
        return (MILLION - self.inst.alpha) * 10 ** 9 * sum(most.values())

    def starts_in(self, box, i):
        return [s for s in self.inst.allowed(i) if box[i][0] <= s <= box[i][1]]

    def worth(self, prices, box):
        inst = self.inst
        worth = sum(min(self.price(prices, i, s) for s in self.starts_in(box, i)) for i in range(len(box)))
        worth += sum(v * inst.lower[c - 1][t - 1] for (c, t), v in prices["lo"].items())
        worth -= sum(v * inst.upper[c - 1][t - 1] for (c, t), v in prices["up"].items())
        worth -= COUNTS * (sum(prices["ex"].values()) + sum(v for _, v, _ in prices["clq"]))
        return worth - self.offsets_cost(prices)

    def holds(self, cert, kind, numbers, box):
        inst = self.inst
        full = all(self.starts_in(box, i) for i in range(len(box)))
        if kind == "cost":
            prices = LIST_0 if numbers[0] == 0 else cert.lists[numbers[0] - 1]
            return cert.bound is not None and full and self.worth(prices, box) >= cert.bound
        if kind == "point":
            if any(low != high for low, high in box):
                return False
            starts = [low for low, _ in box]
            return self.broken(starts) is not None or cert.bound is not None and self.score(starts) >= cert.bound
        if kind in ("over", "under"):
            c, t = numbers
            loads = [[inst.load(i, s, t, c - 1) for s in self.starts_in(box, i)] for i in range(len(box))]
            if not full:
                return False
            if kind == "over":
                return sum(map(min, loads)) > inst.upper[c - 1][t - 1]
            return sum(map(max, loads)) < inst.lower[c - 1][t - 1]
        if kind == "excl":
            _, one, two, season = inst.exclusions[numbers[0] - 1]
            return all(set(inst.run(one, s)) & set(inst.run(two, u)) & season
                       for s in self.starts_in(box, one) for u in self.starts_in(box, two))
        return not self.starts_in(box, numbers[0] - 1)


def answer(status, lines):
    return status, "".join(line + "\n" for line in lines).encode()


STATUS = {"instance": 3, "plan": 4, "certificate": 5, "script": 6}


def answered(body):
    """What is said where the body raises no fault, or else the refusal."""
    try:
        return body()
    except Fault as why:
        return answer(STATUS[str(why).split()[0]], [f"refused {why}"])


def evaluate(instance, plan, slack=0):
    def body():
        inst = Instance(instance, slack)
        starts, judged = read_plan(inst, plan), Judged(inst)
        broken, last = judged.broken(starts), [f"rounded {inst.rounded}"]
        if broken:
            return answer(1, ["infeasible", broken] + last)
        return answer(0, judged.feasible(starts) + last)
    return answered(body)


def replay(instance, plan, script, slack=0):
    def body():
        inst = Instance(instance, slack)
        starts = read_plan(inst, plan)
        lines, judged = read_script(inst, script), Judged(inst)
        broken = judged.broken_start(starts)
        if broken:
            return answer(1, ["infeasible", broken, f"rounded {inst.rounded}"])
        plans, said = [starts], []
        key = lambda n: said.append(f"{n} {judged.violation(plans[-1])} {judged.score(plans[-1])}")
        key(0)
        for n, line in enumerate(lines, 1):
            new = list(plans[-1])
            if line[0] == "move":
                new[line[1]] = line[2]
            elif line[0] == "swap":
                new[line[1]], new[line[2]] = new[line[2]], new[line[1]]
            elif len(plans) == 1:
                return answer(6, said + [f"refused script nothing to undo {n}"])
            if judged.broken_start(new):
                return answer(6, said + [f"refused script not allowed {n}"])
            if line[0] == "undo":
                plans.pop()
            else:
                plans.append(new)
            key(n)
        return answer(0, said + [f"end {len(lines)}"])
    return answered(body)


def check(instance, plan, certificate, slack=0, versions=(1, 2)):
    def body():
        inst = Instance(instance, slack)
        starts = read_plan(inst, plan) if plan is not None else None
        cert, judged = Certificate(inst, certificate, versions), Judged(inst)
        last = [f"rounded {inst.rounded}"]
        broken = judged.broken(starts) if plan is not None else None
        if broken:
            return answer(1, ["infeasible", broken] + last)
        for n, leaf in enumerate(cert.leaves, 1):
            if not judged.holds(cert, *leaf):
                return answer(5, [f"refused certificate leaf {n}"])
        if cert.bound is None:
            return answer(0, ["accepted", "bound none"] + last)
        said = ["accepted", f"bound {cert.bound}", f"bound-cost {decimal(cert.bound // (inst.periods * MILLION))}"]
        if plan is not None:
            said += [f"score {judged.score(starts)}", f"gap {judged.score(starts) - cert.bound}"]
        return answer(0, said + last)
    return answered(body)
