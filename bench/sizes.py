#!/usr/bin/env -S python3 -E -s
"""Runs the built program on texts at the limits of size, one past them, and on hostile ones, and prints what they cost.

    bench/sizes.py --program PROGRAM [--part limits|files|hostile] [--only "TEXT|TEXT"] [--without "TEXT|TEXT"]
                   [--list] [--megabytes 1000] [--memory 9] [--folder DIR]

Each case makes its files in a temporary folder, runs the program once, and removes them; a case takes up to 5 GB of
disk and as much memory as --memory says, in GB of address space, beyond which the program has to answer `refused
memory`. A row has the case, the megabytes (10^6 bytes) that are read, what was said, processor seconds (which other
work on the machine hardly changes), those over the gigabytes that were read, and the peak memory. The status and the
first line have to be the ones that the case wants, with the place of a fault that the script knows from what it wrote;
else the row says so and the status is 1.

The part `limits` has each limit of number at its most and one past it, and all of them at once; `files` the longest
texts; `hostile` what is costly rather than large. --only takes the cases whose name has one of the words.
"""
import argparse
import ast
import math
import os
import resource
import subprocess
import sys
import tempfile

MILLION = 10 ** 6
LONGEST = 2 ** 31 - 1
BLOCK = 1 << 22


class Text:
    """A file that is being written, which knows how many bytes it has."""

    def __init__(self, path):
        self.file, self.at = open(path, "wb", buffering=1 << 20), 0

    def put(self, *pieces):
        for piece in pieces:
            self.file.write(piece)
            self.at += len(piece)

    def fill(self, piece, size):
        """Writes the piece again and again, as often as it fits into so many bytes."""
        many = max(0, size) // len(piece)
        block = max(1, BLOCK // len(piece))
        for _ in range(many // block):
            self.put(piece * block)
        self.put(piece * (many % block))

    def close(self):
        self.file.close()


def joined(pieces):
    return b",".join(pieces)


def numbers(value, many):
    return b"[" + joined([value] * many) + b"]"


def named(letter, n, length=0):
    """A name, lengthened to so many bytes."""
    return (b"%s%d" % (letter, n)).ljust(length, b"x")


class Instance:
    """What an instance of a case has, where it differs from a least one."""

    def __init__(self, **given):
        self.periods, self.scenarios, self.interventions = 1, 1, 1
        self.resources, self.seasons, self.exclusions, self.name_length = 0, 0, 0, 0
        self.last, self.duration = 1, None
        self.risk, self.limit, self.season_from = b"1", b"1000000", 2
        self.more_risks = 0
        self.workloads, self.load = 0, b"1"
        self.marks, self.full = {}, None
        self.__dict__.update(given)

    def delta(self):
        return [self.duration or self.periods + 1 - s for s in range(1, self.last + 1)]

    def starts(self, t):
        """The starts whose run has the period."""
        return [s for s, d in enumerate(self.delta(), 1) if s <= t < s + d]

    def name(self, letter, n):
        return named(letter, n, self.name_length)

    def write(self, path, size=None, before=b""):
        """Writes it, with blanks at its end up to so many bytes. `marks` then has the places of the last keys."""
        out = Text(path)
        out.put(b"{", before, b'"T":')
        self.marks["T"] = out.at
        out.put(b"%d" % self.periods, b',"Scenarios_number":[')
        out.put(b"%d," % self.scenarios * (self.periods - 1))
        self.marks["scenarios"] = out.at
        out.put(b"%d" % self.scenarios, b'],"Quantile":0.95,"Alpha":0.5,"Resources":{')
        for c in range(self.resources):
            self.key(out, "resources", b"c", c)
            out.put(b'{"max":', numbers(self.limit, self.periods), b',"min":', numbers(b"0", self.periods), b"}")
        out.put(b'},"Seasons":{')
        for q in range(self.seasons):
            self.key(out, "seasons", b"s", q)
            out.put(b"[", joined([b"%d" % t for t in range(self.season_from, self.periods + 1)]), b"]")
        out.put(b'},"Interventions":{')
        left = self.workloads
        for i in range(self.interventions):
            self.key(out, "interventions", b"I", i)
            out.put(b'{"tmax":%d,"Delta":[' % self.last, joined([b"%d" % d for d in self.delta()]), b'],"workload":{')
            left = self.write_workload(out, left)
            out.put(b'},"risk":{')
            self.write_risk(out, self.more_risks if i == self.interventions - 1 else 0)
            out.put(b"}}")
        out.put(b'},"Exclusions":{')
        for e in range(self.exclusions):
            self.key(out, "exclusions", b"E", e)
            one, two = e % self.interventions, (e + 1 + e // self.interventions) % self.interventions
            named_by = (self.name(b"I", one), self.name(b"I", two), self.name(b"s", e % self.seasons))
            out.put(b'["', b'","'.join(named_by), b'"]')
        out.put(b"}}")
        if size:
            out.fill(b" ", size - out.at)
        out.close()

    def key(self, out, kind, letter, n):
        if n:
            out.put(b",")
        self.marks[kind] = out.at
        out.put(b'"', self.name(letter, n), b'":')

    def write_workload(self, out, left):
        """Writes workloads of each resource, period and start, as long as some are left to write."""
        if not left:
            return 0
        whole, held = self.by_period(10 ** 9)
        for c in range(self.resources):
            if left == 0:
                break
            text, taken = (whole, held) if left >= held else self.by_period(left)
            out.put(b"," if c else b"", b'"', self.name(b"c", c), b'":{', text)
            self.marks["workload-entries"] = out.at - len(self.load) - 1
            out.put(b"}")
            left -= taken
        return left

    def by_period(self, most):
        """The workloads of a resource in each period at each start, at most so many, and how many they are."""
        if most >= 10 ** 9 and self.full:
            return self.full
        pieces, taken = [], 0
        for t in range(1, self.periods + 1):
            starts = self.starts(t)[:most - taken]
            if starts:
                pieces.append(b'"%d":{' % t + joined([b'"%d":' % s + self.load for s in starts]) + b"}")
                taken += len(starts)
        if most >= 10 ** 9:
            self.full = (joined(pieces), taken)
        return joined(pieces), taken

    def write_risk(self, out, more):
        risks = numbers(self.risk, self.scenarios)
        for t in range(1, self.periods + 1):
            out.put(b"," if t > 1 else b"", b'"%d":{' % t)
            out.put(joined([b'"%d":' % s + risks for s in self.starts(t)]))
            if more and t == self.periods:
                # (at a start that is ignored)
                out.put(b',"999":', numbers(self.risk, more))
                self.marks["risk-cells"] = out.at - 1 - len(self.risk)
            out.put(b"}")

    def plan(self, path):
        with open(path, "wb") as out:
            out.writelines(self.name(b"I", i) + b" 1\n" for i in range(self.interventions))


CASES = []


def case(part, name):
    """Notes a function that makes the files of a case and answers its words, its status and its first line."""
    def note(make):
        CASES.append((part, name, make))
        return make
    return note


def judged(folder, instance, size=None, status=0, line="feasible", before=b""):
    """The words that judge the plan of all first starts."""
    instance.write(os.path.join(folder, "i"), size, before)
    instance.plan(os.path.join(folder, "p"))
    return "evaluate i p", status, line.format(**instance.marks)


def limit_cases():
    wide = dict(interventions=1024, periods=2, duration=1, seasons=1)
    rows = [
        ("1,024 interventions", dict(interventions=1024), dict(interventions=1025), "interventions", "interventions"),
        ("65,536 exclusions", dict(wide, exclusions=65536), dict(wide, exclusions=65537), "exclusions", "exclusions"),
        ("32 resources", dict(resources=32), dict(resources=33), "resources", "resources"),
        ("64 seasons", dict(seasons=64), dict(seasons=65), "seasons", "seasons"),
        ("512 periods", dict(periods=512), dict(periods=513), "T", "periods"),
        ("1,024 scenarios a period", dict(periods=512, scenarios=1024), dict(scenarios=1025), "scenarios", "scenarios"),
    ]
    for name, at_most, past, mark, word in rows:
        case("limits", name)(lambda folder, given=at_most: judged(folder, Instance(**given)))
        line = f"refused instance limit {{{mark}}} {word}"
        case("limits", name + ", one more")(
            lambda folder, given=past, line=line: judged(folder, Instance(**given), None, 3, line))
    loads = dict(interventions=8, periods=512, last=512, resources=32)
    case("limits", "32,000,000 loads, all kept")(
        lambda folder: judged(folder, Instance(**loads, workloads=32 * MILLION)))
    case("limits", "32,000,000 loads, one more")(
        lambda folder: judged(folder, Instance(**loads, workloads=32 * MILLION + 1), None, 3,
                              "refused instance limit {workload-entries} workload-entries"))
    # 131,328 pairs of a start and a period of its run, each with 761 risks, and the rest at an ignored start.
    risks = dict(periods=512, last=512, scenarios=761, more_risks=100 * MILLION - 131_328 * 761)
    case("limits", "100,000,000 risk numbers")(lambda folder: judged(folder, Instance(**risks)))
    case("limits", "100,000,000 risk numbers, one more")(
        lambda folder: judged(folder, Instance(**{**risks, "more_risks": risks["more_risks"] + 1}), None, 3,
                              "refused instance limit {risk-cells} risk-cells"))
    case("limits", "nesting of 16")(lambda folder: judged(folder, Instance(), before=nested(16)))
    case("limits", "nesting of 17")(
        lambda folder: judged(folder, Instance(), None, 3, "refused instance too deep 20", nested(17)))
    names = dict(wide, resources=32, seasons=64, exclusions=65536, name_length=128)
    case("limits", "names of 128 bytes")(lambda folder: judged(folder, Instance(**names)))
    case("limits", "names of 129 bytes")(
        lambda folder: judged(folder, Instance(resources=1, name_length=129), None, 3,
                              "refused instance bad name {resources}"))
    # 1,024 * 95 * 1,024 risk numbers, 1,024 * 95 * 32 workloads.
    every = dict(interventions=1024, periods=512, scenarios=1024, duration=95, resources=32, seasons=64,
                 exclusions=65536, season_from=96, workloads=1024 * 95 * 32, load=b"0.01", name_length=128)
    case("limits", "all limits of number at once")(lambda folder: judged(folder, Instance(**every)))


def nested(depth):
    """A further key of the root whose value has so many open brackets, the root's counted."""
    return b'"x":' + b"[" * (depth - 1) + b"]" * (depth - 1) + b","


LONG_RISK = b"0.12345678901234567"


def file_cases():
    risks = dict(periods=512, last=512, scenarios=761, more_risks=100 * MILLION - 131_328 * 761, risk=LONG_RISK)
    case("files", "an instance of 2^31 - 1 bytes with 100,000,000 risk numbers, all rounded")(
        lambda folder: judged(folder, Instance(**risks), LONGEST))
    case("files", "an instance of 2^31 bytes")(
        lambda folder: judged(folder, Instance(), LONGEST + 1, 3, "refused instance too long"))

    @case("files", "roll of 100,000,000 risk numbers")
    def rolled(folder):
        instance = Instance(**{**risks, "risk": b"1"})
        judged(folder, instance)
        return "roll i p 1 o", 0, "rolled"

    @case("files", "roll of 100,000,000 risk numbers with 8 digits before the point, whose text is too long")
    def rolled_too_long(folder):
        instance = Instance(**{**risks, "risk": b"99999999"})
        judged(folder, instance)
        return "roll i p 1 o", 12, "refused output too long 5"

    for past in (0, 1):
        more = ", one byte more" if past else ""
        status, line = (4, "refused plan too long") if past else (0, "feasible")
        case("files", "a plan of 2^24 bytes, padded with blanks" + more)(
            lambda folder, past=past, status=status, line=line: padded_plan(folder, 2 ** 24 + past, status, line))
        status, line = (5, "refused certificate too long") if past else (0, "accepted")
        case("files", "a certificate of 2^28 bytes, valid" + more)(
            lambda folder, past=past, status=status, line=line: tree(folder, 28, past, status, line))
        status, line = (6, "refused script too long") if past else (0, "0 0 1000000000000000000")
        case("files", "a script of 2^29 bytes, long names" + more)(
            lambda folder, past=past, status=status, line=line: script(folder, 29, past, 128, status, line))
    case("files", "a script of 2^29 bytes, short names")(
        lambda folder: script(folder, 29, 0, 0, 0, "0 0 1000000000000000000"))
    case("files", "a script of 2^24 bytes, short names")(
        lambda folder: script(folder, 24, 0, 0, 0, "0 0 1000000000000000000"))
    case("files", "a certificate of 2^24 bytes, valid")(lambda folder: tree(folder, 24, 0, 0, "accepted"))
    case("files", "a plan of 2^24 line feeds")(
        lambda folder: texted(folder, "p", b"\n", 2 ** 24, "evaluate i p", 1, "infeasible"))
    case("files", "a plan of one line of 2^24 bytes")(
        lambda folder: texted(folder, "p", b"x", 2 ** 24, "evaluate i p", 4, "refused plan bad line 1"))
    case("files", "a certificate of one line of 2^28 bytes")(
        lambda folder: texted(folder, "c", b"m", 2 ** 28, "check i - c", 5, "refused certificate cut 1"))
    case("files", "a script of one line of 2^29 bytes")(
        lambda folder: texted(folder, "s", b"u", 2 ** 29, "replay i p s", 6, "refused script bad line 1"))


def padded_plan(folder, size, status, line):
    instance = Instance(interventions=1024)
    words, _, _ = judged(folder, instance)
    share, rest = divmod(size, 1024)
    with open(os.path.join(folder, "p"), "wb") as out:
        for i in range(1024):
            name, width = instance.name(b"I", i), share + (rest if i == 0 else 0)
            out.write(name + b" " * (width - len(name) - 2) + b"1\n")
    return words, status, line


def texted(folder, name, piece, size, words, status, line):
    judged(folder, Instance())
    out = Text(os.path.join(folder, name))
    out.fill(piece, size)
    out.close()
    return words, status, line


def tree(folder, power, past, status, line):
    """A valid certificate of 2^power bytes, or one more, that splits 25 interventions of two starts each."""
    instance = Instance(interventions=25, periods=2, last=2, duration=1)
    judged(folder, instance)
    head = b"mpcert 1\nbound -%s\nlists 0\ntree\n"
    size = 2 ** power + past
    leaf = b"cost 0\n"
    full = [leaf]
    while len(full[-1]) * 2 + 20 < size and len(full) < 26:
        full.append(b"split %d 1\n" % len(full) + full[-1] * 2)
    pieces, left, level, ends = [], size - len(head % b"1"), len(full), []
    # Goes down: where the full tree of a level fits, it is the left part; else the right part is a leaf.
    while level > 0 and left >= 11 + 2 * len(leaf):
        split = b"split %d 1\n" % level
        level -= 1
        pieces.append(split)
        left -= len(split)
        if left - len(leaf) >= len(full[level]):
            pieces.append(full[level])
            left -= len(full[level])
        else:
            ends.append(leaf)
            left -= len(leaf)
    pieces += [leaf] + ends
    held = sum(map(len, pieces))
    digits = size - held - len(head % b"")
    if not 1 <= digits <= 37:
        sys.exit(f"the certificate's bound would have {digits} digits")
    with open(os.path.join(folder, "c"), "wb") as out:
        out.write(head % (b"1" + b"0" * (digits - 1)))
        out.writelines(pieces)
    return "check i - c", status, line


def script(folder, power, past, length, status, line):
    """A script of 2^power bytes, or one more, that moves interventions to and fro; its last line is shorter."""
    instance = Instance(interventions=2, periods=2, last=2, duration=1, name_length=length)
    judged(folder, instance)
    size = 2 ** power + past
    pair = b"".join(b"move " + instance.name(b"I", i) + b" %d\n" % s for s in (2, 1) for i in (0, 1))
    out = Text(os.path.join(folder, "s"))
    out.fill(pair, size - 64 - len(pair))
    # `undo` has 5 bytes and a swap with itself 7 and two names: together they make every number from here on.
    rest = size - out.at
    swap = b"swap " + instance.name(b"I", 0) + b" " + instance.name(b"I", 0) + b"\n"
    swaps = next(k for k in range(5) if (rest - k * len(swap)) % 5 == 0)
    out.put(swap * swaps)
    out.fill(b"undo\n", size - out.at)
    out.close()
    return "replay i p s", status, line


def hostile_cases(size):
    def further(name, opening, piece, closing):
        """A further key of the root, whose value is a piece again and again."""
        @case("hostile", name.format(many=f"{size // len(piece):,}"))
        def make(folder):
            head, rest = least_cut(folder, b"{")
            out = Text(os.path.join(folder, "i"))
            out.put(head, b'"x":', opening)
            out.fill(piece, size)
            out.put(closing, b",", rest)
            out.close()
            return "evaluate i p", 0, "feasible"

    def inside(name, key, piece, status=0, line="feasible"):
        """A list of the shape, right behind a key, whose first element is followed by a piece again and again."""
        @case("hostile", name.format(many=f"{size // len(piece):,}"))
        def make(folder):
            head, rest = least_cut(folder, key)
            first, comma, behind = rest.partition(b"]")
            out = Text(os.path.join(folder, "i"))
            out.put(head, first)
            out.fill(piece, size)
            out.put(comma, behind)
            out.close()
            return "evaluate i p", status, line.format(at=len(head))

    further("blanks", b"0", b" ", b"")
    further("a number of {many} digits", b"1", b"1", b"")
    further("an exponent of {many} digits", b"1e1", b"1", b"")
    further("a text of {many} escapes", b'"', b"\\u0041", b'"')
    further("a text of {many} pairs of surrogates", b'"', b"\\ud83d\\ude00", b'"')
    further("a text of {many} characters of four bytes", b'"', "\U0001f600".encode(), b'"')
    further("{many} empty lists", b"[[]", b",[]", b"]")
    further("{many} empty objects", b"[[]", b",{}", b"]")
    further("{many} lists nested to the depth of 16", b"[[]", b"," + b"[" * 14 + b"]" * 14, b"]")
    further("{many} numbers that are skipped", b"[0", b",1", b"]")
    further("{many} members of one key, skipped", b'{"":0', b',"":0', b"}")
    inside("a season of {many} periods", b'"s0":[', b",1")
    inside("{many} durations", b'"Delta":[', b",1")
    inside("{many} upper limits", b'"max":[', b",1", 3, "refused instance band length c0")
    inside("{many} numbers of scenarios", b'"Scenarios_number":[', b",1", 3, "refused instance scenario list")
    inside("a risk of {many} digits", b'"risk":{"1":{"1":[', b"1", 3, "refused instance too large {at}")
    inside("an upper limit of {many} digits", b'"max":[0.', b"1")
    for part in (size // 10, size):
        keyed(f"empty risk lists at different starts, {part // MILLION:,} MB", part)
        root_keys(f"different further keys in the root, {part // MILLION:,} MB", part)
    for power in (15, 16, 17):
        alike(f"2^{power} further keys in the root that one hasher takes for the same", power, True)
        alike(f"2^{power} further keys in the root of that length that it doesn't", power, False)
    for part in (16, 32, 64):
        crowded(f"start keys that its table puts side by side, {part} MB", part * MILLION, True)
        crowded(f"start keys one behind the other, {part} MB", part * MILLION, False)
        unordered(f"start keys in no order, {part} MB", part * MILLION, b'"risk":{"1":{',
                  b'"%d":[],', 10 ** 8, 9 * 10 ** 8)
        unordered(f"short further keys in the root in no order, {part} MB", part * MILLION, b"{",
                  b'"%07d":0,', 0, 10 ** 7)


def least_cut(folder, key):
    """A small instance, cut behind a key and what it says of it, with the plan for it beside."""
    instance, path = Instance(resources=1, seasons=1, season_from=1, limit=b"0.5"), os.path.join(folder, "small")
    instance.write(path)
    instance.plan(os.path.join(folder, "p"))
    with open(path, "rb") as file:
        text = file.read()
    os.remove(path)
    at = text.index(key) + len(key)
    return text[:at], text[at:]


def keyed(name, size):
    @case("hostile", name)
    def make(folder):
        head, rest = least_cut(folder, b'"risk":{"1":{')
        out = Text(os.path.join(folder, "i"))
        out.put(head)
        for first in range(100_000_000, 10 ** 9, 100_000):
            if out.at >= size:
                break
            out.put(b"".join(b'"%d":[],' % n for n in range(first, first + 100_000)))
        out.put(rest)
        out.close()
        return "evaluate i p", 0, "feasible"


def root_keys(name, size):
    @case("hostile", name)
    def make(folder):
        head, rest = least_cut(folder, b"{")
        out = Text(os.path.join(folder, "i"))
        out.put(head)
        for first in range(10 ** 8, 10 ** 9, 100_000):
            if out.at >= size:
                break
            out.put(b"".join(b'"%d":0,' % n for n in range(first, first + 100_000)))
        out.put(rest)
        out.close()
        return "evaluate i p", 0, "feasible"


# A hasher whose seed is fixed, which multiplies 16 bytes at a time into 64 bits, as that of std's tables and of many
# others: keys that it takes for the same make a table of them slow.
WORD = 2 ** 64 - 1
MULTIPLIER, SEED = 0x9e3779b97f4a7c15, 0x243f6a8885a308d3


def folded(a, b):
    product = a * b
    return product & WORD ^ product >> 64


def block(state, piece):
    """The state behind 16 bytes of a text."""
    one, two = (int.from_bytes(piece[k:k + 8], "little") for k in (0, 8))
    return folded(one ^ state, two ^ MULTIPLIER)


def letters_of(difference):
    """A byte for each of a difference that is, and that with the difference is, a letter of a key; None without one."""
    letters = [x for x in range(48, 123) if x != 92]
    return next(((x, x ^ difference) for x in letters if x ^ difference in letters), None)


def texts_alike(power):
    """2^power texts of one length that the hasher gives one number.

    A product doesn't tell its factors' order, so a block has a twin where both are texts: the twin's halves are those
    of the block, each changed by the state and the multiplier. Before each such block stands one that makes a state
    with which both are texts. From the block on the states are the same.
    """
    length = 32 * power
    state, choices = (SEED + length) & WORD, []
    for _ in range(power):
        for n in range(10 ** 7):
            steering = b"%016d" % n
            after = block(state, steering)
            difference = (after ^ MULTIPLIER).to_bytes(8, "little")
            pairs = [letters_of(byte) if byte < 128 else None for byte in difference]
            if None not in pairs and any(one != two for one, two in pairs):
                break
        one, two = (bytes(pair[k] for pair in pairs) for k in (0, 1))
        twins = (one + one, two + two)
        if block(after, twins[0]) != block(after, twins[1]):
            sys.exit("the twins of a block aren't alike")
        choices.append([steering + twin for twin in twins])
        state = block(after, twins[0])
    texts = [b""]
    for pair in choices:
        texts = [text + part for text in texts for part in pair]
    return texts


def alike(name, power, same):
    @case("hostile", name)
    def make(folder):
        head, rest = least_cut(folder, b"{")
        texts = texts_alike(power) if same else [b"%0*d" % (32 * power, n) for n in range(2 ** power)]
        with open(os.path.join(folder, "i"), "wb") as out:
            out.write(head)
            out.writelines(b'"' + text + b'":0,' for text in texts)
            out.write(rest)
        return "evaluate i p", 0, "feasible"


def crowded(name, size, side_by_side):
    """Start keys whose place in a table of keys, which looks on from place to place, is among a few of all."""
    @case("hostile", name)
    def make(folder):
        many, groups = size // len(b'"100000000":[],'), 1
        while 9 * groups < many:
            groups *= 2
        state, taken, n = SEED, [], 10 ** 8
        while len(taken) < many and n < 10 ** 9:
            found = folded(state ^ (n | n << 32), MULTIPLIER ^ 8)
            if not side_by_side or (found ^ found >> 32) & (groups - 1) < max(1, groups // 64):
                taken.append(n)
            n += 1
        head, rest = least_cut(folder, b'"risk":{"1":{')
        with open(os.path.join(folder, "i"), "wb") as out:
            out.write(head)
            out.writelines(b'"%d":[],' % n for n in taken)
            out.write(rest)
        return "evaluate i p", 0, "feasible"


def unordered(name, size, behind, member, first, many):
    """Members whose keys are numbers from a first one on, each far from the one before it."""
    @case("hostile", name)
    def make(folder):
        head, rest = least_cut(folder, behind)
        step = 618_033_989 % many | 1
        while math.gcd(step, many) > 1:
            step += 2
        with open(os.path.join(folder, "i"), "wb") as out:
            out.write(head)
            out.writelines(member % (first + k * step % many) for k in range(size // len(member % (first + many - 1))))
            out.write(rest)
        return "evaluate i p", 0, "feasible"


def run(program, words, folder, memory):
    """The status, the first line, processor seconds, peak memory in bytes and how much was said."""
    said = os.path.join(folder, "said")

    def limit():
        resource.setrlimit(resource.RLIMIT_AS, (memory, memory))

    with open(said, "wb") as out:
        process = subprocess.Popen([program, *words.split()], cwd=folder, stdin=subprocess.DEVNULL, stdout=out,
                                   stderr=out, preexec_fn=limit)
        _, status, usage = os.wait4(process.pid, 0)
    process.returncode = os.waitstatus_to_exitcode(status)
    with open(said, "rb") as file:
        first = file.readline(500).decode(errors="replace").rstrip("\n")
    length = os.path.getsize(said)
    os.remove(said)
    return process.returncode, first, usage.ru_utime + usage.ru_stime, usage.ru_maxrss * 1024, length


def in_a_process_of_its_own(make, folder):
    """What a function answers; its memory is then gone, which else would count as a peak of what is run next."""
    read, write = os.pipe()
    child = os.fork()
    if child == 0:
        try:
            os.write(write, repr(make(folder)).encode())
        except BaseException as why:
            print(f"the files could not be made: {why!r}", flush=True)
            os._exit(1)
        os._exit(0)
    os.close(write)
    with open(read, "rb") as answer:
        made = answer.read()
    os.waitpid(child, 0)
    if not made:
        sys.exit(1)
    return ast.literal_eval(made.decode())


def measured(program, name, make, folder, memory):
    """The row of a case, and whether it is as wanted."""
    words, status, line = in_a_process_of_its_own(make, folder)
    read = sum(os.path.getsize(os.path.join(folder, word)) for word in words.split()[1:]
               if os.path.exists(os.path.join(folder, word)))
    found, first, seconds, peak, length = run(program, words, folder, memory)
    written = os.path.join(folder, "o")
    more = f", {length / 1e6:,.0f} MB said" if length > 10 ** 6 else ""
    more += f", {os.path.getsize(written) / 1e6:,.0f} MB written" if os.path.exists(written) else ""
    right = (found, first) == (status, line)
    wanted = "" if right else f" (wanted {status} `{line}`)"
    per = f"{seconds / read * 1e9:,.1f}" if read >= 10 ** 7 else ""
    return (f"| {name} | {read / 1e6:,.1f} | {found} `{first}`{more}{wanted} | {seconds:,.2f} | {per} | "
            f"{peak / 1e6:,.0f} |"), right


def main():
    parser = argparse.ArgumentParser(description=__doc__, formatter_class=argparse.RawDescriptionHelpFormatter)
    parser.add_argument("--program", help="the built planner_cli", metavar="PROGRAM")
    parser.add_argument("--part", choices=["limits", "files", "hostile"])
    parser.add_argument("--only", help="texts parted by |, of which the name of a case has to have one")
    parser.add_argument("--without", help="texts of which it may have none")
    parser.add_argument("--list", action="store_true", help="the names of the cases alone")
    parser.add_argument("--megabytes", type=float, default=1000, help="of each hostile text that grows (1000)")
    parser.add_argument("--memory", type=float, default=9, help="GB that a run may have")
    parser.add_argument("--folder", help="where the temporary folder is made")
    words = parser.parse_args()
    limit_cases()
    file_cases()
    hostile_cases(int(words.megabytes * MILLION))
    chosen = [(part, name, make) for part, name, make in CASES
              if (not words.part or part == words.part)
              and (not words.only or any(word in name for word in words.only.split("|")))
              and not (words.without and any(word in name for word in words.without.split("|")))]
    if words.list:
        print("\n".join(f"{part}: {name}" for part, name, _ in chosen))
        return
    if not words.program:
        parser.error("give --program")
    print("| case | MB read | status and first line | seconds | seconds a GB | peak MB |")
    print("|---|--:|---|--:|--:|--:|", flush=True)
    wrong = 0
    for _, name, make in chosen:
        with tempfile.TemporaryDirectory(prefix="sizes-", dir=words.folder) as folder:
            row, right = measured(os.path.abspath(words.program), name, make, folder, int(words.memory * 1e9))
        wrong += not right
        print(row, flush=True)
    sys.exit(1 if wrong else 0)


if __name__ == "__main__":
    main()
