"""What is known of the cases of a folder: the best plan and the best certificate of each, and how they were made.

The folder has `cases.txt`, the words that draw each case; `known.tsv`, a line for each; `NAME.plan`, the best plan;
`NAME.cert`, the best certificate, where that is small, and else `known.tsv` says with how many turns `bound` makes it
again of which plan: of `NAME.plan`, or of `NAME.from`, an earlier plan, where that makes the better one; and
`README.md`, whose table is made of `known.tsv`.
"""
import contextlib
import dataclasses
import fcntl
import os
import re
import signal
from dataclasses import dataclass
from fractions import Fraction
from typing import Optional, Tuple

import cases
from gadvresa.files import write_whole

ONE = 10 ** 18
COLUMNS = ["case", "bytes", "sum", "score", "bound", "gap", "plan_by", "plan_made", "bound_by", "bound_made", "again"]
NAME = re.compile(r"[a-z0-9][a-z0-9.-]{0,39}")
SUM, NUMBER, SCORE = re.compile("[0-9a-f]{64}"), re.compile("0|[1-9][0-9]*"), re.compile("0|-?[1-9][0-9]*")
# A certificate of more bytes isn't stored, nor is one where all together have more.
LARGEST, LARGEST_TOGETHER = 60_000, 1_000_000
MOST_TURNS = 1_000_000
# How long may be who made something, and how.
LONGEST_WHO, LONGEST_HOW = 40, 200
# Who made what isn't said on the page to be of somebody else.
MAKERS = "Gadvresa"
MARKS = "<!-- known: written by bench/beat page -->", "<!-- end of known -->"
OWN_FILES = {"cases.txt", "known.tsv", "README.md"}


class Fault(Exception):
    """A file of the folder isn't as it should be, or a word isn't; the message says how."""


def is_said(text, longest):
    """Whether a text can stand in `known.tsv` and on the page."""
    return 0 < len(text) <= longest and text.isprintable() and not set("|<>`\\") & set(text) and text == text.strip()


@dataclass(frozen=True)
class Known:
    """What is known of a case: the bytes and the sum of its instance, the best score and the best bound, each with who
    made it and how, and the file and the turns of which `bound` makes the certificate again, where it isn't stored.
    """

    case: str
    bytes: int
    sum: str
    score: int
    bound: int
    plan_by: str
    plan_made: str
    bound_by: str
    bound_made: str
    again: Optional[Tuple[str, int]]

    @property
    def gap(self):
        return self.score - self.bound

    @property
    def line(self):
        again = "-" if self.again is None else " ".join(map(str, self.again))
        return "\t".join(map(str, [self.case, self.bytes, self.sum, self.score, self.bound, self.gap, self.plan_by,
                                   self.plan_made, self.bound_by, self.bound_made, again]))


def known_of(line, names):
    """What a line of `known.tsv` says. Raises Fault."""
    fields = line.split("\t")
    if len(fields) != len(COLUMNS):
        raise Fault(f"{len(fields)} columns, and not {len(COLUMNS)}")
    said = dict(zip(COLUMNS, fields))
    forms = {"bytes": NUMBER, "sum": SUM, "score": SCORE, "bound": SCORE, "gap": NUMBER}
    if said["case"] not in names:
        raise Fault(f"{said['case']!r} is no case of cases.txt")
    for name, form in forms.items():
        if not form.fullmatch(said[name]):
            raise Fault(f"its {name} is {said[name]!r}")
    for name in ("plan_by", "plan_made", "bound_by", "bound_made"):
        if not is_said(said[name], LONGEST_WHO if name.endswith("by") else LONGEST_HOW):
            raise Fault(f"its {name} is {said[name]!r}")
    again = said["again"].split(" ")
    if said["again"] != "-" and not (len(again) == 2 and again[0] in (f"{said['case']}.plan", f"{said['case']}.from")
                                     and NUMBER.fullmatch(again[1]) and int(again[1]) <= MOST_TURNS):
        raise Fault(f"its again is {said['again']!r}, and neither - nor a file of the case and turns")
    if int(said["score"]) - int(said["bound"]) != int(said["gap"]):
        raise Fault("its gap isn't its score less its bound")
    return Known(said["case"], int(said["bytes"]), said["sum"], int(said["score"]), int(said["bound"]), said["plan_by"],
                 said["plan_made"], said["bound_by"], said["bound_made"],
                 None if said["again"] == "-" else (again[0], int(again[1])))


class Folder:
    """The folder of cases: `words` has what draws each case, and `known` what is known of it."""

    def __init__(self, path):
        self.path = os.path.abspath(path)
        self.words = cases.read(self.place("cases.txt"))
        for name in self.words:
            if not NAME.fullmatch(name):
                raise Fault(f"{self.place('cases.txt')}: {name!r} is no name of a case")
        self.known = {}
        self.read_known()

    def place(self, name):
        return os.path.join(self.path, name)

    def bytes_of(self, name):
        with open(self.place(name), "rb") as file:
            return file.read()

    def read_known(self):
        """Reads `known.tsv`, which may not be there yet."""
        path = self.place("known.tsv")
        self.known = {}
        if not os.path.exists(path):
            return
        lines = self.bytes_of("known.tsv").decode("utf-8").split("\n")
        if lines[0] != "\t".join(COLUMNS) or lines[-1] != "":
            raise Fault(f"{path}: its first line names other columns, or its last line has no end")
        for number, line in enumerate(lines[1:-1], 2):
            try:
                known = known_of(line, self.words)
            except Fault as fault:
                raise Fault(f"{path}, line {number}: {fault}") from None
            if known.case in self.known:
                raise Fault(f"{path}, line {number}: {known.case} has a line above")
            self.known[known.case] = known

    @contextlib.contextmanager
    def locked(self):
        """Nobody else changes the folder meanwhile, and what they changed before is read again."""
        number = os.open(self.path, os.O_RDONLY)
        try:
            fcntl.flock(number, fcntl.LOCK_EX)
            with signals_later():
                self.read_known()
                yield
        finally:
            os.close(number)

    def certificate_bytes(self, but):
        """How many bytes the stored certificates have together, but for that of a case."""
        return sum(os.path.getsize(self.place(f"{name}.cert")) for name, known in self.known.items()
                   if known.again is None and name != but and os.path.exists(self.place(f"{name}.cert")))

    def may_store(self, name, data):
        """Whether a certificate may be stored as that of a case."""
        return len(data) <= LARGEST and len(data) + self.certificate_bytes(name) <= LARGEST_TOGETHER

    def put(self, known, files):
        """Puts what is known of a case in the place of what was, with the files of these endings, or none for None."""
        for ending, data in files.items():
            path = self.place(f"{known.case}.{ending}")
            if data is not None:
                write_whole(path, data)
            elif os.path.exists(path):
                os.remove(path)
        self.known[known.case] = known
        lines = [self.known[name].line for name in self.words if name in self.known]
        write_whole(self.place("known.tsv"), "".join(f"{line}\n" for line in ["\t".join(COLUMNS), *lines]).encode())
        self.write_page()

    def due_files(self):
        """The names of the files that the folder is to have."""
        due = set(OWN_FILES)
        for name, known in self.known.items():
            due |= {f"{name}.plan", f"{name}.cert" if known.again is None else known.again[0]}
        return due

    def faults(self):
        """What is wrong with the folder as a whole, each with what it was found in."""
        there = {it for it in os.listdir(self.path) if not it.startswith(".")}
        for name in self.words:
            if name not in self.known:
                yield f"{name}: known.tsv has no line of it"
        if list(self.known) != [name for name in self.words if name in self.known]:
            yield "known.tsv: its lines stand in another order than those of cases.txt"
        for name in sorted(self.due_files() - there):
            yield f"{name}: the file isn't there"
        for name in sorted(there - self.due_files()):
            yield f"{name}: the file belongs to no case as known.tsv has it"
        stored = [f"{name}.cert" for name, known in self.known.items() if known.again is None]
        sizes = {name: os.path.getsize(self.place(name)) for name in stored if name in there}
        for name, size in sizes.items():
            if size > LARGEST:
                yield f"{name}: {size:,} bytes, and not at most {LARGEST:,}"
        if sum(sizes.values()) > LARGEST_TOGETHER:
            yield f"the certificates have {sum(sizes.values()):,} bytes, and not at most {LARGEST_TOGETHER:,}"
        if "README.md" in there and self.page() != self.bytes_of("README.md").decode("utf-8"):
            yield "README.md: its table isn't that of known.tsv: bench/beat page"

    def page(self):
        """The text of `README.md`, with the table that is due."""
        text = self.bytes_of("README.md").decode("utf-8")
        before, first, rest = text.partition(MARKS[0])
        _, last, behind = rest.partition(MARKS[1])
        if not (first and last):
            raise Fault(f"{self.place('README.md')}: it lacks the marks {' and '.join(MARKS)}, between which the table "
                        "stands")
        return f"{before}{first}\n\n" + "".join(f"{line}\n" for line in self.table()) + f"\n{last}{behind}"

    def write_page(self):
        write_whole(self.place("README.md"), self.page().encode())

    def table(self):
        """The lines of the table, and those behind it that say what others made."""
        yield "| case | MB | score | bound | gap % | certificate |"
        yield "|---|--:|--:|--:|--:|--:|"
        for name in self.words:
            if name in self.known:
                yield self.row(self.known[name])
        others = [line for name in self.words if name in self.known for line in of_others(self.known[name])]
        if others:
            yield ""
            yield from others

    def row(self, known):
        path = self.place(f"{known.case}.cert")
        size = os.path.getsize(path) if os.path.exists(path) else 0
        certificate = f"{size:,} bytes" if known.again is None else f"{known.again[1]:,} turns"
        return (f"| `{known.case}` | {shown(known.bytes, 10 ** 6, 2)} | {shown(known.score, ONE, 3)} | "
                f"{shown(known.bound, ONE, 3)} | {gap_percent(known.score, known.bound)} | {certificate} |")


@contextlib.contextmanager
def signals_later():
    """Has a signal that ends the script wait, so that no file is replaced without those that go with it."""
    former = signal.pthread_sigmask(signal.SIG_BLOCK, (signal.SIGINT, signal.SIGTERM, signal.SIGHUP))
    try:
        yield
    finally:
        signal.pthread_sigmask(signal.SIG_SETMASK, former)


def of_others(known):
    """Lines of what isn't of the makers."""
    if known.plan_by != MAKERS:
        yield f"- `{known.case}`: the plan is of {known.plan_by}."
    if known.bound_by != MAKERS:
        yield f"- `{known.case}`: the certificate is of {known.bound_by}."


def shown(number, unit, places):
    """A whole number as a multiple of a unit, with so many decimals."""
    return f"{float(round(Fraction(number, unit), places)):,.{places}f}"


def gap_percent(score, bound):
    """The gap in percent of the score; 0 where there is none, and never 0.00 where there is one."""
    if score == bound:
        return "0"
    if score == 0:
        return ""
    return f"{max(0.01, float(100 * Fraction(score - bound, abs(score)))):.2f}"


def with_changes(known, **changes):
    return dataclasses.replace(known, **changes)
