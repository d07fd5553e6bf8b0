"""The calls: each runs one of the proved programs once, and answers what that says.

An instance is an `Instance` or the path of its file; a plan is a `Plan`, any mapping of names to starts, or a path; a
certificate is a `Certificate` or a path. What a call takes as no file goes into a folder of its own, which is gone
behind it; what it makes comes back in its answer, and `write` puts it into a file. No file of the caller's is written,
but that of `roll`.

All take these, by name:

- `slack`: widens every limit by so much, from 0 to 0.001, with at most 12 decimals.
- `timeout`: seconds behind which the program is ended, with `TimedOut`.
- `cancel`: a `threading.Event`. Once it is set, by another thread, the program is ended, with `Cancelled`. Ctrl-C ends
  the program too. In the main thread SIGTERM and SIGHUP end the program and remove its folder before they end the
  process, unless you handle or ignore them. In other threads your own handler of them has to set `cancel`.

All raise what `gadvresa.errors` has: a subclass of `Refused` for a file or a word that is refused, with its place;
`BrokenRule` where a plan has to keep rules and doesn't; `ProgramMissing`, `ProgramFailed` and `OutOfMemory`.
"""
from __future__ import annotations

import os
import re
import threading
from dataclasses import dataclass, field
from typing import Any, Callable, Dict, Iterable, List, Mapping, NoReturn, Optional, Tuple, Type, TypeVar, Union

from . import errors
from .answers import (Audited, Bounded, Checked, Improved, Judged, Outcome, Rebound, Repaired, Replayed, Rolled, Solved,
                      Table)
from .explaining import Source
from .files import Certificate, Plan, is_refined, script_data
from .model.exact import Slack, decimal_of, slack_word, whole_of
from .model.instance import Instance
from .reports import NoReport, Report, broken_rule, costs, keys_of, read_table, refusal
from .reports.lines import count_of, or_none
from .running import Called, NotFound, Path, Status, Stopped, find, room, run, signal_name
from .whole_files import permissions

Made = TypeVar("Made")
AnyInstance = Union[Instance, Path]
AnyPlan = Union[Plan, Mapping[str, int], Path]
AnyCertificate = Union[Certificate, Path]
AnyScript = Union[Path, Iterable[str]]

NO_COSTS: Dict[str, Any] = dict.fromkeys(("cost", "mean", "excess"))
OUTCOMES: Dict[int, Outcome] = {
    Status.DONE: Outcome.FOUND, Status.NOTHING_FOUND: Outcome.NOTHING_FOUND,
    Status.NO_PLAN_EXISTS: Outcome.NO_PLAN_EXISTS}
# What a status of refusal raises, and which file it is about.
REFUSALS: Dict[int, Tuple[Type[errors.Refused], Optional[str]]] = {
    Status.WORDS_REFUSED: (errors.WordsRefused, None),
    Status.INSTANCE_REFUSED: (errors.InstanceRefused, "instance"),
    Status.PLAN_REFUSED: (errors.PlanRefused, "plan"),
    Status.CERTIFICATE_REFUSED: (errors.CertificateRefused, "certificate"),
    Status.SCRIPT_REFUSED: (errors.ScriptRefused, "script"),
    Status.UNREAD: (errors.Unread, None),
    Status.UNWRITTEN: (errors.Unwritten, None),
    Status.TOO_LONG: (errors.TooLong, None)}
# The refusals of an instance that tell an offset, those of a text that tell a line, and the one that tells a leaf.
AT = re.compile(r"refused instance (?:syntax|too deep|double|bad name|missing|shape|too large|limit) ([0-9]+)(?: .*)?")
IN_LINE = re.compile(r"refused (?:plan|script|certificate) (?!leaf)[a-z ]+ ([0-9]+)")
LEAF = re.compile(r"refused certificate leaf ([0-9]+)")
OF_WORD = re.compile(r"refused (?:read|write|output too long) ([0-9]+)")


@dataclass
class Call:
    """A call in the making: its words, and which files they name, by what these are."""

    command: str
    program: str
    room: str
    words: List[str] = field(default_factory=list)
    sources: Dict[str, Source] = field(default_factory=dict)
    slack: Optional[str] = None

    def __post_init__(self) -> None:
        self.words.append(self.command)

    def path(self, kind: str, path: Path) -> str:
        """A word for the file of a path. A lone `-` would say that there is none."""
        text = os.fspath(path)
        if not isinstance(text, str):
            text = os.fsdecode(text)
        if "\0" in text:
            raise ValueError(f"the path of the {kind} holds a zero character: {text!r}")
        self.sources[kind] = Source(path=text)
        self.words.append("./-" if text == "-" else text)
        return text

    def data(self, kind: str, data: bytes) -> None:
        """A word for a file of these bytes."""
        path = os.path.join(self.room, kind)
        with open(path, "wb") as file:
            file.write(data)
        self.sources[kind] = Source(data=data)
        self.words.append(path)

    def instance(self, given: AnyInstance) -> None:
        self.path("instance", given.path if isinstance(given, Instance) else given)

    def plan(self, given: Optional[AnyPlan]) -> None:
        """A word for a plan, which may be none where the command has a `-` for that."""
        if given is None:
            self.words.append("-")
        elif isinstance(given, Mapping):
            self.data("plan", (given if isinstance(given, Plan) else Plan(given)).data())
        else:
            self.path("plan", given)

    def certificate(self, given: Optional[AnyCertificate]) -> None:
        if given is None:
            self.words.append("-")
        elif isinstance(given, Certificate):
            self.data("certificate", given.data)
        else:
            self.path("certificate", given)

    def script(self, given: AnyScript) -> None:
        if isinstance(given, (str, bytes, os.PathLike)):
            self.path("script", given)
        else:
            self.data("script", script_data(given))

    def out(self, name: str) -> str:
        """A word for a file that the program writes, in the folder of the call; answers its path."""
        path = os.path.join(self.room, f"made-{name}")
        self.words.append(path)
        return path

    def number(self, name: str, value: int) -> None:
        """A word for a whole number, whose range the program looks at."""
        self.words.append(digits(name, value))

    def widen(self, slack: Slack) -> None:
        if slack is not None:
            self.slack = slack_word(slack)
            self.words.append(self.slack)

    def part(self, given: Optional[Tuple[int, int]]) -> None:
        """A word for a part of a tree, behind all others; whether there is such a part the program looks at."""
        if given is not None:
            if not isinstance(given, tuple) or len(given) != 2:
                raise TypeError(f"part is a pair (number, count), and not {given!r}")
            self.words.append(f"part={digits('number of part', given[0])}/{digits('count of part', given[1])}")

    def run(self, statuses: Tuple[int, ...], timeout: Optional[float], cancel: Optional[threading.Event]) -> Called:
        """Runs the program, and answers how it was called where it ends with one of these statuses."""
        try:
            called = run(find(self.program), tuple(self.words), timeout, cancel)
        except NotFound as missing:
            raise errors.ProgramMissing(str(missing)) from None
        except Stopped as stopped:
            if stopped.is_late:
                raise errors.TimedOut(f"{self.command} was ended, as its {timeout} seconds were over") from None
            raise errors.Cancelled(f"{self.command} was cancelled") from None
        except OSError as fault:
            raise errors.ProgramMissing(f"{self.program} can't be started: {fault}") from None
        if called.status in statuses and not refusal(called.said):
            return called
        self.fail(called)

    def fail(self, called: Called) -> NoReturn:
        """Raises what a status says that isn't an answer."""
        line = refusal(called.said)
        if called.status == Status.BROKEN_RULE and not line:
            rule, _ = self.read(called, lambda: broken_rule(called.said))
            raise errors.BrokenRule(f"the plan breaks a rule: {rule}", rule=rule, called=called)
        if called.status == Status.OUT_OF_MEMORY:
            raise errors.OutOfMemory(f"memory ran out in {self.command}", called=called)
        if called.status in REFUSALS and line:
            self.refuse(called, line, *REFUSALS[called.status])
        if called.status == Status.UNWRITTEN:
            raise errors.Unwritten(f"{self.command} couldn't say all that was due", called=called)
        raise errors.ProgramFailed(f"{called.program} {self.command} {ending(called)}", called=called)

    def refuse(self, called: Called, line: str, error: Type[errors.Refused], kind: Optional[str]) -> NoReturn:
        of_word = OF_WORD.fullmatch(line)
        if of_word:
            word = self.words[int(of_word[1]) - 1] if int(of_word[1]) <= len(self.words) else ""
            raise error(f"{self.command}: {line}: {word}", line=line, called=called, kind=kind_of(line))
        if kind is None:
            raise error(f"{self.command}: {line}: {' '.join(self.words)}", line=line, called=called, kind=kind_of(line))
        order = [kind, *(("instance", "plan") if LEAF.fullmatch(line) and self.command == "audit" else
                         ("instance",) if LEAF.fullmatch(line) else ())]
        sources = tuple(self.sources[it] for it in order if it in self.sources)
        facts: Dict[str, Any] = {"line": line, "called": called, "kind": kind_of(line), "sources": sources,
                                 "slack": self.slack, "place": place_of(line, sources[:1])}
        if error is errors.CertificateRefused and LEAF.fullmatch(line):
            facts["leaf"] = whole_of(line.split(" ")[-1])
        if error is errors.ScriptRefused:
            facts["keys"] = self.read(called, lambda: keys_of(called.said.split("\n")[:-2]))
        where = facts["place"] or (sources[0].path if sources else None) or f"the {kind} that was given"
        raise error(f"{where}: {line}", **facts)

    def read(self, called: Called, reading: Callable[[], Made]) -> Made:
        """What is read of what the program said."""
        try:
            return reading()
        except NoReport as fault:
            raise errors.ProgramFailed(f"{called.program} said what is no report of {self.command}: {fault}",
                                       called=called) from None


def digits(name: str, value: int) -> str:
    """A whole number as a word."""
    if isinstance(value, bool) or not hasattr(value, "__index__"):
        raise TypeError(f"{name} is a whole number, and not {value!r}")
    return str(value.__index__())


def ending(called: Called) -> str:
    """How a program ended that gave no answer."""
    if called.status < 0:
        return f"was ended by {signal_name(-called.status)}"
    if called.status == 127:
        return "ended with 127: the processor lacks a feature that it was built for, or it isn't such a program"
    return f"ended with {called.status} and said {called.said[:200]!r}{called.errors[:500]!r}"


def kind_of(line: str) -> str:
    """The words of a refusal without what is the file's own: `refused plan bad line 2` is of the kind `plan bad line`.

    >>> kind_of("refused instance no risk north-line 2 1"), kind_of("refused words")
    ('instance no risk', 'words')
    """
    rest = line.split(" ", 1)[1]
    return next((kind for kind in KINDS if rest == kind or rest.startswith(kind + " ")), rest)


KINDS = sorted(
    [f"instance {it}" for it in (
        "too long", "syntax", "too deep", "double", "bad name", "missing", "shape", "too large", "limit",
        "scenario list", "band length", "bad tmax", "no delta", "unknown", "no risk", "scenario count")]
    + [f"plan {it}" for it in ("too long", "bad line", "unknown name", "twice")]
    + [f"script {it}" for it in ("too long", "bad line", "unknown name", "not allowed", "nothing to undo")]
    + [f"certificate {it}" for it in ("too long", "cut", "bad line", "order", "bounds", "after tree", "leaf")]
    + ["words", "read", "write", "memory", "output too long"], key=len, reverse=True)


def place_of(line: str, sources: Tuple[Source, ...]) -> Optional[errors.Place]:
    """The place that a refusal tells in its file, if it tells one and the file can be read."""
    at, in_line = AT.fullmatch(line), IN_LINE.fullmatch(line)
    if not sources or not (at or in_line):
        return None
    path = sources[0].path
    if in_line:
        return errors.Place(path, int(in_line[1]))
    try:
        head = sources[0].bytes()[:int(at[1])] if at else b""
    except OSError:
        return None
    begin = head.rfind(b"\n") + 1
    return errors.Place(path, head.count(b"\n") + 1, len(head[begin:].decode("utf-8", "replace")) + 1, len(head))


def bytes_of(path: str) -> bytes:
    with open(path, "rb") as file:
        return file.read()


def plan_in(path: str) -> Plan:
    return Plan.of_text(bytes_of(path).decode("utf-8", "surrogateescape"))


def reader_of(certificate: Optional[AnyCertificate]) -> str:
    """The program that reads a certificate: `plan_refine` one of version 3, and `planner_cli` each other."""
    if isinstance(certificate, Certificate):
        return "plan_refine" if certificate.is_refined else "planner_cli"
    try:
        with open(os.fspath(certificate), "rb") as file:  # type: ignore[arg-type]
            return "plan_refine" if is_refined(file.read(8)) else "planner_cli"
    except OSError:
        return "planner_cli"


def evaluate(instance: AnyInstance, plan: AnyPlan, *, slack: Slack = None, timeout: Optional[float] = None,
             cancel: Optional[threading.Event] = None) -> Judged:
    """Judges a plan: what it costs, or the first rule that it breaks, which is an answer too.

    >>> judged = evaluate("examples/summer/instance.json", {"north-line": 1, "south-line": 3})
    >>> judged.feasible, judged.score, float(judged.cost)
    (True, 3000000000000000000, 1.0)
    >>> judged = evaluate("examples/summer/instance.json", {"north-line": 1, "south-line": 1})
    >>> print(judged.rule)
    B1: the load of crew in period 1 is 4, above its limit of 3

    Raises InstanceRefused and PlanRefused for files with a fault.
    """
    with room() as folder:
        call = Call("evaluate", "planner_cli", folder)
        call.instance(instance)
        call.plan(needed(plan, "plan"))
        call.widen(slack)
        called = call.run((Status.DONE, Status.BROKEN_RULE), timeout, cancel)

        def reading() -> Judged:
            if called.status == Status.BROKEN_RULE:
                rule, rounded = broken_rule(called.said)
                return Judged(rule, None, None, None, None, rounded, called)
            report = Report(called.said)
            report.take("feasible")
            judged = Judged(None, report.one("score"), **costs(report), rounded=report.one("rounded"), called=called)
            report.end()
            return judged

        return call.read(called, reading)


def check(instance: AnyInstance, certificate: AnyCertificate, plan: Optional[AnyPlan] = None, *, slack: Slack = None,
          timeout: Optional[float] = None, cancel: Optional[threading.Event] = None) -> Checked:
    """Checks a certificate of `solve`, `bound` or `rebound`: no plan that keeps the rules has a score below its bound.

    >>> checked = check("examples/summer/instance.json", "examples/summer/bound.cert", "examples/summer/plan.txt")
    >>> checked.bound, checked.score, checked.gap_percent
    (1500000000000000000, 3000000000000000000, 50.0)

    Raises CertificateRefused where the text has a fault or a leaf doesn't hold, and BrokenRule where the plan that was
    given breaks one.
    """
    with room() as folder:
        call = Call("check", reader_of(certificate), folder)
        call.instance(instance)
        call.plan(plan)
        call.certificate(needed(certificate, "certificate"))
        call.widen(slack)
        called = call.run((Status.DONE,), timeout, cancel)

        def reading() -> Checked:
            report = Report(called.said)
            report.take("accepted")
            bound = report.one("bound", or_none(whole_of))
            checked = Checked(bound, None if bound is None else report.one("bound-cost", decimal_of),
                              report.may("score"), report.may("gap"), report.one("rounded"), called)
            report.end()
            return checked

        return call.read(called, reading)


def solve(instance: AnyInstance, turns: int = 1000, *, slack: Slack = None, timeout: Optional[float] = None,
          cancel: Optional[threading.Event] = None) -> Solved:
    """Makes a plan, and a certificate of how good any can be. TURNS, from 0 to 1,000,000, bounds the search.

    The same words and files give the same answer. More turns may find a worse plan, or a lower bound.

    >>> solved = solve("examples/summer/instance.json", 100)
    >>> solved.outcome.value, dict(solved.plan), solved.gap
    ('found', {'north-line': 2, 'south-line': 3}, 0)
    >>> solve("examples/summer/none.json", 100).outcome
    <Outcome.NO_PLAN_EXISTS: 'no plan exists'>
    """
    with room() as folder:
        call = Call("solve", "planner_cli", folder)
        call.instance(instance)
        plan, certificate, trail = (call.out(name) for name in ("plan", "certificate", "trail"))
        call.number("turns", turns)
        call.widen(slack)
        called = call.run(tuple(OUTCOMES), timeout, cancel)

        def reading() -> Solved:
            report, outcome = Report(called.said), OUTCOMES[called.status]
            report.take("plan found" if outcome is Outcome.FOUND else outcome.value)
            is_found = outcome is Outcome.FOUND
            score = report.one("score") if is_found else None
            bound = None if outcome is Outcome.NO_PLAN_EXISTS else report.one("bound")
            gap = report.one("gap") if is_found else None
            values: Mapping[str, Any] = costs(report) if is_found else NO_COSTS
            counts = {name: report.one(name) for name in ("splits", "moves", "rounded")}
            report.end()
            return Solved(outcome, plan_in(plan) if is_found else None, score, bound, gap, **values, **counts,
                          certificate=Certificate(bytes_of(certificate)),
                          trail=tuple(bytes_of(trail).decode("utf-8", "surrogateescape").split("\n")[:-1]),
                          called=called)

        return call.read(called, reading)


def improve(instance: AnyInstance, plan: Optional[AnyPlan] = None, turns: int = 1000, seed: int = 1, *,
            slack: Slack = None, timeout: Optional[float] = None,
            cancel: Optional[threading.Event] = None) -> Improved:
    """Makes a better plan of one, or of none, and never a worse one. TURNS, up to 1,000,000, counts thousands of tries.

    SEED is from 0 to 2^64 - 1; the same words and files give the same plan. Where the first plan breaks a rule, one
    that keeps them all is looked for first.

    >>> improved = improve("examples/summer/instance.json", "examples/summer/plan.txt", 10)
    >>> improved.before, improved.score, improved.changed
    (3000000000000000000, 1500000000000000000, 1)
    """
    with room() as folder:
        call = Call("improve", "plan_refine", folder)
        call.instance(instance)
        call.plan(plan)
        out = call.out("plan")
        call.number("turns", turns)
        call.number("seed", seed)
        call.widen(slack)
        called = call.run(tuple(OUTCOMES), timeout, cancel)

        def reading() -> Improved:
            report, outcome = Report(called.said), OUTCOMES[called.status]
            report.take("plan improved" if outcome is Outcome.FOUND else outcome.value)
            is_found = outcome is Outcome.FOUND
            score = report.one("score") if is_found else None
            before = report.one("before", or_none(whole_of)) if is_found else None
            changed = report.one("changed") if is_found else None
            values: Mapping[str, Any] = costs(report) if is_found else NO_COSTS
            violation = report.may("violation", count_of)
            rounded = report.one("rounded")
            report.end()
            return Improved(outcome, plan_in(out) if is_found else None, score, before, changed, **values,
                            violation=violation, rounded=rounded, called=called)

        return call.read(called, reading)


def bound(instance: AnyInstance, plan: Optional[AnyPlan] = None, certificate: Optional[AnyCertificate] = None,
          turns: int = 1000, *, part: Optional[Tuple[int, int]] = None, slack: Slack = None,
          timeout: Optional[float] = None, cancel: Optional[threading.Event] = None) -> Bounded:
    """Makes a certificate by refined price lists, or goes on with one that is given. TURNS, from 0 to 1,000,000, is how
    many boxes of starts it splits at most. What it answers as `bound`, `score` and `gap` is in units of the score.

    A plan that keeps the rules makes the search shorter, and is set beside the bound; one that breaks a rule is left
    aside.

    >>> bounded = bound("examples/summer/instance.json", "examples/summer/best.txt", turns=10)
    >>> bounded.bound, bounded.gap
    (1500000000000000000, 0)

    With `part`, a pair (number, count), it splits those leaves alone of the certificate that is given whose number,
    counted from 0 in the order of its lines, is `number` modulo `count`; the others stay, and the bound is the least of
    all. So several calls share a tree, and `tools/join` of a clone puts together what they make. `count` is from 1 to
    1,000,000, and `number` from 0 and below it.

    >>> given = "examples/summer/instance.json", None, "examples/summer/bound.cert"
    >>> [bound(*given, turns=10, part=(number, 2)).bound for number in range(2)]
    [1500000000000000000, 1500000000000000000]

    Raises InstanceRefused, PlanRefused and CertificateRefused for files with a fault, but not for a leaf that doesn't
    hold; WordsRefused where TURNS or `part` is out of its range, and TypeError where they aren't whole numbers.
    """
    with room() as folder:
        call = Call("bound", "plan_refine", folder)
        call.instance(instance)
        call.plan(plan)
        call.certificate(certificate)
        out = call.out("certificate")
        call.number("turns", turns)
        call.widen(slack)
        call.part(part)
        called = call.run((Status.DONE, Status.NO_PLAN_EXISTS), timeout, cancel)

        def reading() -> Bounded:
            report = Report(called.said)
            value = report.one("bound", or_none(whole_of))
            score, gap = report.may("score"), report.may("gap")
            counts = {name: report.one(name) for name in ("lists", "splits", "kept", "changed", "rounded")}
            bounded = Bounded(OUTCOMES[called.status], value, score, gap, **counts,
                              certificate=Certificate(bytes_of(out)), called=called)
            report.end()
            return bounded

        return call.read(called, reading)


def rebound(instance: AnyInstance, certificate: AnyCertificate, *, slack: Slack = None,
            timeout: Optional[float] = None, cancel: Optional[threading.Event] = None) -> Rebound:
    """Makes a certificate of another for an instance whose limits changed, or that `roll` wrote, without a search.

    >>> made = rebound("examples/summer/instance.json", "examples/summer/short.cert")
    >>> made.bound, made.kept, made.changed
    (1500000000000000000, 3, 1)
    """
    with room() as folder:
        call = Call("rebound", reader_of(certificate), folder)
        call.instance(instance)
        call.certificate(needed(certificate, "certificate"))
        out = call.out("certificate")
        call.widen(slack)
        called = call.run((Status.DONE,), timeout, cancel)

        def reading() -> Rebound:
            report = Report(called.said)
            report.take("rebound")
            made = Rebound(report.one("bound", or_none(whole_of)), report.one("kept"), report.one("changed"),
                           report.one("rounded"), Certificate(bytes_of(out)), called)
            report.end()
            return made

        return call.read(called, reading)


def table(instance: AnyInstance, plan: AnyPlan, first: int = 1, last: int = 512, *, slack: Slack = None,
          timeout: Optional[float] = None, cancel: Optional[threading.Event] = None) -> Table:
    """Shows periods of a plan whose starts are allowed, from FIRST to LAST, or to the last one: risk, loads, runs.

    >>> second = table("examples/summer/instance.json", "examples/summer/clash.txt").periods[1]
    >>> [(it.resource, float(it.load), it.state) for it in second.loads], second.clashes
    ([('crew', 3.0, 'fits')], ('both-lines',))
    >>> rows = table("examples/summer/instance.json", "examples/summer/clash.txt", 2, 2).rows("runs")
    >>> [(row["name"], row["day"], row["duration"], row["mean"]) for row in rows]
    [('north-line', 2, 2, 2.0), ('south-line', 1, 1, 1.0)]

    Raises BrokenRule where a start is missing or not allowed.
    """
    with room() as folder:
        call = Call("table", "planner_cli", folder)
        call.instance(instance)
        call.plan(needed(plan, "plan"))
        call.number("first", first)
        call.number("last", last)
        call.widen(slack)
        called = call.run((Status.DONE,), timeout, cancel)

        def reading() -> Table:
            return Table(*read_table(called.said), called)

        return call.read(called, reading)


def replay(instance: AnyInstance, plan: AnyPlan, script: AnyScript, *, slack: Slack = None,
           timeout: Optional[float] = None, cancel: Optional[threading.Event] = None) -> Replayed:
    """Changes a plan line by line, and tells its violation and score each time. A script is its lines, or a path.

    Lines are those of `move` and `swap`, and `UNDO`, as `gadvresa` has them.

    >>> from gadvresa import UNDO, move, swap
    >>> script = [swap("north-line", "south-line"), move("south-line", 2), UNDO]
    >>> replayed = replay("examples/two_lines/instance.json", "examples/two_lines/plan.txt", script)
    >>> [(key.line, key.feasible, key.score // 10 ** 17) for key in replayed.keys]
    [(0, True, 35), (1, True, 35), (2, True, 45), (3, True, 35)]

    Raises ScriptRefused, with the keys up to there, for the first line that is none or fails, and BrokenRule where a
    start of the plan is missing or not allowed.
    """
    with room() as folder:
        call = Call("replay", "planner_cli", folder)
        call.instance(instance)
        call.plan(needed(plan, "plan"))
        call.script(script)
        call.widen(slack)
        called = call.run((Status.DONE,), timeout, cancel)

        def reading() -> Replayed:
            *lines, end, rest = called.said.split("\n")
            keys = keys_of(lines)
            if rest or end != f"end {len(keys) - 1}":
                raise NoReport(f"the last line is {end!r}")
            return Replayed(keys, called)

        return call.read(called, reading)


def repair(instance: AnyInstance, plan: AnyPlan, turns: int = 1000, *, slack: Slack = None,
           timeout: Optional[float] = None, cancel: Optional[threading.Event] = None) -> Repaired:
    """Looks for a plan that keeps the rules and changes few starts of PLAN, and proves how few have to be changed.

    >>> repaired = repair("examples/summer/short.json", "examples/summer/best.txt", 10)
    >>> repaired.changed, repaired.least, dict(repaired.plan)
    (1, 1, {'north-line': 2, 'south-line': 1})
    """
    with room() as folder:
        call = Call("repair", "plan_repair", folder)
        call.instance(instance)
        call.plan(needed(plan, "plan"))
        certificate, out = call.out("certificate"), call.out("plan")
        call.number("turns", turns)
        call.widen(slack)
        called = call.run(tuple(OUTCOMES), timeout, cancel)

        def reading() -> Repaired:
            report, outcome = Report(called.said), OUTCOMES[called.status]
            is_found = outcome is Outcome.FOUND
            report.take("plan repaired" if is_found else outcome.value)
            changed = report.one("changed") if is_found else None
            least = None if outcome is Outcome.NO_PLAN_EXISTS else report.one("least")
            repaired = Repaired(outcome, plan_in(out) if is_found else None, changed, least, report.one("splits"),
                                report.one("rounded"), Certificate(bytes_of(certificate)), called)
            report.end()
            return repaired

        return call.read(called, reading)


def audit(instance: AnyInstance, plan: AnyPlan, certificate: AnyCertificate, *, slack: Slack = None,
          timeout: Optional[float] = None, cancel: Optional[threading.Event] = None) -> Audited:
    """Checks a certificate of `repair`, beside the plan that `repair` was given.

    >>> repaired = repair("examples/summer/short.json", "examples/summer/best.txt", 10)
    >>> audit("examples/summer/short.json", "examples/summer/best.txt", repaired.certificate).least
    1

    Raises CertificateRefused where the text has a fault or a leaf doesn't hold.
    """
    with room() as folder:
        call = Call("audit", "plan_repair", folder)
        call.instance(instance)
        call.plan(needed(plan, "plan"))
        call.certificate(needed(certificate, "certificate"))
        call.widen(slack)
        called = call.run((Status.DONE,), timeout, cancel)

        def reading() -> Audited:
            report = Report(called.said)
            report.take("accepted")
            audited = Audited(report.one("least", or_none(whole_of)), report.one("rounded"), called)
            report.end()
            return audited

        return call.read(called, reading)


def roll(instance: AnyInstance, plan: AnyPlan, period: int, out: Path, *, timeout: Optional[float] = None,
         cancel: Optional[threading.Event] = None) -> Rolled:
    """Writes to OUT the instance in which what starts before a period keeps its start. OUT may be INSTANCE itself.

    >>> import os, tempfile
    >>> with tempfile.TemporaryDirectory() as folder:
    ...     out = os.path.join(folder, "rest.json")
    ...     rest = roll("examples/summer/instance.json", "examples/summer/plan.txt", 2, out)
    ...     rest.kept, rest.free, rest.instance.interventions["south-line"].starts
    (1, 1, (2, 3))

    Raises BrokenRule where a start that would be kept isn't allowed. OUT is replaced once all of it is written.
    """
    place = os.path.realpath(os.fspath(out))
    with room(".gadvresa-", os.path.dirname(place)) as folder:
        call = Call("roll", "planner_cli", folder)
        call.instance(instance)
        call.plan(needed(plan, "plan"))
        call.number("period", period)
        made = call.out("instance")
        called = call.run((Status.DONE,), timeout, cancel)

        def reading() -> Tuple[int, ...]:
            report = Report(called.said)
            report.take("rolled")
            counts = tuple(report.one(name) for name in ("kept", "free", "rounded"))
            report.end()
            return counts

        kept, free, rounded = call.read(called, reading)
        os.chmod(made, permissions(place))
        os.replace(made, place)
    return Rolled(Instance(out), kept, free, rounded, called)


def needed(given: Any, name: str) -> Any:
    """What was given, which mustn't be None where the command has no sign for that."""
    if given is None:
        raise TypeError(f"a {name} is needed, and None was given")
    return given
