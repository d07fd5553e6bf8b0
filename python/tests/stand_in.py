"""Stands in for one of the three programs on small instances, by trying all plans.

It says what the programs say, by tools/plain.py, which knows the definitions alone. Its certificates prove nothing, and
it takes each one whose bound is true. Of what is refused it knows what the tests beside it need.
"""
import itertools
import json
import os
import re
import sys

TOP = os.path.dirname(os.path.dirname(os.path.dirname(os.path.realpath(__file__))))
sys.dont_write_bytecode = True
sys.path.insert(0, os.path.join(TOP, "tools"))
from plain import COUNTS, Plain, read_instance

ONE = 10 ** 18
FILES = {"evaluate": "ip", "table": "ip12", "replay": "ips", "check": "ip-c", "solve": "ioooT", "rebound": "ico",
         "roll": "ip1o", "repair": "ipooT", "audit": "ipc", "bound": "ip-c-oT", "improve": "ip-oTS"}
PROGRAMS = {"planner_cli": "evaluate table replay check solve rebound roll", "plan_repair": "repair audit",
            "plan_refine": "check rebound bound improve"}


class Ended(Exception):
    """A run ends with this status, and says this."""


def end(status, text):
    raise Ended(status, text)


class Run:
    """The words of a call, and its files as they are asked for."""

    def __init__(self, program, words):
        self.words = words
        name = words[0] if words else ""
        if name not in PROGRAMS[program].split():
            end(2, "refused words\n")
        self.forms = re.findall(r"[ipsco]-?|[12TS]", FILES[name])
        rest = words[1:]
        self.slack = 0
        if name == "bound" and len(rest) > len(self.forms) and rest[-1].startswith("part="):
            found = re.fullmatch("part=(0|[1-9][0-9]{0,5})/([1-9][0-9]{0,5}|1000000)", rest.pop())
            if not found or int(found[1]) >= int(found[2]):
                end(2, "refused words\n")
        if len(rest) == len(self.forms) + 1 and name != "roll":
            if not re.fullmatch(r"slack=0(\.(0{1,3}|000[0-9]{1,9}|0010{0,9}))?", rest[-1]):
                end(2, "refused words\n")
            whole, _, decimals = rest.pop()[6:].partition(".")
            self.slack = int(whole) * COUNTS + int(decimals.ljust(12, "0"))
        if len(rest) != len(self.forms) or "" in rest:
            end(2, "refused words\n")
        largest = {"1": 512, "2": 512, "T": 10 ** 6, "S": 2 ** 64 - 1}
        for form, word in zip(self.forms, rest):
            if form in largest and not (re.fullmatch("0|[1-9][0-9]*", word) and int(word) <= largest[form]
                                        and (form in "TS" or int(word))):
                end(2, "refused words\n")
        names = [word for form, word in zip(self.forms, rest) if form[0] in "ipco" and word != "-"]
        if any(form[0] == "o" for form in self.forms) and len(set(names)) < len(names):
            end(2, "refused words\n")
        self.rest = rest
        self.command = name

    def held(self, at):
        try:
            with open(self.rest[at], "rb") as file:
                return file.read()
        except OSError:
            end(7, f"refused read {at + 2}\n")

    def write(self, at, text):
        try:
            with open(self.rest[at], "wb") as file:
                file.write(text)
        except OSError:
            end(8, f"refused write {at + 2}\n")

    def instance(self):
        data = self.held(0)
        try:
            json.loads(data.decode("utf-8"))
        except json.JSONDecodeError as fault:
            before = len(data.decode("utf-8")[:fault.pos].encode())
            is_cut = "Unterminated" in fault.msg or not data[before:].strip()
            end(3, f"refused instance syntax {len(data) if is_cut else before}\n")
        try:
            plain = Plain(read_instance(self.rest[0]))
        except (KeyError, ValueError, TypeError, AttributeError):
            end(3, "refused instance shape 0\n")
        for name in plain.inst.intervention_names:
            if " " in name:
                end(3, f"refused instance bad name {data.index(json.dumps(name).encode())}\n")
        plain.upper = [[limit + self.slack for limit in row] for row in plain.upper]
        plain.lower = [[limit - self.slack for limit in row] for row in plain.lower]
        return plain

    def plan(self, plain):
        starts, names = {}, plain.inst.intervention_names
        for number, line in enumerate(self.held(1).decode("utf-8", "surrogateescape").split("\n"), 1):
            line = line[:-1] if line.endswith("\r") else line
            found = re.fullmatch("([^ ]+) +([0-9]{1,9}) *", line)
            if line.strip(" "):
                if not found:
                    end(4, f"refused plan bad line {number}\n")
                if found[1] not in names:
                    end(4, f"refused plan unknown name {number}\n")
                if found[1] in starts:
                    end(4, f"refused plan twice {number}\n")
                starts[found[1]] = int(found[2])
        return [starts.get(name) for name in names]

    def certificate(self, at):
        """The claim of a certificate, and how many leaves it has."""
        lines = self.held(at).decode("utf-8", "replace").split("\n")
        if not re.fullmatch("mpcert [123]", lines[0]):
            end(5, "refused certificate bad line 1\n")
        leaves = sum(line.split(" ")[0] in ("cost", "point", "excl", "band", "empty") for line in lines)
        bound = lines[1].split(" ")[1]
        return (None if bound == "none" else int(bound)), leaves


def feasible(plain):
    """All plans that keep every rule."""
    starts = [plain.inst.allowed(i) for i in range(plain.inst.interventions)]
    return [plan for plan in map(list, itertools.product(*starts)) if not plain.broken_rules(plan)]


def best(plain):
    """The least score and its plan, or none."""
    return min(((plain.score(plan), plan) for plan in feasible(plain)), default=(None, None))


def text_of(plain, plan):
    return "".join(f"{name} {start}\n" for name, start in zip(plain.inst.intervention_names, plan)).encode()


def cert_of(version, bound):
    return f"mpcert {version}\nbound {'none' if bound is None else bound}\nlists 0\ntree\ncost 0\n".encode()


def costs(plain, plan):
    return "".join(plain.report(plan).splitlines(True)[2:5])


def is_true(bound, least):
    return least is None or bound is not None and bound <= least


def evaluate(run, plain):
    report = plain.report(run.plan(plain))
    end(1 if report.startswith("infeasible") else 0, report)


def table(run, plain):
    report = plain.table(run.plan(plain), int(run.rest[2]), int(run.rest[3]))
    end(1 if report.startswith("infeasible") else 0, report)


def replay(run, plain):
    plans, names = [run.plan(plain)], plain.inst.intervention_names
    lines = run.held(2).decode().split("\n")[:-1]
    for number, line in enumerate(lines, 1):
        if not re.fullmatch("move [^ ]+ [0-9]+|swap [^ ]+ [^ ]+|undo", line):
            end(6, f"refused script bad line {number}\n")
    if plain.broken_rules(plans[0])[:1] and plain.broken_rules(plans[0])[0].startswith("S"):
        end(1, plain.report(plans[0]))
    said = ""
    for number, line in enumerate(["", *lines]):
        words = line.split(" ")
        if words[0] == "undo":
            if len(plans) == 1:
                end(6, f"{said}refused script nothing to undo {number}\n")
            plans.pop()
        elif number:
            one = names.index(words[1])
            plan = list(plans[-1])
            if words[0] == "move":
                plan[one] = int(words[2])
            else:
                other = names.index(words[2])
                plan[one], plan[other] = plan[other], plan[one]
            if plain.broken_rules(plan) and plain.broken_rules(plan)[0].startswith("S"):
                end(6, f"{said}refused script not allowed {number}\n")
            plans.append(plan)
        said += f"{number} {plain.violation(plans[-1])} {plain.score(plans[-1])}\n"
    end(0, f"{said}end {len(lines)}\n")


def check(run, plain):
    given = None if run.rest[1] == "-" else run.plan(plain)
    bound, leaves = run.certificate(2)
    if given and plain.broken_rules(given):
        end(1, plain.report(given))
    if not is_true(bound, best(plain)[0]):
        end(5, f"refused certificate leaf {leaves}\n")
    said = f"accepted\nbound {'none' if bound is None else bound}\n"
    if bound is not None:
        cost = bound * COUNTS // (plain.inst.periods * ONE)
        said += f"bound-cost {cost // COUNTS}.{cost % COUNTS:012}\n"
    if given:
        said += f"score {plain.score(given)}\ngap {plain.score(given) - bound}\n"
    end(0, said + "rounded 0\n")


def solve(run, plain):
    least, plan = best(plain)
    run.write(2, cert_of(2, least))
    run.write(3, b"")
    if plan is None:
        end(10, "no plan exists\nsplits 0\nmoves 0\nrounded 0\n")
    if run.rest[4] == "0":
        end(9, f"nothing found\nbound {least}\nsplits 0\nmoves 0\nrounded 0\n")
    run.write(1, text_of(plain, plan))
    end(0, f"plan found\nscore {least}\nbound {least}\ngap 0\n{costs(plain, plan)}splits 0\nmoves 0\nrounded 0\n")


def rebound(run, plain):
    (bound, leaves), (least, _) = run.certificate(1), best(plain)
    new = bound if least is None else least
    run.write(2, cert_of(2, new))
    changed = 0 if is_true(bound, least) else 1
    end(0, f"rebound\nbound {'none' if new is None else new}\nkept {leaves - changed}\nchanged {changed}\nrounded 0\n")


def roll(run, plain):
    said, text = plain.roll(run.plan(plain), int(run.rest[2]))
    if text is None:
        end(1, said)
    run.write(3, text.encode())
    end(0, said)


def least_changes(plain, old):
    """The least number of changes from a plan to one that keeps the rules, and that one, or none."""
    changes = ((sum(a != b for a, b in zip(old, plan)), plan) for plan in feasible(plain))
    return min(changes, default=(None, None))


def repair(run, plain):
    least, plan = least_changes(plain, run.plan(plain))
    run.write(2, cert_of(2, None if least is None else least * ONE))
    if plan is None:
        end(10, "no plan exists\nsplits 0\nrounded 0\n")
    if run.rest[4] == "0" and least:
        end(9, "nothing found\nleast 0\nsplits 0\nrounded 0\n")
    run.write(3, text_of(plain, plan))
    end(0, f"plan repaired\nchanged {least}\nleast {least}\nsplits 0\nrounded 0\n")


def audit(run, plain):
    old = run.plan(plain)
    bound, leaves = run.certificate(2)
    least, _ = least_changes(plain, old)
    if not is_true(bound, None if least is None else least * ONE):
        end(5, f"refused certificate leaf {leaves}\n")
    end(0, f"accepted\nleast {'none' if bound is None else bound // ONE}\nrounded 0\n")


def bound(run, plain):
    given = None if run.rest[1] == "-" else run.plan(plain)
    kept = 0 if run.rest[2] == "-" else run.certificate(2)[1]
    least, _ = best(plain)
    run.write(3, cert_of(3, least))
    said = f"bound {'none' if least is None else least}\n"
    if given and not plain.broken_rules(given):
        said += f"score {plain.score(given)}\ngap {plain.score(given) - least}\n"
    end(10 if least is None else 0, f"{said}lists 1\nsplits 0\nkept {kept}\nchanged 0\nrounded 0\n")


def improve(run, plain):
    least, plan = best(plain)
    given = [None] * plain.inst.interventions if run.rest[1] == "-" else run.plan(plain)
    if plan is None:
        end(9, "nothing found\nviolation 1000000000000\nrounded 0\n")
    run.write(2, text_of(plain, plan))
    before = "none" if plain.broken_rules(given) else plain.score(given)
    changed = sum(a != b for a, b in zip(given, plan))
    end(0, f"plan improved\nscore {least}\nbefore {before}\nchanged {changed}\n{costs(plain, plan)}rounded 0\n")


COMMANDS = {it.__name__: it for it in (evaluate, table, replay, check, solve, rebound, roll, repair, audit, bound,
                                       improve)}


def run_as(program):
    """Runs the words of this process as a program, and ends as that does."""
    try:
        run = Run(program, sys.argv[1:])
        COMMANDS[run.command](run, run.instance())
    except Ended as ended:
        sys.stdout.buffer.write(ended.args[1].encode("utf-8", "surrogateescape"))
        sys.stdout.flush()
        sys.exit(ended.args[0])
