"""Writes a page on which a year of a plan can be looked at: works, loads between their limits, risk, cost and bound.

    tools/view INSTANCE PLAN|FOLDER PAGE [other=PLAN|FOLDER] [certificate=FILE] [progress=FILE] [slack=D]

PAGE is one HTML file that needs neither network nor server. It is written beside its place, which it takes once it is
whole. With `other` it shows what moved from that plan to PLAN and what that did to cost and loads, with `certificate`
the gap to its bound, with `progress` score and bound over time. That file has a line for each round, its cells parted
by tabs: seconds, score and bound, and any others; its first line may have names. FOLDER is one of `plan`, and stands
for its plan, with its certificate, its progress and its slack, also while that goes on; behind `other` for its plan
alone.

What is judged comes from `./planner`, by `evaluate`, `table` and `check`. From INSTANCE itself come names, seasons,
exclusions, `Alpha`, and the loads of single works; these have to add up to the loads that `table` says, and the
exclusions that are broken have to be those that it says. INSTANCE and PLAN are read more than once, so they can't be
pipes.

The status is 0 where PAGE was written, also of a plan that breaks a rule. Where `./planner` refuses a file or ends
otherwise, it is its status, and what it says goes to standard error. What goes wrong in this script itself has statuses
of its own: 64 its words, 65 a report or a file that isn't as it should be, or FOLDER has no plan, or is of another
instance or slack, 66 a file can't be read, 67 PAGE is another file of the call, 69 the program isn't there, 70
something unforeseen, 74 PAGE can't be written. A signal ends the script and the programs that it started, with 128 and
its number.
"""
from __future__ import annotations

import os
from typing import Collection, Dict, List, Optional, Tuple

from ..cli import Parser, asked, stop
from ..plan.state import Refused, is_same_slack
from ..reports import NoReport, read_report, read_table
from ..reports.tables import Periods
from ..reports.verdicts import Texts
from ..running.holding import end_by_signals
from ..running.statuses import Status
from ..tables.asking import no_table
from ..tables.progress import read_progress
from ..whole_files import write_named
from . import folder
from .instance import Unheld, read_instance
from .page import page_text
from .plan import judged_plan, plain

FILES, OPTIONS = ("instance", "plan", "page"), ("other", "certificate", "progress", "slack")
READ = ("instance", "plan", "other", "certificate", "progress")
# Statuses of the program with which there is a report on the plan.
JUDGED = (Status.DONE, Status.BROKEN_RULE)


class Asker:
    """Asks the program, and ends the script where it has no report."""

    def __init__(self, program: str, instance: str, slack: Optional[str]) -> None:
        self.program, self.instance, self.slack = program, instance, [f"slack={slack}"] if slack is not None else []

    def said(self, *words: str) -> Tuple[int, str]:
        """The status of a command, and what it says."""
        call = [self.program, words[0], self.instance, *words[1:], *self.slack]
        status, said = asked(call, JUDGED)
        return status, said.decode("utf-8", "replace")

    def report(self, *words: str) -> Texts:
        """What a command says, by name."""
        try:
            return read_report(self.said(*words)[1])
        except NoReport as fault:
            stop(Status.NO_REPORT, f"{words[0]}: {fault}")

    def table(self, plan: str) -> Optional[Periods]:
        """The table of a plan, or None where one of its starts isn't allowed."""
        status, said = self.said("table", plan, "1", "512")
        try:
            return read_table(said) if status == 0 else None
        except NoReport as fault:
            stop(Status.NO_REPORT, f"table: {no_table(fault)}")


def read_words() -> Tuple[Dict[str, str], str]:
    """The files and options of the call by name, and the program."""
    parser = Parser(description=str(__doc__).split("\n")[0])
    parser.add_argument("words", nargs="*", metavar="WORD",
                        help="INSTANCE PLAN|FOLDER PAGE [other=PLAN|FOLDER] [certificate=FILE] [progress=FILE] "
                             "[slack=D]")
    parser.add_program("what is asked, not ./planner")
    words = parser.parse_args()
    files, more = words.words[:3], [word.partition("=") for word in words.words[3:]]
    names = [name for name, _, _ in more]
    unknown = [name for name, equals, value in more if name not in OPTIONS or not equals or not value]
    if len(files) < 3 or not all(files) or unknown or len(set(names)) < len(names):
        parser.error("wrong words")
    return {**dict(zip(FILES, files)), **{name: value for name, _, value in more}}, words.cmd


def open_folders(given: Dict[str, str]) -> List[str]:
    """Puts what a folder of `plan` has in the place of its name; answers what of it a run may replace meanwhile."""
    replaced: List[str] = []
    slack = given.get("slack")
    for name in (it for it in ("other", "plan") if os.path.isdir(given.get(it, ""))):
        found = folder.files_of(given[name], given["instance"], slack)
        slack = found.slack
        if not is_same_slack(slack, "0"):
            given["slack"] = slack
        given[name] = found.plan
        replaced.append(name)
        if name == "plan":
            # (the progress is read once, before all else)
            replaced += [more for more in found.beside if more not in given and more != "progress"]
            given.update({**found.beside, **given})
    return replaced


def check_files(given: Dict[str, str]) -> None:
    """Ends the script where a file that is read is none, or is the one that is to be written."""
    page = given["page"]
    for name in (given[it] for it in READ if it in given):
        if os.path.exists(name) and not os.path.isfile(name):
            stop(Status.SCRIPT_UNREAD, f"{name} is no file that can be read more than once")
        if os.path.exists(page) and os.path.exists(name) and os.path.samefile(name, page):
            stop(Status.SAME_FILE, f"{page} is {name} too, and would be overwritten: name another page")


def bound_of(asker: Asker, plan: str, report: Texts, certificate: str) -> Texts:
    """What `check` says of a certificate: with the plan where that keeps every rule, and else without it."""
    return asker.report("check", plan if report["verdict"] == "feasible" else "-", certificate)


def shown_name(path: str, count: int = 1) -> str:
    """The last parts of a path."""
    return os.fsencode(os.sep.join(os.path.abspath(path).split(os.sep)[-count:])).decode("utf-8", "replace")


def view(given: Dict[str, str], program: str, replaced: Collection[str]) -> bytes:
    """The text of the page."""
    # (what a run goes on with is at least as good as its progress says)
    progress = read_progress(given["progress"]) if "progress" in given else None
    with folder.copies({name: given[name] for name in replaced}) as kept:
        read = {**given, **kept}
        asker = Asker(program, given["instance"], given.get("slack"))
        plans = [name for name in ("plan", "other") if name in given]
        reports = [asker.report("evaluate", read[name]) for name in plans]
        tables = [asker.table(read[name]) for name in plans]
        check = bound_of(asker, read["plan"], reports[0], read["certificate"]) if "certificate" in given else None
        instance = read_instance(given["instance"])
        judged = [judged_plan(instance, read[name], report, table)
                  for name, report, table in zip(plans, reports, tables)]
    return page_text({
        "instance": shown_name(given["instance"]), "periods": instance.periods, "alpha": plain(instance.alpha),
        "quantile": plain(instance.quantile), "slack": given.get("slack"), "resources": instance.resources,
        "works": instance.works, "durations": [instance.durations(name) for name in instance.works],
        "seasons": list(instance.seasons.items()),
        "exclusions": [list(exclusion) for exclusion in instance.exclusions],
        # (all folders have a plan of the same name)
        "plans": [{"name": shown_name(given[name], 2 if name in kept else 1), **it} for name, it in zip(plans, judged)],
        "check": {"certificate": shown_name(given["certificate"]), **check} if check else None,
        "progress": progress,
    })


def main() -> None:
    """Runs the script."""
    end_by_signals()
    given, program = read_words()
    try:
        replaced = open_folders(given)
        check_files(given)
        text = view(given, program, replaced)
    except (Unheld, NoReport, Refused) as fault:
        stop(Status.NO_REPORT, str(fault))
    except OSError as error:
        stop(Status.SCRIPT_UNREAD, f"{error.filename}: {error.strerror}")
    try:
        write_named(given["page"], text)
    except OSError as error:
        stop(Status.SCRIPT_UNWRITTEN, f"{given['page']}: {error.strerror}")
