"""What scripts over a table share: their words, and how they ask `table`."""
from __future__ import annotations

import argparse
from typing import List, Tuple

from ..cli import Parser, asked, held, stop
from ..reports import NoReport, read_table
from ..reports.tables import Periods
from ..running.statuses import Status


def table_parser(head: str, *more: str) -> Parser:
    """A parser of the words of a script over a table, whose help is the head of the script; `more` names its words
    behind INSTANCE and PLAN.
    """
    parser = Parser.of_head(head)
    parser.add_argument("files", nargs="*", metavar="FILE", help=" ".join(["INSTANCE PLAN", *more, "[slack=D]"]))
    parser.add_argument("--table", metavar="FILE", help="what `table` said, in place of INSTANCE, PLAN and slack")
    parser.add_program("what is asked for the table, not ./planner")
    return parser


def asked_table(parser: Parser, words: argparse.Namespace, more: int) -> Tuple[Periods, List[str]]:
    """The table that the words ask for, and the last `more` of their files. Ends the script where there is none."""
    files = [word for word in words.files if not word.startswith("slack=")]
    slack = [word for word in words.files if word.startswith("slack=")]
    given = 0 if words.table else 2
    if len(files) != given + more or len(slack) > (0 if words.table else 1):
        parser.error("wrong words")
    # (a word may name a pipe that this script was given)
    said = held(words.table) if words.table else asked(
        [words.cmd, "table", *files[:2], "1", "512", *slack], close_fds=False)[1]
    try:
        return read_table(said.decode("utf-8")), files[given:]
    except UnicodeDecodeError as error:
        stop(Status.NO_REPORT, f"{words.table or 'table'}: byte {error.start} isn't one of UTF-8")
    except NoReport as fault:
        stop(Status.NO_REPORT, f"{words.table or 'table'}: {no_table(fault)}")


def no_table(fault: NoReport) -> str:
    """What is wrong with a text that is no table."""
    return f"line {fault.number} isn't one of a table: {fault.line!r}"
