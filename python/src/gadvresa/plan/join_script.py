"""Puts certificates of parts of a tree together, as `bound` with `part=K/N` makes them.

    tools/join COMMON OUT K/N=FILE..

COMMON is the certificate that all parts were made of, FILE that of part K of N. Each leaf of COMMON is replaced by what
the part that owns it put there; where a part isn't given its leaves stay. OUT claims the least bound of the parts, and
of COMMON if a part isn't given. With all parts its leaves often prove more: `./planner bound INSTANCE PLAN OUT BETTER
0` makes that of it. Nothing of OUT is believed by anybody: `check` it.

The status is 0 where OUT was written, whole; 64 where the words are wrong, 65 where a file is no certificate or the
parts aren't of COMMON, 66 where one can't be read, 70 something unforeseen, 74 where OUT can't be written.
"""
from __future__ import annotations

import os
import re
import sys
from typing import Dict, Sequence, Tuple

from ..cli import say, stop
from ..running.statuses import Status
from ..whole_files import write_whole
from .joining import LEAVES, Misfit, join, read_certificate, text_of

PART = re.compile(r"(0|[1-9][0-9]{0,5})/([1-9][0-9]{0,6})=(.+)", re.DOTALL)
USAGE = "usage: tools/join COMMON OUT K/N=FILE.."


def read_words(given: Sequence[str]) -> Tuple[str, str, Dict[int, str], int]:
    """COMMON, OUT, the files of the parts by their numbers, and how many parts there are in all."""
    if len(given) < 3 or not all(given):
        stop(Status.SCRIPT_WORDS, USAGE)
    found = [it for it in map(PART.fullmatch, given[2:]) if it is not None]
    if len(found) < len(given) - 2:
        unfit = next(word for word in given[2:] if not PART.fullmatch(word))
        stop(Status.SCRIPT_WORDS, f"{unfit!r} is no part: K/N=FILE\n{USAGE}")
    counts, parts = {int(it[2]) for it in found}, {int(it[1]): it[3] for it in found}
    if len(counts) > 1 or len(parts) < len(found) or max(parts) >= min(counts):
        stop(Status.SCRIPT_WORDS,
             f"parts are numbered from 0 to N - 1, of the same N, and each is given once\n{USAGE}")
    return given[0], given[1], parts, counts.pop()


def main() -> None:
    """Runs the script."""
    if sys.argv[1:] in (["--help"], ["-h"]):
        say(str(__doc__))
        return
    common, out, files, count = read_words(sys.argv[1:])
    try:
        parts = {number: read_certificate(path) for number, path in files.items()}
        joined = join(read_certificate(common), parts, count)
    except Misfit as misfit:
        stop(Status.NO_REPORT, str(misfit))
    except OSError as error:
        stop(Status.SCRIPT_UNREAD, f"{error.filename}: {error.strerror}")
    try:
        write_whole(os.path.abspath(out), text_of(joined))
    except OSError as error:
        stop(Status.SCRIPT_UNWRITTEN, f"{out}: {error.strerror}")
    leaves = sum(node.partition(b" ")[0] in LEAVES for node in joined.nodes)
    bound = "none" if joined.bound is None else joined.bound
    say(f"joined\nbound {bound}\nlists {len(joined.lists)}\nparts {len(parts)} of {count}\nleaves {leaves}\n")
