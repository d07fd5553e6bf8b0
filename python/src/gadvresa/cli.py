"""How scripts take their words, ask the programs, say what they have to say, and end: in one way for all of them.

What goes wrong in a script itself has a status above 63, so that it is never taken for a verdict. The statuses of the
programs are below, and handed on.
"""
from __future__ import annotations

import argparse
import contextlib
import os
import signal
import subprocess
import sys
import traceback
from typing import Any, Callable, List, NoReturn, Sequence, Tuple

from .running.statuses import SIGNALLED, Status
from .whole_files import read_named, write_all

# The top folder of the clone, or of the Debian package, that this stands in, and the launcher there.
TOP = os.path.normpath(os.path.join(os.path.dirname(os.path.abspath(__file__)), "..", "..", ".."))
PLANNER = os.path.join(TOP, "planner")
SOURCES = os.path.dirname(os.path.dirname(os.path.abspath(__file__)))
# Runs `main` of a module of the package, which is found in a folder.
STARTER = ("import importlib, sys; sys.dont_write_bytecode = True; folder, name, *words = sys.argv[1:]; "
           "sys.path.insert(0, folder); sys.exit(importlib.import_module(name).main(*words))")


class Parser(argparse.ArgumentParser):
    """A parser of the words of a script, which ends the script with a status of its own where they are wrong."""

    @classmethod
    def of_head(cls, head: str) -> Parser:
        """A parser whose help is the head of the script, whole."""
        first, rest = head.split("\n\n", 1)
        return cls(description=first, formatter_class=argparse.RawDescriptionHelpFormatter, epilog=rest)

    def add_program(self, what: str) -> None:
        """Adds the word for the program that is asked `what`, in the place of the launcher."""
        self.add_argument("--cmd", metavar="PROGRAM", default=PLANNER, help=what)

    def print_help(self, file: Any = None) -> None:
        """Says the help, or ends the script where standard output takes nothing."""
        say(self.format_help())

    def error(self, message: str) -> NoReturn:
        """Ends the script, and says what is wrong with its words."""
        stop(Status.SCRIPT_WORDS, f"{message}\n{self.format_usage().strip()}")


def stop(status: int, text: str) -> NoReturn:
    """Ends the script, and says why on standard error."""
    remark(text)
    sys.exit(status)


def remark(text: str) -> None:
    """Says something on standard error, behind the name of the script."""
    complain(f"{os.path.basename(sys.argv[0])}: {text}\n")


def complain(text: str) -> None:
    """Writes a text to standard error, as far as that takes it: nobody may read it, and the status tells anyhow.

    A buffer would keep what wasn't taken, and Python would end with a status of its own for it.
    """
    with contextlib.suppress(OSError):
        write_all(2, text.encode("utf-8", "backslashreplace"))


def say(text: str) -> None:
    """Writes a text to standard output whole."""
    try:
        write_all(1, text.encode("utf-8", "surrogateescape"))
    except OSError as error:
        stop(Status.SCRIPT_UNWRITTEN, f"standard output: {error.strerror}")


def held(path: str) -> bytes:
    """What a file holds. Ends the script where it can't be read."""
    try:
        return read_named(path)
    except OSError as error:
        stop(Status.SCRIPT_UNREAD, f"{path}: {error.strerror}")


def asked(call: Sequence[str], taken: Sequence[int] = (Status.DONE,), close_fds: bool = True) -> Tuple[int, bytes]:
    """The status of a program, and what it says on standard output.

    Ends the script where the status isn't one of those that are taken: it is handed on, and what the program says goes
    to standard error. Without `close_fds` a word may name a pipe that the script was given.
    """
    try:
        ran = subprocess.run(call, stdout=subprocess.PIPE, close_fds=close_fds)
    except OSError as error:
        stop(Status.TOOL_MISSING, f"{call[0]}: {error.strerror}")
    if ran.returncode not in taken:
        complain(ran.stdout.decode("utf-8", "replace"))
        sys.exit(status_of(ran.returncode))
    return ran.returncode, ran.stdout


def words_of(module: str) -> List[str]:
    """The first words of a call that runs `main` of a module of the package on its other words, in a process of its
    own. No module of the caller's folder or variables takes the place of another one there.
    """
    return [sys.executable, "-I", "-c", STARTER, SOURCES, module]


def status_of(code: int) -> int:
    """The status of a process as a shell has it: for one that a signal ended 128 and the number of the signal."""
    return code if code >= 0 else SIGNALLED - code


def run_script(main: Callable[[], object]) -> None:
    """Runs a script, which ends with a status of its own where it meets what it didn't foresee, or Ctrl-C comes."""
    _hold_standard()
    try:
        main()
    except KeyboardInterrupt:
        sys.exit(SIGNALLED + signal.SIGINT)
    except Exception:
        complain(traceback.format_exc())
        sys.exit(Status.UNFORESEEN)


def _hold_standard() -> None:
    """Holds the places of standard files that were closed, here and in what is started. A file that is opened would get
    such a place, and what is said would be written into it. What is held so can't be written.
    """
    for number in range(3):
        try:
            os.fstat(number)
        except OSError:
            os.set_inheritable(os.open(os.devnull, os.O_RDONLY), True)
