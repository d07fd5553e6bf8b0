"""Calls of the proved programs: each is run to its end, or is ended, and its status and all that it said are kept."""
from __future__ import annotations

import contextlib
import os
import selectors
import signal
import subprocess
import threading
import time
from dataclasses import dataclass, field
from typing import Optional, Sequence, Tuple

from .ending import end_all_of, ended, held, look
from .finding import Program

# How often a call that can be cancelled looks whether it is, in seconds; how often each call looks whether its program
# has ended; and how long what it said is waited for then.
LOOK, LOOK_AT_END, LAST = 0.05, 0.5, 0.5
# How many bytes of the end of standard error are kept, and how many are read at a time.
LONGEST_ERRORS, MOST_READ = 1 << 16, 1 << 16


@dataclass(frozen=True)
class Called:
    """A call of a program: its file, its words, its status (below 0: ended by that signal), seconds, and what it said:
    all of standard output, and the end of standard error.
    """

    program: str
    words: Tuple[str, ...]
    status: int
    seconds: float
    said: str = field(repr=False)
    errors: str = field(default="", repr=False)


class Stopped(Exception):
    """A call was ended before the program was done: by its event, or as its time was over."""

    def __init__(self, is_late: bool) -> None:
        super().__init__(is_late)
        self.is_late = is_late


def run(program: Program, words: Tuple[str, ...], timeout: Optional[float] = None,
        cancel: Optional[threading.Event] = None) -> Called:
    """Runs a program to its end, and ends it where the event is set, the seconds are over, or this is interrupted.

    Raises Stopped in the first two cases, and OSError where the program can't be started.
    """
    began = time.monotonic()
    status, said, errors = run_words([program.path, *words], timeout, cancel)
    return Called(program.path, words, status, time.monotonic() - began, said.decode("utf-8", "surrogateescape"),
                  errors.decode("utf-8", "replace"))


def run_words(words: Sequence[str], timeout: Optional[float] = None,
              cancel: Optional[threading.Event] = None) -> Tuple[int, bytes, bytes]:
    """The status of a call, what it said on standard output, and the end of what it said on standard error. It raises
    and ends as `run`.
    """
    end = None if timeout is None else time.monotonic() + timeout
    if cancel is not None and cancel.is_set():
        raise Stopped(False)
    look()
    process: "Optional[subprocess.Popen[bytes]]" = None
    try:
        with held():
            process = subprocess.Popen(words, stdin=subprocess.DEVNULL, stdout=subprocess.PIPE, stderr=subprocess.PIPE,
                                       start_new_session=True)
        with ended(process):
            said, errors = _wait(process, end, cancel)
    finally:
        if process is not None:
            _end(process)
    return process.returncode, said, errors


def _wait(process: "subprocess.Popen[bytes]", end: Optional[float],
          cancel: Optional[threading.Event]) -> Tuple[bytes, bytes]:
    with contextlib.closing(_Said(process)) as said:
        step = LOOK_AT_END if cancel is None else LOOK
        while process.poll() is None:
            said.read(step if end is None else min(step, max(0.0, end - time.monotonic())))
            if process.poll() is not None:
                break
            if cancel is not None and cancel.is_set():
                raise Stopped(False)
            if end is not None and time.monotonic() >= end:
                raise Stopped(True)
        # (a process that it left may hold its output open, and is ended)
        end_all_of(process)
        said.read_rest(LAST)
        return bytes(said.output), bytes(said.errors)


class _Said:
    """What a program says as it comes: all of standard output, and the end of standard error."""

    def __init__(self, process: "subprocess.Popen[bytes]") -> None:
        self.process, self.output, self.errors = process, bytearray(), bytearray()
        self.selector = selectors.DefaultSelector()
        for pipe, kept in ((process.stdout, self.output), (process.stderr, self.errors)):
            assert pipe is not None
            os.set_blocking(pipe.fileno(), False)
            self.selector.register(pipe, selectors.EVENT_READ, kept)

    def is_open(self) -> bool:
        return bool(self.selector.get_map())

    def read(self, seconds: float) -> None:
        """Takes what comes, and waits so many seconds for it; for the end of the program, where nothing can come."""
        if not self.is_open():
            with contextlib.suppress(subprocess.TimeoutExpired):
                self.process.wait(seconds)
        for key, _ in self.selector.select(seconds) if self.is_open() else ():
            try:
                data = os.read(key.fd, MOST_READ)
            except BlockingIOError:
                continue
            if not data:
                self.selector.unregister(key.fileobj)
            key.data.extend(data)
        del self.errors[:-LONGEST_ERRORS]

    def read_rest(self, seconds: float) -> None:
        """Takes what is left behind the end of the program, and waits so many seconds for it at most."""
        end = time.monotonic() + seconds
        while self.is_open() and time.monotonic() < end:
            self.read(max(0.0, end - time.monotonic()))

    def close(self) -> None:
        self.selector.close()


def _end(process: "subprocess.Popen[bytes]") -> None:
    """Ends a program at once, with all that it started: what it writes is in a folder of its own, which nobody sees."""
    end_all_of(process)
    process.wait()
    for pipe in (process.stdout, process.stderr):
        if pipe is not None:
            with contextlib.suppress(OSError):
                pipe.close()


def signal_name(number: int) -> str:
    """The name of a signal."""
    try:
        return signal.Signals(number).name
    except ValueError:
        return f"signal {number}"
