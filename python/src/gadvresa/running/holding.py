"""Processes that a script starts, and what these start: they end where the script ends, however that comes, or where it
has them ended.

What a process starts stays below the script, which can take orphans in (the kernel's child subreaper), so all of it is
found in /proc and killed.
"""
from __future__ import annotations

import contextlib
import ctypes
import os
import signal
import sys
import time
from typing import Callable, Container, Iterator, Set

from .processes import ENDED, below, send
from .statuses import SIGNALLED

SUBREAPER, DEATH_SIGNAL = 36, 1
LIBRARY = ctypes.CDLL(None, use_errno=True)
MOST_ROUNDS = 1000
SIGNALS = (signal.SIGINT, signal.SIGTERM, signal.SIGHUP)


def ignore_no_signal() -> None:
    """Lets what is started begin with no signal ignored, also where this runs under `nohup` or in the background.

    What ignores a signal hands that on to what it starts, but not a handler.
    """
    for number in SIGNALS:
        if signal.getsignal(number) == signal.SIG_IGN:
            signal.signal(number, lambda *_: None)


def end_by_signals() -> None:
    """From now on a signal ends this script with all that it started, once the script has tidied up; the status is 128
    and the number of the signal. Signals that are ignored stay so.
    """
    take_orphans()
    for number in SIGNALS:
        if signal.getsignal(number) != signal.SIG_IGN:
            signal.signal(number, _end_by_signal)


def _end_by_signal(number: int, _: object) -> None:
    # (another signal doesn't disturb the tidying)
    for each in SIGNALS:
        signal.signal(each, signal.SIG_IGN)
    end_all()
    sys.exit(SIGNALLED + number)


@contextlib.contextmanager
def undisturbed() -> Iterator[None]:
    """Has signals wait until what is done here is done."""
    before = signal.pthread_sigmask(signal.SIG_BLOCK, SIGNALS)
    try:
        yield
    finally:
        signal.pthread_sigmask(signal.SIG_SETMASK, before)


def end_with_parent(number: int) -> None:
    """Has this process get a signal where its parent ends."""
    LIBRARY.prctl(DEATH_SIGNAL, number, 0, 0, 0)


def ended_with_this(number: int) -> Callable[[], None]:
    """What makes a process get a signal where this one ends, also where that is before it was started whole."""
    parent = os.getpid()

    def prepare() -> None:
        end_with_parent(number)
        if os.getppid() != parent:
            os.kill(os.getpid(), signal.SIGKILL)

    return prepare


def take_orphans() -> None:
    """Whatever is started below this process, and loses its parent, becomes a child of this process."""
    LIBRARY.prctl(SUBREAPER, 1, 0, 0, 0)


def reap(besides: Container[int] = ()) -> int:
    """Takes note of children that have ended, but of those whose status somebody waits for; answers how many run."""
    found = below(os.getpid())
    for pid, state in found.items():
        if state in ENDED and pid not in besides:
            with contextlib.suppress(ChildProcessError):
                os.waitpid(pid, os.WNOHANG)
    return sum(state not in ENDED for state in found.values())


def end_all() -> int:
    """Kills all processes below this one; answers how many there were."""
    count: Set[int] = set()
    for _ in range(MOST_ROUNDS):
        alive = _alive()
        if not alive - count:
            break
        # (what is stopped starts nothing more)
        send(alive, signal.SIGSTOP)
        count |= alive
    for _ in range(MOST_ROUNDS):
        alive = _alive()
        if not alive:
            break
        count |= alive
        send(alive, signal.SIGKILL)
        time.sleep(0.005)
    return len(count)


def _alive() -> Set[int]:
    """The processes below this one that run."""
    return {pid for pid, state in below(os.getpid()).items() if state not in ENDED}
