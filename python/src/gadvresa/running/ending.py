"""How a call ends where a signal ends this process: its program first, and its folder with it.

SIGTERM and SIGHUP end a process at once, which would leave both behind. While the main thread makes a call they are
noted, and end the process once the call has tidied up. A handler of the caller's own stays in force, and so does a
signal that is ignored. While a program is being started such a handler waits: it may raise, and nobody could end the
program then. Other threads can't do that, as a handler runs in the main thread alone.
"""
from __future__ import annotations

import contextlib
import os
import signal
import subprocess
import tempfile
import threading
from typing import Iterator, List, Optional

from .processes import below, send

SIGNALS = (signal.SIGTERM, signal.SIGHUP)
_came: List[int] = []
_running: "List[subprocess.Popen[bytes]]" = []


class Ended(BaseException):
    """A signal came that ends this process, once the call has tidied up."""


def in_main() -> bool:
    return threading.current_thread() is threading.main_thread()


@contextlib.contextmanager
def tidied() -> Iterator[None]:
    """Has signals that end this process wait until what is done here is left. It can be within another one."""
    taken = [number for number in SIGNALS if in_main() and signal.getsignal(number) is signal.SIG_DFL]
    for number in taken:
        signal.signal(number, _note)
    try:
        yield
    finally:
        for number in taken:
            signal.signal(number, signal.SIG_DFL)
        if taken and _came:
            first = _came[0]
            _came.clear()
            os.kill(os.getpid(), first)


@contextlib.contextmanager
def room(prefix: str = "gadvresa-", beside: Optional[str] = None) -> Iterator[str]:
    """A folder for the files of a call, which is gone behind it; in the folder `beside`, or where such folders are."""
    with tidied(), tempfile.TemporaryDirectory(prefix=prefix, dir=beside) as folder:
        yield folder


@contextlib.contextmanager
def ended(process: "subprocess.Popen[bytes]") -> Iterator[None]:
    """While this is waited for, a signal that ends this process ends the program of a call, which raises Ended then."""
    if not in_main():
        yield
        return
    _running.append(process)
    try:
        if _came:
            end_all_of(process)
        yield
    finally:
        _running.remove(process)
    look()


@contextlib.contextmanager
def held() -> Iterator[None]:
    """Has handlers of signals, that of Ctrl-C too, wait until what is done here is left, and calls them then."""
    came: List[int] = []
    with contextlib.ExitStack() as stack:
        for number in (signal.SIGINT, *SIGNALS):
            handler = signal.getsignal(number)
            if in_main() and callable(handler):
                signal.signal(number, lambda it, _: came.append(it))
                stack.callback(signal.signal, number, handler)
        yield
    for waiting in dict.fromkeys(came):
        os.kill(os.getpid(), waiting)


def look() -> None:
    """Raises Ended where a signal has come in a call of the main thread."""
    if _came and in_main():
        raise Ended(_came[0])


def _note(number: int, _: object) -> None:
    _came.append(number)
    for process in _running:
        end_all_of(process)


def end_all_of(process: "subprocess.Popen[bytes]") -> None:
    """Kills a program that leads a session of its own, and what it started; what is in its session also behind it.

    A process that left the session, and whose parent has ended, is left: to take it in, this process would have to
    take in all orphans of its caller too. The proved programs start no other process.
    """
    if process.returncode is None:
        send(below(process.pid), signal.SIGKILL)
    with contextlib.suppress(ProcessLookupError, PermissionError):
        os.killpg(process.pid, signal.SIGKILL)
