"""Runs a method within its time, and leaves nothing of it behind: no process, however it was started, and no output.

Whatever a method starts stays below this process, which takes orphans in, and is killed with it; so it is where there
come to be too many. What it prints is read and dropped, but for its beginning and its end. While it runs, its plan is
looked at: each new text of it is kept with its time, up to a number of bytes in all, and then every other one.

Processes are counted a few times a second, so what forks faster than that may fill a machine before it is ended, above
all where this runs as root, whom no limit of the system holds. What isn't trusted so far belongs into a container.
"""
from __future__ import annotations

import hashlib
import os
import resource
import signal
import stat
import subprocess
import time
from dataclasses import dataclass, field
from typing import Callable, List, Optional, Sequence, Tuple

from ..running.holding import end_all, end_with_parent, reap

# How much of the plan file, and of each end of the output, is kept; the largest file that a method may write.
LONGEST_PLAN, LONGEST_SAID, LARGEST_FILE = 1 << 24, 1 << 13, 1 << 33
# How many bytes of all texts of a plan are kept, which memory holds together.
MOST_SEEN = 1 << 26
# Seconds between two looks, and their part of the time that has passed, so that long runs aren't looked at too often.
LOOK, PART = 0.05, 0.02
# Seconds between two counts of the processes.
COUNT = 0.2
# What tells whether a file has changed: its number, its size, and when it was written.
Mark = Tuple[int, int, int]


@dataclass
class Seen:
    """A text that the plan file had, `seconds` after the beginning."""

    seconds: float
    data: bytes


@dataclass
class Ran:
    """How a run ended: `exit`, `signal`, `limit` or `processes`, with the status or signal; what it took; how many
    texts of its plan were seen, and those that are kept; and how many processes it left, where it ended by itself.
    """

    ended: str
    status: int
    seconds: float = 0.0
    processor: float = 0.0
    peak: float = 0.0
    left: Optional[int] = None
    said: bytes = b""
    plans: int = 0
    seen: List[Seen] = field(default_factory=list)


class Interrupted(BaseException):
    """The run is to be given up: a signal came, or who asked for it is gone."""


def processes_of_user() -> int:
    """How many threads the user of this process has, which is what the system's limit of processes counts."""
    count = 0
    for name in filter(str.isdigit, os.listdir("/proc")):
        try:
            if os.stat(f"/proc/{name}").st_uid == os.getuid():
                count += len(os.listdir(f"/proc/{name}/task"))
        except OSError:
            pass
    return count


def prepare(most: int) -> None:
    """Limits what a method may write and start, and ends it where this process is killed."""
    end_with_parent(signal.SIGKILL)
    limit(resource.RLIMIT_NPROC, most)
    limit(resource.RLIMIT_CORE, 0)
    limit(resource.RLIMIT_FSIZE, LARGEST_FILE)


def limit(kind: int, most: int) -> None:
    """Lowers a limit of the system; one that is lower stays, as it can't be raised by everybody."""
    _, hard = resource.getrlimit(kind)
    most = most if hard == resource.RLIM_INFINITY else min(most, hard)
    resource.setrlimit(kind, (most, most))


def held(path: str) -> Tuple[Optional[bytes], Optional[Mark]]:
    """What a plan file holds, and what tells whether it has changed; none where it is no file, or too large."""
    try:
        number = os.open(path, os.O_RDONLY | os.O_NOFOLLOW | os.O_NONBLOCK)
    except OSError:
        return None, None
    try:
        it = os.fstat(number)
        if not stat.S_ISREG(it.st_mode):
            return None, None
        with open(number, "rb", closefd=False) as file:
            return file.read(LONGEST_PLAN + 1), (it.st_ino, it.st_size, it.st_mtime_ns)
    finally:
        os.close(number)


def mark_of(path: str) -> Optional[Mark]:
    """What tells whether a plan file has changed; None where it is no file."""
    try:
        it = os.lstat(path)
    except OSError:
        return None
    return (it.st_ino, it.st_size, it.st_mtime_ns) if stat.S_ISREG(it.st_mode) else None


class Watch:
    """What a method prints and writes, as it comes."""

    def __init__(self, pipe: int, plan: str) -> None:
        os.set_blocking(pipe, False)
        self.pipe, self.plan = pipe, plan
        self.head, self.tail = b"", b""
        self.mark: Optional[Mark] = None
        self.seen: List[Seen] = []
        self.sum, self.plans = b"", 0

    def drain(self) -> bool:
        """Reads what has been printed so far; answers whether there may be more at once."""
        for _ in range(64):
            try:
                part = os.read(self.pipe, 1 << 16)
            except BlockingIOError:
                return False
            if not part:
                return False
            room = LONGEST_SAID - len(self.head)
            self.head += part[:room]
            self.tail = (self.tail + part[room:])[-LONGEST_SAID:] if len(part) > room else self.tail
        return True

    def look(self, seconds: float) -> None:
        """Keeps the plan, where it has changed."""
        if mark_of(self.plan) in (None, self.mark):
            return
        data, self.mark = held(self.plan)
        if data:
            total = hashlib.sha256(data).digest()
            if total != self.sum:
                self.sum, self.plans = total, self.plans + 1
                self.seen.append(Seen(seconds, data))
                if sum(len(it.data) for it in self.seen) > MOST_SEEN:
                    # (the first one and the last one stay)
                    self.seen[1:-1] = self.seen[2:-1:2]


def run(words: Sequence[str], folder: str, plan: str, seconds: float, processes: int,
        is_wanted: Callable[[], bool]) -> Ran:
    """Runs the words, for so many seconds and with so many processes at most. `is_wanted` is asked from time to time
    whether to go on.
    """
    # (threads count as well there, and those of other programs may become more)
    most = processes_of_user() + 4 * processes + 1024
    began = time.monotonic()
    process = subprocess.Popen(words, cwd=folder, stdin=subprocess.DEVNULL, stdout=subprocess.PIPE,
                               stderr=subprocess.STDOUT, start_new_session=True, preexec_fn=lambda: prepare(most))
    assert process.stdout is not None
    watch = Watch(process.stdout.fileno(), plan)
    try:
        ran = wait(process, watch, began, seconds, processes, is_wanted)
    finally:
        left = end_all()
        process.wait()
        reap()
    ran.left = left if ran.ended in ("exit", "signal") else None
    watch.drain()
    watch.look(ran.seconds)
    process.stdout.close()
    used = resource.getrusage(resource.RUSAGE_CHILDREN)
    ran.processor, ran.peak = used.ru_utime + used.ru_stime, used.ru_maxrss * 1024 / 1e6
    ran.plans, ran.seen = watch.plans, watch.seen
    ran.said = watch.head + (b"\n..\n" + watch.tail if watch.tail else b"")
    return ran


def wait(process: "subprocess.Popen[bytes]", watch: Watch, began: float, seconds: float, processes: int,
         is_wanted: Callable[[], bool]) -> Ran:
    """Waits for a method to end, or to come to a limit, and looks at its plan meanwhile."""
    next_look, next_count, next_question = 0.0, COUNT, 1.0
    while True:
        status, passed = process.poll(), time.monotonic() - began
        if status is not None:
            return Ran("exit" if status >= 0 else "signal", abs(status), passed)
        if passed >= seconds:
            return Ran("limit", 0, passed)
        has_more = watch.drain()
        if passed >= next_look:
            watch.look(passed)
            next_look = passed + max(LOOK, PART * passed)
        if passed >= next_count:
            if reap(besides=(process.pid,)) > processes:
                return Ran("processes", 0, passed)
            next_count = passed + COUNT
        if passed >= next_question:
            if not is_wanted():
                raise Interrupted
            next_question = passed + 1
        if not has_more:
            # (it ends at once where there is something to read, and where the method ends)
            time.sleep(min(LOOK / 5, max(0.0, seconds - passed)))
