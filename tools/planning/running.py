"""Starts programs, as many at a time as there are processors for, and waits for what comes next: the end of one, a
signal, or a time.

Each program is in a process group of its own, so that Ctrl-C reaches this script alone, which then ends them. Where
this script is killed, the system kills them.
"""
import contextlib
import os
import resource
import selectors
import signal
import subprocess
import time
from dataclasses import dataclass, field
from typing import Optional

from gadvresa.running.holding import SIGNALS, end_all, ended_with_this, take_orphans

# How much of what a program says is kept.
LONGEST_SAID = 1 << 20
# The status of what couldn't be started, as a shell has it.
NOT_STARTED = 127
# Seconds between two looks at whether programs have ended: at all of them, and if one has closed its output.
LOOK, LOOK_AT_CLOSED = 1.0, 0.01
# How many files this script has open beside a pipe for each program that runs.
OTHER_FILES = 24


@dataclass
class Task:
    """A call of a program: what it is for, its words, the file that it writes, and once it has ended its status (below
    0: the signal), what it said, and the seconds that it took, of the clock and of a processor. Of the calls of a line
    one runs at a time.
    """

    kind: str
    words: list
    out: Optional[str] = None
    turns: int = 0
    status: Optional[int] = None
    said: str = ""
    seconds: float = 0.0
    processor: float = 0.0
    slots: int = 1
    line: Optional[tuple] = None
    details: dict = field(default_factory=dict)

    def is_accepted(self):
        """Whether `check` accepted a certificate."""
        return self.status == 0 and self.said.startswith("accepted\n")


def most_jobs(wanted):
    """How many of so many programs can run at a time, by how many files may be open, which is raised as far as that is
    allowed; at least one.
    """
    soft, hard = resource.getrlimit(resource.RLIMIT_NOFILE)
    needed = wanted + OTHER_FILES
    if soft != resource.RLIM_INFINITY and soft < needed:
        soft = needed if hard == resource.RLIM_INFINITY else min(needed, hard)
        with contextlib.suppress(OSError, ValueError):
            resource.setrlimit(resource.RLIMIT_NOFILE, (soft, hard))
        wanted = min(wanted, resource.getrlimit(resource.RLIMIT_NOFILE)[0] - OTHER_FILES)
    return max(1, wanted)


class Runner:
    """What runs, and what waits for a processor."""

    def __init__(self, jobs):
        self.jobs, self.waiting, self.running, self.closed = jobs, [], {}, set()
        self.signals = []
        self.selector = selectors.DefaultSelector()
        take_orphans()

    def take_signals(self):
        """From now on signals are noted, and wake up what waits; those that are ignored stay so."""
        self.awake, wake = os.pipe2(os.O_NONBLOCK | os.O_CLOEXEC)
        signal.set_wakeup_fd(wake, warn_on_full_buffer=False)
        self.selector.register(self.awake, selectors.EVENT_READ)
        for number in SIGNALS:
            if signal.getsignal(number) != signal.SIG_IGN:
                signal.signal(number, lambda it, _: self.signals.append(it))

    def add(self, tasks, is_urgent=False):
        """Has tasks wait for processors; urgent ones before all others."""
        at = 0 if is_urgent else len(self.waiting)
        self.waiting[at:at] = tasks

    def start_waiting(self):
        """Starts what there are processors for."""
        while (at := self.next_at()) is not None:
            self.start(self.waiting.pop(at))

    def next_at(self):
        """Which of those that wait starts next: the first of which no call of its line runs, once there is room."""
        taken = {task.line for task, *_ in self.running.values()} - {None}
        for at, task in enumerate(self.waiting):
            if task.line not in taken:
                return at if not self.running or self.used() + task.slots <= self.jobs else None
        return None

    def used(self):
        return sum(task.slots for task, *_ in self.running.values())

    def start(self, task):
        began = time.monotonic()
        try:
            process = subprocess.Popen(task.words, stdin=subprocess.DEVNULL, stdout=subprocess.PIPE,
                                       stderr=subprocess.DEVNULL, cwd=task.details.get("folder"),
                                       env={**os.environ, **task.details.get("environment", {})},
                                       start_new_session=True, preexec_fn=ended_with_this(signal.SIGKILL))
        except (OSError, subprocess.SubprocessError):
            # (its end is found by the next wait)
            process = NotStarted()
        pipe = process.stdout.fileno()
        os.set_blocking(pipe, False)
        self.running[pipe] = (task, process, began, bytearray())
        self.selector.register(pipe, selectors.EVENT_READ)

    def wait(self, seconds):
        """The tasks that have ended, once one has, or a signal came, or the seconds are over.

        A program has ended when its process has. It may close its output before, and what it started may keep that
        open.
        """
        end, ended = time.monotonic() + max(0.0, seconds), []
        while not ended and not self.signals:
            step = LOOK_AT_CLOSED if self.closed else LOOK
            for key, _ in self.selector.select(min(step, max(0.0, end - time.monotonic()))):
                if key.fd == self.awake:
                    with contextlib.suppress(BlockingIOError):
                        os.read(self.awake, 4096)
                elif not self.drain(key.fd):
                    self.close(key.fd)
            ended = [self.finish(pipe) for pipe in list(self.running) if has_ended(self.running[pipe][1])]
            if time.monotonic() >= end:
                break
        return ended

    def close(self, pipe):
        """Takes note that a program says no more."""
        self.selector.unregister(pipe)
        self.closed.add(pipe)

    def drain(self, pipe):
        """Reads what a program has said; answers whether more may come."""
        said = self.running[pipe][3]
        with contextlib.suppress(BlockingIOError):
            for _ in range(16):
                data = os.read(pipe, 1 << 16)
                if not data:
                    return False
                said += data[:max(0, LONGEST_SAID - len(said))]
        return True

    def finish(self, pipe):
        if pipe not in self.closed:
            self.drain(pipe)
            self.close(pipe)
        self.closed.remove(pipe)
        task, process, began, said = self.running.pop(pipe)
        # (what the program started, and left behind, ends with it)
        with contextlib.suppress(OSError):
            os.killpg(process.pid, signal.SIGKILL)
        before = processor_seconds()
        task.status = process.wait()
        process.stdout.close()
        task.said, task.seconds = said.decode("utf-8", "replace"), time.monotonic() - began
        task.processor = processor_seconds() - before
        return task

    def stop(self):
        """Ends all that runs, and forgets what waits; answers what was ended."""
        self.waiting.clear()
        end_all()
        return [self.finish(pipe) for pipe in list(self.running)]


def processor_seconds():
    """What all that was started and has ended took of processors."""
    used = resource.getrusage(resource.RUSAGE_CHILDREN)
    return used.ru_utime + used.ru_stime


def has_ended(process):
    """Whether a process has ended; its status is left for who waits for it, so its number stays its own."""
    if isinstance(process, NotStarted):
        return True
    return os.waitid(os.P_PID, process.pid, os.WEXITED | os.WNOHANG | os.WNOWAIT) is not None


class NotStarted:
    """Stands in the place of a process that couldn't be started: one that said nothing."""

    # (the number of no process)
    pid = 2 ** 31 - 1

    def __init__(self):
        read, write = os.pipe()
        os.close(write)
        self.stdout = os.fdopen(read, "rb")

    def wait(self):
        return NOT_STARTED
