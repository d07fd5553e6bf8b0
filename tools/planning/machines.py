"""Runs the calls of a round on other machines, by GNU parallel.

Each machine gets the program, the instance, and what the round begins with, in a folder of its own below the home of
the login; what a machine has is not sent again. The calls are spread over the machines, and what they made comes back;
those of a machine that is lost, or takes too long, are made by another one. A machine needs ssh, rsync and a shell.

A machine may send back anything. Only regular files are looked at, and no more of them than a program says.
"""
import contextlib
import os
import re
import shlex
import subprocess
import sys
import time

from gadvresa.over_parallel import host_of, parallel_words, read_logins
from planning.running import LONGEST_SAID, Task
from gadvresa.running.holding import end_all
from gadvresa.cli import stop
from gadvresa.running import Status
from gadvresa.whole_files import is_own, is_regular, open_regular, place_copy, remove_any

HERE = os.path.dirname(os.path.abspath(__file__))
SSH = "ssh -o BatchMode=yes -o ConnectTimeout=10 -o ServerAliveInterval=10 -o ServerAliveCountMax=3"
# What rsync is called with, so that it takes regular files alone, and none that is larger.
RSYNC = "-zR --max-size={}"
LONGEST_CERTIFICATE = 1 << 28
# How many times as long as expected a call may take, the least seconds that it may, and how many its logins may take:
# before a call of its kind came back from the machines, and behind that, when what is expected has the logins in it.
UNKNOWN, KNOWN = (5, 60, 60), (3, 20, 30)
# For how many bytes that are sent a call may take a second more.
BYTES_A_SECOND = 500_000
# Seconds in which the machines are tidied up.
TIDYING = 60
# The status of a call of which nothing came back, and what there is to read where something did.
LOST, STATUS, LONGEST_STATUS = 255, re.compile(r"[0-9]{1,3}\n?"), 8
CAME_BACK = (0, 9, 10)
# Ends what runs in a folder, unless its number has come to stand for another process since, and removes the folder.
ENDING = """for file in {folder}/*.pid; do read -r pid start <"$file" && [ -n "$start" ] && \
[ "$(sed "s/.*) //" "/proc/$pid/stat" | cut -d " " -f 20)" = "$start" ] && kill "$pid"; done 2>/dev/null; \
rm -rf {folder}"""


class Machines:
    def __init__(self, hosts, work, name, instance, program):
        self.hosts, self.work, self.folder = os.path.abspath(hosts), work, f".gadvresa-plan/{name}"
        self.count = len(reached_logins(hosts))
        parallel_words(1)
        self.instance, self.program = instance, program
        self.sent, self.measured = False, set()

    def lay_out(self):
        """Puts what all machines need beside the work."""
        if self.sent:
            return
        for source, name in ((self.instance, "instance.json"), (self.program, "plan_refine"),
                             (os.path.join(HERE, "one_task"), "one_task")):
            place_copy(source, os.path.join(self.work, name))
        self.sent = True

    def batch(self, tasks, jobs, seconds):
        """A call of GNU parallel that makes the calls, and those that it stands for; each names files of the work. They
        are expected to take so many seconds.
        """
        self.lay_out()
        files = {"instance.json", "plan_refine", "one_task"}
        for task in tasks:
            name = os.path.basename(task.out)
            words = [os.path.basename(word) if word.startswith(self.work + os.sep) else word for word in task.words]
            words[0], words[2] = "./plan_refine", "instance.json"
            files |= {word for word in words[3:5] if is_regular(os.path.join(self.work, word))} - {name}
            with open(f"{task.out}.task", "w", encoding="utf-8") as file:
                file.write(f"exec {shlex.join(words)}\n")
        names, limits = [os.path.basename(task.out) for task in tasks], self.limits(tasks[0].kind, seconds, files)
        words = [os.path.join(HERE, "guard"), *parallel_words(jobs, self.hosts, self.folder), "--ungroup",
                 "--timeout", str(limits[1])]
        for name in sorted(files):
            words += ["--transferfile", name]
        words += ["--transferfile", "{}.task", "--return", "{}", "--return", "{}.said", "--return", "{}.status"]
        words += [f"sh ./one_task {limits[0]} {{}}", ":::", *names]
        return Task(f"{tasks[0].kind} on {self.count} machines", [sys.executable, "-E", "-s", *words], slots=1,
                    details={"folder": self.work, "of": tasks, "limit": limits[1], "environment": self.environment()})

    def limits(self, kind, seconds, files):
        """How many seconds a call may take, and how many with its files on the way, before another machine makes it."""
        patience, least, logins = KNOWN if kind in self.measured else UNKNOWN
        limit = max(least, int(patience * seconds))
        size = sum(os.path.getsize(os.path.join(self.work, name)) for name in files)
        return limit, limit + logins + size // BYTES_A_SECOND

    def environment(self):
        """The variables of GNU parallel."""
        longest = max(LONGEST_CERTIFICATE, *map(os.path.getsize, (self.instance, self.program)))
        return {"PARALLEL_SSH": SSH, "PARALLEL_RSYNC_OPTS": RSYNC.format(longest)}

    def take(self, batch):
        """The calls of a batch that has ended, with what came back of each."""
        for task in batch.details["of"]:
            self.take_one(task, batch)
        return batch.details["of"]

    def take_one(self, task, batch):
        """Notes what came back of a call, and when: what another machine made anew came later than any one may take."""
        said, status = f"{task.out}.said", f"{task.out}.status"
        strange = [path for path in (task.out, said, status) if os.path.lexists(path) and not is_own(path)]
        word, task.said, task.seconds = read_text(status, LONGEST_STATUS), "it was lost\n", batch.seconds
        task.status = LOST
        if strange:
            task.said = "what came back is no regular file\n"
        elif STATUS.fullmatch(word) and is_regular(task.out):
            task.status, task.said = int(word), read_text(said, LONGEST_SAID)
            task.seconds = min(max(0.0, batch.seconds - (time.time() - os.lstat(status).st_mtime)), batch.seconds)
            task.details["is_late"] = task.seconds > batch.details["limit"]
            if task.status in CAME_BACK and not task.details["is_late"]:
                self.measured.add(task.kind)
        for path in (f"{task.out}.task", said, status, *strange):
            with contextlib.suppress(OSError):
                remove_any(path)

    def clear(self):
        """Ends what runs on the machines, as after a signal, and removes what they have, as far as they are there."""
        words = [*parallel_words(0, self.hosts), "--nonall", self.ending()]
        try:
            subprocess.run(words, stdin=subprocess.DEVNULL, stdout=subprocess.DEVNULL, stderr=subprocess.DEVNULL,
                           env={**os.environ, "PARALLEL_SSH": SSH}, timeout=TIDYING)
        except OSError:
            pass
        except subprocess.TimeoutExpired:
            # (what parallel has started goes on without it)
            end_all()

    def ending(self):
        """The command that tidies up a machine."""
        return f"sh -c {shlex.quote(ENDING.format(folder=self.folder))}"


def reached_logins(hosts):
    """The machines that a file names. Ends the script where one of them can't be reached by ssh and rsync."""
    logins = read_logins(hosts)
    for name in map(host_of, logins):
        if name == ":":
            stop(Status.SCRIPT_UNREAD, f"{hosts}: ':' stands for this machine without ssh, and no files are sent to "
                                       f"it: write localhost, or leave it out")
        if name.count(":") > 1:
            stop(Status.SCRIPT_UNREAD, f"{hosts}: {name} is an address that parallel doesn't hand on to rsync: give it "
                                       f"a name in ~/.ssh/config, and write that")
    return logins


def read_text(path, most):
    """What a regular file begins with; nothing where there is none."""
    try:
        with open_regular(path) as file:
            return file.read(most).decode("utf-8", "replace")
    except OSError:
        return ""
