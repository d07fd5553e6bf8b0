"""The folder of a plan: what stands in it, and how that is replaced, whole or not at all.

It has `plan.txt` and `plan.cert`, the best plan and the certificate of the greatest bound so far, each of which `check`
has accepted; `progress.tsv`, a line for each round; `state.json`, of which instance it is and how far it came; and
`work`, in which the programs write. What lies there from a run that was ended at any place is looked at by the next.
These files are regular ones, and `work` is a folder of this folder: links are refused, as whatever stands behind them
isn't of this run. A file that has another name elsewhere (a hard link) is read, and a new one takes its place.
"""
import contextlib
import fcntl
import json
import os
import re
import shutil

from gadvresa.plan.state import MOST, STATE, SUMS, Refused, is_same_slack, read_state
from gadvresa.whole_files import (BESIDE, NEW, is_folder, is_own, is_regular, open_regular, place_copy, put_whole,
                                  remove_any, replacing, write_all, write_whole)

COLUMNS = "seconds\tscore\tbound\tgap_percent\trounds\tturns\tstep\n"
WORK = "work"
OURS = ("plan.txt", "plan.cert", "progress.tsv", WORK)
PART = re.compile(r"part-([0-9]{1,6})-of-([0-9]{1,6})\.cert")
# The certificate that parts are of, in the work.
COMMON = "common.cert"
# How the names begin of what couldn't be judged, and waits for the next run.
KEPT = "kept-"
# More than this of the end of `progress.tsv` is no line.
LONGEST_LINE = 4096


class Busy(Exception):
    """Another run has the folder."""


class Folder:
    """A folder that this run has taken; no other has it meanwhile."""

    def __init__(self, path, instance_sum, slack):
        self.path = os.path.abspath(path)
        os.makedirs(self.path, exist_ok=True)
        self.held = os.open(self.path, os.O_RDONLY | os.O_CLOEXEC)
        try:
            fcntl.flock(self.held, fcntl.LOCK_EX | fcntl.LOCK_NB)
        except BlockingIOError:
            raise Busy from None
        self.plan, self.certificate = self.file("plan.txt"), self.file("plan.cert")
        self.work = self.file(WORK)
        self.refuse_strange()
        self.state = self.read_state(instance_sum, slack or "0")
        self.clear_parts()
        os.makedirs(self.work, exist_ok=True)

    def file(self, *names):
        return os.path.join(self.path, *names)

    def refuse_strange(self):
        """Refuses what isn't of this folder alone, and what could be waited for: links, pipes and the like."""
        for name in (*OURS, STATE):
            path = self.file(name)
            form, is_right = ("folder", is_folder) if name == WORK else ("regular file", is_regular)
            if os.path.lexists(path) and not is_right(path):
                raise Refused(f"{path} is no {form}: remove it, or name another folder")

    def read_state(self, instance_sum, slack):
        try:
            state = read_state(self.path)
        except FileNotFoundError:
            found = [name for name in OURS if os.path.lexists(self.file(name))]
            if found:
                raise Refused(f"{self.path} has a {found[0]} and no state.json, so it isn't known of which instance: "
                              f"name another folder") from None
            state = {"instance": instance_sum, "slack": slack, "seconds": 0.0, "rounds": 0, "turns": {}}
            write_whole(self.file(STATE), json.dumps(state))
        if state["instance"] != instance_sum:
            raise Refused(f"{self.path} is of another instance, or that was changed: name another folder")
        if not is_same_slack(state["slack"], slack):
            raise Refused(f"{self.path} is of slack={state['slack']}, and not {slack}: name another folder")
        return state

    def clear_parts(self):
        """Removes what a run that was killed had begun to write beside its files."""
        for name in os.listdir(self.path):
            if name.startswith(BESIDE) and is_regular(self.file(name)):
                os.remove(self.file(name))

    def keep_state(self):
        """Writes the state. A number that would be larger than any that is read stays the largest one."""
        for name in ("seconds", "rounds"):
            self.state[name] = min(self.state[name], MOST)
        for name in SUMS:
            sums = self.state.get(name, {})
            sums.update({kind: min(number, MOST) for kind, number in sums.items()})
        write_whole(self.file(STATE), json.dumps(self.state))

    def take_plan(self, path):
        put_whole(path, self.plan)

    def take_certificate(self, path):
        put_whole(path, self.certificate)

    def keep_in_work(self, path, name):
        """Has what a file holds now stand in the work, whatever becomes of the file; answers its place there."""
        kept = os.path.join(self.work, name)
        place_copy(path, kept)
        return kept

    def put_aside(self, path):
        """Keeps a file that can't be used under another name, which is answered."""
        number = 1
        while os.path.lexists(f"{path}.refused-{number}"):
            number += 1
        os.rename(path, f"{path}.refused-{number}")
        return f"{path}.refused-{number}"

    def left_over(self):
        """What an earlier run, or a queue of jobs, left in the work: files of plans, of certificates, and of parts of a
        tree by (K, N). Links aren't looked at, and neither are files that have another name.
        """
        names = sorted(name for name in os.listdir(self.work) if is_own(os.path.join(self.work, name)))
        parts = {tuple(map(int, PART.fullmatch(name).groups())): os.path.join(self.work, name)
                 for name in names if PART.fullmatch(name)}
        with_ending = lambda ending: [os.path.join(self.work, name) for name in names
                                      if name.endswith(ending) and not PART.fullmatch(name) and name != COMMON]
        return with_ending(".plan"), with_ending(".cert"), parts

    def clear_work(self, kept=()):
        """Removes what is in the work, but for some files, which get names that no call has."""
        for name in os.listdir(self.work):
            path = os.path.join(self.work, name)
            if path in kept:
                self.keep(path)
            else:
                with contextlib.suppress(OSError):
                    remove_any(path)

    def keep(self, path):
        if os.path.basename(path).startswith(KEPT):
            return
        number, ending = 1, os.path.splitext(path)[1]
        while os.path.lexists(os.path.join(self.work, f"{KEPT}{number}{ending}")):
            number += 1
        os.rename(path, os.path.join(self.work, f"{KEPT}{number}{ending}"))

    def note(self, row):
        """Adds a line to the progress; what was cut off of an earlier one goes."""
        path = self.file("progress.tsv")
        if is_regular(path) and not is_own(path):
            place_own(path)
        number = os.open(path, os.O_RDWR | os.O_CREAT | os.O_NOFOLLOW | os.O_CLOEXEC, NEW)
        try:
            size = whole_size(number)
            os.ftruncate(number, size)
            text = ("" if size else COLUMNS) + "\t".join(map(str, row)) + "\n"
            os.lseek(number, size, os.SEEK_SET)
            write_all(number, text.encode())
            os.fsync(number)
        finally:
            os.close(number)


def whole_size(number):
    """How many bytes of a file are whole lines."""
    size = os.fstat(number).st_size
    begin = max(0, size - LONGEST_LINE)
    end = os.pread(number, size - begin, begin)
    return begin + end.rfind(b"\n") + 1


def place_own(path):
    """Has a copy of a file that has another name take its place here."""
    with open_regular(path) as file, replacing(path) as copy:
        shutil.copyfileobj(file, copy)
