"""Makes the runs of bench/plan.py, each with a file for what it came to, and looks at what the machine does beside."""
import json
import os
import re
import shutil
import signal
import subprocess
import sys
import time
from dataclasses import dataclass

import cases
from beside_solvers import solver_words
from gadvresa.running.holding import ended_with_this
from gadvresa.whole_files import sum_of, write_whole

TOP = os.path.dirname(cases.HERE)
PLAN, GUARD = os.path.join(TOP, "tools", "plan"), os.path.join(TOP, "tools", "planning", "guard")
PROGRAMS = ("planner_cli", "plan_refine")
# Seconds to read an instance and to make a model of it, and those after which a run of `plan` should have ended.
SLOWEST_MODEL, SLOWEST_END = 900, 120
# The statuses of a run of `plan` that ended as it should, and of a solver, which may be ended for its time; what
# bench/mip.py says of a model that is too large is a result too.
PLANNED, SOLVED, MODEL = (0, 9, 10), (0, 124, 137), re.compile("model more than [0-9]+ terms").fullmatch
TICKS = os.sysconf("SC_CLK_TCK")


class Machine:
    """What there is of processors, and who has them."""

    def __init__(self):
        self.processors = sorted(os.sched_getaffinity(0))
        self.model = next((line.partition(":")[2].strip() for line in lines_of("/proc/cpuinfo")
                           if line.startswith("model name")), "unknown")
        self.gigabytes = os.sysconf("SC_PAGE_SIZE") * os.sysconf("SC_PHYS_PAGES") / 1e9

    def said(self):
        """A line on the machine and its load, in a second of looking at it."""
        busy, began = self.busy(self.processors), time.monotonic()
        time.sleep(1)
        others = (self.busy(self.processors) - busy) / (time.monotonic() - began)
        load = " ".join(f"{it:.2f}" for it in os.getloadavg())
        return (f"machine: {len(self.processors)} processors ({self.model}), {self.gigabytes:.0f} GB; load {load}; "
                f"others have {others:.1f} processors now")

    def busy(self, processors):
        """The seconds that some processors were used since the machine began, by this one and by others beside it."""
        names, total = {f"cpu{it}" for it in processors}, 0
        for line in lines_of("/proc/stat"):
            name, *counts = line.split()
            if name in names:
                user, nice, system, _, _, hard, soft, stolen = map(int, counts[:8])
                total += user + nice + system + hard + soft + stolen
        return total / TICKS


def lines_of(path):
    with open(path, encoding="utf-8") as file:
        return file.read().splitlines()


@dataclass
class One:
    """A run: a case, `plan` or a solver, the minutes that it has, and the processors."""

    case: str
    who: str
    minutes: float
    jobs: int

    def name(self):
        return f"{self.who.replace(':', '-')}-{self.minutes:g}-{self.jobs}"

    def said(self):
        return f"{self.case}: {self.who}, {self.minutes:g} minutes, {self.jobs} jobs"


class Going:
    """A run that goes on: its process, its processors, and what they had done before."""

    def __init__(self, run, words, folder, machine, processors, limit, variables):
        self.run, self.processors, self.machine = run, processors, machine
        self.load, self.busy, self.began = os.getloadavg()[0], machine.busy(processors), time.monotonic()
        self.date = time.strftime("%Y-%m-%d %H:%M", time.gmtime())
        self.out = os.path.join(folder, f"{run.name()}.said")
        with open(self.out, "wb") as out:
            self.process = subprocess.Popen(
                [sys.executable, GUARD, *on(processors), "timeout", "-k", "10", str(int(limit)), *words],
                env={**os.environ, **variables}, stdin=subprocess.DEVNULL, stdout=out,
                stderr=subprocess.DEVNULL if run.who == "plan" else subprocess.STDOUT, start_new_session=True,
                preexec_fn=ended_with_this(signal.SIGKILL))

    def ended(self, status, usage):
        """What is known of a run that has ended."""
        self.process.returncode = os.waitstatus_to_exitcode(status)
        seconds, own = time.monotonic() - self.began, usage.ru_utime + usage.ru_stime
        others = max(0.0, self.machine.busy(self.processors) - self.busy - own) / seconds
        return {"case": self.run.case, "who": self.run.who, "minutes": self.run.minutes, "jobs": self.run.jobs,
                "began": self.date, "machine": self.machine.model, "load": round(self.load, 2),
                "others": round(others, 3), "seconds": round(seconds, 1), "processor": round(own, 2),
                "status": self.process.returncode}


def on(processors):
    """The words before those of a call that is to have these processors alone."""
    return ["taskset", "-c", ",".join(map(str, processors))]


class Runs:
    """The runs that the words ask for, and their files."""

    def __init__(self, words, drawn):
        self.words, self.drawn = words, drawn
        self.programs = os.path.abspath(words.programs or os.path.join(TOP, "out"))

    def folder(self, case):
        return os.path.join(self.words.results, case)

    def file(self, run):
        return os.path.join(self.folder(run.case), f"{run.name()}.json")

    def all(self):
        for case, drawn in self.drawn.items():
            for who in self.words.who:
                # (the other models are for a quantile that counts)
                if ":" in who and drawn[drawn.index("--alpha") + 1] == "1":
                    continue
                for jobs in self.words.jobs if who in ("plan", "cbc") else [1]:
                    if jobs in self.words.jobs:
                        for minutes in self.words.minutes[-1:] if who == "plan" else self.words.minutes:
                            yield One(case, who, minutes, jobs)

    def due(self):
        """The runs that have no file; side by side those that need few processors, and long ones, come first."""
        due = [run for run in self.all() if not os.path.exists(self.file(run))]
        return sorted(due, key=lambda run: (run.jobs, -run.minutes)) if self.words.side_by_side else due

    def found(self, case):
        """What all runs of a case came to that have a file."""
        folder = self.folder(case)
        names = sorted(os.listdir(folder)) if os.path.isdir(folder) else []
        texts = [lines_of(os.path.join(folder, name)) for name in names
                 if name.endswith(".json") and name != "instance.json"]
        return [json.loads("\n".join(text)) for text in texts]

    def tell(self, text):
        print(f"{time.strftime('%H:%M:%S', time.gmtime())} {text}", flush=True)

    def make(self, due, machine):
        """Makes the runs, one after the other or side by side, and writes the file of each as it ends; answers how many
        failed, and so stay due.
        """
        due, going, free, failed = list(due), {}, list(machine.processors), 0
        too_wide = [run.said() for run in due if run.jobs > len(free)]
        if too_wide:
            sys.exit(f"here are {len(free)} processors, too few for {too_wide[0]}")
        while due or going:
            while due and due[0].jobs <= len(free) and (self.words.side_by_side or not going):
                run = due.pop(0)
                taken, free = free[:run.jobs], free[run.jobs:]
                self.tell(f"{run.said()}, on {len(taken)} of {len(machine.processors)} processors, load "
                          f"{os.getloadavg()[0]:.2f}")
                one = self.start(run, machine, taken)
                going[one.process.pid] = one
            pid, status, usage = os.wait4(-1, 0)
            if pid in going:
                one = going.pop(pid)
                free = sorted([*free, *one.processors])
                failed += not self.end(one, one.ended(status, usage))
        return failed

    def start(self, run, machine, processors):
        folder = self.folder(run.case)
        instance = os.path.join(folder, "instance.json")
        os.makedirs(folder, exist_ok=True)
        if not os.path.exists(instance):
            cases.draw(self.drawn[run.case], f"{instance}.part")
            os.replace(f"{instance}.part", instance)
        seconds = 60 * run.minutes
        if run.who != "plan":
            call = solver_words(instance, run.who, seconds, self.words.largest, "--threads", str(run.jobs))
            return Going(run, call, folder, machine, processors, seconds + SLOWEST_MODEL, {})
        out = os.path.join(folder, run.name())
        shutil.rmtree(out, ignore_errors=True)
        call = [PLAN, instance, out, f"minutes={run.minutes:g}", f"jobs={run.jobs}", f"seed={self.words.seed}"]
        return Going(run, call, folder, machine, processors, seconds + SLOWEST_END,
                     {"GADVRESA_PROGRAMS": self.programs})

    def end(self, one, found):
        """Writes what a run came to; answers whether it came to anything."""
        lines, status = lines_of(one.out), found["status"]
        is_done = status in PLANNED if one.run.who == "plan" else status in SOLVED or lines[-1:] and MODEL(lines[-1])
        self.tell(f"{one.run.said()}: {found['seconds']:.0f} s, status {status}, others had {found['others']:.2f} of "
                  f"its processors{'' if is_done else '; FAILED: ' + ' '.join(lines[-1:])}")
        if is_done:
            found["words"] = self.drawn[one.run.case]
            found |= self.planned(one) if one.run.who == "plan" else solved(lines)
            write_whole(self.file(one.run), json.dumps(found, indent=1))
        return is_done

    def planned(self, one):
        """The rounds of a run of `plan`, and where its processor seconds went."""
        out = os.path.join(self.folder(one.run.case), one.run.name())
        rounds, state = [], {}
        if os.path.exists(os.path.join(out, "progress.tsv")):
            rounds = [line.split("\t") for line in lines_of(os.path.join(out, "progress.tsv"))[1:]]
            state = json.loads("\n".join(lines_of(os.path.join(out, "state.json"))))
        return {"seed": self.words.seed, "programs": {it: sum_of(os.path.join(self.programs, it)) for it in PROGRAMS},
                "rounds": [[float(row[0]), number(row[1]), number(row[2])] for row in rounds],
                "spent": state.get("processor_seconds", {}), "read": state.get("reading_seconds", {})}


def solved(lines):
    """What a solver came to, by what bench/mip.py said."""
    values = dict(line.split(" ", 1) for line in lines if " " in line)
    note = values.get("status", lines[-1][:60] if lines else "nothing was said in time")
    if "infeasible" in values:
        note += f", its plan breaks {values['infeasible']}"
    return {"score": number(values.get("score", "")), "bound": number(values.get("bound", "")), "note": note}


def number(text):
    return int(text) if text.lstrip("-").isdigit() else None
