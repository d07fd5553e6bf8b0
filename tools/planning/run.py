"""A run of `plan`: what stands, and how it gets better.

What stands in the folder is judged, or else `solve` makes a plan and a certificate; where there is more than one
processor the rest begins beside it. That is two lanes, which go on side by side, each in rounds: in one `improve` looks
for better plans, with as many seeds as it has processors, all of them but one in long rounds; in the other `bound` goes
on with the certificate, on parts of the tree where the program knows parts. What comes of a round is believed once
`check` has accepted it, and takes the place of what stood.

A lane is a generator: it hands out the calls of programs that it waits for, and gets them back once they have ended.
"""
import collections
import hashlib
import math
import os
import shlex
import sys
import time

from gadvresa.model import gap_of, gap_shown
from gadvresa.reports import first_line, periods_of, says_no_plan, whole_in
from gadvresa.plan.afresh import CALLS, LONG_CALLS, Afresh, calls_of
from planning.folder import COMMON, SUMS
from gadvresa.plan.joining import claim_of
from gadvresa.plan.pace import LEAST, MOST_TURNS, Pace, long_round_seconds, round_seconds
from planning.running import Task
from planning.telling import BEAT, clock, standing
from gadvresa.whole_files import is_regular, remove_any

# The turns of `solve`, and how many times as many it gets where it found no plan; and those of the first rounds.
SOLVE, MORE, FIRST_IMPROVE, FIRST_BOUND, LEAST_BOUND = 1000, 4, 200, 0, 100
# Of how many rounds the gain of a lane is looked at, and the least part that each lane gets.
LOOKED_AT, LEAST_SHARE = 2, 0.1
# How scripts are started: no module of the caller's folder or variables takes the place of another one.
PYTHON = [sys.executable, "-E", "-s"]
JOIN = os.path.join(os.path.dirname(os.path.dirname(os.path.abspath(__file__))), "join")
# How many leaves a part of a tree has at least, how many parts there are at least where `improve` wants processors, and
# how many price lists there can be.
LEAVES_OF_PART, LEAST_PARTS, MOST_LISTS = 4, 4, 16
# What `bound` answers where it knows the words of a call of which there is no instance.
NO_INSTANCE, UNREAD = os.path.join(os.devnull, "none"), 7
# How long the last calls may take behind the time of a run: seconds, and how many readings.
LAST_SECONDS, LAST_READINGS = 5.0, 10
# After how many rounds without any call that succeeded a lane is given up.
MOST_FAILURES = 3
# Statuses: of a program that finds no plan, and where none exists; where the instance can't be read.
NOTHING_FOUND, NO_PLAN, NO_INSTANCE_READ, HOPELESS = 9, 10, (3, 7), (2, 3, 7)
# Those of calls that did what they were to do, and those of `check` and `evaluate` that say what a file is.
DONE, VERDICTS = (0, NOTHING_FOUND, NO_PLAN), (0, 1, 4, 5)
# What ends a round, or begins the first one, and so doesn't wait behind other rounds.
URGENT = ("ask", "check", "evaluate", "join", "claim")
# The kinds of calls that search, and what those that were ended before they came to anything are counted as.
STEPS, CUT_OFF = ("solve", "improve", "bound"), "cut off"
MEMORY = 11
# How a report begins where a plan or a certificate isn't as it should be.
REFUSED_PLAN, REFUSED_CERTIFICATE = ("infeasible\n", "refused plan "), "refused certificate "


def round_seconds_of(done):
    """How long the calls of a round took, on the processor that took longest; those that failed may have ended early,
    and those that a machine kept too long were made anew by another one. None where no call is left.
    """
    sums = collections.Counter()
    for task in done:
        if task.status in DONE and not task.details.get("is_late"):
            sums[task.details.get("processor", id(task))] += task.seconds
    return max(sums.values(), default=None)


class Ended(Exception):
    """The run can't go on, as a call failed on which all rests."""

    def __init__(self, task):
        super().__init__(task.status)
        self.task = task


class Lane:
    """One of the two kinds of steps: its pace, how many processors it has, and may have at most, where memory is short,
    and how often it failed in a row.
    """

    def __init__(self, name, pace, slots, most):
        self.name, self.pace, self.slots, self.most = name, pace, slots, most
        self.rounds = self.failures = 0
        self.is_at_rest = False
        self.value, self.gains = None, collections.deque(maxlen=LOOKED_AT)

    def note_gain(self, value, seconds):
        """Notes what a round came to: the score or the bound that stands behind it, and the seconds of all processors.
        The first round only says where the others begin, as it gains more than any other, by little work.
        """
        if None not in (self.value, value):
            self.gains.append((abs(value - self.value), seconds))
        self.value = value

    def rate(self):
        """How much the last rounds gained in a second of a processor; None where there are none."""
        seconds = sum(it for _, it in self.gains)
        return sum(gain for gain, _ in self.gains) / seconds if seconds else None


class Stream:
    """Rounds of `improve` that come one after the other: its pace, whether they are long, and how many processors the
    one that runs has.
    """

    def __init__(self, pace, is_long=False):
        self.pace, self.is_long, self.slots = pace, is_long, 0


class Tree:
    """What is known of the tree of the certificate: how many leaves and price lists it has, and whether `bound` added
    lists to it the last time.
    """

    def __init__(self, leaves=0, lists=0, is_growing=True):
        self.leaves, self.lists, self.is_growing = leaves, lists, is_growing

    def kept(self):
        return [self.leaves, self.lists, self.is_growing]

    def note(self, said):
        counts = [whole_in(said, name) for name in ("splits", "kept", "changed", "lists")]
        if None not in counts:
            splits, kept, changed, lists = counts
            self.leaves = splits + max(1, kept + changed)
            self.is_growing, self.lists = lists != self.lists and lists < MOST_LISTS, lists


class Run:
    """`programs` are the files of `planner_cli` and `plan_refine`, `machines` the other ones, if there are any."""

    def __init__(self, words, folder, programs, runner, teller, machines=None):
        self.words, self.folder, self.programs, self.machines = words, folder, programs, machines
        self.runner, self.teller = runner, teller
        self.instance = os.path.abspath(words.instance)
        self.slack = [f"slack={words.slack}"] if words.slack is not None else []
        self.score = self.bound = self.periods = None
        self.has_certificate = self.has_no_plan = False
        # (how long the last `check` took, and the shortest one, which is mostly that of the instance)
        self.reading, self.least_reading = 0.0, None
        # (how long it took to put parts of a tree together, and what waits for processors)
        self.joining, self.batches, self.paused, self.is_out_of_time = 0.0, {}, [], False
        self.cut_off = []
        self.began, self.before = time.monotonic(), float(folder.state["seconds"])
        self.improving = Lane("improve", Pace(FIRST_IMPROVE, 1), 1, words.jobs)
        self.bounding = Lane("bound", Pace(FIRST_BOUND, LEAST_BOUND), 1, words.jobs)
        self.tree = Tree(*folder.state.get("tree", ()))
        self.knows_parts, self.made = False, None
        self.solving, self.is_solving, self.afresh = Pace(SOLVE, SOLVE), False, Afresh()
        self.streams = [Stream(self.improving.pace)]
        # (where there are machines, or no clock, a round has all processors)
        if words.jobs > 1 and words.rounds is None and not machines:
            self.streams.append(Stream(Pace(FIRST_IMPROVE, 1), is_long=True))
        for name, pace in (("bound", self.bounding.pace), *(("improve", it.pace) for it in self.streams)):
            if name in folder.state["turns"]:
                pace.turns, seconds = folder.state["turns"][name]
                pace.took(seconds)

    # What stands, and when it is over.

    def passed(self):
        return time.monotonic() - self.began

    def left(self):
        return float("inf") if self.words.seconds is None else self.words.seconds - self.passed()

    def gap(self):
        return gap_of(self.score, self.bound)

    def is_over(self):
        """Why no more is to be done; nothing while there is."""
        if self.runner.signals:
            return "a signal came"
        if self.has_no_plan:
            return "no plan keeps the rules"
        if self.gap() is not None and self.gap() <= self.words.gap:
            return f"the gap is {gap_shown(self.gap(), 2)} %"
        if self.left() <= 0 or self.is_out_of_time:
            return "the time is over"
        if self.improving.is_at_rest and self.bounding.is_at_rest and not self.is_solving:
            return "nothing more can be done"
        return ""

    # The calls of programs.

    def refine(self, kind, *words, part=(), **more):
        words = [self.programs["plan_refine"], kind, self.instance, *map(str, words), *self.slack, *part]
        return Task(kind, words, **more)

    def reading_of(self, kind):
        """How long a call reads: the instance alone, or the certificate too."""
        return {"improve": self.least_reading or 0.0, "bound": self.reading}.get(kind, 0.0)

    def judge(self, plan, certificate):
        """`check` of a plan and a certificate, or of one of them; `evaluate` of a plan alone."""
        if certificate:
            return self.refine("check", plan or "-", certificate)
        return Task("evaluate", [self.programs["planner_cli"], "evaluate", self.instance, plan, *self.slack])

    def solve(self, name, turns):
        place = os.path.join(self.folder.work, name)
        files = [f"{place}.plan", f"{place}.cert", f"{place}.trail"]
        return Task("solve", [self.programs["planner_cli"], "solve", self.instance, *files, str(turns), *self.slack],
                    out=files[0], turns=turns, details={"others": files[1:]})

    def certificate(self):
        return self.folder.certificate if self.has_certificate else None

    def plan(self):
        return self.folder.plan if self.score is not None else None

    def seed(self, number):
        """The seed of a call, by its number in a round: another one for each."""
        text = f"{self.words.seed} {self.folder.state['rounds']} {self.improving.rounds} {number}"
        return int.from_bytes(hashlib.sha256(text.encode()).digest()[:8], "big")

    # Driving the lanes.

    def drive(self, *lanes, is_last=False):
        """Goes on with the lanes until they end, or it is over; the last ones go on behind that, until a signal, or for
        some readings where a clock decides.
        """
        most = self.last_seconds() if is_last else math.inf
        end = time.monotonic() + most
        try:
            for lane in lanes:
                self.advance(lane, None)
            while self.batches and not (self.runner.signals if is_last else self.is_over()):
                self.runner.start_waiting()
                if time.monotonic() >= end:
                    self.teller.remark(f"`check` is ended after {most:.1f} s; what stands was accepted before")
                    break
                for task in self.runner.wait(BEAT if is_last else min(BEAT, self.left())):
                    self.go_on_behind(task)
                self.show()
            # (lanes that wait beside none that runs wait for time)
            self.is_out_of_time = bool(self.paused) and not self.batches
        finally:
            self.end_all_calls()

    def last_seconds(self):
        """How long the last calls may take, which read what was read before."""
        return math.inf if self.words.seconds is None else LAST_SECONDS + LAST_READINGS * self.reading

    def go_on_behind(self, task):
        """Goes on with the lane of a call that has ended, once all of its batch have, and with those that wait."""
        lane, batch = self.batches.pop(id(task))
        self.count(task, task.kind)
        if not any(id(it) in self.batches for it in batch):
            self.advance(lane, batch)
            paused, self.paused = self.paused, []
            for other in paused:
                self.advance(other, None)

    def end_all_calls(self):
        """Ends the calls that run, and notes those of which machines may have sent something back."""
        for task in self.runner.stop():
            self.count(task, CUT_OFF if task.kind in STEPS else task.kind)
            if "of" in task.details:
                self.cut_off.append(task)
        self.batches.clear()
        self.paused.clear()

    def count(self, task, kind):
        """Adds a call to those of its kind, and the seconds that it took of a processor to theirs."""
        for name, more in zip(SUMS, (1, task.processor, self.reading_of(task.kind))):
            sums = self.folder.state.setdefault(name, {})
            sums[kind] = round(sums.get(kind, 0) + more, 3)

    def advance(self, lane, done):
        try:
            batch = lane.send(done)
        except StopIteration:
            return
        if not batch:
            self.paused.append(lane)
            return
        for task in batch:
            self.batches[id(task)] = (lane, batch)
        self.runner.add(batch, is_urgent=batch[0].kind in URGENT)

    def show(self):
        running = {}
        for task, *_ in self.runner.running.values():
            running.setdefault(f"{task.kind} {task.turns}" if task.turns else task.kind, []).append(task)
        runs = ", ".join(f"{len(tasks)} x {name}" if len(tasks) > 1 else name for name, tasks in running.items())
        left = f"{clock(self.left())} left" if self.words.seconds is not None else clock(self.passed())
        self.teller.rewrite(f"{left}  {standing(self.score, self.bound, self.gap(), self.periods)}  {runs}")

    # Taking what the programs made.

    def take(self, task, plan=None, certificate=None):
        """Takes a plan and a certificate that were judged, where they are better than what stands."""
        if not (task.is_accepted() or task.kind == "evaluate" and task.status == 0):
            return False
        score, bound = whole_in(task.said, "score"), whole_in(task.said, "bound")
        self.reading = task.seconds
        self.least_reading = min(self.reading, self.least_reading or self.reading)
        self.periods = self.periods or periods_of(task.said)
        is_taken = False
        if plan and score is not None and (self.score is None or score < self.score):
            if plan != self.folder.plan:
                self.folder.take_plan(plan)
            self.score, is_taken = score, True
        is_higher = bound is not None and (self.bound is None or bound > self.bound)
        if certificate and (says_no_plan(task.said) or is_higher):
            if certificate != self.folder.certificate:
                self.folder.take_certificate(certificate)
            self.bound, self.has_no_plan, self.has_certificate = bound, says_no_plan(task.said), True
            is_taken = True
        return is_taken

    def end_round(self, step, turns, lane=None, done=(), stream=None):
        """Notes a round in the folder, and tells of it. The time of the calls `done` is what the next one goes by."""
        state, seconds = self.folder.state, round_seconds_of(done)
        state["rounds"] += 1
        if lane:
            lane.rounds += 1
        if seconds is not None:
            pace, slots = (stream.pace, stream.slots) if stream else (lane.pace, lane.slots)
            pace.took(seconds)
            lane.note_gain(self.score if lane is self.improving else self.bound, seconds * max(1, slots))
            # (by the clock the last rounds are short, as little time is left, and say little of the pace)
            is_longest = self.words.rounds is not None or seconds >= state["turns"].get(lane.name, (0, 0.0))[1]
            if pace is lane.pace and is_longest:
                state["turns"][lane.name] = [pace.turns, round(seconds, 3)]
        state["tree"] = self.tree.kept()
        self.keep_state()
        known = lambda number: "" if number is None else number
        bound = "none" if self.has_no_plan else known(self.bound)
        self.folder.note([f"{state['seconds']:.3f}", known(self.score), bound, gap_shown(self.gap(), 4),
                          state["rounds"], turns, step])
        if not self.teller.is_terminal:
            text = standing(self.score, self.bound, self.gap(), self.periods)
            self.teller.remark(f"{state['seconds']:.1f} s, round {state['rounds']}: {text}  {step} {turns}")

    def keep_state(self):
        """Notes in the folder how far it came."""
        self.folder.state["seconds"] = round(self.before + self.passed(), 3)
        self.folder.keep_state()

    def tell_failures(self, done):
        """Says which calls failed, and how."""
        failed = [task for task in done if task.status not in DONE]
        for how in sorted({self.fault_of(task) for task in failed}):
            count = sum(self.fault_of(task) == how for task in failed)
            self.teller.remark(f"{count} of {len(done)} calls of {done[0].kind} failed: {how}")
        return failed

    def fault_of(self, task):
        if task.status < 0:
            return f"ended by signal {-task.status}"
        return f"{first_line(task.said) or 'it said nothing'} (status {task.status})"

    def note_failures(self, lane, done):
        """Takes note of calls that failed; answers whether the lane may go on."""
        if self.score is None and not self.has_certificate and all(task.status in NO_INSTANCE_READ for task in done):
            raise Ended(done[0])
        failed = self.tell_failures(done)
        lane.failures = lane.failures + 1 if len(failed) == len(done) else 0
        if any(task.status == MEMORY or task.status < 0 for task in failed) and lane.slots > 1:
            lane.most = lane.slots // 2
            self.teller.remark(f"from now on {lane.most} at a time")
        if lane.failures >= MOST_FAILURES:
            lane.is_at_rest = True
            self.teller.remark(f"{lane.name} is given up, as it failed in {MOST_FAILURES} rounds")

    # The first step.

    def begin(self):
        """Judges what stands in the folder and what an earlier run left in its work."""
        yield from self.judge_standing()
        unjudged = yield from self.take_left_over()
        self.folder.clear_work(unjudged)
        self.is_solving = not (self.has_certificate and self.score is not None or self.is_over())
        if self.words.jobs == 1 or self.words.is_dry:
            yield from self.solve_first()
        if not self.is_over():
            yield from self.ask_for_parts()

    def solve_first(self):
        """Has `solve` make a plan and a certificate where they don't stand; beside the lanes, where there are more
        processors.
        """
        if self.is_solving:
            task = self.solve("solve", SOLVE)
            yield [task]
            self.is_solving = False
            if task.status in HOPELESS:
                raise Ended(task)
            yield from self.take_solved(task)
            self.tell_failures([task])
            self.remove([task])
            self.end_round("solve", SOLVE)

    def judge_standing(self):
        plan, certificate = (it if is_regular(it) else None for it in (self.folder.plan, self.folder.certificate))
        while plan or certificate:
            task = self.judge(plan, certificate)
            yield [task]
            if task.status == 0:
                self.take(task, plan, certificate)
                self.teller.remark("goes on with " + standing(self.score, self.bound, self.gap(), self.periods))
                return
            if plan and task.said.startswith(REFUSED_PLAN):
                self.put_aside(plan, task)
                plan = None
            elif certificate and task.said.startswith(REFUSED_CERTIFICATE):
                self.put_aside(certificate, task)
                certificate = None
            else:
                raise Ended(task)

    def put_aside(self, path, task):
        kept = self.folder.put_aside(path)
        said = " ".join(task.said.split("\n")[:2])
        self.teller.remark(f"{path} isn't what `check` accepts ({said.strip()}), and is kept as {kept}")

    def take_left_over(self):
        """Takes what the calls of an earlier run wrote and that run didn't live to take, where it is better; answers
        what couldn't be judged.
        """
        plans, certificates, parts = self.folder.left_over()
        unjudged = []
        for plan in plans:
            task = self.judge(plan, self.certificate())
            yield [task]
            self.take(task, plan=plan)
            unjudged += self.note_unjudged(task, plan)
        # (these first, as a join may write to a name that one of them has)
        for certificate in certificates:
            task = self.judge(self.plan(), certificate)
            yield [task]
            self.take(task, certificate=certificate)
            unjudged += self.note_unjudged(task, certificate)
        unjudged += yield from self.take_left_parts(parts)
        if plans or certificates or parts:
            self.end_round("taken", 0)
        return unjudged

    def take_left_parts(self, parts):
        """Joins the parts of a tree that were left; answers those that couldn't be judged."""
        unjudged, common = [], os.path.join(self.folder.work, COMMON)
        if parts and is_regular(common):
            whole_ones = {}
            for (number, count), path in parts.items():
                task = self.judge(None, path)
                yield [task]
                if task.status == 0:
                    whole_ones.setdefault(count, {})[(number, count)] = path
                unjudged += self.note_unjudged(task, path)
            for count in sorted(whole_ones, key=lambda it: -len(whole_ones[it]))[:1]:
                yield from self.join(common, whole_ones[count], count)
        return unjudged

    def note_unjudged(self, task, path):
        """Says of a file whose judging came to no verdict that it waits for the next run; answers it then."""
        if task.status in VERDICTS:
            return []
        self.teller.remark(f"{path} couldn't be judged, and is kept for the next run: {self.fault_of(task)}")
        return [path]

    def take_solved(self, task):
        """Takes what `solve` made."""
        place = task.out[:-len(".plan")]
        plan, certificate = (it if is_regular(it) else None for it in (f"{place}.plan", f"{place}.cert"))
        if task.status in DONE:
            self.solving.took(task.seconds)
        if task.status not in DONE or not certificate:
            return
        judged = self.judge(plan if task.status == 0 else None, certificate)
        yield [judged]
        self.take(judged, plan if task.status == 0 else None, certificate)
        self.tell_failures([judged])

    # Better plans.

    def improve(self, stream):
        """The rounds of a stream; while there are no processors or no time for one, it waits for another to end."""
        lane = self.improving
        while self.may_go_on(lane):
            stream.slots = self.slots_of(stream)
            lane.slots = sum(it.slots for it in self.streams)
            if not (stream.slots and self.set_turns(lane, stream)):
                yield []
                continue
            done = yield from self.spread(lane, self.improve_tasks(stream))
            self.note_failures(lane, done)
            for task in (it for it in done if it.kind == "solve"):
                yield from self.take_solved(task)
            made = [task for task in done if task.kind != "solve"]
            best = yield from self.take_plans(made)
            if any(task.details.get("is_afresh") for task in made):
                self.afresh.note(best is not None and best.details["is_afresh"])
            self.remove(done)
            self.end_round("improve" if made else "solve", sum(task.turns for task in done), lane, made, stream)

    def slots_of(self, stream):
        """How many processors the next round of a stream has: all of the lane, or all but one where it is the long
        one of two.
        """
        slots = self.slots_for_plans()
        return slots if len(self.streams) == 1 else slots - 1 if stream.is_long else 1

    def slots_for_plans(self):
        """How many processors the lane is to have: those that parts of the tree neither have nor are to get."""
        others = 0 if self.bounding.is_at_rest else max(self.bounding.slots, self.wanted_parts())
        return max(1, min(self.improving.most, self.words.jobs - others - self.is_solving))

    def improve_tasks(self, stream):
        """Calls with different seeds, from the plan that stands and from none. While no plan stands, and `solve` found
        none either: one that looks for it, and one of `solve` with more turns than before, in turns where there is one
        processor.
        """
        turns, slots, given = stream.pace.turns, stream.slots, self.given("improve")
        if self.score is None and (self.is_solving or stream.is_long):
            count = 1 if self.machines else slots
            return [self.improve_task(stream, number, number, given, turns) for number in range(1, count + 1)]
        if self.score is None:
            # (a long round beside it looks for a plan as well)
            is_turn = self.improving.slots > 1 or self.improving.rounds % 2 == 0
            solves = [self.solve(f"{self.name_of_round()}-2", self.more_of_solve())] if is_turn else []
            return solves + ([] if solves and slots == 1 else [self.improve_task(stream, 1, 1, given, turns)])
        count = slots * (self.machines.count if self.machines else 1)
        afresh = self.afresh.take(count)
        calls = [(processor, given, turns) for processor in range(afresh, count)]
        parts = self.calls_afresh(stream)
        calls += [(processor, "-", turns // parts) for _ in range(parts) for processor in range(afresh)]
        return [self.improve_task(stream, number, *call) for number, call in enumerate(calls, 1)]

    def name_of_round(self):
        return f"improve-{self.folder.state['rounds']}"

    def improve_task(self, stream, number, processor, given, turns):
        """A call of a round, by its number, on one of the processors of the round."""
        number = f"long-{number}" if stream.is_long else number
        place = os.path.join(self.folder.work, f"{self.name_of_round()}-{number}.plan")
        return self.refine("improve", given, place, turns, self.seed(number), out=place, turns=turns,
                           line=(stream.is_long, processor),
                           details={"processor": processor, "is_afresh": given == "-"})

    def calls_afresh(self, stream):
        """How many calls from no plan a processor makes in a round."""
        if self.machines or self.words.is_dry:
            return 1
        seconds = None if self.words.rounds is not None else stream.pace.expected()
        return calls_of(stream.pace.turns, seconds, self.least_reading, LONG_CALLS if stream.is_long else CALLS)

    def more_of_solve(self):
        """The turns of the next `solve`: MORE times as many, as far as there is time for them."""
        if self.words.rounds is not None or self.solving.seconds is None:
            return self.solving.times(MORE)
        return self.solving.next(min(MORE * self.solving.seconds, 0.9 * self.left()), self.reading, MORE)

    def given(self, name):
        """The plan that the calls of a round begin with; elsewhere all with the same one, whatever comes of it here."""
        if (self.machines or self.words.is_dry) and self.score is not None:
            return self.folder.keep_in_work(self.folder.plan, f"{name}.given")
        return self.plan() or "-"

    def spread(self, lane, tasks):
        """Has the calls of a round made here, or on the machines, and answers them."""
        if not self.machines or self.score is None:
            return (yield tasks)
        batch = self.machines.batch(tasks, lane.slots, lane.pace.expected() or 0)
        yield [batch]
        return self.machines.take(batch)

    def take_cut_off(self):
        """Takes the best plan of what the machines had sent back when they were ended, as the time was over, or a
        signal came. Parts of a tree are left for the next run, as putting them together takes its time.
        """
        batches, self.cut_off = self.cut_off, []
        for batch in batches:
            made = [task for task in self.machines.take(batch) if task.kind == "improve" and task.status in DONE]
            if (yield from self.take_plans(made)):
                self.end_round("improve", sum(task.turns for task in made))

    def take_plans(self, done):
        """Takes the best plan of a round, which is that of the least score that `check` accepts; answers its call."""
        found = [(whole_in(task.said, "score"), at, task) for at, task in enumerate(done) if task.status == 0]
        for score, _, task in sorted(it for it in found if it[0] is not None):
            if self.score is not None and score >= self.score:
                break
            judged = self.judge(task.out, self.certificate())
            yield [judged]
            if self.take(judged, plan=task.out):
                return task
            self.tell_failures([judged])
        return None

    # Better bounds.

    def raise_bound(self):
        lane = self.bounding
        # (a certificate of `solve` is gone on with where one from nothing isn't better)
        old = self.certificate() if lane.pace.seconds is not None else None
        while self.may_go_on(lane):
            count = self.parts_for(lane)
            if not self.set_turns(lane):
                yield []
                continue
            is_taken = yield from (self.raise_parts(lane, count) if count > 1 else self.raise_whole(lane, old))
            if old and lane.pace.turns and not is_taken and self.made == 0:
                lane.is_at_rest = True
            old = self.certificate()

    def ask_for_parts(self):
        """Finds out whether the program goes on with a part of a tree."""
        words = ["bound", NO_INSTANCE, "-", "-", os.path.join(self.folder.work, "none"), "0", "part=0/1"]
        task = Task("ask", [self.programs["plan_refine"], *words])
        yield [task]
        self.knows_parts = task.status == UNREAD

    def parts_for(self, lane):
        """How many parts the next round has: one for each processor that the lane wants, and that the other one hasn't.

        Where rounds are counted no clock decides, so what the other one has doesn't count then.
        """
        machines, slots = self.machines.count if self.machines else 1, self.wanted_parts()
        if self.words.rounds is None and not self.improving.is_at_rest:
            slots = min(slots, max(1, self.words.jobs - self.improving.slots))
        if slots * machines > 1:
            lane.slots = slots
            return slots * machines
        # (where there are other machines this one has nothing else to do)
        lane.slots = 0 if self.machines else 1
        return 1

    def wanted_parts(self):
        """How many processors are to have parts of the tree, on each machine: the share of the lane, where the tree is
        large enough, and where they are so many that putting parts together is worth it, or would have nothing else to
        do. With 0 the tree can't be parted.
        """
        machines, lane = self.machines.count if self.machines else 1, self.bounding
        if not (self.knows_parts and not self.tree.is_growing and self.has_certificate):
            return 0
        most = self.words.jobs if self.improving.is_at_rest else max(1, self.words.jobs - 1)
        count = min(lane.most, most, max(1, round(self.words.jobs * self.share(lane))),
                    self.tree.leaves // (LEAVES_OF_PART * machines))
        is_worth = count >= LEAST_PARTS or machines > 1 or self.improving.is_at_rest
        return count if is_worth else min(1, count)

    def raise_whole(self, lane, old):
        """A round on the whole tree; answers whether its bound is better."""
        task = self.whole_tree(lane, self.plan() or "-", old or "-")
        yield [task]
        self.note_failures(lane, [task])
        self.made = whole_in(task.said, "splits") if task.status == 0 else None
        is_taken = yield from self.take_bound(task)
        self.end_round("bound", task.turns, lane, [task])
        return is_taken

    def whole_tree(self, lane, given, old):
        out = os.path.join(self.folder.work, f"bound-{lane.rounds}.cert")
        return self.refine("bound", given, old, out, lane.pace.turns, out=out, turns=lane.pace.turns)

    def raise_parts(self, lane, count):
        """A round on parts of the tree side by side."""
        common, given = self.folder.keep_in_work(self.folder.certificate, COMMON), self.given("bound")
        done = yield from self.spread(lane, [self.part(lane, given, common, number, count) for number in range(count)])
        self.note_failures(lane, done)
        made = {(number, count): task.out for number, task in enumerate(done) if task.status in (0, NO_PLAN)}
        self.made = sum(whole_in(task.said, "splits") or 0 for task in done) if made else None
        is_taken = yield from self.join(common, made, lane.rounds)
        self.remove(done)
        self.end_round("bound", sum(task.turns for task in done), lane, done)
        return is_taken

    def part(self, lane, given, common, number, count):
        out = os.path.join(self.folder.work, f"part-{number}-of-{count}.cert")
        return self.refine("bound", given, common, out, lane.pace.turns, part=[f"part={number}/{count}"], out=out,
                           turns=lane.pace.turns)

    def join(self, common, parts, number):
        """Puts parts together that were made of a common certificate, and takes what that comes to. Where that fails,
        or proves less than what stands, the parts that aren't right are left out.
        """
        if not parts:
            return False
        joined = self.join_task(common, parts, f"joined-{number}")
        yield [joined]
        better = yield from self.claim(joined, number)
        if self.is_worse(better):
            right = yield from self.right_parts(common, parts, number)
            if right and len(right) < len(parts):
                count = f"{len(parts) - len(right)} of {len(parts)}"
                self.teller.remark(f"{count} parts of the tree aren't right, and are left out")
                joined = self.join_task(common, right, f"joined-{number}")
                yield [joined]
                better = yield from self.claim(joined, number)
        self.tell_failures([better])
        is_taken = yield from self.take_bound(better)
        if better is not joined:
            self.joining = joined.seconds + better.seconds + self.reading
        return is_taken

    def is_worse(self, better):
        """Whether a claim of joined parts failed, or is less than what stands."""
        bound = whole_in(better.said, "bound")
        return better.status not in DONE or None not in (bound, self.bound) and bound < self.bound

    def join_task(self, common, parts, name):
        joined = os.path.join(self.folder.work, f"{name}.cert")
        words = [f"{one}/{count}={path}" for (one, count), path in parts.items()]
        return Task("join", [*PYTHON, JOIN, common, joined, *words], out=joined)

    def claim(self, joined, number):
        """Has `bound` claim what the leaves of a joined certificate prove together, which is more than what the parts
        claim; answers that call, or the join where it failed.
        """
        if joined.status != 0:
            return joined
        out = os.path.join(self.folder.work, f"bound-{number}.cert")
        better = self.refine("bound", self.plan() or "-", joined.out, out, 0, out=out)
        better.kind = "claim"
        yield [better]
        self.remove([joined])
        return better

    def right_parts(self, common, parts, number):
        """Those of the parts that `check` accepts with as much as the common certificate claims, and that fit into it.
        """
        judged = {key: self.judge(None, path) for key, path in parts.items()}
        yield list(judged.values())
        claim, claims = claim_of(common), {key: whole_in(task.said, "bound") for key, task in judged.items()}
        joins = {key: self.join_task(common, {key: parts[key]}, f"joined-{number}-{key[0]}")
                 for key, task in judged.items()
                 if task.is_accepted() and (None in (claim, claims[key]) or claims[key] >= claim)}
        if joins:
            yield list(joins.values())
        self.remove(joins.values())
        return {key: parts[key] for key, task in joins.items() if task.status == 0}

    def take_bound(self, task):
        is_taken = False
        if task.status in (0, NO_PLAN):
            self.tree.note(task.said)
            bound = whole_in(task.said, "bound")
            if bound is None or self.bound is None or bound > self.bound:
                judged = self.judge(self.plan(), task.out)
                yield [judged]
                is_taken = self.take(judged, certificate=task.out)
                self.tell_failures([judged])
        self.remove([task])
        return is_taken

    # A queue of jobs.

    def commands(self):
        """The calls of a round, as many as there are jobs, as commands of a shell, each with files of its own in the
        work.
        """
        for lane in (self.improving, self.bounding):
            lane.pace.next(self.left() if self.words.seconds is not None else LEAST, self.reading, MOST_TURNS)
        bounds = min(self.words.jobs // 2, max(1, self.tree.leaves // LEAVES_OF_PART) if self.knows_parts else 1)
        self.improving.slots = self.streams[0].slots = self.words.jobs - bounds
        tasks, given = self.improve_tasks(self.streams[0]), self.given("improve")
        common = self.folder.keep_in_work(self.folder.certificate, COMMON) if self.has_certificate else "-"
        if bounds > 1:
            tasks += [self.part(self.bounding, given, common, number, bounds) for number in range(bounds)]
        elif bounds:
            tasks.append(self.whole_tree(self.bounding, given, common))
        return [shlex.join(task.words) for task in tasks]

    # What both lanes need.

    def may_go_on(self, lane):
        return not (lane.is_at_rest or self.words.rounds is not None and lane.rounds >= self.words.rounds)

    def set_turns(self, lane, stream=None):
        """Sets the turns of the next round; answers whether there is time for one."""
        pace, passed, left = (stream or lane).pace, self.before + self.passed(), self.left()
        if self.words.rounds is not None:
            pace.times(2)
            return True
        # (behind a round of parts comes what puts them together)
        reading = self.reading if lane is self.improving else max(self.reading, self.joining)
        if stream.is_long if stream else len(self.streams) > 1:
            seconds = long_round_seconds(passed, left, reading)
        else:
            seconds = round_seconds(passed, left, reading, self.share(lane) if self.words.jobs == 1 else 1.0)
        if seconds > 0:
            pace.next(seconds, self.reading)
        return seconds > 0 or pace.seconds is None

    def share(self, lane):
        """The part of the processors, or with one of the time, that a lane is to have: by what the last rounds of both
        gained in a second of a processor. Where rounds are counted no clock decides.
        """
        other = self.bounding if lane is self.improving else self.improving
        if other.is_at_rest:
            return 1.0
        own, others = lane.rate(), other.rate()
        if self.words.rounds is not None or own is None or others is None or not own + others:
            return 0.5
        return min(max(own / (own + others), LEAST_SHARE), 1 - LEAST_SHARE)

    def remove(self, tasks):
        for task in tasks:
            for path in [task.out, *task.details.get("others", ())]:
                if path:
                    remove_any(path)
