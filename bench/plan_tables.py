"""The tables of bench/plan.py, by what its runs came to."""
from dataclasses import dataclass
from typing import Optional

ONE = 10 ** 18
STEPS = ("solve", "improve", "bound")
# The goals: how far in percent a bound may be below those of the solvers where `Alpha` is 1, in which part of the time
# more jobs come to the gap of one, and the overhead in percent.
BELOW, PART, OVERHEAD = 1, 0.4, 10


@dataclass
class Row:
    who: str
    minutes: float
    jobs: int
    score: Optional[int]
    bound: Optional[int]
    others: float
    rounds: Optional[int] = None
    note: str = ""


def gap_of(score, bound):
    return None if score is None or bound is None or score <= 0 else 100 * (score - bound) / score


def rows_of(found, minutes):
    """The rows of a run: one for each number of minutes that a run of `plan` has lived through."""
    if found["who"] != "plan":
        return [Row(found["who"], found["minutes"], found["jobs"], found["score"], found["bound"], found["others"],
                    note=found["note"])]
    rows = []
    for each in [*(it for it in minutes if it < found["minutes"]), found["minutes"]]:
        is_last = each == found["minutes"]
        done = [it for it in found["rounds"] if is_last or it[0] <= 60 * each]
        _, score, bound = done[-1] if done else (None, None, None)
        rows.append(Row("plan", each, found["jobs"], score, bound, found["others"], len(done)))
        if is_last:
            rows[-1].note = f"overhead {overhead(found):.1f} %, cut off {cut_off(found):.1f} %"
            if found["status"] not in (0, 9):
                rows[-1].note += f", STATUS {found['status']}"
    return rows


def overhead(found):
    """The part of the processor seconds that went into judging, joining and reading again, in percent."""
    spent, total = found["spent"], found["processor"]
    search = sum(spent.get(step, 0) for step in STEPS) + spent.get("cut off", 0)
    return 100 * (total - search + sum(found["read"].get(step, 0) for step in STEPS)) / total if total else 0.0


def cut_off(found):
    """The part of the processor seconds that went into calls that were ended before they had come to anything."""
    return 100 * found["spent"].get("cut off", 0) / found["processor"] if found["processor"] else 0.0


def when(found, gap):
    """When the gap of a run was no greater than that; none where it was greater to the end."""
    gaps = ((seconds, gap_of(*values)) for seconds, *values in found["rounds"])
    return next((seconds for seconds, it in gaps if it is not None and it <= gap), None)


def print_case(name, drawn, found, minutes):
    """Prints the table of a case, and answers what its goals come to, by their names."""
    rows = sorted((row for it in found for row in rows_of(it, minutes)),
                  key=lambda row: (row.minutes, row.jobs, row.who != "plan", row.who))
    if not rows:
        return None
    best = min((row.score for row in rows if row.score is not None), default=None)
    highest = max((row.bound for row in rows if row.bound is not None), default=None)
    dates, machines = sorted(it["began"] for it in found), sorted({it["machine"] for it in found})
    programs = {tuple(it["programs"].values()) for it in found if it["who"] == "plan"}
    loads = [it["load"] for it in found]
    print(f"\n{name}: {' '.join(drawn)}\n\nRuns from {dates[0]} to {dates[-1]} UTC on {', '.join(machines)}; load at "
          f"the beginning of each {min(loads):.2f} to {max(loads):.2f}"
          + ("; the runs of plan had DIFFERENT PROGRAMS" if len(programs) > 1 else "") + ".\n")
    print("| who | minutes | jobs | score | bound | gap % | above the best % | below the best bound % | rounds | "
          f"others | notes |\n|---{'|--:' * 9}|---|")
    shown = lambda value, text: "" if value is None else text(value)
    for row in rows:
        cells = [f"{row.minutes:g}", str(row.jobs), shown(row.score, lambda it: f"{it / ONE:,.3f}"),
                 shown(row.bound, lambda it: f"{it / ONE:,.3f}"), shown(gap_of(row.score, row.bound), "{:.3f}".format),
                 shown(row.score, lambda it: f"{100 * (it / best - 1):.3f}"),
                 shown(row.bound, lambda it: f"{100 * (1 - it / highest):.3f}"), shown(row.rounds, str),
                 f"{row.others:.2f}", row.note]
        print(f"| {row.who} | {' | '.join(cells)} |")
    planned = sorted((it for it in found if it["who"] == "plan"), key=lambda it: it["jobs"])
    goals = {"case": name, **goals_of(rows, planned, drawn[drawn.index("--alpha") + 1] == "1")}
    for it, gap, seconds in catching_up(planned):
        print(f"\nGap of {gap:.3f} %, that of 1 job at the end: with {it['jobs']} jobs after "
              f"{'never' if seconds is None else f'{seconds:.0f} s'}.")
    return goals


def catching_up(planned):
    """For each run with more jobs than one: when it came to the gap that the one with 1 job has at its end."""
    first = next((it for it in planned if it["jobs"] == 1 and it["rounds"]), None)
    gap = gap_of(*first["rounds"][-1][1:]) if first else None
    return [(it, gap, when(it, gap)) for it in planned if it["jobs"] > 1] if gap is not None else []


def goals_of(rows, planned, has_no_quantile):
    """Whether the goals are reached, as yes, no, or a dash where what it takes isn't there."""
    worse, lower, compared = [], [], 0
    for own in (row for row in rows if row.who == "plan"):
        # (a solver that takes one processor counts beside any number of jobs)
        for other in (it for it in rows if it.who != "plan" and it.minutes == own.minutes and it.jobs <= own.jobs):
            compared += 1
            place = f"{other.who} {own.minutes:g} min {own.jobs} jobs"
            if other.score is not None and (own.score is None or own.score > other.score):
                worse.append(place)
            least = None if other.bound is None else other.bound * (100 - BELOW * has_no_quantile) / 100
            if least is not None and (own.bound is None or own.bound < least):
                lower.append(place)
    told = lambda faults: "-" if not compared else f"no: {', '.join(faults)}" if faults else "yes"
    caught = [seconds is not None and seconds <= PART * 60 * it["minutes"] for it, _, seconds in catching_up(planned)]
    light = [overhead(it) <= OVERHEAD for it in planned]
    yes = lambda holds: "-" if not holds else "yes" if all(holds) else "no"
    return {"plan no worse than the solvers'": told(worse), "bound high enough": told(lower),
            f"gap of 1 job in {PART:.0%} of its time": yes(caught), f"overhead at most {OVERHEAD} %": yes(light)}


def print_summary(found, minutes):
    """Prints the runs of all cases in one table, a row for the same jobs and minutes: score, bound and gap."""
    methods = sorted({it["who"] for runs in found.values() for it in runs}, key=lambda who: (who != "plan", who))
    if methods:
        print(f"\n| case | jobs | minutes | {' | '.join(methods)} |\n|---|--:|--:{'|--:' * len(methods)}|")
    for case, runs in found.items():
        rows = {}
        for row in (row for it in runs for row in rows_of(it, minutes)):
            rows.setdefault((row.jobs, row.minutes), {})[row.who] = cell_of(row)
        for (jobs, each), cells in sorted(rows.items()):
            print(f"| `{case}` | {jobs} | {each:g} | {' | '.join(cells.get(who, '') for who in methods)} |")


def cell_of(row):
    """Score, bound and gap of a row, or why there are none."""
    if row.note.startswith("model"):
        return "model too large"
    score, bound = ("none" if it is None else f"{it / ONE:,.1f}" for it in (row.score, row.bound))
    gap = gap_of(row.score, row.bound)
    return f"{score}, {bound}" + ("" if gap is None else f", {gap:.2f} %")


def print_goals(goals):
    """Prints a table of the goals of all cases."""
    if goals:
        print(f"\n| {' | '.join(goals[0])} |\n|---{'|---' * (len(goals[0]) - 1)}|")
        for each in goals:
            print(f"| {' | '.join(each.values())} |")
