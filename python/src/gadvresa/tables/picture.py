"""Draws a year of a plan: works, loads between their limits, and risk, from what `./planner table` says alone.

    tools/picture INSTANCE PLAN PICTURE [slack=D]
    tools/picture --table FILE PICTURE
    tools/picture --progress FILE PICTURE

PICTURE is written, as PNG or SVG by its suffix. It needs matplotlib of Debian's Python:

    apt-get install python3-matplotlib

On top each intervention is a bar over the periods of its run, and below them a red mark and line stand in each period
with a broken exclusion. Then come a panel for each resource, with its load in steps between the limits, and what is
outside in red, and one with the mean risk of each period, the quantile and the greatest scenario. With --progress it
draws the rounds of `./planner plan` instead, which are in its FILE: score and bound over time.

The status is 0 where PICTURE was written. Where `./planner table` ends with another status than 0, it is that one, and
what it says goes to standard error. What goes wrong in this script itself has statuses of its own: 64 its words, 65 the
text is none of `table`, or one without a period, 66 FILE can't be read, 69 the program or matplotlib isn't there, 70
something unforeseen, 74 PICTURE can't be written.
"""
from __future__ import annotations

import argparse
import io
from typing import Any, Callable, Dict, List, Sequence, Tuple

from ..cli import Parser, stop
from ..model.exact import SCORES
from ..reports import NoReport
from ..reports.tables import Load, Periods
from ..running.holding import end_by_signals
from ..running.statuses import Status
from ..whole_files import write_named
from .asking import asked_table, table_parser
from .progress import Round, read_progress

BAR, LOAD, LIMIT, FAULT, MEAN, QUANTILE, GREATEST = (
    "#4c78a8", "#4c78a8", "#555555", "#d62728", "#333333", "#f58518", "#bbbbbb")
SCORE, BOUND = "#4c78a8", "#555555"
# Up to how many interventions each bar has its name beside it.
MOST_NAMES = 60


def plainly(name: str) -> str:
    """A name in which matplotlib sees no formula."""
    return name.replace("$", r"\$")


def runs_of(table: Periods) -> List[Tuple[str, int, int]]:
    """The runs of a table, each once, as (name, start, duration), by start."""
    found = {(run.name, run.start, run.duration): None for period in table.periods for run in period.runs}
    return sorted(found, key=lambda run: (run[1], run[1] + run[2], run[0]))


def loads_of(table: Periods) -> Dict[str, List[Tuple[int, Load]]]:
    """For each resource its loads by period, in the order of the file."""
    found: Dict[str, List[Tuple[int, Load]]] = {}
    for period in table.periods:
        for load in period.loads:
            found.setdefault(load.resource, []).append((period.number, load))
    return found


def edges(values: Sequence[float]) -> List[float]:
    """What `step` draws over a whole period: each value from half before its period to half behind it."""
    return [*values, values[-1]]


def draw_runs(axes: Any, table: Periods, runs: Sequence[Tuple[str, int, int]]) -> List[Tuple[Any, int]]:
    """Draws the bars; answers their names as texts, each with the period behind its bar."""
    names = []
    for row, (name, start, duration) in enumerate(runs):
        axes.barh(row, duration, left=start - 0.5, height=0.8, color=BAR, linewidth=0)
        if len(runs) <= MOST_NAMES:
            text = axes.text(start - 0.6, row, plainly(name), ha="right", va="center", fontsize=6)
            names.append((text, start + duration))
    for period in table.periods:
        if period.clashes:
            axes.axvline(period.number, color=FAULT, linewidth=1, alpha=0.4)
            axes.plot(period.number, len(runs), marker="v", color=FAULT, markersize=5, clip_on=False)
            axes.annotate(plainly(" ".join(period.clashes)), (period.number, len(runs)), xytext=(5, 0), color=FAULT,
                          fontsize=6, textcoords="offset points", va="center", annotation_clip=False)
    axes.set_ylim(len(runs) + (0.6 if any(period.clashes for period in table.periods) else -0.4), -0.6)
    axes.set_yticks([])
    axes.set_ylabel(f"{len(runs)} works")
    return names


def place_names(figure: Any, axes: Any, names: Sequence[Tuple[Any, int]]) -> None:
    """Puts each name that runs out of its panel on the left behind its bar, or, where that is too long, on the bar."""
    figure.canvas.draw()
    inner = axes.get_window_extent()
    for text, behind in names:
        if text.get_window_extent().x0 < inner.x0:
            text.set(x=behind - 0.4, ha="left")
            if text.get_window_extent().x1 > inner.x1:
                text.set(x=sum(axes.get_xlim()) / 2, ha="center", color="white")


def draw_loads(axes: Any, name: str, loads: Sequence[Tuple[int, Load]]) -> None:
    """Draws the loads of a resource between its limits, and what is outside."""
    numbers = [number - 0.5 for number, _ in loads] + [loads[-1][0] + 0.5]
    load, lower, upper = ([float(getattr(it, part)) for _, it in loads] for part in ("load", "lower", "upper"))
    axes.fill_between(numbers, edges(load), step="post", color=LOAD, alpha=0.35, linewidth=0)
    axes.fill_between(numbers, edges([max(it, top) for it, top in zip(load, upper)]), edges(upper), step="post",
                      color=FAULT, linewidth=0)
    axes.fill_between(numbers, edges([min(it, low) for it, low in zip(load, lower)]), edges(lower), step="post",
                      color=FAULT, linewidth=0)
    axes.step(numbers, edges(load), where="post", color=LOAD, linewidth=1)
    for limit in (lower, upper):
        axes.step(numbers, edges(limit), where="post", color=LIMIT, linewidth=0.8, linestyle="--")
    axes.set_ylabel(plainly(name))


def draw_risk(axes: Any, table: Periods) -> None:
    """Draws the mean risk, the quantile and the greatest scenario of each period."""
    numbers = [period.number for period in table.periods]
    mean = [float(period.mean) for period in table.periods]
    axes.bar(numbers, [float(period.greatest) for period in table.periods], color=GREATEST, label="greatest scenario")
    axes.plot(numbers, [float(period.quantile) for period in table.periods], color=QUANTILE, marker=".", linewidth=1,
              label="quantile")
    axes.plot(numbers, mean, color=MEAN, marker=".", linewidth=1, label="mean")
    axes.set_ylabel("risk")
    axes.set_xlabel("period")
    # (above the panel, where no bar is behind it)
    axes.legend(fontsize=7, ncol=3, loc="lower right", bbox_to_anchor=(1, 1), borderaxespad=0, frameon=False)


def drawing() -> Tuple[Any, Any]:
    """What draws, set so that a drawing repeats itself."""
    import matplotlib

    matplotlib.use("Agg")
    matplotlib.rcParams.update({"svg.hashsalt": "table", "font.size": 8, "axes.spines.top": False,
                                "axes.spines.right": False})
    from matplotlib import pyplot, ticker

    return pyplot, ticker


def save(figure: Any, path: str) -> None:
    """Has the picture take its place once it is whole, as its suffix says; without a date, so that it repeats itself.
    """
    form, drawn = path[-3:], io.BytesIO()
    figure.savefig(drawn, format=form, dpi=100, metadata={"Date": None} if form == "svg" else None)
    write_named(path, drawn.getvalue())


def draw_rounds(rounds: Sequence[Round], path: str) -> None:
    """Draws score and bound over time, in multiples of 10^18, with the gap between them."""
    pyplot, _ = drawing()
    figure, axes = pyplot.subplots(figsize=(8, 4), constrained_layout=True)
    seconds = [float(it.seconds) for it in rounds]
    score, bound = ([float("nan") if text is None else int(text) / SCORES for text in texts]
                    for texts in ([it.score for it in rounds], [it.bound for it in rounds]))
    axes.fill_between(seconds, bound, score, step="post", color=SCORE, alpha=0.12, linewidth=0)
    axes.step(seconds, score, where="post", color=SCORE, marker=".", linewidth=1, label="score of the plan")
    axes.step(seconds, bound, where="post", color=BOUND, marker=".", linewidth=1, linestyle="--", label="bound")
    axes.set_xlim(left=0)
    axes.set_xlabel("seconds")
    axes.set_ylabel("score, in multiples of 10^18")
    axes.legend(fontsize=7, ncol=2, loc="lower right", bbox_to_anchor=(1, 1), borderaxespad=0, frameon=False)
    save(figure, path)


def draw(table: Periods, path: str) -> None:
    """Draws a table with at least one period."""
    pyplot, ticker = drawing()
    runs, loads = runs_of(table), loads_of(table)
    heights = [max(1.2, min(4.5, len(runs) * 0.12)), *[1.1 for _ in loads], 1.5]
    figure, panels = pyplot.subplots(len(heights), 1, sharex=True, figsize=(10, sum(heights) + 0.8),
                                     gridspec_kw={"height_ratios": heights}, constrained_layout=True)
    names = draw_runs(panels[0], table, runs)
    for axes, (name, found) in zip(panels[1:], loads.items()):
        draw_loads(axes, name, found)
    draw_risk(panels[-1], table)
    panels[-1].xaxis.set_major_locator(ticker.MaxNLocator(integer=True))
    panels[-1].set_xlim(table.periods[0].number - 0.5, table.periods[-1].number + 0.5)
    place_names(figure, panels[0], names)
    save(figure, path)


def asked_rounds(parser: Parser, words: argparse.Namespace) -> Tuple[List[Round], str]:
    """The rounds that the words ask for, and the picture."""
    if words.table or len(words.files) != 1:
        parser.error("wrong words")
    try:
        rounds = read_progress(words.progress)
    except OSError as error:
        stop(Status.SCRIPT_UNREAD, f"{words.progress}: {error.strerror}")
    except NoReport as fault:
        stop(Status.NO_REPORT, str(fault))
    if not rounds:
        stop(Status.NO_REPORT, f"{words.progress} has no round: there is nothing to draw")
    return rounds, words.files[0]


def main() -> None:
    """Runs the script."""
    end_by_signals()
    parser = table_parser(str(__doc__), "PICTURE")
    parser.add_argument("--progress", metavar="FILE", help="the rounds of `plan`, in place of a table")
    words = parser.parse_args()
    drawn: Callable[[], None]
    if words.progress:
        rounds, path = asked_rounds(parser, words)
        drawn, is_empty = lambda: draw_rounds(rounds, path), False
    else:
        table, (path,) = asked_table(parser, words, 1)
        drawn, is_empty = lambda: draw(table, path), not table.periods
    if not path.endswith((".png", ".svg")):
        parser.error("PICTURE ends with .png or .svg")
    if is_empty:
        stop(Status.NO_REPORT, "the table has no period: there is nothing to draw")
    try:
        drawn()
    except ModuleNotFoundError as lacking:
        stop(Status.TOOL_MISSING, f"{lacking.name} is missing: apt-get install python3-matplotlib")
    except OSError as error:
        stop(Status.SCRIPT_UNWRITTEN, f"{path}: {error.strerror}")
