"""Draws the pictures of a comparison, by matplotlib: python3 pictures.py FOLDER, with what to draw on standard input.

profile.png   for each method the part of its runs that come within so many percent of the best score of the instance
gaps.png      the gap of each run, or how far it is above the best score, by instance
progress.png  the score of the plans of a run over time, for methods that write more than one, on up to nine instances
"""
from __future__ import annotations

import json
import os
import sys
from typing import Any, Dict, List, Sequence

# Colours that people who don't tell red from green can tell apart, each with a mark of its own.
COLOURS = ["#0072b2", "#e69f00", "#009e73", "#cc79a7", "#56b4e9", "#d55e00", "#000000", "#f0e442"]
MARKS = ["o", "s", "^", "D", "v", "P", "X", "*"]
MOST_PANELS = 9
Row = Dict[str, Any]


def style(number: int) -> Dict[str, str]:
    """How a method is drawn."""
    return {"color": COLOURS[number % len(COLOURS)], "marker": MARKS[number % len(MARKS)]}


def plain(text: str) -> str:
    """A name as it is shown: cut, without characters that can't be drawn, and without the marks of formulas."""
    text = "".join(it if it.isprintable() else "?" for it in text)
    return (text if len(text) <= 24 else text[:23] + "\u2026").replace("$", r"\$")


def draw_profile(pyplot: Any, rows: Sequence[Row], methods: Sequence[str], path: str) -> None:
    """Draws how often a method comes how near to the best score."""
    figure, axes = pyplot.subplots(figsize=(7, 4.2), constrained_layout=True)
    found = [row["above"] for row in rows if row["above"] is not None]
    end = max([*found, 1.0]) * 1.05
    for number, method in enumerate(methods):
        own = [row["above"] for row in rows if row["method"] == method]
        reached = sorted(it for it in own if it is not None)
        levels = [0.0, *reached, end]
        parts = [sum(it <= level for it in reached) / max(1, len(own)) for level in levels]
        axes.step(levels, parts, where="post", label=plain(method), linewidth=1.6, markersize=4, **style(number))
    axes.set(xlabel="percent above the best score of the instance", ylabel="part of the runs", ylim=(-0.02, 1.03),
             xlim=(0, end))
    axes.legend(frameon=False)
    axes.grid(alpha=0.25)
    figure.savefig(path, dpi=110)


def draw_gaps(pyplot: Any, rows: Sequence[Row], methods: Sequence[str], path: str) -> None:
    """Draws the gap of each run, or how far it is above the best score."""
    has_gap = any(row["gap"] is not None for row in rows)
    instances = list(dict.fromkeys(row["instance"] for row in rows))
    figure, axes = pyplot.subplots(figsize=(max(7, 0.5 * len(instances) + 2), 4.2), constrained_layout=True)
    for number, method in enumerate(methods):
        shift = (number - (len(methods) - 1) / 2) * 0.7 / max(1, len(methods))
        points = [(instances.index(row["instance"]) + shift, row["gap"] if has_gap else row["above"]) for row in rows
                  if row["method"] == method and (row["gap"] if has_gap else row["above"]) is not None]
        places, values = zip(*points) if points else ((), ())
        axes.plot(places, values, linestyle="", label=plain(method), markersize=6, **style(number))
    axes.set_xticks(range(len(instances)))
    axes.set_xticklabels(list(map(plain, instances)), rotation=30, ha="right")
    axes.set(ylabel="gap to the certified bound, percent" if has_gap else "percent above the best score",
             xlim=(-0.6, len(instances) - 0.4))
    axes.set_ylim(bottom=0)
    # (above the panel, where no point is behind it)
    axes.legend(frameon=False, loc="lower right", bbox_to_anchor=(1, 1), ncol=min(6, len(methods)), borderaxespad=0)
    axes.grid(axis="y", alpha=0.25)
    figure.savefig(path, dpi=110)


def draw_progress(pyplot: Any, rows: Sequence[Row], methods: List[str], seconds: float, path: str) -> bool:
    """Draws scores over time; answers whether there is anything to draw."""
    moving = list(dict.fromkeys(row["instance"] for row in rows if len(row["progress"]) > 1))[:MOST_PANELS]
    if not moving:
        return False
    across = min(3, len(moving))
    down = -(-len(moving) // across)
    figure, panels = pyplot.subplots(down, across, figsize=(3.6 * across + 0.6, 2.7 * down + 0.6), squeeze=False,
                                     constrained_layout=True)
    for axes in panels.flat[len(moving):]:
        axes.set_visible(False)
    for axes, instance in zip(panels.flat, moving):
        for row in rows:
            if row["instance"] == instance and row["progress"]:
                times, scores = zip(*row["progress"])
                number = methods.index(row["method"])
                axes.step([*times, seconds], [*scores, scores[-1]], where="post", linewidth=1.2, markersize=3,
                          label=plain(row["method"]), **style(number))
        axes.set_title(plain(instance), fontsize=9)
        axes.set(xlabel="seconds", ylabel="score", xlim=(0, 1.02 * seconds))
        axes.grid(alpha=0.25)
    handles: Dict[str, Any] = {}
    for axes in panels.flat:
        for handle, label in zip(*axes.get_legend_handles_labels()):
            handles.setdefault(label, handle)
    figure.legend(handles.values(), handles.keys(), frameon=False, loc="upper center", bbox_to_anchor=(0.5, 0),
                  ncol=min(6, len(handles)))
    figure.savefig(path, dpi=110, bbox_inches="tight")
    return True


def main(folder: str) -> None:
    """Draws what standard input says, and says which pictures there are."""
    given = json.load(sys.stdin)
    import matplotlib

    matplotlib.use("Agg")
    matplotlib.rcParams.update({"font.size": 9, "axes.spines.top": False, "axes.spines.right": False})
    from matplotlib import pyplot

    rows, methods = given["rows"], given["methods"]
    draw_profile(pyplot, rows, methods, os.path.join(folder, "profile.png"))
    draw_gaps(pyplot, rows, methods, os.path.join(folder, "gaps.png"))
    drawn = ["profile.png", "gaps.png"]
    if draw_progress(pyplot, rows, methods, given["seconds"], os.path.join(folder, "progress.png")):
        drawn.append("progress.png")
    print("\n".join(drawn))


if __name__ == "__main__":
    main(sys.argv[1])
