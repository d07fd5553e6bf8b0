"""Tells people how it goes, on standard error: on a terminal in one line that is rewritten, and else a line a round.

Where nobody reads that any more, the planning goes on. What programs and machines say may hold anything, so nothing but
what is printed reaches the terminal.
"""
import contextlib
import os

from gadvresa.cli import complain
from gadvresa.model import cost_shown, gap_shown

# Seconds between two looks at the clock on a terminal, and how wide a line is where the terminal doesn't tell.
BEAT, WIDTH = 1.0, 80


class Teller:
    def __init__(self):
        self.is_terminal = os.isatty(2)
        self.shown = False

    def put(self, text):
        complain(text)

    def remark(self, text):
        """Says something that stays."""
        self.clear()
        self.put(f"plan: {printable(text)}\n")

    def clear(self):
        if self.shown:
            self.put("\r\033[K")
            self.shown = False

    def rewrite(self, text):
        """Shows a line in the place of the one before it."""
        if self.is_terminal:
            self.put("\r\033[K" + printable(text)[:self.width() - 1])
            self.shown = True

    def width(self):
        with contextlib.suppress(OSError):
            return os.get_terminal_size(2).columns or WIDTH
        return WIDTH


def printable(text):
    """A text in which each character that isn't printed, as of an escape sequence, stands as Python writes it."""
    return "".join(it if it.isprintable() else it.encode("unicode_escape").decode() for it in text)


def standing(score, bound, gap, periods):
    """What stands, in words."""
    unit = "cost" if periods else "score"
    parts = [f"{unit} {cost_shown(score, periods)}" if score is not None else "no plan yet"]
    if bound is not None:
        parts.append(f"bound {cost_shown(bound, periods)}")
    if score is not None and bound is not None:
        parts.append(f"gap {gap_shown(gap, 2)} %")
    return ", ".join(parts)


def clock(seconds):
    seconds = max(0, int(seconds))
    hours, rest = divmod(seconds, 3600)
    return f"{hours}:{rest // 60:02}:{rest % 60:02}" if hours else f"{rest // 60}:{rest % 60:02}"
