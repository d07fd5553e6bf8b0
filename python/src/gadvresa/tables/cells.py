"""Rows of CSV, and names as cells that no spreadsheet takes for formulas."""
from __future__ import annotations

import csv
import io
from typing import Any, Iterable, Sequence

# What a spreadsheet takes for the beginning of a formula, and what is put before names that begin so.
FORMULA, MARK = "=+-@\uff1d\uff0b\uff0d\uff20", "'"


def plain_text(name: str) -> str:
    """A name as a cell that no spreadsheet takes for a formula. It may drop blanks and invisible characters first."""
    seen = next((it for it in name if it.isprintable() and not it.isspace()), MARK)
    return MARK + name if seen in FORMULA or name.startswith(MARK) else name


def rows_text(heads: Sequence[str], rows: Iterable[Sequence[Any]]) -> str:
    """Rows below their heads, as CSV."""
    return "".join(map(row_text, [heads, *rows]))


def row_text(row: Sequence[Any]) -> str:
    """The line of a row."""
    text, end = io.StringIO(), "\r\n"
    # (a cell is quoted for a character of the end, and a carriage return in it would begin a row otherwise)
    csv.writer(text, lineterminator=end).writerow(row)
    return text.getvalue()[:-len(end)] + "\n"
