"""Writes a model in the LP format, or as MPS in its free form. Numbers are those that read back as the same floats."""
from __future__ import annotations

import re
from typing import List, Sequence, Tuple

from .program import Model, Term

TERMS_PER_LINE = 4
SENSES = {"=": "E", "<=": "L", ">=": "G"}
# A model has to have a column.
NOTHING = "nothing"


def number(value: float) -> str:
    """The shortest text that reads back as the same float."""
    return re.sub(r"\.0$", "", repr(float(value)))


def signed(value: float) -> str:
    """The same, with its sign before it."""
    text = number(value)
    return text if text.startswith("-") else "+" + text


def write_lp(model: Model, path: str, remarks: Sequence[str] = (), linear: bool = False) -> None:
    """Writes the LP format. All columns stand in the objective, so a reader comes to them in this order."""
    with open(path, "w", encoding="ascii", buffering=1 << 20) as out:

        def line_up(terms: Sequence[Term]) -> None:
            for at in range(0, len(terms), TERMS_PER_LINE):
                part = terms[at:at + TERMS_PER_LINE]
                out.write(" " + " ".join(f"{signed(factor)} {model.columns[it]}" for it, factor in part) + "\n")

        out.writelines(f"\\ {line}\n" for line in remarks)
        out.write("Minimize\n obj:\n")
        line_up(list(enumerate(model.costs)))
        if not model.columns:
            out.write(f" 0 {NOTHING}\n")
        out.write("Subject To\n")
        for name, terms, sense, right in model.rows:
            out.write(f" {name}:\n")
            line_up(terms)
            out.write(f" {sense} {number(right)}\n")
        if not model.rows:
            out.write(f" none: {NOTHING} >= 0\n")
        out.write("Bounds\n")
        for name, binary, free in zip(model.columns, model.binary, model.free):
            if free:
                out.write(f" {name} free\n")
            elif binary and linear:
                out.write(f" 0 <= {name} <= 1\n")
        if not linear and any(model.binary):
            out.write("Binaries\n")
            out.writelines(f" {name}\n" for name, is_one in zip(model.columns, model.binary) if is_one)
        out.write("End\n")


def write_mps(model: Model, path: str, remarks: Sequence[str] = ()) -> None:
    """Writes MPS in its free form, whose words are parted by blanks."""
    by_column: List[List[Tuple[str, float]]] = [[] for _ in model.columns]
    for name, terms, _, _ in model.rows:
        for column, factor in terms:
            by_column[column].append((name, factor))
    with open(path, "w", encoding="ascii", buffering=1 << 20) as out:
        out.writelines(f"* {line}\n" for line in remarks)
        out.write("NAME plan FREE\nROWS\n N obj\n")
        out.writelines(f" {SENSES[sense]} {name}\n" for name, _, sense, _ in model.rows)
        out.write("COLUMNS\n")
        is_whole = False
        for column, name in enumerate(model.columns):
            if model.binary[column] != is_whole:
                is_whole = model.binary[column]
                out.write(f" MARKER{column} 'MARKER' '{'INTORG' if is_whole else 'INTEND'}'\n")
            out.write(f" {name} obj {number(model.costs[column])}\n")
            out.writelines(f" {name} {row} {number(factor)}\n" for row, factor in by_column[column])
        if is_whole:
            out.write(" MARKER 'MARKER' 'INTEND'\n")
        if not model.columns:
            out.write(f" {NOTHING} obj 0\n")
        out.write("RHS\n")
        out.writelines(f" RHS {name} {number(right)}\n" for name, _, _, right in model.rows if right)
        out.write("BOUNDS\n")
        for name, binary, free in zip(model.columns, model.binary, model.free):
            if binary:
                out.write(f" BV BND {name}\n")
            elif free:
                out.write(f" FR BND {name}\n")
        out.write("ENDATA\n")
