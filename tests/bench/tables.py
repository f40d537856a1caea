"""The tables that benches print, in Markdown: what their figures are, and which differ from those of another run."""

import re
from typing import NamedTuple

# A figure that differs by less is the same.
NOTABLE = 0.03
FIGURE = re.compile(r"-?[\d,]+(\.\d+)?")


class Cell(NamedTuple):
    """Where a figure stands: the bench, the number of the table there, the row's name, the column's place and name."""

    bench: str
    table: int
    row: str
    place: int
    column: str


def cells_of(line):
    return [it.strip() for it in line.strip().strip("|").split("|")]


def is_rule(line):
    """Whether a line divides the heads of a table from its rows."""
    return line.startswith("|") and not line.strip().strip("|-: ")


def figures(bench, text):
    """The figures of all tables that a bench printed, by where they stand."""
    found, heads, table, before = {}, None, 0, ""
    for line in text.splitlines():
        if is_rule(line):
            heads, table = cells_of(before), table + 1
        elif not line.startswith("|"):
            heads = None
        elif heads:
            row, *columns = cells_of(line)
            for place, it in enumerate(columns, 1):
                if FIGURE.fullmatch(it):
                    found[Cell(bench, table, row, place, heads[place])] = float(it.replace(",", ""))
        before = line
    return found


def moved(last, now):
    """The figures that both runs have and that differ notably: where, what it was, what it is, and the ratio."""
    for cell, was in last.items():
        if was and cell in now and abs(now[cell] / was - 1) > NOTABLE:
            yield cell, was, now[cell], now[cell] / was
