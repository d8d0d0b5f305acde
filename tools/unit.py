"""The C that scr emit writes, as tools read it: its objects, its setters, the cell of each `if`.

- Emitted: text, initial (the number of each v_X at the start), inputs (the variables with a set_X).
- Branch: line (of the text that was read), table, row, column, cell. The function `step` has an
  `if` for each cell, table after table, and in a table row by row.
- Unfit is raised where a text is not the C of a document, NotEmitted where scr emit writes none.
"""
from __future__ import annotations

import re
from typing import Iterator, List, NamedTuple, Tuple

import program
from language import Cell, Document, Table
from layout import file_with

OBJECT = re.compile(r"^long v_(\w+) = (-?\d+)L;$", re.MULTILINE)
SETTER = re.compile(r"^void set_(\w+)\(long a\) \{$", re.MULTILINE)
ASSIGNED = re.compile(r"\s*v_(\w+) = ")


class Unfit(Exception):
    """A text is not the C of a document; the one argument says why."""


class NotEmitted(Exception):
    """The specification has no C: the status and the lines of scr emit."""


class Branch(NamedTuple):
    """An `if` of a text of C, by its line, and the cell that it is of."""

    line: int
    table: Table
    row: int
    column: int
    cell: Cell

    @property
    def lines(self) -> List[int]:
        """The lines of the specification that have the cell."""
        return [it.line for it in self.cell.places]


class Emitted:
    """What scr emit wrote."""

    def __init__(self, text: str) -> None:
        self.text = text
        self.initial = {name: int(number) for name, number in OBJECT.findall(text)}
        self.inputs: List[str] = SETTER.findall(text)


def emit(text: str) -> Emitted:
    """What scr emit writes of a specification; where it writes no C, NotEmitted is raised."""
    with file_with(text) as path:
        answer = program.run("emit", path)
    if answer.status != program.DONE:
        raise NotEmitted(answer.status, answer.lines)
    return Emitted("".join(f"{it}\n" for it in answer.lines))


def cells(table: Table) -> Iterator[Tuple[int, int, Cell]]:
    """The cells of a table with their rows and columns, which count from 1."""
    for row, it in enumerate(table.rows, 1):
        for column, cell in enumerate(it.cells, 1):
            yield row, column, cell


def assignments(text: str) -> Iterator[Tuple[int, str]]:
    """The line of each `if` in the function `step`, and the variable that its block assigns."""
    lines = text.split("\n")
    try:
        first = lines.index("void step(void) {")
        last = lines.index("}", first)
    except ValueError:
        raise Unfit("it has no function step") from None
    for at in range(first, last):
        if lines[at].lstrip().startswith("if ("):
            found = ASSIGNED.match(lines[at + 1])
            if not found:
                raise Unfit(f"the if of line {at + 1} assigns no variable")
            yield at + 1, found[1]


def branches(document: Document, text: str) -> List[Branch]:
    """The branches of a text of C in their order."""
    left = {name: cells(table) for name, table in document.table_of.items()}
    found: List[Branch] = []
    for line, name in assignments(text):
        cell = next(left.get(name, iter(())), None)
        if cell is None:
            raise Unfit(f"the if of line {line} has no cell in a table of {name}")
        found.append(Branch(line, document.table_of[name], *cell))
    for name, more in left.items():
        if next(more, None):
            raise Unfit(f"a cell of the table of {name} has no if")
    return found


__all__ = ["Branch", "Emitted", "NotEmitted", "Unfit", "branches", "cells", "emit"]
