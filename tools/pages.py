"""The parts that the page for a review and the panel share: texts, comments and tables of a specification, in HTML.

All that comes from a text goes through escaped(). Each cell has the attribute data-place, its row and column as scr
counts them.
"""
from __future__ import annotations

import html
import os
import re
from typing import Callable, Iterable, List, Optional, Tuple

from language import Cell, Declaration, Document, Piece, Row, Table, printable
from requirements import requirements_in

FOLDER = os.path.join(os.path.dirname(os.path.abspath(__file__)), "page")
MANY = 5  # with more columns a printed table may break words
KINDS = {"CONDITION": "condition", "EVENT": "event", "MODES": "mode"}


def escaped(text: str) -> str:
    """A text as HTML shows it, also in an attribute: control characters are written out, blanks are single."""
    return html.escape(printable(re.sub(r"[ \t]+", " ", text)))


def file_of(name: str) -> str:
    """A file of the folder page."""
    with open(os.path.join(FOLDER, name), encoding="utf-8") as text:
        return text.read()


def words_of(comment: Optional[Piece]) -> str:
    """What a comment says, without its sign."""
    return comment.text.lstrip("#").strip() if comment else ""


def comment_above(document: Document, line: int) -> str:
    """The lines of comment directly above a line."""
    found: List[str] = []
    above = line - 1
    while above > 0 and not document.lines[above - 1].tokens and document.lines[above - 1].comment:
        found.insert(0, words_of(document.lines[above - 1].comment))
        above -= 1
    return " ".join(found)


def comment_at(document: Document, line: int) -> str:
    """The comment at the end of a line."""
    return words_of(document.lines[line - 1].comment)


def range_or_values(document: Document, variable: Declaration) -> str:
    """What values a variable has, in words of the language."""
    span = document.range_of(variable.name.text)
    if span:
        return f"{span[0]} .. {span[1]}"
    return ", ".join(document.members_of(variable.name.text))


def type_of(variable: Declaration) -> str:
    """The name of a variable's type; a mode class is its own."""
    return variable.type_name.text if variable.type_name else "mode class"


Mark = Callable[[int, int], Tuple[str, str]]  # of a row and a column: a class of the cell, and words in it


def no_mark(row: int, column: int) -> Tuple[str, str]:
    """Marks no cell."""
    return "", ""


class TablePage:
    """A table as HTML, with numbered rows and columns, marks, and notes where a row has a comment."""

    def __init__(self, document: Document, table: Table, mark: Mark = no_mark) -> None:
        self.document, self.table, self.mark = document, table, mark
        self.has_notes = any(self._notes(row.line) for row in table.rows) or any(
            self._notes(place.line) for row in table.rows for cell in row.cells for place in cell.places
        )

    def html(self) -> str:
        """The table."""
        rows = self._mode_rows() if self.table.kind == "MODES" else self._rows()
        name = escaped(self.table.name.text)
        many = " many" if max([len(row.cells) for row in self.table.rows] or [0]) > MANY and self.table.kind != "MODES" else ""
        caption = f"{KINDS[self.table.kind].capitalize()} table of {name}, line {self.table.line}"
        return (
            f'<div class="scroll" role="region" tabindex="0" aria-label="table of {name}">'
            f'<table class="cells{many}" data-table="{name}"><caption>{caption}</caption>{"".join(rows)}</table></div>'
        )

    def _notes(self, line: int) -> str:
        comment = self.document.lines[line - 1].comment
        text = escaped(words_of(comment))
        for name in requirements_in(comment):
            text = text.replace(name, f"<b>{name}</b>")
        return text

    def _note_cell(self, lines: Iterable[int], span: int = 1) -> str:
        if not self.has_notes:
            return ""
        notes = [it for it in map(self._notes, dict.fromkeys(lines)) if it]
        return f'<td class="note" rowspan="{span}">{"<br>".join(notes)}</td>'

    def _cell(self, row: int, column: int, cell: Cell) -> str:
        mark, words = self.mark(row, column)
        kind = f' class="{mark}"' if mark else ""
        said = f' <span class="said">{escaped(words)}</span>' if words else ""
        return f'<td{kind} data-place="{row}.{column}"><code>{escaped(cell.text)}</code>{said}</td>'

    def _rows(self) -> Iterable[str]:
        table = self.table
        width = max([len(row.cells) for row in table.rows] + [len(table.values)])
        over = f'<th scope="col">{escaped(table.over.text)}</th>' if table.over else ""
        columns = "".join(f'<th scope="col">{k}</th>' for k in range(1, width + 1))
        note = '<th scope="col">notes</th>' if self.has_notes else ""
        yield f'<thead><tr><th scope="col">row</th>{over}{columns}{note}</tr></thead><tbody>'
        for number, row in enumerate(table.rows, 1):
            yield self._row(number, row)
        first = f'<th scope="row" colspan="{2 if table.over else 1}">{escaped(table.name.text)} =</th>'
        values = "".join(f"<td><code>{escaped(it.text)}</code></td>" for it in table.values)
        last = "<td></td>" if self.has_notes else ""
        yield f'</tbody><tfoot><tr class="values">{first}{values}{last}</tr></tfoot>'

    def _row(self, number: int, row: Row) -> str:
        modes = f'<th scope="row">{escaped(", ".join(it.text for it in row.modes))}</th>' if self.table.over else ""
        cells = "".join(self._cell(number, column, it) for column, it in enumerate(row.cells, 1))
        return (
            f'<tr data-row="{number}"><th scope="row" class="number">{number}</th>{modes}{cells}'
            f"{self._note_cell([row.line])}</tr>"
        )

    def _mode_rows(self) -> Iterable[str]:
        note = '<th scope="col">notes</th>' if self.has_notes else ""
        heads = "".join(f'<th scope="col">{it}</th>' for it in ("row", "from", "column", "event", "to"))
        yield f"<thead><tr>{heads}{note}</tr></thead><tbody>"
        for number, row in enumerate(self.table.rows, 1):
            span = f' rowspan="{len(row.cells)}"'
            first = (
                f'<th scope="rowgroup" class="number"{span}>{number}</th>'
                f'<th scope="rowgroup"{span}>{escaped(row.modes[0].text)}</th>'
            )
            for column, cell in enumerate(row.cells, 1):
                target = escaped(cell.target.text if cell.target else "")
                yield (
                    f'<tr data-row="{number}">{first if column == 1 else ""}<td class="number">{column}</td>'
                    f"{self._cell(number, column, cell)}<td><code>{target}</code></td>"
                    f"{self._note_cell(it.line for it in cell.places)}</tr>"
                )
        yield "</tbody>"
