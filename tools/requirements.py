"""The requirements that a text names: a row or a FROM line may end with a comment as "# REQ-12 REQ-13".

- requirements_in(comment) gives the names in a comment, each once.
- traces(document) gives for each requirement its cells, as table, row, column and line.
"""
from __future__ import annotations

import re
from typing import Dict, List, NamedTuple, Optional

from language import Document, Piece

REQUIREMENT = re.compile(r"\bREQ-[A-Za-z0-9]+(?:[-_.][A-Za-z0-9]+)*")


class Trace(NamedTuple):
    """A cell that a requirement led to."""

    table: str
    row: int
    column: int
    line: int


def requirements_in(comment: Optional[Piece]) -> List[str]:
    """The requirements that a comment names, in its order."""
    return list(dict.fromkeys(REQUIREMENT.findall(comment.text))) if comment else []


def traces(document: Document) -> Dict[str, List[Trace]]:
    """The cells of each requirement, in order of the text: of a row all its cells, of a FROM line its one."""
    found: Dict[str, List[Trace]] = {}
    for table in document.tables:
        for row_number, row in enumerate(table.rows, 1):
            for column, cell in enumerate(row.cells, 1):
                for place in cell.places:
                    for name in requirements_in(document.lines[place.line - 1].comment):
                        found.setdefault(name, []).append(Trace(table.name.text, row_number, column, place.line))
    return found
