"""The language of specifications, as all tools read it: lines and tokens with their places, declarations and tables.

Any text is read, right or wrong, and nothing here raises: what has no form is left out, and stands in Document.stray.
scr check tells what is wrong with a text, and rules.py where and why.

- Piece: a part of a line with its place: text, line, column, kind. Lines and columns count from 1, a column is a
  character, and a tab is one. end is the column behind it.
- Line: number, text (without its end), code (what stands before a comment), comment (a Piece or None), tokens (a list of
  Pieces, found when they are first asked for). The kinds of tokens are name, primed, number, keyword, sign, and bad.
- Declaration: kind (type, enumerator, constant, monitored, mode class, mode, term, controlled), name, and what there is of
  type_name, init, low and high (integers of a range), value (of a constant), members (enumerators or modes), owner (of a
  member: the name of its type or class), step (of NAT). All parts are Pieces, low, high, value and owner apart.
- Table: kind (CONDITION, EVENT, MODES), name, over, rows, values, line, values_line, end_line.
  Row: modes, cells, line. Cell: text, places (Pieces; several where lines of a mode table are one cell), target.
  In a mode table each source has a row and each of its targets a cell, in order of first appearance, as in scr check.
- Document: lines, title, declarations, tables, stray; names (the declaration of each name), table_of (the first table of
  each name); variables(), size_of(variable), members_of(name), token_at(line, column), uses(name).
- Assertion: name, condition, line, by assertions(lines).
- document_of(text) reads a text, text_of(path) a file ("-" is standard input), printable(text) is for terminals.
"""
from __future__ import annotations

import re
import signal
import sys
from typing import Dict, Iterable, List, NamedTuple, Optional, Tuple

from program import printable, stop

# Comments may hold any bytes. So none is changed, and only a line feed ends a line.
ANY_BYTES = {"encoding": "utf-8", "errors": "surrogateescape", "newline": "\n"}

RESERVED = frozenset(
    "SPECIFICATION TYPE CONST MONITORED MODECLASS TERM CONTROLLED INIT CONDITION EVENT MODES OVER ROW VALUES FROM TO "
    "END FINISH AND OR NOT TRUE FALSE WHEN NEVER BOOLEAN NAT STEP ASSERT".split()
)
TOKEN = re.compile(
    r"(?P<primed>[A-Za-z][A-Za-z0-9_]*')|(?P<name>[A-Za-z][A-Za-z0-9_]*)|(?P<number>[0-9]+)"
    r"|(?P<sign>@[TFC](?![A-Za-z0-9_])|\.\.|!=|<=|>=|[(){},:|=<>+*-])|(?P<bad>@[A-Za-z0-9_]*|[^ \t])",
    re.DOTALL,
)
BLANKS = " \t"


class Piece(NamedTuple):
    """A part of a line with its place: a token, a name, a cell, a value, or a comment."""

    text: str
    line: int
    column: int
    kind: str = ""

    @property
    def end(self) -> int:
        """The column behind it."""
        return self.column + len(self.text)


class Line:
    """A line of a text, with its comment apart."""

    __slots__ = ("number", "text", "code", "_tokens")

    def __init__(self, number: int, text: str) -> None:
        self.number, self.text = number, text
        self.code = text.split("#", 1)[0]
        self._tokens: Optional[List[Piece]] = None

    @property
    def comment(self) -> Optional[Piece]:
        """The comment from its # on."""
        at = len(self.code)
        return Piece(self.text[at:], self.number, at + 1, "comment") if at < len(self.text) else None

    @property
    def tokens(self) -> List[Piece]:
        """The tokens from the left, the longest first, and what is none as bad."""
        if self._tokens is None:
            self._tokens = [self._token(it) for it in TOKEN.finditer(self.code)]
        return self._tokens

    def _token(self, found: "re.Match[str]") -> Piece:
        kind = str(found.lastgroup)
        if kind == "name" and found[0] in RESERVED:
            kind = "keyword"
        elif kind == "primed" and found[0][:-1] in RESERVED:
            kind = "bad"
        return Piece(found[0], self.number, found.start() + 1, kind)


class Declaration:
    """What a name is declared as; of a member, an enumerator or a mode, the owner is its type or its class."""

    def __init__(self, kind: str, name: Piece) -> None:
        self.kind, self.name = kind, name
        self.type_name: Optional[Piece] = None
        self.init: Optional[Piece] = None
        self.low: Optional[int] = None
        self.high: Optional[int] = None
        self.value: Optional[int] = None
        self.members: List[Piece] = []
        self.owner: Optional[str] = None
        self.step: Optional[Piece] = None

    @property
    def line(self) -> int:
        """The line that declares it."""
        return self.name.line

    @property
    def is_variable(self) -> bool:
        """Whether it is a variable; a mode class is one."""
        return self.kind in ("monitored", "mode class", "term", "controlled")


class Cell:
    """A cell, or the events of a mode table from one source to one target, which may stand on several lines."""

    __slots__ = ("places", "target")

    def __init__(self, place: Piece, target: Optional[Piece] = None) -> None:
        self.places, self.target = [place], target

    @property
    def text(self) -> str:
        """The condition or event; several are joined by OR."""
        return " OR ".join(it.text for it in self.places)

    @property
    def line(self) -> int:
        """The first line that has it."""
        return self.places[0].line

    @property
    def column(self) -> int:
        """Where it begins there."""
        return self.places[0].column


class Row:
    """A row with its modes, of which a table without a class has none and a mode table one, and its cells."""

    __slots__ = ("line", "modes", "cells")

    def __init__(self, line: int, modes: List[Piece], cells: List[Cell]) -> None:
        self.line, self.modes, self.cells = line, modes, cells


class Table:
    """A table from its head to its END, if it has one."""

    def __init__(self, kind: str, name: Piece, over: Optional[Piece]) -> None:
        self.kind, self.name, self.over = kind, name, over
        self.line = name.line
        self.rows: List[Row] = []
        self.values: List[Piece] = []
        self.values_line: Optional[int] = None
        self.end_line: Optional[int] = None
        self._sources: Dict[str, Row] = {}
        self._changes: Dict[Tuple[str, str], Cell] = {}

    def add_change(self, source: Piece, target: Piece, event: Piece) -> None:
        """Adds a line of a mode table. Lines with the same source and target are one cell."""
        row = self._sources.get(source.text)
        if row is None:
            row = self._sources[source.text] = Row(source.line, [source], [])
            self.rows.append(row)
        cell = self._changes.get((source.text, target.text))
        if cell is None:
            cell = self._changes[source.text, target.text] = Cell(event, target)
            row.cells.append(cell)
        else:
            cell.places.append(event)

    def cell(self, row: int, column: int) -> Optional[Cell]:
        """The cell at a place that scr check tells, counted from 1, or None."""
        if 1 <= row <= len(self.rows) and 1 <= column <= len(self.rows[row - 1].cells):
            return self.rows[row - 1].cells[column - 1]
        return None


class Assertion(NamedTuple):
    """A line ASSERT name : condition."""

    name: Piece
    condition: Piece
    line: int


NAME = r"([A-Za-z][A-Za-z0-9_]*)"
INTEGER = r"(-?[ \t]*[0-9]+)"
KEYWORD = re.compile(r"[ \t]*([A-Z]+)(?![A-Za-z0-9_'])")
TITLE = re.compile(rf"[ \t]*SPECIFICATION[ \t]+{NAME}")
RANGE = re.compile(rf"[ \t]*TYPE[ \t]+{NAME}[ \t]*=[ \t]*{INTEGER}[ \t]*\.\.[ \t]*{INTEGER}")
LIST = re.compile(rf"[ \t]*(?:TYPE|MODECLASS)[ \t]+{NAME}[ \t]*=[ \t]*\{{([^}}]*)\}}?(?:[ \t]*INIT[ \t]+{NAME})?")
CONSTANT = re.compile(rf"[ \t]*CONST[ \t]+{NAME}[ \t]*=[ \t]*{INTEGER}")
VARIABLE = re.compile(
    rf"[ \t]*(?:MONITORED|TERM|CONTROLLED)[ \t]+{NAME}[ \t]*:[ \t]*{NAME}(?:[ \t]+INIT\b[ \t]*(-[ \t]*[0-9]+|[^ \t]+))?"
)
BOUND = re.compile(rf"[ \t]*NAT[ \t]+{NAME}[ \t]+STEP[ \t]+([0-9]+)")
HEAD = re.compile(rf"[ \t]*(CONDITION|EVENT|MODES)[ \t]+{NAME}(?:[ \t]+OVER[ \t]+{NAME})?")
ROW = re.compile(r"[ \t]*ROW([^:]*):(.*)", re.DOTALL)
CHANGE = re.compile(rf"[ \t]*FROM[ \t]+{NAME}[ \t]+TO[ \t]+{NAME}[ \t]*:(.*)", re.DOTALL)
VALUES = re.compile(r"[ \t]*VALUES(.*)", re.DOTALL)
ASSERTION = re.compile(rf"[ \t]*ASSERT[ \t]+{NAME}[ \t]*:(.*)", re.DOTALL)
MEMBER = re.compile(NAME)


def part(line: Line, found: "re.Match[str]", group: int) -> Piece:
    """What a group of a pattern took, without blanks around it."""
    text = found[group]
    front = len(text) - len(text.lstrip(BLANKS))
    return Piece(text.strip(BLANKS), line.number, found.start(group) + front + 1)


def parts(line: Line, found: "re.Match[str]", group: int) -> List[Piece]:
    """What a group took, cut at bars; an empty cell is a Piece without text."""
    pieces, at = [], found.start(group)
    for text in found[group].split("|"):
        front = len(text) - len(text.lstrip(BLANKS)) if text.strip(BLANKS) else 0
        pieces.append(Piece(text.strip(BLANKS), line.number, at + front + 1))
        at += len(text) + 1
    return pieces


def members(line: Line, found: "re.Match[str]", group: int) -> List[Piece]:
    """The names in a list."""
    return [
        Piece(it[0], line.number, it.start() + 1)
        for it in MEMBER.finditer(line.code, found.start(group), found.end(group))
    ]


def integer(text: str) -> Optional[int]:
    """The integer of a text as -5, or None where it is none or longer than any that is allowed."""
    digits = text.replace(" ", "").replace("\t", "")
    return int(digits) if re.fullmatch(r"-?0*[0-9]{1,18}", digits) else None


class Document:
    """A text with what it declares and its tables."""

    def __init__(self, lines: List[Line]) -> None:
        self.lines = lines
        self.title: Optional[Piece] = None
        self.declarations: List[Declaration] = []
        self.names: Dict[str, Declaration] = {}
        self.tables: List[Table] = []
        self.table_of: Dict[str, Table] = {}
        self.stray: List[Line] = []
        self._open: Optional[Table] = None
        for line in lines:
            keyword = KEYWORD.match(line.code)
            reader = READERS.get(keyword[1]) if keyword else None
            if not (reader(self, line) if reader else not line.code.strip(BLANKS)):
                self.stray.append(line)

    def variables(self) -> List[Declaration]:
        """The variables in order of declaration, mode classes included."""
        return [it for it in self.declarations if it.is_variable]

    def members_of(self, name: str) -> List[str]:
        """The values of a type of names, or the modes of a class, by the name of it or of a variable; else none."""
        found = self.names.get(name)
        if found and found.type_name:
            if found.type_name.text == "BOOLEAN":
                return ["FALSE", "TRUE"]
            found = self.names.get(found.type_name.text)
        return [it.text for it in found.members] if found else []

    def range_of(self, name: str) -> Optional[Tuple[int, int]]:
        """The least and the greatest value of a range type, or of a variable of one."""
        found = self.names.get(name)
        if found and found.type_name:
            found = self.names.get(found.type_name.text)
        return (found.low, found.high) if found and found.low is not None and found.high is not None else None

    def size_of(self, variable: str) -> int:
        """How many values a variable has, or 0 where its type is not known."""
        span = self.range_of(variable)
        return max(0, span[1] - span[0] + 1) if span else len(self.members_of(variable))

    def token_at(self, line: int, column: int) -> Optional[Piece]:
        """The token that has this place, or ends at it."""
        if not 1 <= line <= len(self.lines):
            return None
        near = [it for it in self.lines[line - 1].tokens if it.column <= column <= it.end]
        return next((it for it in near if it.kind in ("name", "primed")), near[0] if near else None)

    def uses(self, name: str) -> List[Piece]:
        """All tokens that are this name, primed or not."""
        return [
            it
            for line in self.lines
            if name in line.code
            for it in line.tokens
            if it.kind in ("name", "primed") and it.text.rstrip("'") == name
        ]

    def _declare(self, declaration: Declaration) -> None:
        self.declarations.append(declaration)
        self.names.setdefault(declaration.name.text, declaration)

    def _read_title(self, line: Line) -> bool:
        found = TITLE.match(line.code)
        if found and self.title is None:
            self.title = part(line, found, 1)
        return found is not None

    def _read_type(self, line: Line) -> bool:
        span = RANGE.match(line.code)
        if not span:
            return self._read_list(line)
        declared = Declaration("type", part(line, span, 1))
        declared.low, declared.high = integer(span[2]), integer(span[3])
        self._declare(declared)
        return True

    def _read_list(self, line: Line) -> bool:
        found = LIST.match(line.code)
        if not found:
            return False
        is_type = line.code.lstrip(BLANKS).startswith("TYPE")
        declared = Declaration("type" if is_type else "mode class", part(line, found, 1))
        declared.members = members(line, found, 2)
        declared.init = part(line, found, 3) if found[3] else None
        self._declare(declared)
        for name in declared.members:
            member = Declaration("enumerator" if is_type else "mode", name)
            member.owner = declared.name.text
            self._declare(member)
        return True

    def _read_constant(self, line: Line) -> bool:
        found = CONSTANT.match(line.code)
        if found:
            declared = Declaration("constant", part(line, found, 1))
            declared.value = integer(found[2])
            self._declare(declared)
        return found is not None

    def _read_variable(self, line: Line) -> bool:
        found = VARIABLE.match(line.code)
        if found:
            declared = Declaration(line.code.split(None, 1)[0].lower(), part(line, found, 1))
            declared.type_name = part(line, found, 2)
            declared.init = part(line, found, 3) if found[3] else None
            self._declare(declared)
        return found is not None

    def _read_bound(self, line: Line) -> bool:
        found = BOUND.match(line.code)
        declared = self.names.get(found[1]) if found else None
        if found and declared:
            declared.step = part(line, found, 2)
        return found is not None

    def _read_head(self, line: Line) -> bool:
        found = HEAD.match(line.code)
        if found:
            self._open = Table(found[1], part(line, found, 2), part(line, found, 3) if found[3] else None)
            self.tables.append(self._open)
            self.table_of.setdefault(found[2], self._open)
        return found is not None

    def _read_row(self, line: Line) -> bool:
        found = ROW.match(line.code)
        if not found or self._open is None or self._open.kind == "MODES":
            return False
        cells = [Cell(it) for it in parts(line, found, 2)]
        self._open.rows.append(Row(line.number, members(line, found, 1), cells))
        return True

    def _read_change(self, line: Line) -> bool:
        found = CHANGE.match(line.code)
        if not found or self._open is None or self._open.kind != "MODES":
            return False
        self._open.add_change(part(line, found, 1), part(line, found, 2), part(line, found, 3))
        return True

    def _read_values(self, line: Line) -> bool:
        found = VALUES.match(line.code)
        if not found or self._open is None or self._open.kind == "MODES":
            return False
        self._open.values, self._open.values_line = parts(line, found, 1), line.number
        return True

    def _read_end(self, line: Line) -> bool:
        if self._open is None:
            return False
        self._open.end_line, self._open = line.number, None
        return True

    def _read_finish(self, line: Line) -> bool:
        self._open = None
        return not line.code.strip(BLANKS)[len("FINISH") :]


READERS = {
    "SPECIFICATION": Document._read_title,
    "TYPE": Document._read_type,
    "CONST": Document._read_constant,
    "MONITORED": Document._read_variable,
    "TERM": Document._read_variable,
    "CONTROLLED": Document._read_variable,
    "MODECLASS": Document._read_list,
    "NAT": Document._read_bound,
    "CONDITION": Document._read_head,
    "EVENT": Document._read_head,
    "MODES": Document._read_head,
    "ROW": Document._read_row,
    "FROM": Document._read_change,
    "VALUES": Document._read_values,
    "END": Document._read_end,
    "FINISH": Document._read_finish,
}


def lines_of(text: str) -> List[Line]:
    """The lines of a text: a return before a line feed, or at the end, belongs to the line's end."""
    pieces = text.split("\n")
    if not pieces[-1]:
        pieces.pop()
    return [Line(k, it[:-1] if it.endswith("\r") else it) for k, it in enumerate(pieces, 1)]


def document_of(text: str) -> Document:
    """Reads a text, right or wrong."""
    return Document(lines_of(text))


def assertions(lines: Iterable[Line]) -> List[Assertion]:
    """The assertions of the second file of scr assert."""
    found = ((line, ASSERTION.match(line.code)) for line in lines)
    return [Assertion(part(line, it, 1), part(line, it, 2), line.number) for line, it in found if it]


def text_of(path: str) -> str:
    """The text of a file, or of standard input for -; a file that cannot be read ends the tool with status 5."""
    if path == "-":
        sys.stdin.reconfigure(**ANY_BYTES)
        return sys.stdin.read()
    try:
        with open(path, **ANY_BYTES) as text:
            return text.read()
    except (OSError, ValueError) as fault:  # ValueError: a zero byte in the name
        stop(f"{path}: cannot be read: {getattr(fault, 'strerror', None) or fault}", 5)


def be_filter() -> None:
    """Lets standard output take what text_of reads, and ends the tool quietly where nobody reads on."""
    sys.stdout.reconfigure(**ANY_BYTES)
    signal.signal(signal.SIGPIPE, signal.SIG_DFL)


__all__ = [
    "Assertion", "Cell", "Declaration", "Document", "Line", "Piece", "Row", "Table", "RESERVED",
    "assertions", "be_filter", "document_of", "integer", "lines_of", "printable", "text_of",
]
