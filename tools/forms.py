"""The forms of lines: what a line says in its place, or the piece at which no form goes on and what was expected there.

statement_of(line, place, table) reads a line; Statement has what rules.py asks for. Conditions are kept as the
comparisons that they are made of, since no rule asks how these are joined. The grammar is that of docs/LANGUAGE.md."""
from __future__ import annotations

from typing import List, NamedTuple, Optional

from language import Line, Piece

DECLARE = ("TYPE", "CONST", "MONITORED", "NAT", "MODECLASS", "TERM", "CONTROLLED")
HEADS = ("CONDITION", "EVENT", "MODES")

# The words that may begin a line in each place, and the place behind it where that is another one.
PLACES = {
    "start": ("SPECIFICATION",),
    "declarations": DECLARE + HEADS + ("FINISH",),
    "first row": ("ROW",),
    "rows": ("ROW", "VALUES"),
    "transitions": ("FROM", "END"),
    "rows behind values": ("ROW", "VALUES", "END"),
    "closed": ("END",),
    "tables": HEADS + ("FINISH",),
    "after": (),
}
NEXT = {
    "SPECIFICATION": "declarations", "CONDITION": "first row", "EVENT": "first row", "MODES": "transitions",
    "ROW": "rows", "VALUES": "closed", "END": "tables", "FINISH": "after",
}
RELATIONS = ("=", "!=", "<", "<=", ">", ">=")


class NoForm(Exception):
    """No form goes on at a piece; at the end of a line this is an empty piece behind its last token."""

    def __init__(self, piece: Piece, expected: List[str]) -> None:
        super().__init__(piece, expected)
        self.piece, self.expected = piece, expected


class Item(NamedTuple):
    """A factor, and a name or TRUE or FALSE or nothing; factor_piece is the number that is written."""

    factor: int
    operand: Optional[Piece]
    factor_piece: Optional[Piece]


class Side(NamedTuple):
    """A sum of items."""

    items: List[Item]
    piece: Piece


class Comparison(NamedTuple):
    """Two sides in a relation, or one side alone."""

    left: Side
    relation: Optional[Piece]
    right: Optional[Side]

    @property
    def sides(self) -> List[Side]:
        """Its one side or its two."""
        return [self.left] if self.right is None else [self.left, self.right]


class Cell(NamedTuple):
    """The comparisons of a condition or an event, the names behind @C, and where it stands."""

    comparisons: List[Comparison]
    changed: List[Piece]
    piece: Piece


class Statement:
    """A line that has a form: its keyword, and of the rest what this keyword has."""

    def __init__(self, keyword: Piece) -> None:
        self.keyword = keyword
        self.name: Optional[Piece] = None
        self.type_name: Optional[Piece] = None
        self.over: Optional[Piece] = None
        self.target: Optional[Piece] = None  # the name is the source
        self.members: List[Piece] = []  # of a list; the modes of a ROW
        self.low: Optional[Piece] = None
        self.high: Optional[Piece] = None
        self.init: Optional[Piece] = None
        self.number: Optional[Piece] = None  # of CONST and of STEP
        self.cells: List[Cell] = []
        self.values: List[Side] = []

    @property
    def line(self) -> int:
        """Its number."""
        return self.keyword.line

    def sides(self) -> List[Side]:
        """All sides, in the order of the line."""
        return [side for cell in self.cells for it in cell.comparisons for side in it.sides] + self.values


def number_of(piece: Piece) -> int:
    """The integer of a piece as -5; a very long one is above every limit."""
    digits = piece.text.replace(" ", "").replace("\t", "").lstrip("-").lstrip("0") or "0"
    size = int(digits) if len(digits) < 19 else 10**18
    return -size if piece.text.startswith("-") else size


def joined(line: Line, first: Piece, last: Piece) -> Piece:
    """What stands from one piece to another."""
    return Piece(line.code[first.column - 1 : last.end - 1], line.number, first.column)


class Reader:
    """Goes through the tokens of a line, and notes what would have done at each."""

    def __init__(self, line: Line) -> None:
        self.line, self.at, self.expected = line, 0, []  # type: Line, int, List[str]
        tokens = line.tokens
        end = tokens[-1].end if tokens else 1
        self.tokens = tokens + [Piece("", line.number, end, "end")]

    @property
    def token(self) -> Piece:
        return self.tokens[self.at]

    @property
    def last(self) -> Piece:
        return self.tokens[self.at - 1]

    def fail(self) -> NoForm:
        return NoForm(self.token, list(dict.fromkeys(self.expected)))

    def go_on(self) -> Piece:
        self.at, self.expected = self.at + 1, []
        return self.last

    def has(self, *texts: str) -> Optional[Piece]:
        """Takes one of these signs or keywords, if it is next."""
        if self.token.text in texts and self.token.kind in ("sign", "keyword"):
            return self.go_on()
        self.expected += texts
        return None

    def has_kind(self, kind: str, told: str) -> Optional[Piece]:
        if self.token.kind == kind:
            return self.go_on()
        self.expected.append(told)
        return None

    def want(self, *texts: str) -> Piece:
        found = self.has(*texts)
        if found is None:
            raise self.fail()
        return found

    def name(self, told: str = "a name") -> Piece:
        found = self.has_kind("name", told)
        if found is None:
            raise self.fail()
        return found

    def number(self, told: str = "a number") -> Piece:
        found = self.has_kind("number", told)
        if found is None:
            raise self.fail()
        return found

    def end(self) -> None:
        if self.token.kind != "end":
            self.expected.append("the end of the line")
            raise self.fail()

    def integer(self) -> Piece:
        minus = self.has("-")
        number = self.number()
        return joined(self.line, minus, number) if minus else number

    def value(self, told: str) -> Piece:
        found = self.has("TRUE", "FALSE") or self.has_kind("name", told)
        return found or self.integer()

    def names(self) -> List[Piece]:
        found = [self.name()]
        while self.has(","):
            found.append(self.name())
        return found

    def item(self, sign: int, primes: bool) -> Item:
        number = self.has_kind("number", "a number")
        if number:
            factor = sign * number_of(number)
            return Item(factor, self.operand(primes) if self.has("*") else None, number)
        return Item(sign, self.has("TRUE", "FALSE") or self.operand(primes), None)

    def operand(self, primes: bool) -> Piece:
        return (self.has_kind("primed", "a primed name") if primes else None) or self.name()

    def side(self, primes: bool = False) -> Side:
        first = self.at
        items = [self.item(-1 if self.has("-") else 1, primes)]
        while True:
            sign = self.has("+", "-")
            if sign is None:
                return Side(items, joined(self.line, self.tokens[first], self.last))
            items.append(self.item(-1 if sign.text == "-" else 1, primes))

    def literal(self, found: Cell, primes: bool) -> None:
        while self.has("NOT"):
            pass
        if self.has("("):
            self.condition(found, primes)
            self.want(")")
            return
        left = self.side(primes)
        relation = self.has(*RELATIONS)
        found.comparisons.append(Comparison(left, relation, self.side(primes) if relation else None))

    def conjunction(self, found: Cell, primes: bool = False) -> None:
        self.literal(found, primes)
        while self.has("AND"):
            self.literal(found, primes)

    def condition(self, found: Cell, primes: bool = False) -> None:
        self.conjunction(found, primes)
        while self.has("OR"):
            self.conjunction(found, primes)

    def event(self, found: Cell) -> None:
        while True:
            self.primary(found)
            if not self.has("OR"):
                return

    def primary(self, found: Cell) -> None:
        if self.has("NEVER"):
            return
        change = self.want("@T", "@F", "@C")
        self.want("(")
        if change.text == "@C":
            found.changed.append(self.name("the name of a variable"))
        else:
            self.condition(found)
        self.want(")")
        if self.has("WHEN"):
            self.conjunction(found)

    def cell(self, has_events: bool) -> Cell:
        first = self.at
        found = Cell([], [], self.token)
        if has_events:
            self.event(found)
        else:
            self.condition(found)
        return found._replace(piece=joined(self.line, self.tokens[first], self.last))


def read_list(reader: Reader, statement: Statement) -> None:
    statement.members = reader.names()
    reader.want("}")


def read_type(reader: Reader, statement: Statement) -> None:
    statement.name = reader.name()
    reader.want("=")
    if reader.has("{"):
        read_list(reader, statement)
        return
    statement.low = reader.integer()
    reader.want("..")
    statement.high = reader.integer()


def read_constant(reader: Reader, statement: Statement) -> None:
    statement.name = reader.name()
    reader.want("=")
    statement.number = reader.integer()


def read_variable(reader: Reader, statement: Statement) -> None:
    statement.name = reader.name()
    reader.want(":")
    statement.type_name = reader.has("BOOLEAN") or reader.name("the name of a type")
    if statement.keyword.text == "MONITORED":
        reader.want("INIT")
    elif not reader.has("INIT"):
        return
    statement.init = reader.value("a value")


def read_bound(reader: Reader, statement: Statement) -> None:
    statement.name = reader.name("the name of a monitored variable")
    reader.want("STEP")
    statement.number = reader.number()


def read_class(reader: Reader, statement: Statement) -> None:
    statement.name = reader.name()
    reader.want("=")
    reader.want("{")
    read_list(reader, statement)
    reader.want("INIT")
    statement.init = reader.name("a mode")


def read_head(reader: Reader, statement: Statement) -> None:
    statement.name = reader.name("the name of a variable")
    if statement.keyword.text != "MODES" and reader.has("OVER"):
        statement.over = reader.name("the name of a mode class")


def read_row(reader: Reader, statement: Statement, has_events: bool) -> None:
    if not reader.has(":"):
        statement.members = [reader.name("a mode")]
        while reader.has(","):
            statement.members.append(reader.name("a mode"))
        reader.want(":")
    statement.cells.append(reader.cell(has_events))
    while reader.has("|"):
        statement.cells.append(reader.cell(has_events))


def read_values(reader: Reader, statement: Statement) -> None:
    statement.values.append(reader.side(primes=True))
    while reader.has("|"):
        statement.values.append(reader.side(primes=True))


def read_change(reader: Reader, statement: Statement) -> None:
    statement.name = reader.name("a mode")
    reader.want("TO")
    statement.target = reader.name("a mode")
    reader.want(":")
    statement.cells.append(reader.cell(True))


def read_name(reader: Reader, statement: Statement) -> None:
    statement.name = reader.name()


FORMS = {
    "SPECIFICATION": read_name, "TYPE": read_type, "CONST": read_constant, "MONITORED": read_variable,
    "TERM": read_variable, "CONTROLLED": read_variable, "NAT": read_bound, "MODECLASS": read_class,
    "CONDITION": read_head, "EVENT": read_head, "MODES": read_head, "VALUES": read_values, "FROM": read_change,
}


def statement_of(line: Line, place: str, has_events: bool) -> Statement:
    """Reads a line in its place, inside a table of events or of conditions; else raises NoForm."""
    reader = Reader(line)
    statement = Statement(reader.want(*PLACES[place]))
    keyword = statement.keyword.text
    if keyword == "ROW":
        read_row(reader, statement, has_events)
    elif keyword in FORMS:
        FORMS[keyword](reader, statement)
    reader.end()
    return statement


def assertion_of(line: Line) -> Statement:
    """Reads a line of the second file of scr assert; else raises NoForm."""
    reader = Reader(line)
    statement = Statement(reader.want("ASSERT"))
    statement.name = reader.name()
    reader.want(":")
    found = Cell([], [], reader.token)
    first = reader.at
    reader.condition(found, primes=True)
    statement.cells.append(found._replace(piece=joined(line, reader.tokens[first], reader.last)))
    reader.end()
    return statement
