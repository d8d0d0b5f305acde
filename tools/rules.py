"""The faults of a specification, all of them and each with its place: what cannot be read, and what breaks a rule.

faults_of(text) gives them in the order in which scr check would tell them, so the first is the one that it tells:
those of lines that cannot be read, and then those of names and types. Behind a line that cannot be read, the next one
that begins a form is read on, and what the line may have declared is not asked for: so a fault has no followers.
The rules are those of docs/LANGUAGE.md, and its examples are a test of this module."""
from __future__ import annotations

import difflib
import re
from typing import Dict, Iterator, List, NamedTuple, Optional, Set, Tuple

from forms import (
    DECLARE, HEADS, NEXT, PLACES, Cell, Comparison, Item, NoForm, Side, Statement, assertion_of, number_of, statement_of,
)
from language import RESERVED, Line, Piece, lines_of

MOST_BYTES, MOST_LINE = 1048576, 4096
MOST_NAME, MOST_NUMBER, MOST_OPEN, MOST_NOT, MOST_BARS = 24, 1000000, 64, 64, 15
MOST_ITEMS, MOST_FACTOR, MOST_NAMES, MOST_SPAN, MOST_BOUND = 8, 1000, 64, 8192, 2000000000
MOST_OF = {"TYPE": 64, "CONST": 256, "variable": 128, "ROW": 64, "FROM": 64, "ASSERT": 64}
FOREIGN = re.compile(r"[^\t -~]")
KEYWORDS = DECLARE + HEADS + ("SPECIFICATION", "ROW", "VALUES", "FROM", "END", "FINISH", "ASSERT")
SYNONYMS = {
    "INPUT": "MONITORED", "INPUTS": "MONITORED", "IN": "MONITORED", "VAR": "MONITORED", "MON": "MONITORED",
    "OUTPUT": "CONTROLLED", "OUTPUTS": "CONTROLLED", "OUT": "CONTROLLED", "CON": "CONTROLLED",
    "CONSTANT": "CONST", "ENUM": "TYPE", "MODE": "MODES", "MODECLASSES": "MODECLASS", "VALUE": "VALUES",
    "ENDING": "END", "ENDTABLE": "END", "SPEC": "SPECIFICATION", "MODULE": "SPECIFICATION", "TABLE": "CONDITION",
}
# The place behind VALUES that stand before their rows: the table goes on, and may end.
LOOSE = "rows behind values"


class Fault(NamedTuple):
    """A fault at a piece: its kind and name as scr check tells them, what is wrong, and what was expected there."""

    piece: Piece
    kind: str
    name: str
    told: str
    expected: Tuple[str, ...] = ()
    place: str = ""  # where in the text the line stands, for a line without a form

    @property
    def answer(self) -> str:
        """The line of scr check."""
        return f"line {self.piece.line}: {self.kind}" + (f" {self.name}" if self.name else "")


class Table:
    """What was read of a table: its head, rows and modes."""

    def __init__(self, head: Statement) -> None:
        self.head, self.rows, self.modes = head, [], {}  # type: Statement, List[Statement], Dict[str, Piece]
        self.is_told = False  # that its rows do not fit its class, which is told once
        self.is_whole = True  # that each mode of its rows is known


class Reading(NamedTuple):
    """The statements of a text that have a form, the faults of the lines that have none, the names in these, and the
    lines before those that begin with a bar."""

    statements: List[Statement]
    faults: List[Fault]
    lost: Set[str]
    continued: Set[int]


def size_of(text: str) -> int:
    """Its bytes, as the program counts them."""
    return len(text.encode("utf-8", "surrogateescape"))


def cut(line: Line, at: int) -> Piece:
    return Piece(line.text[at:], line.number, at + 1)


def lexical_fault(line: Line) -> Optional[Fault]:
    """Steps 1 to 5 of a line, in their order."""
    if len(line.text) > MOST_LINE // 4 and size_of(line.text) > MOST_LINE:
        return Fault(cut(line, 0), "limit", "", f"the line has more than {MOST_LINE:,} bytes")
    foreign = FOREIGN.search(line.code)
    if foreign:
        piece = Piece(foreign[0], line.number, foreign.start() + 1)
        return Fault(piece, "byte", "", f"the character U+{ord(piece.text):04X} may stand only in a comment")
    bad = next((it for it in line.tokens if it.kind == "bad"), None)
    if bad:
        return Fault(bad, "syntax", "", f"`{bad.text}` is no name, number or sign")
    return size_fault(line) or nesting_fault(line)


def size_fault(line: Line) -> Optional[Fault]:
    for token in line.tokens:
        if token.kind in ("name", "primed") and len(token.text.rstrip("'")) > MOST_NAME:
            told = f"the name has {len(token.text.rstrip(chr(39)))} characters, and {MOST_NAME} are allowed"
            return Fault(token, "limit", "", told)
        if token.kind == "number" and number_of(token) > MOST_NUMBER:
            return Fault(token, "limit", "", f"the number is above {MOST_NUMBER:,}")
    return None


def nesting_fault(line: Line) -> Optional[Fault]:
    opened = negated = bars = 0
    for token in line.tokens:
        if token.text == "(":
            opened += 1
        elif token.text == ")":
            opened = max(0, opened - 1)
        elif token.text == "NOT":
            negated += 1
        elif token.text == "|":
            bars, negated = bars + 1, 0
        for count, most, what in ((opened, MOST_OPEN, "open parentheses"), (negated, MOST_NOT, "NOT"), (bars, MOST_BARS, "bars")):
            if count > most:
                return Fault(token, "limit", "", f"there are more than {most} {what}")
    return None


def count_fault(statement: Statement, counts: Dict[str, int]) -> Optional[Fault]:
    """Step 7: sides, factors, lists, ranges, and counts of lines."""
    for side in statement.sides():
        if len(side.items) > MOST_ITEMS:
            return Fault(side.piece, "limit", "", f"the sum has {len(side.items)} items, and {MOST_ITEMS} are allowed")
        for item in side.items:
            if item.operand and item.factor_piece and abs(item.factor) > MOST_FACTOR:
                return Fault(item.factor_piece, "limit", "", f"the factor is above {MOST_FACTOR:,}")
    if len(statement.members) > MOST_NAMES:
        return Fault(statement.members[MOST_NAMES], "limit", "", f"the list has more than {MOST_NAMES} names")
    if statement.low and statement.high:
        span = number_of(statement.high) - number_of(statement.low) + 1
        if span > MOST_SPAN:
            return Fault(statement.low, "limit", "", f"the range has {span:,} values, and {MOST_SPAN:,} are allowed")
    what = statement.keyword.text
    if what in ("MONITORED", "MODECLASS", "TERM", "CONTROLLED"):
        what = "variable"
    counts[what] = counts.get(what, 0) + 1
    if counts[what] == MOST_OF.get(what, 0) + 1 and what in MOST_OF:  # told once
        of = "lines of a table" if what in ("ROW", "FROM") else "variables" if what == "variable" else f"{what} lines"
        return Fault(statement.keyword, "limit", "", f"there are more than {MOST_OF[what]} {of}")
    return None


def told_form(piece: Piece, place: str) -> str:
    """What is wrong where no form goes on."""
    if piece.kind == "end":
        return "the line ends too early"
    return f"no {piece.text} line can stand here" if place and piece.text in KEYWORDS else f"`{piece.text}` cannot stand here"


def first_word(line: Line) -> str:
    """The word that begins a line, or the one that is meant by it."""
    word = next((it.text for it in line.tokens if it.kind != "bad"), "")
    return word if word in KEYWORDS else meant_keyword(word)


def meant_keyword(word: str) -> str:
    """The keyword of a line that a word is like, or nothing."""
    upper = word.upper()
    if upper in KEYWORDS or upper in SYNONYMS:
        return SYNONYMS.get(upper, upper)
    near = difflib.get_close_matches(upper, KEYWORDS, 1, 0.7) if len(word) > 2 else []
    return near[0] if near else ""


def place_behind(word: str, place: str) -> str:
    """Where the text goes on behind a line without a form, by the word that begins it."""
    if word in DECLARE:
        return place if place in ("after", "tables") else "declarations"
    if word == "VALUES" and place in ("first row", LOOSE):
        return LOOSE
    if word == "SPECIFICATION" and place != "start":
        return place
    return NEXT.get(word, "transitions" if word == "FROM" else place)


def is_past_limit(line: Line, counts: Dict[str, int]) -> bool:
    """Whether it is a row of a table that is too long already: such a row is not read, whatever it says."""
    word = line.code.lstrip()[:4].rstrip()
    return word in ("ROW", "FROM") and counts.get(word, 0) > MOST_OF[word]


def read(lines: List[Line]) -> Reading:
    """Reads each line in its place."""
    found = Reading([], [], set(), set())
    place, has_events, counts = "start", False, {}  # type: str, bool, Dict[str, int]
    for line in lines:
        if not line.text or is_past_limit(line, counts):
            continue
        fault = lexical_fault(line)
        if not line.tokens and not fault:
            continue
        first = line.tokens[0].text if line.tokens else ""
        statement = None
        try:
            if fault is None:
                statement = statement_of(line, place, has_events)
        except NoForm as end:
            here = place if end.piece is line.tokens[0] else ""
            fault = Fault(end.piece, "syntax", "", told_form(end.piece, here), tuple(end.expected), here)
        if first in HEADS:
            counts["ROW"] = counts["FROM"] = 0
            has_events = first != "CONDITION"
        if statement:
            fault = count_fault(statement, counts)
            place = place if place == LOOSE and first == "ROW" else NEXT.get(first, place)
        elif fault:
            found.lost.update(it.text.rstrip("'") for it in line.tokens if it.kind in ("name", "primed"))
            if first == "|" and found.statements:
                found.continued.add(found.statements[-1].line)
            statement = again(line, place, has_events, fault)
            place = place_behind(first_word(line), place)
        if statement:
            found.statements.append(statement)
        if fault:
            found.faults.append(fault)
    if place != "after":
        found.faults.append(unfinished(lines, place))
    return found


def again(line: Line, place: str, has_events: bool, fault: Fault) -> Optional[Statement]:
    """A line that has a form, but in another place."""
    word = line.tokens[0].text if line.tokens else ""
    if fault.kind != "syntax" or not fault.place or place == "after":
        return None
    for other, words in PLACES.items():
        if word in words and not (word in DECLARE and place == "start"):
            try:
                return statement_of(line, other, has_events)
            except NoForm:
                return None
    return None


def unfinished(lines: List[Line], place: str) -> Fault:
    """The text has no FINISH: told at the line behind the last one."""
    return Fault(Piece("", len(lines) + 1, 1, "end"), "end", "", "the text ends before FINISH", PLACES[place], place)


class Meaning(NamedTuple):
    """What a name stands for: type, constant, enumerator, mode, monitored, term, controlled, mode class, or lost."""

    kind: str
    piece: Piece
    sort: str = ""  # of values: an integer, BOOLEAN, or the name of the list or the class; * is not known
    low: int = 0
    high: int = 0
    has_init: bool = False
    members: Tuple[str, ...] = ()


VARIABLES = ("monitored", "term", "controlled", "mode class")
INTEGER, BOOLEAN, ANY, ILL = "integer", "BOOLEAN", "*", ""
LOST = Meaning("lost", Piece("", 0, 0), ANY)
TRUTH = Meaning("type", Piece("BOOLEAN", 0, 0), BOOLEAN)


def kinded(sort: str) -> str:
    """A sort in words."""
    return "an integer" if sort == INTEGER else "a Boolean" if sort == BOOLEAN else f"one of {sort}"


class Rules:
    """Goes through the statements of a text, and keeps what they declare."""

    def __init__(self, reading: Reading) -> None:
        self.names: Dict[str, Meaning] = {}
        self.lost, self.continued = reading.lost - RESERVED, reading.continued
        self.later = declared_lines(reading.statements)
        self.tables: Dict[str, Table] = {}
        self.steps: Set[str] = set()
        self.asserted: Dict[str, Piece] = {}
        self.open: Optional[Table] = None

    # What names and sides mean

    def meaning(self, name: str) -> Optional[Meaning]:
        """What a name stands for; one that a line may have declared that could not be read is lost."""
        return self.names.get(name) or (LOST if name in self.lost else None)

    def item_sort(self, item: Item) -> str:
        if item.operand is None:
            return INTEGER
        if item.operand.kind == "keyword":
            return BOOLEAN
        meaning = self.meaning(item.operand.text.rstrip("'"))
        return meaning.sort if meaning and meaning.kind != "type" else ILL

    def side_sort(self, side: Side) -> str:
        """Its kind of values, or ILL where it is not well typed."""
        sorts = [self.item_sort(it) for it in side.items]
        if len(sorts) == 1 and sorts[0] != INTEGER:
            return sorts[0] if side.items[0].factor == 1 or sorts[0] == ANY else ILL
        return ILL if any(it not in (INTEGER, ANY) for it in sorts) else INTEGER if INTEGER in sorts else ANY

    def bound(self, side: Side) -> int:
        total = 0
        for item in side.items:
            meaning = self.meaning(item.operand.text.rstrip("'")) if item.operand else None
            greatest = 1 if item.operand is None else max(abs(meaning.low), abs(meaning.high)) if meaning else 0
            total += abs(item.factor) * greatest
        return total

    def unknown(self, pieces: List[Optional[Piece]]) -> Iterator[Fault]:
        for piece in pieces:
            name = piece.text.rstrip("'") if piece and piece.kind in ("name", "primed") else ""
            if piece and name and self.meaning(name) is None:
                later = self.later.get(name)
                behind = f", which is declared only in line {later}" if later and later > piece.line else ""
                yield Fault(piece, "unknown", name, f"unknown name `{name}`{behind}")

    def duplicate(self, pieces: List[Piece]) -> Iterator[Fault]:
        seen: Dict[str, int] = {}
        for piece in pieces:
            before = self.names.get(piece.text)
            line = before.piece.line if before else seen.get(piece.text)
            if line:
                where = "twice in this line" if line == piece.line else f"in line {line} already"
                yield Fault(piece, "duplicate", piece.text, f"`{piece.text}` is declared {where}")
            seen[piece.text] = piece.line

    # Declarations

    def declare(self, meaning: Meaning) -> None:
        self.names.setdefault(meaning.piece.text, meaning)

    def in_type(self, it: Statement) -> Iterator[Fault]:
        assert it.name
        yield from self.duplicate([it.name, *it.members])
        name = it.name.text
        if it.low and it.high:
            low, high = number_of(it.low), number_of(it.high)
            self.declare(Meaning("type", it.name, INTEGER, low, high))
            if low > high:
                yield Fault(it.low, "range", name, f"the range begins above its end: {low} is more than {high}")
            return
        self.declare(Meaning("type", it.name, name, members=tuple(it.text for it in it.members)))
        for member in it.members:
            self.declare(Meaning("enumerator", member, name))

    def in_constant(self, it: Statement) -> Iterator[Fault]:
        assert it.name and it.number
        yield from self.duplicate([it.name])
        value = number_of(it.number)
        self.declare(Meaning("constant", it.name, INTEGER, value, value))

    def in_variable(self, it: Statement) -> Iterator[Fault]:
        assert it.name and it.type_name
        yield from self.duplicate([it.name])
        yield from self.unknown([it.type_name, it.init])
        of = TRUTH if it.type_name.kind == "keyword" else self.meaning(it.type_name.text)
        is_type = of is not None and of.kind in ("type", "lost")
        if of and not is_type:
            yield Fault(it.type_name, "type", of.piece.text, f"`{of.piece.text}` is a {of.kind}, and no type")
        sort = of.sort if of and is_type else ANY
        if it.init and is_type and of:
            yield from self.in_init(it.name.text, it.init, of)
        low, high = (of.low, of.high) if of and is_type else (0, 0)
        members = of.members if of else ()
        self.declare(Meaning(it.keyword.text.lower(), it.name, sort, low, high, it.init is not None, members))

    def in_init(self, name: str, init: Piece, of: Meaning) -> Iterator[Fault]:
        value = self.meaning(init.text) if init.kind == "name" else None
        if init.kind == "name" and (value is None or value.sort == ANY) or of.sort == ANY:
            return
        sort = BOOLEAN if init.kind == "keyword" else INTEGER if value is None else value.sort
        is_value = value is None or value.kind in ("constant", "enumerator")
        if sort != of.sort or not is_value:
            yield Fault(init, "type", name, f"`{init.text}` is no value of {of.piece.text}")
        elif sort == INTEGER and of.low <= of.high:
            number = number_of(init) if value is None else value.low
            if not of.low <= number <= of.high:
                told = f"{number} is outside {of.piece.text}, {of.low} .. {of.high}"
                yield Fault(init, "range", name, told)

    def in_bound(self, it: Statement) -> Iterator[Fault]:
        assert it.name and it.number
        name, of = it.name.text, self.meaning(it.name.text)
        if name in self.steps:
            yield Fault(it.name, "duplicate", name, f"`{name}` has a NAT line already")
        yield from self.unknown([it.name])
        if of and of.kind != "lost" and (of.kind != "monitored" or of.sort not in (INTEGER, ANY)):
            yield Fault(it.name, "type", name, f"`{name}` is no monitored variable of a range type")
        if number_of(it.number) == 0:
            yield Fault(it.number, "range", name, "the step is 0")
        if of:
            self.steps.add(name)

    def in_class(self, it: Statement) -> Iterator[Fault]:
        assert it.name and it.init
        yield from self.duplicate([it.name, *it.members])
        members = tuple(mode.text for mode in it.members)
        if it.init.text not in members and it.init.text != it.name.text:
            yield from self.unknown([it.init])
        if it.init.text not in members:
            yield Fault(it.init, "type", it.name.text, f"`{it.init.text}` is no mode of {it.name.text}")
        self.declare(Meaning("mode class", it.name, it.name.text, has_init=True, members=members))
        for mode in it.members:
            self.declare(Meaning("mode", mode, it.name.text))

    # Tables

    def in_head(self, it: Statement) -> Iterator[Fault]:
        assert it.name
        name, of, kind = it.name.text, self.meaning(it.name.text), it.keyword.text
        before = self.tables.get(name)
        if before and of:
            yield Fault(it.name, "duplicate", name, f"`{name}` has a table already, in line {before.head.line}")
        yield from self.unknown([it.name, it.over])
        wanted = ("mode class",) if kind == "MODES" else ("term", "controlled")
        fits = of is None or of.kind in wanted + ("lost",)
        if of and not fits:
            what = "mode class" if kind == "MODES" else "term or controlled variable"
            yield Fault(it.name, "type", name, f"`{name}` is a {of.kind}, and no {what}")
        over = self.meaning(it.over.text) if it.over else None
        if it.over and over and over.kind not in ("mode class", "lost"):
            yield Fault(it.over, "type", it.over.text, f"`{it.over.text}` is a {over.kind}, and no mode class")
        if of and fits and of.kind != "lost" and kind != "MODES" and of.has_init != (kind == "EVENT"):
            told = "has INIT, so its table is one of EVENT" if of.has_init else "has no INIT, so its table is one of CONDITION"
            yield Fault(it.name, "table", name, f"`{name}` {told}")
        self.open = Table(it)
        self.tables.setdefault(name, self.open)

    def table_class(self) -> Optional[Meaning]:
        """The class of the open table, where it is known."""
        head = self.open.head if self.open else None
        piece = head and (head.name if head.keyword.text == "MODES" else head.over)
        found = self.meaning(piece.text) if piece else None
        return found if found and found.kind == "mode class" else None

    def ill_comparison(self, it: Comparison) -> Optional[str]:
        """Why a comparison is not well typed."""
        left = self.side_sort(it.left)
        if it.relation is None or it.right is None:
            if left in (BOOLEAN, ANY):
                return None
            return f"`{it.left.piece.text}` is {kinded(left)}, and no condition" if left else self.ill_side(it.left)
        right = self.side_sort(it.right)
        for sort, side in ((left, it.left), (right, it.right)):
            if sort == ILL:
                return self.ill_side(side)
        if ANY in (left, right):
            return None
        if left != right:
            told = f"`{it.left.piece.text}` is {kinded(left)}, and `{it.right.piece.text}` {kinded(right)}"
            return f"the two sides are of different kinds: {told}"
        if left != INTEGER and it.relation.text not in ("=", "!="):
            return f"`{it.relation.text}` compares integers, and `{it.left.piece.text}` is {kinded(left)}"
        return None

    def ill_side(self, side: Side) -> str:
        for item in side.items:
            meaning = self.meaning(item.operand.text.rstrip("'")) if item.operand else None
            if item.operand and meaning and meaning.kind == "type":
                return f"`{item.operand.text}` is a type, and no value"
        return f"`{side.piece.text}` adds up values that are no integers"

    def ill_cell(self, cell: Cell, name: str) -> Iterator[Fault]:
        for comparison in cell.comparisons:
            why = self.ill_comparison(comparison)
            if why:
                last = comparison.sides[-1].piece
                whole = comparison.left.piece._replace(
                    text=self.text_between(comparison.left.piece, last)
                )
                yield Fault(whole, "type", name, why)
        for piece in cell.changed:
            of = self.meaning(piece.text)
            if of and of.kind not in VARIABLES + ("lost",):
                yield Fault(piece, "type", name, f"`{piece.text}` is a {of.kind}, and no variable")

    def in_assertion(self, it: Statement, line: Line) -> List[Fault]:
        """The faults of an assertion that are of the first kind which it has."""
        assert it.name
        self.line_text, self.tokens = line.code, line.tokens
        name, known = it.name.text, self.names.get(it.name.text)
        before = known.piece if known else self.asserted.get(name)
        if before:
            where = f"in line {before.line} of the specification" if known else f"in line {before.line} already"
            return [Fault(it.name, "duplicate", name, f"`{name}` is declared {where}")]
        cell = it.cells[0]
        places = [token for token in line.tokens if token.column >= cell.piece.column]
        found = list(self.unknown(list(places)))
        found = found or list(self.ill_primes(cell, name)) + list(self.ill_cell(cell, name))
        return found or list(self.wide(it.sides(), name))

    def ill_primes(self, cell: Cell, name: str) -> Iterator[Fault]:
        for comparison in cell.comparisons:
            for item in [it for side in comparison.sides for it in side.items]:
                if item.operand and item.operand.kind == "primed":
                    of = self.meaning(item.operand.text[:-1])
                    if of and of.kind not in VARIABLES + ("lost",):
                        yield Fault(item.operand, "type", name, f"`{item.operand.text}` has a prime, and {of.piece.text} is no variable")
                    elif comparison.right is None:
                        yield Fault(item.operand, "type", name, f"`{item.operand.text}` is no condition: a prime stands in a comparison")

    def text_between(self, first: Piece, last: Piece) -> str:
        return self.line_text[first.column - 1 : last.end - 1]

    def wide(self, sides: List[Side], name: str) -> Iterator[Fault]:
        for side in sides:
            if self.bound(side) > MOST_BOUND:
                yield Fault(side.piece, "wide", name, f"`{side.piece.text}` may come to more than {MOST_BOUND:,}")

    def in_cells(self, it: Statement) -> Iterator[Fault]:
        """What ROW and FROM lines have in common."""
        name = self.open.head.name.text if self.open and self.open.head.name else ""
        yield from self.unknown([token for token in self.tokens if token.kind == "name"])
        for cell in it.cells:
            yield from self.ill_cell(cell, name)
        yield from self.wide(it.sides(), name)

    def in_row(self, it: Statement) -> Iterator[Fault]:
        yield from self.in_cells(it)
        table = self.open
        if not table or not table.head.name:
            return
        name, over = table.head.name.text, table.head.over
        of = self.table_class()
        for mode in it.members if over else []:
            table.is_whole = table.is_whole and self.meaning(mode.text) is not None
            yield from self.bad_mode(mode, of)
            before = table.modes.get(mode.text)
            if before:
                yield Fault(mode, "mode", mode.text, f"the mode `{mode.text}` stands in line {before.line} already")
            table.modes.setdefault(mode.text, mode)
        misfit = None if table.is_told else self.misfit(it, table, name)
        if misfit:
            table.is_told = True
            yield misfit
        elif table.rows and len(table.rows[0].cells) != len(it.cells) and it.line not in self.continued:
            yield self.wrong_count(it, [cell.piece for cell in it.cells], "cells")
        table.rows.append(it)

    def misfit(self, it: Statement, table: Table, name: str) -> Optional[Fault]:
        """A row that has modes where there is no class, or none where there is one, or that is one too many."""
        over = table.head.over
        if it.members and not over:
            return Fault(it.members[0], "table", name, "the row has modes, and the table has no class")
        if over and not it.members:
            return Fault(it.keyword, "table", name, f"the row has no modes, and the table is OVER {over.text}")
        if table.rows and not over:
            return Fault(it.keyword, "table", name, "a table without a class has one row")
        return None

    def wrong_count(self, it: Statement, found: List[Piece], what: str) -> Fault:
        """Another number of cells or values than the first row has: told at the first one too many, or behind the last."""
        table = self.open
        assert table and table.head.name
        wanted = len(table.rows[0].cells)
        place = found[wanted] if len(found) > wanted else Piece("", it.line, found[-1].end, "end")
        told = f"{len(found)} {what[:-1] if len(found) == 1 else what}, and the row in line {table.rows[0].line} has {wanted}"
        return Fault(place, "table", table.head.name.text, told)

    def bad_mode(self, mode: Piece, of: Optional[Meaning]) -> Iterator[Fault]:
        if of and mode.text not in of.members and self.meaning(mode.text) not in (None, LOST):
            yield Fault(mode, "mode", mode.text, f"`{mode.text}` is no mode of {of.piece.text}")

    def in_values(self, it: Statement) -> Iterator[Fault]:
        table = self.open
        yield from self.unknown([token for token in self.tokens if token.kind in ("name", "primed")])
        if not table or not table.head.name:
            return
        name = table.head.name.text
        of = self.meaning(name) or LOST
        for side in it.values:
            why = self.ill_value(side, of, table.head.keyword.text == "CONDITION")
            if why:
                yield Fault(side.piece, "type", name, why)
            elif of.sort == INTEGER and of.kind in VARIABLES and of.low <= of.high and self.side_sort(side) == INTEGER:
                constant = self.constant(side)
                if constant is not None and not of.low <= constant <= of.high:
                    told = f"{constant} is outside the type of {name}, {of.low} .. {of.high}"
                    yield Fault(side.piece, "range", name, told)
        yield from self.wide(it.values, name)
        if table.rows and len(it.values) != len(table.rows[0].cells) and it.line not in self.continued:
            yield self.wrong_count(it, [side.piece for side in it.values], "values")

    def ill_value(self, side: Side, of: Meaning, is_condition: bool) -> Optional[str]:
        for item in side.items:
            if item.operand and item.operand.kind == "primed":
                meaning = self.meaning(item.operand.text[:-1])
                if is_condition:
                    return f"`{item.operand.text}` has a prime, in a CONDITION table"
                if meaning and meaning.kind not in VARIABLES + ("lost",):
                    return f"`{item.operand.text}` has a prime, and {meaning.piece.text} is no variable"
        sort = self.side_sort(side)
        if sort == ILL:
            return self.ill_side(side)
        if of.kind not in VARIABLES or ANY in (sort, of.sort) or sort == of.sort:
            return None
        return f"`{side.piece.text}` is {kinded(sort)}, and {of.piece.text} is {kinded(of.sort)}"

    def constant(self, side: Side) -> Optional[int]:
        """The value of a side without variables."""
        total = 0
        for item in side.items:
            meaning = self.meaning(item.operand.text.rstrip("'")) if item.operand else None
            if item.operand and (meaning is None or meaning.kind != "constant"):
                return None
            total += item.factor * (meaning.low if meaning else 1)
        return total

    def in_change(self, it: Statement) -> Iterator[Fault]:
        assert it.name and it.target
        yield from self.in_cells(it)
        of = self.table_class()
        yield from self.bad_mode(it.name, of)
        yield from self.bad_mode(it.target, of)
        if of and it.name.text == it.target.text:
            yield Fault(it.target, "mode", it.target.text, f"the source and the target are the same mode, `{it.name.text}`")

    def in_end(self, it: Statement) -> Iterator[Fault]:
        table, of = self.open, self.table_class()
        if table and of and table.is_whole and table.head.keyword.text == "CONDITION":
            for mode in of.members:
                if mode not in table.modes and mode not in self.lost:
                    yield Fault(it.keyword, "mode", mode, f"the table has no row for the mode `{mode}`")
        self.open = None

    def in_finish(self, it: Statement) -> Iterator[Fault]:
        for name, meaning in self.names.items():
            if meaning.kind in VARIABLES[1:] and name not in self.tables and name not in self.lost:
                told = f"`{name}`, declared in line {meaning.piece.line}, has no table"
                yield Fault(it.keyword, "table", name, told)

    RULES = {
        "TYPE": in_type, "CONST": in_constant, "MONITORED": in_variable, "TERM": in_variable,
        "CONTROLLED": in_variable, "NAT": in_bound, "MODECLASS": in_class, "CONDITION": in_head, "EVENT": in_head,
        "MODES": in_head, "ROW": in_row, "VALUES": in_values, "FROM": in_change, "END": in_end, "FINISH": in_finish,
    }
    ORDER = ("duplicate", "unknown", "type", "range", "wide", "mode", "table")

    def go_through(self, statement: Statement, line: Line) -> List[Fault]:
        """The faults of a line that are of the first kind which it has."""
        self.line_text, self.tokens = line.code, line.tokens
        rule = self.RULES.get(statement.keyword.text)
        found = list(rule(self, statement)) if rule else []
        kinds = [it.kind for it in found]
        first = next((it for it in self.ORDER if it in kinds), None)
        return [it for it in found if it.kind == first]


def declared_lines(statements: List[Statement]) -> Dict[str, int]:
    """The line that declares each name."""
    found: Dict[str, int] = {}
    for it in statements:
        if it.keyword.text in DECLARE and it.keyword.text != "NAT" and it.name:
            members = it.members if it.keyword.text in ("TYPE", "MODECLASS") else []
            for piece in [it.name, *members]:
                found.setdefault(piece.text, piece.line)
    return found


def faults_of(text: str) -> List[Fault]:
    """All faults of a text, in the order in which scr check would come to them."""
    if len(text) > MOST_BYTES // 4 and size_of(text) > MOST_BYTES:
        return [Fault(Piece("", 0, 1), "limit", "", f"the text has more than {MOST_BYTES:,} bytes")]
    lines = lines_of(text)
    reading = read(lines)
    rules = Rules(reading)
    broken = [fault for it in reading.statements for fault in rules.go_through(it, lines[it.line - 1])]
    return reading.faults + broken


def read_assertions(lines: List[Line]) -> Reading:
    """Reads each line of the second file of scr assert."""
    found = Reading([], [], set(), set())
    counts: Dict[str, int] = {}
    for line in lines:
        fault, statement = lexical_fault(line), None
        if not line.tokens and not fault:
            continue
        try:
            statement = assertion_of(line) if fault is None else None
        except NoForm as end:
            here = "assertions" if end.piece is line.tokens[0] else ""
            fault = Fault(end.piece, "syntax", "", told_form(end.piece, here), tuple(end.expected), here)
        if statement:
            fault = count_fault(statement, counts)
            found.statements.append(statement)
        if fault:
            found.faults.append(fault)
    return found


def assertion_faults_of(text: str, specification: str) -> List[Fault]:
    """All faults of assertions about a specification that is right, in the order of scr assert."""
    if len(text) > MOST_BYTES // 4 and size_of(text) > MOST_BYTES:
        return [Fault(Piece("", 0, 1), "limit", "", f"the text has more than {MOST_BYTES:,} bytes")]
    lines = lines_of(text)
    reading, about = read_assertions(lines), lines_of(specification)
    rules = Rules(read(about))
    for it in read(about).statements:
        rules.go_through(it, about[it.line - 1])
    broken: List[Fault] = []
    for it in reading.statements:
        assert it.name
        found = rules.in_assertion(it, lines[it.line - 1])
        rules.asserted.setdefault(it.name.text, it.name)
        broken += found
    return reading.faults + broken
