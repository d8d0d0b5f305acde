"""Scripts for people: reads them, and expands them to inputs and to what is expected after these.

The forms, one on a line, # begins a comment:

    SET Variable value             value may be the name of a constant, here and below
    TOGGLE Variable                of a Boolean, as a clock that only ticks
    RAMP Variable value [STEP n]   goes there by steps of n, else of its NAT line, else of 1
    REPEAT n .. END                does the lines between n times
    EXPECT a = b [AND ..]          also != < <= > >=, a Boolean alone, or NOT and a Boolean
    INCLUDE file                   the lines of another file, beside this one
    CASE words                     begins a run; what stands before the first begins each of them

A monitored variable changes by inputs alone, so what RAMP and TOGGLE start from is known without a
run. What an input may be is told by scr simulate: here it is only expanded. """
from __future__ import annotations

import operator
import os
from typing import Callable, Dict, List, NamedTuple, Optional, Tuple

from language import ANY_BYTES, Document, Line, Piece, lines_of

MOST_STEPS = 100000
DEEPEST = 16
COMPARISONS: Dict[str, Callable[[int, int], bool]] = {
    "=": operator.eq,
    "!=": operator.ne,
    "<": operator.lt,
    "<=": operator.le,
    ">": operator.gt,
    ">=": operator.ge,
}


class Place(NamedTuple):
    """Where something stands."""

    path: str
    line: int
    column: int


class Fault(Exception):
    """A line that has no form or no meaning."""

    def __init__(self, place: Place, message: str) -> None:
        super().__init__(message)
        self.place, self.message = place, message


class Statement(NamedTuple):
    """A line with its words, and for REPEAT and INCLUDE the statements in it."""

    word: str
    place: Place
    text: str
    tokens: List[Piece]
    body: List["Statement"]


class Input(NamedTuple):
    """An input with the line that asks for it."""

    name: str
    value: str
    place: Place


class Comparison(NamedTuple):
    """Two operands, each a name or a value, and what is to hold between them."""

    left: str
    relation: str
    right: str


class Expectation(NamedTuple):
    """What is to hold after some of the inputs."""

    comparisons: List[Comparison]
    text: str
    place: Place
    after: int


class Case(NamedTuple):
    """A run from the initial state."""

    name: str
    place: Place
    inputs: List[Input]
    expectations: List[Expectation]


def read(
    path: str, above: Tuple[str, ...] = (), at: Optional[Place] = None, text: Optional[str] = None
) -> List[Statement]:
    """The statements of a file, or of its text as it stands in an editor, and of those that it
    includes."""
    here = at or Place(path, 1, 1)
    real = os.path.realpath(path)
    if real in above:
        raise Fault(here, f"{path} includes itself")
    if len(above) >= DEEPEST:
        raise Fault(here, f"more than {DEEPEST} files include each other")
    try:
        if text is None:
            with open(path, **ANY_BYTES) as file:
                text = file.read()
    except (OSError, ValueError) as fault:
        raise Fault(
            here, f"{path} cannot be read: {getattr(fault, 'strerror', None) or fault}"
        ) from fault
    return Blocks(path, (*above, real)).of(lines_of(text))


class Blocks:
    """Reads the lines of a file, with those between REPEAT and END inside the REPEAT."""

    def __init__(self, path: str, above: Tuple[str, ...]) -> None:
        self.path, self.above = path, above

    def of(self, lines: List[Line]) -> List[Statement]:
        """The statements of all lines."""
        open_blocks: List[List[Statement]] = [[]]
        for line in (it for it in lines if it.tokens):
            statement = self._statement(line)
            if statement.word == "END":
                if len(open_blocks) == 1:
                    raise Fault(statement.place, "END stands behind no REPEAT")
                open_blocks.pop()
                continue
            open_blocks[-1].append(statement)
            if statement.word == "REPEAT":
                if len(open_blocks) > DEEPEST:
                    raise Fault(statement.place, f"more than {DEEPEST} REPEAT stand in each other")
                open_blocks.append(statement.body)
        if len(open_blocks) > 1:
            raise Fault(open_blocks[-2][-1].place, "REPEAT has no END")
        return open_blocks[0]

    def _statement(self, line: Line) -> Statement:
        first = line.tokens[0]
        place = Place(self.path, line.number, first.column)
        text = line.code.strip()
        body: List[Statement] = []
        if first.text == "INCLUDE":
            name = text[len("INCLUDE") :].strip()
            if not name:
                raise Fault(place, "INCLUDE wants the name of a file")
            body = read(os.path.join(os.path.dirname(self.path), name), self.above, place)
        elif first.text not in FORMS and first.text not in ("END", "CASE"):
            raise Fault(
                place,
                f"{first.text} begins no line of a script: {', '.join((*FORMS, 'END', 'CASE'))} do",
            )
        return Statement(first.text, place, text, line.tokens, body)


class Expansion:
    """Does the statements of a case one after another."""

    def __init__(self, document: Document, case: Case) -> None:
        self.document, self.case = document, case
        self.values = {
            it.name.text: self._value(it.init.text) for it in document.variables() if it.init
        }
        self.steps = 0

    def _value(self, text: str) -> str:
        """A value as scr writes it: that of a constant, and -5 for - 5."""
        declared = self.document.names.get(text)
        if declared and declared.kind == "constant":
            return str(declared.value)
        digits = text.replace(" ", "").replace("\t", "")
        return str(int(digits)) if is_integer(digits) and len(digits) < 20 else text

    def do(self, statements: List[Statement]) -> None:
        """Does statements, and counts them: a few lines of REPEAT may ask for more than
        anybody waits for."""
        for it in statements:
            self._count(it.place)
            if it.word == "INCLUDE":
                self.do(it.body)
            elif it.word == "CASE":
                raise Fault(it.place, "CASE stands in a REPEAT")
            else:
                FORMS[it.word](self, it)

    def _count(self, place: Place) -> None:
        self.steps += 1
        if self.steps > MOST_STEPS:
            raise Fault(place, f"this is more than {MOST_STEPS} steps")

    def _give(self, name: str, value: str, place: Place) -> None:
        self._count(place)
        self.case.inputs.append(Input(name, value, place))
        self.values[name] = value

    def _name(self, statement: Statement) -> str:
        if len(statement.tokens) < 2 or statement.tokens[1].kind != "name":
            raise Fault(statement.place, f"{statement.word} wants a monitored variable")
        return statement.tokens[1].text

    def _monitored(self, statement: Statement) -> str:
        name = self._name(statement)
        declared = self.document.names.get(name)
        if not declared or declared.kind != "monitored":
            raise Fault(statement.place, f"{name} is no monitored variable")
        return name

    def _integer(self, statement: Statement, pieces: List[Piece]) -> int:
        value = self._value("".join(it.text for it in pieces))
        if not is_integer(value):
            raise Fault(statement.place, f"{statement.word} wants a number, or a constant")
        return int(value)

    def _set(self, statement: Statement) -> None:
        name, value = self._name(statement), statement.tokens[2:]
        if not value or len(value) > (2 if value[0].text == "-" else 1):
            raise Fault(statement.place, "SET wants a variable and a value")
        self._give(name, self._value("".join(it.text for it in value)), statement.place)

    def _toggle(self, statement: Statement) -> None:
        name = self._monitored(statement)
        if len(statement.tokens) > 2 or self.values.get(name) not in ("FALSE", "TRUE"):
            raise Fault(statement.place, "TOGGLE wants a Boolean variable, and nothing else")
        self._give(name, "FALSE" if self.values[name] == "TRUE" else "TRUE", statement.place)

    def _ramp(self, statement: Statement) -> None:
        name, behind = self._monitored(statement), statement.tokens[2:]
        at = next((k for k, it in enumerate(behind) if it.text == "STEP"), len(behind))
        bound = self.document.names[name].step
        step = (
            self._integer(statement, behind[at + 1 :])
            if at < len(behind)
            else int(bound.text)
            if bound
            else 1
        )
        goal = self._integer(statement, behind[:at])
        if not is_integer(self.values.get(name, "")):
            raise Fault(statement.place, f"{name} has no numbers")
        if step < 1:
            raise Fault(statement.place, "STEP wants a number from 1")
        while int(self.values[name]) != goal:
            present = int(self.values[name])
            following = min(present + step, goal) if present < goal else max(present - step, goal)
            self._give(name, str(following), statement.place)

    def _repeat(self, statement: Statement) -> None:
        for _ in range(self._integer(statement, statement.tokens[1:])):
            self._count(statement.place)
            self.do(statement.body)

    def _expect(self, statement: Statement) -> None:
        comparisons: List[Comparison] = []
        part: List[Piece] = []
        for token in [*statement.tokens[1:], Piece("AND", 0, 0)]:
            if token.text == "AND":
                comparisons.append(self._comparison(statement, part))
                part = []
            else:
                part.append(token)
        expected = Expectation(comparisons, statement.text, statement.place, len(self.case.inputs))
        self.case.expectations.append(expected)

    def _comparison(self, statement: Statement, part: List[Piece]) -> Comparison:
        at = next((k for k, it in enumerate(part) if it.text in COMPARISONS), None)
        if at is None:
            is_negated = bool(part) and part[0].text == "NOT"
            sides, relation = [
                part[is_negated:],
                [Piece("TRUE", 0, 0)],
            ], "!=" if is_negated else "="
        else:
            sides, relation = [part[:at], part[at + 1 :]], part[at].text
        left, right = (self._operand(statement, it) for it in sides)
        kinds = {self._kind(left), self._kind(right)}
        if len(kinds) > 1:
            raise Fault(statement.place, f"{left} and {right} are of different kinds")
        if relation not in ("=", "!=") and kinds != {"integer"}:
            raise Fault(statement.place, f"{left} {relation} {right} is for numbers alone")
        return Comparison(left, relation, right)

    def _operand(self, statement: Statement, pieces: List[Piece]) -> str:
        text = self._value("".join(it.text for it in pieces))
        if self._kind(text) is None:
            raise Fault(
                statement.place,
                f"{text or 'EXPECT'} is no variable and no value" if text else "EXPECT wants a = b",
            )
        return text

    def _kind(self, text: str) -> Optional[str]:
        """integer, BOOLEAN, or the name of a type of names or of a mode class."""
        if is_integer(text):
            return "integer"
        if text in ("FALSE", "TRUE"):
            return "BOOLEAN"
        declared = self.document.names.get(text)
        if declared is None or declared.kind == "type":
            return None
        if declared.type_name:
            return "integer" if self.document.range_of(text) else declared.type_name.text
        return declared.owner or declared.name.text


FORMS: Dict[str, Callable[[Expansion, Statement], None]] = {
    "SET": Expansion._set,
    "TOGGLE": Expansion._toggle,
    "RAMP": Expansion._ramp,
    "REPEAT": Expansion._repeat,
    "EXPECT": Expansion._expect,
    "INCLUDE": lambda expansion, statement: expansion.do(statement.body),
}


def is_integer(text: str) -> bool:
    """Whether a text is an integer as scr writes it."""
    digits = text[1:] if text.startswith("-") else text
    return digits.isascii() and digits.isdigit()


def expand(path: str, document: Document, text: Optional[str] = None) -> List[Case]:
    """The cases of a file: one of its own name where it has no CASE."""
    front: List[Statement] = []
    groups: List[Tuple[str, Place, List[Statement]]] = []
    for it in flat(read(path, text=text)):
        if it.word == "CASE":
            groups.append(
                (it.text[len("CASE") :].strip() or f"case {len(groups) + 1}", it.place, [])
            )
        else:
            (groups[-1][2] if groups else front).append(it)
    name = os.path.splitext(os.path.basename(path))[0]
    cases = []
    for title, place, statements in groups or [(name, Place(path, 1, 1), [])]:
        case = Case(title, place, [], [])
        Expansion(document, case).do(front + statements)
        cases.append(case)
    return cases


def flat(statements: List[Statement]) -> List[Statement]:
    """Statements with those of INCLUDE in its place, so that a CASE may stand in a file that is
    included."""
    found: List[Statement] = []
    for it in statements:
        found += flat(it.body) if it.word == "INCLUDE" else [it]
    return found


def failures(expected: Expectation, state: Dict[str, str]) -> List[str]:
    """What of an expectation does not hold in a state, told with the values that its variables
    have there."""
    told = []
    for left, relation, right in expected.comparisons:
        one, other = state.get(left, left), state.get(right, right)
        if is_integer(one) and is_integer(other):
            holds = COMPARISONS[relation](int(one), int(other))
        else:
            holds = (one == other) == (relation == "=")
        if not holds:
            values = [
                f"{name} is {state[name]}" for name in dict.fromkeys((left, right)) if name in state
            ]
            told.append(
                f"{left} {relation} {right} is not so: {' and '.join(values) or 'it never is'}"
            )
    return told
