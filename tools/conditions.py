"""The value of a condition at a state, or between an old and a new one, for the assertions of a text that scr assert
has read.

condition_of(text, constants) gives a function of an old and a new state, each from names to values as scr prints them.
In a condition with a prime, names without one are old values, and those with one are new ones. Without a prime all are
new ones.
"""
from __future__ import annotations

import operator
from typing import Callable, Dict, List, Mapping, Union

from language import Piece, lines_of

Value = Union[int, str]
State = Mapping[str, str]
Condition = Callable[[State, State], bool]
RELATIONS = {
    "=": operator.eq,
    "!=": operator.ne,
    "<": operator.lt,
    "<=": operator.le,
    ">": operator.gt,
    ">=": operator.ge,
}


class NoCondition(Exception):
    """The text is no condition."""


class Reader:
    """Reads cond, conj, lit, side and item, as docs/LANGUAGE.md has them."""

    def __init__(self, text: str, constants: Dict[str, int]) -> None:
        self.tokens: List[Piece] = [token for line in lines_of(text) for token in line.tokens]
        self.constants = constants
        self.is_of_steps = any(it.kind == "primed" for it in self.tokens)
        self.place = 0

    def next_is(self, *texts: str) -> bool:
        """Whether the next token is one of these."""
        return self.place < len(self.tokens) and self.tokens[self.place].text in texts

    def take(self) -> Piece:
        """The next token, which is passed."""
        if self.place == len(self.tokens):
            raise NoCondition
        self.place += 1
        return self.tokens[self.place - 1]

    def whole(self) -> Condition:
        """The condition that all of the text is."""
        found = self.cond()
        if self.place < len(self.tokens):
            raise NoCondition
        return found

    def cond(self) -> Condition:
        """Conjunctions joined by OR."""
        parts = [self.conj()]
        while self.next_is("OR"):
            self.take()
            parts.append(self.conj())
        return lambda old, new: any(it(old, new) for it in parts)

    def conj(self) -> Condition:
        """Literals joined by AND."""
        parts = [self.lit()]
        while self.next_is("AND"):
            self.take()
            parts.append(self.lit())
        return lambda old, new: all(it(old, new) for it in parts)

    def lit(self) -> Condition:
        """A negation, a condition in parentheses, a comparison, or a Boolean."""
        if self.next_is("NOT"):
            self.take()
            denied = self.lit()
            return lambda old, new: not denied(old, new)
        if self.next_is("("):
            self.take()
            inner = self.cond()
            if self.take().text != ")":
                raise NoCondition
            return inner
        left = self.side()
        if not self.next_is(*RELATIONS):
            return lambda old, new: left(old, new) == "TRUE"
        relation = RELATIONS[self.take().text]
        right = self.side()
        return lambda old, new: relation(left(old, new), right(old, new))

    def side(self) -> Callable[[State, State], Value]:
        """A sum of items, or one item that is no integer."""
        items = [self.item(-1 if self.next_is("-") and self.take() else 1)]
        while self.next_is("+", "-"):
            items.append(self.item(-1 if self.take().text == "-" else 1))
        return lambda old, new: total([(factor, it(old, new)) for factor, it in items])

    def item(self, sign: int):
        """A factor and what it goes with."""
        token = self.take()
        if token.kind != "number":
            return sign, self.operand(token)
        factor = sign * int(token.text)
        if self.next_is("*"):
            self.take()
            return factor, self.operand(self.take())
        return factor, lambda old, new: 1

    def operand(self, token: Piece) -> Callable[[State, State], Value]:
        """The value of a name or of TRUE or FALSE: an enumerator or a mode stands for itself."""
        name = token.text
        if name in self.constants:
            value = self.constants[name]
            return lambda old, new: value
        if token.kind == "primed":
            return lambda old, new: value_of(new[name[:-1]])
        if token.kind != "name" and name not in ("TRUE", "FALSE"):
            raise NoCondition
        if self.is_of_steps:
            return lambda old, new: value_of(old.get(name, name))
        return lambda old, new: value_of(new.get(name, name))


def value_of(text: str) -> Value:
    """A value as scr prints it."""
    return int(text) if text.lstrip("-").isdigit() else text


def total(items) -> Value:
    """The sum of factors and values; one value of factor 1 is itself, whatever it is."""
    if len(items) == 1 and items[0][0] == 1:
        return items[0][1]
    return sum(factor * value for factor, value in items)


def is_of_steps(text: str) -> bool:
    """Whether a condition speaks of two neighbouring states."""
    return Reader(text, {}).is_of_steps


def condition_of(text: str, constants: Dict[str, int]) -> Condition:
    """The condition that a text is; NoCondition where it is none."""
    return Reader(text, constants).whole()
