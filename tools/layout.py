"""Lays a specification out: each statement as scr format writes it, on its own line and with its
comment.

scr format has no place for comments, and gives the lines another order. Here no line is moved,
added or taken away: what it writes for a statement is put in the place of that statement. So blank
lines and comments stay where they are, and a number of a line means the same before and after. That
the specification is still the same is asked of scr format, which has to write the same bytes for
both texts. """
from __future__ import annotations

import contextlib
import os
import re
import tempfile
from typing import Dict, Iterator, List, Tuple

import program
from language import ANY_BYTES, Document, Line, document_of

Key = Tuple[object, ...]

HEADS = ("CONDITION", "EVENT", "MODES")


class Refused(Exception):
    """The program refuses a text; the one argument is its line."""


@contextlib.contextmanager
def file_with(text: str) -> Iterator[str]:
    """The path of a file that has this text, for as long as it is needed."""
    with tempfile.TemporaryDirectory(prefix="scr-") as room:
        path = os.path.join(room, "text.scr")
        with open(path, "w", **ANY_BYTES) as file:
            file.write(text)
        yield path


def formatted(text: str) -> List[str]:
    """The lines that scr format writes for a text."""
    with file_with(text) as path:
        answer = program.run("format", path)
    if answer.status != program.DONE:
        raise Refused(
            answer.lines[0] if answer.lines else f"scr format ended with status {answer.status}"
        )
    return answer.lines


def keys_of(lines: List[Line]) -> Dict[int, Key]:
    """For the number of each line with a statement what tells this statement from all others.

    Lines of a mode table with the same source and target have a number at the end, from 0."""
    keys: Dict[int, Key] = {}
    table, rows, changes = "", 0, {}
    for line in lines:
        words = [it.text for it in line.tokens]
        if not words:
            continue
        if words[0] in HEADS:
            table, rows, changes = words[1], 0, {}
            keys[line.number] = ("head", table)
        elif words[0] == "ROW":
            rows += 1
            keys[line.number] = ("row", table, rows)
        elif words[0] == "FROM":
            change = (words[1], words[3])
            changes[change] = changes.get(change, -1) + 1
            keys[line.number] = ("change", table, *change, changes[change])
        elif words[0] in ("VALUES", "END"):
            keys[line.number] = (words[0], table)
        else:
            keys[line.number] = tuple(words[:2])
    return keys


def statements(document: Document) -> Dict[int, str]:
    """What scr format writes for the statement of each line, by its number.

    It joins the lines of a mode table that have the same source and target. So these are shown to
    it one by one: first the text without the second and all further lines of such a pair, then
    with the second alone, and so on.
    """
    keys = keys_of(document.lines)
    repeats = {number: key[-1] for number, key in keys.items() if key[0] == "change"}
    written: Dict[int, str] = {}
    for turn in range(max(repeats.values(), default=0) + 1):
        shown = [it.code if repeats.get(it.number, turn) == turn else "" for it in document.lines]
        lines = document_of("\n".join(formatted("\n".join(shown)))).lines
        text_of = {key: lines[number - 1].text for number, key in keys_of(lines).items()}
        for number, key in keys.items():
            if repeats.get(number, turn) == turn:
                written[number] = text_of[(*key[:-1], 0) if key[0] == "change" else key]
    for variable in document.variables():
        if variable.init and variable.init.text in document.names and variable.type_name:
            # scr format writes the value of a constant here, where its name says more
            written[variable.line] = re.sub(
                r"INIT .*", f"INIT {variable.init.text}", written[variable.line]
            )
    return written


def in_columns(document: Document, written: Dict[int, str]) -> Dict[int, str]:
    """The statements with the bars, the colons and the targets of each table below each other."""
    aligned = dict(written)
    for table in document.tables:
        numbers = range(table.line, (table.end_line or table.line) + 1)
        rows = {
            it: parts_of(written[it])
            for it in numbers
            if it in written and it not in (table.line, table.end_line)
        }
        widths: List[int] = []
        for parts in rows.values():
            widths += [0] * (len(parts) - len(widths))
            widths = [
                max(width, len(part)) for width, part in zip(widths, parts + [""] * len(widths))
            ]
        for number, parts in rows.items():
            aligned[number] = "".join(
                part.ljust(width) for part, width in zip(parts, widths)
            ).rstrip()
    return aligned


def parts_of(statement: str) -> List[str]:
    """A line of a table, cut where columns begin."""
    if statement.startswith("FROM"):
        change, _, event = statement.partition(" : ")
        source, _, target = change.partition(" TO ")
        return [source, f" TO {target}", f" : {event}"]
    if statement.startswith("ROW"):
        head, _, cells = statement.partition(": ")
        head, sign = head.rstrip(), " : "
    else:
        head, _, cells = statement.partition(" ")
        sign = "   "
    first, *others = cells.split(" | ")
    return [head, sign + first] + [f" | {it}" for it in others]


def with_comments(document: Document, written: Dict[int, str]) -> List[str]:
    """The lines with their comments, each where it stood or, behind a longer statement, further on.

    Comments that stood below each other on neighbouring lines still do."""
    columns: Dict[int, int] = {}
    block: List[Line] = []

    def close() -> None:
        needed = [len(written[it.number]) + 2 for it in block if it.number in written]
        for line in block:
            columns[line.number] = max([line.comment.column, *needed])

    for line in document.lines:
        if block and not (line.comment and line.comment.column == block[-1].comment.column):
            close()
            block = []
        if line.comment:
            block.append(line)
    if block:
        close()
    return [
        written.get(it.number, "").ljust(columns[it.number] - 1) + it.comment.text.rstrip(" \t")
        if it.comment
        else written.get(it.number, "")
        for it in document.lines
    ]


def laid_out(text: str, columns: bool = False) -> str:
    """The text laid out. Where it is refused, or where laid out it would be another
    specification, it is Refused."""
    before = formatted(text)
    document = document_of(text)
    written = statements(document)
    if columns:
        written = in_columns(document, written)
    result = "\n".join(with_comments(document, written)) + "\n"
    try:
        after = formatted(result)
    except Refused as fault:
        raise Refused(f"laid out it would be refused: {fault}") from fault
    if after != before:
        raise Refused("laid out it would not be the same specification")
    return result
