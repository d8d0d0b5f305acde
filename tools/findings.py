"""What the program says of a specification, as findings with places: for tools/report and whoever shows them.

look_at(path, asked) runs the program on a text and gives a Report: the answers of the program line by line, and a list
of Findings. The verdict is always the program's; rules.py and remedies.py say where a refused text is at fault, and why.
All texts of a finding are fit for a terminal: control characters are written as \\x1b."""
from __future__ import annotations

import os
import re
from typing import Dict, List, NamedTuple, Optional, Sequence, Set, Tuple

import program
from language import Cell, Document, Line, Piece, Row, Table, assertions, document_of, lines_of, printable, text_of
from remedies import Told, told_of
from rules import assertion_faults_of, faults_of

# Nobody mends more faults of a text at once, and each costs a search for names that are alike.
MOST_TOLD = 200

# From the best to the worst, for the status of several runs.
WORST = (0, 8, 1, 4, 10, 3, 2, 5, 7, 6)


class Place(NamedTuple):
    """A part of a file: columns count characters from 1, and end_column is the one behind it."""

    path: str
    line: int
    column: int
    end_column: int
    text: str = ""


class Value(NamedTuple):
    """A variable of a state, or of an old and a new one; new is None where there is one state or it is not told."""

    name: str
    old: Optional[str]
    new: Optional[str]

    @property
    def is_changed(self) -> bool:
        """Whether both are told, and differ."""
        return self.old is not None and self.new is not None and self.old != self.new

    @property
    def told(self) -> str:
        """As `x = 1` or `x = 1 -> 2`."""
        known = [it for it in (self.old, self.new) if it is not None]
        prime = "'" if self.old is None else ""
        return f"{self.name}{prime} = {' -> '.join(known if self.is_changed else known[:1])}"


class Finding:
    """What is found at a place; the answer is the line of the program that says so, or nothing where the tool does."""

    def __init__(self, place: Place, level: str, kind: str, message: str, remedy: str = "", answer: str = "") -> None:
        self.place, self.level, self.kind = place, level, kind
        self.message, self.remedy, self.answer = printable(message), printable(remedy), printable(answer)
        self.is_after = False  # behind the first fault of a text, which is the one that the program tells
        self.name = ""  # of a table, an assertion, or what breaks a rule
        self.modes: List[str] = []
        self.state: List[Value] = []
        self.named: List[str] = []  # the variables of the state that an assertion names
        self.related: List[Tuple[Place, str]] = []


class Report:
    """The answers of the program on a text, by its word; what was tried; the findings; and the worst status."""

    def __init__(self, path: str) -> None:
        self.path = path
        self.status = 0
        self.answers: Dict[str, List[str]] = {}
        self.findings: List[Finding] = []
        self.tried: List[Tuple[str, str]] = []  # what was tried, as ("table", its name), for formats that count

    def ended(self, word: str, answer: program.Answer) -> None:
        """Keeps what a run of the program said."""
        self.answers[word] = [printable(it) for it in answer.lines]
        self.status = worst(self.status, answer.status)


def worst(*statuses: int) -> int:
    """The worst of some statuses."""
    return max(statuses, key=lambda it: WORST.index(it) if it in WORST else len(WORST))


def shown(text: str) -> str:
    """A part of a text on one line."""
    return printable(" ".join(text.split()))


def place_of(path: str, piece: Piece) -> Place:
    """The place of a piece."""
    return Place(path, piece.line, piece.column, piece.end, shown(piece.text))


def values_of(witness: str) -> List[Value]:
    """The values of a witness, in its order, the old and the new one of a variable together."""
    old: Dict[str, str] = {}
    new: Dict[str, str] = {}
    for value in witness.split():
        name, _, what = value.partition("=")
        (new if name.endswith("'") else old)[name.rstrip("'")] = what
    names = list(dict.fromkeys(it.partition("=")[0].rstrip("'") for it in witness.split()))
    return [Value(it, old.get(it), new.get(it)) for it in names]


# A text that is refused


def refusal(path: str, answer: str, told: List[Told]) -> List[Finding]:
    """The findings of a refused text: what the program tells first, and then the others."""
    found = []
    if not told or told[0].fault.answer != answer.replace("assert ", "", 1):  # the program has the say, always
        line = re.match(r"(?:assert )?line (\d+): (\w+) ?(.*)$", answer)
        number = int(line[1]) if line else 0
        message = " ".join(filter(None, line.groups()[1:])) if line else answer
        found.append(Finding(Place(path, number, 1, 1), "error", line[2] if line else "syntax", message, "", answer))
    for it in told:
        answered = answer if not found else ""
        finding = Finding(place_of(path, it.piece), "error", it.fault.kind, it.message, it.remedy, answered)
        finding.name, finding.is_after = it.fault.name, bool(found)
        found.append(finding)
    return found


# Verdicts


def row_name(row: Row) -> str:
    """The modes of a row as [A, B], or nothing."""
    return f" [{', '.join(it.text for it in row.modes)}]" if row.modes else ""


def cell_text(cell: Cell) -> str:
    """A cell as it is told, with its target in a mode table."""
    text = shown(cell.text)
    text = text if len(text) <= 200 else text[:197] + "..."
    return f"`{text}`" + (f" (to {cell.target.text})" if cell.target else "")


def short(text: str) -> str:
    """A cell that is short enough to stand in a remedy; else two dots stand for it."""
    return shown(text) if len(text) <= 60 else ".."


def disjoint_remedy(table: Table, cells: List[Cell]) -> str:
    """What helps where two cells hold together."""
    first, second = (it.text for it in cells)
    if table.kind != "CONDITION":
        return "keep one of them out of the other: by WHEN, or by AND NOT (..) in what becomes so"
    for always, other in ((first, second), (second, first)):
        if always.strip() == "TRUE":
            return f"TRUE holds together with every other cell: in its place write `NOT ({short(other)})`"
    return f"let one hold only where the other does not: `{short(second)} AND NOT ({short(first)})`, with parentheses round an OR"


def cover_remedy(row: Row) -> str:
    """What helps where no cell of a row holds."""
    others = " AND ".join(f"NOT ({short(it.text)})" for it in row.cells[:4])
    return f"give the case a cell: a last one of `{others}` is all that is left"


def verdict_finding(path: str, text: Document, line: str) -> Optional[Finding]:
    """The finding of a line on a table, if it is one."""
    parts = re.match(r"table (\w+): (?:(undecided)|no (\w+) row (\d+)(?: columns? ([\d ]+))?:(.*))$", line)
    table = text.table_of.get(parts[1]) if parts else None
    if not parts or not table:
        return None
    if parts[2]:
        remedy = "a higher limit helps, or another order of the declarations, as tools/reorder writes it"
        found = Finding(place_of(path, table.name), "warning", "undecided", f"{table.name.text}: more splits than the limit", remedy, line)
        found.name = table.name.text
        return found
    kind, number = parts[3], int(parts[4])
    columns = [int(it) for it in (parts[5] or "").split()]
    row = table.rows[number - 1] if number <= len(table.rows) else Row(table.line, [], [])
    cells = [it for it in (table.cell(number, k) for k in columns) if it]
    if not cells and kind != "cover":
        return None
    return of_goal(path, text, table, row, number, kind, cells, columns, values_of(parts[6]), line)


def of_goal(
    path: str, text: Document, table: Table, row: Row, number: int, kind: str, cells: List[Cell], columns: List[int],
    state: List[Value], line: str,
) -> Finding:
    """The finding of a goal that is not met."""
    where = f"{table.name.text} row {number}{row_name(row)}"
    place = place_of(path, cells[0].places[0]) if cells else place_of(path, (row.modes or [Piece("ROW", row.line, 1)])[0])
    if kind == "disjoint":
        message = f"{where}: {cell_text(cells[0])} and {cell_text(cells[-1])} hold together"
        remedy = disjoint_remedy(table, [cells[0], cells[-1]])
    elif kind == "cover":
        message = f"{where}: none of {', '.join(cell_text(it) for it in row.cells)} holds"
        remedy = cover_remedy(row)
    else:
        value = table.values[columns[0] - 1].text if columns and columns[0] <= len(table.values) else ""
        span = text.range_of(table.name.text)
        message = f"{where}: where {cell_text(cells[0])} holds, the value `{shown(value)}` is outside {span[0]} .. {span[1]}" if span else where
        guard = "by AND" if table.kind == "CONDITION" else "by WHEN"
        remedy = f"keep the cell {guard} to where the value stays in the type, or widen the type"
    found = Finding(place, "error", kind, message, remedy, line)
    found.name, found.modes, found.state = table.name.text, [it.text for it in row.modes], state
    more = [it for cell in cells for it in cell.places][1:] if cells else [cell.places[0] for cell in row.cells]
    found.related = [(place_of(path, it), f"the cell `{shown(it.text)}`") for it in more]
    if kind == "range" and columns and columns[0] <= len(table.values):
        found.related.append((place_of(path, table.values[columns[0] - 1]), "its value"))
    return found


# Cycles


def new_names(tokens: Sequence[Piece], has_events: bool) -> List[Piece]:
    """The names of a cell that are read in the new state: of an event those in its changes, and not behind WHEN."""
    found, opened, inside = [], 0, not has_events
    for token in tokens:
        if has_events and opened == 0:
            inside = inside and token.text == "("
        if token.text in ("@T", "@F", "@C"):
            inside = True
        elif token.text == "(":
            opened += 1
        elif token.text == ")":
            opened = max(0, opened - 1)
        elif token.kind == "name" and inside:
            found.append(token)
    return found


def reads(text: Document, table: Table, name: str) -> List[Piece]:
    """Where a table reads a variable in the new state."""
    has_events = table.kind != "CONDITION"
    found = [table.over] if table.over and not has_events and table.over.text == name else []
    for row in table.rows:
        for cell in row.cells:
            for place in cell.places:
                tokens = tokens_of(text, place)
                found += [place] if any(it.text == name for it in new_names(tokens, has_events)) else []
    wanted = name + "'" if has_events else name
    found += [it for it in table.values if any(token.text == wanted for token in tokens_of(text, it))]
    return found


def tokens_of(text: Document, place: Piece) -> List[Piece]:
    """The tokens of a part of a line."""
    return [it for it in text.lines[place.line - 1].tokens if place.column <= it.column < place.end]


def cycle_finding(path: str, text: Document, line: str) -> Optional[Finding]:
    """The finding of a cycle, with the cells that make it."""
    names = line.split()[1:] if line.startswith("circular: ") else []
    table = text.table_of.get(names[0]) if names else None
    if not table:
        return None
    steps = list(zip(names, names[1:]))
    read = [(name, other, reads(text, text.table_of[name], other)) for name, other in steps if name in text.table_of]
    first = next((places[0] for _, _, places in read if places), table.name)
    told = ", ".join(f"{a} reads {b}" for a, b in steps)
    remedy = "let one of them read the old state: behind WHEN, without a prime in VALUES of an EVENT table, or as the class of one"
    found = Finding(place_of(path, first), "error", "circular", f"these need each other's new values: {told}", remedy, line)
    found.name = names[0]
    found.related = [(place_of(path, it), f"{a} reads {b} in `{shown(it.text)}`") for a, b, places in read for it in places]
    return found


# Assertions, invariants, scripts


def assertion_finding(path: str, of: Document, lines: List[Line], line: str, initial: List[Value]) -> Optional[Finding]:
    """The finding of a line on an assertion, if it is one: what changed, and the values that it names."""
    parts = re.match(r"assert (\w+): (?:(undecided)|(false) initial|(unproved):(.*))$", line)
    asserted = next((it for it in assertions(lines) if parts and it.name.text == parts[1]), None)
    if not parts or not asserted:
        return None
    tokens = lines[asserted.line - 1].tokens
    named = list(dict.fromkeys(it.text.rstrip("'") for it in tokens if it.column >= asserted.condition.column))
    named = [it for it in named if it in of.names and of.names[it].is_variable]
    if parts[2]:
        message, level, kind, state = "more splits than the limit", "warning", "undecided", []
        remedy = "a higher limit helps, another order of the declarations, or a slice for the variables that it names"
    elif parts[3]:
        message, level, kind, state = "it is false in the initial state", "error", "false", initial
        remedy = "change the assertion, or the values behind INIT"
    else:
        message, level, kind, state = "it is not proved: a step stands in the way", "error", "unproved", values_of(parts[5])
        remedy = "where no run reaches the old state, say by AND what keeps it out; else the tables let it come: see docs/ASSERTIONS.md"
    found = Finding(place_of(path, asserted.name), level, kind, f"{asserted.name.text}: {message}", remedy, line)
    found.name, found.state, found.named = asserted.name.text, state, named
    return found


def first_state(path: str) -> List[Value]:
    """The initial state, as simulate tells it."""
    answer = program.run("simulate", path, os.devnull)
    return [Value(*it.partition("=")[::2], None) for it in (answer.lines or [""])[0].split()[1:]]


SCRIPT_FAULTS = {
    "limit": ("the script is too long", "split the script"),
    "syntax": ("the line has no form", "a line is `SET name value`, and a comment begins with `#`"),
    "unknown": ("no monitored variable", "only monitored variables are set"),
    "value": ("no value of the variable's type", "write one of its values; constants are none here"),
    "nochange": ("the variable has this value already", "an input is a change: take the line away"),
    "nat": ("the step is larger than NAT allows", "go there in several steps"),
    "back": ("so many earlier states are not kept", "take fewer back"),
}


def script_finding(path: str, lines: List[Line], line: str) -> Optional[Finding]:
    """The finding of a faulty line of a script."""
    parts = re.match(r"script line (\d+): (\w+)$", line)
    if not parts or parts[2] not in SCRIPT_FAULTS:
        return None
    number = int(parts[1])
    words = lines[number - 1].tokens if number <= len(lines) else []
    at = {"unknown": 1, "value": 2, "nochange": 2, "nat": 2}.get(parts[2], 0)
    piece = words[min(at, len(words) - 1)] if words else Piece("", number, 1)
    message, remedy = SCRIPT_FAULTS[parts[2]]
    return Finding(place_of(path, piece), "error", "script " + parts[2], message, remedy, line)


def uncovered(path: str, text: Document, lines: List[str]) -> List[Finding]:
    """The cells that held at no input, FALSE and NEVER apart."""
    found = []
    for line in lines:
        parts = re.match(r"table (\w+) row (\d+) column (\d+): 0$", line)
        table = text.table_of.get(parts[1]) if parts else None
        cell = table.cell(int(parts[2]), int(parts[3])) if parts and table else None
        if not parts or not table or not cell or re.fullmatch(r"[( ]*(FALSE|NEVER( OR NEVER)*)[) ]*", cell.text):
            continue
        row = table.rows[int(parts[2]) - 1]
        message = f"{table.name.text} row {parts[2]}{row_name(row)}: {cell_text(cell)} holds at no input of the script"
        finding = Finding(place_of(path, cell.places[0]), "note", "uncovered", message, "add inputs that lead there", line)
        finding.name, finding.modes = table.name.text, [it.text for it in row.modes]
        found.append(finding)
    return found


def derived(path: str, text: Document, lines: List[str]) -> List[Finding]:
    """What invariants derives for the modes, and the classes that stay undecided."""
    found, name = [], ""
    for line in lines:
        if line.startswith("class "):
            name = line.split()[1]
            continue
        of = text.names.get(name)
        parts = re.match(r"(undecided round )?(\w+) (\w+) (.*)$", line)
        if not of or not parts:
            continue
        mode = next((it for it in of.members if it.text == (parts[3] if parts[1] else parts[2])), of.name)
        if parts[1]:
            message, level = f"{name} is undecided: `{shown(parts[4])}` in {parts[3]} has more splits than the limit", "warning"
        else:
            condition = line.split(None, 2)[2]
            message, level = f"in {mode.text} of {name}: {shown(condition)}", "note"
        finding = Finding(place_of(path, mode), level, "undecided" if parts[1] else "invariant", message, "", line)
        finding.name = name
        found.append(finding)
    return found


# Runs


def sibling(path: str, ending: str) -> Optional[str]:
    """The file beside a specification with another ending, if there is one."""
    other = (path[:-4] if path.endswith(".scr") else path) + ending
    return other if os.path.isfile(other) else None


def look_at(path: str, asked: Set[str], limit: Sequence[str] = ()) -> Report:
    """Checks a text, and where that is all yes goes on to what is asked: assert, invariants and cover."""
    report = Report(path)
    answer = program.run("check", path, *limit)
    report.ended("check", answer)
    if answer.status not in (program.DONE, program.FINDINGS, program.SPEC_REFUSED, program.UNDECIDED):
        why = (answer.error or answer.lines or [f"the program ended with status {answer.status}"])[0]
        report.findings.append(Finding(Place(path, 1, 1, 1), "error", "read", why))
        return report
    source = text_of(path)
    text = document_of(source)
    if answer.status == program.SPEC_REFUSED:
        told = [told_of(it, text) for it in faults_of(source)[:MOST_TOLD]]
        report.tried.append(("text", ""))
        report.findings += refusal(path, answer.lines[0] if answer.lines else "", told)
        return report
    for line in answer.lines:
        if line.startswith("table "):
            report.tried.append(("table", line.split()[1].rstrip(":")))
        finding = verdict_finding(path, text, line) or cycle_finding(path, text, line)
        report.findings += [finding] if finding else []
    if answer.status == program.DONE:
        for word, way in (("assert", with_assert), ("invariants", with_invariants), ("cover", with_cover)):
            if word in asked:
                way(report, source, text, limit)
    return report


def with_assert(report: Report, source: str, text: Document, limit: Sequence[str]) -> None:
    """Judges NAME.assert, if it is there."""
    path = sibling(report.path, ".assert")
    if path is None:
        return
    answer = program.run("assert", report.path, path, *limit)
    report.ended("assert", answer)
    asserted = text_of(path)
    lines = lines_of(asserted)
    if answer.status == program.ASSERT_REFUSED:
        about = document_of(source)
        about.lines = lines
        told = [told_of(it, about) for it in assertion_faults_of(asserted, source)[:MOST_TOLD]]
        report.tried.append(("assertions", ""))
        report.findings += refusal(path, answer.lines[0] if answer.lines else "", told)
        return
    initial = first_state(report.path) if any(it.endswith(": false initial") for it in answer.lines) else []
    for line in answer.lines:
        report.tried.append(("assertion", line.split()[1].rstrip(":")))
        finding = assertion_finding(path, text, lines, line, initial)
        report.findings += [finding] if finding else []


def with_invariants(report: Report, _: str, text: Document, limit: Sequence[str]) -> None:
    """Tells what is derived of the modes."""
    answer = program.run("invariants", report.path, *limit)
    report.ended("invariants", answer)
    report.tried += [("class", it.split()[1]) for it in answer.lines if it.startswith("class ")]
    report.findings += derived(report.path, text, answer.lines)


def with_cover(report: Report, _: str, text: Document, limit: Sequence[str]) -> None:
    """Tells the cells that NAME.script does not try, if it is there."""
    path = sibling(report.path, ".script")
    if path is None:
        return
    answer = program.run("cover", report.path, path, *limit)
    report.ended("cover", answer)
    report.tried.append(("script", ""))
    report.findings += uncovered(report.path, text, answer.lines)
    last = answer.lines[-1] if answer.lines else ""
    finding = script_finding(path, lines_of(text_of(path)), last) if answer.status == program.SCRIPT_REFUSED else None
    report.findings += [finding] if finding else []
