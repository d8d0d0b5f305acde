"""What helps: for a fault of a text, the piece that a person would point at, and a remedy where the mistake is a usual one.

with_remedies(text, faults) gives a Told for each fault of rules.py. Each usual mistake is a function or a line of a
table here; the first that fits is told."""
from __future__ import annotations

import difflib
import re
from typing import Callable, Dict, List, NamedTuple, Sequence

from forms import DECLARE, HEADS, RELATIONS
from language import RESERVED, Document, Line, Piece, document_of
from rules import KEYWORDS, Fault, meant_keyword

# Words of other languages, and what is written here.
FOREIGN_WORDS = {
    "IF": "a guard is written WHEN", "THEN": "`if a then b` is written `NOT (a) OR b`",
    "IMPLIES": "`a implies b` is written `NOT (a) OR b`",
    "ELSE": "there is no ELSE: write NOT and the other cells, as `NOT (a)` or `NOT (a) AND NOT (b)`",
    "OTHERWISE": "there is no OTHERWISE: write NOT and the other cells, as `NOT (a)`",
    "OTHERS": "there is no OTHERS: name each mode", "XOR": "`a xor b` is written `a != b`, of Booleans",
    "INMODE": "there is no Inmode: the row says the mode; at its entry write `@T(Class = Mode)`",
    "UNLESS": "`unless a` is written WHEN NOT (a)", "UNCHANGED": "a value that is kept is its own name, in VALUES",
    "MOD": "there is no remainder", "DIV": "there is no quotient: compare products, as `a < 20 * b`",
}
FOREIGN_TYPES = {
    "BOOL": "BOOLEAN", "BOOLEAN": "BOOLEAN", "LOGICAL": "BOOLEAN",
    "INT": "", "INTEGER": "", "NATURAL": "", "NUMBER": "", "REAL": "", "FLOAT": "", "STRING": "",
}
# What is written in other languages, with what is written here: the whole piece is told.
SIGNS = (
    (r"==", "equal is written `=`"), (r"<>|/=|=/=|~=", "unequal is written `!=`"), (r"!(?!=)", "not is written NOT"),
    (r"&&?", "and is written AND"), (r"\|\|", "or is written OR; a single bar parts the cells"),
    (r"<=>|<->", "`a if and only if b` is `a = b` of Booleans; of conditions give each a term"),
    (r"=>|->|==>|-->", "`a implies b` is written `NOT (a) OR b`"), (r"=<", "less or equal is written `<=`"),
    (r":=", "a value is given by `=`"), (r"//|/\*|--", "a comment begins with `#`, and goes to the end of its line"),
    (r";", "nothing ends a line but its end: take the `;` away"), (r"\.\.\.+", "a range is written `0 .. 9`, with two dots"),
    (r"\d+\.\d+", "there are no reals: take a smaller unit, as tenths"), (r"[~^](?!=)", "not is written NOT"),
    (r"@[tfc]\b", "a change is written in capitals: @T, @F or @C"), (r"[TFC]@", "the sign stands first: @T, @F or @C"),
    (r"@[A-Za-z0-9_]*", "the changes are @T, @F and @C, with parentheses behind: `@T(a)`"),
    (r"/", "there is no quotient: compare products, as `a < 20 * b`"), (r"[\"']", "names and values stand without quotes"),
    (r"_\w*", "a name begins with a letter"), (r"[\[\]]", "parentheses are ( and ), and lists stand in { and }"),
    (r"\\", "a line cannot be continued: what is long is given a term of its own"),
    (r"%", "there is no remainder"), (r"\.", "a name is of letters, digits and `_`, and a number of digits"),
)
LOOKALIKES = {
    "\ufeff": "the file begins with a byte order mark: save it as UTF-8 without one",
    "\u00a0": "this is a non-breaking space: write a plain space", "\u200b": "this is a space that is not seen: take it away",
    "\u2264": "less or equal is written `<=`", "\u2265": "greater or equal is written `>=`", "\u2260": "unequal is written `!=`",
    "\u00ac": "not is written NOT", "\u2227": "and is written AND", "\u2228": "or is written OR", "\u2192": "a mode change is written FROM a TO b",
    "\u2013": "minus is written `-`", "\u2014": "minus is written `-`", "\u2212": "minus is written `-`", "\u00d7": "times is written `*`",
    "\u2019": "a prime is written `'`", "\u2032": "a prime is written `'`", "\u2026": "a range is written `..`",
    "\r": "a line ends with a line feed, or with a carriage return and a line feed",
}


class Told(NamedTuple):
    """A fault as it is told: where, what is wrong, and what helps."""

    fault: Fault
    piece: Piece
    message: str
    remedy: str


class Case:
    """A fault with what a remedy looks at."""

    def __init__(self, fault: Fault, document: Document) -> None:
        self.fault, self.document, self.piece = fault, document, fault.piece
        lines = document.lines
        number = fault.piece.line
        self.line = lines[number - 1] if 1 <= number <= len(lines) else Line(number, "")
        self.code = self.line.code
        self.first = self.line.tokens[0].text if self.line.tokens else ""
        self.table = next((it for it in reversed(document.tables) if it.line < number), None)

    def before(self) -> Piece:
        """The token before the piece."""
        found = [it for it in self.line.tokens if it.column < self.piece.column]
        return found[-1] if found else Piece("", self.piece.line, 1)

    def behind(self, steps: int = 1) -> Piece:
        """The token so many steps behind the piece."""
        found = [it for it in self.line.tokens if it.column >= self.piece.column]
        return found[steps] if len(found) > steps else Piece("", self.piece.line, len(self.code) + 1, "end")


def of_byte(case: Case) -> str:
    sign = case.piece.text
    if ord(sign) < 32 or 0xD800 <= ord(sign) < 0xE000:
        return LOOKALIKES.get(sign, "take this byte away, or save the file as UTF-8 and write it in a comment")
    return LOOKALIKES.get(sign, "names are of ASCII letters, digits and `_`; other characters may stand behind `#`")


def of_sign(case: Case) -> str:
    """A sign of another language that covers the piece, which is then told as a whole."""
    column = case.piece.column
    for pattern, remedy in SIGNS:
        for found in re.finditer(pattern, case.code):
            begins, ends = found.start() + 1, found.end() + 1
            if begins <= column < ends and is_foreign(found[0], case.piece):
                case.piece = Piece(found[0], case.piece.line, begins, "foreign")
                return remedy
    return ""


def is_foreign(text: str, piece: Piece) -> bool:
    """Whether a sign is one of another language: not one of these that merely stands in a wrong place."""
    return piece.kind == "bad" or text in ("==", "<>", "||", "=>", "->", "=<", ":=", "--", "<=>", "<->", "==>", "-->", "=/=")


def of_first_word(case: Case) -> str:
    """A line that begins with no word of this place."""
    if case.piece.column != (case.line.tokens[0].column if case.line.tokens else 0):
        return ""
    if re.match(r"\s*\w+\s*(->|=>|-->)\s*\w+", case.code):
        return "a mode change is written `FROM a TO b : event`"
    if case.first in ("|", ":", "AND", "OR", ")", "+", ","):
        return "a line cannot be continued: write the line as one, or give a part of it a term of its own"
    meant = "" if case.first in KEYWORDS else meant_keyword(case.first)
    if meant:
        return f"keywords are written in capitals: {meant}" if meant == case.first.upper() else f"is {meant} meant?"
    return of_place(case)


def of_place(case: Case) -> str:
    """A line that cannot stand in this place."""
    word, place, table = case.first, case.fault.place, case.table
    if place == "start":
        return "a text begins with SPECIFICATION and its name"
    if place == "after":
        return "nothing stands behind FINISH: move this line before it"
    if word == "ASSERT":
        return "assertions stand in a file of their own, for `scr assert`"
    head = f"{table.kind} {table.name.text} (line {table.line})" if table else "the table"
    if place == "first row":
        return "ROW lines come first, then VALUES" if word == "VALUES" else f"{head} has no ROW yet"
    if place == "rows":
        if word == "FROM":
            return "FROM lines stand in a MODES table; here write `ROW modes : cells`"
        return f"{head} has no VALUES yet: a value for each cell stands between the rows and END"
    if place == "transitions" and word in ("ROW", "VALUES"):
        return "a MODES table has lines `FROM a TO b : event`, and no ROW or VALUES"
    if place == "closed" and word == "ROW":
        return "all ROW lines stand before VALUES"
    if place in ("closed", "transitions"):
        return f"{head} has no END: put END in a line before this one"
    if place == "tables" and word in DECLARE:
        first = case.document.tables[0].line if case.document.tables else 1
        return f"declarations stand before the first table: move this line above line {first}"
    if place == "tables" and word in ("ROW", "FROM", "VALUES", "END"):
        return "no table is open here: a table begins with CONDITION, EVENT or MODES"
    return "a line begins with a keyword; " + listed(case.fault.expected) + " may stand here"


def of_declaration(case: Case) -> str:
    word, piece, code = case.first, case.piece, case.code
    if word not in DECLARE + ("SPECIFICATION",) + HEADS:
        return ""
    if piece.text in RESERVED and "a name" in "".join(case.fault.expected):
        return f"{piece.text} is a reserved word: take another name"
    before, behind = case.before(), case.behind()
    if piece.text == "-" and before.kind == "name" and before.end == piece.column:
        case.piece = Piece(f"{before.text}-{behind.text}", piece.line, before.column, "foreign")
        return f"a name is of letters, digits and `_`: {before.text}_{behind.text}"
    if word in ("MONITORED", "TERM", "CONTROLLED"):
        if "the name of a type" in case.fault.expected:
            return "give the type a name first, as `TYPE T = 0 .. 9` or `TYPE T = { A, B }`, and write that here"
        if piece.kind == "end" and "INIT" in case.fault.expected:
            return "a monitored variable begins with a value: write INIT and it behind the type"
        if "INIT" in case.fault.expected and re.match(r"(?i)init|=|:", piece.text):
            return "the first value is written `INIT value`"
        if "INIT" in case.fault.expected:
            return "behind the type stands INIT and a value"
    if word == "TYPE" and piece.text in ("TO", "-", ",", ":"):
        return "a range is written `0 .. 9`"
    if word in ("TYPE", "CONST") and piece.kind == "name":
        return "numbers are written out here: a constant cannot stand in a declaration of a type or a constant"
    if word in ("TYPE", "CONST", "MODECLASS") and piece.text == ":":
        return f"behind the name stands `=`: {word} {case.before().text} = .."
    if word in ("TYPE", "MODECLASS") and piece.text == "}":
        return "a list has one name at least, and none behind its last comma"
    if word == "MODECLASS" and "INIT" in case.fault.expected:
        return "a mode class begins with a mode: write INIT and it behind the list"
    if word == "MODES" and piece.text == "OVER":
        return "a MODES table is that of its class: take OVER away"
    if word == "NAT":
        return "a bound is written `NAT name STEP number`, with a number above 0"
    return ""


def of_cell(case: Case) -> str:
    """A condition or an event that does not go on."""
    piece, text, before, code = case.piece, case.piece.text, case.before(), case.code
    in_events = case.table is not None and case.table.kind != "CONDITION"
    never = "NEVER" if in_events and case.first != "VALUES" else "FALSE"
    wants_event = "@T" in case.fault.expected
    ends = text in ("|", "") or piece.kind == "end"
    if case.first == "FROM" and text == "," and "TO" in case.fault.expected:
        return "a FROM line has one source: write one line for each"
    if piece.kind == "primed":
        return "a prime stands only in VALUES of an EVENT table, and in assertions; here WHEN tells the old state from the new"
    if ends and before.text in ("|", ":", "VALUES") and ")" not in case.fault.expected:
        return "a value stands behind each bar" if case.first == "VALUES" else f"no cell is empty: one that never holds is {never}"
    if ends and before.text == "-":
        case.piece = before
        return f"a cell that never holds is {never}"
    if piece.kind == "end" and ")" in case.fault.expected:
        return "a `(` is not closed: write `)`"
    if text == ")" and "the end of the line" in case.fault.expected:
        return "there is one `)` more than `(`: take it away"
    if text == "|" and ")" in case.fault.expected:
        return "a `(` is not closed in this cell: write `)`"
    if wants_event and before.text == "OR" and "WHEN" in code[: piece.column]:
        return "an OR behind WHEN wants parentheses: `WHEN (a OR b)`"
    if wants_event and text in ("FALSE", "TRUE"):
        return "a cell that never holds is NEVER here" if text == "FALSE" else "a cell here is an event: @T, @F or @C"
    if wants_event:
        return "a cell here is an event: `@T(condition)` where it becomes true, `@F(..)` where false, `@C(name)` where it changes"
    if text in ("@T", "@F", "@C", "NEVER", "WHEN") and not in_events:
        return "the cells of a CONDITION table are conditions: events stand in EVENT and MODES tables"
    if text in ("@T", "@F", "@C"):
        return "a change stands by itself, not inside a condition: `@T(a) WHEN b`, or `@T(a AND b)`"
    if before.text in ("@T", "@F", "@C"):
        return f"what becomes so stands in parentheses: {before.text}(..)"
    if before.text == "NEVER" and text == "WHEN":
        return "NEVER has no guard: take WHEN away"
    if text == "AND" and "WHEN" in case.fault.expected:
        return "events are not joined by AND: write `@T(a AND b)`, or `@T(a) WHEN b`"
    if text == "," and "@C" in code[: piece.column]:
        return "@C has one name: write `@C(a) OR @C(b)`"
    if text == "*":
        return f"the factor stands first: {case.behind().text or 2} * {before.text}"
    if text in RELATIONS + ("+", "-", "*") and before.text == ")":
        return "parentheses stand round conditions, and not round sums: take them away"
    if text in RELATIONS:
        return "two comparisons are joined by AND: `a <= x AND x < b`"
    if text in ("TRUE", "FALSE") and before.text == "*":
        return "a factor stands before a name of numbers"
    return ""


def of_word(case: Case) -> str:
    """A name that is a keyword in small letters, or a word of other languages."""
    text = case.piece.text
    if case.piece.kind in ("name", "keyword") and text.upper() in FOREIGN_WORDS:
        return FOREIGN_WORDS[text.upper()]
    if case.piece.kind == "name" and text.upper() in RESERVED and text not in RESERVED:
        return f"keywords are written in capitals: {text.upper()}"
    if case.first == "END":
        return "END stands alone in its line"
    return ""


def of_syntax(case: Case) -> str:
    for way in (of_sign, of_first_word, of_word, of_declaration, of_cell):
        remedy = way(case)
        if remedy:
            return remedy
    if case.piece.text.endswith("'") and case.piece.kind == "bad":
        return "a reserved word has no prime"
    if "the end of the line" in case.fault.expected and len(case.fault.expected) == 1:
        return "the line is complete here: take the rest away, or write it behind `#`"
    return f"write {listed(case.fault.expected)} here" if case.fault.expected else ""


def of_limit(case: Case) -> str:
    told = case.fault.told
    for part, remedy in (
        ("range", "take a coarser unit, or a range that begins and ends closer"),
        ("name has", "take a shorter name"), ("number", "take a coarser unit"),
        ("items", "give a part of the sum a term of its own"), ("factor", "take a coarser unit"),
        ("line has", "give a part of the line a term of its own"), ("open", "give a part of the condition a term of its own"),
        ("NOT", "give a part of the condition a term of its own"), ("bars", "split the table into two"),
        ("text has", "split the specification into several"),
    ):
        if part in told:
            return remedy
    return "split the specification, or the table, into several"


def of_end(case: Case) -> str:
    if case.fault.place in ("start",):
        return "a text begins with SPECIFICATION and its name, and ends with FINISH"
    last = f"{case.table.kind} {case.table.name.text} (line {case.table.line})" if case.table else "the last table"
    if case.fault.place == "rows":
        return f"add VALUES and END to {last}, and FINISH behind it"
    if case.fault.place in ("closed", "transitions"):
        return f"add END to {last}, and FINISH behind it"
    return "add a last line FINISH"


def of_unknown(case: Case) -> str:
    name, document = case.fault.name, case.document
    upper = name.upper()
    if upper in FOREIGN_TYPES and case.first in ("MONITORED", "TERM", "CONTROLLED"):
        return f"the type is {FOREIGN_TYPES[upper]}" if FOREIGN_TYPES[upper] else "give the range a name, as `TYPE T = 0 .. 9`, and write that here"
    if upper in ("TRUE", "FALSE"):
        return f"the Boolean values are written in capitals: {upper}"
    if upper in FOREIGN_WORDS:
        return FOREIGN_WORDS[upper]
    if upper in RESERVED:
        return f"keywords are written in capitals: {upper}"
    later = document.names.get(name)
    if later and later.line > case.piece.line:
        return f"move line {later.line} above this one: a name is declared before it is used"
    if document.title and document.title.text == name:
        return "the name of the specification stands for nothing: write that of a variable or a value"
    near = nearest(name, list(document.names))
    return f"is {near} meant?" if near else "declare it above, or write a name that is declared"


def nearest(name: str, names: List[str]) -> str:
    """The declared name that is most like a name, or nothing."""
    for other in names:
        if other.lower() == name.lower():
            return other
    found = difflib.get_close_matches(name, names[:500], 1, 0.6)
    return found[0] if found else ""


def of_duplicate(case: Case) -> str:
    name = case.fault.name
    of = case.document.names.get(name)
    if case.first in HEADS:
        return "a variable has one table: join the two"
    if case.first == "NAT":
        return "keep one of the NAT lines"
    if of and of.kind in ("enumerator", "mode"):
        return f"there is one space of names, for all lists: take another one here, as {shorter(case, name)}"
    return "take another name here"


def shorter(case: Case, name: str) -> str:
    """A name for a member that is taken already: with that of its list."""
    owner = next((it.text for it in case.line.tokens if it.kind == "name"), "")
    return (owner + name)[:24]


def of_type(case: Case) -> str:
    piece, document = case.piece, case.document
    if case.first in HEADS:
        return of_head_type(case)
    if "INIT" in case.code and case.first in DECLARE:
        kind = document.names.get(case.fault.name)
        values = document.members_of(case.fault.name) if kind else []
        return f"its values are {listed(values[:8])}" if values else "write a number or a constant"
    if "prime" in case.fault.told:
        return "in a CONDITION table each name is read in the new state: take the prime away" if "CONDITION" in case.fault.told else "a prime stands behind the name of a variable"
    compared = re.match(r"(\w+)\s*(=|!=)\s*(\w+)$", piece.text)
    if compared:
        values = document.members_of(compared[1])
        if values and values != ["FALSE", "TRUE"]:
            return f"the values of {compared[1]} are {listed(values[:8])}"
        if document.range_of(compared[1]):
            return f"{compared[1]} is compared with numbers"
        if values:
            return f"{compared[1]} is a Boolean: write `{compared[1]}` or `NOT {compared[1]}`"
    if re.fullmatch(r"\w+", piece.text) and case.first != "VALUES":
        values = document.members_of(piece.text)
        return f"compare it, as `{piece.text} = {values[0]}`" if values else f"compare it, as `{piece.text} > 0`"
    if case.first == "VALUES":
        values = document.members_of(case.fault.name)
        return f"the values of {case.fault.name} are {listed(values[:8])}" if values else "write a number, a constant or a sum"
    return "compare values of one kind, and order and add up numbers alone"


def of_head_type(case: Case) -> str:
    of = case.document.names.get(case.piece.text)
    if of and of.kind == "monitored":
        return "a monitored variable comes from outside, and has no table"
    if of and of.kind == "mode class" and case.first != "MODES":
        return f"the table of a mode class is one of MODES: MODES {case.piece.text}"
    if case.piece.column > len(case.first) + len(case.fault.name) + 2:
        return "behind OVER stands a name that MODECLASS declares"
    return "tables are of terms and controlled variables, and MODES of mode classes"


def of_range(case: Case) -> str:
    if case.first == "TYPE":
        return "write the least value first"
    if case.first == "NAT":
        return "a step is 1 at least"
    return "write a value of the type, or widen the type"


def of_mode(case: Case) -> str:
    told, name = case.fault.told, case.fault.name
    if "no row" in told:
        return f"add a line `ROW {name} : ..`, or write {name} in one of the rows"
    if "same mode" in told:
        return "a mode that is kept needs no line: take it away, or write another target"
    if "already" in told:
        return "take it away from one of the two rows"
    of = case.document.names.get(name)
    return f"{name} is one of {of.owner}" if of and of.owner else "write a mode of the class"


def of_table(case: Case) -> str:
    told, name = case.fault.told, case.fault.name
    if "has INIT" in told:
        return "take INIT away from its declaration, or write EVENT"
    if "no INIT" in told:
        return "give it a first value, INIT and a value, or write CONDITION"
    if "has no class" in told:
        classes = [it.name.text for it in case.document.variables() if it.kind == "mode class"]
        return f"add the class to the head: OVER {classes[0]}" if classes else "take the modes away"
    if "no modes" in told:
        return "write the modes of the row before the `:`"
    if "one row" in told:
        return "join the rows, or add a class to the head with OVER"
    if "has no table" in told:
        return f"add a table for {name} before FINISH, or take its declaration away"
    comment = case.line.comment
    if comment and "|" in comment.text:
        return "the comment goes from `#` to the end of the line, so the cells behind it are none: move it to the end"
    what = "value" if case.first == "VALUES" else "cell"
    return f"write as many {what}s as the first row of the table has cells, with a bar between them"


def of_wide(case: Case) -> str:
    return "take smaller factors, or narrower types"


REMEDIES: Dict[str, Callable[[Case], str]] = {
    "byte": of_byte, "limit": of_limit, "syntax": of_syntax, "end": of_end, "duplicate": of_duplicate,
    "unknown": of_unknown, "type": of_type, "range": of_range, "wide": of_wide, "mode": of_mode, "table": of_table,
}


def listed(words: Sequence[str]) -> str:
    """Words as `a, b or c`."""
    return " or ".join(filter(None, (", ".join(words[:-1]), *words[-1:])))


def expectation(expected: Sequence[str]) -> str:
    """What was expected, with the relations as one."""
    words = list(expected)
    if set(RELATIONS) <= set(expected):
        words = ["a relation as = or <"] + [it for it in expected if it not in RELATIONS]
    return listed([it if " " in it or it.isalpha() else f"`{it}`" for it in words])


def told_of(fault: Fault, document: Document) -> Told:
    """A fault with its remedy."""
    case = Case(fault, document)
    remedy = REMEDIES[fault.kind](case)
    message = fault.told
    if fault.kind == "syntax":
        if case.piece.kind == "foreign":
            message = f"`{case.piece.text}` cannot stand here"
        if fault.expected:
            message += f": expected {expectation(fault.expected)}"
    return Told(fault, case.piece, message, remedy)


def with_remedies(text: str, faults: List[Fault]) -> List[Told]:
    """The faults of a text as they are told."""
    document = document_of(text)
    return [told_of(it, document) for it in faults]
