"""The declarations and tables of a specification, as the lines of its text have them.

The text is taken to be right: scr check tells its faults."""
import re
import signal
import sys

# Comments may hold any bytes. So none is changed, and only a line feed ends a line.
ANY_BYTES = {"encoding": "utf-8", "errors": "surrogateescape", "newline": "\n"}


class Table:
    """A table with its rows, each a list of modes and a list of cells. The rows of a mode table are its sources, and its cells go by targets."""

    def __init__(self, kind, name, over):
        self.kind, self.name, self.over = kind, name, over
        self.rows, self.values, self.changes = [], [], {}

    def add_row(self, modes, cells):
        self.rows.append((split(modes, ","), split(cells, "|")))

    def add_change(self, source, target, event):
        """Adds a line of a mode table. Lines with the same source and target are one cell."""
        self.changes.setdefault(source, {}).setdefault(target, []).append(event)

    def close(self):
        """Makes the rows of a mode table, once all its lines are there."""
        for source, cells in self.changes.items():
            self.rows.append(([source], [" OR ".join(events) for events in cells.values()]))


def split(words, sign):
    return [it.strip() for it in words.split(sign) if it.strip()]


def statement(line):
    """The statement of a line, without its comment, with single spaces."""
    return " ".join(line.split("#")[0].split())


def be_filter():
    """Lets standard output take what lines_of reads, and ends the tool as quietly as other filters where nobody reads on."""
    sys.stdout.reconfigure(**ANY_BYTES)
    signal.signal(signal.SIGPIPE, signal.SIG_DFL)


def lines_of(path):
    """The lines of a file, or of standard input for -."""
    if path == "-":
        sys.stdin.reconfigure(**ANY_BYTES)
        return sys.stdin.read().split("\n")
    try:
        with open(path, **ANY_BYTES) as text:
            return text.read().split("\n")
    except OSError as fault:
        sys.exit(f"{path}: cannot be read: {fault.strerror}")


def tables(lines):
    """The tables of a text, in its order, and the rows that are in no table of their kind."""
    found, stray = [], []
    for line in map(statement, lines):
        head = re.match(r"(CONDITION|EVENT|MODES) (\w+)(?: OVER (\w+))?$", line)
        row = re.match(r"ROW ?([^:]*):(.*)$", line)
        change = re.match(r"FROM (\w+) TO (\w+) ?: ?(.*)$", line)
        kind = found[-1].kind if found else None
        has_cells = kind in ("CONDITION", "EVENT")
        if head:
            found.append(Table(*head.groups()))
        elif row and has_cells:
            found[-1].add_row(*row.groups())
        elif change and kind == "MODES":
            found[-1].add_change(*change.groups())
        elif has_cells and line.startswith("VALUES "):
            found[-1].values = split(line[7:], "|")
        elif re.match(r"(ROW|FROM|VALUES)\b", line):
            stray.append(line)
    for table in found:
        table.close()
    return found, stray


def sizes(lines):
    """The variables of a text in order of declaration, each with the number of its values."""
    types, found = {"BOOLEAN": 2}, {}
    for line in map(statement, lines):
        span = re.match(r"TYPE (\w+) ?= ?(- ?)?(\d{1,7}) ?\.\. ?(- ?)?(\d{1,7})$", line)
        names = re.match(r"(TYPE|MODECLASS) (\w+) ?= ?\{(.*)\}", line)
        variable = re.match(r"(?:MONITORED|TERM|CONTROLLED) (\w+) ?: ?(\w+)", line)
        if span:
            low, high = (int(digits) * (-1 if minus else 1) for minus, digits in (span.group(2, 3), span.group(4, 5)))
            types[span[1]] = high - low + 1
        elif names:
            (types if names[1] == "TYPE" else found)[names[2]] = len(split(names[3], ","))
        elif variable:
            found[variable[1]] = types[variable[2]]
    return found
