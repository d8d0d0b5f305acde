"""Finds the program scr and runs it, for all tools.

The program is what the environment variable SCR names; else the launcher scr of the checkout or release that has this
folder, through links to the folder as they stand; else scr on the path.

- find() gives its path, and ends the tool with status 125 and one line where there is none.
- run(WORD, ..) gives an Answer: status, lines of standard output, and what stands on standard error.
- version() gives the version that the launcher tells, or else that of the tools.
- the statuses have names: DONE, FINDINGS, .., UNDECIDED, as in docs/COMMANDS.md.
"""
from __future__ import annotations

import os
import shutil
import subprocess
import sys
from typing import List, NamedTuple, NoReturn, Optional

DONE, FINDINGS, USAGE, SPEC_REFUSED, SCRIPT_REFUSED, READ_FAULT, WRITE_FAULT, NO_MEMORY, UNDECIDED = range(9)
CODE_REFUSED, ASSERT_REFUSED, NAME_REFUSED = 9, 10, 11
NOT_BUILT = 125  # of the launcher

ANY_BYTES = {"encoding": "utf-8", "errors": "surrogateescape"}


class Answer(NamedTuple):
    """How a run of the program ended: its status, its lines, and the lines on standard error."""

    status: int
    lines: List[str]
    error: List[str]


class TooSlow(Exception):
    """The program did not end within the seconds that it was given."""


def stop(message: str, status: int = 2) -> NoReturn:
    """Ends the tool with one line on standard error that begins with the name of the tool."""
    tool = os.path.basename(sys.argv[0])
    print(f"{tool}: {printable(message)}", file=sys.stderr)
    sys.exit(status)


def printable(text: str) -> str:
    """The text on one line, its control characters and bytes that are no text written as \\xNN, for terminals."""
    if text.isprintable():
        return text
    return "".join(it if it.isprintable() else escaped(it) for it in text)


def escaped(sign: str) -> str:
    code = ord(sign)
    if 0xDC80 <= code <= 0xDCFF:  # a byte that is no text, as surrogateescape keeps it
        code -= 0xDC00
    return f"\\x{code:02x}" if code < 0x100 else f"\\u{code:04x}" if code < 0x10000 else f"\\U{code:08x}"


def find() -> str:
    """The path of the program."""
    named = os.environ.get("SCR")
    if named:
        found = shutil.which(named)
        return found or stop(f"SCR names {named}, which is no program", NOT_BUILT)
    found = beside(sys.argv[0]) or beside(__file__) or shutil.which("scr")
    return found or stop("there is no program: set SCR, or put scr on the path", NOT_BUILT)


def beside(file: str) -> Optional[str]:
    """The launcher of the tree whose tools have this file, through links as they stand. Python resolves them in __file__ of a
    module, and not in the name that a tool was called by."""
    return shutil.which(os.path.join(os.path.dirname(os.path.dirname(os.path.abspath(file))), "scr"))


def run(*words: str, seconds: Optional[float] = None) -> Answer:
    """Runs the program with these words, and waits for its end."""
    try:
        done = subprocess.run(
            [find(), *words],
            stdin=subprocess.DEVNULL,
            stdout=subprocess.PIPE,
            stderr=subprocess.PIPE,
            timeout=seconds,
            check=False,
        )
    except subprocess.TimeoutExpired as fault:
        raise TooSlow from fault
    except (OSError, ValueError) as fault:  # ValueError: a zero byte in a word
        stop(f"the program cannot be run: {getattr(fault, 'strerror', None) or fault}", NOT_BUILT)
    lines, error = (it.decode(**ANY_BYTES).split("\n") for it in (done.stdout, done.stderr))
    if done.returncode == NOT_BUILT:
        stop(error[0] or "the program could not be built", NOT_BUILT)
    return Answer(done.returncode, [it for it in lines if it], [it for it in error if it])


def version() -> str:
    """The version of scr. A program without the launcher does not know its own, and has that of the tools."""
    told = run("--version")
    words = told.lines[0].split() if told.status == DONE and told.lines else []
    if len(words) > 1 and words[0] == "scr":
        return words[1].rstrip(",")
    top = os.path.dirname(os.path.dirname(os.path.abspath(__file__)))
    try:
        with open(os.path.join(top, "VERSION"), encoding="ascii") as file:
            return file.read().strip()
    except (OSError, ValueError):
        return "unknown"
