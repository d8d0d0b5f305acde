"""A run of a specification that is driven step by step, by scr replay behind a pipe.

Every state of a Run is a line that the proved program printed, and the cells that held at a step are the difference of
what scr cover counts with and without that step. Nothing is evaluated here.
"""
from __future__ import annotations

import os
import re
import select
import subprocess
import time
from typing import Dict, List, NamedTuple, Optional, Tuple

import program
from language import lines_of

KEPT = 256  # that many earlier states are kept by scr replay, and BACK goes no further
SECONDS_TO_START = 3600.0  # a check of large tables takes long, and the launcher may have to build the program
SECONDS_TO_ANSWER = 60.0
FAULT = re.compile(r"script line (\d+): (\w+)$")
WORDS = re.compile(r"[A-Za-z0-9_]+ [-A-Za-z0-9_ ]+")  # one line, of which the program says whether it is an input
COUNT = re.compile(r"table (\w+) row (\d+) column (\d+): (\d+)$")

Place = Tuple[str, int, int]  # table, row, column


class Input(NamedTuple):
    """A monitored variable and its new value."""

    name: str
    value: str


class Refused(Exception):
    """The program refused an input, or a line of a script, and said why."""

    def __init__(self, kind: str, line: int) -> None:
        super().__init__(kind)
        self.kind, self.line = kind, line


class NotRun(Exception):
    """The specification has no run: its text was refused, or a table is not all yes."""

    def __init__(self, lines: List[str], status: int) -> None:
        super().__init__("\n".join(lines))
        self.lines, self.status = lines, status


class Ended(Exception):
    """The program ended, or did not answer."""


class Pipe:
    """scr replay behind a pipe: a line of a script goes in, and the line that answers it comes out."""

    def __init__(self, path: str) -> None:
        words = [program.find(), "replay", path, "/dev/stdin"]
        pipe = subprocess.PIPE
        self._child = subprocess.Popen(words, stdin=pipe, stdout=pipe, stderr=subprocess.DEVNULL)
        self._rest = b""

    @property
    def number(self) -> int:
        """The number of the process."""
        return self._child.pid

    def read(self, seconds: float) -> str:
        """The next line that the program writes; nothing where it ended."""
        until = time.monotonic() + seconds
        out = self._child.stdout.fileno()
        while b"\n" not in self._rest:
            ready = select.select([out], [], [], max(0.0, until - time.monotonic()))[0]
            if not ready:
                raise Ended("the program does not answer")
            more = os.read(out, 65536)
            if not more:
                return ""
            self._rest += more
        line, self._rest = self._rest.split(b"\n", 1)
        return line.decode(**program.ANY_BYTES)

    def ask(self, line: str) -> str:
        """The answer to a line of a script."""
        try:
            self._child.stdin.write(line.encode(**program.ANY_BYTES) + b"\n")
            self._child.stdin.flush()
        except (BrokenPipeError, ValueError) as fault:
            raise Ended("the program has ended") from fault
        answer = self.read(SECONDS_TO_ANSWER)
        if not answer:
            raise Ended("the program has ended")
        return answer

    def close(self) -> int:
        """Ends the program, and gives its status."""
        for end in (self._child.stdin, self._child.stdout):
            try:
                end.close()
            except OSError:
                pass  # what was not yet written to an ended program is lost
        try:
            return self._child.wait(timeout=2)
        except subprocess.TimeoutExpired:
            self._child.kill()
            return self._child.wait()


def values_of(line: str) -> List[str]:
    """The values of a state, in order of declaration."""
    return [it.split("=", 1)[1] for it in line.split(" ")[1:]]


def names_of(line: str) -> List[str]:
    """The variables of a state, in order of declaration."""
    return [it.split("=", 1)[0] for it in line.split(" ")[1:]]


class Run:
    """Inputs, the states they lead to, and the present place among them. What stands behind it was taken back, and may be
    gone through again."""

    def __init__(self, path: str) -> None:
        self.path = path
        self.names: List[str] = []
        self.inputs: List[Input] = []
        self.states: List[List[str]] = []
        self.at = 0
        self._kept = 0
        self._counts: Dict[int, Dict[Place, int]] = {}
        self._pipe = self._begin()

    @property
    def number(self) -> int:
        """The number of the process that runs."""
        return self._pipe.number

    def close(self) -> None:
        """Ends the program."""
        self._pipe.close()

    def set(self, name: str, value: str) -> None:
        """Makes an input at the present place; what was taken back behind it is forgotten. Raises Refused, with the place
        as it was."""
        if not WORDS.fullmatch(f"{name} {value}"):
            raise Refused("syntax", 0)
        answer = self._pipe.ask(f"SET {name} {value}")
        fault = FAULT.match(answer)
        if fault:
            self._again(self.at)
            raise Refused(fault[2], int(fault[1]))
        del self.inputs[self.at :], self.states[self.at + 1 :]
        self._counts = {k: it for k, it in self._counts.items() if k <= self.at}
        state = values_of(answer)
        self.inputs.append(Input(name, state[self.names.index(name)]))  # as printed, without leading zeros
        self.states.append(state)
        self.at += 1
        self._kept = min(KEPT, self._kept + 1)

    def go(self, place: int) -> None:
        """Goes to a state of the run: back by BACK, and forward by the inputs that were taken back."""
        place = max(0, min(place, len(self.inputs)))
        back = self.at - place
        if back > self._kept:
            self._again(place)
        elif back > 0:
            self._see(self._pipe.ask(f"BACK {back}"), place)
            self._kept -= back
        while self.at < place:
            name, value = self.inputs[self.at]
            self._see(self._pipe.ask(f"SET {name} {value}"), self.at + 1)
            self._kept = min(KEPT, self._kept + 1)

    def load(self, text: str) -> None:
        """Runs a script from state 0 on, up to its first faulty line, of which Refused tells. BACK takes inputs back."""
        self._again(0)
        self.inputs, self.states, self._counts = [], self.states[:1], {}
        for line in lines_of(text):
            words = line.code.split()
            if not words:
                continue
            try:
                if words[0] == "BACK" and len(words) == 2 and words[1].isdigit() and 0 < int(words[1]) <= self._kept:
                    self.go(self.at - int(words[1]))
                elif words[0] == "SET" and len(words) > 2:
                    self.set(words[1], " ".join(words[2:]))
                else:
                    raise Refused("back" if words[0] == "BACK" else "syntax", line.number)
            except Refused as fault:
                raise Refused(fault.kind, line.number) from None

    def restart(self) -> None:
        """Begins the program anew, and goes to the present place."""
        self._again(self.at)

    def script(self) -> str:
        """The script that leads from state 0 to the present one."""
        return "".join(f"SET {name} {value}\n" for name, value in self.inputs[: self.at])

    def counts(self, place: int) -> Dict[Place, int]:
        """At how many of the first inputs each cell held, by scr cover."""
        if place not in self._counts:
            script = "".join(f"SET {name} {value}\n" for name, value in self.inputs[:place])
            done = subprocess.run(
                [program.find(), "cover", self.path, "/dev/stdin"],
                input=script.encode(),
                stdout=subprocess.PIPE,
                stderr=subprocess.DEVNULL,
                timeout=SECONDS_TO_START,
                check=False,
            )
            found = map(COUNT.match, done.stdout.decode(**program.ANY_BYTES).split("\n"))
            self._counts[place] = {(it[1], int(it[2]), int(it[3])): int(it[4]) for it in found if it}
        return self._counts[place]

    def held(self, place: int) -> List[Place]:
        """The cells that held at the input that led to this state; none at state 0, to which no input led."""
        if place == 0:
            return []
        before, after = self.counts(place - 1), self.counts(place)
        return [cell for cell, count in after.items() if count > before.get(cell, 0)]

    def _begin(self) -> Pipe:
        pipe = Pipe(self.path)
        try:
            first = pipe.read(SECONDS_TO_START)
            if not first.startswith("0 "):
                lines = [first] if first else []
                while first:
                    first = pipe.read(SECONDS_TO_ANSWER)
                    lines += [first] if first else []
                raise NotRun(lines, pipe.close())
            if self.states:
                self._check(first, 0)
        except Ended:
            pipe.close()
            raise
        if not self.states:
            self.names, self.states = names_of(first), [values_of(first)]
        self.at = self._kept = 0
        return pipe

    def _again(self, place: int) -> None:
        self._pipe.close()
        self._pipe = self._begin()
        self.go(place)

    def _see(self, answer: str, place: int) -> None:
        self._check(answer, place)
        self.at = place

    def _check(self, answer: str, place: int) -> None:
        if not answer.startswith(f"{place} ") or values_of(answer) != self.states[place]:
            raise Ended("the text of the specification has changed since the first state")
