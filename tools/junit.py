"""Writes results as JUnit does, for what shows them in a pipeline."""
from __future__ import annotations

from typing import Iterator, List, NamedTuple, Sequence
from xml.sax.saxutils import escape, quoteattr

from language import printable


class Result(NamedTuple):
    """A test: its name, its file, its line where it has one, the lines on its failure, none where
    it passed, whether that is rather an error, the kind of the failure, and notes beside it."""

    name: str
    path: str
    line: int
    failures: List[str]
    message: str = ""
    kind: str = ""
    is_error: bool = False
    notes: Sequence[str] = ()


class Suite(NamedTuple):
    """Tests that belong together."""

    name: str
    results: List[Result]


def quoted(text: object) -> str:
    """An attribute's value, with its quotes; no control characters, which XML does not take."""
    return quoteattr(printable(str(text)))


def counts(results: List[Result]) -> str:
    """The attributes that count tests."""
    errors = sum(1 for it in results if it.failures and it.is_error)
    failures = sum(1 for it in results if it.failures) - errors
    return f'tests="{len(results)}" failures="{failures}" errors="{errors}"'


def fault(result: Result) -> str:
    """The element that says why a test did not pass."""
    tag = "error" if result.is_error else "failure"
    kind = f" type={quoted(result.kind)}" if result.kind else ""
    message = quoted(result.message or result.failures[0])
    text = escape("\n".join(map(printable, result.failures)))
    return f"      <{tag} message={message}{kind}>{text}</{tag}>"


def case(suite: Suite, result: Result) -> Iterator[str]:
    """The lines of a test."""
    head = f"    <testcase name={quoted(result.name)} classname={quoted(suite.name)}"
    if result.line:
        head += f' file={quoted(result.path)} line="{result.line}"'
    if not result.failures and not result.notes:
        yield f"{head}/>"
        return
    yield f"{head}>"
    if result.failures:
        yield fault(result)
    if result.notes:
        notes = escape("\n".join(map(printable, result.notes)))
        yield f"      <system-out>{notes}</system-out>"
    yield "    </testcase>"


def document(suites: List[Suite]) -> str:
    """The text of a file of results."""
    lines = ['<?xml version="1.0" encoding="UTF-8"?>']
    lines.append(f"<testsuites {counts([it for suite in suites for it in suite.results])}>")
    for suite in suites:
        lines.append(f'  <testsuite name={quoted(suite.name)} {counts(suite.results)} skipped="0">')
        for it in suite.results:
            lines.extend(case(suite, it))
        lines.append("  </testsuite>")
    lines.append("</testsuites>")
    return "\n".join(lines) + "\n"
