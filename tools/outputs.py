"""Writes reports: as lines, JSON, SARIF, JUnit, or commands of GitHub."""
from __future__ import annotations

import json
import os
import urllib.parse
from typing import Any, Callable, Dict, Iterable, Iterator, List

import junit
from findings import Finding, Place, Report, worst
from language import printable

SCHEMA = "https://json.schemastore.org/sarif-2.1.0.json"
KINDS = {
    "byte": "A byte may not stand here", "limit": "Something is too long, too large or too many",
    "syntax": "A line has no form in its place", "end": "The text ends before FINISH",
    "duplicate": "A name is declared twice", "unknown": "A name is not declared", "type": "A name or a cell is of another kind",
    "range": "A value is outside its type", "wide": "The bound of a sum is too large", "mode": "A mode is missing, comes twice, or is none",
    "table": "A line does not fit its table", "disjoint": "Two cells of a row hold together", "cover": "No cell of a row holds",
    "circular": "Variables need each other's new values", "undecided": "There are more splits than the limit",
    "false": "An assertion is false in the initial state", "unproved": "An assertion is not proved",
    "uncovered": "A cell holds at no input of the script", "invariant": "What is derived of a mode",
    "read": "A text could not be read", "script": "A line of a script is faulty",
}


def message_of(finding: Finding) -> str:
    """The message with what stands before and behind it."""
    return ("after that: " if finding.is_after else "") + f"{finding.message} [{finding.kind}]"


def state_lines(finding: Finding) -> Iterator[str]:
    """The state of a finding: of an assertion what changed and what it names, else all."""
    changed = [it.told for it in finding.state if it.is_changed]
    if not finding.named:
        if finding.state:
            yield "at " + ", ".join(it.told for it in finding.state)
        elif finding.kind in ("disjoint", "cover"):
            yield "in every state"
        return
    if changed:
        yield "what changes: " + ", ".join(changed)
    named = [it.told for it in finding.state if it.name in finding.named and not it.is_changed]
    if named:
        yield ("what it names stays: " if changed else "what it names: ") + ", ".join(named)


def text(reports: List[Report]) -> Iterator[str]:
    """Lines as of compilers: FILE:LINE:COLUMN: error: .., and notes with what belongs to them."""
    for finding in (it for report in reports for it in report.findings):
        where = told_place(finding.place)
        yield f"{where}: {finding.level}: {message_of(finding)}"
        for line in state_lines(finding):
            yield f"{where}: note: {line}"
        for place, told in finding.related:
            yield f"{told_place(place)}: note: {told}"
        if finding.remedy:
            yield f"{where}: note: {finding.remedy}"


def told_place(place: Place) -> str:
    """FILE:LINE:COLUMN."""
    return f"{printable(place.path)}:{place.line}:{place.column}"


def as_place(place: Place) -> Dict[str, Any]:
    """A place for JSON."""
    return {
        "path": printable(place.path), "line": place.line, "column": place.column,
        "endColumn": place.end_column, "text": place.text,
    }


def as_finding(finding: Finding) -> Dict[str, Any]:
    """A finding for JSON."""
    return {
        "place": as_place(finding.place), "level": finding.level, "kind": finding.kind, "message": finding.message,
        "remedy": finding.remedy, "name": finding.name, "afterThat": finding.is_after, "answer": finding.answer,
        "modes": finding.modes, "named": finding.named,
        "state": [{"name": it.name, "old": it.old, "new": it.new} for it in finding.state],
        "related": [{"place": as_place(place), "message": told} for place, told in finding.related],
    }


def as_json(reports: List[Report]) -> Iterator[str]:
    """JSON by docs/report.schema.json."""
    whole = {
        "version": 1,
        "status": worst(*(it.status for it in reports)),
        "files": [
            {
                "path": printable(it.path), "status": it.status, "answers": it.answers,
                "findings": [as_finding(finding) for finding in it.findings],
            }
            for it in reports
        ],
    }
    yield json.dumps(whole, indent=2)


def uri_of(path: str) -> str:
    """A path as a relative or absolute reference."""
    return urllib.parse.quote(os.fsencode(path.replace(os.sep, "/")))


def sarif_location(place: Place) -> Dict[str, Any]:
    """A place for SARIF."""
    region = {"startLine": max(1, place.line), "startColumn": place.column, "endColumn": max(place.column, place.end_column)}
    return {"physicalLocation": {"artifactLocation": {"uri": uri_of(place.path)}, "region": region}}


def rule_of(finding: Finding) -> str:
    """The rule of a finding: its kind, without the case of a script's fault."""
    return finding.kind.split()[0]


def sarif_result(finding: Finding) -> Dict[str, Any]:
    """A finding for SARIF."""
    told = ". ".join(filter(None, [message_of(finding), *state_lines(finding), finding.remedy]))
    related = [
        {**sarif_location(place), "id": k, "message": {"text": message}}
        for k, (place, message) in enumerate(finding.related, 1)
    ]
    return {
        "ruleId": rule_of(finding), "ruleIndex": list(KINDS).index(rule_of(finding)), "level": finding.level,
        "message": {"text": told}, "locations": [sarif_location(finding.place)], "relatedLocations": related,
    }


def sarif(reports: List[Report]) -> Iterator[str]:
    """SARIF 2.1.0."""
    rules = [{"id": kind, "shortDescription": {"text": told}} for kind, told in KINDS.items()]
    run = {
        "tool": {"driver": {"name": "scr report", "rules": rules}},
        "columnKind": "unicodeCodePoints",
        "results": [sarif_result(finding) for report in reports for finding in report.findings],
    }
    yield json.dumps({"$schema": SCHEMA, "version": "2.1.0", "runs": [run]}, indent=2)


def as_junit(reports: List[Report]) -> Iterator[str]:
    """JUnit's XML: a suite for each text, and a case for each table, class, assertion and script."""
    yield junit.document([junit.Suite(it.path, suite_cases(it)) for it in reports]).rstrip("\n")


def suite_cases(report: Report) -> List[junit.Result]:
    """The cases of a text, each with the findings that are about it."""
    cases = []
    left = list(report.findings)
    for what, name in report.tried or [("text", "")]:
        mine = [it for it in left if is_about(it, what, name)]
        taken = set(map(id, mine))
        left = [it for it in left if id(it) not in taken]
        cases.append(suite_case(report, f"{what} {name}".strip(), mine))
    if left:
        cases.append(suite_case(report, "text", left))
    return cases


def is_about(finding: Finding, what: str, name: str) -> bool:
    """Whether a finding is about what was tried."""
    if what in ("text", "assertions"):
        return True
    if what == "script":
        return finding.kind == "uncovered" or finding.kind.startswith("script")
    of = {"table": ("disjoint", "cover", "range", "undecided", "circular"), "class": ("invariant", "undecided")}
    return finding.name == name and finding.kind in of.get(what, ("false", "unproved", "undecided"))


def suite_case(report: Report, name: str, findings: List[Finding]) -> junit.Result:
    """A case: failed by an error, in error where it is undecided, and else with its notes."""
    fails = [it for it in findings if it.level == "error"]
    found = fails or [it for it in findings if it.level == "warning"]
    notes = list(lines_about(it for it in findings if it.level == "note"))
    if not found:
        return junit.Result(name, report.path, 0, [], notes=notes)
    return junit.Result(
        name, report.path, 0, list(lines_about(found)), message_of(found[0]), rule_of(found[0]),
        not fails, notes,
    )


def lines_about(findings: Iterable[Finding]) -> Iterator[str]:
    """The lines of these findings alone."""
    only = Report("")
    only.findings = list(findings)
    return text([only])


def github(reports: List[Report]) -> Iterator[str]:
    """Commands of GitHub's workflows, which mark the lines of a change."""
    names = {"error": "error", "warning": "warning", "note": "notice"}
    for finding in (it for report in reports for it in report.findings):
        told = "\n".join(filter(None, [message_of(finding), *state_lines(finding), finding.remedy]))
        place = finding.place
        marks = f"file={in_property(printable(place.path))},line={max(1, place.line)},col={place.column}"
        if place.end_column > place.column:
            marks += f",endColumn={place.end_column}"
        yield f"::{names[finding.level]} {marks},title={in_property('scr: ' + finding.kind)}::{in_data(told)}"


def in_data(told: str) -> str:
    """Escapes the message of a command."""
    return told.replace("%", "%25").replace("\r", "%0D").replace("\n", "%0A")


def in_property(told: str) -> str:
    """Escapes a property of a command."""
    return in_data(told).replace(":", "%3A").replace(",", "%2C")


FORMATS: Dict[str, Callable[[List[Report]], Iterator[str]]] = {
    "text": text, "json": as_json, "sarif": sarif, "junit": as_junit, "github": github,
}
