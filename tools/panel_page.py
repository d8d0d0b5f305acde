"""The page of tools/panel: all that does not change while a specification is run. page/panel.js fills in the rest."""
from __future__ import annotations

from typing import Dict, List

import diagrams
from language import Assertion, Declaration, Document
from pages import TablePage, comment_above, comment_at, escaped, range_or_values, type_of

MOST_BUTTONS = 8  # a longer list of values is chosen from a menu


def comments(document: Document, line: int) -> str:
    """The comments of a line as a paragraph, or nothing."""
    text = " ".join(it for it in (comment_above(document, line), comment_at(document, line)) if it)
    return f'<p class="comment">{escaped(text)}</p>' if text else ""


def control(document: Document, variable: Declaration) -> str:
    """What changes a monitored variable: a switch, a list, or a number."""
    name = escaped(variable.name.text)
    span = document.range_of(variable.name.text)
    if span:
        step = variable.step.text if variable.step else ""
        return (
            f'<form class="number-of" data-low="{span[0]}" data-high="{span[1]}" data-step="{step}">'
            f'<input type="number" aria-labelledby="in-{name}" aria-describedby="bound-{name}" required>'
            f'<button>Set</button></form><p class="bound" id="bound-{name}"></p>'
        )
    values = document.members_of(variable.name.text)
    if type_of(variable) == "BOOLEAN":
        return f'<button type="button" role="switch" class="switch" aria-checked="false" aria-labelledby="in-{name}"></button>'
    if len(values) <= MOST_BUTTONS:
        buttons = "".join(
            f'<button type="button" data-value="{escaped(it)}" aria-pressed="false">{escaped(it)}</button>' for it in values
        )
        return f'<span class="choices">{buttons}</span>'
    options = "".join(f"<option>{escaped(it)}</option>" for it in values)
    return f'<form class="list-of"><select aria-labelledby="in-{name}">{options}</select><button>Set</button></form>'


def input_of(document: Document, variable: Declaration) -> str:
    """A monitored variable with its control."""
    name = escaped(variable.name.text)
    step = f", steps of {escaped(variable.step.text)} at most" if variable.step else ""
    return (
        f'<div class="input" role="group" aria-labelledby="in-{name}" data-name="{name}">'
        f'<p><b id="in-{name}">{name}</b> <span class="type">{escaped(type_of(variable))}{step}</span> '
        f'<span class="value"></span> <span class="was"></span></p>'
        f"{control(document, variable)}{comments(document, variable.line)}</div>"
    )


def output_of(document: Document, variable: Declaration) -> str:
    """The line of a dependent variable."""
    name = escaped(variable.name.text)
    values = escaped(range_or_values(document, variable))
    return (
        f'<tr data-name="{name}"><th scope="row">{name}</th><td class="value"></td><td class="was"></td>'
        f'<td>{escaped(variable.kind)}</td><td class="type wide">{values}</td></tr>'
    )


def assertion_of(assertion: Assertion, verdict: str) -> str:
    """The line of an assertion."""
    name = escaped(assertion.name.text)
    return (
        f'<tr data-assertion="{name}"><th scope="row">{name}</th><td class="judged"></td><td class="steps"></td>'
        f'<td class="wide"><code>{escaped(assertion.condition.text)}</code></td><td>{escaped(verdict)}</td></tr>'
    )


def drawn(document: Document) -> str:
    """The diagrams of all mode classes."""
    found = []
    for it in document.declarations:
        name = it.name.text
        if it.kind == "mode class" and name in document.table_of:
            svg = diagrams.diagram_of(
                name, document.members_of(name), it.init.text if it.init else "", document.table_of[name]
            )
            found.append(
                f'<figure><div class="scroll" role="region" tabindex="0" aria-label="diagram of {escaped(name)}">{svg}</div>'
                f"<figcaption>{escaped(name)}</figcaption></figure>"
            )
    return "".join(found)


def page(document: Document, file_name: str, assertions: List[Assertion], verdicts: Dict[str, str]) -> str:
    """The whole page."""
    title = escaped(document.title.text if document.title else "")
    inputs = [it for it in document.variables() if it.kind == "monitored"]
    outputs = [it for it in document.variables() if it.kind != "monitored"]
    tables = "".join(
        f'<section class="table" id="table-{escaped(it.name.text)}">{comments(document, it.line)}'
        f"{TablePage(document, it).html()}</section>"
        for it in document.tables
    )
    judged = "".join(assertion_of(it, verdicts.get(it.name.text, "")) for it in assertions)
    assertions_part = (
        '<section aria-labelledby="h-assertions"><h2 id="h-assertions">Assertions</h2>'
        '<div class="scroll" role="region" tabindex="0" aria-label="assertions"><table>'
        '<thead><tr><th scope="col">name</th><th scope="col">here</th><th scope="col">broken at step</th>'
        f'<th scope="col">condition</th><th scope="col">by induction</th></tr></thead><tbody>{judged}</tbody></table></div></section>'
        if judged
        else ""
    )
    return f"""<!doctype html>
<html lang="en">
<meta charset="utf-8">
<meta name="viewport" content="width=device-width, initial-scale=1">
<title>{title}: panel</title>
<link rel="icon" href="data:,">
<link rel="stylesheet" href="common.css">
<link rel="stylesheet" href="panel.css">
<script src="panel.js" defer></script>
<header>
<h1>{title} <span class="type">{escaped(file_name)}</span></h1>
<div class="steps" role="group" aria-label="steps">
<button type="button" id="first" title="Home">First</button>
<button type="button" id="back" title="left arrow">Back</button>
<span id="place"></span>
<button type="button" id="forward" title="right arrow">Forward</button>
<button type="button" id="last" title="End">Last</button>
<label>Step <input type="range" id="slider" min="0" max="0" value="0"></label>
</div>
<div class="script" role="group" aria-label="script">
<a id="save" href="script" download>Save script</a>
<label class="file">Load script <input type="file" id="load"></label>
<button type="button" id="restart" hidden>Restart the program</button>
</div>
<p id="message" role="status" aria-live="polite"></p>
</header>
<main>
<section class="inputs" aria-labelledby="h-inputs"><h2 id="h-inputs">Inputs</h2>
{"".join(input_of(document, it) for it in inputs)}</section>
<section class="outputs" aria-labelledby="h-outputs"><h2 id="h-outputs">Modes, terms and outputs</h2>
<div class="scroll" role="region" tabindex="0" aria-label="values of modes, terms and outputs"><table><thead><tr><th scope="col">variable</th><th scope="col">value</th><th scope="col">before</th>
<th scope="col">kind</th><th scope="col">values</th></tr></thead><tbody>
{"".join(output_of(document, it) for it in outputs)}</tbody></table></div>
{drawn(document)}</section>
{assertions_part}
<section class="history" aria-labelledby="h-history"><h2 id="h-history">History</h2>
<div class="scroll" role="region" tabindex="0" aria-label="history of each variable"><div id="history"></div></div></section>
<section class="tables" aria-labelledby="h-tables"><h2 id="h-tables">Tables</h2>
<p id="coverage"></p>
{tables}</section>
</main>
<footer><p>Each state here is a line that <code>scr replay</code> printed; the cells that held are what <code>scr cover</code>
counted. Keys: left and right arrow for a step back and forward, Home and End for the first and the last one.</p></footer>
</html>
"""
