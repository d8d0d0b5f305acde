"""A mode class as a diagram, in SVG: its modes, and an arrow for each cell of its table with the event beside it.

dot of graphviz says where all stands, where it is there, and else the modes stand on a circle. Each mode has the attribute
data-mode, and each arrow data-place, the row and column of its cell, so that a page can mark them.
"""
from __future__ import annotations

import html
import math
import shlex
import shutil
import subprocess
import textwrap
from typing import Dict, List, NamedTuple, Optional, Tuple

from language import Table

Point = Tuple[float, float]
SIGN, LINE = 6.7, 15.0  # the width of a sign and the height of a line, in pixels, of the type that the pages set
MODE_HEIGHT = 34.0
WIDEST, MOST_LINES = 30, 4  # of an event beside its arrow; the table has it whole
MOST_ARROWS = 200  # more are no diagram that anybody reads
INCH = 72.0


class Arrow(NamedTuple):
    """A transition: where it is in the table, its ends, its event, and the lines that stand beside it."""

    place: str
    source: str
    target: str
    event: str
    label: List[str]


class Layout(NamedTuple):
    """Where all stands: the middles of the modes, and of each arrow the path, and the middle of its label."""

    width: float
    height: float
    modes: Dict[str, Point]
    paths: Dict[str, Tuple[str, Point, Point, Point]]  # path, label, tip, and a point before the tip


def arrows_of(table: Table) -> List[Arrow]:
    """The arrows of a mode table."""
    found = []
    for row, line in enumerate(table.rows, 1):
        for column, cell in enumerate(line.cells, 1):
            lines = textwrap.wrap(cell.text[: WIDEST * (MOST_LINES + 2)], WIDEST)
            if len(lines) > MOST_LINES:
                lines = lines[: MOST_LINES - 1] + [lines[MOST_LINES - 1][: WIDEST - 2] + " …"]
            label = [f"{row}.{column}  {lines[0] if lines else ''}", *lines[1:]]
            found.append(Arrow(f"{row}.{column}", line.modes[0].text, cell.target.text, cell.text, label))
    return found


def width_of_mode(mode: str) -> float:
    """How wide the box of a mode is."""
    return len(mode) * 8.0 + 24


def quoted(text: str) -> str:
    """A text as a string of graphviz."""
    return '"' + text.replace("\\", "\\\\").replace('"', '\\"') + '"'


def by_graphviz(modes: List[str], arrows: List[Arrow]) -> Optional[Layout]:
    """Where dot puts it all, or None where there is no dot, or it does not answer."""
    dot = shutil.which("dot")
    if not dot:
        return None
    text = ["digraph {", 'graph [ranksep=0.35, nodesep=0.3]', "node [shape=box, fixedsize=true]"]
    for mode in modes:
        text.append(f"{quoted(mode)} [width={width_of_mode(mode) / INCH:.2f}, height={MODE_HEIGHT / INCH:.2f}]")
    for arrow in arrows:
        # a label of boxes that have the size of the text, in the type of the page
        width, height = size_of_label(arrow.label)
        box = f'<<table border="0" fixedsize="true" width="{width:.0f}" height="{height:.0f}"><tr><td></td></tr></table>>'
        text.append(f"{quoted(arrow.source)} -> {quoted(arrow.target)} [label={box}]")
    text.append("}")
    try:
        done = subprocess.run(
            [dot, "-Tplain"], input="\n".join(text), stdout=subprocess.PIPE, stderr=subprocess.DEVNULL,
            timeout=20, check=True, encoding="utf-8",
        )
        return read_plain(done.stdout, arrows)
    except (OSError, ValueError, IndexError, subprocess.SubprocessError):
        return None


def size_of_label(label: List[str]) -> Point:
    """How much room the lines of a label take."""
    return max(map(len, label)) * SIGN + 12, len(label) * LINE + 4


def read_plain(text: str, arrows: List[Arrow]) -> Layout:
    """The layout that dot writes as plain text, with inches from below."""
    rows = [shlex.split(line) for line in text.replace("\\\n", "").split("\n") if line]
    width, height = (float(it) * INCH for it in rows[0][2:4])
    modes, paths, left = {}, {}, list(arrows)

    def point(words: List[str]) -> Point:
        return float(words[0]) * INCH, height - float(words[1]) * INCH

    for row in rows:
        if row[0] == "node":
            modes[row[1]] = point(row[2:4])
        elif row[0] == "edge":
            arrow = [it for it in left if (it.source, it.target) == (row[1], row[2])][0]
            left.remove(arrow)
            count = int(row[3])
            points = [point(row[4 + 2 * k : 6 + 2 * k]) for k in range(count)]
            label = row[4 + 2 * count :]
            start = "M{:.0f},{:.0f}".format(*points[0])
            curve = " ".join("{:.0f},{:.0f}".format(*it) for it in points[1:])
            # dot leaves a gap for the head of the arrow, which is drawn on from the last point
            middle = point(label[-4:-2])
            paths[arrow.place] = (f"{start} C{curve}", middle, points[-1], points[-2])
    if left:
        raise ValueError("dot left an arrow out")
    return Layout(width, height, modes, paths)


def on_circle(modes: List[str], arrows: List[Arrow]) -> Layout:
    """The modes on a circle, and the arrows as bows between them, each two that go to and fro on two sides."""
    radius = max(90.0, 36.0 * len(modes))
    middle = (1.3 * radius + max(map(width_of_mode, modes)) / 2, radius + MODE_HEIGHT)
    places = {}
    for k, mode in enumerate(modes):
        angle = 2 * math.pi * k / len(modes) - math.pi / 2
        places[mode] = (middle[0] + 1.3 * radius * math.cos(angle), middle[1] + radius * math.sin(angle))
    paths = {}
    for arrow in arrows:
        (x, y), (u, v) = places[arrow.source], places[arrow.target]
        far = math.hypot(u - x, v - y) or 1.0
        bow = ((x + u) / 2 + 46 * (v - y) / far, (y + v) / 2 - 46 * (u - x) / far)
        start = at_border((x, y), bow, width_of_mode(arrow.source))
        tip = at_border((u, v), bow, width_of_mode(arrow.target) + 12)
        beside = ((start[0] + 2 * bow[0] + tip[0]) / 4, (start[1] + 2 * bow[1] + tip[1]) / 4)
        path = "M{:.0f},{:.0f} Q{:.0f},{:.0f} {:.0f},{:.0f}".format(*start, *bow, *tip)
        paths[arrow.place] = (path, beside, tip, bow)
    return Layout(2 * middle[0], 2 * middle[1], places, paths)


def at_border(middle: Point, towards: Point, width: float) -> Point:
    """The point of a box's border on the way to another point."""
    x, y = towards[0] - middle[0], towards[1] - middle[1]
    scale = min(width / 2 / abs(x) if x else math.inf, (MODE_HEIGHT / 2 + 4) / abs(y) if y else math.inf)
    return middle[0] + x * min(1.0, scale), middle[1] + y * min(1.0, scale)


def head(tip: Point, before: Point) -> str:
    """The head of an arrow, from the end of its line on."""
    far = math.hypot(tip[0] - before[0], tip[1] - before[1]) or 1.0
    x, y = (tip[0] - before[0]) / far, (tip[1] - before[1]) / far
    points = [(tip[0] + 9 * x, tip[1] + 9 * y), (tip[0] - 4 * y, tip[1] + 4 * x), (tip[0] + 4 * y, tip[1] - 4 * x)]
    return "M{:.1f},{:.1f} L{:.1f},{:.1f} L{:.1f},{:.1f} Z".format(*points[0], *points[1], *points[2])


def drawn_arrow(arrow: Arrow, layout: Layout) -> str:
    """An arrow with its label, whose first line has the place of the cell."""
    path, (x, y), tip, before = layout.paths[arrow.place]
    width, height = size_of_label(arrow.label)
    top = y - height / 2
    lines = "".join(
        f'<tspan x="{x - width / 2 + 6:.0f}" y="{top + LINE * (k + 0.8):.0f}">{html.escape(it)}</tspan>'
        for k, it in enumerate(arrow.label)
    )
    return (
        f'<g class="arrow" data-place="{arrow.place}">'
        f"<title>{html.escape(f'{arrow.source} to {arrow.target}: {arrow.event}')}</title>"
        f'<path class="line" d="{path}"/><path class="head" d="{head(tip, before)}"/>'
        f'<rect class="ground" x="{x - width / 2:.0f}" y="{top:.0f}" width="{width:.0f}" height="{height:.0f}"/>'
        f"<text>{lines}</text></g>"
    )


def drawn_mode(mode: str, middle: Point, is_first: bool) -> str:
    """A mode, with a second border where the class begins in it."""
    width, (x, y) = width_of_mode(mode), middle
    box = 'x="{:.0f}" y="{:.0f}" width="{:.0f}" height="{:.0f}" rx="6"'
    inner = f'<rect class="first" {box.format(x - width / 2 + 4, y - MODE_HEIGHT / 2 + 4, width - 8, MODE_HEIGHT - 8)}/>'
    return (
        f'<g class="mode" data-mode="{html.escape(mode)}">'
        f"<rect {box.format(x - width / 2, y - MODE_HEIGHT / 2, width, MODE_HEIGHT)}/>{inner if is_first else ''}"
        f'<text text-anchor="middle" x="{x:.0f}" y="{y + 5:.0f}">{html.escape(mode)}</text></g>'
    )


def diagram_of(name: str, modes: List[str], first: str, table: Table) -> str:
    """The diagram of a mode class; of one without modes, or with too many arrows, nothing."""
    arrows = [it for it in arrows_of(table) if it.source in modes and it.target in modes]
    if not modes or len(arrows) > MOST_ARROWS:
        return ""
    layout = by_graphviz(modes, arrows)
    if layout is None:
        # labels of a circle would cover each other, so the place alone stands there, and the table has the event
        arrows = [it._replace(label=[it.place]) for it in arrows]
        layout = on_circle(modes, arrows)
    body = [drawn_arrow(it, layout) for it in arrows]
    body += [drawn_mode(mode, layout.modes[mode], mode == first) for mode in modes]
    width, height = layout.width + 16, layout.height + 16
    said = f"Diagram of {name}: {len(modes)} modes, {len(arrows)} transitions; the table has them as text."
    return (
        f'<svg class="diagram" data-class="{html.escape(name)}" role="img" aria-label="{html.escape(said)}" '
        f'viewBox="-8 -8 {width:.0f} {height:.0f}" width="{width:.0f}" height="{height:.0f}">{"".join(body)}</svg>'
    )
