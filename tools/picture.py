#!/usr/bin/env python3
"""Draws what the program answered as an SVG picture, on standard output.

    picture.py scatter REPORT PLACES [--title TITLE]
    picture.py days ANSWERS [--names NAMES] [--title TITLE]

`scatter` draws each record of a report at its place in two dimensions. PLACES has a line `NUMBER,X,Y` for each
record, or is a batch of two coordinates (`+,NUMBER,X,Y`); X and Y are numbers of any one unit, and both are drawn
in one scale. `days` draws the answers of `serve`: a column for each report, a row for each record, and the last
receipt before the report below its column. NAMES has a line `NUMBER,NAME` for each record that has a name.

A cluster has a colour and a shape. A core is filled, a border is hollow, noise is a grey cross. The colours are
those of Okabe and Ito, which colour-blind people can tell apart. The picture has a view box and no size.
"""

from __future__ import annotations

import argparse
import sys
from html import escape
from typing import Dict, Iterable, List, NamedTuple, Optional, Tuple

COLOURS = ("#0072B2", "#E69F00", "#009E73", "#CC79A7", "#D55E00", "#56B4E9", "#000000")
SHAPES = ("circle", "square", "triangle", "diamond", "wedge")
GREY = "#777777"
LEGEND_ROWS = 24


class Mark(NamedTuple):
    """What a report says of a record: its number, `core`, `border` or `noise`, and its cluster (0 at noise)."""

    number: int
    kind: str
    label: int


class Day(NamedTuple):
    """A report of a session, and the words of the receipts and refusals since the report before it."""

    title: str
    notes: List[str]
    marks: List[Mark]


class Look(NamedTuple):
    """How the signs of a cluster look."""

    colour: str
    shape: str


class Drawing:
    """The elements of a picture, in its own units, from the upper left corner."""

    def __init__(self) -> None:
        """An empty picture."""
        self.parts: List[str] = []

    def add(self, element: str) -> None:
        """Adds an element as it is written."""
        self.parts.append(element)

    def text(self, x: float, y: float, said: str, size: int = 12, more: str = "") -> None:
        """Writes a text whose base line begins at the point, in letters of the size."""
        self.add(f'<text x="{x:g}" y="{y:g}" font-size="{size}"{more}>{escape(said)}</text>')

    def line(self, x1: float, y1: float, x2: float, y2: float, colour: str = "#cccccc") -> None:
        """Draws a thin line between two points."""
        self.add(f'<path d="M{x1:g} {y1:g}L{x2:g} {y2:g}" stroke="{colour}" stroke-width="1"/>')

    def page(self, width: float, height: float, title: str) -> str:
        """The whole picture, of the width and height in its own units, as the text of an SVG file."""
        head = (
            f'<svg xmlns="http://www.w3.org/2000/svg" viewBox="0 0 {width:g} {height:g}" role="img" '
            'font-family="sans-serif" fill="#222222">'
        )
        ground = f'<rect width="{width:g}" height="{height:g}" fill="#ffffff"/>'
        return "\n".join([head, f"<title>{escape(title)}</title>", ground, *self.parts, "</svg>"]) + "\n"


def read_report(lines: Iterable[str]) -> List[Mark]:
    """The marks of a report, in its order; its last line, the counts, is left out."""
    marks = []
    for line in lines:
        words = line.split()
        if len(words) in (2, 3) and words[0].isdigit():
            label = int(words[2]) if len(words) == 3 else 0
            marks.append(Mark(int(words[0]), words[1], label))
    return marks


def receipt_notes(words: List[str]) -> List[str]:
    """What a receipt counts: its changes, and then each kind that isn't 0."""
    pairs = zip(words[4::2], words[5::2])
    return [f"{words[2]} {words[3]}"] + [f"{kind} {count}" for kind, count in pairs if count != "0"]


def read_days(lines: Iterable[str]) -> List[Day]:
    """The reports of a session's answers, each with the receipts and refusals before it."""
    days: List[Day] = []
    title, notes, block = "start", [], []
    for line in lines:
        words = line.split()
        if words[:1] == ["ok"]:
            title = f"batch {words[1]}"
            notes += receipt_notes(words)
        elif words[:1] == ["refused"]:
            notes.append(line.strip())
        elif words[:1] == ["records"]:
            days.append(Day(title, notes, read_report(block)))
            notes, block = [], []
        else:
            block.append(line)
    return days


def read_places(lines: Iterable[str]) -> Dict[int, Tuple[float, float]]:
    """The places of records, by number: of lines `NUMBER,X,Y` or `+,NUMBER,X,Y`."""
    places = {}
    for line in lines:
        fields = line.strip().split(",")
        if fields[0] == "+":
            fields = fields[1:]
        if len(fields) == 3:
            places[int(fields[0])] = (float(fields[1]), float(fields[2]))
    return places


def looks(marks: Iterable[Mark]) -> Dict[int, Look]:
    """A colour and a shape for each cluster, by rising label. They repeat after 35 clusters."""
    labels = sorted({mark.label for mark in marks if mark.label})
    return {
        label: Look(COLOURS[place % len(COLOURS)], SHAPES[place % len(SHAPES)])
        for place, label in enumerate(labels)
    }


def outline(shape: str, x: float, y: float, r: float) -> str:
    """The path around a point in a shape; `r` is about half its width."""
    if shape == "circle":
        return f"M{x - r:g} {y:g}a{r:g} {r:g} 0 1 0 {2 * r:g} 0a{r:g} {r:g} 0 1 0 {-2 * r:g} 0Z"
    corners = {
        "square": "M{l:g} {t:g}H{e:g}V{b:g}H{l:g}Z",
        "triangle": "M{x:g} {t:g}L{e:g} {b:g}H{l:g}Z",
        "diamond": "M{x:g} {t:g}L{e:g} {y:g}L{x:g} {b:g}L{l:g} {y:g}Z",
        "wedge": "M{x:g} {b:g}L{l:g} {t:g}H{e:g}Z",
    }[shape]
    return corners.format(x=x, y=y, l=x - r, e=x + r, t=y - r, b=y + r)


def symbol(x: float, y: float, kind: str, look: Optional[Look], tip: str = "") -> str:
    """The sign of a mark at a point: filled, hollow, or a grey cross where it has no look.

    The tip is a text that a viewer shows where one points at the sign.
    """
    if look is None:
        path = f"M{x - 3.5:g} {y - 3.5:g}l7 7m-7 0l7 -7"
        colour, fill = GREY, "none"
    else:
        path = outline(look.shape, x, y, 5)
        colour, fill = look.colour, look.colour if kind == "core" else "#ffffff"
    head = f'<path d="{path}" fill="{fill}" stroke="{colour}" stroke-width="1.5"'
    return f"{head}><title>{escape(tip)}</title></path>" if tip else f"{head}/>"


def counted(count: int, word: str) -> str:
    """A count and its word, with an s where it isn't 1."""
    return f"{count} {word}" + ("" if count == 1 else "s")


def cluster_words(label: int, marks: List[Mark], told: bool) -> str:
    """What a legend says of a cluster; with its counts of cores and borders if told."""
    kinds = [mark.kind for mark in marks if mark.label == label]
    words = f"cluster {label}"
    if told:
        words += f": {counted(kinds.count('core'), 'core')}"
    if told and "border" in kinds:
        words += f", {counted(kinds.count('border'), 'border')}"
    return words


def legend_rows(marks: List[Mark], told: bool) -> List[Tuple[str, Optional[Look], str]]:
    """The rows of a legend: a kind (none where there is no sign), a look and the words; with counts if told."""
    rows: List[Tuple[str, Optional[Look], str]] = []
    known = looks(marks)
    for label in list(known)[:LEGEND_ROWS]:
        rows.append(("core", known[label], cluster_words(label, marks, told)))
    if len(known) > LEGEND_ROWS:
        rows.append(("", None, f"and {counted(len(known) - LEGEND_ROWS, 'cluster')} more"))
    kinds = [mark.kind for mark in marks]
    if "noise" in kinds:
        rows.append(("noise", None, f"noise: {kinds.count('noise')}" if told else "noise"))
    for kind, words in (("core", "filled: core"), ("border", "hollow: border")):
        if kind in kinds:
            rows.append((kind, Look(GREY, "circle"), words))
    return rows


def legend(drawing: Drawing, marks: List[Mark], x: float, y: float, told: bool) -> float:
    """Draws a legend whose upper left corner is the point, and gives the height where it ends."""
    for kind, look, words in legend_rows(marks, told):
        if kind:
            drawing.add(symbol(x + 6, y + 8, kind, look))
        drawing.text(x + 20, y + 12, words)
        y += 20
    return y


def draw_points(drawing: Drawing, marks: List[Mark], points: Dict[int, Tuple[float, float]]) -> None:
    """Draws the signs at their points: noise first, so that it hides nothing, and hollow signs last."""
    known = looks(marks)
    for kind in ("noise", "core", "border"):
        for mark in marks:
            if mark.kind == kind:
                x, y = points[mark.number]
                drawing.add(symbol(x, y, kind, known.get(mark.label), said(mark)))


def scatter(marks: List[Mark], places: Dict[int, Tuple[float, float]], title: str) -> str:
    """A scatter of the records of a report, each at its place, with a legend beside it."""
    side, left, top = 460, 30, 54
    marks = [mark for mark in marks if mark.number in places]
    xs = [places[mark.number][0] for mark in marks] or [0.0]
    ys = [places[mark.number][1] for mark in marks] or [0.0]
    scale = side / (max(max(xs) - min(xs), max(ys) - min(ys)) or 1)
    height = round((max(ys) - min(ys)) * scale)
    points = {
        mark.number: (round(left + (x - min(xs)) * scale, 1), round(top + (max(ys) - y) * scale, 1))
        for mark, x, y in zip(marks, xs, ys)
    }
    drawing = Drawing()
    drawing.text(left - 12, 26, title, 16)
    frame = f'x="{left - 12}" y="{top - 12}" width="{side + 24}" height="{height + 24}"'
    drawing.add(f'<rect {frame} fill="none" stroke="#cccccc"/>')
    draw_points(drawing, marks, points)
    ends = legend(drawing, marks, left + side + 30, top - 12, True)
    return drawing.page(left + side + 240, max(top + height + 30, ends + 10), title)


def said(mark: Mark) -> str:
    """A mark as the report says it."""
    return f"{mark.number} {mark.kind}" + (f" {mark.label}" if mark.label else "")


def draw_days(drawing: Drawing, days: List[Day], rows: Dict[int, float], left: float, step: float) -> None:
    """Draws the columns of a session: a sign for each record in its row, and the notes below."""
    known = looks(mark for day in days for mark in day.marks)
    below = max(rows.values(), default=50) + 30
    for place, day in enumerate(days):
        x = left + step * place
        drawing.text(x, 54, day.title, 12, ' text-anchor="middle"')
        for mark in day.marks:
            drawing.add(symbol(x, rows[mark.number], mark.kind, known.get(mark.label)))
        for row, note in enumerate(day.notes):
            drawing.text(x, below + 15 * row, note, 11, ' text-anchor="middle"')


def days_picture(days: List[Day], names: Dict[int, str], title: str) -> str:
    """The picture of a session: a column a report, a row a record, receipts below, a legend beside."""
    marks = [mark for day in days for mark in day.marks]
    numbers = sorted({mark.number for mark in marks})
    rows = {number: 76 + 20 * place for place, number in enumerate(numbers)}
    said = {number: f"{number} {names.get(number, '')}".strip() for number in numbers}
    left, step = 60 + 7 * max((len(words) for words in said.values()), default=0), 84
    drawing = Drawing()
    drawing.text(18, 26, title, 16)
    for number, y in rows.items():
        drawing.text(18, y + 4, said[number])
        drawing.line(left, y, left + step * (len(days) - 1), y)
    draw_days(drawing, days, rows, left, step)
    right = left + step * max(len(days) - 1, 0) + 60
    ends = legend(drawing, marks, right, 66, False)
    notes = max((len(day.notes) for day in days), default=0)
    below = max(rows.values(), default=50) + 40 + 15 * notes
    return drawing.page(right + 140, max(below, ends + 10), title)


def lines_of(path: str) -> List[str]:
    """The lines of a text file."""
    with open(path, encoding="utf-8") as file:
        return file.read().splitlines()


def read_names(path: Optional[str]) -> Dict[int, str]:
    """The names of records by number, of a file with lines `NUMBER,NAME`; none where there is no file."""
    pairs = [line.split(",", 1) for line in lines_of(path)] if path else []
    return {int(pair[0]): pair[1] for pair in pairs if len(pair) == 2}


def arguments() -> argparse.Namespace:
    """The words of the command line."""
    parser = argparse.ArgumentParser(description="Draws what the program answered, as SVG on standard output.")
    kinds = parser.add_subparsers(dest="kind", required=True)
    one = kinds.add_parser("scatter", help="a report, each record at its place in two dimensions")
    one.add_argument("report")
    one.add_argument("places")
    many = kinds.add_parser("days", help="the answers of serve, a column for each report")
    many.add_argument("answers")
    many.add_argument("--names")
    for it in (one, many):
        it.add_argument("--title")
    return parser.parse_args()


def main() -> None:
    words = arguments()
    if words.kind == "scatter":
        marks, places = read_report(lines_of(words.report)), read_places(lines_of(words.places))
        lost = sum(mark.number not in places for mark in marks)
        if lost:
            print(f"picture: {counted(lost, 'record')} without a place left out", file=sys.stderr)
        picture = scatter(marks, places, words.title or "The clusters of a report")
    else:
        days = read_days(lines_of(words.answers))
        picture = days_picture(days, read_names(words.names), words.title or "The reports of a session")
    sys.stdout.write(picture)


if __name__ == "__main__":
    main()
