#!/usr/bin/env python3
"""Lists the groups of images that a report names: groups.py REPORT NAMES [IMAGES].

REPORT is what the program answered, and NAMES the file that `hash_images.py` wrote beside the batch. Where the folder
IMAGES is given, what is written is no list but a picture (SVG): a row of thumbnails for each group. An image that
belongs to a group as a border has a dashed frame.
"""

from __future__ import annotations

import os
import sys
from typing import Dict, List, Tuple

import pixels

sys.path.insert(0, os.path.join(os.path.dirname(os.path.abspath(__file__)), "..", "..", "tools"))
import picture  # noqa: E402

THUMB = (24, 18)
SCALE = 3
IN_A_ROW = 8
LEVELS = 8
BORDERS = "A dashed frame: a border, near one of the group's cores but with too few near itself."


def groups_of(marks: List[picture.Mark]) -> List[Tuple[int, List[picture.Mark]]]:
    """The marks of each cluster, by rising label, and last those of noise, under the label 0."""
    labels = sorted({mark.label for mark in marks}, key=lambda label: (label == 0, label))
    return [(label, [mark for mark in marks if mark.label == label]) for label in labels]


def heading(label: int, marks: List[picture.Mark]) -> str:
    """The words above a group: how many images it has, and its label."""
    images = picture.counted(len(marks), "image")
    return f"group {label}: {images}" if label else f"in no group: {images}"


def listed(marks: List[picture.Mark], names: Dict[int, str]) -> str:
    """The groups as a text: a heading, and below it a line for each file."""
    lines = []
    for label, members in groups_of(marks):
        lines.append(heading(label, members))
        for mark in members:
            lines.append(f"    {names[mark.number]}" + ("  (border)" if mark.kind == "border" else ""))
    return "\n".join(lines) + "\n"


def thumbnail(image: pixels.Grey, x: int, y: int) -> str:
    """A small image as runs of equal grey, one path for each grey, with its upper left corner at the point."""
    runs: Dict[int, List[str]] = {}
    for row, line in enumerate(pixels.block_mean(image, *THUMB)):
        greys = [total * LEVELS // (size * 256) for total, size in line]
        start = 0
        for column in range(1, len(greys) + 1):
            if column == len(greys) or greys[column] != greys[start]:
                runs.setdefault(greys[start], []).append(f"M{start} {row}h{column - start}")
                start = column
    paths = []
    for grey, parts in sorted(runs.items()):
        shade = f"{grey * 255 // (LEVELS - 1):02x}" * 3
        paths.append(f'<path stroke="#{shade}" d="{"".join(parts)}"/>')
    place = f'transform="translate({x} {y}) scale({SCALE}) translate(0 0.5)"'
    return f'<g {place} shape-rendering="crispEdges">{"".join(paths)}</g>'


def framed(drawing: picture.Drawing, mark: picture.Mark, at: Tuple[int, int], look: picture.Look) -> None:
    """Draws the frame of a thumbnail in its group's colour: dashed at a border."""
    width, height = THUMB[0] * SCALE, THUMB[1] * SCALE
    dashed = ' stroke-dasharray="6 4"' if mark.kind == "border" else ""
    frame = f'x="{at[0] - 2}" y="{at[1] - 2}" width="{width + 4}" height="{height + 4}"'
    drawing.add(f'<rect {frame} fill="none" stroke="{look.colour}" stroke-width="3"{dashed}/>')


def drawn(marks: List[picture.Mark], names: Dict[int, str], folder: str) -> str:
    """The groups as a picture: for each a heading and its thumbnails, at most eight beside each other."""
    drawing, known, y = picture.Drawing(), picture.looks(marks), 30
    drawing.text(18, y, "Images that look alike", 16)
    for label, members in groups_of(marks):
        look = known.get(label, picture.Look(picture.GREY, "circle"))
        y += 20
        drawing.add(picture.symbol(24, y, "core", known.get(label)))
        drawing.text(36, y + 4, heading(label, members), 13)
        y += 14
        for place, mark in enumerate(members):
            column, row = place % IN_A_ROW, place // IN_A_ROW
            at = (20 + column * (THUMB[0] * SCALE + 12), y + row * 78)
            name = names[mark.number]
            drawing.add(thumbnail(pixels.read(os.path.join(folder, name)), *at))
            framed(drawing, mark, at, look)
            drawing.text(at[0], at[1] + 68, name.rsplit(".", 1)[0][:15], 9)
        y += 78 * ((len(members) + IN_A_ROW - 1) // IN_A_ROW)
    width = 28 + IN_A_ROW * (THUMB[0] * SCALE + 12)
    drawing.text(20, y + 16, BORDERS, 11)
    return drawing.page(width, y + 32, "Images that look alike")


def main() -> None:
    if len(sys.argv) not in (3, 4):
        sys.exit("usage: groups.py REPORT NAMES [IMAGES]")
    marks = picture.read_report(picture.lines_of(sys.argv[1]))
    names = picture.read_names(sys.argv[2])
    sys.stdout.write(drawn(marks, names, sys.argv[3]) if len(sys.argv) == 4 else listed(marks, names))


if __name__ == "__main__":
    main()
