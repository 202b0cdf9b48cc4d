#!/usr/bin/env python3
"""Makes the grey images of this example, as PGM files in a folder: make_images.py FOLDER.

There are six motives, each as one image and its copies: smaller, larger, brighter, darker, with less contrast, and
cropped at the edges; and six strays, of which there is one image each. All is counted in whole numbers, so the files
are the same on each machine.
"""

from __future__ import annotations

import os
import sys
from typing import Callable, List, Tuple

# A motive is a ground, grey at the four corners of a square of 1000 x 1000, and shapes that are painted over it.
# A disc is (x, y, radius, grey); a box is (left, top, right, bottom, grey).
Shape = Tuple[int, ...]
Motive = Tuple[Tuple[int, int, int, int], List[Shape]]

MOTIVES: List[Tuple[str, Motive]] = [
    (
        "bridge",
        (
            (200, 170, 90, 60),
            [(0, 480, 1000, 560, 40), (180, 300, 240, 1000, 30), (740, 260, 800, 1000, 20), (480, 760, 120, 150)],
        ),
    ),
    (
        "flower",
        (
            (70, 110, 30, 80),
            [
                (500, 250, 170, 220),
                (300, 480, 170, 190),
                (700, 480, 170, 240),
                (500, 440, 110, 90),
                (475, 560, 525, 1000, 130),
            ],
        ),
    ),
    (
        "harbour",
        (
            (230, 180, 120, 100),
            [
                (0, 640, 1000, 1000, 60),
                (120, 560, 520, 700, 20),
                (300, 160, 330, 560, 10),
                (640, 500, 930, 690, 150),
                (800, 200, 90, 255),
            ],
        ),
    ),
    (
        "moon",
        (
            (10, 60, 40, 120),
            [(620, 340, 240, 230), (540, 300, 60, 180), (700, 420, 50, 190), (0, 820, 1000, 1000, 5)],
        ),
    ),
    (
        "street",
        (
            (160, 220, 70, 110),
            [
                (0, 100, 260, 1000, 90),
                (60, 220, 140, 380, 230),
                (60, 500, 140, 660, 210),
                (720, 0, 1000, 1000, 50),
                (800, 160, 880, 420, 200),
                (400, 700, 600, 1000, 140),
            ],
        ),
    ),
    (
        "tree",
        (
            (190, 230, 140, 180),
            [
                (430, 560, 520, 1000, 30),
                (350, 420, 230, 70),
                (600, 360, 250, 50),
                (480, 230, 180, 90),
                (0, 920, 1000, 1000, 110),
            ],
        ),
    ),
]
STRAYS = 6
LARGE = (64, 48)


def strays() -> List[Tuple[str, Motive]]:
    """Motives of shapes at drawn places, by the upper bits of one linear congruential sequence."""
    state, drawn = 2026, []

    def draw(below: int) -> int:
        """The next number of the sequence, 0 to below - 1."""
        nonlocal state
        state = (1664525 * state + 1013904223) % 2**32
        return state // 2**16 % below

    for place in range(1, STRAYS + 1):
        ground = (draw(256), draw(256), draw(256), draw(256))
        shapes = [(draw(1000), draw(1000), 80 + draw(220), draw(256)) for _ in range(7)]
        drawn.append((f"stray-{place}", (ground, shapes)))
    return drawn


def grey_at(motive: Motive, x: int, y: int) -> int:
    """The grey of a motive, 0 to 255, at a place of its square."""
    (a, b, c, d), shapes = motive
    grey = ((a * (1000 - x) + b * x) * (1000 - y) + (c * (1000 - x) + d * x) * y) // 1000000
    for shape in shapes:
        if len(shape) == 4:
            left, top, radius, paint = shape
            if (x - left) ** 2 + (y - top) ** 2 <= radius**2:
                grey = paint
        elif shape[0] <= x < shape[2] and shape[1] <= y < shape[3]:
            grey = shape[4]
    return grey


def paint(
    motive: Motive, size: Tuple[int, int], cut: Tuple[int, int, int, int], tone: Callable[[int], int]
) -> bytes:
    """The pixels of a motive, row by row: `size` is width and height, `cut` the part that is seen.

    A pixel is the mean of four places in it, toned and then kept within 0 to 255.
    """
    (width, height), (left, top, right, bottom) = size, cut
    pixels = bytearray()
    for row in range(height):
        for column in range(width):
            total = 0
            for i, j in ((1, 1), (3, 1), (1, 3), (3, 3)):
                x = left + (4 * column + i) * (right - left) // (4 * width)
                y = top + (4 * row + j) * (bottom - top) // (4 * height)
                total += grey_at(motive, x, y)
            pixels.append(max(0, min(255, tone(total // 4))))
    return bytes(pixels)


WHOLE = (0, 0, 1000, 1000)
VERSIONS = [
    ("plain", LARGE, WHOLE, lambda grey: grey),
    ("small", (32, 24), WHOLE, lambda grey: grey),
    ("wide", (84, 48), WHOLE, lambda grey: grey),
    ("bright", LARGE, WHOLE, lambda grey: grey + 40),
    ("dark", LARGE, WHOLE, lambda grey: grey * 3 // 5),
    ("pale", LARGE, WHOLE, lambda grey: 90 + grey * 2 // 5),
    ("cut", LARGE, (30, 20, 970, 960), lambda grey: grey),
    ("cropped", LARGE, (60, 40, 940, 920), lambda grey: grey),
]


def write(folder: str, name: str, size: Tuple[int, int], pixels: bytes) -> None:
    """Writes a PGM file of the name."""
    with open(os.path.join(folder, f"{name}.pgm"), "wb") as file:
        file.write(b"P5 %d %d 255\n" % size + pixels)


def main() -> None:
    if len(sys.argv) != 2:
        sys.exit("usage: make_images.py FOLDER")
    folder = sys.argv[1]
    os.makedirs(folder, exist_ok=True)
    for name, motive in MOTIVES:
        for version, size, cut, tone in VERSIONS:
            write(folder, f"{name}-{version}", size, paint(motive, size, cut, tone))
    for name, motive in strays():
        write(folder, name, LARGE, paint(motive, LARGE, WHOLE, lambda grey: grey))


if __name__ == "__main__":
    main()
