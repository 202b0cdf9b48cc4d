#!/usr/bin/env python3
"""Makes the descriptors of a catalogue: make_items.py OUT [digits].

Writes `batch.csv` into the folder OUT, a line `+,NUMBER,v1,..,v64` for each item. An item is a small drawing of 8 x 8
places, and its coordinates are their greys from 0 to 16, row by row.

Without a second word there are 150 items of our own making: ten signs, each drawn fourteen times with a pen of
another strength and with blots, and ten odd items, each two signs laid over each other. Item 100 * s + k is the k-th
drawing of sign s, and items from 1101 on are the odd ones.

With the word `digits` they are the 1,797 handwritten digits that come with scikit-learn, where it is installed
(Debian's package python3-sklearn). Item 1000 * d + k is the k-th digit d; the digit 0 counts as 10.
"""

from __future__ import annotations

import csv
import gzip
import importlib.util
import os
import sys
from typing import Iterator, List, Tuple

Item = Tuple[int, List[int]]

SIGNS = (
    "..####.. .#....#. #......# #......# #......# #......# .#....#. ..####..",
    "...##... ...##... ...##... ######## ######## ...##... ...##... ...##...",
    "#......# .#....#. ..#..#.. ...##... ...##... ..#..#.. .#....#. #......#",
    "######## ######## ##...... ##...... ##...... ##...... ######## ########",
    "........ .######. .######. .######. .######. .######. .######. ........",
    "...##... ..####.. .######. ######## ...##... ...##... ...##... ...##...",
    "##...... ##...... ##...... ##...... ##...... ##...... ######## ########",
    "##....## ##....## ##....## ######## ######## ##....## ##....## ##....##",
    "######## .......# ......#. .....#.. ...##... ..#..... .#...... ########",
    "#.#.#.#. .#.#.#.# #.#.#.#. .#.#.#.# #.#.#.#. .#.#.#.# #.#.#.#. .#.#.#.#",
)
DRAWINGS = 14
ODD = 10
DARKEST = 16


def drawn() -> Iterator[int]:
    """Numbers of 0 to 65,535, the upper bits of one linear congruential sequence."""
    state = 64
    while True:
        state = (1664525 * state + 1013904223) % 2**32
        yield state // 2**16


def drawing_of(places: str, numbers: Iterator[int]) -> List[int]:
    """A drawing of a sign: a pen of strength 9 to 15, and at each place a blot of 0 to 5."""
    pen = 9 + next(numbers) % 7
    return [min(DARKEST, (pen if place == "#" else 0) + next(numbers) % 6) for place in places]


def own_items() -> Iterator[Item]:
    """The items of our own making, each with its number and its 64 greys."""
    numbers = drawn()
    signs = [sign.replace(" ", "") for sign in SIGNS]
    for place, sign in enumerate(signs, 1):
        for count in range(1, DRAWINGS + 1):
            yield 100 * place + count, drawing_of(sign, numbers)
    for count in range(1, ODD + 1):
        first, second = signs[next(numbers) % 10], signs[next(numbers) % 10]
        over = "".join("#" if "#" in pair else "." for pair in zip(first, second))
        rubbed = "".join("." if next(numbers) % 4 == 0 else place for place in over)
        yield 1100 + count, drawing_of(rubbed, numbers)


def digits_file() -> str:
    """The file of digits that comes with scikit-learn; ends with a sentence where it isn't there."""
    found = importlib.util.find_spec("sklearn")
    for folder in found.submodule_search_locations or () if found else ():
        file = os.path.join(folder, "datasets", "data", "digits.csv.gz")
        if os.path.isfile(file):
            return file
    sys.exit("catalogue: the digits aren't here: they come with scikit-learn (Debian: python3-sklearn)")


def digits() -> Iterator[Item]:
    """The digits of scikit-learn: lines of 64 greys and the digit."""
    counts = [0] * 10
    with gzip.open(digits_file(), "rt", encoding="ascii", newline="") as file:
        for row in csv.reader(file):
            *greys, digit = (int(float(field)) for field in row)
            counts[digit] += 1
            yield 1000 * (digit or 10) + counts[digit], greys


def main() -> None:
    if len(sys.argv) not in (2, 3) or sys.argv[2:] not in ([], ["digits"]):
        sys.exit("usage: make_items.py OUT [digits]")
    items = list(digits() if len(sys.argv) == 3 else own_items())
    os.makedirs(sys.argv[1], exist_ok=True)
    with open(os.path.join(sys.argv[1], "batch.csv"), "w", encoding="ascii", newline="\n") as file:
        for number, greys in items:
            file.write(f"+,{number}," + ",".join(map(str, greys)) + "\n")


if __name__ == "__main__":
    main()
