#!/usr/bin/env python3
"""Makes a week of readings of twenty sensors: make_week.py OUT.

Writes two files into the folder OUT:

    week.session    the input of `serve`: a batch and the line `report` for each of seven days
    names.csv       a line `NUMBER,NAME` for each sensor

A reading has two coordinates of 0 to 255: the temperature in tenths of a degree above 0 degrees Celsius, and the
relative humidity in halves of a percent. On the first day all sensors are read. From then on a sensor is read again
where its reading is off by 4 or more from the one that the store has: its record is deleted and inserted anew.
Sensor 209 is carried from the office to the cellar in the course of the week, and on the fourth and fifth day the sun
shines on the three windows.
"""

from __future__ import annotations

import os
import sys
from typing import Dict, Iterator, List, Tuple

Reading = Tuple[int, int]

DAYS = 7
NOTED = 4
CELLAR: List[Reading] = [(116, 160), (119, 155), (121, 158), (124, 153), (118, 163), (126, 160), (122, 165), (124, 150)]
OFFICE: List[Reading] = [
    (204, 92), (208, 88), (210, 84), (213, 90), (206, 95), (215, 86), (209, 80), (217, 94), (212, 97)
]
WINDOWS: List[Reading] = [(228, 66), (226, 120), (180, 66)]
IN_THE_SUN: List[Reading] = [(248, 52), (244, 57), (250, 60)]
CARRIED: List[Reading] = [(212, 97), (200, 104), (186, 118), (163, 134), (135, 151), (127, 155), (123, 157)]


def shakes() -> Iterator[int]:
    """Numbers of -2 to 2, by the upper bits of one linear congruential sequence."""
    state = 33
    while True:
        state = (1664525 * state + 1013904223) % 2**32
        yield state // 2**16 % 5 - 2


def usual(day: int) -> Dict[int, Reading]:
    """Where each sensor's reading would be on a day, 0 to 6, if nothing shook."""
    windows = IN_THE_SUN if day in (3, 4) else WINDOWS
    places = {101 + place: reading for place, reading in enumerate(CELLAR)}
    places.update({201 + place: reading for place, reading in enumerate(OFFICE)})
    places.update({301 + place: reading for place, reading in enumerate(windows)})
    places[209] = CARRIED[day]
    return places


def is_off(reading: Reading, known: Reading) -> bool:
    """Whether a reading is off from the known one by so much that it is sent."""
    return max(abs(reading[0] - known[0]), abs(reading[1] - known[1])) >= NOTED


def week() -> Iterator[List[str]]:
    """The changes of each day, as records of a batch."""
    known: Dict[int, Reading] = {}
    shaken = shakes()
    for day in range(DAYS):
        changes = []
        for number, (warm, damp) in sorted(usual(day).items()):
            reading = (warm + next(shaken), damp + next(shaken))
            if number in known and not is_off(reading, known[number]):
                continue
            if number in known:
                changes.append(f"-,{number}")
            changes.append(f"+,{number},{reading[0]},{reading[1]}")
            known[number] = reading
        yield changes


def name_of(number: int) -> str:
    """What a sensor is called."""
    room = {1: "cellar", 2: "office", 3: "window"}[number // 100]
    return f"{room} {number % 100}"


def main() -> None:
    if len(sys.argv) != 2:
        sys.exit("usage: make_week.py OUT")
    out = sys.argv[1]
    os.makedirs(out, exist_ok=True)
    with open(os.path.join(out, "week.session"), "w", encoding="ascii", newline="\n") as file:
        for changes in week():
            file.write("\n".join(["batch", *changes, "end", "report"]) + "\n")
    with open(os.path.join(out, "names.csv"), "w", encoding="ascii", newline="\n") as file:
        file.writelines(f"{number},{name_of(number)}\n" for number in usual(0))


if __name__ == "__main__":
    main()
