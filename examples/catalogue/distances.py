#!/usr/bin/env python3
"""Looks at the distances of the items of a batch, to choose EPS and MINPTS, and to place them in a picture.

    distances.py near BATCH METRIC MINPTS
    distances.py places BATCH METRIC

METRIC is `l1` (the sum of the differences) or `max` (the greatest of them). Each line of BATCH is an insertion.

`near` prints, for each item, how far away its MINPTS-th near item is, itself counted: an item is a core where EPS is at
least that. The distances are sorted, and of each twentieth of the items the greatest is printed, with a bar. Where the
bars rise at once, the items below are in groups and those above are alone: EPS belongs into the gap.

`places` prints a line `NUMBER,X,Y` for each item, its distances from two items that are far apart. Two items that
are within EPS of each other are so in the picture too, in X and in Y.
"""

from __future__ import annotations

import sys
from typing import Callable, Dict, List, Sequence

Vector = Sequence[int]
Metric = Callable[[Vector, Vector], int]

BARS = 20
LONGEST = 50


def l1(a: Vector, b: Vector) -> int:
    """The sum of the differences of two vectors of one length."""
    return sum(abs(x - y) for x, y in zip(a, b))


def greatest(a: Vector, b: Vector) -> int:
    """The greatest difference of two vectors of one length."""
    return max(abs(x - y) for x, y in zip(a, b))


METRICS: Dict[str, Metric] = {"l1": l1, "max": greatest}


def read_batch(path: str) -> Dict[int, List[int]]:
    """The vectors of a batch of insertions, by number."""
    vectors = {}
    with open(path, encoding="ascii") as file:
        for line in file:
            fields = line.strip().split(",")
            if fields[0] == "+":
                vectors[int(fields[1])] = [int(field) for field in fields[2:]]
    return vectors


def near_distances(vectors: List[List[int]], metric: Metric, minpts: int) -> List[int]:
    """The distance of each vector to its MINPTS-th near one, itself counted, sorted."""
    found: List[List[int]] = [[0] for _ in vectors]
    for place, vector in enumerate(vectors):
        for other in range(place):
            distance = metric(vector, vectors[other])
            found[place].append(distance)
            found[other].append(distance)
    return sorted(sorted(row)[minpts - 1] for row in found)


def bars(distances: List[int]) -> List[str]:
    """A line for each twentieth of the sorted distances: how many items are within it, the distance, a bar."""
    count, most = len(distances), max(distances[-1], 1)
    ends = sorted({max(1, count * part // BARS) for part in range(1, BARS + 1)})
    width = len(str(count))
    return [
        f"{end:{width}} items within {distances[end - 1]:5} {'#' * (LONGEST * distances[end - 1] // most)}".rstrip()
        for end in ends
    ]


def widest_gap(distances: List[int]) -> str:
    """A sentence that names the widest step between neighbours in the upper half of the sorted distances."""
    half = len(distances) // 2
    steps = [distances[place + 1] - distances[place] for place in range(half, len(distances) - 1)]
    if not steps or max(steps) == 0:
        return "no gap"
    place = half + steps.index(max(steps))
    return f"widest gap: {place + 1} items within {distances[place]}, the next at {distances[place + 1]}"


def farthest(vectors: Dict[int, List[int]], metric: Metric, start: int) -> int:
    """The item that is farthest from one, the least of several."""
    return min(vectors, key=lambda number: (-metric(vectors[number], vectors[start]), number))


def places(vectors: Dict[int, List[int]], metric: Metric) -> List[str]:
    """The lines `NUMBER,X,Y`: distances from the item farthest from the least one, and from the one opposite."""
    first = farthest(vectors, metric, min(vectors))
    second = farthest(vectors, metric, first)
    return [
        f"{number},{metric(vector, vectors[first])},{metric(vector, vectors[second])}"
        for number, vector in sorted(vectors.items())
    ]


def main() -> None:
    words = sys.argv[1:]
    if len(words) < 3 or words[2] not in METRICS or (words[0], len(words)) not in (("near", 4), ("places", 3)):
        sys.exit("usage: distances.py near BATCH METRIC MINPTS | distances.py places BATCH METRIC")
    vectors, metric = read_batch(words[1]), METRICS[words[2]]
    if words[0] == "places":
        print("\n".join(places(vectors, metric)))
        return
    minpts = int(words[3])
    if not 1 <= minpts <= len(vectors):
        sys.exit("distances: MINPTS is at least 1 and at most the number of items")
    distances = near_distances(list(vectors.values()), metric, minpts)
    print("\n".join([*bars(distances), widest_gap(distances)]))


if __name__ == "__main__":
    main()
