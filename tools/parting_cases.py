#!/usr/bin/env python3
"""Computes partings of overfull nodes from the rules, apart from the program.

A case is a list of points on a plane with a radius each, under the sum of the absolute differences
cut at a greatest distance. For every pair of positions all entries are left at first, and the two
sides take their nearest entry that is left in turns, ties to the least position. The radius of a
side is the greatest sum of distance and radius, cut at the greatest distance. The pair whose
greater radius is least is chosen, ties to the lexicographically least pair.

It prints a line for each case as the table in the tests of `mtree_split` has it: the count, the
numbers that the points and the radii are made from, the greatest distance, and then the expected
pair, the entries that go right as the bits of a number, and the two radii.
"""

CASES = [
    (31, (0, 0, 1), (0, 1, 0), 510),
    (36, (1, 0, 100), (0, 1, 0), 510),
    (34, (1, 0, 2), (1, 5, 0), 510),
    (36, (37, 13, 101), (7, 11, 0), 510),
    (33, (91, 57, 256), (1, 3, 498), 510),
    (32, (91, 57, 256), (29, 300, 0), 510),
    (35, (91, 57, 256), (29, 300, 0), 290),
]


def distance(a, b, greatest):
    return min(abs(a[0] - b[0]) + abs(a[1] - b[1]), greatest)


def parting(points, radii, greatest, pair):
    """The members of the pair's two sides in balanced parting, and the sides' radii."""
    remaining = set(range(len(points)))
    members = ([], [])
    while remaining:
        side = (len(points) - len(remaining)) % 2
        centre = points[pair[side]]
        taken = min(remaining, key=lambda k: (distance(centre, points[k], greatest), k))
        members[side].append(taken)
        remaining.remove(taken)
    reach = [
        min(max(distance(points[pair[side]], points[k], greatest) + radii[k] for k in members[side]), greatest)
        for side in (0, 1)
    ]
    return members, reach


def choose(points, radii, greatest):
    pairs = [(i, j) for i in range(len(points)) for j in range(i + 1, len(points))]
    best = min(pairs, key=lambda pair: (max(parting(points, radii, greatest, pair)[1]), pair))
    members, reach = parting(points, radii, greatest, best)
    return best, members, reach


def main():
    for count, (a, b, m), (c, d, e), greatest in CASES:
        points = [(k * a % m, k * b % m) for k in range(count)]
        radii = [min(k * c % d + e, greatest) for k in range(count)]
        (left, right), members, reach = choose(points, radii, greatest)
        bits = sum(1 << k for k in members[1])
        print(f"({count}, [{a}, {b}, {m}], [{c}, {d}, {e}], {greatest}, [{left}, {right}], {bits:#x}, [{reach[0]}, {reach[1]}]),")


if __name__ == "__main__":
    main()
