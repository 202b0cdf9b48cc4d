#!/usr/bin/env python3
"""Computes trees and query costs from the rules of the M-tree, apart from the program.

It prints the tables in the tests of `mtree_index`, in their order, on standard output. On standard error it
says how often each branch of the rules was reached, and it fails where one was never reached.

Vectors have coordinates that are the upper five bits of one linear congruential sequence, and are inserted
one by one. After each 300 insertions the nodes get the tags 1, 2 and so on in preorder. It prints the tree of
400 vectors of two coordinates, under the sum of the absolute differences. Then come two runs, in which the
vectors are removed in the order of their numbers; after some removals, the first time before any, it prints
how far they went, the height, the length of the tree's list and a digest of that list, and the nodes get their
tags anew. The first run has 700 vectors of two coordinates under the sum of the differences, the second one 940
of 40 coordinates under the greatest difference, where all behind the 400th are equal and far from the others.
Last it prints how many distances range queries over the tree of 400 compute: the centres are the 100 vectors
that follow in the sequence, first all with radius 0, then 1, 3 and 255.

A tree is the list of its nodes from the root on, each node before its children. A leaf is 0, its tag,
how many entries it has, and each entry's number and parent distance. An inner node is 1, its tag, how
many entries it has, and each entry's object, radius and parent distance.
"""

import sys
from collections import Counter

CAPACITY = 30
FEWEST = 7

reached = Counter()


def vectors(count, width=2, scattered=1000):
    """Up to the number `scattered` from the sequence, all further ones with coordinates of 255."""
    state, drawn = 1, []
    for number in range(1, count + 1):
        vector = [255] * width
        if number <= scattered:
            for place in range(width):
                state = (1664525 * state + 1013904223) % 2**32
                vector[place] = state // 2**27
        drawn.append(tuple(vector))
    return drawn


class Metric:
    """The distance of two vectors, and the greatest distance of their width."""

    def __init__(self, distance, greatest):
        self.distance, self.greatest = distance, greatest


SUM = Metric(lambda a, b: sum(abs(x - y) for x, y in zip(a, b)), 510)
MAX = Metric(lambda a, b: max(abs(x - y) for x, y in zip(a, b)), 255)


class Entry:
    """A leaf entry has a number, an inner entry a child and a covering radius."""

    def __init__(self, vector, number=None, child=None, radius=0):
        self.vector, self.number, self.child, self.radius, self.parent = vector, number, child, radius, 0


class Node:
    def __init__(self, leaf, tag, entries):
        self.leaf, self.tag, self.entries = leaf, tag, entries

    def kind(self):
        return "leaf" if self.leaf else "inner"


class Tree:
    def __init__(self, metric):
        self.metric, self.root = metric, None

    def cut(self, sums, where):
        """The radius over these sums of a distance and a radius, cut at the greatest distance."""
        if max(sums) > self.metric.greatest:
            reached["radius cut at the greatest distance, " + where] += 1
        return min(self.metric.greatest, max(sums))

    def balanced(self, entries, nearest, pair):
        """Which side takes each entry: the sides take their nearest entry that is left in turns."""
        side_of, turn = {}, 0
        walks = [iter(nearest[k]) for k in pair]
        while len(side_of) < len(entries):
            side_of[next(k for k in walks[turn % 2] if k not in side_of)] = turn % 2
            turn += 1
        return side_of

    def split(self, leaf, tags, entries, where):
        """The two entries into which 31 to 36 entries are split, with the tags of the two nodes."""
        places = range(len(entries))
        apart = [[self.metric.distance(a.vector, b.vector) for b in entries] for a in entries]
        nearest = [sorted(places, key=lambda k: (apart[i][k], k)) for i in places]
        best = None
        for i in places:
            for j in range(i + 1, len(entries)):
                side_of = self.balanced(entries, nearest, (i, j))
                greater = max(
                    min(self.metric.greatest, apart[(i, j)[side_of[k]]][k] + entries[k].radius) for k in places
                )
                if best is None or greater < best[0]:
                    best = greater, (i, j), side_of
        _, pair, side_of = best
        halves = []
        for s in (0, 1):
            members = [entries[k] for k in places if side_of[k] == s]
            for k in places:
                if side_of[k] == s:
                    entries[k].parent = apart[pair[s]][k]
            radius = self.cut([e.parent + e.radius for e in members], where)
            halves.append(Entry(entries[pair[s]].vector, child=Node(leaf, tags[s], members), radius=radius))
        return halves

    def under(self, above, entries):
        """The entries with the parent distances below an object, 0 in the root."""
        for e in entries:
            e.parent = 0 if above is None else self.metric.distance(above, e.vector)
        return entries

    def insert_below(self, node, above, number, vector):
        """Inserts below a node whose routing object is `above`. Gives the two entries of a split, or none."""
        if node.leaf:
            node.entries += self.under(above, [Entry(vector, number=number)])
        else:
            reach = [self.metric.distance(e.vector, vector) for e in node.entries]
            places = range(len(node.entries))
            inside = [k for k in places if reach[k] <= node.entries[k].radius]
            if inside:
                place = min(inside, key=lambda k: (reach[k], k))
            else:
                place = min(places, key=lambda k: (reach[k] - node.entries[k].radius, k))
            entry = node.entries[place]
            entry.radius = max(entry.radius, reach[place])
            halves = self.insert_below(entry.child, entry.vector, number, vector)
            if halves:
                node.entries[place : place + 1] = self.under(above, halves)
        if len(node.entries) <= CAPACITY:
            return None
        if node.tag:
            reached[f"tag kept by the left half of a split {node.kind()}"] += 1
        return self.split(node.leaf, (node.tag, 0), node.entries, f"split {node.kind()}")

    def insert(self, number, vector):
        if self.root is None:
            self.root = Node(True, 0, [])
        halves = self.insert_below(self.root, None, number, vector)
        if halves:
            self.root = Node(False, 0, halves)

    def joined(self, left, right, above):
        """The entries that stand for two neighbours, of which one has too few entries."""
        node, other, entries = left.child, right.child, left.child.entries + right.child.entries
        if len(entries) > CAPACITY:
            reached[f"joined {node.kind()} split again"] += 1
            if node.tag and other.tag:
                reached[f"both tags kept where a joined {node.kind()} is split again"] += 1
            where = f"joined {node.kind()} split again"
            return self.under(above, self.split(node.leaf, (node.tag, other.tag), entries, where))
        if node.tag and other.tag:
            reached[f"left tag kept by a joined {node.kind()}"] += 1
        self.under(left.vector, entries)
        radius = self.cut([e.parent + e.radius for e in entries], f"joined {node.kind()}")
        one = Entry(left.vector, child=Node(node.leaf, node.tag, entries), radius=radius)
        return self.under(above, [one])

    def remove_below(self, node, above, number, vector):
        """Removes the pair below a node whose routing object is `above`, and tells whether it was found."""
        for place, e in enumerate(node.entries):
            if above is not None and abs(self.metric.distance(vector, above) - e.parent) > e.radius:
                continue
            reach = self.metric.distance(vector, e.vector)
            if node.leaf:
                if reach == 0 and e.number == number:
                    del node.entries[place]
                    return True
            elif reach <= e.radius and self.remove_below(e.child, e.vector, number, vector):
                if len(e.child.entries) < FEWEST:
                    side = "left" if place else "right"
                    reached[f"{e.child.kind()} joins its {side} sibling"] += 1
                    first = max(place - 1, 0)
                    node.entries[first : first + 2] = self.joined(*node.entries[first : first + 2], above)
                return True
        return False

    def remove(self, number, vector):
        """Removes a pair that is there."""
        assert self.remove_below(self.root, None, number, vector)
        if not self.root.entries:
            self.root = None
        elif not self.root.leaf and len(self.root.entries) == 1:
            self.root = self.root.entries[0].child
            reached[f"{self.root.kind()} becomes the root"] += 1
            if self.root.tag:
                reached[f"tag kept by the {self.root.kind()} that becomes the root"] += 1
            self.under(None, self.root.entries)

    def cost(self, node, to_object, centre, radius):
        """The distances that the query computes in a node, whose object is at this distance, and below."""
        total = 0
        for e in node.entries:
            if to_object is not None and abs(to_object - e.parent) > radius + e.radius:
                continue
            total += 1
            reach = self.metric.distance(centre, e.vector)
            if not node.leaf and reach <= radius + e.radius:
                total += self.cost(e.child, reach, centre, radius)
        return total


def below(node):
    """The nodes from this one on, each before its children."""
    return [node] + ([] if node.leaf else [n for e in node.entries for n in below(e.child)])


def row(node):
    numbers = [0 if node.leaf else 1, node.tag, len(node.entries)]
    for e in node.entries:
        numbers += [e.number, e.parent] if node.leaf else [*e.vector, e.radius, e.parent]
    return numbers


def height(node):
    return 1 if node.leaf else 1 + height(node.entries[0].child)


def set_tags(tree):
    """The nodes get the tags 1, 2 and so on in preorder."""
    for k, node in enumerate(below(tree.root)):
        node.tag = k + 1


def grown(metric, drawn):
    """The tree of these vectors, numbered from 1 on."""
    tree = Tree(metric)
    for k, vector in enumerate(drawn):
        tree.insert(k + 1, vector)
        if (k + 1) % 300 == 0:
            set_tags(tree)
    return tree


def run(metric, drawn, last):
    """A line for the tree of these vectors, one after each 100 removals, and one when `last` are gone."""
    tree = grown(metric, drawn)
    for done in range(last + 1):
        if done:
            tree.remove(done, drawn[done - 1])
        if done % 100 == 0 or done == last:
            numbers = [n for node in below(tree.root) for n in row(node)]
            digest = 0
            for n in numbers:
                digest = (31 * digest + n) % 2**32
            print(done, height(tree.root), len(numbers), digest, sep=", ")
            set_tags(tree)


# Each of these was to be reached.
BRANCHES = [
    "leaf joins its left sibling",
    "leaf joins its right sibling",
    "inner joins its left sibling",
    "inner joins its right sibling",
    "joined leaf split again",
    "joined inner split again",
    "leaf becomes the root",
    "inner becomes the root",
    "radius cut at the greatest distance, joined inner",
    "radius cut at the greatest distance, joined inner split again",
    "tag kept by the left half of a split leaf",
    "tag kept by the left half of a split inner",
    "left tag kept by a joined leaf",
    "left tag kept by a joined inner",
    "both tags kept where a joined leaf is split again",
    "both tags kept where a joined inner is split again",
    "tag kept by the leaf that becomes the root",
    "tag kept by the inner that becomes the root",
]


def main():
    drawn = vectors(500)
    tree = grown(SUM, drawn[:400])
    for node in below(tree.root):
        print(*row(node), sep=", ")
    run(SUM, vectors(700), 690)
    run(MAX, vectors(940, 40, 400), 930)
    for radius in 0, 1, 3, 255:
        print(*(tree.cost(tree.root, None, v, radius) for v in drawn[400:]), sep=", ")
    for branch in BRANCHES + sorted(set(reached) - set(BRANCHES)):
        print(f"{reached[branch]:4} {branch}", file=sys.stderr)
    return 0 if all(reached[branch] for branch in BRANCHES) else 1


if __name__ == "__main__":
    sys.exit(main())
