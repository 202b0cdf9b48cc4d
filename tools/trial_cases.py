#!/usr/bin/env python3
"""Computes what `trial SEED COUNT` says from the rules, apart from the program.

After each change the clusters are made anew: a core has at least four records within the distance 3
(the sum of the absolute differences of the two coordinates), itself counted; cores within that
distance of each other are joined, and the label of joined cores is the least number among them; a
record near a core that is no core is a border of the least such core. The events of a change are
told from the clusters before it and after it alone.

It prints the two lines for each pair of a seed and a count: of the command line, or of the table
here. It takes some seconds for a few thousand changes.
"""
import sys

CASES = [(1, 3), (4294967295, 1), (7, 300), (10, 1000), (12, 1000)]
NEAR = [
    (i, j) for i in range(-3, 4) for j in range(-3, 4) if abs(i) + abs(j) <= 3
]


def draws(seed):
    x = seed
    while True:
        x = (1664525 * x + 1013904223) % 2**32
        yield x


class Records:
    """The records by number, and their numbers by place."""

    def __init__(self):
        self.places = {}
        self.at = {}

    def insert(self, number, place):
        self.places[number] = place
        self.at.setdefault(place, set()).add(number)

    def delete(self, number):
        self.at[self.places.pop(number)].discard(number)

    def near(self, number):
        x, y = self.places[number]
        return [n for i, j in NEAR for n in self.at.get((x + i, y + j), ())]

    def marks(self):
        """The label of each core, and the number of borders."""
        near = {n: self.near(n) for n in self.places}
        cores = sorted(n for n in near if len(near[n]) >= 4)
        labels = {}
        for least in cores:
            if least in labels:
                continue
            labels[least], todo = least, [least]
            while todo:
                for n in near[todo.pop()]:
                    if len(near[n]) >= 4 and n not in labels:
                        labels[n] = least
                        todo.append(n)
        anchors = {
            n: min(c for c in near[n] if c in labels)
            for n in near
            if n not in labels and any(c in labels for c in near[n])
        }
        return labels, {n: labels[c] for n, c in anchors.items()}


def told(before, after, inserted):
    """The kinds of the events of one change, each with how often it comes."""
    one, other = (after, before) if inserted else (before, after)
    labels = one[0]
    members = {}
    for n, label in list(labels.items()) + list(one[1].items()):
        members.setdefault(label, []).append(n)
    events = []
    for label in sorted({l for n, l in labels.items() if n not in other[0]}):
        across = {other[0][n] for n in members[label] if n in other[0]}
        if inserted:
            kind = ["created", "absorbed", "merged"][min(len(across), 2)]
        else:
            kind = ["removed", "reduced", "split"][min(len(across), 2)]
        events.append((kind, max(len(across), 1)))
    if inserted and not events:
        events.append(("noise", 1))
    return events


def trial(seed, count):
    records, drawn = Records(), draws(seed)
    tally = dict.fromkeys(
        ["noise", "created", "absorbed", "merged", "removed", "reduced", "split"], 0
    )
    marks = records.marks()
    for _ in range(count):
        number = 1 + next(drawn) // 256 % count
        inserted = number not in records.places
        if inserted:
            first = next(drawn) // 16777216
            records.insert(number, (first, next(drawn) // 16777216))
        else:
            records.delete(number)
        before, marks = marks, records.marks()
        for kind, times in told(before, marks, inserted):
            tally[kind] += times
    total, cores, borders = len(records.places), len(marks[0]), len(marks[1])
    clusters = len(set(marks[0].values()))
    yield "tally " + " ".join(f"{kind} {n}" for kind, n in tally.items())
    yield (
        f"records {total} cores {cores} borders {borders} "
        f"noise {total - cores - borders} clusters {clusters}"
    )


def main():
    words = [int(word) for word in sys.argv[1:]]
    cases = [tuple(words)] if words else CASES
    for seed, count in cases:
        print(f"trial {seed} {count}")
        for line in trial(seed, count):
            print(line)


if __name__ == "__main__":
    main()
