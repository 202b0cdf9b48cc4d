#!/usr/bin/env python3
"""Six workloads of records that are kept from day to day, drawn by fixed rules.

    workloads.py FOLDER RECORDS NAME ..     the names: 2d sensor hash64 hash256 sift hash64-large

A workload is a first load of RECORDS records, five times as many for `hash64-large`, and 20 days. A day deletes one
record in a hundred of those that are there, drawn evenly, and then inserts as many new ones under rising numbers. A
folder NAME has

    load.csv  day_01.csv ..       the changes as a batch has them
    left.csv                      the records that are there in the end, as insertions
    all.bin                       each vector that ever is, the one with number r + 1 as row r
    before.bin  after.bin         the vectors that are there after the load, and in the end
    ops_01.bin ..                 a day as numbers of 4 bytes: how many rows go and which, how many come and which
"""
import os
import random
import struct
import sys

DAYS = 20


def coordinate(value):
    return min(255, max(0, round(value)))


class Hashes:
    """Hashes of images: three in five stand alone, the others are near-copies in groups with sizes by a power law."""

    def __init__(self, draw, bits, flips):
        self.draw, self.bits, self.flips = draw, bits, flips
        self.centres, self.sizes = [], []

    def alone(self):
        return self.draw.getrandbits(self.bits)

    def copy_of(self, centre):
        for bit in self.draw.sample(range(self.bits), self.draw.randint(1, self.flips)):
            centre ^= 1 << bit
        return centre

    def group(self, size):
        """A new centre with so many near-copies; in half of the groups one of them is the centre itself."""
        centre = self.alone()
        self.centres.append(centre)
        self.sizes.append(size)
        whole = [centre] if size > 1 and self.draw.random() < 0.5 else []
        return whole + [self.copy_of(centre) for _ in range(size - len(whole))]

    def first(self, count):
        grouped = []
        wanted = count - round(0.6 * count)
        while len(grouped) < wanted:
            size = int(2 * (1 - self.draw.random()) ** (-1 / 1.3))
            grouped += self.group(min(max(size, 2), 400, wanted - len(grouped)))
        rows = grouped + [self.alone() for _ in range(count - wanted)]
        self.draw.shuffle(rows)
        return rows

    def later(self, count):
        """Three in five stand alone, three in ten join a group, a large one rather, and one in ten begins one."""
        rows = []
        for _ in range(count):
            kind = self.draw.random()
            if kind < 0.6:
                rows.append(self.alone())
            elif kind < 0.9:
                place = self.draw.choices(range(len(self.sizes)), self.sizes)[0]
                self.sizes[place] += 1
                rows.append(self.copy_of(self.centres[place]))
            else:
                rows += self.group(1)
        return rows

    def spelled(self, row):
        return format(row, f"0{self.bits}b")

    def packed(self, row):
        return row.to_bytes(self.bits // 8, "big")


class Points:
    """Points around centres, each coordinate spread by the bell curve, beside some that are drawn alone."""

    def __init__(self, draw, centres, spread, alone):
        self.draw, self.centres, self.alone = draw, centres, alone
        self.spreads = [draw.uniform(*spread) for _ in centres]
        self.weights = [1] * len(centres)

    def background(self):
        return [self.draw.uniform(0, 255) for _ in self.centres[0]]

    def row(self):
        if self.draw.random() < self.alone:
            return bytes(map(coordinate, self.background()))
        place = self.draw.choices(range(len(self.centres)), self.weights)[0]
        spread = self.spreads[place]
        return bytes(coordinate(self.draw.gauss(centre, spread)) for centre in self.centres[place])

    def first(self, count):
        return [self.row() for _ in range(count)]

    later = first

    def spelled(self, row):
        return ",".join(map(str, row))

    def packed(self, row):
        return row


class Descriptors(Points):
    """Descriptors of 128 coordinates, most of them small: 300 kinds, few of them frequent."""

    def __init__(self, draw):
        kinds = [[min(draw.expovariate(1 / 32), 200) for _ in range(128)] for _ in range(300)]
        super().__init__(draw, kinds, (4, 28), 0.15)
        self.weights = [draw.paretovariate(1.2) - 0.7 for _ in kinds]

    def background(self):
        return [self.draw.expovariate(1 / 32) for _ in range(128)]


def centres(draw, count, dim, low, high):
    return [[draw.uniform(low, high) for _ in range(dim)] for _ in range(count)]


# METRIC DIM EPS MINPTS, how many times the records, and what draws them.
WORKLOADS = {
    "2d": ("l1", 2, 2, 8, 1, lambda draw: Points(draw, centres(draw, 20, 2, 20, 235), (2.5, 7), 0.3)),
    "sensor": ("max", 8, 7, 8, 1, lambda draw: Points(draw, centres(draw, 30, 8, 30, 225), (3, 7), 0.1)),
    "hash64": ("hamming", 64, 6, 3, 1, lambda draw: Hashes(draw, 64, 6)),
    "hash256": ("hamming", 256, 20, 3, 1, lambda draw: Hashes(draw, 256, 20)),
    "sift": ("l1", 128, 1570, 5, 1, Descriptors),
    "hash64-large": ("hamming", 64, 6, 3, 5, lambda draw: Hashes(draw, 64, 6)),
}


def words(name):
    """METRIC DIM EPS MINPTS of a workload, and the width of its vectors."""
    metric, dim, eps, minpts = WORKLOADS[name][:4]
    return [metric, str(dim), str(eps), str(minpts)], dim // 8 if metric == "hamming" else dim


def write(folder, name, records):
    """Writes the files of a workload, and says how many records it loads."""
    draw = random.Random(f"{name} {records}")
    times, make = WORKLOADS[name][4:]
    kind = make(draw)
    rows = kind.first(records * times)
    loaded, daily = len(rows), max(1, len(rows) // 100)
    os.makedirs(folder)

    def save(file, parts):
        with open(f"{folder}/{file}", "wb") as out:
            out.writelines(parts)

    def insertions(places):
        return (f"+,{row + 1},{kind.spelled(rows[row])}\n".encode() for row in places)

    save("load.csv", insertions(range(loaded)))
    save("before.bin", map(kind.packed, rows))
    there = list(range(loaded))
    for day in range(1, DAYS + 1):
        gone = sorted(draw.sample(there, daily))
        come = list(range(len(rows), len(rows) + daily))
        rows += kind.later(daily)
        there = sorted(set(there) - set(gone)) + come
        save(f"day_{day:02}.csv", [f"-,{row + 1}\n".encode() for row in gone] + list(insertions(come)))
        save(f"ops_{day:02}.bin", [struct.pack(f"<{2 * daily + 2}i", daily, *gone, daily, *come)])
    save("left.csv", insertions(there))
    save("after.bin", (kind.packed(rows[row]) for row in there))
    save("all.bin", map(kind.packed, rows))
    return loaded


if __name__ == "__main__":
    if len(sys.argv) < 4:
        sys.exit(__doc__)
    for name in sys.argv[3:]:
        print(name, *words(name)[0], write(f"{sys.argv[1]}/{name}", name, int(sys.argv[2])))
