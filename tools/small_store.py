"""A small store under l1 for tools/stops.py: what it may be given, what is due to it, and what stands in its file."""
import os
import shutil
import struct

EPS, MINPTS, CAP, PAGE = 3, 3, 40, 16384


def report(records):
    """What is due to `report`: a clustering by all pairs."""
    near = {a: [b for b in sorted(records) if sum(abs(x - y) for x, y in zip(records[a], records[b])) <= EPS]
            for a in sorted(records)}
    cores, labels, marks = [a for a in near if len(near[a]) >= MINPTS], {}, {}
    for core in cores:
        reached = [] if core in labels else [core]
        for a in reached:
            if a in cores and a not in labels:
                labels[a] = core
                reached.extend(near[a])
    for a in near:
        anchor = next((b for b in near[a] if b in labels), None)
        marks[a] = f"core {labels[a]}" if a in labels else f"border {labels[anchor]}" if anchor else "noise"
    noise = list(marks.values()).count("noise")
    return "".join(f"{a} {mark}\n" for a, mark in marks.items()) + (
        f"records {len(near)} cores {len(cores)} borders {len(near) - len(cores) - noise} noise {noise} "
        f"clusters {len(set(labels.values()))}\n")


def session_of(draw, count, dim, batches, records):
    """So many batches, with lines before some: texts, and behind each that is accepted its receipt and the records then."""
    for _ in range(count):
        while draw.randrange(3) == 0:
            yield draw.choice(("report\n", "watch 1\n", "drop 1\n")), ()
        after, changes = dict(records), []
        for number in draw.choices(range(1, CAP + 1), k=draw.randint(1, 6)):
            if after.pop(number, None) is None:
                after[number] = tuple(draw.choices(range(10), k=dim))
            changes.append("+,%d" % number + ",%d" * dim % after[number] if number in after else f"-,{number}")
        if draw.randrange(4) == 0:
            changes.append(draw.choice(("*,1", "+,0,1", "+,1,256", "+,1" + ",1" * (dim + 1), f"-,{CAP + 1}")))
            yield "\n".join(["batch", *changes, "end", ""]), ()
        else:
            batches, records, inserted = batches + 1, after, sum(change[0] == "+" for change in changes)
            receipt = f"ok {batches} +{inserted} -{len(changes) - inserted} noise"
            yield "\n".join(["batch", *changes, "end", ""]), (receipt, records)


class Store:
    """A folder with a store, new or a copy: how many batches an opening found last, the records then and after each batch
    that was given since, how many of these have their receipt said, and how many may be on the disk."""

    def __init__(self, folder, dim, of=None):
        self.folder, self.path, self.dim = folder, os.path.join(folder, "warehouse.idb"), dim
        self.batches, self.states, self.said, self.most = 0, [{}], 0, 0
        os.makedirs(folder, exist_ok=True)
        if of:
            self.batches, self.states, self.said, self.most = of.batches, of.states, of.said, of.most
            shutil.copy(of.path, self.path)

    def words(self):
        """The words of its birth."""
        return ["init", "l1", *map(str, (self.dim, EPS, MINPTS, CAP))]

    def bytes(self):
        with open(self.path, "rb") as file:
            return file.read()

    def is_gate_open(self):
        with open(self.path, "rb") as file:
            return file.read(2)[1] == 1

    def judge(self, said):
        """Judges an opening whose report was said; answers whether a batch was on the disk without its receipt."""
        data, records, slot = self.bytes(), {}, 16 + self.dim
        pages, dim, batches, count = (struct.unpack_from("<I", data, PAGE + at)[0] for at in (0, 12, 28, 32))
        for page in (at for at in range(2 * PAGE, pages * PAGE, PAGE) if data[at] == 1):
            for at in range(page + 16, page + PAGE - slot + 1, slot):
                number, = struct.unpack_from("<I", data, at)
                if number:
                    records[number] = tuple(data[at + 16:at + slot])
        more = batches - self.batches
        assert self.said <= more <= self.most, f"{more} batches, {self.said} receipts, {self.most} may be on the disk"
        assert records == self.states[more], f"the records aren't those after {batches} batches: {records}"
        assert (data[1] == 1, dim, count) == (False, self.dim, len(records)), "the gate or the head page is wrong"
        assert said == report(records), f"the report behind {batches} batches is {said!r}"
        is_more = more > self.said
        self.batches, self.states, self.said, self.most = batches, [records], 0, 0
        return is_more
