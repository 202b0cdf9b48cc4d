#!/usr/bin/env python3
"""What a store's file says, read by docs/FORMAT.md alone: its head, its records with their lines, and its tree.

Usage: read_store.py FILE. It says a line `head ..`, a line for each record by rising number, `N COUNT ANCHOR LABEL VECTOR`,
and a line for each node of the tree in preorder; then whether the lines are the ones that are due and the tree is one of the
records, both computed here from the records alone. Its status is 0 where both hold, 1 where not, 2 where the file is no store.
"""
import struct
import sys

PAGE = 16_384
METRICS = {1: "l1", 2: "max", 3: "hamming"}


class NoStore(Exception):
    """The file isn't an open store: what isn't lawful, and where."""


def word(page, at):
    return struct.unpack_from("<I", page, at)[0]


def pages_of(content):
    """The pages from page 1 on, with the redo images in place where the redo gate is open."""
    if len(content) < 2 * PAGE or content[0] != 1 or content[2:8] != b"denswh":
        raise NoStore("blank or foreign")
    images = {}
    if content[1] == 1:
        start, count = struct.unpack_from("<QI", content, 8)
        for k in range(count):
            at = start + 16_392 * k
            images[struct.unpack_from("<Q", content, at)[0]] = content[at + 8:at + 8 + PAGE]
    first = images.get(1, content[PAGE:2 * PAGE])
    return [images.get(p, content[PAGE * p:PAGE * (p + 1)]) for p in range(1, word(first, 0))]


def head_of(page):
    names = "pages version metric dim eps minpts cap batches records root height".split()
    head = dict(zip(names, (word(page, 4 * k) for k in range(11))))
    if head["version"] != 1:
        raise NoStore(f"version {head['version']}")
    head["width"] = (head["dim"] + 7) // 8 if head["metric"] == 3 else head["dim"]
    return head


def distance(metric, u, v):
    if metric == 1:
        return sum(abs(a - b) for a, b in zip(u, v))
    if metric == 2:
        return max(abs(a - b) for a, b in zip(u, v))
    return sum(bin(a ^ b).count("1") for a, b in zip(u, v))


def records_of(pages, width):
    """Each record's count, anchor, label and vector, by its number."""
    size, found = 16 + width, {}
    for page in pages:
        if page[0] == 1:
            for k in range(16_368 // size):
                at = 16 + size * k
                number = word(page, at)
                if number:
                    line = tuple(word(page, at + 4 * i) for i in (1, 2, 3))
                    found[number] = line + (page[at + 16:at + size],)
    return found


def node_at(pages, reference, width):
    """The kind and the entries of what stands at a reference; no entries where nothing does."""
    number, slot = divmod(reference, 64)
    page = pages[number - 1] if 2 <= number <= len(pages) else b"\0"
    if page[0] == 2 and slot < 63:
        at = 16 + 256 * slot
        return "leaf", [(word(page, at + 16 + 8 * k), word(page, at + 20 + 8 * k)) for k in range(word(page, at))]
    if page[0] == 3 and slot == 0:
        starts = (16 + (12 + width) * k for k in range(word(page, 4)))
        return "inner", [(word(page, at), word(page, at + 4), word(page, at + 8), page[at + 12:at + 12 + width]) for at in starts]
    return "none", []


def walk(head, pages, records, reference, level, over, seen, say):
    """The numbers below a node, in the order of the leaves; what isn't as it should be is an assertion."""
    kind, entries = node_at(pages, reference, head["width"])
    assert kind == ("leaf" if level == 1 else "inner") and entries and reference not in seen, f"reference {reference}"
    seen.add(reference)
    low = 7 if over is not None else 1 if level == 1 else 2
    assert low <= len(entries) <= 30, f"fill of {reference}"
    say(f"{kind} {reference} " + " ".join(":".join(str(x) if isinstance(x, int) else x.hex() for x in e) for e in entries))
    below = []
    for entry in entries:
        vector = records[entry[0]][3] if level == 1 else entry[3]
        due = 0 if over is None else distance(head["metric"], over, vector)
        assert entry[1] == due, f"parent distance in {reference}"
        if level == 1:
            below.append(entry[0])
            continue
        numbers = walk(head, pages, records, entry[0], level - 1, vector, seen, say)
        reach = max(distance(head["metric"], vector, records[n][3]) for n in numbers)
        assert entry[2] >= reach, f"radius in {reference}"
        below += numbers
    return below


def used_places(pages):
    for number, page in enumerate(pages, 1):
        if number > 1 and page[0] == 2:
            yield from (64 * number + s for s in range(63) if word(page, 16 + 256 * s))
        elif number > 1 and page[0] == 3 and word(page, 4):
            yield 64 * number


def due_lines(head, records):
    """Count, anchor and label of each record, from the vectors alone."""
    near = {a: [b for b in sorted(records) if distance(head["metric"], records[a][3], records[b][3]) <= head["eps"]] for a in records}
    core = {a for a in records if len(near[a]) >= head["minpts"]}
    label = {}
    for a in sorted(core):
        if a not in label:
            reached = [a]
            for b in reached:
                if b not in label:
                    label[b] = a
                    reached += [c for c in near[b] if c in core and c not in label]
    anchor = {a: next((b for b in near[a] if b in core), 0) for a in records if a not in core}
    return {a: (len(near[a]), anchor.get(a, 0), label.get(a, 0)) for a in records}


def main(name):
    with open(name, "rb") as file:
        pages = pages_of(file.read())
    head = head_of(pages[0])
    print("head " + " ".join(f"{key} {head[key]}" for key in head if key != "width"))
    records = records_of(pages[1:], head["width"])
    for number in sorted(records):
        count, anchor, label, vector = records[number]
        print(number, count, anchor, label, vector.hex())
    seen = set()
    try:
        assert len(records) == head["records"], "the number of records"
        if head["height"]:
            numbers = walk(head, pages, records, head["root"], head["height"], None, seen, print)
            assert sorted(numbers) == sorted(records), "the records of the tree"
        assert set(used_places(pages)) == seen, "a place that the tree doesn't reach"
        due = due_lines(head, records)
        off = [n for n in sorted(records) if records[n][:3] != due[n]]
        assert not off, f"the line of {off[0]}" if off else ""
    except (AssertionError, KeyError) as fault:
        print(f"not as is due: {fault}")
        return 1
    print(f"as is due: {len(records)} lines, {len(seen)} nodes")
    return 0


if __name__ == "__main__":
    try:
        sys.exit(main(sys.argv[1]))
    except (NoStore, IndexError, OSError) as fault:
        print(f"no store: {fault}")
        sys.exit(2)
