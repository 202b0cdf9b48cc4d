#!/usr/bin/env python3
"""What stands in the files of stores that the built program made, and stores that are opened again between batches.

Worked bytes of docs/FORMAT.md (a new store, one record, two cores, redo gates), a batch that empties a store and one without
lines; 31 equal vectors that come and go with an opening between; and the changes of `trial 7 300` under each metric, once
in one session and once with an opening after each tenth: the answers and the pages must be the same, and
tools/read_store.py, which is written from docs/FORMAT.md alone, must find each line and the tree as they are due.

DENSEWH names the program; else it is the built one. Its status is 0 where all is as it should be.
"""
import contextlib
import io
import os
import struct
import subprocess
import sys
import tempfile

import changes
import read_store

PAGE = read_store.PAGE
NAME = "warehouse.idb"
SMALL = ["init", "l1", "1", "1", "2", "100"]


class Store:
    """A store in a folder of its own."""

    def __init__(self, words):
        self.folder = tempfile.TemporaryDirectory()
        self.path = os.path.join(self.folder.name, NAME)
        if words:
            changes.run(words, "", self.folder.name)

    def serve(self, session):
        return changes.run(["serve"], session, self.folder.name)

    def batch(self, *lines):
        return self.serve("\n".join(["batch", *lines, "end", ""]))

    def bytes(self):
        with open(self.path, "rb") as file:
            return file.read()

    def pages(self):
        return read_store.pages_of(self.bytes())

    def put(self, at, value):
        """Sets one byte of the file."""
        with open(self.path, "r+b") as file:
            file.seek(at)
            file.write(bytes([value]))

    def is_due(self):
        """Whether the reader of stores finds all as it is due."""
        with contextlib.redirect_stdout(io.StringIO()):
            return read_store.main(self.path) == 0


def expect(holds, what):
    if not holds:
        sys.exit(f"kept pages: {what}")


def hexes(text):
    return bytes.fromhex(text)


def is_page(page, start):
    """Whether a page begins with these bytes and is zero behind them."""
    return page == start + bytes(PAGE - len(start))


def written(content):
    """The numbers of the pages that the last commit wrote."""
    start, count = struct.unpack_from("<QI", content, 8)
    return [struct.unpack_from("<Q", content, start + 16_392 * k)[0] for k in range(count)]


def words(*numbers):
    return struct.pack(f"<{len(numbers)}I", *numbers)


def new_store():
    content = Store(SMALL).bytes()
    expect(len(content) == 2 * PAGE, "a new store has another length")
    expect(is_page(content[:PAGE], hexes("0100") + b"denswh"), "page 0 of a new store")
    expect(is_page(content[PAGE:], words(2, 1, 1, 1, 1, 2, 100)), "page 1 of a new store")


def one_record():
    """The store of one record, its redo items, and what a batch that empties it leaves."""
    store = Store(SMALL)
    store.batch("+,3,9")
    content, pages = store.bytes(), store.pages()
    expect(len(content) == 114_712, "one record: the file's length")
    expect(content[8:20] == hexes("000001000000000003000000"), "one record: the redo start and count")
    expect(is_page(pages[0], words(4, 1, 1, 1, 1, 2, 100, 1, 1, 192, 1)), "one record: page 1")
    expect(is_page(pages[1], hexes("01") + bytes(15) + words(3, 1, 0, 0) + b"\x09"), "one record: page 2")
    expect(is_page(pages[2], hexes("02") + bytes(15) + words(1, 0, 0, 0, 3, 0)), "one record: page 3")
    expect(store.is_due(), "one record: the reader")
    gates(content)
    store.batch("-,3")
    content, pages = store.bytes(), store.pages()
    expect(is_page(pages[0], words(4, 1, 1, 1, 1, 2, 100, 2, 0, 0, 0)), "emptied: page 1")
    expect(is_page(pages[1], b"\x01") and is_page(pages[2], b"\x02"), "emptied: pages 2 and 3")
    expect(written(content) == [1, 2, 3], "emptied: the pages that were written")
    store.batch()
    expect(written(store.bytes()) == [1], "a batch without lines: the pages that were written")
    expect(struct.unpack_from("<I", store.pages()[0], 28)[0] == 3, "a batch without lines: BATCHES")


def gates(content):
    """Redo images that are taken in where the gate is open, and only there."""
    for gate, vector, answer in ((1, 9, "9"), (7, 9, "9"), (7, 5, "9"), (1, 5, "5")):
        store = Store([])
        with open(store.path, "wb") as file:
            file.write(content)
        store.put(81_968, vector)
        store.put(1, gate)
        said = store.serve("near 3\n")
        expect(said.startswith("near 3 size 1"), f"gate {gate}: {said}")
        expect(store.pages()[1][32] == int(answer), f"gate {gate}, image {vector}: the record's coordinate")
        expect(store.bytes()[1] == (0 if gate == 1 else gate), f"gate {gate}: the gate after an opening")


def changed(content, *bytes_at):
    """The status and the text of `serve` over a store with these bytes changed, and whether the file stayed as it was."""
    store = Store([])
    with open(store.path, "wb") as file:
        file.write(content)
    for at, value in bytes_at:
        store.put(at, value)
    before = store.bytes()
    ended = subprocess.run([changes.PROGRAM, "serve"], input=b"", capture_output=True, cwd=store.folder.name, check=False)
    return ended.returncode, ended.stdout.decode(), store.bytes() == before


# What one record's store becomes where bytes of it are changed: free slots, fields out of their ranges, a parent distance of
# the root, a number without a record, another version; and a redo start that isn't that of a page, behind an open gate.
DAMAGE = [
    ([(2 * PAGE + 40, 1)], "damaged page 2 offset 40\n"),
    ([(2 * PAGE + 20, 0)], "damaged page 2 offset 20\n"),
    ([(2 * PAGE + 20, 2)], "damaged page 2 offset 28\n"),
    ([(3 * PAGE + 36, 5)], "damaged page 3 offset 36\n"),
    ([(3 * PAGE + 32, 4)], "damaged page 3 offset 32\n"),
    ([(PAGE + 8, 9)], "damaged page 1 offset 8\n"),
    ([(PAGE + 4, 7)], "foreign store\n"),
    ([(PAGE + 4, 0)], "foreign store\n"),
    ([(1, 1), (9, 1)], "damaged page 0 offset 8\n"),
]


def damage():
    store = Store(SMALL)
    store.batch("+,3,9")
    for changes_made, due in DAMAGE:
        status, said, same = changed(store.bytes(), *changes_made)
        expect((status, said) == (7, due), f"bytes {changes_made}: {status} {said}")
        expect(same, f"bytes {changes_made}: the file was changed")


def two_cores():
    store = Store(SMALL)
    store.batch("+,1,0", "+,2,1")
    page, leaf = store.pages()[1:3]
    expect(page[16:50] == words(1, 2, 0, 1) + b"\0" + words(2, 2, 0, 1) + b"\x01", "two cores: page 2")
    expect(leaf[16:48] == words(2, 0, 0, 0, 1, 0, 2, 0), "two cores: page 3")
    expect(store.is_due(), "two cores: the reader")


def come_and_go():
    """31 equal vectors, of which the first split comes, and an opening before they go."""
    store = Store(["init", "l1", "1", "0", "1", "100"])
    said = store.batch(*(f"+,{n},0" for n in range(1, 32)))
    expect(said.startswith("ok 1 +31 -0") and "created 1 absorbed 30" in said, f"31 equal vectors: {said}")
    head = read_store.head_of(store.pages()[0])
    expect(head["height"] == 2 and head["root"] == 64 * 4, "31 equal vectors: the root")
    expect(store.is_due(), "31 equal vectors: the reader")
    said = store.serve("near 1\nbatch\n" + "".join(f"-,{n}\n" for n in range(1, 32)) + "end\n")
    expect(said.startswith("near 1 size 31"), "31 equal vectors: near 1")
    expect("ok 2 +0 -31" in said and "removed 1 reduced 30" in said, f"31 equal vectors go: {said}")
    expect(read_store.head_of(store.pages()[0])["root"] == 0 and store.is_due(), "31 equal vectors: all gone")


def reopened(metric, dim, eps, minpts, shift):
    """The changes of the trial in one session, and with an opening after each tenth."""
    spell = (lambda v: changes.bits(v, dim // 2)) if metric == "hamming" else (lambda v: f"{v[0]},{v[1]}")
    batches = []
    for number, vector in changes.changes(shift):
        line = f"-,{number}" if vector is None else f"+,{number},{spell(vector)}"
        batches.append(f"batch\n{line}\nend\nreport\n")
    name = " ".join(map(str, (metric, dim, eps, minpts)))
    whole, parted = (Store(["init", metric, str(dim), str(eps), str(minpts), "1000"]) for _ in range(2))
    said = whole.serve("".join(batches))
    again = "".join(parted.serve("".join(batches[k:k + 10])) for k in range(0, len(batches), 10))
    expect(said == again, f"{name}: the answers with openings between are others")
    expect(whole.pages() == parted.pages(), f"{name}: the pages with openings between are others")
    expect(whole.is_due() and parted.is_due(), f"{name}: the reader")
    return len(whole.pages())


def main():
    if not os.access(changes.PROGRAM, os.X_OK):
        print("kept pages: skipped, since the program isn't built (make demo)")
        return
    new_store()
    one_record()
    damage()
    two_cores()
    come_and_go()
    pages = [reopened(metric, dim, eps, minpts, shift)
             for shift in (24, 28)
             for metric, dim, eps in (("l1", 2, 3), ("max", 2, 2), ("hamming", 2 * (32 - shift), 2))
             for minpts in (2, 4)]
    print(f"kept pages: worked bytes, gates, {len(DAMAGE)} damages, 31 that come and go; 12 times 300 changes with 30 openings, {sum(pages)} pages")


if __name__ == "__main__":
    main()
