"""The client, over the built program: crates/densewh/out/densewh, or the one that DENSEWH names."""

from __future__ import annotations

import os
import random
import signal
import sys
import tempfile
import threading
import unittest
from pathlib import Path
from typing import Dict, List, Sequence, Tuple

TOP = Path(__file__).resolve().parents[3]
sys.path.insert(0, str(TOP / "clients" / "python"))
os.environ.setdefault("DENSEWH", str(TOP / "crates" / "densewh" / "out" / "densewh"))

import densewh  # noqa: E402
from densewh import Delete, Event, Insert, Mark, Store  # noqa: E402


def distance(metric: str, a: Sequence[int], b: Sequence[int]) -> int:
    """The distance of two vectors, by its definition."""
    parts = [abs(x - y) for x, y in zip(a, b)]
    return max(parts) if metric == "max" else sum(parts)


def plain(rows: Dict[int, Sequence[int]], metric: str, eps: int, minpts: int) -> Dict[int, Mark]:
    """The mark of each record, by the definitions alone: all pairs, and labels spread until none changes."""
    near = {a: [b for b in rows if distance(metric, rows[a], rows[b]) <= eps] for a in rows}
    label = {a: a for a in rows if len(near[a]) >= minpts}
    changed = True
    while changed:
        changed = False
        for a in label:
            least = min(label[b] for b in near[a] if b in label)
            if least < label[a]:
                label[a], changed = least, True
    marks = {}
    for a in rows:
        anchor = min((b for b in near[a] if b in label), default=0)
        if a in label:
            marks[a] = Mark("core", label[a])
        else:
            marks[a] = Mark("border", label[anchor]) if anchor else Mark("noise", 0)
    return marks


def read_batch(file: Path, bits: bool) -> Dict[int, List[int]]:
    """The vectors of a batch of insertions."""
    rows = {}
    for line in file.read_text().splitlines():
        fields = line.split(",")
        rows[int(fields[1])] = [int(x) for x in (fields[2] if bits else fields[2:])]
    return rows


def read_session(file: Path) -> List[List[densewh.Change]]:
    """The batches of a session."""
    batches: List[List[densewh.Change]] = []
    for line in file.read_text().splitlines():
        fields = line.split(",")
        if line == "batch":
            batches.append([])
        elif fields[0] == "+":
            batches[-1].append(Insert(int(fields[1]), [int(x) for x in fields[2:]]))
        elif fields[0] == "-":
            batches[-1].append(Delete(int(fields[1])))
    return batches


class InFolder(unittest.TestCase):
    """A test with an empty folder of its own."""

    def setUp(self) -> None:
        folder = tempfile.TemporaryDirectory()
        self.addCleanup(folder.cleanup)
        self.folder = Path(folder.name)

    def stub(self, body: str) -> str:
        """A program of the shell that stands in for ours."""
        file = self.folder / "stub.sh"
        file.write_text("#!/bin/sh\n" + body)
        file.chmod(0o755)
        return str(file)


class Cluster(InFolder):
    """`cluster` beside a plain clustering of our own."""

    def compare(self, rows: Dict[int, Sequence[int]], metric: str, eps: int, minpts: int) -> densewh.Clustering:
        """Both of the same records, which are numbered anew from 1."""
        anew = {at: row for at, row in enumerate(rows.values(), 1)}
        found = densewh.cluster(list(anew.values()), metric, eps, minpts)
        due = plain(anew, metric, eps, minpts)
        self.assertEqual(found.marks, list(due.values()))
        labels = sorted({m.label for m in due.values() if m.label})
        self.assertEqual(found.labels, [labels.index(m.label) if m.label else -1 for m in due.values()])
        self.assertEqual(found.core_indices, [a - 1 for a, m in due.items() if m.kind == "core"])
        kinds = [m.kind for m in due.values()]
        counts = (len(due), kinds.count("core"), kinds.count("border"), kinds.count("noise"), len(labels))
        self.assertEqual(tuple(found.summary), counts)
        return found

    def test_examples(self) -> None:
        images = self.compare(read_batch(TOP / "examples/images/batch.csv", bits=True), "hamming", 10, 3)
        self.assertEqual(images.summary.clusters, 6)
        items = self.compare(read_batch(TOP / "examples/catalogue/batch.csv", bits=False), "l1", 300, 4)
        self.assertGreater(items.summary.records, 0)
        rows: Dict[int, Sequence[int]] = {}
        for batch in read_session(TOP / "examples/sensors/week.session"):
            for change in batch:
                if isinstance(change, Insert):
                    rows[change.number] = change.vector  # type: ignore[assignment]
                else:
                    del rows[change.number]
            self.compare(rows, "max", 10, 3)

    def test_forms(self) -> None:
        self.assertEqual(densewh.cluster([[19, 40], [20, 41], [88, 3]], "l1", 2, 2).labels, [0, 0, -1])
        self.assertEqual(densewh.cluster(["0011", [0, 0, 1, 0], "1100"], "hamming", 1, 2).labels, [0, 0, -1])
        self.assertEqual(densewh.cluster([], "l1", 2, 2).labels, [])

    def test_grammar(self) -> None:
        for rows, metric, number in [
            ([[1, 2], [1]], "l1", 2),
            ([[1, 256]], "max", 1),
            ([[1, -1]], "l1", 1),
            ([[1, 2.0]], "l1", 1),
            ([[1, 2], [1, 2], ["x", 2]], "l1", 3),
            (["012"], "hamming", 1),
        ]:
            with self.subTest(rows=rows), self.assertRaises(densewh.VectorError) as caught:
                densewh.cluster(rows, metric, 1, 1, program="/nowhere/densewh")
            self.assertEqual((caught.exception.number, caught.exception.place), (number, number))
        with self.assertRaises(ValueError):
            densewh.cluster([[1]], "cosine", 1, 1)

    def test_program(self) -> None:
        with self.assertRaises(densewh.ProgramMissing):
            densewh.cluster([[1]], "l1", 1, 1, program="/nowhere/densewh")
        with self.assertRaises(densewh.ProgramFailed) as caught:
            densewh.cluster([[1]], "l1", 70000, 1)
        self.assertEqual(caught.exception.status, 2)
        self.assertIn("EPS", caught.exception.explanation)
        with self.assertRaises(densewh.TimedOut):
            densewh.cluster([[1]], "l1", 1, 1, program=self.stub("exec sleep 60\n"), timeout=0.2)


class Questions(InFolder):
    """A store and what it answers."""

    def row(self) -> Store:
        """Five records on a line, the middle one missing: two pairs."""
        return Store.create(self.folder / "store", "l1", 1, 1, 2, 100, timeout=60)

    def test_answers(self) -> None:
        with self.row() as store:
            self.assertEqual(store.parameters, densewh.Parameters("l1", 1, 1, 2, 100))
            first = store.batch([Insert(1, [0]), Insert(2, [1]), Insert(4, [3]), Insert(5, [4])])
            self.assertEqual(first, densewh.Receipt(1, 4, 0, densewh.Tally(2, 2, 0, 0, 0, 0, 0)))
            self.assertEqual(store.near(2), [1, 2])
            self.assertEqual(store.insert(3, [2]).events.merged, 2)
            self.assertEqual(store.report(), {n: Mark("core", 1) for n in range(1, 6)})
            self.assertEqual(store.summary(), densewh.Summary(5, 5, 0, 0, 1))
            self.assertEqual(store.near(3), [2, 3, 4])
            self.assertEqual(store.members(1), {n: "core" for n in range(1, 6)})
            self.assertEqual(store.tally(), densewh.Tally(2, 2, 0, 2, 0, 0, 0))
            self.assertEqual(store.changes()[-2:], [Event("merged", 1, 1), Event("merged", 4, 1)])
            self.assertEqual(store.delete(3).events.split, 2)
            self.assertEqual(store.label(5), Mark("core", 4))

    def test_refusals(self) -> None:
        with self.row() as store:
            store.batch([Insert(1, [0]), Insert(2, [1])])
            for ask, number, place in [
                (lambda: store.batch([Insert(3, [2]), Insert(1, [0])]), 13, 2),
                (lambda: store.delete(9), 14, 1),
                (lambda: store.label(9), 22, None),
                (lambda: store.near(9), 22, None),
                (lambda: store.members(2), 23, None),
            ]:
                with self.subTest(number=number), self.assertRaises(densewh.Refused) as caught:
                    ask()
                self.assertEqual((caught.exception.number, caught.exception.place), (number, place))
                self.assertTrue(caught.exception.sentence)
            self.assertEqual(store.summary().records, 2)
        with self.assertRaises(densewh.Refused), store:
            store.delete(9)
        with store:
            self.assertEqual(store.summary().records, 2)

    def test_grammar(self) -> None:
        with self.row() as store:
            for change, place in [
                (Insert(7, [256]), 2),
                (Insert(7, [1, 1]), 2),
                (Insert(7, ["2"]), 2),
                (Insert(0, [1]), 2),
                (Delete(2**32), 2),
            ]:
                with self.subTest(change=change), self.assertRaises(densewh.VectorError) as caught:
                    store.batch([Insert(1, [0]), change])
                self.assertEqual((caught.exception.number, caught.exception.place), (change.number, place))
            with self.assertRaises(ValueError):
                store.label(0)
            self.assertEqual(store.summary().records, 0)

    def test_twenty_batches(self) -> None:
        draw = random.Random(7)
        rows: Dict[int, List[int]] = {}
        store = Store.create(self.folder / "store", "max", 2, 3, 3, 1000, timeout=60)
        for turn in range(20):
            changes: List[densewh.Change] = []
            for _ in range(15):
                number = draw.randrange(1, 80)
                if number in rows:
                    changes.append(Delete(number))
                    del rows[number]
                else:
                    rows[number] = [draw.randrange(25), draw.randrange(25)]
                    changes.append(Insert(number, list(rows[number])))
            with store:
                self.assertEqual(store.batch(changes).batch, turn + 1)
            with store:
                due = plain(dict(sorted(rows.items())), "max", 3, 3)
                self.assertEqual(store.report(), due)
                for number in (draw.choice(list(rows)), draw.choice(list(rows))):
                    self.assertEqual(store.label(number), due[number])
                    near = [n for n in sorted(rows) if distance("max", rows[n], rows[number]) <= 3]
                    self.assertEqual(store.near(number), near)
                for label in {m.label for m in due.values() if m.label}:
                    members = {n: m.kind for n, m in due.items() if m.label == label}
                    self.assertEqual(store.members(label), members)

    def test_long_session(self) -> None:
        with self.row() as store:
            store.batch([Insert(1, [0]), Insert(2, [1])])
            store._sent = densewh.INPUT_LIMIT - 3
            store.insert(3, [2])
            self.assertLess(store._sent, 100)
            self.assertEqual(store.tally(), densewh.Tally(1, 1, 1, 0, 0, 0, 0))
            self.assertEqual([e.kind for e in store.changes()], ["noise", "created", "absorbed"])


class Failures(InFolder):
    """A store that isn't there, that another file stands for, and a program that ends."""

    def make(self) -> Store:
        return Store.create(self.folder / "store", "l1", 1, 1, 2, 100, timeout=60)

    def test_files(self) -> None:
        with self.assertRaises(densewh.BlankStore), Store(self.folder):
            pass
        with self.assertRaises(densewh.BlankStore), Store(self.folder / "none"):
            pass
        self.make()
        with self.assertRaises(densewh.StoreExists):
            self.make()
        with self.assertRaises(ValueError):
            Store.create(self.folder / "other", "l1", 0, 1, 2, 100)
        file = self.folder / "store" / densewh.STORE_FILE
        head = file.read_bytes()
        file.write_bytes(bytes(40_000))
        with self.assertRaises(densewh.BrokenStore) as caught, Store(self.folder / "store"):
            pass
        self.assertIsNone(caught.exception.page)
        file.write_bytes(head[:16_384 + 12] + b"\x00" + head[16_384 + 13:])
        with self.assertRaises(densewh.BrokenStore) as caught, Store(self.folder / "store"):
            pass
        self.assertEqual((caught.exception.page, caught.exception.offset), (1, 12))

    def test_program_missing(self) -> None:
        self.make()
        with self.assertRaises(densewh.ProgramMissing), Store(self.folder / "store", program="/nowhere/densewh"):
            pass

    def test_program_killed(self) -> None:
        store = self.make()
        with self.assertRaises(densewh.ProgramFailed) as caught, store:
            store.insert(1, [0])
            os.kill(store._child.pid, signal.SIGKILL)
            store.insert(2, [1])
        self.assertEqual(caught.exception.status, -signal.SIGKILL)
        with self.assertRaises(densewh.DenseWHError):
            store.summary()
        with store:
            self.assertEqual(store.report(), {1: Mark("noise", 0)})

    def test_second_program(self) -> None:
        store = self.make()
        with store, self.assertRaises(densewh.ProgramFailed) as caught, Store(self.folder / "store"):
            pass
        self.assertEqual(caught.exception.status, 3)

    def test_no_answer(self) -> None:
        store = self.make()
        stub = self.stub("exec sleep 60\n")
        with self.assertRaises(densewh.TimedOut), Store(self.folder / "store", program=stub, timeout=0.2):
            pass
        with store:
            self.assertEqual(store.summary().records, 0)

    def test_interrupt(self) -> None:
        # A shell has what it runs in the background ignore interrupts.
        before = signal.signal(signal.SIGINT, signal.default_int_handler)
        self.addCleanup(signal.signal, signal.SIGINT, before)
        store = self.make()
        with self.assertRaises(KeyboardInterrupt), store:
            store.insert(1, [0])
            os.kill(store._child.pid, signal.SIGSTOP)
            threading.Timer(0.2, os.kill, (os.getpid(), signal.SIGINT)).start()
            store.insert(2, [1])
        self.assertIsNone(store._child)
        with store:
            self.assertIn(1, store.report())


if __name__ == "__main__":
    unittest.main()
