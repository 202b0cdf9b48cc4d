"""Groups of alike vectors, at once or in a store, by the program `densewh`.

    import densewh
    found = densewh.cluster([[19, 40], [20, 41], [88, 3]], "l1", eps=2, minpts=2)
    found.labels                      # [0, 0, -1]

    with densewh.Store.create("rooms", "l1", dim=1, eps=1, minpts=3, cap=100) as store:
        store.insert(101, [19])
        store.summary().clusters      # 0

The program does the work, and its answers are proved to be those of DBSCAN's definitions; this module writes its
input and reads what it says. The program is looked for on the path, or is the file that the environment variable
DENSEWH names, or the argument `program`.

Metrics are `l1` and `max`, over whole coordinates of 0 to 255, and `hamming`, over bits: a vector of bits is a list
of 0 and 1, or a text of these. Numbers of records are 1 to 4,294,967,295. EPS is a distance, 0 to 65,535; MINPTS
counts the records within EPS of a core, itself among them.

What is refused or fails is an exception below DenseWHError. None of them hangs: where the program ends, for whatever
reason, the call that waits for its answer ends with ProgramFailed.
"""

from __future__ import annotations

import os
import re
import selectors
import struct
import subprocess
import time
from pathlib import Path
from types import TracebackType
from typing import Dict, Iterable, List, NamedTuple, Optional, Sequence, Tuple, Type, Union

__all__ = [
    "BlankStore",
    "BrokenStore",
    "Change",
    "Clustering",
    "Delete",
    "DenseWHError",
    "Event",
    "Insert",
    "Mark",
    "Parameters",
    "ProgramFailed",
    "ProgramMissing",
    "Receipt",
    "Refused",
    "Store",
    "StoreExists",
    "Summary",
    "Tally",
    "TimedOut",
    "VectorError",
    "cluster",
]

Vector = Union[Sequence[int], str]

INPUT_LIMIT = 67_108_864
SESSION_LIMIT = INPUT_LIMIT - 100  # room for the questions that end a session
LINE_LIMIT = 4_096
BATCH_LIMIT = 100_000
NUMBER_LIMIT = 4_294_967_295
METRICS = ("l1", "max", "hamming")
STORE_FILE = "warehouse.idb"
PAGE = 16_384
KINDS = ("noise", "created", "absorbed", "merged", "removed", "reduced", "split")

# How the line begins with which the program ends in the place of an answer.
ENDINGS = ("blank store", "foreign store", "damaged page ", "session too long")

# What the number of a refusal means.
SENTENCES = {
    11: "the record is malformed",
    12: "the vector has another length than the store's",
    13: "an insertion's number is there already",
    14: "a deletion's number isn't there",
    15: "the store is full",
    16: "the batch has over 100,000 records",
    17: "the batch has no end",
    18: "a line has over 4,096 bytes",
    19: "the store has no further batch numbers",
    21: "the line asks for nothing that the program knows",
    22: "no record has this number",
    23: "no cluster has this label",
    24: "no watcher is in this slot",
}


class DenseWHError(Exception):
    """What the client raises: each other exception here is one."""


class VectorError(DenseWHError, ValueError):
    """A record that isn't in the grammar, found before anything was sent.

    `number` is that of the record, and `place` counts the records of the batch or the vectors from 1.
    """

    def __init__(self, number: int, place: int, reason: str) -> None:
        super().__init__(f"record {number} at place {place}: {reason}")
        self.number = number
        self.place = place


class Refused(DenseWHError):
    """The program refused a batch or a question, and changed nothing.

    `number` is that of the refusal; `place` that of the record in its batch, from 1, or None where it is of no record;
    `sentence` says what the number means.
    """

    def __init__(self, number: int, place: Optional[int]) -> None:
        self.number = number
        self.place = place
        self.sentence = SENTENCES.get(number, "refused")
        where = "" if place is None else f" (record {place} of the batch)"
        super().__init__(f"refused {number}: {self.sentence}{where}")


class ProgramMissing(DenseWHError):
    """The program isn't there, or may not be run."""


class ProgramFailed(DenseWHError):
    """The program ended without the answer.

    `status` is what it ended with, negative for a signal; `explanation` is what it said on standard error. A batch
    whose answer was awaited is in the store as a whole, or not at all.
    """

    def __init__(self, status: int, explanation: str) -> None:
        super().__init__(f"the program ended with status {status}: {explanation.strip() or 'it said nothing'}")
        self.status = status
        self.explanation = explanation


class TimedOut(DenseWHError):
    """The program gave no answer in time and was ended; the store is as after a crash, whole."""


class StoreExists(DenseWHError):
    """There is a store already, or another file in its place."""


class BlankStore(DenseWHError):
    """There is no store in the folder."""


class BrokenStore(DenseWHError):
    """The file is no store (`page` and `offset` are None), or is damaged at this page and offset."""

    def __init__(self, said: str) -> None:
        super().__init__(said)
        place = re.fullmatch(r"damaged page (\d+) offset (\d+)", said)
        self.page = int(place[1]) if place else None
        self.offset = int(place[2]) if place else None


class Mark(NamedTuple):
    """What DBSCAN says of a record.

    `kind` is `core`, `border` or `noise`, and `label` is the least core of its cluster, 0 at noise.
    """

    kind: str
    label: int


class Summary(NamedTuple):
    """How many records there are, of each kind, and how many clusters."""

    records: int
    cores: int
    borders: int
    noise: int
    clusters: int


class Tally(NamedTuple):
    """How often each kind of event came."""

    noise: int
    created: int
    absorbed: int
    merged: int
    removed: int
    reduced: int
    split: int


class Event(NamedTuple):
    """What one change did to a cluster: `old` is its label before, `new` the label after; 0 where there is none."""

    kind: str
    old: int
    new: int


class Receipt(NamedTuple):
    """An accepted batch, which is on the disk: its number in the store, its changes, and what they did to clusters."""

    batch: int
    insertions: int
    deletions: int
    events: Tally


class Parameters(NamedTuple):
    """Those of a store; `dim` is the number of coordinates, of bits for `hamming`, and `cap` that of records."""

    metric: str
    dim: int
    eps: int
    minpts: int
    cap: int


class Insert(NamedTuple):
    """A change that inserts a record; its number isn't there yet."""

    number: int
    vector: Vector


class Delete(NamedTuple):
    """A change that deletes the record with this number."""

    number: int


Change = Union[Insert, Delete]


class Clustering(NamedTuple):
    """What `cluster` found, a list item for each vector, in their order.

    `labels` are 0, 1, .. for the clusters by their first core, and -1 for noise, as scikit-learn has them; a border
    goes with the first core near it. `core_indices` are the places of the cores, from 0. `marks` are the program's
    own, in which the first vector is record 1.
    """

    labels: List[int]
    core_indices: List[int]
    marks: List[Mark]
    summary: Summary


def cluster(
    vectors: Iterable[Vector],
    metric: str,
    eps: int,
    minpts: int,
    *,
    program: Optional[str] = None,
    timeout: Optional[float] = None,
) -> Clustering:
    """Groups at most 100,000 vectors of one length, 1 to 256 coordinates or 1 to 2,048 bits. No vector, no group.

    `timeout` is in seconds. Raises VectorError, ProgramMissing, ProgramFailed, TimedOut.
    """
    rows = list(vectors)
    if metric not in METRICS:
        raise ValueError(f"metric is one of {', '.join(METRICS)}, and not {metric!r}")
    if len(rows) > BATCH_LIMIT:
        raise ValueError(f"{len(rows)} vectors: at most {BATCH_LIMIT} are grouped at once")
    if not rows:
        return Clustering([], [], [], Summary(0, 0, 0, 0, 0))
    dim = len(rows[0])
    text = "".join(_line_of(Insert(at, row), at, metric, dim) for at, row in enumerate(rows, 1)).encode()
    if len(text) > INPUT_LIMIT:
        raise ValueError(f"the vectors take {len(text)} bytes as text: at most {INPUT_LIMIT} are read")
    words = ["once", metric, str(dim), str(eps), str(minpts)]
    status, said, explanation = _run(_program(program), words, text, None, timeout)
    lines = said.splitlines()
    if status == 1 and lines:
        raise _refusal(lines[-1])
    if status != 0:
        raise ProgramFailed(status, explanation)
    marks = [_mark_of(line)[1] for line in lines[:-1]]
    firsts = {label: at for at, label in enumerate(sorted({m.label for m in marks if m.kind == "core"}))}
    return Clustering(
        [firsts.get(m.label, -1) for m in marks],
        [at for at, m in enumerate(marks) if m.kind == "core"],
        marks,
        _summary_of(lines[-1]),
    )


class Store:
    """A store of records, kept with their clusters in one file of a folder. One program at a time has it open.

    It is a context manager: within, the program runs and answers. Each batch that gave a receipt is on the disk,
    whatever happens then. After ProgramFailed, TimedOut or a KeyboardInterrupt within a call the store is closed, and
    may be opened again by `with`.
    """

    def __init__(
        self,
        folder: Union[str, "os.PathLike[str]"],
        *,
        program: Optional[str] = None,
        timeout: Optional[float] = None,
    ) -> None:
        """The store in a folder, not opened yet. `timeout` is in seconds, for each answer."""
        self.folder = Path(folder)
        self.timeout = timeout
        self._words = _program(program)
        self._child: Optional[subprocess.Popen[bytes]] = None
        self._reading: Optional[_Lines] = None
        self._parameters: Optional[Parameters] = None
        self._sent = 0
        self._before: List[Event] = []
        self._counts = Tally(0, 0, 0, 0, 0, 0, 0)

    @classmethod
    def create(
        cls,
        folder: Union[str, "os.PathLike[str]"],
        metric: str,
        dim: int,
        eps: int,
        minpts: int,
        cap: int = 200_000,
        *,
        program: Optional[str] = None,
        timeout: Optional[float] = None,
    ) -> "Store":
        """Makes a store in a folder, which is made too where it isn't there. Raises StoreExists, ProgramFailed."""
        store = cls(folder, program=program, timeout=timeout)
        store.folder.mkdir(parents=True, exist_ok=True)
        words = ["init", metric, str(dim), str(eps), str(minpts), str(cap)]
        status, said, explanation = _run(store._words, words, b"", store.folder, timeout)
        if status == 9:
            raise StoreExists(str(store.folder / STORE_FILE))
        if status == 2:
            raise ValueError(explanation.strip() or said.strip())
        if status != 0:
            raise ProgramFailed(status, explanation)
        return store

    @property
    def parameters(self) -> Parameters:
        """The parameters of the store, as its file has them. Raises BlankStore or BrokenStore where it has none."""
        if self._parameters is None:
            self._parameters = _parameters_in(self.folder / STORE_FILE)
        return self._parameters

    def __enter__(self) -> "Store":
        """Opens the store. Raises BlankStore, BrokenStore, ProgramMissing, ProgramFailed."""
        self.open()
        return self

    def __exit__(
        self,
        kind: Optional[Type[BaseException]],
        error: Optional[BaseException],
        trace: Optional[TracebackType],
    ) -> None:
        """Closes the store; where the block ended well, a program that ended badly is told as ProgramFailed."""
        try:
            self.close()
        except DenseWHError:
            if error is None:
                raise

    def open(self) -> None:
        """Opens the store, as `with` does."""
        if self._child is not None:
            raise DenseWHError("the store is open")
        self._before, self._counts = [], Tally(0, 0, 0, 0, 0, 0, 0)
        self._start()
        self.summary()

    def close(self) -> None:
        """Closes the store, as the end of `with` does, or leaves it closed. Raises ProgramFailed, TimedOut."""
        if self._child is None:
            return
        assert self._child.stdin is not None
        try:
            self._child.stdin.close()
        except BrokenPipeError:
            pass
        self._settle()
        status, explanation = self._end()
        if status not in (0, 1):
            raise ProgramFailed(status, explanation)

    def insert(self, number: int, vector: Vector) -> Receipt:
        """Inserts one record, as a batch of its own."""
        return self.batch([Insert(number, vector)])

    def delete(self, number: int) -> Receipt:
        """Deletes one record, as a batch of its own."""
        return self.batch([Delete(number)])

    def batch(self, changes: Iterable[Change]) -> Receipt:
        """Applies at most 100,000 changes in their order, all of them or, where one is refused, none.

        The answer comes when they are on the disk. Raises VectorError before anything is sent, then Refused,
        ProgramFailed, TimedOut.
        """
        kept = self.parameters
        lines = [_line_of(change, at, kept.metric, kept.dim) for at, change in enumerate(changes, 1)]
        if len(lines) > BATCH_LIMIT:
            raise ValueError(f"{len(lines)} changes: a batch has at most {BATCH_LIMIT}")
        words = self._ask(["batch\n", *lines, "end\n"]).split()
        return Receipt(int(words[1]), int(words[2]), -int(words[3]), _tally_of(words[4:]))

    def report(self) -> Dict[int, Mark]:
        """The mark of each record, by rising number."""
        line, marks = self._ask(["report\n"]), {}
        while not line.startswith("records "):
            number, mark = _mark_of(line)
            marks[number] = mark
            line = self._next()
        return marks

    def summary(self) -> Summary:
        """How many records, of each kind, and how many clusters."""
        return _summary_of(self._ask(["summary\n"]))

    def label(self, number: int) -> Mark:
        """The mark of one record. Raises Refused, with 22, where it isn't there."""
        return _mark_of(self._ask([f"label {_named(number)}\n"]))[1]

    def members(self, label: int) -> Dict[int, str]:
        """The cores and borders of a cluster, by rising number: `core` or `border` for each.

        Raises Refused, with 23, where no cluster has this label.
        """
        count = int(self._ask([f"cluster {_named(label)}\n"]).split()[3])
        rows = [self._next().split() for _ in range(count)]
        return {int(number): kind for number, kind in rows}

    def near(self, number: int) -> List[int]:
        """The records within EPS of one, rising, itself among them. Raises Refused, with 22, where it isn't there."""
        count = int(self._ask([f"near {_named(number)}\n"]).split()[3])
        return [int(self._next()) for _ in range(count)]

    def tally(self) -> Tally:
        """How often each kind of event came since the store was opened."""
        return self._tally(self._ask(["watch 1\n"]))

    def changes(self) -> List[Event]:
        """The last 100 events since the store was opened, the oldest first."""
        return self._events(self._ask(["watch 2\n"]))

    def _tally(self, line: str) -> Tally:
        """The counts of a line, and those of the sessions before this one."""
        now = _tally_of(line.split()[1:])
        return Tally(*(before + count for before, count in zip(self._counts, now)))

    def _events(self, line: str) -> List[Event]:
        """The events of an answer that begins with this line, behind those of the sessions before this one."""
        rows = [self._next().split() for _ in range(int(line.split()[1]))]
        return (self._before + [Event(kind, int(old), int(new)) for kind, old, new in rows])[-100:]

    def _start(self) -> None:
        """Runs the program in the folder, away from the terminal's interrupts."""
        if not self.folder.is_dir():
            raise BlankStore(f"there is no folder {self.folder}")
        self._child = _begin(self._words, ["serve"], self.folder)
        assert self._child.stdout is not None and self._child.stderr is not None
        self._reading = _Lines(self._child.stdout.fileno(), self._child.stderr.fileno())
        self._sent = 0

    def _ask(self, parts: List[str]) -> str:
        """Sends a request, and gives the first line of its answer; a refusal is raised."""
        data = "".join(parts).encode()
        if len(data) > SESSION_LIMIT:
            raise ValueError(f"the batch takes {len(data)} bytes as text: at most {SESSION_LIMIT} are read")
        if self._child is None:
            raise DenseWHError("the store isn't open")
        if self._sent + len(data) > SESSION_LIMIT:
            self._renew()
        return self._exchange(data)

    def _exchange(self, data: bytes) -> str:
        """Sends bytes to the program that runs, and gives the first line of the answer."""
        assert self._child is not None and self._child.stdin is not None
        self._sent += len(data)
        try:
            self._child.stdin.write(data)
            self._child.stdin.flush()
        except BrokenPipeError:
            pass
        except BaseException:
            self._stop()
            raise
        line = self._next()
        if line.startswith(ENDINGS):
            raise self._failure()
        if line.startswith("refused "):
            raise _refusal(line)
        return line

    def _next(self) -> str:
        """The next line that the program says."""
        assert self._reading is not None
        try:
            line = self._reading.next(self.timeout)
        except BaseException:
            self._stop()
            raise
        if line is None:
            raise self._failure()
        return line

    def _failure(self) -> DenseWHError:
        """Why the program ended, where its answer was awaited."""
        assert self._reading is not None
        said = self._reading.last
        status, explanation = self._end()
        if status == 6:
            return BlankStore(f"there is no store in {self.folder}")
        if status == 7:
            return BrokenStore(said)
        return ProgramFailed(status, explanation)

    def _renew(self) -> None:
        """Begins a new session, since one reads at most 67,108,864 bytes; what its watchers know is kept."""
        events = self._events(self._exchange(b"watch 2\n"))
        counts = self._tally(self._exchange(b"watch 1\n"))
        self.close()
        self._start()
        self._before, self._counts = events, counts

    def _settle(self) -> None:
        """Reads what the program says to its end."""
        assert self._reading is not None
        try:
            while self._reading.next(self.timeout) is not None:
                pass
        except BaseException:
            self._stop()
            raise

    def _stop(self) -> None:
        """Ends the program at once; the store stands as after a crash, whole."""
        if self._child is not None:
            self._child.kill()
            self._end()

    def _end(self) -> Tuple[int, str]:
        """Waits for the program's end, and gives its status and what it said on standard error."""
        child, reading = self._child, self._reading
        assert child is not None and reading is not None
        self._child, self._reading = None, None
        return _finish(child, reading)


class _Lines:
    """The lines that a program says, each read within the time that is allowed, and what is on standard error."""

    def __init__(self, said: int, errors: int) -> None:
        self.last = ""
        self.explanation = b""
        self._said, self._errors = said, errors
        self._pending = b""
        self._open = selectors.DefaultSelector()
        for pipe in (said, errors):
            self._open.register(pipe, selectors.EVENT_READ)

    def next(self, timeout: Optional[float]) -> Optional[str]:
        """The next line without its LF, or None at the end. Raises TimedOut."""
        until = None if timeout is None else time.monotonic() + timeout
        while b"\n" not in self._pending:
            if self._said not in self._open.get_map():
                return None
            self._fill(until)
        line, self._pending = self._pending.split(b"\n", 1)
        self.last = line.decode("ascii", "replace")
        return self.last

    def drain(self) -> None:
        """Reads all that is left of both."""
        while self._open.get_map():
            self._fill(None)
        self._open.close()

    def _fill(self, until: Optional[float]) -> None:
        """Reads once what is there, or waits for it."""
        left = None if until is None else max(0.0, until - time.monotonic())
        ready = self._open.select(left)
        if not ready:
            raise TimedOut("the program gave no answer in time")
        for key, _ in ready:
            data = os.read(key.fd, 65_536)
            if not data:
                self._open.unregister(key.fd)
            elif key.fd == self._said:
                self._pending += data
            else:
                self.explanation += data


def _program(named: Optional[str]) -> str:
    """The program to run: the one that is named, that of the environment, or `densewh`."""
    return named or os.environ.get("DENSEWH") or "densewh"


def _begin(program: str, words: List[str], folder: Optional[Path]) -> "subprocess.Popen[bytes]":
    """Runs the program over pipes, in a session of its own: an interrupt from the keyboard is ours alone."""
    try:
        return subprocess.Popen(
            [program, *words],
            stdin=subprocess.PIPE,
            stdout=subprocess.PIPE,
            stderr=subprocess.PIPE,
            cwd=folder,
            start_new_session=True,
        )
    except OSError as error:
        hint = "build it, and name it in DENSEWH or put it on the path"
        raise ProgramMissing(f"{program}: {error.strerror}; {hint}") from error


def _finish(child: "subprocess.Popen[bytes]", reading: _Lines) -> Tuple[int, str]:
    """Waits for the end of a program; gives its status and what it said on standard error."""
    if child.stdin is not None and not child.stdin.closed:
        try:
            child.stdin.close()
        except BrokenPipeError:
            pass
    reading.drain()
    status = child.wait()
    for pipe in (child.stdout, child.stderr):
        if pipe is not None:
            pipe.close()
    return status, reading.explanation.decode("utf-8", "replace")


def _run(
    program: str, words: List[str], text: bytes, folder: Optional[Path], timeout: Optional[float]
) -> Tuple[int, str, str]:
    """Runs the program over an input; gives its status and what it said on both outputs."""
    child = _begin(program, words, folder)
    try:
        said, errors = child.communicate(text, timeout)
    except subprocess.TimeoutExpired:
        child.kill()
        child.communicate()
        raise TimedOut("the program gave no answer in time") from None
    except BaseException:
        child.kill()
        child.communicate()
        raise
    return child.returncode, said.decode("ascii", "replace"), errors.decode("utf-8", "replace")


def _named(number: int) -> int:
    """A number as it is sent."""
    if not 1 <= number <= NUMBER_LIMIT:
        raise ValueError(f"a number is 1 to {NUMBER_LIMIT}, and not {number}")
    return int(number)


def _line_of(change: Change, place: int, metric: str, dim: int) -> str:
    """The line of a change, checked by the grammar."""
    number = change.number
    if isinstance(number, bool) or not isinstance(number, int) or not 1 <= number <= NUMBER_LIMIT:
        raise VectorError(number, place, f"a number is 1 to {NUMBER_LIMIT}")
    if isinstance(change, Delete):
        return f"-,{number}\n"
    line = f"+,{number},{_vector_text(change.vector, number, place, metric, dim)}\n"
    if len(line) > LINE_LIMIT:
        raise VectorError(number, place, f"its line has {len(line)} bytes, at most {LINE_LIMIT} are read")
    return line


def _vector_text(vector: Vector, number: int, place: int, metric: str, dim: int) -> str:
    """The text of a vector: coordinates with commas, or bits in one field."""
    if len(vector) != dim:
        raise VectorError(number, place, f"its vector has length {len(vector)}, and {dim} is wanted")
    most = 1 if metric == "hamming" else 255
    fields = []
    for at, value in enumerate(vector, 1):
        whole = _whole(value)
        if whole is None or not 0 <= whole <= most:
            wanted = f"a whole number of 0 to {most} is wanted"
            raise VectorError(number, place, f"item {at} of its vector is {value!r}, and {wanted}")
        fields.append(str(whole))
    return ("" if metric == "hamming" else ",").join(fields)


def _whole(value: object) -> Optional[int]:
    """A whole number that is one by its type, or a bit of a text; else None. A float isn't rounded."""
    if isinstance(value, str):
        return {"0": 0, "1": 1}.get(value)
    try:
        return value.__index__()  # type: ignore[attr-defined]
    except AttributeError:
        return None


def _parameters_in(file: Path) -> Parameters:
    """The parameters on the head page of a store."""
    try:
        with open(file, "rb") as store:
            head = store.read(1)
            store.seek(PAGE)
            words = store.read(28)
    except FileNotFoundError:
        raise BlankStore(f"there is no store in {file.parent}") from None
    if len(words) < 28 or head != b"\x01":
        raise BlankStore(f"there is no store in {file.parent}")
    _, _, metric, dim, eps, minpts, cap = struct.unpack("<7I", words)
    if not 1 <= metric <= len(METRICS):
        raise BrokenStore("foreign store")
    return Parameters(METRICS[metric - 1], dim, eps, minpts, cap)


def _refusal(line: str) -> Refused:
    """The refusal that a line tells."""
    words = line.split()
    return Refused(int(words[1]), int(words[3]) if len(words) > 3 else None)


def _mark_of(line: str) -> Tuple[int, Mark]:
    """The number and the mark of a line of a report."""
    words = line.split()
    return int(words[0]), Mark(words[1], int(words[2]) if len(words) > 2 else 0)


def _summary_of(line: str) -> Summary:
    """The counts of a summary's line."""
    return Summary(*(int(word) for word in line.split()[1::2]))


def _tally_of(words: List[str]) -> Tally:
    """The counts by kind, from words `KIND COUNT ..`."""
    return Tally(*(int(word) for word in words[1::2]))
