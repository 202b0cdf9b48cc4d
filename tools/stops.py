#!/usr/bin/env python3
"""Stops and faults, with the built program on real files in a temporary folder.

Sessions of batches are killed: some time after they were given; behind a receipt; right behind a batch that may not be read
yet; where the redo gate is seen open; and at the opening behind that. Then the outlet is closed early, there is no room,
the file is read-only, and another process cuts it short. After all but the last an opening must find each batch whose
receipt was said, at most one more, and exactly the records after them; a file that was cut short must be opened or refused,
in time. What the batches are and what is due to a store is in small_store.py beside this file.

DENSEWH names the program; else it is the built one. The status is 0 where all is as it should be, and 1 at the first thing
that isn't, with the seed and the case. The seed fixes what is drawn, and not what the clock makes of it.
"""
import collections
import os
import random
import re
import resource
import select
import shutil
import signal
import subprocess
import sys
import tempfile
import time

from small_store import PAGE, Store, session_of

TOP = os.path.join(os.path.dirname(os.path.abspath(__file__)), "..")
PROGRAM = os.environ.get("DENSEWH", os.path.join(TOP, "crates", "densewh", "out", "densewh"))
SEED, KILLS, OUTLETS, LIMITS, DISKS, LOCKED, CUTS = 32, 1000, 60, 100, 16, 20, 120
draw, case, seen = random.Random(SEED), [], collections.Counter()


def late(*_):
    raise AssertionError("no end within ten seconds")


def each(name, count):
    """So many cases of a kind."""
    for turn in range(count):
        case[:] = name, turn
        yield turn


def pause():
    """From a twentieth of a millisecond to fifty."""
    time.sleep(0.00005 * 2 ** draw.uniform(0, 10))


class Session:
    """The program over a store, with pipes."""

    program = PROGRAM

    def __init__(self, store, **how):
        signal.alarm(10)
        self.store, self.said, self.given = store, b"", []
        self.process = subprocess.Popen([self.program, "serve"], cwd=store.folder, bufsize=0, stdin=subprocess.PIPE,
                                        stdout=subprocess.PIPE, stderr=subprocess.DEVNULL, **how)

    def give(self, items):
        """Gives items, as far as they are taken; answers how many accepted batches were given by now."""
        self.given += [accepted for _, accepted in items if accepted]
        try:
            self.process.stdin.write("".join(text for text, _ in items).encode())
        except BrokenPipeError:
            pass
        return len(self.given)

    def read(self, is_enough, most=65536, wait=None):
        """Reads until enough was said, or to the end; looks again whenever it has waited so many seconds."""
        piece = b"."
        while piece and not is_enough():
            if select.select([self.process.stdout], [], [], wait)[0]:
                piece = os.read(self.process.stdout.fileno(), most)
                self.said += piece

    def receipts(self):
        """How many receipts were said; they must be the next ones."""
        said = re.findall(r"^(ok .* noise) .*\n", self.said.decode(), re.M)
        assert said == [receipt for receipt, _ in self.given[:len(said)]], f"the receipts are {said}"
        return len(said)

    def open(self, count):
        """Asks for a report, judges the opening by it, and makes a session of so many batches."""
        self.give([("report\n", ())])
        self.read(lambda: re.search(rb"^records .*\n", self.said, re.M))
        seen["unsaid"] += self.store.judge(self.said.decode())
        self.said = b""
        return list(session_of(draw, count, self.store.dim, self.store.batches, self.store.states[0]))

    def end(self, *statuses):
        """Ends the session and notes what may be in the store; the status must be one of these."""
        self.process.stdin.close()
        is_read, store = not self.process.stdout.closed, self.store
        if is_read:
            self.read(lambda: False)
            self.process.stdout.close()
        status, said, given = self.process.wait(), self.receipts(), len(self.given)
        signal.alarm(0)
        if given:
            store.states, store.said = store.states + [after for _, after in self.given], said
            store.most = min(said + 1, given) if is_read else given
        assert status in statuses, f"the status is {status}, behind {self.said!r}"
        assert status > 1 or status < 0 or said == given or not is_read, f"{said} receipts for {given} batches"
        seen[case[0], status] += 1
        return status


def born(folder, dim):
    """A new store."""
    store = Store(folder, dim)
    ended = subprocess.run([Session.program, *store.words()], cwd=folder, capture_output=True, check=False)
    assert ended.returncode == 0, "a birth fails"
    return store


def opens(store):
    """An opening by itself."""
    session = Session(store)
    session.open(0)
    session.end(0)


def disturbed(store, act, statuses, **how):
    """A session that something happens to, at its opening or at some moment behind it."""
    session = Session(store, **how)
    if draw.randrange(2):
        session.give(session.open(4))
        pause()
    act(session)
    session.end(*statuses)


def twins(name, count, work, stores):
    """So many cases of a kind, each with a copy of one of the stores."""
    for turn in each(name, count):
        store = stores[turn % len(stores)]
        yield turn, Store(os.path.join(work, f"{name}{turn}"), store.dim, store)


def kill(store, how):
    """Kills a session at a moment of a kind."""
    session = Session(store)
    if how != "opening":
        items = session.open(draw.randint(2, 5))
        accepted = session.give(items[:-1] if how == "unread" else items)
        wanted = {"unread": accepted, "receipt": draw.randint(0, accepted)}.get(how, 0)
        if how == "gate":
            session.read(lambda: session.receipts() == accepted or store.is_gate_open(), wait=0.00002)
        session.read(lambda: session.receipts() >= wanted)
        session.give(items[-1:] if how == "unread" else [])
    if how in ("opening", "time") or draw.randrange(2):
        pause()
    session.process.kill()
    session.end(-signal.SIGKILL)


def kills(work):
    """Sessions that are killed, each over what the one before left; gives stores as kills inside a commit left them."""
    stores, kept = [born(os.path.join(work, f"kills{dim}"), dim) for dim in (1, 2, 3, 4)], []
    for turn in each("kill", KILLS):
        store = stores[turn % len(stores)]
        is_opening = store.is_gate_open() and draw.randrange(3) == 0
        kill(store, "opening" if is_opening else draw.choice(("time", "receipt", "unread", "gate")))
        seen["opening"] += is_opening
        seen["open"] += store.is_gate_open() and not is_opening
        seen["between"] += store.said < len(store.states) - 1 and not is_opening
        if store.is_gate_open() and len(kept) < LOCKED:
            kept.append(Store(os.path.join(work, f"kept{len(kept)}"), store.dim, store))
    for store in stores:
        opens(store)
    print(f"stops: {KILLS} kills, {seen['open']} left an open redo gate, {seen['between']} lay before the receipt of a batch, "
          f"{seen['opening']} were at the opening behind an open gate; {seen['unsaid']} times a batch was on the disk without "
          "its receipt; none lost, none in part")
    return kept + stores


def outlets(work, _):
    """Sessions whose outlet is closed when so many bytes were read of it."""
    store = born(os.path.join(work, "outlets"), 2)
    for turn in each("outlet", OUTLETS):
        session, most = Session(store), turn * turn % 400
        rest = session.open(4)
        while rest and len(session.said) < most:
            wanted = session.give([rest.pop(0)])
            session.read(lambda: len(session.said) >= most or session.receipts() == wanted, 1)
        session.process.stdout.close()
        session.give(rest)
        session.end(*(3,) if rest else (0, 1, 3))
    opens(store)
    print(f"stops: {OUTLETS} outlets closed early, {seen['outlet', 3]} sessions ended with 3; none lost, none in part")


def limits(work, stores):
    """A limit on the length of files that comes at some moment; where it is met, a signal or a status says so."""
    for turn, store in twins("limit", LIMITS, work, stores):
        most = draw.choice((0, draw.randrange(PAGE), draw.randrange(6 * PAGE)))
        disturbed(store, lambda session: resource.prlimit(session.process.pid, resource.RLIMIT_FSIZE, (most, most)),
                  (0, 1, 3, -signal.SIGXFSZ), restore_signals=turn % 2 == 0)
        opens(store)
    print(f"stops: {LIMITS} limits on the length of the file, {seen['limit', 3]} sessions ended with 3 and "
          f"{seen['limit', -signal.SIGXFSZ]} by the signal; none lost, none in part")


def disks(work, _):
    """Sessions on small disks, and an opening while there is no room and one when there is."""
    folder = os.path.join(work, "disk")
    os.mkdir(folder)
    for turn in each("disk", DISKS):
        words = ["mount", "-t", "tmpfs", "-o", f"size={36 + 8 * turn}k", "tmpfs", folder]
        if subprocess.run(words, capture_output=True).returncode != 0:
            return print("stops: skipped: small disks, since none can be mounted here")
        try:
            store = born(folder, 1 + turn % 4)
            session = Session(store)
            session.give(session.open(3))
            session.end(0, 1, 3)
            Session(store).end(0, 3)
            subprocess.run(["mount", "-o", "remount,size=1m", folder], check=True)
            opens(store)
        finally:
            subprocess.run(["umount", folder], check=True)
    print(f"stops: {DISKS} small disks, on which {seen['disk', 3]} runs ended with 3; none lost, none in part")


def locked(work, stores):
    """Sessions over a file that may only be read, by a user without the rights of root."""
    nobody = {"user": 65534} if os.geteuid() == 0 else {}
    for _, store in twins("locked", LOCKED, work, stores):
        before = store.bytes()
        os.chmod(store.path, 0o444)
        try:
            session = Session(store, **nobody)
        except PermissionError:
            return print("stops: skipped: read-only files, since root has all rights and can't become another user here")
        session.end(3)
        assert store.bytes() == before, "a read-only file was changed"
        os.chmod(store.path, 0o644)
        opens(store)
    print(f"stops: {LOCKED} read-only files, each answered with 3 and as it was")


def cuts(work, stores):
    """Files that another process cuts short at some moment, and again when nobody has them open; an opening behind each."""
    for turn, store in twins("cut", CUTS, work, stores):
        first, second = (draw.randrange(len(store.bytes()) if turn % 4 else 3) for _ in range(2))
        disturbed(store, lambda _: os.truncate(store.path, first), (0, 1, 3, 6, 7))
        case[0] = "cut and opened"
        Session(store).end(0, 3, 6, 7)
        os.truncate(store.path, second)
        Session(store).end(0, 3, 6, 7)
    counts = [seen["cut and opened", status] for status in (0, 6, 7, 3)]
    print(f"stops: {2 * CUTS} times a file was cut short; behind that %d openings found a store, %d a blank file, %d a damaged "
          "or foreign one, and %d failed, each in time" % tuple(counts))


def main():
    if not os.access(PROGRAM, os.X_OK):
        print("stops: skipped, since the program isn't built (make demo)")
        return
    signal.signal(signal.SIGALRM, late)
    with tempfile.TemporaryDirectory() as work:
        os.chmod(work, 0o755)
        Session.program = shutil.copy(PROGRAM, work)
        os.chmod(Session.program, 0o755)
        try:
            stores = kills(work)
            for faults in (outlets, limits, disks, locked, cuts):
                faults(work, stores)
        except AssertionError as wrong:
            sys.exit(f"stops: seed {SEED}, {case[0]} {case[1]}: {wrong}")


if __name__ == "__main__":
    main()
