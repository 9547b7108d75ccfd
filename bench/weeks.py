"""Weeks of `examples/nightly` in which something goes wrong that a backup could be lost by: none is that was whole.

Each case has a small database of its own, and some weeks of both kinds of chain; to be short a week has four days here. What each chain restores to
is noted in its night; at the end each file is there, but those that the levels 0 which are kept don't need, and each chain restores to what it did.
"""

import concurrent.futures
import os
import signal
import time

from common import in_memory, program, report
from nightly import KEEP, Place, finished, locked

PAGE_SIZE, RAW = 1024, 40
WEEK = 4
CALLS = "flock,ftruncate,pwrite64,fdatasync,fsync,unlink"


class Weeks(Place):
    """A place that notes what each night's chain restores to."""

    def __init__(self, path, chain):
        super().__init__(path, RAW, PAGE_SIZE)
        self.chain, self.noted = chain, {}

    def __enter__(self):
        super().__enter__()
        os.mkdir(self.file("tmp"))
        return self

    def begin(self, user=None, **settings):
        return super().begin(user, **{"CHAIN": self.chain, "TMPDIR": self.file("tmp")} | settings)

    def tonight(self, **settings):
        """The status of the next night and what it says, and notes its chain."""
        self.day += 1
        self.change()
        found = self.night(**settings)
        self.note()
        return found

    def nights(self, count):
        """That many nights, which are silent."""
        for _ in range(count):
            status, sent = self.tonight()
            if status or sent:
                yield f"{self.today()} ends with {status}: {sent}"

    def weekday(self):
        return str(self.day % WEEK)

    def backup(self):
        """The file that tonight's backup goes to, whichever level it is of."""
        return [self.path_of(f"{self.today()}.{level}") for level in range(10)]

    def note(self):
        line = self.log()[-1]
        files = line.split(",")[0].split()[1:]
        if files[-1] not in self.noted:
            self.noted[files[-1]] = files, self.digest(*files)

    def path_of(self, name):
        return os.path.join(self.backups, name)

    def whole_files(self):
        return [name for name in self.names() if name.endswith(".0")]

    def lost(self, but=()):
        """What is wrong with the backups, but for those that were damaged and what goes on from them."""
        first = ([""] + self.whole_files())[-KEEP:][0]
        for name, (files, digest) in self.noted.items():
            if name < first or set(files) & set(but):
                continue
            if digest is None or not all(os.path.exists(self.path_of(file)) for file in files):
                yield f"{name} isn't there any more, or its chain"
            elif self.digest(*files) != digest:
                yield f"{name} restores to something else"
        if self.state():
            yield "the database is locked"
        if os.listdir(self.file("tmp")):
            yield f"left are {os.listdir(self.file('tmp'))}"

    def stops(self, at):
        """A program that is killed at its call `at`, of those that lock a file (each that is opened) or change one, while it makes a backup, and the night with it."""
        with open(self.file("stops"), "w", encoding="ascii") as file:
            trace = f"strace -qq -o /dev/null -e trace={CALLS} -e inject={CALLS}:signal=KILL:when={at}"
            file.write(f"#!/bin/sh\n[ \"$1\" = -B ] || exec '{self.program}' \"$@\"\n")
            file.write(f"{trace} '{self.program}' \"$@\" && exit 0\nkill -KILL $PPID\n")
        os.chmod(self.file("stops"), 0o755)
        return self.file("stops")


def moved(place):
    """Two levels 0 are elsewhere for a day, on which a level 0 is made instead; then all goes its way."""
    yield from place.nights(6)
    away = place.whole_files()[-2:]
    for name in away:
        os.rename(place.path_of(name), place.file(name))
    status, _ = place.tonight()
    if status or not os.path.exists(place.backup()[0]):
        yield f"the night without levels 0 ends with {status}"
    gone = [name for name in place.noted if not os.path.exists(place.path_of(name)) and name not in away and name >= away[0]]
    if gone:
        yield f"{gone} were removed"
    for name in away:
        os.rename(place.file(name), place.path_of(name))
    yield from place.nights(6)
    if len(place.whole_files()) != KEEP:
        yield f"kept are {place.whole_files()}"


def locked_by_hand(place):
    """A night is killed while it waits, and someone locks the database then: it stays locked until they end that."""
    yield from place.nights(2)
    place.day += 1
    with locked(place):
        running = place.begin()
        while not os.path.exists(place.path_of("under-way")) and not os.listdir(place.file("tmp")):
            time.sleep(0.01)
        time.sleep(0.2)
        os.killpg(running.pid, signal.SIGKILL)
        finished(running)
    # The mark of a night that looked before the other program had the database.
    with open(place.path_of("under-way"), "w", encoding="ascii") as file:
        file.write(f"{place.today()}.1 {scn(place)}\n")
    # A program that was killed may hold the database a moment longer.
    place.words("-L", "a.db", NEHUMIRO_WAIT="10")
    yield from stays_locked(place)
    yield from place.nights(2)


def scn(place):
    with open(place.file("a.db"), "rb") as file:
        return int.from_bytes(file.read(32)[28:], "little")


def stays_locked(place):
    """A night that leaves the lock of someone else; then it is ended."""
    status, sent = place.tonight()
    if not status or place.state() != 1:
        yield f"the lock of someone else: status {status}, state {place.state()}, {sent!r}"
    place.words("-N", "a.db")


def power_cut(place):
    """A power cut lost the file of the night: whose lock it is can't be told."""
    yield from place.nights(2)
    place.day += 1
    running = place.begun()
    os.killpg(running.pid, signal.SIGKILL)
    finished(running)
    for name in place.backup():
        if os.path.exists(name):
            os.remove(name)
    if place.state() != 1:
        yield "the night was killed too late"
    yield from stays_locked(place)
    yield from place.nights(2)


def stopped_at_each_call(place):
    """All are killed at each call of a backup in turn, and the next night mends that; but where it wasn't locked yet, and someone locked it since, not."""
    yield from place.nights(1)
    at, ended = 1, False
    states = set()
    while not ended and at < 100:
        place.day += 1
        running = place.begin(PROGRAM=place.stops(at), WHOLE_DAY="none", CHECK_DAY="none")
        ended = finished(running)[0] == 0
        if ended:
            place.note()
        states.add(place.state())
        if place.state() == 0 and not ended and at % 2:
            old = time.time() - 3600
            for name in place.backup():
                if os.path.exists(name):
                    os.utime(name, (old, old))
            place.words("-L", "a.db")
            status, sent = place.night(TODAY="2030-01-01")
            if place.state() != 1:
                yield f"call {at}: the lock of someone else is gone: {status} {sent!r}"
            place.words("-N", "a.db")
        place.day += 1
        place.change()
        status, sent = place.night(WHOLE_DAY="none", CHECK_DAY="none")
        if status or place.state() or os.path.exists(place.path_of("under-way")):
            yield f"call {at}: the next night ends with {status}, state {place.state()}: {sent!r}"
        else:
            place.note()
        at += 1
    if states != {0, 1, 2} or not ended:
        yield f"the states that were met are {states}, of {at} calls"


def cut(place):
    """The last level 0 is cut at the end of a page: a level 0 is made the same night, and nothing is removed while the cut one counts."""
    yield from place.nights(6)
    bad = place.whole_files()[-1]
    os.truncate(place.path_of(bad), os.path.getsize(place.path_of(bad)) - PAGE_SIZE)
    yield from falls_back(place, bad, "is cut")


def damaged(place):
    """The header of the last level 0 is damaged."""
    yield from place.nights(6)
    bad = place.whole_files()[-1]
    with open(place.path_of(bad), "r+b") as file:
        file.seek(16)
        file.write(b"XXXX")
    yield from falls_back(place, bad, "BadLevel")


def falls_back(place, bad, why):
    before = place.names()
    status, sent = place.tonight()
    if not os.path.exists(place.backup()[0]) or "a level 0 is made instead" not in sent or why not in sent:
        yield f"no level 0 is made: {status}, {sent!r}"
    if len(place.whole_files()) > KEEP and not status:
        yield "that nothing is removed isn't told by the status"
    if set(before) - set(place.names()):
        yield f"{set(before) - set(place.names())} were removed"
    yield from place.lost(but=[bad])
    os.remove(place.path_of(bad))
    yield from place.nights(6)


def damaged_level(place):
    """The last level file is cut short: a chain of the week falls back, the others don't need it. Nothing is removed while it is there."""
    yield from place.nights(5)
    bad = place.names()[-1]
    os.truncate(place.path_of(bad), 2000)
    status, sent = place.tonight()
    if status != (1 if place.chain == "week" else 0) or os.path.exists(place.backup()[0]) != (place.chain == "week"):
        yield f"the next night: {status}, {sent!r}"
    yield from place.lost(but=[bad])
    os.remove(place.path_of(bad))
    for name in [name for name, (files, _) in place.noted.items() if bad in files]:
        del place.noted[name]
    yield from place.nights(6)


def killed(place):
    """All are killed by SIGKILL, and the temporary folder goes."""
    yield from place.nights(2)
    place.day += 1
    running = place.begun()
    os.killpg(running.pid, signal.SIGKILL)
    finished(running)
    if not os.listdir(place.file("tmp")):
        yield "there is no temporary folder"
    status, sent = place.tonight()
    if status or "is unlocked" not in sent or "sed:" in sent:
        yield f"the next night ends with {status}: {sent!r}"
    yield from place.nights(2)


def others(place):
    """Others make backups of all levels between the nights, by level and by GUID, on each day but before that of the check."""
    yield from place.nights(3)
    for day in range(6):
        place.words("-B", "0", "a.db", f"other{day}.0")
        for level in range(1, 6):
            place.words("-B", str(level), "a.db", f"other{day}.{level}")
        status, sent = place.tonight(CHECK_DAY="none", WHOLE_DAY="none")
        if status or sent:
            yield f"{place.today()} ends with {status}: {sent}"
    levels = max(int(name[-1]) for name in place.names() if name[10:11] == ".")
    if levels != (8 if place.chain == "week" else 1):
        yield f"the highest level is {levels}"
    yield from place.nights(3)


def no_sunday(place):
    """No night falls on the day of level 0: after nine files a chain of the week begins anew."""
    yield from place.nights(1)
    for _ in range(10):
        status, sent = place.tonight(WHOLE_DAY="none", CHECK_DAY="none")
        if status or sent:
            yield f"{place.today()} ends with {status}: {sent}"
    if len(place.whole_files()) != (KEEP if place.chain == "week" else 1):
        yield f"the levels 0 are {place.whole_files()}"


def restored(place):
    """The database is restored: its history lacks the backup that it comes from, so a level 0 is made, and nothing is removed while SCNs and dates disagree."""
    yield from place.nights(5)
    # What is restored has the rows of the backups before the last one: where each night goes on from the level 0, that has to be the last.
    last = [name for name in place.names() if place.chain == "week" or name.endswith(".0")][-1]
    os.remove(place.file("a.db"))
    place.words("-R", "a.db", *[f"backups/{file}" for file in place.noted[last][0]])
    status, sent = place.tonight()
    if not os.path.exists(place.backup()[0]) or "lacks" not in sent:
        yield f"the next night ends with {status}: {sent!r}"
    yield from place.lost()
    for _ in range(10):
        place.tonight()
    yield from place.lost()
    yield from place.nights(1)
    if len(place.whole_files()) > KEEP + 1:
        yield f"kept are {place.whole_files()}"


def names(place):
    """Paths that the program doesn't take are refused before anything is done, with the reason."""
    yield from place.nights(1)
    long = place.file("l" * 77)
    os.mkdir(long)
    os.mkdir(place.file("a b"))
    for setting, value, why in [
        ("BACKUPS", place.file("a b"), "a character"),
        ("SCRATCH", place.file("a b"), "a character"),
        ("DATABASE", place.file("a b.db"), "a character"),
        ("BACKUPS", long, "bytes, and may have 77"),
        ("SCRATCH", long, "bytes, and may have 77"),
        ("DATABASE", place.file("l" * 94), "bytes, and may have 94"),
        ("BACKUPS", "backups", "a whole path"),
        ("CHAIN", "month", "CHAIN has to be"),
        ("KEEP", "0", "KEEP has to be"),
    ]:
        status, sent = place.night(**{setting: value})
        if status != 1 or why not in sent or "no backup was made" not in sent or setting not in sent:
            yield f"{setting}={value}: {status}, {sent!r}"
    room = 77 - len(place.path) - 1
    fits = place.file("f" * room)
    os.mkdir(fits)
    place.day += 1
    status, sent = place.night(BACKUPS=fits, CHECK_DAY=place.weekday())
    if status or sent:
        yield f"a folder of 77 bytes: {status}, {sent!r}"
    yield from place.nights(2)


CASES = [
    ("two levels 0 are elsewhere for a day", moved),
    ("locked by hand after a night that waited", locked_by_hand),
    ("a power cut lost the night's file", power_cut),
    ("all killed at each call of a backup", stopped_at_each_call),
    ("the last level 0 is cut", cut),
    ("the last level 0 is damaged", damaged),
    ("the last level file is cut", damaged_level),
    ("SIGKILL, and the temporary folder", killed),
    ("others make backups between", others),
    ("no level 0 for eleven nights", no_sunday),
    ("the database was restored", restored),
    ("paths that the program doesn't take", names),
]


def tried(path, chain, name, case):
    """What is wrong in a case."""
    begun = time.monotonic()
    with Weeks(path, chain) as place:
        wrong = [*case(place), *place.lost()]
    return f"  {chain:4} {name:42} {time.monotonic() - begun:5.1f} s  {'; '.join(wrong) or 'no backup is lost'}", wrong


def main():
    in_memory()
    path = program()
    start = time.monotonic()
    failed = 0
    with concurrent.futures.ThreadPoolExecutor(3 * os.cpu_count()) as pool:
        trials = [pool.submit(tried, path, chain, name, case) for name, case in CASES for chain in ("day", "week")]
        for trial in concurrent.futures.as_completed(trials):
            line, wrong = trial.result()
            failed += bool(wrong)
            print(line, flush=True)
    report("weeks", failed == 0, f"{len(CASES)} things that go wrong, with both chains: a backup is lost, or a night fails, in {failed}, in {time.monotonic() - start:.0f} s")


if __name__ == "__main__":
    main()
