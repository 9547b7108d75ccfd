"""The script `examples/nightly` through two weeks, and through what goes wrong: behind each failure the next night makes its backup.

A night that succeeds says nothing and adds one line to its log; one that fails says why and ends with a status that isn't 0. Behind a failure that
the script sees, the database is unlocked and no part of a backup is left; behind a SIGKILL of all it is so after the next night. The dates
are given, so that no day passes. A table shows each case. Where it isn't root who runs it, a full file system and another user are left out.
"""

import contextlib
import datetime
import fcntl
import hashlib
import os
import random
import shutil
import signal
import sys
import subprocess
import time

from common import Folder, program, report

NIGHTLY = os.path.join(os.path.dirname(os.path.dirname(os.path.abspath(__file__))), "examples", "nightly")
PAGE_SIZE, RAW = 4096, 12_000
KEEP = 2
KILLS = 12
DELAY = 20_000  # microseconds, before each write of a night that is held: some 200 writes of a backup, so it lasts for seconds
FIRST = datetime.date(2026, 11, 25)  # a Wednesday


class Place(Folder):
    """A database, of 47 MiB unless it is said, a folder for its backups, and the night that comes next."""

    def __init__(self, path, raw=RAW, page_size=PAGE_SIZE):
        self.program, self.day, self.raw, self.page_size = path, 0, raw, page_size

    def __enter__(self):
        super().__enter__()
        os.chmod(self.path, 0o755)
        self.backups, self.slow = self.file("backups"), self.file("slow")
        os.mkdir(self.backups)
        with open(self.slow, "w", encoding="ascii") as file:
            file.write(f"#!/bin/sh\nexec strace -D -qq -o /dev/null -e trace=pwrite64 -e inject=pwrite64:delay_enter={DELAY} '{self.program}' \"$@\"\n")
        os.chmod(self.slow, 0o755)
        self.do(f"1: create database 'a.db' page_size {self.page_size} raw {self.raw}", "1: create table t")
        return self

    def words(self, *words, **settings):
        """The replies to words, with these variables set."""
        return self.start([self.program, *words], stderr=subprocess.DEVNULL, env=os.environ | settings).communicate()[0].decode().splitlines()

    def do(self, *lines):
        """The replies of a script."""
        self.write_script("s", lines)
        return self.words("run", "s")

    def change(self):
        """A row more, and other texts on some pages."""
        self.do("1: open 'a.db'", f"1: insert t {self.day} 'day {self.day}'", *[f"1: write {5 + (7 * self.day + page) % self.raw} 'day {self.day}'" for page in range(5)])

    def state(self):
        """The backup state that the header tells."""
        with open(self.file("a.db"), "rb") as file:
            return file.read(24)[22]

    def today(self):
        return str(FIRST + datetime.timedelta(self.day))

    def weekday(self):
        """From 0, a Sunday, to 6."""
        return str((FIRST + datetime.timedelta(self.day)).isoweekday() % 7)

    def backup(self):
        """The file that tonight's level 0 or level 1 goes to, whichever is there."""
        return [os.path.join(self.backups, f"{self.today()}.{level}") for level in (0, 1)]

    def begin(self, user=None, **settings):
        """Starts tonight's backup."""
        given = {"PROGRAM": self.program, "DATABASE": self.file("a.db"), "BACKUPS": self.backups, "KEEP": str(KEEP), "NEHUMIRO_WAIT": "20"}
        given |= {"TODAY": self.today(), "WEEKDAY": self.weekday(), "PATH": os.environ["PATH"]} | settings
        pipe = {"stdout": subprocess.PIPE, "stderr": subprocess.PIPE}
        return subprocess.Popen(["sh", NIGHTLY], cwd="/", env=given, user=user, stdin=subprocess.DEVNULL, text=True, start_new_session=True, **pipe)

    def night(self, **options):
        """The status of a night, and what cron would send."""
        return finished(self.begin(**options))

    def begun(self):
        """A night whose backup is being written: by a program that is slow, so that the night is met in the midst of it on any machine."""
        running = self.begin(PROGRAM=self.slow)
        while running.poll() is None and not any(os.path.exists(name) and os.path.getsize(name) for name in self.backup()):
            time.sleep(0.001)
        return running

    def names(self):
        """The backups that are there."""
        return sorted(name for name in os.listdir(self.backups) if name[:2] == "20")

    def is_whole(self, name):
        """Whether a restore takes a file as the first of a chain, or refuses only its level."""
        said = "".join(self.words("-R", "r.db", f"backups/{name}"))
        with contextlib.suppress(FileNotFoundError):
            os.remove(self.file("r.db"))
        return " ok " in said or "ChainLevel" in said

    def wrong(self):
        """What a night must not leave."""
        if self.state() or os.path.exists(self.file("a.db.delta")):
            yield "the database is locked"
        if os.path.exists(os.path.join(self.backups, "under-way")):
            yield "the mark stays"
        for name in self.names():
            if not self.is_whole(name):
                yield f"{name} isn't whole"

    def next_night(self):
        """What is wrong behind the next night."""
        self.day += 1
        self.change()
        before = len(self.log())
        status, sent = self.night()
        log = self.log()
        if status or len(log) != before + 1 or not any(os.path.exists(name) for name in self.backup()):
            yield f"the next night ends with {status}: {sent}"
        yield from self.wrong()

    def log(self, what=", 1: ok level "):
        """The lines of the log that have a backup, or something else."""
        with contextlib.suppress(FileNotFoundError), open(os.path.join(self.backups, "nightly.log"), encoding="ascii") as file:
            return [line for line in file.read().splitlines() if what in line]
        return []

    def digest(self, *files):
        """The digest of what a chain restores to, and nothing where it doesn't."""
        self.words("-R", "r.db", *[f"backups/{file}" for file in files])
        if not os.path.exists(self.file("r.db")):
            return None
        with open(self.file("r.db"), "rb") as file:
            found = hashlib.sha256(file.read()).hexdigest()
        os.remove(self.file("r.db"))
        return found


def finished(running):
    said, sent = running.communicate(timeout=300)
    return running.returncode, said + sent


def two_weeks(place):
    """Each night is silent and makes its level; at the end the last chains are there, and they give the rows back."""
    for day in range(14):
        place.day = day
        place.change()
        status, sent = place.night()
        if status or sent:
            yield f"{place.today()} ends with {status}: {sent}"
        yield from place.wrong()
    log = place.log()
    levels = ["01"["level 1" in line] for line in log]
    if "".join(levels) != "01110111111011"[:14] or len(place.log("compared")) != 2:
        yield f"the log: {log}"
    kept = place.names()
    if [name for name in kept if name.endswith(".0")] != ["2026-11-29.0", "2026-12-06.0"] or kept[0] != "2026-11-29.0":
        yield f"{kept} are kept"
    place.words("-R", "r.db", "backups/2026-12-06.0", "backups/2026-12-08.1")
    rows = place.do("1: open 'r.db'", "1: scan t")[1:]
    if rows != ["1: ok rows 14" + "".join(f" {day} 'day {day}'" for day in range(14))]:
        yield f"the last chain has {rows}"
    os.remove(place.file("r.db"))


def expect(found, *said):
    """A night that fails, and says all of this."""
    status, sent = found
    if status == 0 or any(text not in sent for text in said):
        yield f"status {status}, and it says {sent!r}"


def no_folder(place):
    yield from expect(place.night(BACKUPS=place.file("nothing")), "there is no folder")
    yield from place.wrong()


def no_rights(place):
    yield from expect(place.night(user="nobody"), "no backup was made")
    yield from place.wrong()


def full_disk(place):
    small = place.file("small")
    os.mkdir(small)
    subprocess.run(["mount", "-t", "tmpfs", "-o", "size=1m", "tmpfs", small], check=True)
    try:
        yield from expect(place.night(BACKUPS=small), "No space left on device", "is unlocked", "wasn't whole")
        if os.listdir(small) != ["nightly.log"] or os.path.getsize(os.path.join(small, "nightly.log")) or place.state():
            yield f"left are {os.listdir(small)} and the state {place.state()}"
    finally:
        subprocess.run(["umount", small], check=True)
    yield from place.wrong()


def killed(place):
    running = place.begun()
    os.killpg(running.pid, signal.SIGKILL)
    finished(running)
    if place.state() != 1:
        yield f"the night was killed in the state {place.state()}"


def killed_anywhere(place):
    """A night is killed at moments that a seed chooses, and the next one has to mend what that left, whatever it is."""
    chance = random.Random(1)
    states = set()
    for _ in range(KILLS):
        running = place.begin()
        time.sleep(chance.uniform(0, 0.6))
        os.killpg(running.pid, signal.SIGKILL)
        finished(running)
        states.add(place.state())
        yield from place.next_night()
        place.day += 1
    if not states >= {0, 1}:
        yield f"the states that were met are {states}"


def terminated(place):
    running = place.begun()
    os.kill(running.pid, signal.SIGTERM)
    yield from expect(finished(running), "stopped by a signal", "is unlocked")
    yield from place.wrong()


def program_killed(place):
    """The program alone is killed, as the system does where memory runs out."""
    running = place.begun()
    with open(f"/proc/{running.pid}/task/{running.pid}/children", encoding="ascii") as children:
        for child in children.read().split():
            os.kill(int(child), signal.SIGKILL)
    yield from expect(finished(running), "is unlocked", "failed")
    yield from place.wrong()


@contextlib.contextmanager
def locked(place):
    with open(place.file("a.db"), "rb") as file:
        fcntl.flock(file, fcntl.LOCK_EX)
        yield


def in_use(place):
    with locked(place):
        yield from expect(place.night(NEHUMIRO_WAIT="1"), "is in use", "no backup was made")
    yield from place.wrong()


def in_use_for_a_while(place):
    """The other program lets go within the time that is waited."""
    with locked(place):
        running = place.begin()
        time.sleep(1)
    status, sent = finished(running)
    if status or sent:
        yield f"status {status}, and it says {sent!r}"
    yield from place.wrong()


def copied_by_hand(place):
    """Someone has locked the database to copy it: it stays locked until they end that."""
    place.words("-L", "a.db")
    yield from expect(place.night(), "is locked since", "no backup was made")
    if place.state() != 1:
        yield "the lock of someone else is gone"
    place.words("-N", "a.db")
    yield from place.wrong()


def file_in_the_way(place):
    for name in place.backup():
        with open(name, "wb") as file:
            file.write(b"something else")
    yield from expect(place.night(), "is in the way")
    for name in place.backup():
        with open(name, "rb") as file:
            if file.read() != b"something else":
                yield "a file in the way is changed"
        os.remove(name)
    yield from place.wrong()


def other_level_0(place):
    """Someone else has made a level 0: tonight's level 1 goes on from the night's own."""
    place.words("-B", "0", "a.db", "other.0")
    status, sent = place.night(CHECK_DAY="none")
    if status or sent or not os.path.exists(place.backup()[1]):
        yield f"status {status}, and it says {sent!r}"
    yield from place.wrong()


def other_level_0_on_check_day(place):
    """On the day of the check the backup is of a level, and goes on from that of someone else: it is set aside, and made again by the GUID."""
    place.words("-B", "0", "a.db", "other.0")
    status, sent = place.night(CHECK_DAY=place.weekday())
    if status or "isn't compared" not in sent or not os.path.exists(place.backup()[1] + ".other"):
        yield f"status {status}, and it says {sent!r}"
    else:
        os.remove(place.backup()[1] + ".other")
    yield from place.wrong()


def restored(place):
    """The database was restored from its last level 0, so its history lacks it."""
    os.remove(place.file("a.db"))
    last = [name for name in place.names() if name.endswith(".0")][-1]
    place.words("-R", "a.db", f"backups/{last}")
    status, sent = place.night()
    if status or not os.path.exists(place.backup()[0]):
        yield f"status {status}, and it says {sent!r}"
    yield from place.wrong()
    # The SCNs of the backups before it are above the new ones for a while, and until then nothing is removed. Here they go elsewhere.
    for name in place.names():
        if not name.startswith(place.today()):
            os.remove(os.path.join(place.backups, name))


def two_at_once(place):
    runs = [place.begin(), place.begin()]
    ends = [finished(running) for running in runs]
    if sorted(status for status, _ in ends)[0] or sum(os.path.exists(name) for name in place.backup()) != 1:
        yield f"{ends}"
    yield from place.wrong()


def damaged(place):
    """On the day of the check a byte of level 0 isn't what was written."""
    while (FIRST + datetime.timedelta(place.day + 1)).isoweekday() != 1:
        yield from place.next_night()
    place.day += 1
    last = os.path.join(place.backups, [name for name in place.names() if name.endswith(".0")][-1])
    with open(last, "r+b") as file:
        file.seek(PAGE_SIZE * (RAW * 3 // 4) + 100)
        file.write(b"x")
    status, sent = place.night()
    yield from expect((status, sent), "isn't what was backed up")
    yield from place.wrong()


def unsound(place):
    """The night of a level 0 of a database that doesn't agree with itself: an inventory page says that a page past the end is taken."""
    last = 2 * PAGE_SIZE - 1
    with open(place.file("a.db"), "r+b") as file:
        file.seek(last)
        file.write(b"\xfe")
    yield from expect(place.night(WHOLE_DAY=place.weekday()), "was made, but", "doesn't agree with itself: refused 31 Unsound")
    if not os.path.exists(place.backup()[0]):
        yield "no level 0 was made"
    with open(place.file("a.db"), "r+b") as file:
        file.seek(last)
        file.write(b"\xff")
    yield from place.wrong()


def in_danger(place):
    """The night of a level 0 of a database one of whose tables has a page that counts as free."""
    with open(place.file("a.db"), "r+b") as file:
        file.seek(3 * PAGE_SIZE + 32 + 4)
        page = int.from_bytes(file.read(4), "little")
        at = PAGE_SIZE + 32 + page // 8
        file.seek(at)
        was = file.read(1)[0]
        file.seek(at)
        file.write(bytes([was | 1 << page % 8]))
    yield from expect(place.night(WHOLE_DAY=place.weekday()), "was made, but", f"doesn't agree with itself: pages in danger, 1 in all: {page}: ")
    if not os.path.exists(place.backup()[0]):
        yield "no level 0 was made"
    with open(place.file("a.db"), "r+b") as file:
        file.seek(at)
        file.write(bytes([was]))
    yield from place.wrong()


CASES = [
    ("a folder that isn't there", no_folder),
    ("another user, without rights", no_rights),
    ("a full file system", full_disk),
    ("all killed by SIGKILL", killed),
    ("the same, at any moment", killed_anywhere),
    ("stopped by SIGTERM", terminated),
    ("the program alone killed", program_killed),
    ("another program has it", in_use),
    ("another program has it for a second", in_use_for_a_while),
    ("someone has locked it to copy it", copied_by_hand),
    ("a file is in the way", file_in_the_way),
    ("someone else has made a level 0", other_level_0),
    ("the same, on the day of the check", other_level_0_on_check_day),
    ("the database was restored", restored),
    ("two nights at once", two_at_once),
    ("a byte of a backup is damaged", damaged),
    ("the database doesn't agree with itself", unsound),
    ("a page of a table counts as free", in_danger),
]
FOR_ROOT = (no_rights, full_disk)


def main():
    if not shutil.which("strace"):
        sys.exit("strace is not installed: apt-get install strace")
    path = program()
    start = time.monotonic()
    failed = 0
    cases = [case for case in CASES if os.getuid() == 0 or case[1] not in FOR_ROOT]
    with Place(path) as place:
        for name, case in [("two weeks", two_weeks), *cases]:
            begun = time.monotonic()
            place.day += 1
            place.change()
            wrong = [*case(place), *place.next_night()]
            failed += bool(wrong)
            print(f"  {name:38} {time.monotonic() - begun:5.1f} s  {'; '.join(wrong) or 'the next night works'}", flush=True)
    report("nightly", failed == 0, f"fourteen nights, and {len(cases)} things that go wrong, behind each of which the next night works, but for {failed}, in {time.monotonic() - start:.0f} s")


if __name__ == "__main__":
    main()
