"""The script `examples/standby`, with the standby on this machine and on another, through ships and through what goes wrong: after each failure the next ship
brings the standby up to the state of its primary.

A ship that succeeds says nothing and adds one line to its log; one that fails says why and ends with a status that isn't 0. After it the primary is unlocked,
unless somebody else has locked it. The other machine is a shell on this one, which is what the script sees of it. A table shows each case.
"""

import contextlib
import os
import random
import shutil
import signal
import subprocess
import sys
import time

from common import program, report
from nightly import Place, finished, locked

STANDBY = os.path.join(os.path.dirname(os.path.dirname(os.path.abspath(__file__))), "examples", "standby")
RAW = 4_000
KILLS = 12


class Pair(Place):
    """A database of 16 MiB, a standby of it, and the next ship; `there` is what runs a line on the standby's machine, and nothing where it is this one."""

    def __init__(self, path, there):
        super().__init__(path, RAW)
        self.there = there

    def __enter__(self):
        super().__enter__()
        self.spool = self.file("spool")
        os.mkdir(self.spool)
        self.make_standby()
        return self

    def make_standby(self):
        """A new one, of a level 0 of now."""
        for name in ("b.db", "b.db.ship", "b.db.level", "a.0"):
            with contextlib.suppress(FileNotFoundError):
                os.remove(self.file(name))
        self.words("-B", "0", "a.db", "a.0")
        self.words("-R", "b.db", "a.0")
        self.do("1: open 'b.db'", "1: access read_only")

    def begin(self, user=None, **settings):
        """Starts a ship."""
        given = {"PROGRAM": self.program, "THERE_PROGRAM": self.program, "PRIMARY": self.file("a.db"), "STANDBY": self.file("b.db"), "SPOOL": self.spool}
        given |= {"THERE": self.there, "NEHUMIRO_WAIT": "20", "PATH": os.environ["PATH"]} | settings
        pipe = {"stdout": subprocess.PIPE, "stderr": subprocess.PIPE}
        return subprocess.Popen(["sh", STANDBY], cwd="/", env=given, user=user, stdin=subprocess.DEVNULL, text=True, start_new_session=True, **pipe)

    def ship(self, **settings):
        """The status of a ship, and what cron would send."""
        return finished(self.begin(**settings))

    def begun(self):
        """A ship whose file is being written, by a program that is slow."""
        file = self.file("spool/level" if self.there else "b.db.ship")
        running = self.begin(PROGRAM=self.slow)
        while running.poll() is None and not (os.path.exists(file) and os.path.getsize(file)):
            time.sleep(0.001)
        return running

    def lines(self):
        with contextlib.suppress(FileNotFoundError), open(os.path.join(self.spool, "standby.log"), encoding="ascii") as file:
            return file.read().splitlines()
        return []

    def left(self):
        """The files that a ship makes and removes again."""
        names = ["b.db.ship", "b.db.ship.delta", "b.db.level", "spool/level", "spool/under-way", "a.db.delta"]
        return [name for name in names if os.path.exists(self.file(name))]

    def wrong(self):
        """What a ship that was done must not leave: a locked primary, a file of its own, a standby that lacks a row or a page of the primary."""
        if self.state():
            yield "the primary is locked"
        if self.left():
            yield f"left are {self.left()}"
        asked = ["1: scan t"] + [f"1: read {5 + page}" for page in range(0, self.raw, 97)]
        here, there = (self.do(f"1: open '{name}'", *asked) for name in ("a.db", "b.db"))
        if here[1:] != there[1:] or len(here) != len(asked) + 1 or not here[1].startswith(f"1: ok rows {self.day} "):
            yield "the standby isn't as the primary"

    def next_ship(self):
        """What is wrong after the next ship."""
        self.day += 1
        self.change()
        before = len(self.lines())
        status, sent = self.ship()
        if status or len(self.lines()) != before + 1:
            yield f"the next ship ends with {status}: {sent}"
        yield from self.wrong()


def some(pair):
    """Each ship is silent, and the script tells the lag."""
    for _ in range(5):
        pair.day += 1
        pair.change()
        status, sent = pair.ship()
        if status or sent:
            yield f"status {status}, and it says {sent!r}"
        yield from pair.wrong()
    given = {"PROGRAM": pair.program, "THERE_PROGRAM": pair.program, "PRIMARY": pair.file("a.db"), "STANDBY": pair.file("b.db"), "SPOOL": pair.spool}
    told = subprocess.run(["sh", STANDBY, "lag"], env=given | {"THERE": pair.there, "PATH": os.environ["PATH"]}, capture_output=True, text=True, check=False).stdout
    if told.splitlines()[-1:] != ["standby_lag 1"]:
        yield f"the lag is told as {told!r}"


def expect(found, *said):
    status, sent = found
    if status == 0 or any(text not in sent for text in said):
        yield f"status {status}, and it says {sent!r}"


def no_folder(pair):
    yield from expect(pair.ship(SPOOL=pair.file("nothing")), "there is no folder", "nothing was shipped")


def killed(pair):
    running = pair.begun()
    os.killpg(running.pid, signal.SIGKILL)
    finished(running)
    if pair.state() != 1:
        yield f"the ship was killed in the state {pair.state()}"


def killed_anywhere(pair):
    """A ship is killed at moments that a seed chooses, and the next one has to go on from what that left, whatever it is."""
    chance = random.Random(1)
    for _ in range(KILLS):
        running = pair.begin(PROGRAM=pair.slow, THERE_PROGRAM=pair.slow)
        time.sleep(chance.uniform(0, 1.5))
        os.killpg(running.pid, signal.SIGKILL)
        finished(running)
        yield from pair.next_ship()


def terminated(pair):
    running = pair.begun()
    os.kill(running.pid, signal.SIGTERM)
    yield from expect(finished(running), "stopped by a signal", "is unlocked")
    if pair.state():
        yield "the primary is locked"


def in_use(pair):
    with locked(pair):
        yield from expect(pair.ship(NEHUMIRO_WAIT="1"), "is in use")


def locked_by_hand(pair):
    """Someone has locked the primary to copy it: it stays locked until they end that."""
    pair.words("-L", "a.db")
    yield from expect(pair.ship(), "refused 6 WrongState 1", "is locked since")
    if pair.state() != 1:
        yield "the lock of someone else is gone"
    pair.words("-N", "a.db")


def locked_after_a_kill(pair):
    """A ship was killed, someone has unlocked the primary and locks it to copy it: that lock isn't the ship's."""
    running = pair.begun()
    os.killpg(running.pid, signal.SIGKILL)
    finished(running)
    pair.words("-N", "a.db")
    pair.words("-L", "a.db")
    yield from expect(pair.ship(), "stays locked")
    if pair.state() != 1:
        yield "the lock of someone else is gone"
    pair.words("-N", "a.db")


def other_backups(pair):
    """Somebody else makes a level 0 and a level 1 between two ships."""
    pair.words("-B", "0", "a.db", "other.0")
    pair.words("-B", "1", "a.db", "other.1")
    os.remove(pair.file("other.0"))
    os.remove(pair.file("other.1"))
    yield from ()


def two_at_once(pair):
    ends = [finished(running) for running in [pair.begin(), pair.begin()]]
    if any(status for status, _ in ends):
        yield f"{ends}"


def standby_written(pair):
    """The standby was written, so it is one no more, and has to be made anew."""
    pair.do("1: open 'b.db'", "1: access read_write", "1: write 6 'x'", "1: access read_only")
    yield from expect(pair.ship(), "refused 19 ChainScn")
    pair.make_standby()


def command(pair, *lines):
    """A command that runs a line of the shell in the place of the other machine's."""
    with open(pair.file("there"), "w", encoding="ascii") as file:
        file.write("".join(f"{line}\n" for line in ("#!/bin/sh", *lines)))
    os.chmod(pair.file("there"), 0o755)
    return pair.file("there")


def line_breaks(pair):
    """The line to the other machine breaks while the level goes over."""
    yield from expect(pair.ship(THERE=command(pair, "case $1 in", '"cat >"*) head -c 3000 | sh -c "$1" ;;', '*) exec sh -c "$1" ;;', "esac")), "didn't get over")
    if pair.state():
        yield "the primary is locked"
    os.remove(pair.file("b.db.level.part"))


def no_answer(pair):
    yield from expect(pair.ship(THERE=command(pair, "exit 255")), "the other machine doesn't answer")


def merged_and_not_removed(pair):
    """The other machine stopped after the merge, before the file was removed."""
    yield from expect(pair.ship(THERE=command(pair, "case $1 in", '"rm -f "*) exit 1 ;;', '*) exec sh -c "$1" ;;', "esac")), "is merged, and can't be removed")


BOTH = [
    ("five ships", some),
    ("a folder that isn't there", no_folder),
    ("all killed by SIGKILL", killed),
    ("the same, at any moment", killed_anywhere),
    ("stopped by SIGTERM", terminated),
    ("another program has the primary", in_use),
    ("someone has locked it to copy it", locked_by_hand),
    ("the same, after a ship was killed", locked_after_a_kill),
    ("someone else makes backups", other_backups),
    ("two ships at once", two_at_once),
    ("the standby was written", standby_written),
]
ELSEWHERE = [
    ("the line breaks", line_breaks),
    ("the other machine doesn't answer", no_answer),
    ("merged, and the file not removed", merged_and_not_removed),
]


def try_all(path, there, cases):
    """How many of the cases failed."""
    failed = 0
    with Pair(path, there) as pair:
        for name, case in cases:
            begun = time.monotonic()
            pair.day += 1
            pair.change()
            wrong = [*case(pair), *pair.next_ship()]
            failed += bool(wrong)
            print(f"  {name:38} {time.monotonic() - begun:5.1f} s  {'; '.join(wrong) or 'the next ship goes on'}", flush=True)
    return failed


def main():
    if not shutil.which("strace"):
        sys.exit("strace is not installed: apt-get install strace")
    path = program()
    start = time.monotonic()
    print(" the standby on this machine")
    failed = try_all(path, "", BOTH)
    print(" the standby on another one")
    failed += try_all(path, "sh -c", BOTH + ELSEWHERE)
    report("standby", failed == 0, f"{2 * len(BOTH) + len(ELSEWHERE)} cases, after each of which the next ship goes on, but for {failed}, in {time.monotonic() - start:.0f} s")


if __name__ == "__main__":
    main()
