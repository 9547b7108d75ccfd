"""The scripts `examples/backup` and `examples/watch`.

A backup that is stopped by a signal, at moments from its start to its end, leaves the database unlocked and no part of a backup, and ends with the
status of a shell; a lock that was there before stays. The lines of watch are right in each state.
"""

import contextlib
import os
import random
import signal
import subprocess
import time

from common import in_memory, program, report
from nightly import Place, locked

EXAMPLES = os.path.join(os.path.dirname(os.path.dirname(os.path.abspath(__file__))), "examples")
SIGNALS = (signal.SIGINT, signal.SIGTERM, signal.SIGHUP)
RAW = 1000
STOPS = 18


def start(place, script, *words, **settings):
    given = {"PROGRAM": place.program, "PATH": os.environ["PATH"]} | settings
    pipe = {"stdout": subprocess.PIPE, "stderr": subprocess.PIPE}
    return subprocess.Popen(["sh", os.path.join(EXAMPLES, script), *words], cwd=place.path, env=given, text=True, start_new_session=True, **pipe)


def ended(running):
    said, sent = running.communicate(timeout=60)
    return running.returncode, said, sent


def whole(place):
    """A backup that isn't stopped: its replies, statuses and refusals are those of the program."""
    status, said, _ = ended(start(place, "backup", "0", "a.db", "a.0"))
    if status or not said.startswith("1: ok level 0 "):
        yield f"a level 0: {status}, {said!r}"
    guid = said.split()[-1]
    status, said, _ = ended(start(place, "backup", guid, "a.db", "a.1"))
    if status or not said.startswith("1: ok level 1 "):
        yield f"since a GUID: {status}, {said!r}"
    for words, least in [(("3", "a.db", "a.3"), 1), (("x", "a.db", "a.3"), 2), (("0", "none.db", "a.3"), 1), (("0", "a.db", "none/a.3"), 3), (("0", "a.db"), 2)]:
        status, said, _ = ended(start(place, "backup", *words))
        if status != least or os.path.exists(place.file("a.3")):
            yield f"{words}: {status}, {said!r}"
    size = os.path.getsize(place.file("a.0"))
    if ended(start(place, "backup", "0", "a.db", "a.0"))[0] != 1 or os.path.getsize(place.file("a.0")) != size:
        yield "a file that is there is taken"


def stopped(place):
    """Levels 0 and 1 are stopped by each signal in turn, at moments that a seed chooses."""
    chance = random.Random(1)
    ended(start(place, "backup", "0", "a.db", "base.0"))
    met = set()
    for stop in range(STOPS):
        sent, level = SIGNALS[stop % 3], stop // 3 % 2
        running = start(place, "backup", str(level), "a.db", "part", PROGRAM=place.slow)
        until = time.monotonic() + chance.uniform(0.05, 0.6)
        while stop % 4 == 0 and running.poll() is None and not place.state():
            time.sleep(0.002)
        while stop % 4 and running.poll() is None and time.monotonic() < until:
            time.sleep(0.002)
        met.add(place.state())
        # It may have ended before. A terminal sends Ctrl-C to all of its processes.
        with contextlib.suppress(ProcessLookupError):
            (os.killpg if sent == signal.SIGINT else os.kill)(running.pid, sent)
        status, said, text = ended(running)
        if status not in (128 + sent, 0) or (status == 0) != (" ok " in said):
            yield f"{sent.name}: status {status}, {said!r}, {text!r}"
        if place.state() or os.path.exists(place.file("a.db.delta")):
            yield f"{sent.name}: the database is locked: {text!r}"
        if os.path.exists(place.file("part")):
            if place.words("-R", "r.db", *["base.0", "part"][1 - level :])[-1:] != [f"1: ok pages {pages(place)}"]:
                yield f"{sent.name}: a part is left"
            if os.path.exists(place.file("r.db")):
                os.remove(place.file("r.db"))
            os.remove(place.file("part"))
            ended(start(place, "backup", "0", "a.db", "base.new"))
            os.replace(place.file("base.new"), place.file("base.0"))
    if not met >= {0, 1}:
        yield f"the states that were met are {met}"


def pages(place):
    return int(place.words("stat", "a.db")[0].split(" pages ")[1].split()[0])


def locked_before(place):
    """A lock of before stays, whether the backup is refused or stopped while it waits."""
    place.words("-L", "a.db")
    status, said, _ = ended(start(place, "backup", "0", "a.db", "b.0"))
    if status != 1 or said != "1: refused 6 WrongState 1\n" or place.state() != 1:
        yield f"a locked database: {status}, {said!r}"
    with locked(place):
        running = start(place, "backup", "0", "a.db", "b.0", NEHUMIRO_WAIT="30")
        time.sleep(0.5)
        os.kill(running.pid, signal.SIGTERM)
        status, _, _ = ended(running)
    if status != 143 or place.state() != 1 or os.path.exists(place.file("b.0")):
        yield f"stopped while it waits: {status}, state {place.state()}"
    place.words("-N", "a.db")


def watched(place, **settings):
    given = {"DATABASE": "a.db"} | settings
    status, said, sent = ended(start(place, "watch", **given))
    return status, dict(line.split(" ") for line in said.splitlines()), sent


def watch(place):
    """The lines in each state."""

    def aged(name, seconds):
        os.utime(place.file(name), (time.time() - seconds,) * 2)

    def see(what, found, status=0, **lines):
        seen = {name: int(value) for name, value in found[1].items()}
        near = {name: value for name, value in seen.items() if name in lines and lines[name] <= value <= lines[name] + (60 if name.endswith("seconds") and lines[name] else 0)}
        if found[0] != status or near != seen or set(seen) != set(lines) or bool(found[2]) != bool(status):
            yield f"{what}: {found}, and not {lines}"

    yield from see("unlocked", watched(place), locked_seconds=0, difference_bytes=0)
    os.mkdir(place.file("w"))
    place.words("-B", "0", "a.db", "w/b.0")
    place.words("-B", "1", "a.db", "w/b.1")
    aged("w/b.0", 500)
    aged("w/b.1", 90)
    with open(place.file("w/part.2"), "wb") as part:
        part.write(b"NBAK" + bytes(60))
    with open(place.file("w/part.0"), "wb") as part:
        part.write(bytes(4096))
    place.words("-R", "s.db", "w/b.0")
    place.do("1: open 's.db'", "1: access read_only")
    every = {"BACKUPS": "w", "STANDBY": "s.db"}
    yield from see("a standby of the last level 0", watched(place, **every), locked_seconds=0, difference_bytes=0, backup_seconds=90, standby_lag=3)
    place.words("-I", "-R", "s.db", "w/b.1")
    yield from see("a standby that was merged into", watched(place, **every), locked_seconds=0, difference_bytes=0, backup_seconds=90, standby_lag=1)
    place.words("-L", "a.db")
    place.do("1: open 'a.db'", "1: write 9 'x'")
    size = os.path.getsize(place.file("a.db.delta"))
    aged("a.db", 7200)
    yield from see("locked", watched(place), locked_seconds=7200, difference_bytes=size)
    os.rename(place.file("a.db.delta"), place.file("away"))
    yield from see("without the difference file", watched(place), 1, locked_seconds=7200)
    os.rename(place.file("away"), place.file("a.db.delta"))
    place.words("-N", "a.db")
    yield from see("no folder", watched(place, BACKUPS="none"), 1, locked_seconds=0, difference_bytes=0)
    yield from see("no standby", watched(place, STANDBY="none.db"), 1, locked_seconds=0, difference_bytes=0)
    yield from see("no database", watched(place, DATABASE="none.db", BACKUPS="w"), 1, backup_seconds=90)
    yield from see("no database, but another file", watched(place, DATABASE="w/part.2"), 1)
    running = start(place, "backup", "0", "a.db", "during", PROGRAM=place.slow)
    while running.poll() is None and not place.state():
        time.sleep(0.002)
    found = watched(place)
    os.kill(running.pid, signal.SIGTERM)
    ended(running)
    if found[0] or not 0 <= int(found[1]["locked_seconds"]) < 30 or int(found[1]["difference_bytes"]) == 0:
        yield f"while a backup runs: {found}"


CASES = [
    ("backup: whole, and refused", whole),
    ("backup: stopped by signals", stopped),
    ("backup: a lock of before", locked_before),
    ("watch: its lines", watch),
]


def main():
    in_memory()
    path = program()
    begun = time.monotonic()
    failed = 0
    for name, case in CASES:
        with Place(path, RAW) as place:
            wrong = list(case(place))
        failed += bool(wrong)
        print(f"  {name:30} {'; '.join(wrong) or 'is right'}", flush=True)
    report("scripts", failed == 0, f"{STOPS} backups that are stopped, and what watch says, in {time.monotonic() - begun:.0f} s: {failed} wrong")


if __name__ == "__main__":
    main()
