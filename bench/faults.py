"""What the system fails of ends the run with status 3, and one line on the standard error says the file, the call and the reason.

Each case makes one call of the system fail: the output by /dev/full, a write by a limit on the size of files, syncs by
strace, which answers them with an error and does not make them, the rest by what stands under a name. No reply comes after a
failed sync or write of its page. Then scripts that break their form end the run with status 1, and one line on the standard error
has the number and the text of the first line that does.

Then what others do with a database: a user who may not write it makes no difference file beside it, runs that only read it never fail each
other, and one that changes it waits for them as long as NEHUMIRO_WAIT says, and is refused at once where that says nothing.

Then a backup, and a merge into a standby, that is cut off at each of its syncs: behind the line of the failure the standard error says what stands
exactly where the database is locked or half merged, and what it says to do helps; so does it of a ship, which says how to go on wherever it is cut off. Two
merges into one standby at once don't harm each other; of two ships at once one waits or is refused, and while one works nobody has either database. And memory
that runs out is said, with what the cache of a script asks for.

Then two programs that make the same new file at once (`pairs.py`): what either acknowledges is there afterwards. And that an output which nobody reads any more
is said by the exit status alone, and that the progress of a restore never runs backwards.
"""

import fcntl
import os
import re
import resource
import shutil
import signal
import subprocess
import sys
import threading
import time

from common import CREATE, PAGE_SIZE, Folder, program, report, write_line, writes
from pairs import PAIRS, meanwhile, pairs

COUNT = 20
LOOKS = 50
NOBODY = ["setpriv", "--reuid=65534", "--regid=65534", "--clear-groups"]

# Scripts that break their form: the number of the first line that does, and what is shown of it.
BROKEN = [
    (b"# a comment\n1: open 'x.db'\n1: reed 5\n1: raed 6\n", 3, "1: reed 5"),
    (b"1: open 'x.db'\r\n1: read 5\r\n", 1, r"1: open 'x.db'\x0d"),
    (b"1: open 'x.db'\n1: write 5 '\x1b[2J\xff'\n", 2, r"1: write 5 '\x1b[2J\xff'"),
    (b"x" * 201 + b"\n", 1, "x" * 200 + "..."),
    (b"# a comment\n", 2, "there is no first statement"),
]


def run(folder, words, output=subprocess.PIPE, prepare=None):
    """The exit status, the replies and the standard error of a run."""
    ran = subprocess.run(words, cwd=folder.path, stdout=output, stderr=subprocess.PIPE, preexec_fn=prepare, check=False)
    return ran.returncode, (ran.stdout or b"").decode().splitlines(), ran.stderr.decode()


def small_files():
    """No file grows past 60 pages. The signal is ignored, so that the write fails and the process goes on."""
    signal.signal(signal.SIGXFSZ, signal.SIG_IGN)
    resource.setrlimit(resource.RLIMIT_FSIZE, (60 * PAGE_SIZE, 60 * PAGE_SIZE))


def script_is_a_folder(folder, path):
    os.mkdir(folder.file("script"))
    return run(folder, [path, "run", "script"]), 0, r"script: open: not a regular file"


def output_is_full(folder, path):
    folder.write_script("script", [CREATE])
    with open("/dev/full", "wb") as full:
        return run(folder, [path, "run", "script"], output=full), 0, r"standard output: No space left on device.*"


def write_finds_no_room(folder, path):
    folder.write_script("script", [CREATE])
    return run(folder, [path, "run", "script"], prepare=small_files), 0, r"x\.db: write: File too large.*"


def sync_fails(folder, path, call, when):
    """The call with that number is not made and answers EIO. Creating syncs twice, and each write once."""
    folder.write_script("script", [CREATE] + [write_line(*write) for write in writes(COUNT)])
    words = ["strace", "-f", "-qq", "-o", "/dev/null", "-e", f"trace={call}", "-e", f"inject={call}:error=EIO:when={when}"]
    replies = max(when - 2, 0) if call == "fdatasync" else 0
    return run(folder, words + [path, "run", "script"]), replies, r"x\.db: sync: Input/output error.*"


def in_use(process, command=None, name="x.db"):
    """What is said of a file that a process has, this one where no other is named. The system keeps 15 bytes of a program's name."""
    if command is None:
        with open("/proc/self/comm", encoding="ascii") as comm:
            command = comm.read().strip()
    return f"{name} is in use by process {process} ({command[:15]})"


def database_is_locked(folder, path):
    folder.write_script("create", [CREATE])
    run(folder, [path, "run", "create"])
    folder.write_script("script", ["1: open 'x.db'", "1: page new"])
    with open(folder.file("x.db"), "rb") as file:
        fcntl.flock(file, fcntl.LOCK_EX)
        return run(folder, [path, "run", "script"]), 0, re.escape(in_use(os.getpid()))


def two_runs(folder, path):
    """The first run waits for its output to be read, with the database open. The second changes nothing of it."""
    folder.write_script("script", [CREATE] + [write_line(*write) for write in writes(9_000)])
    folder.write_script("second", ["1: open 'x.db'", "1: page new"])
    first = folder.start([path, "run", "script"])
    first.stdout.readline()
    ran = run(folder, [path, "run", "second"])
    first.stdout.read()
    if first.wait() != 0:
        report("faults", False, "the first of two runs failed")
    return ran, 0, re.escape(in_use(first.pid, os.path.basename(path)))


def broken_scripts(path):
    """What is wrong with what is said of scripts that break their form."""
    with Folder() as folder:
        for script, line, shown in BROKEN:
            with open(folder.file("script"), "wb") as file:
                file.write(script)
            ran = run(folder, [path, "run", "script"])
            # A second line says why, which `rows.py` compares.
            if ran[:2] != (1, [f"0: refused 2 BadScript {line}"]) or not ran[2].startswith(f"nehumiro: script:{line}: {shown}\n"):
                yield f"{ran} for line {line}: {shown}"


def create(folder, path):
    folder.write_script("create", [CREATE])
    run(folder, [path, "run", "create"])


def without_rights(path):
    """What is wrong where a user who may read a database, and make files beside it, begins a backup of it."""
    with Folder() as folder:
        create(folder, path)
        shutil.copy(path, folder.file("nehumiro"))
        os.chmod(folder.path, 0o777)
        os.chmod(folder.file("nehumiro"), 0o755)
        os.chmod(folder.file("x.db"), 0o644)
        program = [folder.file("nehumiro")]
        if os.getuid() != 0 or run(folder, NOBODY + program)[0] != 2:
            print("faults: no other user can be tried here: that takes root, setpriv, and a folder that all may reach", flush=True)
            return
        ran = run(folder, NOBODY + program + ["-L", "x.db"])
        if ran != (3, [], "nehumiro: x.db: open: Permission denied (os error 13)\n"):
            yield f"{ran} of a user who may not write"
        if os.path.exists(folder.file("x.db.delta")):
            yield "a difference file of a user who may not write the database"
        for words, reply in ((["-L", "x.db"], "1: ok scn 2"), (["-N", "x.db"], "1: ok scn 3")):
            ran = run(folder, program + words)
            if ran != (0, [reply], ""):
                yield f"{ran} of the owner"


def with_lock(folder, kind, seconds, words, wait):
    """What a run says, and how many seconds it takes, while a lock is held that is given up behind so many."""
    with open(folder.file("x.db"), "rb") as file:
        fcntl.flock(file, kind)
        timer = threading.Timer(seconds, fcntl.flock, (file, fcntl.LOCK_UN))
        timer.start()
        began = time.monotonic()
        ran = subprocess.run(words, cwd=folder.path, capture_output=True, env={**os.environ, "NEHUMIRO_WAIT": str(wait)}, check=False)
        took = time.monotonic() - began
        timer.cancel()
    return (ran.returncode, ran.stderr.decode()), took


def locks(path):
    """What is wrong with locks that are waited for, and with those that aren't."""
    done, used = (0, ""), (3, f"nehumiro: {in_use(os.getpid())}\n")
    look, lock, end = [path, "stat", "x.db"], [path, "-L", "x.db"], [path, "-N", "x.db"]
    with Folder() as folder:
        create(folder, path)
        # The kind of the lock, when it is given up, what is run beside it and how long that waits: how it ends, and after how long at least.
        for kind, seconds, words, wait, wanted, least in [
            (fcntl.LOCK_SH, 9, look, 0, done, 0),
            (fcntl.LOCK_SH, 9, lock, 0, used, 0),
            (fcntl.LOCK_EX, 9, look, 0, used, 0),
            (fcntl.LOCK_EX, 9, look, 1, used, 0.9),
            (fcntl.LOCK_EX, 0.4, look, 8, done, 0.4),
            (fcntl.LOCK_SH, 0.4, lock, 8, done, 0.4),
            (fcntl.LOCK_SH, 0.4, end, 8, done, 0.4),
        ]:
            ran, took = with_lock(folder, kind, seconds, words, wait)
            if ran != wanted or not least <= took < 8:
                yield f"{ran} in {took:.1f} s beside a lock {kind} of {words[1]} that waits {wait} s"


# Statements that only read a database, and some that change it.
READS = ["read 5", "get t 1", "scan t", "show header", "show pages", "show image", "check"]
CHANGES = [
    *["page new", "write 5 'x'", "free 5", "create table u", "drop table t", "insert t 2 'x'", "update t 1 'x'", "delete t 1", "sync", "reclaim"],
    *["forced writes on", "access read_write", "alter database begin backup", "alter database end backup", "backup 0 to 'b'"],
]


def scripts_beside_readers(path):
    """What is wrong with scripts beside a program that reads their database: those that only read go on, and others don't begin."""
    with Folder() as folder:
        create(folder, path)
        folder.write_script("script", ["1: open 'x.db'", "1: create table t", "1: insert t 1 'x'"])
        run(folder, [path, "run", "script"])
        with open(folder.file("x.db"), "rb") as file:
            fcntl.flock(file, fcntl.LOCK_SH)
            for statement in READS + CHANGES:
                folder.write_script("script", ["1: open 'x.db'", f"2: {statement}"])
                status, replies, _ = run(folder, [path, "run", "script"])
                if (status, len(replies)) != ((0, 2) if statement in READS else (3, 0)):
                    yield f"{statement} beside a reader: status {status} and {replies}"


def looks_beside_backups(path):
    """What fails where a database is looked at again and again while it is backed up."""
    with Folder() as folder:
        create(folder, path)
        os.environ["NEHUMIRO_WAIT"] = "60"
        looks = []

        def look():
            for _ in range(LOOKS):
                looks.append(run(folder, [path, "stat", "x.db"]))

        lookers = [threading.Thread(target=look) for _ in range(2)]
        for looker in lookers:
            looker.start()
        backups = []
        while any(looker.is_alive() for looker in lookers):
            backups.append(run(folder, [path, "-B", "1" if backups else "0", "x.db", f"x.{len(backups)}"]))
        del os.environ["NEHUMIRO_WAIT"]
        for ran in looks + backups:
            if ran[0] != 0 or ran[2]:
                yield f"{ran} of {2 * LOOKS} looks and {len(backups)} backups side by side"
    with Folder() as folder:
        create(folder, path)
        for _ in range(LOOKS):
            pair = [subprocess.Popen([path, "stat", "x.db"], cwd=folder.path, stdout=subprocess.DEVNULL, stderr=subprocess.DEVNULL) for _ in range(2)]
            if any([looker.wait() for looker in pair]):
                yield "one of two looks side by side failed"


def standing(path):
    """What is said otherwise of a backup of level 1 at each of its syncs that fails, and behind it."""
    said_of = {
        1: r"x\.db is locked by this backup, and (b\.1 isn't whole: end it with: nehumiro -N x\.db|"
        r"its history may lack b\.1: end it with: nehumiro -N x\.db, and make it again under another name)",
        2: r"b\.1 is whole, and x\.db isn't merged yet: end that with: nehumiro -N x\.db",
    }
    states = set()
    with Folder() as folder:
        create(folder, path)
        run(folder, [path, "-B", "0", "x.db", "b.0"])
        for when in range(1, 100):
            words = ["strace", "-f", "-qq", "-o", "/dev/null", "-e", "trace=fdatasync", "-e", f"inject=fdatasync:error=EIO:when={when}"]
            status, _, said = run(folder, words + [path, "-B", "1", "x.db", "b.1"])
            if status == 0:
                break
            with open(folder.file("x.db"), "rb") as file:
                state = file.read(24)[22]
            states.add(state)
            line = f"nehumiro: {said_of[state]}\n" if state else ""
            if not re.fullmatch(rf"nehumiro: [a-z0-9.]+: sync: Input/output error \(os error 5\)\n{line}", said):
                yield f"{said!r} in the state {state}, behind the sync {when}"
            if state and run(folder, [path, "-N", "x.db"])[0] != 0:
                yield f"the backup isn't ended behind the sync {when}"
            if os.path.exists(folder.file("b.1")):
                os.remove(folder.file("b.1"))
        if status or states != {0, 1, 2}:
            yield f"a backup ends with {status}, and was cut off in the states {states}"
        yield from of_others(folder, path)


def merges(path):
    """What is said otherwise of a merge into a standby at each of its syncs that fails, and behind it; and beside others who have its files."""
    half = "nehumiro: y.db is half merged: give the same words again, with the same file\n"
    words, states = [path, "-I", "-R", "y.db", "x.1"], set()
    with Folder() as folder:
        create(folder, path)
        run(folder, [path, "-B", "0", "x.db", "x.0"])
        run(folder, [path, "-R", "y.db", "x.0"])
        folder.write_script("script", ["1: open 'y.db'", "1: access read_only"])
        run(folder, [path, "run", "script"])
        folder.write_script("script", ["1: open 'x.db'", write_line(5, "new")])
        run(folder, [path, "run", "script"])
        run(folder, [path, "-B", "1", "x.db", "x.1"])
        shutil.copy(folder.file("y.db"), folder.file("kept"))
        # Which file another has, and how it is locked.
        for name, kind in [("y.db", fcntl.LOCK_SH), ("y.db", fcntl.LOCK_EX), ("x.1", fcntl.LOCK_EX)]:
            with open(folder.file(name), "rb") as file:
                fcntl.flock(file, kind)
                ran = run(folder, words)
            if ran != (3, [], f"nehumiro: {in_use(os.getpid(), name=name)}\n"):
                yield f"{ran} of a merge while another has {name}"
        for when in range(1, 100):
            shutil.copy(folder.file("kept"), folder.file("y.db"))
            inject = ["strace", "-f", "-qq", "-o", "/dev/null", "-e", "trace=fdatasync", "-e", f"inject=fdatasync:error=EIO:when={when}"]
            status, _, said = run(folder, inject + words)
            if status == 0:
                break
            with open(folder.file("y.db"), "rb") as file:
                state = file.read(24)[22]
            states.add(state)
            if said != f"nehumiro: y.db: sync: Input/output error (os error 5)\n{half if state else ''}":
                yield f"{said!r} of a merge in the state {state}, behind the sync {when}"
            ran = run(folder, words)
            if ran[0] != 0 and not (state == 0 and ran[2] == "nehumiro: x.1 is merged into y.db already: nothing is to be done\n"):
                yield f"{ran} of the same merge again, behind the sync {when}"
        if status or states != {0, 3}:
            yield f"a merge ends with {status}, and was cut off in the states {states}"
        # While the level file is read by others the merge goes on.
        shutil.copy(folder.file("kept"), folder.file("y.db"))
        with open(folder.file("x.1"), "rb") as file:
            fcntl.flock(file, fcntl.LOCK_SH)
            ran = run(folder, words)
        if ran[0] != 0:
            yield f"{ran} of a merge while another reads the level file"
    yield from two_merges(path)


def two_merges(path):
    """What is wrong where two programs merge into one standby at once: one does, or the other behind it, and none harms the other."""
    with Folder() as folder:
        create(folder, path)
        run(folder, [path, "-B", "0", "x.db", "x.0"])
        run(folder, [path, "-R", "y.db", "x.0"])
        folder.write_script("script", ["1: open 'y.db'", "1: access read_only"])
        run(folder, [path, "run", "script"])
        folder.write_script("script", ["1: open 'x.db'"] + [write_line(*write) for write in writes(COUNT)])
        run(folder, [path, "run", "script"])
        run(folder, [path, "-B", "1", "x.db", "x.1"])
        run(folder, [path, "-R", "whole.db", "x.0", "x.1"])
        shutil.copy(folder.file("y.db"), folder.file("kept"))
        with open(folder.file("whole.db"), "rb") as file:
            whole = bytearray(file.read())
        whole[65] = 1
        for _ in range(LOOKS):
            shutil.copy(folder.file("kept"), folder.file("y.db"))
            pair = [subprocess.Popen([path, "-I", "-R", "y.db", "x.1"], cwd=folder.path, stdout=subprocess.DEVNULL, stderr=subprocess.DEVNULL) for _ in range(2)]
            ended = sorted(merge.wait() for merge in pair)
            with open(folder.file("y.db"), "rb") as file:
                is_whole = file.read() == whole
            if ended not in ([0, 1], [0, 3]) or not is_whole:
                yield f"two merges at once ended with {ended}"


def pair_to_ship(folder, path):
    """A database, x.db, a standby of it, y.db, and a page that was written since; copies of both, x.kept and y.kept."""
    create(folder, path)
    run(folder, [path, "-B", "0", "x.db", "x.0"])
    run(folder, [path, "-R", "y.db", "x.0"])
    folder.write_script("script", ["1: open 'y.db'", "1: access read_only"])
    run(folder, [path, "run", "script"])
    folder.write_script("script", ["1: open 'x.db'", write_line(5, "new")])
    run(folder, [path, "run", "script"])
    for name in "xy":
        shutil.copy(folder.file(f"{name}.db"), folder.file(f"{name}.kept"))


def to_ship_again(folder):
    """Both as they were, with no other file beside them."""
    for name in "xy":
        shutil.copy(folder.file(f"{name}.kept"), folder.file(f"{name}.db"))
    for name in ("x.db.delta", "y.db.ship"):
        if os.path.exists(folder.file(name)):
            os.remove(folder.file(name))


def state_of(folder, name):
    with open(folder.file(name), "rb") as file:
        return file.read(24)[22]


def ships(path):
    """What is said otherwise of a ship at each of its syncs that fails, and after it; and beside others who have its databases."""
    said_of = {
        (1, 0): r"x\.db is locked by this ship: end that with: nehumiro -N x\.db, and give the same words again",
        (2, 0): r"x\.db isn't merged yet: end that with: nehumiro -N x\.db, and give the same words again",
        (0, 3): r"y\.db is half merged: give the same words again, with y\.db\.ship as it is",
        (0, 0): r"y\.db is as it was, or merged: give the same words again",
    }
    words, states = [path, "ship", "x.db", "y.db"], set()
    with Folder() as folder:
        pair_to_ship(folder, path)
        for name in ("x.db", "y.db"):
            for kind in (fcntl.LOCK_SH, fcntl.LOCK_EX):
                with open(folder.file(name), "rb") as file:
                    fcntl.flock(file, kind)
                    ran = run(folder, words)
                if ran != (3, [], f"nehumiro: {in_use(os.getpid(), name=name)}\n") or os.path.exists(folder.file("y.db.ship")):
                    yield f"{ran} of a ship while another has {name}"
        for when in range(1, 200):
            to_ship_again(folder)
            inject = ["strace", "-f", "-qq", "-o", "/dev/null", "-e", "trace=fdatasync", "-e", f"inject=fdatasync:error=EIO:when={when}"]
            status, _, said = run(folder, inject + words)
            if status == 0:
                break
            state = state_of(folder, "x.db"), state_of(folder, "y.db")
            states.add(state)
            # Before the standby is opened nothing of it is this run's.
            line = f"nehumiro: {said_of.get(state)}\n" if when > 1 else ""
            if status != 3 or not re.fullmatch(rf"nehumiro: [a-z.]+: sync: Input/output error \(os error 5\)\n{line}", said):
                yield f"{said!r} of a ship in the states {state}, after the sync {when}"
            if state[0] and run(folder, [path, "-N", "x.db"])[0] != 0:
                yield f"the backup isn't ended after the sync {when}"
            ran = run(folder, words)
            if ran[0] != 0 or ran[2] or os.path.exists(folder.file("y.db.ship")):
                yield f"{ran} of the same ship again, after the sync {when}"
        if status or states != set(said_of):
            yield f"a ship ends with {status}, and was cut off in the states {states}"
    yield from two_ships(path)


def two_ships(path):
    """What is wrong where two programs ship at once: one ends, and the other is refused or waits; and while one copies nobody looks at either database."""
    words = [path, "ship", "x.db", "y.db"]
    with Folder() as folder:
        pair_to_ship(folder, path)
        for wait, wanted in [("0", ([0, 3], [0, 0])), ("60", ([0, 0],))]:
            for _ in range(LOOKS // 2):
                to_ship_again(folder)
                options = {"cwd": folder.path, "stdout": subprocess.DEVNULL, "stderr": subprocess.PIPE, "env": {**os.environ, "NEHUMIRO_WAIT": wait}}
                pair = [subprocess.Popen(words, **options) for _ in range(2)]
                said = "".join(ship.communicate()[1].decode() for ship in pair)
                ended = sorted(ship.returncode for ship in pair)
                in_order = re.fullmatch(r"(nehumiro: x\.db is in use by process \d+ \(.*\)\n)?", said)
                if ended not in wanted or bool(said) != (3 in ended) or not in_order or os.path.exists(folder.file("y.db.ship")):
                    yield f"two ships at once that wait {wait} s ended with {ended}, and said {said!r}"
        to_ship_again(folder)
        slow = ["strace", "-D", "-f", "-qq", "-o", "/dev/null", "-e", "trace=fdatasync", "-e", "inject=fdatasync:delay_enter=300000"]
        running = subprocess.Popen(slow + words, cwd=folder.path, stdout=subprocess.DEVNULL, stderr=subprocess.DEVNULL)
        while running.poll() is None and not os.path.exists(folder.file("y.db.ship")):
            time.sleep(0.001)
        for name in ("x.db", "y.db"):
            ran = run(folder, [path, "stat", name])
            if ran[0] != 3 or not ran[2].startswith(f"nehumiro: {name} is in use by process "):
                yield f"{ran} of {name} while a ship copies"
        if running.wait() != 0:
            yield "a ship that others looked at failed"


def of_others(folder, path):
    """What is said otherwise where another program has the database, which it locks and doesn't unlock in the time that is waited."""
    with open(folder.file("x.db"), "r+b") as file:
        fcntl.flock(file, fcntl.LOCK_EX)
        running = subprocess.Popen([path, "-B", "1", "x.db", "b.1"], cwd=folder.path, stderr=subprocess.PIPE, env={**os.environ, "NEHUMIRO_WAIT": "1"})
        time.sleep(0.3)
        file.seek(22)
        file.write(b"\1")
        file.flush()
        said = running.communicate()[1].decode()
    if said != f"nehumiro: {in_use(os.getpid())}\n":
        yield f"{said!r} where another program has the database"


def little_memory():
    """The process gets 40 MB."""
    resource.setrlimit(resource.RLIMIT_AS, (40_000_000, 40_000_000))


def shortages(path):
    """What is said otherwise where memory runs out."""
    with Folder() as folder:
        create(folder, path)
        for first, asked in [("1: open 'x.db' cache 4096", None), ("1: create database 'y.db' page_size 32768 raw 8 cache 4096", "32768 bytes alone asks for 128")]:
            folder.write_script("script", [first])
            ran = run(folder, [path, "run", "script"], prepare=little_memory)
            line = f"nehumiro: memory ran out; the script's cache of 4096 pages of {asked} MiB\n"
            if asked and ran != (4, [], line) or not asked and ran[0] != 0:
                yield f"{ran} where the first statement is {first}"


def unread(path):
    """What is said where nobody reads the output any more, as after `head`."""
    with Folder() as folder:
        create(folder, path)
        reader, writer = os.pipe()
        os.close(reader)
        with os.fdopen(writer, "wb") as output:
            ran = run(folder, [path, "stat", "x.db"], output=output)
        if ran != (3, [], ""):
            yield f"{ran} where nobody reads the output"


def backwards(path):
    """What is wrong with the progress of a restore whose level has a page at the start of the database, with each write held up."""
    with Folder() as folder:
        folder.write_script("script", ["1: create database 'x.db' page_size 32768 raw 100"])
        run(folder, [path, "run", "script"])
        run(folder, [path, "-B", "0", "x.db", "x.0"])
        folder.write_script("script", ["1: open 'x.db'", write_line(5, "new")])
        run(folder, [path, "run", "script"])
        run(folder, [path, "-B", "1", "x.db", "x.1"])
        os.environ["NEHUMIRO_PROGRESS"] = "1"
        wrap = ["strace", "-f", "-qq", "-o", "/dev/null", "-e", "trace=pwrite64", "-e", "inject=pwrite64:delay_enter=600000"]
        status, _, said = run(folder, wrap + [path, "-R", "y.db", "x.0", "x.1"])
        del os.environ["NEHUMIRO_PROGRESS"]
        shown = [int(mib) for mib in re.findall(r"^nehumiro: y\.db: (\d+) MiB$", said, re.M)]
        if status or len(shown) != len(said.splitlines()) or shown != sorted(shown) or shown[-1:] != [3]:
            yield f"{said!r} is shown of a restore of 3 MiB"


def main():
    path = program()
    if not shutil.which("strace"):
        sys.exit("strace is not installed: apt-get install strace")
    cases = [script_is_a_folder, output_is_full, write_finds_no_room, database_is_locked, two_runs]
    cases += [lambda folder, path, when=when: sync_fails(folder, path, "fdatasync", when) for when in range(1, COUNT + 3)]
    cases += [lambda folder, path: sync_fails(folder, path, "fsync", 1)]
    wrong = []
    for case in cases:
        with Folder() as folder:
            (status, replies, said), wanted, line = case(folder, path)
            if status != 3 or len(replies) != wanted or not re.fullmatch(f"nehumiro: {line}\n", said):
                wrong.append(f"status {status}, {len(replies)} replies for {wanted}, {said!r} for {line!r}")
    failed = len(wrong)
    wrong += broken_scripts(path)
    broken = len(wrong) - failed
    shared = [*without_rights(path), *locks(path), *scripts_beside_readers(path), *looks_beside_backups(path)]
    stands = [*standing(path), *merges(path), *ships(path), *shortages(path)]
    lost = [*meanwhile(path), *pairs(path)]
    shown = [*unread(path), *backwards(path)]
    report(
        "faults",
        not wrong + shared + stands + lost + shown,
        f"{len(cases) - failed} of {len(cases)} failures end the run and are said, {len(BROKEN) - broken} of {len(BROKEN)} broken scripts are shown, "
        f"{len(shared)} times one run failed another that it mustn't, or didn't, {len(stands)} times what stands was said otherwise, {len(lost)} times one of two jobs with one new name harmed the other, of {PAIRS} drawn pairs among them, "
        f"and {len(shown)} times something was shown otherwise"
        f"{''.join(' ' + text for text in (wrong + shared + stands + lost + shown)[:3])}",
    )


if __name__ == "__main__":
    main()
