"""Two programs that make the same new file at once: what either acknowledges is there afterwards. `faults.py` judges by it.

In the first part a job is held up between the look at its target and the making of it, and another one makes a file under that name meanwhile. In the second
part pairs of drawn jobs work on the same few names.
"""

import os
import random
import re
import subprocess
import time

from common import Folder

PAIRS = 200
SEED = 1
DELAY = 2_000_000  # microseconds for which the first of two jobs is held up
STARTED = 0.7  # seconds after which it has come so far
PRECIOUS = "1: write 6 'precious'"
KEPT = "1: ok 'precious'"


class Place:
    """A folder with two databases, each with a chain of three files and two level files to fold, and a third one that is locked."""

    def __init__(self, folder, path):
        self.folder, self.path = folder, path
        for db, raw in (("x", 8), ("y", 20), ("z", 12)):
            self.script([f"1: create database '{db}.db' page_size 1024 raw {raw}"])
            for level in range(3):
                self.script([f"1: open '{db}.db'", f"1: write {5 + level} '{db} {level}'", f"1: backup {level} to '{db}.{level}'"])
        self.run(["-L", "z.db"])

    def words(self, words, wrap=()):
        return [*wrap, self.path, *words]

    def run(self, words):
        ran = subprocess.run(self.words(words), cwd=self.folder.path, capture_output=True, check=False)
        return ran.returncode, ran.stdout.decode().splitlines(), ran.stderr.decode()

    def script(self, lines, name="script"):
        self.folder.write_script(name, lines)
        return self.run(["run", name])

    def start(self, words, wrap=(), wait=0):
        environment = {**os.environ, "NEHUMIRO_WAIT": str(wait)}
        return subprocess.Popen(self.words(words, wrap), cwd=self.folder.path, stdout=subprocess.PIPE, stderr=subprocess.PIPE, env=environment)

    def read(self, name):
        with open(self.folder.file(name), "rb") as file:
            return file.read()

    def reads(self, name):
        """What page 6 of a database says."""
        return self.script([f"1: open '{name}'", "1: read 6"])[1][1:]


def ended(running):
    said, error = running.communicate()
    return running.returncode, said.decode().splitlines(), error.decode()


def held_up(name):
    """What holds a job up after the look at a name: the look at the difference file beside it comes next."""
    return ["strace", "-f", "-qq", "-o", "/dev/null", "-P", f"{name}.delta", "-e", "trace=statx", "-e", f"inject=statx:delay_exit={DELAY}:when=1"]


def restore(place):
    """Restores another database and writes to it. Each of these three answers a test of what was acknowledged, or nothing where it wasn't."""
    place.run(["-R", "c.db", "y.0"])
    return place.script(["1: open 'c.db'", PRECIOUS])[1][-1:] == ["1: ok"] and (lambda: place.reads("c.db") == [KEPT])


def same_bytes(place, words, name):
    status = place.run(words)[0]
    kept = place.read(name)
    return status == 0 and (lambda: place.read(name) == kept)


def create(place):
    said = place.script(["1: create database 'c.db' page_size 1024 raw 3", PRECIOUS])[1]
    return said[-1:] == ["1: ok"] and (lambda: place.reads("c.db") == [KEPT])


def meanwhile(path):
    """What is wrong where a job finds that its target was made since it looked for it. The other one's words make that target, and its test says whether that
    is still there as it was acknowledged."""
    with Folder() as folder:
        place = Place(folder, path)
        folder.write_script("copy", ["1: open 'z.db'", "1: copy to 'c'"])
        folder.write_script("create", ["1: create database 'c.db' page_size 1024 raw 8"])
        cases = [
            (["-R", "c.db", "x.0", "x.1"], "c.db", [], restore),
            (["fold", "c", "x.1", "x.2"], "c", [], lambda place: same_bytes(place, ["fold", "c", "y.1", "y.2"], "c")),
            (["run", "copy"], "c", ["1: ok pages 17 state 1"], lambda place: same_bytes(place, ["-B", "0", "x.db", "c"], "c")),
            (["run", "create"], "c.db", [], create),
            (["-B", "1", "x.db", "c"], "c", [], lambda place: same_bytes(place, ["-B", "0", "y.db", "c"], "c")),
        ]
        for words, name, said, other in cases:
            first = place.start(words, held_up(name))
            time.sleep(STARTED)
            is_there = other(place)
            ran = ended(first)
            if ran != (3, said, f"nehumiro: {name} came to be meanwhile\n"):
                yield f"{ran} of {words}, whose target another made meanwhile"
            if not is_there or not is_there():
                yield f"what another made while {words} was held up isn't there"
            os.remove(folder.file(name))
    yield from both_wait(path)


def both_wait(path):
    """What is wrong where two that wait for locks both saw a file that is free: one of them takes it, and the other finds it changed."""
    with Folder() as folder:
        place = Place(folder, path)
        with open(folder.file("c"), "wb") as file:
            file.write(bytes(64))
        first = place.start(["fold", "c", "x.1", "x.2"], held_up("c"), wait=9)
        time.sleep(STARTED)
        second = place.start(["fold", "c", "y.1", "y.2"], wait=9)
        runs = sorted([ended(first), ended(second)])
        lines = [ran[1] for ran in runs if ran[0] == 0]
        if [ran[0] for ran in runs] != [0, 3] or runs[1][1:] != ([], "nehumiro: c was changed meanwhile\n"):
            yield f"{runs} of two folds into one free file"
        elif guid_of(lines[0][0]) not in place.read("c"):
            yield "the fold that was acknowledged isn't there"


def guid_of(reply):
    return bytes.fromhex(re.search(r"guid ([0-9a-f-]+)", reply)[1].replace("-", ""))


def draw(random, place, target, number):
    """A job on the target: its kind and its words. A script that it needs is written."""
    db = random.choice("xy")
    script = {
        "copy": ["1: open 'z.db'", f"1: copy to '{target}'"],
        "create": [f"1: create database '{target}' page_size 1024 raw {random.randrange(30)}"],
        "write": [f"1: open '{target}'", f"1: write 5 'written by {number}'"],
    }
    kind = random.choice(["restore", "fold", "backup", "copy", "create", "write"])
    if kind in script:
        place.folder.write_script(f"script{number}", script[kind])
        return kind, ["run", f"script{number}"]
    levels = [f"{db}.{level}" for level in range(random.randrange(1, 4))]
    return kind, {
        "restore": ["-R", target, *levels],
        "fold": ["fold", target, f"{db}.1", f"{db}.2"],
        "backup": ["-B", str(random.randrange(3)), f"{db}.db", target],
    }[kind]


def is_whole(place, kind, words, reply, target):
    """Whether the file that a reply acknowledged is there and whole."""
    if kind in ("fold", "backup"):
        place.folder.write_script("list", [target])  # a plan reads it to its end
        return guid_of(reply) in place.read(target) and place.run(["plan", "1", "list"])[0] == 0
    if kind == "copy":
        return place.read(target) == place.read("z.db")
    if kind == "restore":
        place.run(["-R", "whole", *words[2:]])
        is_same = place.read("whole") == place.read(target)
        os.remove(place.folder.file("whole"))
        return is_same
    return place.run(["stat", target])[0] == 0 and len(place.read(target)) == 1024 * int(reply.split()[3])


def one_pair(random, place, target):
    """Two jobs at once, of which either may be held up. Answers what is wrong."""
    start = random.choice([None, None, b"", bytes(64)])
    if start is not None:
        with open(place.folder.file(target), "wb") as file:
            file.write(start)
    delay = random.choice([0, 0, random.randrange(30_000)])
    wrap = ["strace", "-f", "-qq", "-o", "/dev/null", "-e", "trace=statx", "-e", f"inject=statx:delay_exit={delay}"] if delay else []
    jobs = [draw(random, place, target, number) for number in range(2)]
    running = [place.start(words, wrap if not number else (), wait=random.choice([0, 0, 2])) for number, (_, words) in enumerate(jobs)]
    done = [(kind, words, ran[1]) for (kind, words), ran in zip(jobs, [ended(it) for it in running]) if ran[0] == 0]
    makers = [it for it in done if it[0] != "write"]
    writers = [it for it in done if it[0] == "write"]
    if len(makers) > 1:
        return f"both of {makers} were acknowledged"
    for kind, words, replies in makers:
        if not writers and not is_whole(place, kind, words, replies[-1], target):
            return f"{words} was acknowledged by {replies}, and isn't whole"
    for _, words, _ in writers:
        number = words[1].removeprefix("script")
        if not makers or place.script([f"1: open '{target}'", "1: read 5"], "read")[1][1:] != [f"1: ok 'written by {number}'"]:
            return f"the write of {words} was acknowledged, and isn't there"
    return None


def pairs(path):
    """What is wrong with pairs of drawn jobs on the same few names."""
    drawn = random.Random(SEED)
    with Folder() as folder:
        place = Place(folder, path)
        for _ in range(PAIRS):
            target = drawn.choice(["c", "d", "e"])
            wrong = one_pair(drawn, place, target)
            if wrong:
                yield wrong
            for name in (target, f"{target}.delta"):
                if os.path.exists(folder.file(name)):
                    os.remove(folder.file(name))
            for db in "xy":
                if place.run(["stat", f"{db}.db"])[1][0].split()[6] != "0":
                    place.run(["-N", f"{db}.db"])
