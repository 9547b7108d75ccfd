"""Sessions on real files, with every line that they must say, how they end, and what their files then have.

Sessions such as these are played on a host in memory by `nb_trials`. GUIDs are drawn anew on real files: the k-th that is said stands for `Gk`,
here as there. Each session begins in a folder of its own, or goes on from the files of the one that it names. Then files that something else has
changed, and what the standard error says of words that name no job and of jobs that are refused.
"""

import hashlib
import os
import re
import shutil
import subprocess

from common import Folder, program, report

GUID = re.compile(r"[0-9a-f]{8}(?:-[0-9a-f]{4}){3}-[0-9a-f]{12}")
DIGEST = re.compile(r"\b[0-9a-f]{64}\b")
NIL = "00000000-0000-0000-0000-000000000000"
CREATE = "1: create database 'a.db' page_size 1024 raw 8"
OPEN = "1: open 'a.db'"
BEGIN = "1: alter database begin backup"
END = "1: alter database end backup"
LETTERS = "x" * 200


def script(*lines):
    return list(lines)


def words(text):
    return text.split()


class Case:
    """Steps one after another, each a script (a list that begins with `1: ..`) or words, with the lines that it says and its exit status; or what
    something else does to the files."""

    def __init__(self, name, steps, after=None, check=None):
        self.name, self.steps, self.after, self.check = name, steps, after, check


def part(folder, name, at, size):
    with open(folder.file(name), "rb") as file:
        file.seek(at)
        return file.read(size)


def whole(folder, name):
    with open(folder.file(name), "rb") as file:
        return file.read()


def is_missing(folder, *names):
    return not any(os.path.exists(folder.file(name)) for name in names)


def first_page(folder):
    """Page 6 with its text, and a whole file."""
    page = bytes.fromhex("08000000020000000100000006000000") + b"\x05\0hello"
    return len(whole(folder, "a.db")) == 13312 and part(folder, "a.db", 6144, 1024) == page.ljust(1024, b"\0")


def is_diverted(folder):
    """The table, and behind it page 2 and page 6."""
    table = bytes.fromhex("020000000200000006000000").ljust(1024, b"\0")
    file = whole(folder, "a.db.delta")
    return len(file) == 3072 and file[:1024] == table and file[1024 + 12] == 2 and file[2048 + 12] == 6


def is_level_0(folder):
    """Whole pages in state 1 with SCN 2, and a database without a difference file."""
    file = whole(folder, "a.0")
    return len(file) == 13312 and file[22] == 1 and is_missing(folder, "a.db.delta")


def is_level_1(folder):
    """A head, four runs of one page each, and the end mark with the number of pages."""
    file = whole(folder, "a.1")
    return len(file) == 52 + 4 * 1032 + 8 and file[:8] == bytes.fromhex("4e42414b66000100") and file[-8:] == bytes.fromhex("ffffffff04000000")


def is_restored(folder):
    """The chain's database is in the normal state: byte 22 is 0, and the level 0 that it came from has 1 there."""
    return part(folder, "b.db", 22, 1) == b"\0" and len(whole(folder, "b.db")) == 13312


def is_merged(folder):
    """The standby is what the chain gives, but for its access, byte 65, and the difference file beside it is as it was."""
    standby, restored = whole(folder, "b.db"), whole(folder, "whole.db")
    return [at for at, pair in enumerate(zip(standby, restored)) if pair[0] != pair[1]] == [65] and standby[65] == 1 and whole(folder, "b.db.delta") == b"beside"


def is_folded(folder):
    """The pages 0, 2, 4, 6 and 7 in four runs; and a restore with the one file gives what a restore with both gave."""
    file = whole(folder, "f.1")
    return len(file) == 5212 and file[-8:] == bytes.fromhex("ffffffff05000000") and whole(folder, "d.db") == whole(folder, "e.db")


def copied(name, to):
    return lambda folder: shutil.copy(folder.file(name), folder.file(to))


def linked(name, to):
    return lambda folder: os.link(folder.file(name), folder.file(to))


def removed(name):
    return lambda folder: os.remove(folder.file(name))


def cut(name, size):
    def change(folder):
        with open(folder.file(name), "r+b") as file:
            file.truncate(size)

    return change


def write_at(name, at, data):
    def change(folder):
        with open(folder.file(name), "r+b") as file:
            file.seek(at)
            file.write(data)

    return change


def left(name, content):
    """A file that something else leaves."""

    def change(folder):
        with open(folder.file(name), "wb") as file:
            file.write(content)

    return change


def both(*changes):
    def change(folder):
        for each in changes:
            each(folder)

    return change


def no_c(folder):
    return is_missing(folder, "c.db")


def second_table(folder):
    return len(whole(folder, "a.db.delta")) == 264192


def is_day(folder):
    """Level 0 has 2003 pages; each further level the pages 0, 2, 4, 1016 and 2000, each a run by itself."""
    runs = [pages_in_level(folder, name) for name in ("day.1", "day.2")]
    return len(whole(folder, "day.0")) == 2003 * 4096 and runs == [[0, 2, 4, 1016, 2000]] * 2


def is_generated(folder):
    """Two scripts are in their files, of which the second was refused its database, and three backups."""
    seven, eight = [whole(folder, name).split(b"\n") for name in ("g.s", "h.s")]
    written = (seven[1], seven[3], eight[1]) == (b"seed 7", b"3: read 97", b"seed 8")
    return written and all(whole(folder, f"gen.{level}") for level in range(3))


def pages_in_level(folder, name):
    """The first pages of the five runs of a level file that has five runs of one page of 4096 bytes each, and nothing where it has others."""
    level = whole(folder, name)
    heads = [level[at : at + 8] for at in range(52, len(level) - 8, 4104)]
    if len(level) != 52 + 5 * 4104 + 8 or any(head[4:] != b"\1\0\0\0" for head in heads):
        return None
    return [int.from_bytes(head[:4], "little") for head in heads]


HEADER = "1: ok size 1024 pages 13 state 1 scn 2 guid G1 forced 1 access 0 delta 2"

CASES = [
    Case("create, write, read", [(script(CREATE, "1: write 6 'hello'", "1: read 6"), "1: ok pages 13|1: ok|1: ok 'hello'", 0)], check=first_page),
    Case("a page past the end", [(script(OPEN, "1: read 13"), "1: ok pages 13 state 0|1: refused 9 PageRange 13 13", 1)], "create, write, read"),
    Case(
        "refusals of pages",
        [
            (
                script(OPEN, "1: write 2 'x'", "1: free 7", "1: write 7 'x'", f"1: write 6 '{LETTERS}'", f"1: write 6 '{LETTERS}x'"),
                "1: ok pages 13 state 0|1: refused 11 SystemPage 2|1: ok|1: refused 10 NotAllocated 7|1: ok|1: refused 21 TextLong 201",
                1,
            )
        ],
        "create, write, read",
    ),
    Case(
        "a write while stalled",
        [(script(OPEN, BEGIN, "1: write 6 'new'", "1: read 6", "1: show header"), f"1: ok pages 13 state 0|1: ok scn 2|1: ok|1: ok 'new'|{HEADER}", 0)],
        "create, write, read",
        is_diverted,
    ),
    Case(
        "opened again and ended",
        [
            (script(OPEN, "1: read 6", "1: show header"), f"1: ok pages 13 state 1|1: ok 'new'|{HEADER}", 0),
            (words("-N a.db"), "1: ok scn 3", 0),
            (script(OPEN, "1: read 6"), "1: ok pages 13 state 0|1: ok 'new'", 0),
        ],
        "a write while stalled",
        lambda folder: is_missing(folder, "a.db.delta"),
    ),
    Case(
        "states in order",
        [(script(CREATE, END, BEGIN, BEGIN, END), "1: ok pages 13|1: refused 6 WrongState 0|1: ok scn 2|1: refused 6 WrongState 1|1: ok scn 3", 1)],
    ),
    Case(
        "pages that wait",
        [
            (script(OPEN, "1: forced writes off", "1: write 6 'a'", "1: write 6 'b'", "1: write 7 'c'"), "1: ok pages 13 state 0|1: ok|1: ok|1: ok|1: ok", 0),
            (script(OPEN, "1: read 6", "1: read 7"), "1: ok pages 13 state 0|1: ok 'b'|1: ok 'c'", 0),
            (script(OPEN, "1: write 6 'd'", "1: write 13 'x'"), "1: ok pages 13 state 0|1: ok|1: refused 9 PageRange 13 13", 1),
            (script(OPEN, "1: read 6"), "1: ok pages 13 state 0|1: ok 'd'", 0),
        ],
        "create, write, read",
    ),
    Case("level 0", [(words("-B 0 a.db a.0"), "1: ok level 0 scn 1 pages 13 guid G1", 0)], "create, write, read", is_level_0),
    Case(
        "level 1",
        [
            (script(OPEN, "1: write 6 'new'"), "1: ok pages 13 state 0|1: ok", 0),
            (words("-B 1 a.db a.1"), "1: ok level 1 scn 3 pages 4 guid G2", 0),
        ],
        "level 0",
        is_level_1,
    ),
    Case(
        "a chain restored",
        [
            (script(OPEN, "1: write 6 'later'"), "1: ok pages 13 state 0|1: ok", 0),
            (words("-R b.db a.0 a.1"), "1: ok pages 13", 0),
            (script("1: open 'b.db'", "1: read 6", "1: show header"), "1: ok pages 13 state 0|1: ok 'new'|1: ok size 1024 pages 13 state 0 scn 4 guid G2 forced 1 access 0 delta 0", 0),
            (script(OPEN, "1: read 6"), "1: ok pages 13 state 0|1: ok 'later'", 0),
        ],
        "level 1",
        is_restored,
    ),
    Case(
        "chains refused",
        [
            (words("-B 2 a.db a.2"), "1: ok level 2 scn 5 pages 4 guid G3", 0),
            (script("1: create database 'z.db' page_size 1024 raw 8", "1: backup 0 to 'z.0'"), "1: ok pages 13|1: ok level 0 scn 1 pages 13 guid G4", 0),
            (words("-R c.db a.1"), "1: refused 16 ChainLevel a.1 1 0", 1),
            (words("-R c.db a.0 a.2"), "1: refused 16 ChainLevel a.2 2 1", 1),
            (words("-R c.db z.0 a.1"), "1: refused 17 ChainGuid a.1 G1 G4", 1),
            (words("-R c.db a.0 a.0"), "1: refused 16 ChainLevel a.0 0 1", 1),
            (words("-R a.db a.0"), "1: refused 4 FileExists a.db", 1),
            (words("-R c.db no.0"), "1: refused 3 NoFile no.0", 1),
        ],
        "a chain restored",
        no_c,
    ),
    Case(
        "plans of backup files",
        [
            left("l", b"a.0\na.1\na.2\nz.0\n"),
            left("m", b"a.1\na.2\n"),
            left("twice", b"a.0\na.1\n\na.0\n"),
            left("dos", b"a.0\r\n"),
            left("gone", b"a.0\nno.1\n"),
            (words("plan 1 l"), "1: ok keep 3 drop 1 orphan 0 z.0", 0),
            (words("plan 3 l"), "1: ok keep 4 drop 0 orphan 0", 0),
            (words("plan 0 l"), "1: ok keep 0 drop 4 orphan 0 a.0 a.1 a.2 z.0", 0),
            (words("plan 1 m"), "1: ok keep 0 drop 0 orphan 2 a.1 a.2", 0),
            (words("plan 1 twice"), "0: refused 2 BadScript 4", 1),
            (words("plan 1 dos"), "0: refused 2 BadScript 1", 1),
            (words("plan 1 gone"), "1: refused 3 NoFile no.1", 1),
            (words("plan 1 none"), "0: refused 3 NoFile none", 1),
            (words("plan 01 l"), "0: refused 1 Usage", 2),
        ],
        "chains refused",
    ),
    Case(
        "levels folded into one",
        [
            (script(OPEN, "1: write 7 'x'"), "1: ok pages 13 state 0|1: ok", 0),
            (words("-B 2 a.db g.2"), "1: ok level 2 scn 5 pages 4 guid G3", 0),
            (words("fold f.1 a.1 g.2"), "1: ok level 1 scn 5 pages 5 guid G3", 0),
            (words("-R d.db a.0 f.1"), "1: ok pages 13", 0),
            (words("-R e.db a.0 a.1 g.2"), "1: ok pages 13", 0),
            (script("1: open 'd.db'", "1: read 6", "1: read 7"), "1: ok pages 13 state 0|1: ok 'new'|1: ok 'x'", 0),
        ],
        "level 1",
        is_folded,
    ),
    Case(
        "folds refused",
        [
            (words("fold k.1 g.2 a.1"), "1: refused 16 ChainLevel a.1 1 3", 1),
            (words("fold k.1 a.0 a.1"), "1: refused 15 BadLevel a.0 0", 1),
            (words("fold f.1 a.1 g.2"), "1: refused 4 FileExists f.1", 1),
            (words("fold k.1 a.1"), "0: refused 1 Usage", 2),
        ],
        "levels folded into one",
        lambda folder: is_missing(folder, "k.1"),
    ),
    Case(
        "a fold merged into a standby",
        [
            (words("-R s.db a.0"), "1: ok pages 13", 0),
            (script("1: open 's.db'", "1: access read_only"), "1: ok pages 13 state 0|1: ok", 0),
            (words("-I -R s.db g.2"), "1: refused 17 ChainGuid g.2 G2 G1", 1),
            (words("-I -R s.db f.1"), "1: ok pages 13", 0),
            (script("1: open 's.db'", "1: read 6", "1: read 7"), "1: ok pages 13 state 0|1: ok 'new'|1: ok 'x'", 0),
        ],
        "levels folded into one",
    ),
    Case(
        "a standby",
        [
            (words("-B 1 a.db a.x"), "1: ok level 1 scn 5 pages 4 guid G3", 0),
            (words("-R b.db a.0"), "1: ok pages 13", 0),
            (words("-I -R b.db a.1"), "1: refused 20 Access 0", 1),
            (script("1: open 'b.db'", "1: access read_only"), "1: ok pages 13 state 0|1: ok", 0),
            copied("b.db", "before.db"),
        ],
        "level 1",
    ),
    Case(
        "a level merged into a standby",
        [
            left("b.db.delta", b"beside"),
            (words("-I -R b.db a.1"), "1: ok pages 13", 0),
            (words("-I -R b.db a.1"), "1: refused 17 ChainGuid a.1 G1 G2", 1),
            (words("-I -R b.db a.x"), "1: refused 17 ChainGuid a.x G1 G2", 1),
            (words("-R whole.db a.0 a.1"), "1: ok pages 13", 0),
            (script("1: open 'b.db'", "1: read 6", "1: write 6 'x'"), "1: ok pages 13 state 0|1: ok 'new'|1: refused 20 Access 1", 1),
        ],
        "a standby",
        is_merged,
    ),
    Case(
        "shipped to a standby",
        [
            (words("ship a.db b.db"), "1: ok scn 7 pages 14", 0),
            (script("1: open 'b.db'", "1: read 6"), "1: ok pages 14 state 0|1: ok 'new'", 0),
            (words("ship a.db b.db"), "1: ok scn 9 pages 14", 0),
            (words("-L a.db"), "1: ok scn 12", 0),
            (words("ship a.db b.db"), "1: refused 6 WrongState 1", 1),
            (words("-N a.db"), "1: ok scn 13", 0),
            (words("ship a.db b.db"), "1: ok scn 13 pages 14", 0),
            (words("ship a.db a.db"), "1: refused 20 Access 0", 1),
        ],
        "a standby",
        lambda folder: is_missing(folder, "b.db.ship"),
    ),
    Case(
        "a standby that was written",
        [
            (script("1: open 'b.db'", "1: access read_write", "1: write 7 'mine'", "1: access read_only"), "1: ok pages 13 state 0|1: ok|1: ok|1: ok", 0),
            (words("-I -R b.db a.1"), "1: refused 19 ChainScn a.1 2 1", 1),
        ],
        "a standby",
    ),
    Case(
        "since a GUID",
        [
            (words("-B G1 a.db a.y"), "1: ok level 1 scn 5 pages 4 guid G3", 0),
            (words("-B G2 a.db a.w"), "1: ok level 2 scn 7 pages 5 guid G4", 0),
            (words(f"-B {NIL} a.db a.v"), f"1: refused 30 NoGuid {NIL}", 1),
            (words("-R b.db a.0 a.1 a.w"), "1: ok pages 14", 0),
        ],
        "level 1",
        lambda folder: is_missing(folder, "a.v"),
    ),
    Case(
        "a second allocation page",
        [
            (
                script("1: create database 'a.db' page_size 1024 raw 254", BEGIN, *[f"1: write {page} 'p{page}'" for page in range(5, 260) if page != 248], "1: show header"),
                "1: ok pages 260|1: ok scn 2|" + "1: ok|" * 254 + "1: ok size 1024 pages 260 state 1 scn 2 guid G1 forced 1 access 0 delta 256",
                0,
            ),
            (
                script(OPEN, *[f"1: read {page}" for page in range(5, 260) if page != 248]),
                "1: ok pages 260 state 1|" + "|".join(f"1: ok 'p{page}'" for page in range(5, 260) if page != 248),
                0,
            ),
        ],
        check=second_table,
    ),
    Case(
        "a merge with a second session",
        [
            (
                script(
                    CREATE, "schedule 1 1 1 1 1 1 1 1 1 2", BEGIN, "1: write 5 'x'", "1: write 6 'x'", "1: write 7 'x'", "1: write 8 'x'", END, "2: write 6 'y'"
                ),
                "1: ok pages 13|1: ok scn 2|1: ok|1: ok|1: ok|1: ok|2: ok|1: ok scn 3",
                0,
            ),
            (script(OPEN, "1: read 6", "1: read 8"), "1: ok pages 13 state 0|1: ok 'y'|1: ok 'x'", 0),
        ],
    ),
    Case(
        "lock, copy, fixup",
        [
            (words("-L -S a.db"), "1: ok scn 2 pages 13", 0),
            (script(OPEN, "1: copy to 'k.db'", "1: write 6 'later'"), "1: ok pages 13 state 1|1: ok pages 13|1: ok", 0),
            (words("-F a.db"), "1: refused 28 DeltaPresent a.db.delta", 1),
            (words("-F k.db"), "1: ok", 0),
            (script("1: open 'k.db'", "1: read 6"), "1: ok pages 13 state 0|1: ok 'hello'", 0),
            (words("-F k.db"), "1: refused 6 WrongState 0", 1),
        ],
        "create, write, read",
    ),
    Case(
        "system pages on growth",
        [
            (script("1: create database 'a.db' page_size 1024 raw 242", "1: page new", "1: page new"), "1: ok pages 247|1: ok page 247|1: ok page 249", 0),
            (script("1: create database 'b.db' page_size 1024 raw 7899", "1: page new"), "1: ok pages 7935|1: ok page 7937", 0),
        ],
    ),
    Case(
        "refusals of words and scripts",
        [
            (words(""), "0: refused 1 Usage", 2),
            (words("run no"), "0: refused 3 NoFile no", 1),
            (script("1: open 'nope.db'"), "1: refused 3 NoFile nope.db", 1),
            (script(CREATE, "1: write 6 'hello'", "1: read 6"), "1: refused 4 FileExists a.db", 1),
        ],
        "create, write, read",
    ),
    Case(
        "refusals of backups",
        [
            (words("-B 1 a.db f"), "1: refused 14 NoHistory 0", 1),
            (
                script(OPEN, "schedule 1 2", "1: backup 0 to 'f'", "2: alter database end backup"),
                "1: ok pages 13 state 0|2: refused 27 BackupRunning 1|1: ok level 0 scn 1 pages 13 guid G1",
                1,
            ),
        ],
        "create, write, read",
    ),
    Case(
        "statistics",
        [
            (
                words("stat a.db"),
                f"1: ok size 1024 pages 13 state 0 scn 1 guid {NIL} forced 1 access 0 delta 0|1: ok header 1 inventory 1 scn 1 data 2 raw 8 other 0 free 0",
                0,
            )
        ],
        "create, write, read",
    ),
    Case(
        "rows under a backup",
        [
            (
                script(
                    "1: create database 's.db' page_size 1024 raw 2", "schedule 2 2 1 2 3 2", "1: backup 0 to 's.0'", "2: create table t", "2: insert t 1 'a'",
                    "2: insert t 2 'b'", "2: scan t", "3: scan t",
                ),
                "1: ok pages 7|2: ok|2: ok|2: ok|3: ok rows 2 1 'a' 2 'b'|2: ok rows 2 1 'a' 2 'b'|1: ok level 0 scn 1 pages 8 guid G1",
                0,
            ),
            (words("-R r.db s.0"), "1: ok pages 8", 0),
            (script("1: open 'r.db'", "1: scan t"), "1: ok pages 8 state 0|1: ok rows 1 1 'a'", 0),
            (words("-B 1 s.db s.1"), "1: ok level 1 scn 3 pages 4 guid G2", 0),
            (words("-R q.db s.0 s.1"), "1: ok pages 8", 0),
            (script("1: open 'q.db'", "1: scan t"), "1: ok pages 8 state 0|1: ok rows 2 1 'a' 2 'b'", 0),
        ],
    ),
    Case(
        "a day",
        [
            (
                script(
                    "1: create database 'day.db' page_size 4096 raw 1994", "1: create table a", "1: create table b", "1: create table c", "1: insert a 1 'one'",
                    "1: backup 0 to 'day.0'", "1: insert a 2 'two'", "1: backup 1 to 'day.1'", "1: update a 1 'uno'", "1: backup 2 to 'day.2'", "1: delete a 2", "1: scan a",
                ),
                "1: ok pages 2000|1: ok|1: ok|1: ok|1: ok|1: ok level 0 scn 1 pages 2003 guid G1|1: ok|1: ok level 1 scn 3 pages 5 guid G2|1: ok"
                "|1: ok level 2 scn 5 pages 5 guid G3|1: ok|1: ok rows 1 1 'uno'",
                0,
            ),
            (words("-R back.db day.0 day.1 day.2"), "1: ok pages 2003", 0),
            (script("1: open 'back.db'", "1: scan a"), "1: ok pages 2003 state 0|1: ok rows 2 1 'uno' 2 'two'", 0),
        ],
        check=is_day,
    ),
    Case(
        "a table's second page",
        [
            (
                script("1: create database 'a.db' page_size 1024 raw 0", "1: create table t", "1: insert t 1 'a'", "1: insert t 2 'b'", "1: insert t 3 'c'"),
                "1: ok pages 5|1: ok|1: ok|1: ok|1: ok",
                0,
            ),
            (script(OPEN, "1: get t 4", "1: insert t 4 'd'", "1: get t 4"), "1: ok pages 6 state 0|1: refused 25 NoKey 4|1: ok|1: ok 'd'", 1),
            (
                script(OPEN, "1: get t 4", "1: get t 1", "1: scan t"),
                "1: ok pages 7 state 0|1: ok 'd'|1: ok 'a'|1: ok rows 4 1 'a' 2 'b' 3 'c' 4 'd'",
                0,
            ),
        ],
    ),
    Case(
        "refusals of tables",
        [
            (
                script(
                    OPEN, "1: scan t", "1: create table t", "1: create table t", "1: insert t 18446744073709551615 ''", "1: insert t 18446744073709551615 ''",
                    "1: update t 5 'x'", "1: scan t", *[f"1: create table t{number}" for number in range(1, 13)], "1: drop table t", "1: scan t",
                ),
                "1: ok pages 13 state 0|1: refused 22 NoTable|1: ok|1: refused 23 TableExists|1: ok|1: refused 24 KeyExists 18446744073709551615"
                "|1: refused 25 NoKey 5|1: ok rows 1 18446744073709551615 ''|" + "1: ok|" * 11 + "1: refused 26 TooManyTables|1: ok|1: refused 22 NoTable",
                1,
            )
        ],
        "create, write, read",
    ),
    Case(
        "a copy by hand is in no history",
        [
            (words("-L a.db"), "1: ok scn 2", 0),
            copied("a.db", "h.0"),
            (words("-N a.db"), "1: ok scn 3", 0),
            (words("-B 1 a.db a.1"), "1: refused 14 NoHistory 0", 1),
            (words("-R c.db h.0"), "1: ok pages 13", 0),
        ],
        "create, write, read",
    ),
    Case(
        "a restored database lacks its last backup",
        [
            (words("-B 1 b.db b.1"), "1: ok level 1 scn 4 pages 4 guid G3", 0),
            (words("-B 2 a.db a.2"), "1: ok level 2 scn 5 pages 4 guid G4", 0),
            (words("-R c.db a.0 a.1 a.2"), "1: ok pages 13", 0),
            (words("-B 3 c.db c.3"), "1: refused 14 NoHistory 2", 1),
            (words("-B G4 c.db c.3"), "1: refused 30 NoGuid G4", 1),
            copied("a.0", "f.db"),
            (words("-F f.db"), "1: ok", 0),
            (words("-B 1 f.db f.1"), "1: refused 14 NoHistory 0", 1),
        ],
        "a chain restored",
    ),
    Case(
        "a name that begins with 64 zeros is free",
        [
            left("z", bytes(64) + b"something"),
            (words("-B 0 a.db z"), "1: ok level 0 scn 1 pages 13 guid G1", 0),
            left("y", bytes(63) + b"something"),
            (words("-B 0 a.db y"), "1: refused 4 FileExists y", 1),
        ],
        "create, write, read",
        lambda folder: len(whole(folder, "z")) == 13312,
    ),
    Case(
        "a fixup by another name loses what was written since",
        [
            linked("a.db", "h.db"),
            (words("-F h.db"), "1: ok", 0),
            (script(OPEN, "1: read 6"), "1: ok pages 13 state 0|1: ok 'hello'", 0),
        ],
        "a write while stalled",
    ),
    Case(
        "a difference file is lost",
        [
            removed("a.db.delta"),
            (words("-N a.db"), "1: refused 3 NoFile a.db.delta", 1),
            copied("a.db", "f.db"),
            (words("-F f.db"), "1: ok", 0),
            (script("1: open 'f.db'", "1: read 6"), "1: ok pages 13 state 0|1: ok 'hello'", 0),
        ],
        "a write while stalled",
    ),
    Case(
        "flags of the header under a backup",
        [
            (script(OPEN, BEGIN, "1: access read_only", "1: forced writes off"), "1: ok pages 13 state 0|1: ok scn 2|1: refused 6 WrongState 1|1: ok", 1),
            (words("-N a.db"), "1: ok scn 3", 0),
            (script(OPEN, "1: access read_only", BEGIN), "1: ok pages 13 state 0|1: ok|1: refused 20 Access 1", 1),
        ],
        "create, write, read",
    ),
    Case(
        "the digest of what is frozen is that of the backup file",
        [
            (
                script(OPEN, "schedule 1 2 2", "1: backup 0 to 'a.0'", "2: show header", "2: show image"),
                "1: ok pages 13 state 0|2: ok size 1024 pages 13 state 1 scn 2 guid G1 forced 1 access 0 delta 0|2: ok pages 13 sha256 H|1: ok level 0 scn 1 pages 13 guid G1",
                0,
            ),
        ],
        "create, write, read",
        lambda folder: hashlib.sha256(whole(folder, "a.0")).hexdigest() == folder.digest,
    ),
    Case(
        "a generated script",
        [
            (words("gen 7 g.s"), "1: ok header 1 inventory 1 scn 1 data 24 raw 100 other 0 free 0", 0),
            (words("gen 7 g.s"), "1: refused 4 FileExists g.s", 1),
            (words("gen 8 h.s"), "1: refused 4 FileExists gen.db", 1),
        ],
        check=is_generated,
    ),
    Case(
        "past level 9",
        [
            *[
                (words(f"-B {level} a.db {level}"), f"1: ok level {level} scn {2 * level + 1} pages {pages} guid G{level + 1}", 0)
                for level, pages in enumerate((13, 3, 3, 5, 3, 3, 5, 3, 3, 5))
            ],
            (words("-B G10 a.db a"), "1: ok level 9 scn 21 pages 3 guid G11", 0),
            (words("-R c.db 0 1 2 3 4 5 6 7 8 a"), "1: refused 17 ChainGuid a G10 G9", 1),
            (words("fold f.8 8 9"), "1: ok level 8 scn 19 pages 5 guid G10", 0),
            (words("-R c.db 0 1 2 3 4 5 6 7 f.8 a"), "1: ok pages 16", 0),
        ],
        "create, write, read",
    ),
    Case(
        "a database of two inventory pages",
        [
            (script("1: create database 'k.db' page_size 1024 raw 7962"), "1: ok pages 8000", 0),
            (words("-B 0 k.db k.0"), "1: ok level 0 scn 1 pages 8000 guid G1", 0),
        ],
    ),
    Case(
        "leaked pages are given back",
        [
            write_at("a.db", 5 * 1024 + 16, bytes(4)),
            (words("check a.db"), "1: ok leaked 1 6", 0),
            (script(OPEN, BEGIN, "1: check"), "1: ok pages 7 state 0|1: ok scn 2|1: ok leaked 1 6", 0),
            (words("reclaim a.db"), "1: ok freed 1", 0),
            (words("check a.db"), "1: ok leaked 0", 0),
            (words("-N a.db"), "1: ok scn 3", 0),
            (script(OPEN, "1: check", "1: insert t 4 'd'", "1: scan t"), "1: ok pages 7 state 0|1: ok leaked 0|1: ok|1: ok rows 4 1 'a' 2 'b' 3 'c' 4 'd'", 0),
        ],
        "a table's second page",
    ),
]


def half_merged(name):
    """The state 3, and a GUID that is pending."""

    def change(folder):
        write_at(name, 22, b"\3")(folder)
        write_at(name, 48, b"\1")(folder)

    return change


# Files that something else has changed, each from the files of a session: the change, the words or script, and what they say. The last ones show what
# isn't seen: that a level 0 has all its pages, and a byte of a page.
HOSTILE = [
    ("level 1", cut("a.1", 4187), words("-R c.db a.0 a.1"), "1: refused 15 BadLevel a.1 4187"),
    ("level 1", cut("a.1", 4180), words("-R c.db a.0 a.1"), "1: refused 15 BadLevel a.1 4180"),
    ("level 1", write_at("a.1", 4188, b"x"), words("-R c.db a.0 a.1"), "1: refused 15 BadLevel a.1 4188"),
    ("level 1", write_at("a.1", 0, b"M"), words("-R c.db a.0 a.1"), "1: refused 15 BadLevel a.1 0"),
    ("create, write, read", cut("a.db", 1000), script(OPEN), "1: refused 5 NotDatabase 0"),
    ("create, write, read", write_at("a.db", 13312, b"x"), script(OPEN), "1: refused 5 NotDatabase 13"),
    ("a write while stalled", write_at("a.db.delta", 0, b"\0\1"), script(OPEN), "1: refused 7 BadDelta 0"),
    ("a write while stalled", write_at("a.db.delta", 8, b"\2"), script(OPEN), "1: refused 7 BadDelta 0"),
    ("a table's second page", write_at("a.db", 5 * 1024 + 16, b"\5"), script(OPEN, "1: scan t"), "1: ok pages 7 state 0|1: refused 5 NotDatabase 5"),
    # A page that a row needed wasn't kept, while the one that leads to it was, as a crash may leave it where forced writes are off.
    ("a table's second page", write_at("a.db", 6 * 1024, b"\x08"), script(OPEN, "1: get t 1"), "1: ok pages 7 state 0|1: refused 5 NotDatabase 6"),
    ("create, write, read", write_at("a.db", 2 * 1024 + 56, bytes(4)), words("check a.db"), "1: refused 31 Unsound 5 6"),
    ("create, write, read", write_at("a.db", 1024 + 33, b"\xc0"), words("check a.db"), "1: refused 31 Unsound 3 13"),
    ("a write while stalled", cut("a.db.delta", 2048), script(OPEN), "1: refused 7 BadDelta 2"),
    ("a write while stalled", removed("a.db.delta"), script(OPEN), "1: refused 3 NoFile a.db.delta"),
    ("level 1", cut("a.0", 10240), words("-R c.db a.0 a.1"), "1: ok pages 10"),
    ("level 1", write_at("a.0", 7 * 1024 + 20, b"x"), words("-R c.db a.0 a.1"), "1: ok pages 13"),
    ("level 1", write_at("a.1", 700, b"x"), words("-R c.db a.0 a.1"), "1: ok pages 13"),
]

TIME = r"\d{4}-\d\d-\d\d \d\d:\d\d:\d\d UTC"
LONG = "a" * 101
LEVEL_0 = (
    f"is locked and a.0.delta isn't there, so it looks like a backup of level 0: restore it: nehumiro -R NEW a.0, or make a copy of it a database: nehumiro -F COPY; "
    f"if it is the locked database itself, all that was written to it since {TIME} is in a.0.delta alone: put that back first"
)

# What the standard error says first where words name no job.
USAGE = [
    ([], "no words say what to do"),
    (["restore", "a.db"], '"restore" is no job'),
    (["-B", "0", "a.db"], "there are too few words for: nehumiro -B LEVEL DB FILE"),
    (["-B", "0", "a.db", "x", "y"], "there are too many words for: nehumiro -B LEVEL DB FILE"),
    (["-B", "10", "a.db", "x"], '"10" is no level: levels are 0 to 9'),
    (["-B", "x", "a.db", "x"], '"x" is neither a level, 0 to 9, nor a GUID, 32 hexadecimal digits in groups of 8, 4, 4, 4 and 12'),
    (["-B", "0", "my db", "x"], '"my db" is no name of a database: no name has a space'),
    (["-B", "0", "a.db", "x\ty"], '"x\\ty" is no name of a file: no name has the character \'\\t\''),
    (["-B", "0", "a.db", "x.delta"], '"x.delta" is no name of a file: names that end in .delta are those of difference files'),
    (["-L", LONG[:95]], f'"{LONG[:60]}".. is no name of a database: it has 95 bytes, and 94 at most are allowed'),
    (["run", LONG], f'"{LONG[:60]}".. is no name of a file: it has 101 bytes, and 100 at most are allowed'),
    (["-L", ""], "the name of a database is empty"),
    (["-L", "-L", "a.db"], "-L is given twice"),
    (["-Z", "a.db"], '"-Z" is no flag; a name that begins with - stands behind a word --'),
    (["--help"], '"--help" is no flag; a name that begins with - stands behind a word --'),
    (["-S", "a.db"], "-S names no job by itself"),
    (["-B", "-R", "x", "y"], "-B -R name no job together"),
    (["-R", "a", *"bcdefghijkl"], "a chain has 10 files at most"),
    (["-I", "-R", "b.db"], "there are too few words for: nehumiro -I -R DB FILE"),
    (["-I", "-R", "b.db", "a.1", "a.2"], "there are too many words for: nehumiro -I -R DB FILE"),
    (["-I", "-R", "b.db", "a.delta"], '"a.delta" is no name of a file: names that end in .delta are those of difference files'),
    (["-I", "b.db", "a.1"], "-I names no job by itself"),
    (["ship", "a.db"], "there are too few words for: nehumiro ship DB STANDBY"),
    (["ship", "a.db", "b.db", "c.db"], "there are too many words for: nehumiro ship DB STANDBY"),
    (["ship", "a.db", LONG[:95]], f'"{LONG[:60]}".. is no name of a database: it has 95 bytes, and 94 at most are allowed'),
    (["check"], "there are too few words for: nehumiro check DB"),
    (["reclaim", "a.db", "b.db"], "there are too many words for: nehumiro reclaim DB"),
    (["activate"], "there are too few words for: nehumiro activate DB"),
    (["activate", "a.db.delta"], '"a.db.delta" is no name of a database: names that end in .delta are those of difference files'),
    (["check", "a.db.delta"], '"a.db.delta" is no name of a database: names that end in .delta are those of difference files'),
    (["gen", "007", "s"], '"007" is no number of 0 to 18446744073709551615'),
    ([b"stat", b"\xff"], "a word is no text"),
]

# What it says of a job that is refused, each from the files of a session: what is changed before, the words, and the line.
UNSOUND = "back a.db up no more, and restore a chain from before that: nehumiro -R NEW FILE.."
LOCKED = rf"a.db is locked since {TIME}, by -L or by a backup that was stopped \(by Ctrl-C, a signal or a power cut\): end that with: nehumiro -N a.db"
UNMERGED = "a.db isn't merged yet after its last backup, whose end was stopped: end that with: nehumiro -N a.db"
LOST = f"with all that was written to a.db since {TIME}: put it back; where it is lost, a copy of a.db becomes the database as it was then, by: nehumiro -F COPY"
ADVICE = [
    ("a write while stalled", None, "-B 0 a.db f", LOCKED),
    ("a write while stalled", None, "-L a.db", LOCKED),
    ("create, write, read", None, "-N a.db", "a.db isn't locked: there is no backup to end"),
    ("a write while stalled", write_at("a.db", 22, b"\2"), "-B 0 a.db f", UNMERGED),
    ("level 1", write_at("a.db", 65, b"\1"), "-L a.db", "a.db is read-only, and a backup writes to it: a script with the line '1: access read_write' lifts that"),
    ("level 1", None, "-B 0 a.db a.1", "a.1 is there already: choose another name, or move it away"),
    ("level 1", cut("a.1", 4000), "-B 1 a.db a.1", "a.1 is there already, and isn't whole: a backup or a fold that was stopped left it, and it may be removed"),
    ("level 1", left("f.delta", b""), "-B 1 a.db f", "f is no free name, since f.delta stands beside it: move that away where nothing needs it, or choose another name"),
    ("create, write, read", None, "-B 2 a.db f", r"the history of a.db has no backup to go on from \(a copy made by hand is none\): first make: nehumiro -B 0 a.db FILE"),
    ("level 1", None, "-B 4 a.db f", "the history of a.db has backups of the levels 0 and 1, and none of level 3 to go on from: first make: nehumiro -B 2 a.db FILE"),
    ("level 0", None, f"-B {NIL} a.db f", r"the history of a.db has backups of the level 0, and none with this GUID \(a restore loses the last one\): give a level, as: nehumiro -B 0 a.db FILE"),
    ("level 1", None, "-B 0 no.db f", "there is no file no.db: a name counts from the folder in which the program is started"),
    ("level 1", None, "stat a.1", "a.1 is no database, since it doesn't begin with the header of one"),
    ("level 1", write_at("a.db", 13312, b"x"), "-L a.db", "page 13 of a.db is damaged: restore a chain: nehumiro -R NEW FILE.."),
    ("level 1", write_at("a.db", 22, b"\3"), "-L a.db", "a.db isn't whole, since its restore or its creation was stopped: give the same words again"),
    ("a write while stalled", removed("a.db.delta"), "-N a.db", f"a.db.delta is gone, {LOST}"),
    ("a write while stalled", cut("a.db.delta", 2048), "-N a.db", f"a.db.delta is damaged at its page 2, {LOST}"),
    ("chains refused", None, "-R a.db a.0", "a.db is there already: choose another name, or move it away"),
    ("chains refused", None, "-R c.db no.0", "there is no file no.0: a name counts from the folder in which the program is started"),
    ("chains refused", None, "-R c.db a.0 a.2", "a.2 is of level 2, and one of level 1 has to stand in its place: give a file of each level, that of level 0 first"),
    ("chains refused", None, "-R c.db z.0 a.1", "a.1 doesn't go on from z.0, which is the backup G4, but from the backup G1: give the file of that one before it"),
    ("chains refused", write_at("a.1", 48, b"\2"), "-R c.db a.0 a.1", "a.1 goes on from SCN 2 and a.0 has 1, though their GUIDs agree: one of them was changed"),
    ("level 1", cut("a.1", 4180), "-R c.db a.0 a.1", "a.1 isn't whole, as a stopped backup or copy leaves it: take another copy of it, or a chain without it"),
    ("level 1", write_at("a.1", 4188, b"x"), "-R c.db a.0 a.1", "a.1 is damaged at its byte 4188: take another copy of it, or a chain without it"),
    ("level 1", left("f", b"something"), "-R c.db f", "f is no backup file: give those that -B made, or a copy of a locked database"),
    ("level 1", None, "-R c.db a.db", "a.db is no backup: it is a database, or was copied while none was locked"),
    ("lock, copy, fixup", None, "-F a.db", "a.db.delta stands beside a.db, so it is the locked database itself and no copy: end its backup with: nehumiro -N a.db"),
    ("lock, copy, fixup", None, "-F k.db", "k.db is a database of its own already: nothing is to be done"),
    ("a write while stalled", write_at("a.db", 22, b"\2"), "-F a.db", "a.db is the database itself, not merged yet behind its last backup: end that with: nehumiro -N a.db"),
    ("a standby", None, "-I -R b.db no.1", "there is no file no.1: a name counts from the folder in which the program is started"),
    ("a standby", cut("b.db", 13000), "-I -R b.db a.1", r"b.db is no whole database \(page 12\): make the standby anew by a restore"),
    ("a standby", None, "-I -R a.0 a.1", "a.0 is locked, or is a copy of a locked database, and no standby: restore one from the copy: nehumiro -R STANDBY a.0"),
    ("a standby", write_at("b.db", 22, b"\2"), "-I -R b.db a.1", "b.db isn't merged yet behind a backup, and is no standby: make one by a restore"),
    ("a standby", None, "-I -R b.db a.0", "a.0 is no level file: only levels of 1 to 9 are merged, those that -B made"),
    ("a standby", cut("a.1", 4180), "-I -R b.db a.1", "a.1 isn't whole, as a stopped backup or copy leaves it: take another copy of it, or a chain without it"),
    ("a standby", write_at("b.db", 22, b"\3"), "-I -R b.db a.1", "b.db isn't whole, since its restore or its creation was stopped: give the same words again"),
    ("a standby", half_merged("b.db"), "-I -R b.db a.1", f"the level file of the GUID 01{NIL[2:]} is half merged into b.db: finish that first: nehumiro -I -R b.db FILE; where it is lost, restore a chain to another name"),
    ("a standby", half_merged("b.db"), "stat b.db", f"the level file of the GUID 01{NIL[2:]} is half merged into b.db: finish that first: nehumiro -I -R b.db FILE; where it is lost, restore a chain to another name"),
    ("a level merged into a standby", None, "-I -R b.db a.1", "a.1 is merged into b.db already: nothing is to be done"),
    ("a level merged into a standby", None, "-I -R b.db a.x", "a.x goes on from the backup G1, and b.db is of the backup G2: make a level since that one: nehumiro -B G2 PRIMARY FILE"),
    ("a standby", write_at("b.db", 28, b"\3"), "-I -R b.db a.1", "a.1 goes on from SCN 1 and b.db has 2, though their GUIDs agree: one of them was changed; make the standby anew by a restore"),
    ("a standby that was written", None, "-I -R b.db a.1", "b.db was written since its backup of the SCN 1, as a stamp of 2 shows: it is no standby any more; make it anew by a restore, and keep it read-only"),
    ("level 1", None, "-I -R a.db a.1", "a.1 is merged into a.db already: nothing is to be done"),
    ("a standby", write_at("b.db", 65, b"\0"), "-I -R b.db a.1", "b.db can be written, and no standby may be: a script with the line '1: access read_only' sees to that"),
    ("a standby", None, "ship no.db b.db", "there is no file no.db: a name counts from the folder in which the program is started"),
    ("a standby", None, "ship a.db no.db", "there is no standby no.db: make one from a backup of a.db, by a restore and a script with the line '1: access read_only'"),
    ("a standby", write_at("a.db", 22, b"\2"), "ship a.db b.db", "a.db.delta is gone, and a.db isn't whole without it: put it back; where it is lost, restore a chain: nehumiro -R NEW FILE.."),
    ("a write while stalled", None, "ship a.db b.db", f"{LOCKED}, and give the same words again"),
    ("a standby", write_at("b.db", 22, b"\1"), "ship a.db b.db", "b.db is locked, or is a copy of a locked database, and no standby: restore one from the copy: nehumiro -R STANDBY b.db"),
    ("a standby", half_merged("b.db"), "ship a.db b.db", f"the level file of the GUID 01{NIL[2:]} is half merged into b.db: finish that first: nehumiro -I -R b.db FILE; where it is lost, restore a chain to another name"),
    ("a standby", write_at("a.db", 22, b"\3"), "ship a.db b.db", "a.db isn't whole, since its restore or its creation was stopped: give the same words again"),
    ("a standby", write_at("b.db", 0, b"x" * 64), "ship a.db b.db", r"b.db is no whole database \(page 0\): make the standby anew by a restore"),
    ("a standby", cut("b.db", 13000), "ship a.db b.db", "page 12 of a.db or of b.db isn't what it has to be: nehumiro check a.db says whether it is that one's; else make the standby anew by a restore"),
    ("a standby", write_at("b.db", 65, b"\0"), "ship a.db b.db", "b.db can be written, and no standby may be: a script with the line '1: access read_only' sees to that"),
    ("a standby", write_at("a.db", 65, b"\1"), "ship a.db b.db", "a.db is read-only, and a backup writes to it: a script with the line '1: access read_write' lifts that"),
    ("a standby", None, "ship b.db b.db", "b.db is named twice: a ship goes from one database to another"),
    ("a standby", copied("a.0", "b.db.ship"), "ship a.db b.db", "b.db.ship is a database, and a ship makes and removes a file of that name: move it away, and give the same words again"),
    ("a standby", left("b.db.ship.delta", b"x"), "ship a.db b.db", "b.db.ship.delta stands beside b.db.ship, the file that a ship makes and removes: move it away where nothing needs it, and give the same words again"),
    ("a level merged into a standby", copied("a.x", "b.db.ship"), "ship a.db b.db", "b.db.ship goes on from the backup G1, and b.db is of the backup G2: it is another standby's; move it away, and give the same words again"),
    ("a standby", write_at("b.db", 32, b"\7" * 16), "ship a.db b.db", r"the history of a.db hasn't the backup 07070707-0707-0707-0707-070707070707, which b.db is of \(a restore loses the last one\): make the standby anew: nehumiro -B 0 a.db FILE, and restore that"),
    ("a standby that was written", None, "ship a.db b.db", "b.db was written since its backup of the SCN 1, as a stamp of 2 shows: it is no standby any more; make it anew by a restore, and keep it read-only"),
    ("level 1", None, "check no.db", "there is no file no.db: a name counts from the folder in which the program is started"),
    ("create, write, read", write_at("a.db", 11 * 1024, bytes(1024)), "check a.db", f"page 11 of a.db is all zeros: {UNSOUND}"),
    ("create, write, read", write_at("a.db", 1024, b"\5"), "check a.db", f"page 1 of a.db isn't the inventory page that its place has to hold: {UNSOUND}"),
    ("create, write, read", write_at("a.db", 1057, b"\xc0"), "reclaim a.db", f"page 13 of a.db is marked as taken, and the database ends before it: {UNSOUND}"),
    ("create, write, read", write_at("a.db", 6152, b"\2"), "check a.db", f"page 6 of a.db has a newer stamp than the database itself: {UNSOUND}"),
    ("create, write, read", write_at("a.db", 2104, b"\0"), "check a.db", f"page 6 of a.db has an SCN entry that doesn't agree with it, so a backup may leave its change out: {UNSOUND}"),
    ("create, write, read", write_at("a.db", 8, b"\0"), "reclaim a.db", f"page 0 of a.db hasn't the current SCN as its stamp: {UNSOUND}"),
    ("create, write, read", write_at("a.db", 3 * 1024 + 20, b"\5"), "check a.db", "page 3 of a.db is damaged: restore a chain: nehumiro -R NEW FILE.."),
    ("create, write, read", write_at("a.db", 65, b"\1"), "reclaim a.db", "a.db is read-only, and giving pages back writes to it: a script with the line '1: access read_write' lifts that"),
    ("a generated script", None, "gen 8 i.s", "gen.db is there already: choose another name, or move it away"),
    ("level 1", None, "stat a.0", f"a.0 {LEVEL_0}"),
    ("level 1", None, "check a.0", f"a.0 {LEVEL_0}"),
    ("level 1", None, "-N a.0", f"a.0.delta is gone, {LOST.replace('a.db', 'a.0')}"),
    ("level 1", write_at("a.0", 0, bytes(1024)), "-R c.db a.0 a.1", "a.0 isn't whole, as a stopped backup of level 0 leaves it, with zeros at its start: take another copy of it, or another backup, and remove it"),
    ("levels folded into one", cut("f.1", 4000), "fold f.1 a.1 g.2", "f.1 is there already, and isn't whole: a backup or a fold that was stopped left it, and it may be removed"),
    ("past level 9", None, "fold f.9 9 a", "9 is of level 9, and no level follows 9: fold it with the file of level 8 that it goes on from, and no further; a restore takes a after that fold"),
    ("past level 9", None, "fold f.9 9 1", "9 is of level 9, and no level follows 9: give consecutive levels, the lowest first"),
    ("level 1", left("s", b"#" * 1048577), "run s", "s is too long: a script has 10,000 statements and 1,048,576 bytes at most"),
]

# What it says of a job that is done, as in ADVICE.
SHORT = "it has 10 pages, and its inventory counts 13"
REMEDY = "compare its length with the pages that its backup's reply gave, take another copy of it, and remove no older backup until then"
NINE = (
    r"no restore takes b as it is, since it goes on from a backup of level 9, and a chain has one file of each level: fold the files of levels 8 and 9 before it into one, "
    r"which stands in their place \(nehumiro fold NEW FILE FILE\), or begin anew with level 0; a standby takes it \(nehumiro -I -R STANDBY b\)"
)
EMPTIED = f"a.db.delta has no byte, and the begin of a backup had written a page of it, so what was written to a.db since {TIME} may be gone: look for the right a.db.delta before anything else, and don't end the backup before that"
OUTPUT = "and not on the standard output, to which none is ever written: give that file another name, and send it on from there"
TOLD = [
    ("level 1", None, "-B 1 a.db f", []),
    ("level 1", None, "-R c.db a.0 a.1", []),
    ("level 1", cut("a.0", 10240), "-R c.db a.0", [f"a.0 lacks its end: {SHORT}, and c.db may lack what is missing: {REMEDY}"]),
    ("level 1", cut("a.0", 10240), "-R c.db a.0 a.1", [f"a.0 lacks its end: {SHORT}, and c.db may lack what is missing: {REMEDY}"]),
    ("level 1", cut("a.0", 10240), "-F a.0", [f"a.0 lacks its end: {SHORT}: {REMEDY}"]),
    ("level 1", both(cut("a.0", 10240), left("l", b"a.0\n# b\na.1\n")), "plan 1 l", [f"a.0 lacks its end: {SHORT}: {REMEDY}"]),
    ("a database of two inventory pages", left("l", b"k.0\n"), "plan 1 l", []),
    ("a database of two inventory pages", cut("k.0", 7936 * 1024), "-F k.0", [f"k.0 lacks its end: it has 7936 pages, and its inventory counts 8000: {REMEDY}"]),
    ("a database of two inventory pages", cut("k.0", 7935 * 1024), "-F k.0", [f"k.0 lacks its end: it has 7935 pages, and its inventory counts 7936: {REMEDY}"]),
    ("a write while stalled", None, "stat a.db", [LOCKED]),
    ("a write while stalled", write_at("a.db", 22, b"\2"), "stat a.db", [UNMERGED]),
    ("level 1", None, "stat a.db", []),
    ("a write while stalled", cut("a.db.delta", 0), "stat a.db", [EMPTIED, LOCKED]),
    ("a write while stalled", cut("a.db.delta", 0), "-N a.db", [EMPTIED]),
    ("a write while stalled", both(cut("a.db.delta", 0), write_at("a.db", 22, b"\2")), "stat a.db", [EMPTIED.replace(f" since {TIME}", ""), UNMERGED]),
    ("a write while stalled", both(cut("a.db.delta", 0), left("s", b"1: open 'a.db'\n")), "run s", [EMPTIED]),
    ("level 1", left("a.db.delta", b""), "stat a.db", []),
    ("past level 9", None, "-B G11 a.db b", [NINE]),
    ("level 1", None, "-B 0 a.db stdout", [f"the backup is in a file named stdout, {OUTPUT}"]),
    ("level 1", None, "-B 1 a.db -", [f"the backup is in a file named -, {OUTPUT}"]),
    ("levels folded into one", None, "fold stdout a.1 g.2", [f"the backup is in a file named stdout, {OUTPUT}"]),
]

# The same where progress is shown.
ON_FROM = [
    ("level 1", "-B 0 a.db f", []),
    ("level 1", "-B 1 a.db f", ["f goes on from a.0, the backup G1 of level 0, SCN 1"]),
    ("level 1", "-B 2 a.db f", ["f goes on from a.1, the backup G2 of level 1, SCN 3"]),
    ("level 1", "-B G1 a.db f", ["f goes on from a.0, the backup G1 of level 0, SCN 1"]),
    ("past level 9", "-B G11 a.db b", ["b goes on from a, the backup G11 of level 9, SCN 21", NINE]),
]

# Scripts and lists that break their form: the words that read them, their bytes, the line, and why it is wrong, where that is said.
FIRST = "the first statement is: open 'NAME', or create database 'NAME' page_size P raw N; either may end in: cache C"
SESSION = "it has to begin with the number of a session, 1 to 16, a colon and a space"
ORDER = "it stands right after the first statement and only there: schedule S S .., up to 4,096 numbers of 1 to 16, or seed U"
DOS = "it ends in a carriage return, as DOS ends lines: a line ends in a line feed alone"
REASONS = [
    ("run s", b"1: open 'a.db'\n1: reed 5\n", 2, 'no statement begins with "reed"'),
    ("run s", b"\xef\xbb\xbf1: open 'a.db'\n", 1, "it begins with a byte order mark: save the file without one"),
    ("run s", b"1: open 'a.db'\r\n1: read 5\r\n", 1, DOS),
    ("run s", b"1: open 'a.db'\n1:\tread 5\n", 2, "byte 3 is a tab, and words stand one space apart"),
    ("run s", b"1: open 'a.db'\n1: write 5 '\xc3\xa4'\n", 2, "byte 13 is \\xc3, and no printable ASCII"),
    ("run s", b"1: open 'a.db'\n 1: read 5\n", 2, "it begins with a space"),
    ("run s", b"1: open 'a.db'\n1: read 5 \n", 2, "a space stands at its end"),
    ("run s", b"1: open 'a.db'\n1:  read 5\n", 2, "one space alone stands after the colon"),
    ("run s", b"1: open 'a.db'\nread 5\n", 2, SESSION),
    ("run s", b"1: open 'a.db'\n17: read 5\n", 2, SESSION),
    ("run s", b"1: open 'a.db'\n01: read 5\n", 2, SESSION),
    ("run s", b"1: open 'a.db'\n1 read 5\n", 2, SESSION),
    ("run s", b"1: open 'a.db'\n1: READ 5\n", 2, "READ is written in small letters: read"),
    ("run s", b"1: open 'a.db'\n1: read x\n", 2, "the statement is: read N"),
    ("run s", b"1: open 'a.db'\n1: write 5 it\n", 2, "the statement is: write N 'TEXT'"),
    ("run s", b"1: open 'a.db'\n1: open 'a.db'\n", 2, "only the first statement opens or creates a database"),
    ("run s", b"1: open 'a.db'\n1: read 5\nschedule 1\n", 3, ORDER),
    ("run s", b"1: open 'a.db'\nschedule 17\n", 2, ORDER),
    ("run s", b"1: read 5\n", 1, FIRST),
    ("run s", b"1: Open 'a.db'\n", 1, "Open is written in small letters: open"),
    ("run s", b"1: open 'a.db'\n" + b"1: read 5\n" * 10_000, 10_001, "a script has 10,000 statements at most"),
    ("run s", b"# a comment\n", 2, None),
    ("plan 1 s", b"a.0\r\n", 1, DOS),
    ("plan 1 s", b"a.0 \n", 1, "a space stands at its end"),
    ("plan 1 s", b"a.0\na.0\n", 2, None),
]


def with_guids(line, guids):
    """The text with the GUIDs that were said in place of their names."""
    return re.sub(r"\bG(\d+)\b", lambda name: guids[int(name[1]) - 1] if int(name[1]) <= len(guids) else name[0], line)


def run(folder, path, step, guids):
    """What a step says, and its exit status. New GUIDs, and the last digest, are noted."""
    if step and step[0].startswith(tuple("123456789")):
        folder.write_script("s", step)
        step = ["run", "s"]
    running = folder.start([path, *[with_guids(word, guids) for word in step]], stderr=-3)
    output, _ = running.communicate()
    said = output.decode("ascii")
    for guid in GUID.findall(said):
        if guid != NIL and guid not in guids:
            guids.append(guid)
    for digest in DIGEST.findall(said):
        folder.digest = digest
    return "|".join(DIGEST.sub("H", said).splitlines()), running.returncode


class Kept:
    """The folders of the sessions, each with the GUIDs that were said in it."""

    def __init__(self, base):
        self.base, self.made = base, {}

    def folder(self, name, after):
        """A folder of its own, empty or with the files of a session, and the GUIDs of that."""
        folder = Folder()
        folder.path = self.base.file(str(name))
        if after is None:
            os.mkdir(folder.path)
            return folder, []
        shutil.copytree(self.made[after][0].path, folder.path)
        return folder, list(self.made[after][1])


def sessions(path, kept):
    """What sessions say and leave that they mustn't."""
    for number, case in enumerate(CASES):
        folder, guids = kept.folder(number, case.after)
        for step in case.steps:
            if callable(step):
                step(folder)
                continue
            asked, lines, status = step
            said, ended = run(folder, path, asked, guids)
            if (said, ended) != (with_guids(lines, guids), status):
                yield f"{case.name}: {said} ({ended})"
        if case.check is not None and not case.check(folder):
            yield f"{case.name}: its files"
        kept.made[case.name] = (folder, guids)


def changed_files(path, kept):
    """What is said otherwise of files that something else has changed."""
    for number, (after, change, step, line) in enumerate(HOSTILE):
        folder, guids = kept.folder(f"h{number}", after)
        change(folder)
        said, ended = run(folder, path, step, guids)
        if (said, ended) != (line, int("refused" in line)):
            yield f"{line}: {said} ({ended})"


def errors(path, kept):
    """What the standard error says otherwise."""
    for wrong, line in USAGE:
        said = subprocess.run([path, *wrong], cwd=kept.base.path, capture_output=True, check=False).stderr.decode()
        if not said.startswith(f"nehumiro: {line}\nNehumiro 1.0"):
            yield f"{wrong}: {said.splitlines()[:1]}"
    for number, (after, change, asked, line) in enumerate(ADVICE):
        folder, guids = kept.folder(f"a{number}", after)
        if change is not None:
            change(folder)
        said = subprocess.run([path, *with_guids(asked, guids).split()], cwd=folder.path, capture_output=True, check=False).stderr.decode()
        if not re.fullmatch(f"nehumiro: {with_guids(line, guids)}\n", said):
            yield f"{asked}: {said}"


def said_of(folder, path, asked, shown="0"):
    """The lines of the standard error, without the program's name, where progress is shown or not."""
    ran = subprocess.run([path, *asked.split()], cwd=folder.path, capture_output=True, check=False, env={**os.environ, "NEHUMIRO_PROGRESS": shown})
    return [line.removeprefix("nehumiro: ") for line in ran.stderr.decode().splitlines()], ran.returncode


def told(path, kept):
    """What the standard error says otherwise of jobs that are done."""
    cases = [(after, change, asked, lines, "0") for after, change, asked, lines in TOLD]
    cases += [(after, None, asked, lines, "1") for after, asked, lines in ON_FROM]
    for number, (after, change, asked, lines, shown) in enumerate(cases):
        folder, guids = kept.folder(f"t{number}", after)
        if change is not None:
            change(folder)
        said, ended = said_of(folder, path, with_guids(asked, guids), shown)
        wanted = [with_guids(line, guids) for line in lines]
        if ended != 0 or len(said) != len(wanted) or not all(re.fullmatch(*pair) for pair in zip(wanted, said)):
            yield f"{asked}: {said} ({ended})"


def reasons(path, kept):
    """What it says otherwise of a line that breaks the form of a script or a list."""
    for number, (asked, content, line, why) in enumerate(REASONS):
        folder, _ = kept.folder(f"r{number}", None)
        left("s", content)(folder)
        said, ended = said_of(folder, path, asked)
        reason = [f"s:{line}: {why}"] if why is not None else []
        if ended != 1 or not said[0].startswith(f"s:{line}: ") or said[1 : 1 + len(reason)] != reason or (asked == "run s" and len(said) != 1 + len(reason)):
            yield f"{content[:60]}: {said} ({ended})"


def main():
    path = program()
    with Folder() as base:
        kept = Kept(base)
        wrong = [*sessions(path, kept), *changed_files(path, kept), *errors(path, kept), *told(path, kept), *reasons(path, kept)]
    for text in wrong:
        print(text)
    report(
        "rows",
        not wrong,
        f"{len(CASES)} sessions, {len(HOSTILE)} changed files and {len(USAGE) + len(ADVICE) + len(TOLD) + len(ON_FROM) + len(REASONS)} cases of the standard error say and leave what they must, but for {len(wrong)}",
    )


if __name__ == "__main__":
    main()
