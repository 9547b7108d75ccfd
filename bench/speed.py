"""How long the jobs of a backup take on real files, as ratios to `cp` and `fsync` of the database file in the same run.

    python3 bench/speed.py PROGRAM [MIB [PAGE_SIZE]]

A database (`timing.py`) is locked and merged with 1 and 10 % of its pages written, backed up at level 0, at level 1 with 0, 1 and 10 % of its pages changed and
at level 2, and restored from level 0 and from levels 0, 1 and 2. Then acknowledged page writes a second, beside a loop of `pwrite` and `fdatasync` and beside
SQLite, and real nbackup on a database of that size where Debian's firebird3.0-server and firebird3.0-utils are installed.
"""

import os
import shutil
import sqlite3
import statistics
import subprocess
import time

from common import FIRST_RAW
from timing import ROUNDS, Database, copied, each_table, heading, is_system_place, looks, row, synced, timed

ACKNOWLEDGED, ROTATED = 3_000, 500
AIMS = {
    "level 0": "1.15",
    "level 1, 1 % changed": "0.3",
    "restore of level 0": "1.15",
    "restore of levels 0, 1, 2": "1.15",
    "merge of 10 %": "0.5",
}
JOBS = (
    "cp and fsync",
    "lock",
    "merge of 1 %",
    "merge of 10 %",
    "level 0",
    "level 1, 0 % changed",
    "level 1, 1 % changed",
    "level 1, 10 % changed",
    "level 2, 1 % changed",
    "restore of level 0",
    "restore of levels 0, 1, 2",
)


class Backups(Database):
    """A database that goes through every job of a backup."""

    def round(self, measure, found):
        """Each job once."""

        def job(name, *words):
            found[name].append(measure(self.folder, [self.path, *words]))

        self.fresh()
        if measure is timed:
            found["cp and fsync"].append(copied(self.folder, "x.db", "copy"))
        job("lock", "-L", "x.db")
        for part, every in (("1 %", 100), ("10 %", 10)):
            if part == "10 %":
                timed(self.folder, [self.path, "-L", "x.db"])
            self.write(every)
            job(f"merge of {part}", "-N", "x.db")
        job("level 0", "-B", "0", "x.db", "x.0")
        job("level 1, 0 % changed", "-B", "1", "x.db", "none.1")
        self.write(100)
        job("level 1, 1 % changed", "-B", "1", "x.db", "x.1")
        self.write(100, 50)
        job("level 2, 1 % changed", "-B", "2", "x.db", "x.2")
        job("restore of level 0", "-R", "y.db", "x.0")
        job("restore of levels 0, 1, 2", "-R", "z.db", "x.0", "x.1", "x.2")
        self.write(10)
        job("level 1, 10 % changed", "-B", "1", "x.db", "ten.1")

    def acknowledged(self):
        """Seconds of that many acknowledged page writes."""
        pages = [page for page in range(FIRST_RAW, self.pages) if not is_system_place(self.page_size, page)][:ROTATED]
        lines = [f"1: write {pages[index % len(pages)]} 'text number {index}'" for index in range(ACKNOWLEDGED)]
        opening = ["1: open 'x.db'"]
        self.run(opening + lines)  # From now on the SCN entries are current.
        return self.run(opening + lines)["seconds"] - self.run(opening)["seconds"]


def bare_loop(folder, page_size):
    """The same writes as bare calls."""
    page = b"\x01" * page_size
    file = os.open(folder.file("x.db"), os.O_RDWR)
    began = time.perf_counter()
    for index in range(ACKNOWLEDGED):
        os.pwrite(file, page, page_size * (FIRST_RAW + index % ROTATED))
        os.fdatasync(file)
    took = time.perf_counter() - began
    os.close(file)
    return took


def sqlite_writes(folder):
    """As many rows changed, each committed."""
    database = sqlite3.connect(folder.file("rows"), isolation_level=None)
    database.execute("pragma journal_mode = wal")
    database.execute("pragma synchronous = full")
    database.execute("create table t (id integer primary key, text)")
    database.execute("begin")
    database.executemany("insert into t values (?, ?)", ((index, "x" * 900) for index in range(ROTATED)))
    database.execute("commit")
    began = time.perf_counter()
    for index in range(ACKNOWLEDGED):
        database.execute("update t set text = ? where id = ?", (f"text number {index}", index % ROTATED))
    took = time.perf_counter() - began
    database.close()
    return took


def acknowledged_rows(base):
    """Acknowledged writes a second, as a ratio to the bare loop."""
    found = {name: [] for name in ("`pwrite` and `fdatasync`", "normal state", "stalled state", "SQLite, WAL, synchronous FULL")}
    for _ in range(3):
        base.fresh()
        found["normal state"].append(base.acknowledged())
        timed(base.folder, [base.path, "-L", "x.db"])
        found["stalled state"].append(base.acknowledged())
        found["`pwrite` and `fdatasync`"].append(bare_loop(base.folder, base.page_size))
        found["SQLite, WAL, synchronous FULL"].append(sqlite_writes(base.folder))
    bare = statistics.median(found["`pwrite` and `fdatasync`"])
    for name, took in found.items():
        median = statistics.median(took)
        print(f"| {name} | {ACKNOWLEDGED / median:,.0f} | {median / bare:.2f} | {'1.1' if 'state' in name else ''} |", flush=True)


def make_firebird(folder, mib, page_size):
    """A database of Firebird of about that size, with one row to a page; a seventh of its pages are others."""
    length = page_size * 3 // 4
    with open(folder.file("make.sql"), "w", encoding="ascii") as script:
        script.write(
            f"create database '{folder.file('f.fdb')}' page_size {page_size};\n"
            f"create table t (id integer, text varchar({length}) character set octets);\ncommit;\nset term ^;\n"
            f"execute block as declare i integer = 0; begin while (i < {(mib << 20) // page_size * 6 // 7}) do begin\n"
            f"insert into t values (:i, rpad(gen_uuid(), {length}, gen_uuid())); i = i + 1; end end^\nset term ;^\ncommit;\n"
        )
    subprocess.run(["isql-fb", "-q", "-user", "SYSDBA", "-i", "make.sql"], cwd=folder.path, check=True, stdout=subprocess.DEVNULL)


def change_firebird(folder, page_size, every):
    """Changes one row in so many."""
    length = page_size * 3 // 4
    change = f"update t set text = rpad(gen_uuid(), {length}, gen_uuid()) where mod(id, {every}) = 3; commit;"
    words = ["isql-fb", "-q", "-user", "SYSDBA", folder.file("f.fdb")]
    subprocess.run(words, input=change, text=True, cwd=folder.path, check=True, stdout=subprocess.DEVNULL)


def nbackup(folder, target, *words):
    """Seconds of real nbackup, and of the sync of its file."""
    os.sync()
    began = time.perf_counter()
    subprocess.run(["nbackup", "-user", "SYSDBA", *words], cwd=folder.path, check=True, stdout=subprocess.DEVNULL, stderr=subprocess.DEVNULL)
    synced(folder, target)
    return time.perf_counter() - began


def firebird_rows(folder, mib, page_size):
    """The jobs of real nbackup, each time with the sync of its file, as ratios to `cp` and `fsync` of its own database."""
    make_firebird(folder, mib, page_size)
    names = ("cp and fsync", "lock", "merge of 10 %", "level 0", "level 1, 1 % changed", "restore of level 0", "restore of levels 0, 1")
    found = {name: [] for name in names}
    database, restored = folder.file("f.fdb"), folder.file("g.fdb")
    for _ in range(ROUNDS):
        for name in ("f.copy", "f.0", "f.1"):
            if os.path.exists(folder.file(name)):
                os.remove(folder.file(name))
        found["cp and fsync"].append(copied(folder, "f.fdb", "f.copy")["seconds"])
        found["lock"].append(nbackup(folder, "f.fdb", "-L", database))
        change_firebird(folder, page_size, 10)
        found["merge of 10 %"].append(nbackup(folder, "f.fdb", "-N", database))
        found["level 0"].append(nbackup(folder, "f.0", "-B", "0", database, "f.0"))
        change_firebird(folder, page_size, 100)
        found["level 1, 1 % changed"].append(nbackup(folder, "f.1", "-B", "1", database, "f.1"))
        found["restore of level 0"].append(nbackup(folder, "g.fdb", "-R", restored, "f.0"))
        os.remove(restored)
        found["restore of levels 0, 1"].append(nbackup(folder, "g.fdb", "-R", restored, "f.0", "f.1"))
        os.remove(restored)
    whole = statistics.median(found["cp and fsync"])
    print(f"\n| Real nbackup, {os.path.getsize(database) >> 20} MiB | Seconds | Of `cp` and `fsync` |\n|---|---|---|")
    for name, took in found.items():
        print(f"| {name} | {statistics.median(took):.3f} | {statistics.median(took) / whole:.2f} |", flush=True)


def table_of(folder, path, mib, page_size):
    base = Backups(folder, path, mib, page_size)
    found, more = {job: [] for job in JOBS}, {job: [] for job in JOBS}
    for _ in range(ROUNDS):
        base.round(timed, found)
    for look in looks():
        base.round(look, more)
    heading()
    for job, runs in found.items():
        row(job, runs, found["cp and fsync"], more[job], AIMS.get(job, ""))
    print("\n| Acknowledged page writes | A second | Of the time of the bare calls | Aim |\n|---|---|---|---|")
    acknowledged_rows(base)
    if shutil.which("nbackup") and shutil.which("isql-fb"):
        firebird_rows(folder, mib, page_size)


if __name__ == "__main__":
    each_table(table_of)
