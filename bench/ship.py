"""How long a ship to a standby takes, as a ratio to `cp` and `fsync` of the standby in the same run.

    python3 bench/ship.py PROGRAM [MIB [PAGE_SIZE]]

A database (`timing.py`) is backed up and restored as a standby. Each round copies the standby, which is `cp` and `fsync`, and ships to a copy of its own: where
nothing was written since, and where 1 % of the pages were. Then the same of a primary whose history has ROWS rows, which each ship walks over: those are
to take at most 1.3 times as long as the first. The rows are made in memory, where the system has such a place, since each of them is a backup.
"""

import os
import shutil
import tempfile

from common import Folder
from timing import ROUNDS, Database, copied, each_table, heading, looks, row, synced, timed

SHARES = {"nothing": None, "1 %": 100}
AIMS = {"nothing": 0.35, "1 %": 0.45}
ROWS, MORE = 10_000, 1.3
LEVELS, CYCLES = 9, 100  # a script makes so many times a backup of each level from 1 on


class Memory(Folder):
    """A folder in memory, if the system has such a place."""

    def __enter__(self):
        self.path = tempfile.mkdtemp(prefix="bench.", dir="/dev/shm" if os.path.isdir("/dev/shm") else None)
        return self


def rows_added(path, source, count):
    """Adds so many rows to the history of the database of that path, in a folder of its own."""
    with Memory() as folder:
        shutil.move(source, folder.file("x.db"))
        timed(folder, [path, "-B", "0", "x.db", "x.0"])
        os.remove(folder.file("x.0"))
        made = 1
        while made < count:
            levels = [1 + number % LEVELS for number in range(min(LEVELS * CYCLES, count - made))]
            folder.write_script("s", ["1: open 'x.db'"] + [f"1: backup {level} to '{number}'" for number, level in enumerate(levels)])
            timed(folder, [path, "run", "s"])
            for number in range(len(levels)):
                os.remove(folder.file(str(number)))
            made += len(levels)
        shutil.move(folder.file("x.db"), source)


class Pair:
    """A primary for each share of its pages, and a standby of before."""

    def __init__(self, folder, path, base, name):
        self.folder, self.path, self.name = folder, path, name
        timed(folder, [path, "-B", "0", "x.db", "x.0"])
        timed(folder, [path, "-R", self.file("standby"), "x.0"])
        os.remove(folder.file("x.0"))
        base.run([f"1: open '{self.file('standby')}'", "1: access read_only"])
        shutil.copyfile(folder.file("x.db"), folder.file("then"))
        for number, every in enumerate(SHARES.values()):
            shutil.copyfile(folder.file("then"), folder.file("x.db"))
            if every:
                base.write(every)
            os.replace(folder.file("x.db"), folder.file(self.file(f"primary.{number}")))

    def file(self, what):
        return f"{self.name}.{what}"

    def ship(self, share, measure):
        """A ship from a copy of the primary to a copy of the standby, that are on the disk, and in memory as far as the system has them there."""
        number = list(SHARES).index(share)
        for source, target in ((self.file(f"primary.{number}"), "p.db"), (self.file("standby"), "s.db")):
            shutil.copyfile(self.folder.file(source), self.folder.file(target))
            synced(self.folder, target)
        return measure(self.folder, [self.path, "ship", "p.db", "s.db"])


def table_of(folder, path, mib, page_size):
    base = Database(folder, path, mib, page_size)
    base.fresh()
    pairs = {"": Pair(folder, path, base, "few")}
    base.again()
    rows_added(path, folder.file("x.db"), ROWS)
    pairs[f", behind {ROWS:,} rows of history"] = Pair(folder, path, base, "many")
    copies, runs = [], {(after, share): [] for after in pairs for share in SHARES}
    for _ in range(ROUNDS):
        copies.append(copied(folder, "few.standby", "copy"))
        for (after, share), found in runs.items():
            found.append(pairs[after].ship(share, timed))
    heading()
    row("cp and fsync", copies, copies)
    for (after, share), found in runs.items():
        aim = AIMS[share] * (MORE if after else 1)
        row(f"ship of {share}{after}", found, copies, [pairs[after].ship(share, look) for look in looks()], f"{aim:.2f}")


if __name__ == "__main__":
    each_table(table_of)
