"""How long a level takes to be merged into a standby, as a ratio to `cp` and `fsync` of the standby in the same run.

    python3 bench/inplace.py PROGRAM [MIB [PAGE_SIZE]]

A database (`timing.py`) is backed up and restored as a standby, and a level is made of each share of its pages. Each round copies the standby, which is `cp`
and `fsync`, and merges each level into a copy of its own.
"""

import shutil

from timing import ROUNDS, Database, copied, each_table, heading, looks, row, synced, timed

SHARES = {"1 %": 100, "10 %": 10}
AIMS = {"1 %": "0.45", "10 %": "0.6"}


class Standby:
    """A standby, and a level since it of each share of its pages."""

    def __init__(self, folder, path, mib, page_size):
        self.folder, self.path = folder, path
        base = Database(folder, path, mib, page_size)
        base.fresh()
        timed(folder, [path, "-B", "0", "x.db", "x.0"])
        timed(folder, [path, "-R", "y.db", "x.0"])
        base.run(["1: open 'y.db'", "1: access read_only"])
        shutil.copyfile(folder.file("x.db"), folder.file("then"))
        for share, every in SHARES.items():
            shutil.copyfile(folder.file("then"), folder.file("x.db"))
            base.write(every)
            timed(folder, [path, "-B", "1", "x.db", self.level(share)])

    def level(self, share):
        return f"x.{share.split(' ')[0]}"

    def merge(self, share, measure):
        """A merge into a copy of its own that is on the disk, and in memory as far as the system has it there."""
        shutil.copyfile(self.folder.file("y.db"), self.folder.file("z.db"))
        synced(self.folder, "z.db")
        return measure(self.folder, [self.path, "-I", "-R", "z.db", self.level(share)])


def table_of(folder, path, mib, page_size):
    standby = Standby(folder, path, mib, page_size)
    copies, merges = [], {share: [] for share in SHARES}
    for _ in range(ROUNDS):
        copies.append(copied(folder, "y.db", "copy"))
        for share, runs in merges.items():
            runs.append(standby.merge(share, timed))
    heading()
    row("cp and fsync", copies, copies)
    for share, runs in merges.items():
        row(f"merge of {share}", runs, copies, [standby.merge(share, look) for look in looks()], AIMS[share])


if __name__ == "__main__":
    each_table(table_of)
