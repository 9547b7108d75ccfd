"""How long it takes to fold two levels into one, as a ratio to `cp` and `fsync` of both in the same run.

    python3 bench/fold.py PROGRAM [MIB [PAGE_SIZE]]

Of a database (`timing.py`) a level 1 and a level 2 are made, each of 10 % of its pages: the same pages in both, and then others in each. Each round copies both
files, which is `cp` and `fsync`, and folds them.
"""

import os

from timing import ROUNDS, Database, copied, each_table, heading, looks, row, timed

AIM = "1.2"
PAIRS = {"the same pages in both": ("same.1", "same.2"), "other pages in each": ("other.1", "other.2")}


class Levels:
    """Two pairs of levels of one database."""

    def __init__(self, folder, path, mib, page_size):
        self.folder, self.path = folder, path
        base = Database(folder, path, mib, page_size)
        for (first, second), shift in zip(PAIRS.values(), (0, 1)):
            base.again()
            timed(folder, [path, "-B", "0", "x.db", f"{first}.0"])
            base.write(10)
            timed(folder, [path, "-B", "1", "x.db", first])
            base.write(10, shift)
            timed(folder, [path, "-B", "2", "x.db", second])

    def copy(self, pair):
        """Both files, one after the other."""
        runs = [copied(self.folder, name, "copy") for name in PAIRS[pair]]
        return {kind: sum(run[kind] for run in runs) for kind in runs[0]}

    def fold(self, pair, measure):
        if os.path.exists(self.folder.file("out")):
            os.remove(self.folder.file("out"))
        return measure(self.folder, [self.path, "fold", "out", *PAIRS[pair]])


def table_of(folder, path, mib, page_size):
    levels = Levels(folder, path, mib, page_size)
    heading()
    for pair in PAIRS:
        copies, folds = [], []
        for _ in range(ROUNDS):
            copies.append(levels.copy(pair))
            folds.append(levels.fold(pair, timed))
        row(f"cp and fsync, {pair}", copies, copies)
        row(f"fold, {pair}", folds, copies, [levels.fold(pair, look) for look in looks()], AIM)


if __name__ == "__main__":
    each_table(table_of)
