"""How long a check of a database takes, as a ratio to `cp` and `fsync` of it in the same run, and that it reads each page once.

    python3 bench/check.py PROGRAM [MIB [PAGE_SIZE]]

A database (`timing.py`) is checked in the normal state, and once it is locked and 10 % of its pages were written. Each round copies it, which is `cp` and
`fsync`, and checks it.
"""

from timing import ROUNDS, Database, copied, each_table, heading, looks, row, timed

AIM = "0.35"


def measured(folder, path, state):
    words, copies, checks = [path, "check", "x.db"], [], []
    for _ in range(ROUNDS):
        copies.append(copied(folder, "x.db", "copy"))
        checks.append(timed(folder, words))
    row(f"cp and fsync, {state}", copies, copies)
    row(f"check, {state}", checks, copies, [look(folder, words) for look in looks()], AIM)


def table_of(folder, path, mib, page_size):
    base = Database(folder, path, mib, page_size)
    base.again()
    heading()
    measured(folder, path, "normal")
    timed(folder, [path, "-L", "x.db"])
    base.write(10)
    measured(folder, path, "locked, with 10 % written")


if __name__ == "__main__":
    each_table(table_of)
