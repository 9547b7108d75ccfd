"""How many instructions of the processor each job takes for a page, and each statement.

    python3 bench/instructions.py PROGRAM [PAGE_SIZE]

valgrind counts them (`--tool=callgrind`), and counts the same whatever else the machine does. A job is counted on a database of 4 MiB and on one of 12: what
the larger takes more, a page more. A statement is counted in two scripts, of which one has 1,000 more of it. So beginning and ending a run, and opening a
database, aren't in these figures. Nothing is judged: the aims are printed beside.
"""

import os
import re
import shutil
import subprocess
import sys

from common import FIRST_RAW, Folder, in_memory
from timing import Database, check, timed

SIZES = (4, 12)
FEW, MANY = 100, 1_100
RAW = 20  # the raw pages that statements take in turn
COUNTED = re.compile(r"Collected : (\d+)")
ROWS = 30
AIMS = {"level 0": 1_400, "check": 1_200, "write": 6_000}


def instructions(folder, words):
    """How many a run takes, which has to be done without a refusal."""
    counting = ["valgrind", "--tool=callgrind", f"--callgrind-out-file={os.devnull}"]
    done = subprocess.run(counting + words, cwd=folder.path, capture_output=True, check=False)
    check(words, done.stdout)
    return int(COUNTED.search(done.stderr.decode("ascii", "replace"))[1])


class Jobs(Database):
    """A database that each job is counted on, with what the job takes."""

    def counts(self):
        """The instructions of each job, by its name."""
        found = {}

        def job(name, *words):
            found[name] = instructions(self.folder, [self.path, *words])

        def done(*words):
            timed(self.folder, [self.path, *words])

        self.fresh()
        job("check", "check", "x.db")
        job("level 0", "-B", "0", "x.db", "x.0")
        job("restore of level 0", "-R", "y.db", "x.0")
        job("level 1, nothing changed", "-B", "1", "x.db", "none.1")
        self.write(10)
        job("level 1, a tenth changed", "-B", "1", "x.db", "x.1")
        self.write(10)
        done("-B", "2", "x.db", "x.2")
        job("restore of levels 0, 1, 2", "-R", "z.db", "x.0", "x.1", "x.2")
        job("fold of levels 1 and 2", "fold", "x.12", "x.1", "x.2")
        self.run(["1: open 'y.db'", "1: access read_only"])
        job("merge of a tenth in place", "-I", "-R", "y.db", "x.1")
        done("-L", "x.db")
        self.write(10)
        job("merge of a tenth at the end of a backup", "-N", "x.db")
        return found


def aim(name, page_size):
    return f"{AIMS[name]:,}" if page_size == 4_096 and name in AIMS else ""


def jobs_table(path, page_size):
    """A row for each job: its instructions for each page of the database."""
    pages, counts = [], []
    for mib in SIZES:
        with Folder() as folder:
            base = Jobs(folder, path, mib, page_size)
            pages.append(base.pages)
            counts.append(base.counts())
    print(f"| Job, pages of {page_size:,} bytes | Instructions a page | Aim |\n|---|---|---|")
    for name, few in counts[0].items():
        each = (counts[1][name] - few) / (pages[1] - pages[0])
        print(f"| {name} | {each:,.0f} | {aim(name, page_size)} |", flush=True)


def raw_page(index):
    return FIRST_RAW + index % RAW


# Each statement by its index, and the statements before all of it.
STATEMENTS = {
    "read": (lambda i: f"1: read {raw_page(i)}", []),
    "write": (lambda i: f"1: write {raw_page(i)} 'x'", []),
    "write, while locked": (lambda i: f"1: write {raw_page(i)} 'x'", ["1: alter database begin backup"]),
    "write, forced writes off": (lambda i: f"1: write {raw_page(i)} 'x'", ["1: forced writes off"]),
    "page new": (lambda i: "1: page new", []),
    "get": (lambda i: f"1: get t {i % ROWS}", []),
    "update": (lambda i: f"1: update t {i % ROWS} 'y'", []),
    "insert": (lambda i: f"1: insert t {1_000 + i} 'y'", []),
}


def statement_count(folder, path, name, number):
    """The instructions of a run of so many of a statement."""
    line, before = STATEMENTS[name]
    for left in os.listdir(folder.path):
        if left.startswith("x.db"):
            os.remove(folder.file(left))
    shutil.copyfile(folder.file("kept"), folder.file("x.db"))
    folder.write_script("script", ["1: open 'x.db'", *before, *(line(i) for i in range(number))])
    return instructions(folder, [path, "run", "script"])


def statements_table(path, page_size):
    """A row for each statement."""
    with Folder() as folder:
        show_statements(folder, path, page_size)


def show_statements(folder, path, page_size):
    rows = [f"1: insert t {i} 'x'" for i in range(ROWS)]
    folder.write_script("script", [f"1: create database 'kept' page_size {page_size} raw {RAW}", "1: create table t", *rows])
    timed(folder, [path, "run", "script"])
    print(f"| Statement, pages of {page_size:,} bytes | Instructions | Aim |\n|---|---|---|")
    for name in STATEMENTS:
        few, many = (statement_count(folder, path, name, number) for number in (FEW, MANY))
        print(f"| {name} | {(many - few) / (MANY - FEW):,.0f} | {aim(name, page_size)} |", flush=True)


def main():
    if not 2 <= len(sys.argv) <= 3:
        sys.exit(f"usage: {sys.argv[0]} PROGRAM [PAGE_SIZE]")
    path = os.path.abspath(sys.argv[1])
    if not os.access(path, os.X_OK):
        sys.exit(f"{path} is no program")
    if shutil.which("valgrind") is None:
        sys.exit("valgrind isn't installed")
    in_memory()
    page_size = int(sys.argv[2]) if len(sys.argv) > 2 else 4_096
    jobs_table(path, page_size)
    print()
    statements_table(path, page_size)


if __name__ == "__main__":
    main()
