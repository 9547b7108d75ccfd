"""What is read of a large database: opening reads as much as of a small one, a new page reads each inventory page once, and a level 1 of a
database that was not changed reads little more than its SCN pages.

Counted by strace. Databases have pages of 1,024 bytes, of which an inventory page counts 7,936.
"""

import collections
import re
import shutil
import subprocess
import sys

from common import PAGE_SIZE, Folder, program, report

FEW, MANY = 8, 60_000
MOST = MANY // 200
BITS = 32 * ((PAGE_SIZE - 32) // 4)
READ = re.compile(r"pread64\(\d+<[^>]*/x\.db>.*, (\d+), (\d+)\)")


def create(raw):
    return f"1: create database 'x.db' page_size {PAGE_SIZE} raw {raw}"


def pages_read(folder, path, lines):
    """How often a script reads each page of the database."""
    folder.write_script("script", lines)
    words = ["strace", "-f", "-qq", "-y", "-o", folder.file("trace"), "-e", "trace=pread64"]
    output, _ = folder.start(words + [path, "run", "script"]).communicate()
    if not output or b"refused" in output:
        report("reads", False, output.decode("ascii", "replace"))
    with open(folder.file("trace"), encoding="utf-8", errors="replace") as trace:
        found = [READ.search(line) for line in trace]
    return collections.Counter(int(read[2]) // PAGE_SIZE for read in found if read)


def is_inventory(page):
    return page == 1 or (page + 1) % BITS == 0


def reads_of(path, raw):
    """The reads of opening a database with so many raw pages, and those of opening it and a new page."""
    with Folder() as folder:
        folder.write_script("make", [create(raw)])
        folder.start([path, "run", "make"]).communicate()
        opened = pages_read(folder, path, ["1: open 'x.db'"])
        return opened, pages_read(folder, path, ["1: open 'x.db'", "1: page new"])


def unchanged(path):
    """How many pages a level 1 reads of a database with MANY raw pages, where nothing is written since level 0."""
    with Folder() as folder:
        folder.write_script("make", [create(MANY)])
        folder.start([path, "run", "make"]).communicate()
        folder.start([path, "-B", "0", "x.db", "x.0"]).communicate()
        return pages_read(folder, path, ["1: open 'x.db'", "1: backup 1 to 'x.1'"]).total()


def main():
    path = program()
    if not shutil.which("strace"):
        sys.exit("strace is not installed: apt-get install strace")
    small, _ = reads_of(path, FEW)
    large, new = reads_of(path, MANY)
    inventories = [page for page in new if is_inventory(page)]
    twice = [page for page in inventories if new[page] > 1]
    level = unchanged(path)
    passed = small.total() == large.total() > 0 and len(inventories) > 1 and not twice and level < MOST
    report(
        "reads",
        passed,
        f"opening reads {small.total()} pages of a small database and {large.total()} of one with {MANY} raw pages; "
        f"a new page there reads {new.total() - large.total()} pages, {len(inventories)} of them inventory pages, {len(twice)} of these twice; "
        f"a level 1 of it, not changed, reads {level}",
    )


if __name__ == "__main__":
    main()
