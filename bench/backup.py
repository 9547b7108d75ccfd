"""What a backup by hand reads, writes and syncs on real files, as strace counts it, statement by statement.

A begin syncs files three times and their folder once. In the stalled state a page that is new in the difference file takes two syncs, and
one where it is there. The first write of all brings two new pages, its own and the SCN page that has its entry; the first write of another
page brings one, and writes the SCN page again; a further write of a page is that of one page. An end syncs files four times in all, however
many pages it merges, and reads and writes each of them once at most: neighbours go together.
"""

import os
import re
import shutil
import subprocess
import sys

from common import CREATE, FIRST_RAW, Folder, program, report, write_line

OPEN = "1: open 'x.db'"
BEGIN, END = "1: alter database begin backup", "1: alter database end backup"
ENTRIES = 90
CALL = re.compile(r"^(?:\d+ +)?(pread64|pwrite64|fdatasync|fsync)\(")
NAMES = ("pread64", "pwrite64", "fdatasync", "fsync")


def run(folder, words):
    output, _ = folder.start(words).communicate()
    if b"refused" in output or not output.startswith(b"1: ok"):
        report("backup", False, output.decode())


def counts(folder, path, lines):
    """How many calls of each name a script makes on the files as they are, which then are as they were."""
    kept = {name: folder.file(name) for name in ("x.db", "x.db.delta") if os.path.exists(folder.file(name))}
    for name, file in kept.items():
        shutil.copyfile(file, folder.file(name + ".kept"))
    folder.write_script("s", lines)
    run(folder, ["strace", "-f", "-qq", "-o", folder.file("trace"), path, "run", "s"])
    with open(folder.file("trace"), encoding="utf-8", errors="replace") as trace:
        found = [CALL.match(line) for line in trace]
    for name in ("x.db", "x.db.delta"):
        if name in kept:
            shutil.move(folder.file(name + ".kept"), folder.file(name))
        elif os.path.exists(folder.file(name)):
            os.remove(folder.file(name))
    called = [call[1] for call in found if call]
    return [called.count(name) for name in NAMES]


def behind(folder, path, before, lines):
    """What these statements call behind those."""
    return [many - few for many, few in zip(counts(folder, path, before + lines), counts(folder, path, before))]


def main():
    path = program()
    if not shutil.which("strace"):
        sys.exit("strace is not installed: apt-get install strace")
    pages = range(FIRST_RAW, FIRST_RAW + ENTRIES)
    with Folder() as folder:
        folder.write_script("create", [CREATE])
        run(folder, [path, "run", "create"])
        begin = behind(folder, path, [OPEN], [BEGIN])
        first = behind(folder, path, [OPEN, BEGIN], [write_line(FIRST_RAW, "a")])
        new = behind(folder, path, [OPEN, BEGIN, write_line(FIRST_RAW, "a")], [write_line(FIRST_RAW + 1, "b")])
        again = behind(folder, path, [OPEN, BEGIN, write_line(FIRST_RAW, "a")], [write_line(FIRST_RAW, "b")])
        few = behind(folder, path, [OPEN, BEGIN] + [write_line(page, "a") for page in pages[:2]], [END])
        many = behind(folder, path, [OPEN, BEGIN] + [write_line(page, "a") for page in pages], [END])
    merged = [more - less for more, less in zip(many, few)]
    passed = (
        begin[2:] == [3, 1]
        and first[2:] == [4, 0]
        and new[2] == 3
        and again[2] == 1
        and few[2] == many[2] == 4
        and max(merged[:2]) <= ENTRIES - 2
    )
    syncs = f"syncs of begin {begin[2]} and {begin[3]} of the folder, of the first write {first[2]}, of one of another page {new[2]}, of a further one {again[2]}, of an end {many[2]}"
    report("backup", passed, f"{syncs}; a merge of {ENTRIES - 2} pages more reads {merged[0]} more and writes {merged[1]} times more")


if __name__ == "__main__":
    main()
