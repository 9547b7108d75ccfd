"""What pages that wait cost: with forced writes off many writes of a page are one, which goes out at a `sync` or at the end of the run.

Counted by strace.
"""

import collections
import re
import shutil
import sys

from common import CREATE, FIRST_RAW, PAGE_SIZE, Folder, program, report, write_line, writes

COUNT, PAGES, ROUNDS = 1000, 10, 5
RAW = range(FIRST_RAW, FIRST_RAW + PAGES)
OPEN = ["1: open 'x.db'", "1: forced writes off"]
CALL = re.compile(r"(pwrite64|fdatasync)\(\d+<[^>]*/x\.db>(?:.*, (\d+), (\d+)\))?")


def calls(folder, path, lines):
    """How often a script writes each page of the database, and how often it syncs its file."""
    folder.write_script("script", lines)
    words = ["strace", "-f", "-qq", "-y", "-o", folder.file("trace"), "-e", "trace=pwrite64,fdatasync"]
    output, _ = folder.start(words + [path, "run", "script"]).communicate()
    if output.count(b" ok") != len(lines):
        report("waiting", False, output.decode("ascii", "replace")[-200:])
    with open(folder.file("trace"), encoding="utf-8", errors="replace") as trace:
        found = [call for call in (CALL.search(line) for line in trace) if call]
    pages = collections.Counter()
    for call in found:
        if call[1] == "pwrite64":
            first, length = int(call[3]) // PAGE_SIZE, int(call[2]) // PAGE_SIZE
            pages.update(range(first, first + length))
    return pages, sum(call[1] == "fdatasync" for call in found)


def main():
    path = program()
    if not shutil.which("strace"):
        sys.exit("strace is not installed: apt-get install strace")
    with Folder() as folder:
        folder.write_script("make", [CREATE])
        folder.start([path, "run", "make"]).communicate()
        lines = [write_line(*write) for write in writes(COUNT, PAGES)]
        none, bare = calls(folder, path, OPEN)
        once, syncs = calls(folder, path, OPEN + lines)
        each = len(lines) // ROUNDS
        rounds = [line for at in range(0, len(lines), each) for line in lines[at : at + each] + ["1: sync"]]
        often, more = calls(folder, path, OPEN + rounds)
    passed = (
        not any(none[page] for page in RAW)
        and all(once[page] == 1 for page in RAW)
        and all(often[page] == ROUNDS for page in RAW)
        and syncs == bare
        and more == bare + ROUNDS
    )
    report(
        "waiting",
        passed,
        f"{COUNT} writes of {PAGES} pages with forced writes off write {sum(once[page] for page in RAW)} pages and sync {syncs - bare} times more than none; "
        f"with {ROUNDS} syncs among them {sum(often[page] for page in RAW)} pages and {more - bare} times",
    )


if __name__ == "__main__":
    main()
