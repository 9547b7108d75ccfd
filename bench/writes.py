"""How many statements that change a page are acknowledged in a second, beside a loop that writes a page and syncs it.

Each job is a script on a database that is there. Its time is that of the script less that of one that only opens the
database. The loop makes as many calls of pwrite and fdatasync as strace counts of the job, on a file of the same size that
grows where the job's does, and nothing else. Job and loop take turns, and what is judged is the ratio of their shortest times,
which other work disturbs least.
"""

import os
import re
import shutil
import subprocess
import sys
import time

from common import FIRST_RAW, PAGE_SIZE, Folder, program, report, write_line, writes

COUNT, ROUNDS, MOST = 200, 15, 1.5
OPEN = "1: open 'x.db'"
CALL = re.compile(r"^(?:\d+ +)?(pwrite64|fdatasync|fsync)\(")

JOBS = {
    "write": [write_line(*write) for write in writes(COUNT, COUNT)],
    "page new": ["1: page new"] * COUNT,
    "free": [f"1: free {FIRST_RAW + index}" for index in range(COUNT)],
}


def make(folder, path):
    """A database with as many raw pages as a job has statements."""
    subprocess.run(["rm", "-f", folder.file("x.db")], check=True)
    folder.write_script("make", [f"1: create database 'x.db' page_size {PAGE_SIZE} raw {COUNT}"])
    folder.start([path, "run", "make"]).communicate()


def run(folder, words):
    """How long a run takes, in seconds."""
    began = time.perf_counter()
    output, _ = folder.start(words).communicate()
    if not output.startswith(b"1: ok") or b"refused" in output:
        report("writes", False, f"{words}: {[line for line in output.decode().splitlines() if not line.startswith('1: ok')][:3]}")
    return time.perf_counter() - began


def calls(folder, path, script):
    """How many writes and syncs of the system a script makes."""
    make(folder, path)
    run(folder, ["strace", "-f", "-qq", "-o", folder.file("trace"), path, "run", script])
    with open(folder.file("trace"), encoding="utf-8", errors="replace") as trace:
        found = [CALL.match(line) for line in trace]
    names = [call[1] for call in found if call]
    return names.count("pwrite64"), len(names) - names.count("pwrite64")


def loop(folder, puts, syncs, grows):
    """How long the bare calls take, on pages that are there or behind them."""
    page = b"\x01" * PAGE_SIZE
    file = os.open(folder.file("loop"), os.O_RDWR | os.O_CREAT | os.O_TRUNC)
    os.pwrite(file, page * COUNT, 0)
    os.fsync(file)
    first = COUNT if grows else 0
    began = time.perf_counter()
    for index in range(syncs):
        for _ in range(puts * (index + 1) // syncs - puts * index // syncs):
            os.pwrite(file, page, PAGE_SIZE * (first + index * COUNT // syncs))
        os.fdatasync(file)
    took = time.perf_counter() - began
    os.close(file)
    return took


def main():
    path = program()
    if not shutil.which("strace"):
        sys.exit("strace is not installed: apt-get install strace")
    shown, passed = [], True
    with Folder() as folder:
        folder.write_script("open", [OPEN])
        for name, lines in JOBS.items():
            folder.write_script("job", [OPEN] + lines)
            opening = calls(folder, path, "open")
            puts, syncs = (more - less for more, less in zip(calls(folder, path, "job"), opening))
            empty, full, bare = [], [], []
            for _ in range(ROUNDS):
                make(folder, path)
                empty.append(run(folder, [path, "run", "open"]))
                full.append(run(folder, [path, "run", "job"]))
                bare.append(loop(folder, puts, syncs, name == "page new"))
            taken = min(full) - min(empty)
            ratio = taken / min(bare)
            passed = passed and ratio <= MOST
            rate = COUNT / taken
            shown.append(f"{name} {rate:.0f} a second, {ratio:.2f} of the bare calls ({puts / COUNT:g} writes, {syncs / COUNT:g} syncs each)")
    report("writes", passed, "; ".join(shown))


if __name__ == "__main__":
    main()
