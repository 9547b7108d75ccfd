"""What the tables of speed share: a run that is timed, counted or watched, `cp` and `fsync` beside it, a database to begin with, and a table's rows.

Each table is called as `python3 bench/NAME.py PROGRAM [MIB [PAGE_SIZE]]`: a database of MIB (100) and pages of PAGE_SIZE bytes (4,096, and then 8,192).
A row is a median of ROUNDS runs that take turns, as a ratio to `cp` and `fsync` of the same files in the same run; one run more counts the calls by strace,
and another watches the memory. Nothing is judged: the aims are printed beside.
"""

import os
import platform
import re
import shutil
import statistics
import subprocess
import sys
import time

from common import FIRST_RAW, Folder

ROUNDS = 7
MOST_LINES, MOST_RAW = 9_000, 65_535
CALL = re.compile(r"^(?:\d+ +)?(pread64|pwrite64|fdatasync|fsync)\(")
MEMORY = re.compile(r"VmHWM:\s+(\d+) kB")


def check(words, output):
    if b"refused" in output or not output:
        raise SystemExit(f"{words}: {output[:200]}")


def timed(folder, words):
    """Seconds, and seconds of the processor."""
    os.sync()
    began = time.perf_counter()
    running = folder.start(words)
    output = running.stdout.read()
    _, _, usage = os.wait4(running.pid, 0)
    took = time.perf_counter() - began
    running.returncode = 0
    check(words, output)
    return {"seconds": took, "processor": usage.ru_utime + usage.ru_stime}


def counted(folder, words):
    """How many reads, writes and syncs of the system."""
    output, _ = folder.start(["strace", "-f", "-qq", "-o", folder.file("trace")] + words).communicate()
    check(words, output)
    with open(folder.file("trace"), encoding="utf-8", errors="replace") as trace:
        found = [CALL.match(line) for line in trace]
    names = [call[1] for call in found if call]
    reads, writes = names.count("pread64"), names.count("pwrite64")
    return {"reads": reads, "writes": writes, "syncs": len(names) - reads - writes}


def watched(folder, words):
    """The most memory, in MiB, of many looks while it runs."""
    running = folder.start(words)
    most = 0
    while running.poll() is None:
        try:
            with open(f"/proc/{running.pid}/status", encoding="ascii") as status:
                found = MEMORY.search(status.read())
                name = os.readlink(f"/proc/{running.pid}/exe")
        except OSError:
            continue
        if found and name == os.path.realpath(words[0]):
            most = max(most, int(found[1]))
    check(words, running.stdout.read())
    return {"memory": most / 1024}


def looks():
    """How a job is measured beside its rounds, each once."""
    return [counted, watched] if shutil.which("strace") else [watched]


def copied(folder, source, target):
    """cp and fsync."""
    os.sync()
    began = time.perf_counter()
    subprocess.run(["cp", source, target], cwd=folder.path, check=True)
    synced(folder, target)
    return {"seconds": time.perf_counter() - began, "processor": 0.0}


def synced(folder, name):
    file = os.open(folder.file(name), os.O_RDONLY)
    os.fsync(file)
    os.close(file)


def is_system_place(page_size, page):
    entries = (page_size - 32) // 4
    return page % entries == 0 or (page + 1) % (32 * entries) == 0


class Database:
    """A database of a size, from which each round starts anew."""

    def __init__(self, folder, path, mib, page_size):
        self.folder, self.path, self.page_size = folder, path, page_size
        raw = (mib << 20) // page_size - 40
        self.run([f"1: create database 'kept' page_size {page_size} raw {min(raw, MOST_RAW)}"])
        for begin in range(MOST_RAW, raw, MOST_LINES):
            self.run(["1: open 'kept'", "1: forced writes off"] + ["1: page new"] * min(MOST_LINES, raw - begin) + ["1: forced writes on"])
        self.pages = os.path.getsize(folder.file("kept")) // page_size

    def run(self, lines):
        self.folder.write_script("script", lines)
        return timed(self.folder, [self.path, "run", "script"])

    def again(self):
        """The database as it was made, in the place of what a round made of it."""
        shutil.copyfile(self.folder.file("kept"), self.folder.file("x.db"))

    def fresh(self):
        """So, and nothing else."""
        for name in os.listdir(self.folder.path):
            if name not in ("kept", "f.fdb"):
                os.remove(self.folder.file(name))
        self.again()

    def write(self, every, first=0):
        """Writes one page in so many."""
        chosen = [page for page in range(FIRST_RAW + first, self.pages, every) if not is_system_place(self.page_size, page)]
        for begin in range(0, len(chosen), MOST_LINES):
            lines = [f"1: write {page} 'x'" for page in chosen[begin : begin + MOST_LINES]]
            self.run(["1: open 'x.db'", "1: forced writes off"] + lines + ["1: sync", "1: forced writes on"])


def machine(folder):
    """What the figures were taken on."""
    with open("/proc/cpuinfo", encoding="ascii", errors="replace") as info:
        model = next((line.split(":")[1].strip() for line in info if line.startswith("model name")), platform.machine())
    system = subprocess.run(["stat", "-f", "-c", "%T", folder.path], check=True, capture_output=True, text=True).stdout.strip()
    return f"{os.cpu_count()} × {model}, Linux {platform.release()}, {system}; load {os.getloadavg()[0]:.1f}"


def heading():
    print("| Job | Seconds | Of `cp` and `fsync` | Aim | Processor | Reads | Writes | Syncs | MiB of memory |\n|---|---|---|---|---|---|---|---|---|")


def row(job, runs, copies, more=(), aim=""):
    """A job's row: its timed runs, those of `cp` and `fsync` beside it, and what else was counted and watched of it."""
    took, processor = (statistics.median(run[kind] for run in runs) for kind in ("seconds", "processor"))
    whole = statistics.median(run["seconds"] for run in copies)
    calls = {kind: count for run in more for kind, count in run.items()}
    rest = [f"{processor:.3f}" if processor else ""] + [f"{calls[kind]:,}" if kind in calls else "" for kind in ("reads", "writes", "syncs")]
    memory = f"{calls['memory']:.1f}" if calls.get("memory") else ""
    print(f"| {job} | {took:.3f} | {took / whole:.2f} | {aim} | {' | '.join(rest)} | {memory} |", flush=True)


def each_table(table_of):
    """Calls `table_of` with a folder, the program, the size and each page size, as the command line has them."""
    if not 2 <= len(sys.argv) <= 4:
        sys.exit(f"usage: {sys.argv[0]} PROGRAM [MIB [PAGE_SIZE]]")
    path = os.path.abspath(sys.argv[1])
    if not os.access(path, os.X_OK):
        sys.exit(f"{path} is no program")
    mib = int(sys.argv[2]) if len(sys.argv) > 2 else 100
    for page_size in [int(sys.argv[3])] if len(sys.argv) > 3 else [4_096, 8_192]:
        with Folder() as folder:
            print(f"{mib} MiB, pages of {page_size:,} bytes; {machine(folder)}\n")
            table_of(folder, path, mib, page_size)
            print()
