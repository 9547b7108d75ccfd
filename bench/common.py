"""What the measurements share: scripts, the program's runs, and pages as they lie in the file."""

import os
import shutil
import subprocess
import sys
import tempfile

PAGE_SIZE = 1024
RAW = 100
FIRST_RAW = 5  # the header, the inventory, the SCN page and the first two data pages come before
CREATE = f"1: create database 'x.db' page_size {PAGE_SIZE} raw {RAW}"


def program():
    """The program's path: the first argument."""
    if len(sys.argv) != 2:
        sys.exit(f"usage: {sys.argv[0]} PROGRAM")
    path = os.path.abspath(sys.argv[1])
    if not os.access(path, os.X_OK):
        sys.exit(f"{path} is no program")
    return path


def in_memory():
    """Where no disk is measured, what a run leaves lies in memory, if the system has such a place and BENCH_DIR names no other."""
    if os.path.isdir("/dev/shm"):
        os.environ.setdefault("BENCH_DIR", "/dev/shm")


class Folder:
    """A fresh folder on the disk that is measured: BENCH_DIR, or where the script is started."""

    def __enter__(self):
        self.path = os.path.abspath(tempfile.mkdtemp(prefix="bench.", dir=os.environ.get("BENCH_DIR", ".")))
        return self

    def __exit__(self, *_):
        shutil.rmtree(self.path)

    def write_script(self, name, lines):
        with open(os.path.join(self.path, name), "w", encoding="ascii") as script:
            script.write("".join(line + "\n" for line in lines))

    def file(self, name):
        return os.path.join(self.path, name)

    def start(self, words, **options):
        return subprocess.Popen(words, cwd=self.path, stdout=subprocess.PIPE, bufsize=0, **options)


def writes(count, pages=RAW):
    """(page, text) of `count` writes, over raw pages in turn. Each text is another."""
    return [(FIRST_RAW + index % pages, f"text number {index}") for index in range(count)]


def write_line(page, text):
    return f"1: write {page} '{text}'"


def text_of(page):
    """The text on a raw page: its length in two bytes at 16, least significant first, then its bytes."""
    length = int.from_bytes(page[16:18], "little")
    return page[18 : 18 + length].decode("ascii", "replace")


def report(name, passed, number):
    """One line, and the exit status."""
    print(f"{'PASS' if passed else 'FAIL'} {name}: {number}", flush=True)
    sys.exit(0 if passed else 1)
