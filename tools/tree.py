"""The repository as the tools see it: which files `rt ci` builds the program of, a sum of them, and copies of some crates."""
import contextlib
import hashlib
import os
import shutil
import subprocess
import sys
import tempfile

ROOT = os.path.dirname(os.path.dirname(os.path.abspath(__file__)))

# The folders of a crate that no program is built of: what was made there, and the wrong bodies.
LEFT_OUT = {"out", "must-fail", "wrong"}
SHARED = ("crates.txt", "HANDLES")


def want_kit():
    if not shutil.which("rt"):
        sys.exit("rt, the command of the Rattle kit, is not on the PATH")


def left_out(folder, names):
    """What of these names in a folder isn't part of a crate's text."""
    return LEFT_OUT.intersection(names) if os.path.basename(os.path.dirname(folder)) == "crates" else set()


def files(top):
    """All that `rt ci` reads below here but its wrong bodies, in an order of its own."""
    for folder, folders, names in os.walk(f"{top}/crates"):
        folders[:] = sorted(set(folders) - left_out(folder, folders))
        yield from (f"{folder}/{it}" for it in sorted(names))
    yield from (f"{top}/{it}" for it in SHARED)


def sum_of(top):
    """A sum of these files, with their names, and of the toolchain."""
    found = hashlib.sha256(subprocess.run(["rt", "version"], stdout=subprocess.PIPE, check=True).stdout)
    for path in files(top):
        with open(path, "rb") as text:
            found.update(repr((os.path.relpath(path, top), text.read())).encode())
    return found.hexdigest()


def below(names):
    """These crates, and all that they stand on, by crates.txt."""
    with open(f"{ROOT}/crates.txt", encoding="utf-8") as lines:
        rows = [line.split("#")[0].partition(":") for line in lines]
    used = {name.split()[0]: libraries.split() for name, _, libraries in rows if name.strip()}
    found, left = set(), list(names or used)
    while left:
        name = left.pop()
        if name in used and name not in found:
            found.add(name)
            left += used[name]
    return found


@contextlib.contextmanager
def copy_of(names=()):
    """A repository of these crates and of all below them, or of every crate, without their wrong bodies. It is removed at the end."""
    every = below(names)
    with tempfile.TemporaryDirectory(prefix="nehumiro-") as top:
        for name in every:
            shutil.copytree(f"{ROOT}/crates/{name}", f"{top}/crates/{name}", ignore=left_out)
        for name in SHARED:
            shutil.copy(f"{ROOT}/{name}", top)
        with open(f"{ROOT}/crates.txt", encoding="utf-8") as lines, open(f"{top}/crates.txt", "w", encoding="utf-8") as to:
            to.writelines(it for it in lines if it.partition(":")[0].split()[:1] and it.partition(":")[0].split()[0] in every)
        # `rt ci` runs at the top of a repository.
        os.mkdir(f"{top}/.git")
        yield top
