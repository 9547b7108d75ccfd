#!/usr/bin/env python3
"""Runs `rt ci`, and leaves the program that it proved and built at bin/nehumiro.

    tools/gate.py             the gate, as `make test` runs it: `rt ci` in this repository; its status is that of `rt ci`
    tools/gate.py program     as `make` runs it: nothing where bin/nehumiro was built of this very text, else `rt ci` in a copy
                              without the wrong bodies of must-fail/, which the gate then tries

Beside the program stands bin/proved: a sum of the text and the toolchain that it was built of, and one of the program. It is written
only as `rt ci` passes, so neither what `rt run` leaves in out/ nor a program that something else put into bin/ is taken for a proved one.
"""
import contextlib
import hashlib
import os
import shutil
import subprocess
import sys

import tree

MADE, PROGRAM, PROVED = "crates/nb_cli/out/nb_cli", f"{tree.ROOT}/bin/nehumiro", f"{tree.ROOT}/bin/proved"


def sum_of_file(path):
    with open(path, "rb") as it:
        return hashlib.sha256(it.read()).hexdigest()


def is_proved(text):
    """Whether the program that stands here was built of the text of this sum."""
    try:
        with open(PROVED, encoding="ascii") as it:
            return it.read().split() == [text, sum_of_file(PROGRAM)]
    except OSError:
        return False


def keep(top, text):
    """Leaves the program that `rt ci` built below top of the text of this sum."""
    os.makedirs(os.path.dirname(PROGRAM), exist_ok=True)
    # (a program that runs is replaced, and not written)
    shutil.copy(f"{top}/{MADE}", f"{PROGRAM}.new")
    os.replace(f"{PROGRAM}.new", PROGRAM)
    with open(PROVED, "w", encoding="ascii") as it:
        it.write(f"{text} {sum_of_file(PROGRAM)}\n")


def rt_ci(top):
    """The status of `rt ci`, which says on standard output what it does."""
    return subprocess.run(["rt", "ci"], cwd=top, check=False).returncode


def seen():
    """The sum of the text as it stands, and what tells whether a file was changed, also where it was changed back. Nothing where a file
    can't be read, of which `rt ci` then says why."""
    with contextlib.suppress(OSError):
        return tree.sum_of(tree.ROOT), [(it.st_ino, it.st_ctime_ns) for it in map(os.stat, tree.files(tree.ROOT))]


def gate():
    before = seen()
    status = rt_ci(tree.ROOT)
    # What can't be kept fails nothing: the status and the last line are those of `rt ci`.
    with contextlib.suppress(OSError):
        if status == 0 and before and seen() == before:
            keep(tree.ROOT, before[0])
    return status


def program():
    if is_proved(tree.sum_of(tree.ROOT)):
        return 0
    with tree.copy_of() as top:
        status = rt_ci(top)
        if status == 0:
            keep(top, tree.sum_of(top))
    return status


def main(words):
    if words not in ([], ["program"]):
        sys.exit(__doc__)
    tree.want_kit()
    status = program() if words else gate()
    return status if status >= 0 else 128 - status


if __name__ == "__main__":
    sys.exit(main(sys.argv[1:]))
