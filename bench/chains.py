"""Each front of a chain, restored on real files, has the raw pages as they stood when its last backup began, byte for byte.

Levels 0, 1 and 2 are made by a session, while a second one writes a page in each of its own turns between those of the copy. Before each of
them pages are written and the database file is kept as it is then. A copy that `cp` takes of a locked database, made a database in place,
differs from what was copied in the bytes of its state alone. A chain with a level left out is refused, and makes no file.
"""

import os
import shutil
import subprocess

from common import CREATE, FIRST_RAW, PAGE_SIZE, RAW, Folder, program, report, write_line

LEVELS = (0, 1, 2)
WRITES = 40
STATE = (22, 24)  # where the header has its flags, of which the state is a part


def run(folder, words, status=0):
    running = folder.start(words, stderr=subprocess.DEVNULL)
    output, _ = running.communicate()
    if running.returncode != status:
        report("chains", False, f"{' '.join(words[1:])}: status {running.returncode}, {output.decode('ascii', 'replace')}")
    return output


def run_lines(folder, path, lines):
    folder.write_script("s", lines)
    return run(folder, [path, "run", "s"])


def back_up(folder, path, level):
    """Some writes, and a backup beside which a second session writes other texts on the same pages."""
    pages = [FIRST_RAW + (7 * level + 2 * index) % RAW for index in range(WRITES)]
    run_lines(folder, path, ["1: open 'x.db'"] + [write_line(page, f"before {level}") for page in pages[: WRITES // (level + 1)]])
    shutil.copyfile(folder.file("x.db"), folder.file(f"then.{level}"))
    others = [f"2: write {page} 'while {level}'" for page in pages]
    run_lines(folder, path, ["1: open 'x.db'", "schedule 1", f"1: backup {level} to 'x.{level}'"] + others)


def raw_pages(folder, name):
    with open(folder.file(name), "rb") as file:
        return file.read()[FIRST_RAW * PAGE_SIZE :]


def bytes_that_differ(folder, one, other):
    with open(folder.file(one), "rb") as first, open(folder.file(other), "rb") as second:
        left, right = first.read(), second.read()
    return [at for at in range(max(len(left), len(right))) if left[at : at + 1] != right[at : at + 1]]


def main():
    path = program()
    with Folder() as folder:
        run_lines(folder, path, [CREATE])
        for level in LEVELS:
            back_up(folder, path, level)
        chain = [f"x.{level}" for level in LEVELS]
        wrong = []
        for level in LEVELS:
            run(folder, [path, "-R", f"y.{level}", *chain[: level + 1]])
            if raw_pages(folder, f"y.{level}") != raw_pages(folder, f"then.{level}"):
                wrong.append(level)
        run(folder, [path, "-R", "z.db", "x.0", "x.2"], status=1)
        run(folder, [path, "-L", "x.db"])
        subprocess.run(["cp", folder.file("x.db"), folder.file("copy")], check=True)
        shutil.copyfile(folder.file("copy"), folder.file("fixed"))
        run(folder, [path, "-F", "fixed"])
        differ = bytes_that_differ(folder, "copy", "fixed")
        passed = not wrong and not os.path.exists(folder.file("z.db")) and differ and all(STATE[0] <= at < STATE[1] for at in differ)
    report(
        "chains",
        passed,
        f"{len(LEVELS) - len(wrong)} of {len(LEVELS)} fronts of a chain have the raw pages of their last backup's begin, with {WRITES} writes beside each; "
        f"a fixed copy differs from what was copied at {differ}",
    )


if __name__ == "__main__":
    main()
