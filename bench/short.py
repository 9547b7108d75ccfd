"""Reads and writes of the system that move fewer bytes than they were asked for, or are interrupted, change nothing.

The program is run with a C library whose calls are all short, and then without it: replies and database are the same.
"""

import os
import shutil
import subprocess
import sys

from common import CREATE, FIRST_RAW, Folder, program, report, write_line, writes

COUNT = 40
SCRIPTS = {
    "make": [CREATE] + [write_line(*write) for write in writes(COUNT)],
    "read": ["1: open 'x.db'"] + [f"1: read {FIRST_RAW + index}" for index in range(COUNT)] + ["1: page new", f"1: free {FIRST_RAW}"],
}


def outcome(folder, path, library):
    """The replies of each script, and the database after each, but for its first page, which has a GUID."""
    environment = dict(os.environ)
    if library:
        environment["LD_PRELOAD"] = library
    found = []
    subprocess.run(["rm", "-f", folder.file("x.db")], check=True)
    for name, lines in SCRIPTS.items():
        folder.write_script(name, lines)
        output, _ = folder.start([path, "run", name], env=environment).communicate()
        with open(folder.file("x.db"), "rb") as file:
            found.append((output, file.read()[1024:]))
    return found


def main():
    path = program()
    compiler = shutil.which("cc")
    if not compiler:
        sys.exit("cc is not installed: apt-get install gcc")
    with Folder() as folder:
        library = folder.file("short.so")
        source = os.path.join(os.path.dirname(os.path.abspath(__file__)), "short.c")
        subprocess.run([compiler, "-O1", "-shared", "-fPIC", "-o", library, source], check=True)
        whole, short = outcome(folder, path, None), outcome(folder, path, library)
    replies = sum(output.count(b"\n") for output, _ in short)
    wrong = sum(one != other for one, other in zip(whole, short))
    passed = wrong == 0 and replies == sum(map(len, SCRIPTS.values()))
    report("short", passed, f"{replies} replies, {wrong} of {len(whole)} scripts answered or written otherwise by short calls")


if __name__ == "__main__":
    main()
