"""An acknowledged page write is one pwrite64 and one fdatasync, both before its reply.

Counted by strace, as the difference between a script with WARM writes and one with MORE besides.
"""

import re
import shutil
import subprocess
import sys

from common import CREATE, Folder, program, report, write_line, writes

WARM, MORE = 200, 1000
CHANGES = "write,writev,pwrite64,pwritev,pwritev2,ftruncate,fallocate,copy_file_range,sendfile"
SYNCS = "fsync,fdatasync,sync_file_range,sync,syncfs,msync"
CALL = re.compile(r"^(?:\d+ +)?(\w+)\((\d+)?")


def calls_of(folder, path, count):
    """The calls that a script with `count` writes makes, as (name, descriptor), in order."""
    folder.write_script("script", [CREATE] + [write_line(*write) for write in writes(count)])
    words = ["strace", "-f", "-qq", "-o", folder.file("trace"), "-e", f"trace={CHANGES},{SYNCS}"]
    subprocess.run(["rm", "-f", folder.file("x.db")], check=True)
    output, _ = folder.start(words + [path, "run", "script"]).communicate()
    replies = output.decode("ascii", "replace").splitlines()
    if len(replies) != count + 1 or any(reply != "1: ok" for reply in replies[1:]):
        report("acknowledged write", False, f"{len(replies)} replies, the last is {replies[-1:]}")
    with open(folder.file("trace"), encoding="utf-8", errors="replace") as trace:
        found = [CALL.match(line) for line in trace]
    return [(call[1], call[2]) for call in found if call]


def is_reply(call):
    return call == ("write", "1")


def unordered(calls, count):
    """How many of the last `count` replies did not come right after a pwrite64 and then an fdatasync of one file."""
    wrong = 0
    places = [place for place, call in enumerate(calls) if is_reply(call)]
    for before, place in zip(places[-count - 1 :], places[-count:]):
        between = calls[before + 1 : place]
        is_right = [name for name, _ in between] == ["pwrite64", "fdatasync"] and between[0][1] == between[1][1]
        wrong += not is_right
    return wrong


def main():
    path = program()
    if not shutil.which("strace"):
        sys.exit("strace is not installed: apt-get install strace")
    with Folder() as folder:
        few = calls_of(folder, path, WARM)
        many = calls_of(folder, path, WARM + MORE)

        def each(name):
            return (sum(call[0] == name for call in many) - sum(call[0] == name for call in few)) / MORE

        numbers = {name: each(name) for name in f"{CHANGES},{SYNCS}".split(",")}
        wrong = unordered(many, MORE)
    wanted = {"write": 1, "pwrite64": 1, "fdatasync": 1}
    passed = wrong == 0 and all(number == wanted.get(name, 0) for name, number in numbers.items())
    shown = ", ".join(f"{number:g} {name}" for name, number in numbers.items() if number or name in wanted)
    report("acknowledged write", passed, f"{shown} each over {MORE} writes, {wrong} replies out of order")


if __name__ == "__main__":
    main()
