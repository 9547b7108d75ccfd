"""Damaged databases are answered as a plain reader has them: each reply, the exit status, and the bytes of every file behind it.

Databases are drawn, and then something else's hand changes their files (`drawn.py`). On each a run is asked for a statement or a few, or for a job
by words. What it says and leaves is judged by `reader.py`, which says what the documents do and knows nothing of the program. A refused statement,
and one that only reads, leaves every file byte for byte as it was; what an accepted one has written opens again, with the same pages.
"""

import collections
import os
import random
import re
import subprocess
import sys
import time

import drawn
from common import Folder, in_memory, report
from reader import NORMAL, Database, Gifts, Refused, guid_text, number, said_by

CASES, SEED, SECONDS = 12_000, 41, 20
HELD, REFUSED = re.compile(r"held \d+"), re.compile("^1: refused", re.MULTILINE)
HIDDEN = 64  # of the slot of page 0 so many bytes have no meaning
CLOCK = 300  # seconds by which the time of a history row may differ from now


class Case:
    """A run on a damaged database: what stands in the files before it, and what it is asked for."""

    def __init__(self, seed, index, bases):
        self.index = index
        chance = random.Random(f"{seed} {index}")
        asked = [*drawn.STATEMENTS, *drawn.WORDS, *drawn.OFTEN]
        self.kind = asked[index % len(asked)]
        base = drawn.base_for(chance, bases, self.kind)
        aimed = drawn.aim(chance, base, self.kind)
        self.files, self.told = drawn.damaged(chance, base, aimed, self.kind)
        self.words, script, self.kinds = drawn.asked(chance, base, self.kind, aimed)
        if script is not None:
            self.files["s"] = script.encode("ascii")

    def __str__(self):
        script = self.files.get("s", b"").decode("ascii").splitlines()
        return f"case {self.index}: {' '.join(self.words)} {script}; {'; '.join(self.told) or 'nothing was changed'}"


def kept(case):
    """The files of a case stay in a folder, for a look at them."""
    name = f"case.{case.index}"
    os.makedirs(name, exist_ok=True)
    for file, data in case.files.items():
        with open(os.path.join(name, file), "wb") as copy:
            copy.write(data)
    print(f"{case}\n    its files are in {name}")


def written(folder, files):
    """The folder has these files and no others."""
    for name in set(os.listdir(folder.path)) - set(files):
        os.remove(folder.file(name))
    for name, data in files.items():
        with open(folder.file(name), "wb") as file:
            file.write(data)


def read(folder):
    """The bytes of every file."""
    files = {}
    for name in os.listdir(folder.path):
        with open(folder.file(name), "rb") as file:
            files[name] = file.read()
    return files


def run(folder, path, words):
    """What the program says, and its exit status."""
    ran = subprocess.run([path, *words], cwd=folder.path, stdout=subprocess.PIPE, stderr=subprocess.DEVNULL, timeout=SECONDS, check=False)
    return ran.stdout.decode("latin-1"), ran.returncode


class Wrong(Exception):
    """What differs."""


def gifts_of(case, said, files):
    """The GUIDs and times that the outside drew in a run, found where the reader has them."""
    gifts = Gifts()
    wanted, _, left = said_by(case.files, case.words, gifts)
    guids = list(gifts.given)
    for place, guid in enumerate(gifts.given):
        at = wanted.find(guid_text(guid))
        if at >= 0:
            text = said[at : at + 36].replace("-", "")
            guids[place] = bytes.fromhex(text) if re.fullmatch("[0-9a-f]{32}", text) else guid
        elif left[drawn.NAME][32:48] == guid:
            guids[place] = files[drawn.NAME][32:48]
    if any(guid[6] >> 4 != 4 or guid[8] >> 6 != 2 for guid in guids if guid not in gifts.given):
        raise Wrong(f"a GUID isn't drawn: {[guid_text(guid) for guid in guids]}")
    times = [number(files[drawn.NAME], place, 8) for place in gifts.places]
    if any(abs(seconds - time.time()) > CLOCK for seconds in times):
        raise Wrong(f"a time isn't now: {times}")
    return Gifts(guids, times)


def meant(files):
    """The files without the bytes that have no meaning: the first ones of the slot of page 0."""
    db = Database(files, drawn.NAME, None)
    try:
        db.open()
    except Refused:
        return files
    if db.state == NORMAL or 0 not in db.slots:
        return files
    at = db.slots[0] * db.size
    return {**files, drawn.DELTA: files[drawn.DELTA][:at] + bytes(HIDDEN) + files[drawn.DELTA][at + HIDDEN :]}


def differs(files, wanted):
    """The first place at which files differ, and None where they don't."""
    if files == wanted:
        return None
    files, wanted = meant(files), meant(wanted)
    for name in sorted(set(files) | set(wanted)):
        one, other = files.get(name), wanted.get(name)
        if one is None or other is None:
            return f"{name} is {'missing' if one is None else 'there'}"
        if one != other:
            at = next((at for at, pair in enumerate(zip(one, other)) if pair[0] != pair[1]), min(len(one), len(other)))
            return f"{name} of {len(one)} bytes, not {len(other)}, has {one[at : at + 16].hex()} at {at}, not {other[at : at + 16].hex()}"
    return None


def judge(folder, path, case):
    """Raises what differs, and answers how many statements are refused. How many pages are in memory is left open."""
    written(folder, case.files)
    said, status = run(folder, path, case.words)
    said, files = HELD.sub("held HELD", said), read(folder)
    wanted, wanted_status, left = said_by(case.files, case.words, Gifts() if files == case.files else gifts_of(case, said, files))
    if said != wanted or status != wanted_status:
        raise Wrong(f"it says {said!r} and ends with {status}, not {wanted!r} with {wanted_status}")
    difference = differs(files, left)
    if difference:
        raise Wrong(f"behind {said!r} {difference}")
    if files != case.files:
        reopen(folder, path, files)
    return len(REFUSED.findall(said))


def reopen(folder, path, files):
    """What was written opens again, with the pages that the reader sees."""
    is_long = Database(files, drawn.NAME, None)
    is_long.open()
    script = f"1: open '{drawn.NAME}'\n1: show header\n" + ("" if is_long.count > 20_000 else "1: show pages\n1: show image\n")
    files = {**files, "again": script.encode("ascii")}
    written(folder, files)
    said, status = run(folder, path, ["run", "again"])
    wanted, wanted_status, _ = said_by(files, ["run", "again"], Gifts())
    if (said, status) != (wanted, wanted_status):
        raise Wrong(f"opened again it says {said!r} and ends with {status}, not {wanted!r} with {wanted_status}")


def arguments():
    """The program, the seed, and the one case that is to be made again, if there is one."""
    if not 2 <= len(sys.argv) <= 4 or not os.access(sys.argv[1], os.X_OK):
        sys.exit(f"usage: {sys.argv[0]} PROGRAM [SEED [CASE]]")
    numbers = [int(word) for word in sys.argv[2:]]
    return os.path.abspath(sys.argv[1]), *(numbers + [SEED, None][len(numbers) :])


def main():
    path, seed, only = arguments()
    in_memory()
    bases = drawn.bases(random.Random(f"{seed}"))
    kinds, refused, wrong = collections.Counter(), 0, 0
    with Folder() as folder:
        for index in range(CASES) if only is None else [only]:
            case = Case(seed, index, bases)
            kinds.update(case.kinds)
            if only is not None:
                kept(case)
            try:
                refused += judge(folder, path, case)
            except (Wrong, subprocess.TimeoutExpired) as fault:
                wrong += 1
                print(f"seed {seed}, {case}\n    {fault}", flush=True)
    counts = ", ".join(f"{count} {kind}" for kind, count in kinds.items())
    report("damaged", wrong == 0, f"{CASES if only is None else 1} cases from seed {seed} ({counts}), {refused} refused, {wrong} differ")


if __name__ == "__main__":
    main()
