"""A program that is killed after a reply has lost nothing of it.

Each run is killed by SIGKILL in its middle, after some replies. Every reply that reached the pipe counts as
acknowledged. In half of the runs one session writes, and then the file itself is read: each page has the text of its last
acknowledged write, or that of the one write that was under way. In the others a second session makes backups of level 0,
begins backups by hand and ends them, so that writes go to the difference file and pages are merged when the kill comes (the database is killed in the stalled and in the merge state); there the
program reads the pages, in whatever state the database is, and once more when the backup is ended, and every level file
that had a reply is restored.
"""

import os
import random
import re
import subprocess

from common import CREATE, PAGE_SIZE, Folder, program, report, text_of, write_line, writes

RUNS, WRITES = 25, 4000
CYCLES, APART = 12, 60  # backups of each kind, and statements between a begin and its end
TEXT = re.compile(rb"1: ok '(.*)'")


def replies_of(folder, path, stop_after):
    """Runs the script, kills the program after `stop_after` replies, and answers the replies."""
    for name in os.listdir(folder.path):
        if name.startswith(("x.db", "b.", "r.")):
            os.remove(folder.file(name))
    running = folder.start([path, "run", "script"])
    output = b""
    while output.count(b"\n") < stop_after:
        read = running.stdout.read(4096)
        if not read:
            break
        output += read
    running.kill()
    output += running.stdout.read()
    running.stdout.close()
    running.wait()
    replies = output.split(b"\n")[:-1]  # A line without its end is no reply.
    if any(b"refused" in reply for reply in replies):
        report("killed", False, f"a reply is {[reply for reply in replies if b'refused' in reply][0]!r}")
    return replies


def wanted_texts(count, made):
    """What may stand on each page, where so many writes had their replies."""
    wanted = {}
    for page, text in made[:count]:
        wanted[page] = {text}
    for page, text in made[count : count + 1]:
        wanted.setdefault(page, {""}).add(text)
    return wanted


def lost_in_file(folder, wanted):
    """How many pages of the file lack the text of their last acknowledged write."""
    if not os.path.exists(folder.file("x.db")):
        report("killed", False, "no database was made")
    with open(folder.file("x.db"), "rb") as file:
        image = file.read()
    return sum(text_of(image[page * PAGE_SIZE : (page + 1) * PAGE_SIZE]) not in texts for page, texts in wanted.items())


def lost_by_reading(folder, path, wanted, first):
    """How many pages lack it as the program reads them, behind this statement."""
    folder.write_script("check", ["1: open 'x.db'"] + first + [f"1: read {page}" for page in wanted])
    output, _ = folder.start([path, "run", "check"]).communicate()
    found = [text[1].decode("ascii") for text in map(TEXT.fullmatch, output.split(b"\n")) if text]
    if len(found) != len(wanted):
        report("killed", False, f"pages are not read: {output[-200:]!r}")
    return sum(text not in texts for text, texts in zip(found, wanted.values()))


def broken_levels(folder, path, replies):
    """How many of the level files that had a reply are not restored."""
    made = sum(reply.startswith(b"2: ok level 0 ") for reply in replies)
    return sum(folder.start([path, "-R", f"r.{index}", f"b.{index}"]).wait() != 0 for index in range(made)), made


def beside(made):
    """A script whose second session backs up while the first writes."""
    lines = [CREATE] + [write_line(*write) for write in made]
    for index in range(CYCLES):
        lines += [f"2: backup 0 to 'b.{index}'", "2: alter database begin backup"]
        lines += [f"2: read {5 + index}"] * APART + ["2: alter database end backup"]
    return lines


def main():
    path = program()
    made = writes(WRITES)
    chance = random.Random(1)
    kept = gone = whole = levels = broken = 0
    states = set()
    with Folder() as folder:
        for run in range(2 * RUNS):
            is_alone = run < RUNS
            folder.write_script("script", [CREATE] + [write_line(*write) for write in made] if is_alone else beside(made[: WRITES // 2]))
            replies = replies_of(folder, path, chance.randrange(2, WRITES // 2))
            count = max(sum(reply.startswith(b"1: ok") for reply in replies) - 1, 0)
            wanted = wanted_texts(count, made)
            kept += count
            whole += count == (WRITES if is_alone else WRITES // 2)
            if is_alone:
                gone += lost_in_file(folder, wanted)
                continue
            with open(folder.file("x.db"), "rb") as file:
                states.add(file.read(24)[22])
            gone += lost_by_reading(folder, path, wanted, [])
            bad, all_levels = broken_levels(folder, path, replies)
            broken, levels = broken + bad, levels + all_levels
            gone += lost_by_reading(folder, path, wanted, ["1: alter database end backup"])
    passed = gone == broken == 0 and kept > 0 and whole < RUNS and states >= {1, 2}
    report(
        "killed",
        passed,
        f"{gone} pages lost, {kept} writes acknowledged in {RUNS} runs and in {RUNS} with backups beside, killed in the states {sorted(states)}; "
        f"{broken} of {levels} level files broken; {whole} runs not killed in time",
    )


if __name__ == "__main__":
    main()
