"""No disk that fills up, no limit on the size of files and no power cut within a write leaves a database that doesn't open, or loses what was acknowledged.

    python3 bench/full.py PROGRAM

Jobs that make files grow (new pages, first writes in a difference file, a merge, a history that needs another page, a level 0, a restore, a
creation) are run

- on a tmpfs of each size from what the job finds there to what it takes, in steps of 4,096 bytes, half a page (as root alone),
- under `ulimit -f` at each size from 0 to the longest file that is left, in steps of half a page, with the signal SIGXFSZ ignored and taken,
- to their end, traced by strace. Then for each `pwrite64` the files are put back as they were before it, with a front of its bytes that
  ends half a page behind a page's start: the first, the middle and the last page of the write. And for each length that is set, as
  they were behind it.

Behind each of these, with room again, the database is opened, every page whose write had its reply is read, and the job is given once more, which
must end. The table says how many times each was tried, how often the job was stopped by it, and what went wrong.
"""

import os
import re
import resource
import shutil
import signal
import subprocess
import sys
import time

from common import FIRST_RAW, Folder, program, report

PAGE, RAW = 8192, 8
STEP = PAGE // 2
SEVERAL = 12  # statements, pages and writes of a job
CALL = re.compile(r'(\w+)\((?:(?:\d+|AT_FDCWD)<([^>]*)>)?(?:, )?(?:"((?:\\x[0-9a-f]{2})*)")?([^"]*)\)\s+= (-?\d+)')
CREATE = f"1: create database 'x.db' page_size {PAGE} raw {RAW}"
OPEN = "1: open 'x.db'"


def unhexed(text):
    return bytes.fromhex(text.replace("\\x", ""))


class Place:
    """A folder, and the program that runs there."""

    def __init__(self, path, nehumiro):
        self.path, self.nehumiro = path, nehumiro

    def file(self, name):
        return os.path.join(self.path, name)

    def fill(self, files):
        """Leaves these files and no others."""
        for name in os.listdir(self.path):
            os.remove(self.file(name))
        for name, content in files.items():
            with open(self.file(name), "wb") as file:
                file.write(content)

    def files(self):
        found = {}
        for name in os.listdir(self.path):
            with open(self.file(name), "rb") as file:
                found[name] = file.read()
        return found

    def run(self, words, before=(), prepare=None):
        """The exit status and the replies."""
        ran = subprocess.run([*before, self.nehumiro, *words], cwd=self.path, stdout=subprocess.PIPE, stderr=subprocess.DEVNULL, preexec_fn=prepare, check=False)
        return ran.returncode, ran.stdout.decode().splitlines()

    def script(self, lines, name="s"):
        with open(self.file(name), "w", encoding="ascii") as script:
            script.write("".join(line + "\n" for line in lines))
        return self.run(["run", name])

    def must(self, ran):
        if ran[0] != 0:
            raise SystemExit(f"a job that nothing stops ended with {ran}")
        return ran[1]


class Job:
    """What is run, on which files, and what must stand behind it."""

    def __init__(self, name, files, words, texts=(), database="x.db", again=None):
        self.name, self.files, self.words, self.database = name, files, words, database
        self.texts = dict(texts)  # of pages, acknowledged before
        self.again = again or (lambda place: place.run(self.words)[0] == 0)

    def acknowledged(self, replies):
        """The texts that must be read, behind so many replies."""
        return self.texts

    def is_made(self, replies):
        """Whether the database must be there."""
        return True

    def wrong(self, place, replies):
        """What is wrong with the files as they are: unopenable, missing or unfinished."""
        texts = self.acknowledged(replies)
        if self.is_made(replies):
            status, read = place.script([f"1: open '{self.database}'", "1: show pages"] + [f"1: read {page}" for page in texts], "look")
            if status != 0 or len(read) != 2 + len(texts):
                return ["unopenable" if len(read) < 2 or "refused" in read[0] else "missing"]
            if any(line != f"1: ok '{text}'" for line, text in zip(read[2:], texts.values())):
                return ["missing"]
        return [] if self.again(place) else ["unfinished"]


class Statements(Job):
    """A script, of whose replies each says what is acknowledged."""

    def __init__(self, name, files, lines, texts, whole):
        script = "".join(line + "\n" for line in lines).encode()
        super().__init__(name, {**files, "s": script}, ["run", "s"], texts, again=self.goes_on)
        self.lines, self.whole = lines, whole

    def acknowledged(self, replies):
        texts = dict(self.texts)
        for line, reply in zip(self.lines, self.whole[: len(replies)]):
            if line.endswith("page new"):
                texts[int(reply.split()[-1])] = ""
            elif " write " in line:
                texts[int(line.split()[2])] = line.split("'")[1]
        # The write that had no reply may be there or not.
        if len(replies) < len(self.lines) and " write " in self.lines[len(replies)]:
            texts.pop(int(self.lines[len(replies)].split()[2]), None)
        return texts

    def is_made(self, replies):
        return bool(replies) or "x.db" in self.files

    def goes_on(self, place):
        """More pages can be made; a database that isn't there can be created."""
        first = OPEN if place.script([OPEN], "look")[0] == 0 else CREATE
        return place.script([first, "1: page new", "1: page new"], "more")[0] == 0


def filled(place, texts, prefix, pages):
    lines = [f"1: write {page} '{prefix} {page}'" for page in pages]
    texts.update({page: f"{prefix} {page}" for page in pages})
    return lines


def new_pages(place):
    place.fill({})
    texts = {}
    place.must(place.script([CREATE] + filled(place, texts, "first", range(FIRST_RAW, FIRST_RAW + RAW))))
    files = {"x.db": place.files()["x.db"]}
    pages = [int(reply.split()[-1]) for reply in place.must(place.script([OPEN] + ["1: page new"] * SEVERAL))[1:]]
    lines = [OPEN]
    for page in pages:
        lines += ["1: page new", f"1: write {page} 'new {page}'"]
    place.fill(files)
    return Statements("new pages", files, lines, texts, place.must(place.script(lines)))


def creation(place):
    place.fill({})
    lines = [CREATE] + [f"1: write {page} 'made {page}'" for page in range(FIRST_RAW, FIRST_RAW + RAW)]
    return Statements("a creation", {}, lines, {}, place.must(place.script(lines)))


def stalled(place):
    """First writes of pages, and new ones, go to the difference file."""
    place.fill({})
    texts = {}
    place.must(place.script([CREATE] + filled(place, texts, "first", range(FIRST_RAW, FIRST_RAW + RAW))))
    place.must(place.run(["-L", "x.db"]))
    files = {name: content for name, content in place.files().items() if name.startswith("x.db")}
    lines = [OPEN, "1: page new"] + [f"1: write {page} 'stalled {page}'" for page in range(FIRST_RAW, FIRST_RAW + RAW)] + ["1: page new"]
    return Statements("a difference file", files, lines, texts, place.must(place.script(lines)))


def unlocked(place):
    """The merge is ended, which may be done already."""
    _, replies = place.run(["-N", "x.db"])
    return bool(replies) and bool(re.fullmatch(r"1: ok scn \d+|1: refused 6 WrongState 0", replies[0]))


def merge(place):
    place.fill({})
    texts = {}
    place.must(place.script([CREATE] + filled(place, texts, "first", range(FIRST_RAW, FIRST_RAW + RAW))))
    place.must(place.run(["-L", "x.db"]))
    made = place.must(place.script([OPEN] + ["1: page new"] * SEVERAL))[1:]
    pages = [FIRST_RAW, FIRST_RAW + 3] + [int(reply.split()[-1]) for reply in made]
    place.must(place.script([OPEN] + filled(place, texts, "meanwhile", pages)))
    files = {name: content for name, content in place.files().items() if name.startswith("x.db")}
    return Job("a merge", files, ["-N", "x.db"], texts, again=unlocked)


def backed_up(place):
    return unlocked(place) and place.run(["-B", "0", "x.db", "again.0"])[0] == 0


def level_0(place):
    place.fill({})
    texts = {}
    place.must(place.script([CREATE] + filled(place, texts, "first", range(FIRST_RAW, FIRST_RAW + RAW))))
    files = {"x.db": place.files()["x.db"]}
    return Job("a level 0", files, ["-B", "0", "x.db", "a.0"], texts, again=backed_up)


def history(place):
    """Of a database whose history fills its page."""
    place.fill({})
    texts = {}
    place.must(place.script([CREATE] + filled(place, texts, "first", range(FIRST_RAW, FIRST_RAW + RAW))))
    for count in range(1000):
        files = {"x.db": place.files()["x.db"]}
        place.must(place.run(["-B", "1" if count else "0", "x.db", f"l.{count}"]))
        os.remove(place.file(f"l.{count}"))
        if len(place.files()["x.db"]) > len(files["x.db"]):
            return Job("a history's page", files, ["-B", "1", "x.db", "a.1"], texts, again=backed_up)
    raise SystemExit("the history of 1,000 backups took no further page")


def restored(place):
    """The restore is whole, or can be made."""
    opens = place.script(["1: open 'r.db'", f"1: read {FIRST_RAW}"], "look")[0] == 0
    return opens or (place.run(["-R", "r.db", "a.0", "a.1"])[0] == 0 and place.script(["1: open 'r.db'", f"1: read {FIRST_RAW}"], "look")[0] == 0)


def restore(place):
    place.fill({})
    texts = {}
    place.must(place.script([CREATE] + filled(place, texts, "first", range(FIRST_RAW, FIRST_RAW + RAW))))
    place.must(place.run(["-B", "0", "x.db", "a.0"]))
    place.must(place.script([OPEN, "1: page new"] + filled(place, texts, "second", [FIRST_RAW + 1])))
    place.must(place.run(["-B", "1", "x.db", "a.1"]))
    files = {name: content for name, content in place.files().items() if name in ("x.db", "a.0", "a.1")}
    return Job("a restore", files, ["-R", "r.db", "a.0", "a.1"], texts, again=restored)


def limited(size, taken):
    def prepare():
        signal.signal(signal.SIGXFSZ, signal.SIG_DFL if taken else signal.SIG_IGN)
        resource.setrlimit(resource.RLIMIT_CORE, (0, 0))
        resource.setrlimit(resource.RLIMIT_FSIZE, (size, size))

    return prepare


def limits(place, job, taken):
    """Under `ulimit -f`, at each size."""
    place.fill(job.files)
    place.must(place.run(job.words))
    longest = max(map(len, place.files().values()))
    for size in range(0, longest + 1, STEP):
        place.fill(job.files)
        status, replies = place.run(job.words, prepare=limited(size, taken))
        yield status != 0, job.wrong(place, replies)


class Tmpfs:
    """A file system in memory, whose size can be changed."""

    def __init__(self, path):
        self.path = path
        self.is_there = subprocess.run(["mount", "-t", "tmpfs", "-o", "size=64m", "tmpfs", path], stderr=subprocess.DEVNULL, check=False).returncode == 0

    def resize(self, size):
        subprocess.run(["mount", "-o", f"remount,size={size}", self.path], check=True)

    def used(self):
        found = os.statvfs(self.path)
        return (found.f_blocks - found.f_bfree) * found.f_frsize

    def close(self):
        if self.is_there:
            subprocess.run(["umount", self.path], check=True)


def full_disks(place, job, disk):
    """On a disk of each size, until the job ends."""
    place.fill(job.files)
    size = disk.used()
    stopped = True
    while stopped:
        place.fill(job.files)
        disk.resize(size)
        status, replies = place.run(job.words)
        disk.resize(64 << 20)
        stopped = status != 0
        yield stopped, job.wrong(place, replies)
        size += STEP


def calls(place, job):
    """What a run calls that changes files, and what it says, in order: (name, call, value)."""
    place.fill(job.files)
    trace = os.path.join(place.path, "trace")
    names = "openat,pwrite64,ftruncate,unlink,unlinkat,write"
    place.must(place.run(job.words, ["strace", "-f", "-qq", "-y", "-xx", "-s", str(1 << 20), "-e", f"trace={names}", "-o", trace]))
    with open(trace, encoding="ascii") as lines:
        for line in lines:
            found = CALL.search(line)
            if not found or int(found[5]) < 0:
                continue
            call, held, text, rest, result = found.groups()
            name = os.path.basename(unhexed(text if call in ("openat", "unlink", "unlinkat") else held or "").decode("ascii", "replace"))
            if call == "write" and line.split("(")[1].startswith("1<"):
                yield "", "say", unhexed(text)
            elif call == "openat" and "O_CREAT" in rest:
                yield name, "make", None
            elif call.startswith("unlink"):
                yield name, "remove", None
            elif call == "ftruncate":
                yield name, "resize", int(rest.split(",")[-1])
            elif call == "pwrite64":
                yield name, "put", (int(rest.split(",")[-1]), unhexed(text))
    os.remove(trace)


def put(content, at, written):
    content.extend(bytes(max(0, at - len(content))))
    content[at : at + len(written)] = written


def cuts(place, job):
    """Each write that a run makes, cut half a page behind the start of a page of it."""
    files = {name: bytearray(content) for name, content in job.files.items()}
    replies = 0
    for name, call, value in list(calls(place, job)):
        if call == "say":
            replies += value.count(b"\n")
        elif call == "make":
            files[name] = bytearray()
        elif call == "remove":
            del files[name]
        elif call == "resize":
            del files[name][value:]
            put(files[name], value, b"")
            place.fill({name: bytes(content) for name, content in files.items()})
            yield True, job.wrong(place, [""] * replies)
        else:
            at, written = value
            pages = len(written) // PAGE
            for front in sorted({STEP, pages // 2 * PAGE + STEP, max(pages - 1, 0) * PAGE + STEP}):
                if front < len(written):
                    left = {name: bytes(content) for name, content in files.items()}
                    cut = bytearray(left[name])
                    put(cut, at, written[:front])
                    place.fill({**left, name: bytes(cut)})
                    yield True, job.wrong(place, [""] * replies)
            put(files[name], at, written)


def main():
    path = program()
    if not shutil.which("strace"):
        sys.exit("strace is not installed: apt-get install strace")
    began = time.monotonic()
    lines, tried, wrong = [], 0, {"unopenable": 0, "missing": 0, "unfinished": 0}
    with Folder() as folder:
        disk = Tmpfs(folder.path)
        place = Place(folder.path, path)
        try:
            jobs = [make(place) for make in (new_pages, stalled, merge, history, level_0, restore, creation)]
            kinds = {
                "full disk": lambda job: full_disks(place, job, disk),
                "limit": lambda job: limits(place, job, taken=False),
                "limit, signal taken": lambda job: limits(place, job, taken=True),
                "cut write": lambda job: cuts(place, job),
            }
            if not disk.is_there:
                print("full: mounting is not allowed here, so full disks are not tried")
                del kinds["full disk"]
            for kind, trial in kinds.items():
                for job in jobs:
                    row = {"tried": 0, "stopped": 0, "unopenable": 0, "missing": 0, "unfinished": 0}
                    for stopped, found in trial(job):
                        row["tried"] += 1
                        row["stopped"] += stopped
                        for what in found:
                            row[what] += 1
                    lines.append((kind, job.name, row))
                    tried += row["tried"]
                    for what in wrong:
                        wrong[what] += row[what]
        finally:
            disk.close()
    print(f"{'':22}{'':18}" + "".join(f"{what:>12}" for what in lines[0][2]))
    for kind, name, row in lines:
        print(f"{kind:22}{name:18}" + "".join(f"{count:12}" for count in row.values()))
    seconds = time.monotonic() - began
    said = f"{tried} trials, {wrong['unopenable']} databases unopenable, {wrong['missing']} with an acknowledged write missing, {wrong['unfinished']} jobs that didn't end with room again, {seconds:.0f} s"
    report("full", not any(wrong.values()), said)


if __name__ == "__main__":
    main()
