"""The trials of `nb_trials`, played on real files by the built program.

`crates/nb_trials/stdin` says at its head how a trial is written. Here a trial that is judged wherever it is stopped is taken apart: the runs of its
steps, each with the files that it begins with, and the rows of what may be said of the files that a run leaves. A measurement cuts each run short
in its own way, and asks `is_right` of what is left. GUIDs are drawn anew on real files: the k-th that is said stands for the k-th that a host in
memory draws.
"""

import itertools
import os
import re
import subprocess

TEXT = os.path.join(os.path.dirname(os.path.abspath(__file__)), "..", "crates", "nb_trials", "stdin")
INDENT = "    "
PAGE_SIZE = 1024
GUID = re.compile(r"[0-9a-f]{8}(?:-[0-9a-f]{4}){3}-[0-9a-f]{12}")
NIL = "00000000-0000-0000-0000-000000000000"
SECONDS = 20  # within which each run of the program ends


def bytes_of(text):
    """`00*12 ff` are twelve zeros and a byte."""
    groups = [(word.split("*") + ["1"])[:2] for word in text.split()]
    return b"".join(bytes([int(byte, 16)]) * int(count) for byte, count in groups)


def text_of(data):
    """The same the other way round: from four equal bytes on they are written once."""
    runs = [(byte, len(list(run))) for byte, run in itertools.groupby(data)]
    return "".join(f" {byte:02x}*{count}" if count >= 4 else f" {byte:02x}" * count for byte, count in runs)


def text_below(lines):
    """A script, whose lines may begin with `each FIRST LAST`."""
    text = []
    for line in (line.removeprefix(INDENT) for line in lines):
        words = line.split(" ", 3)
        if words[0] == "each":
            text += [words[3].replace("#", str(number)) for number in range(int(words[1]), int(words[2]) + 1)]
        else:
            text.append(line)
    return "".join(line + "\n" for line in text).encode("ascii")


class Trial:
    """The lines of a trial, taken apart."""

    def __init__(self, lines):
        self.name = lines[0].removeprefix("== ")
        body = lines[1:]
        look, rows = (next((at for at, line in enumerate(body) if line == word), len(body)) for word in ("look", "rows"))
        begin = next((at for at, line in enumerate(body[:look]) if line.split(" ")[0] == "begin"), look)
        behind = next((at for at in range(rows + 1, len(body)) if not body[at].startswith(INDENT)), len(body))
        self.before, self.steps = steps_of(body[:begin]), steps_of(body[begin + 1 : look])
        self.kept = body[begin].split(" ")[1:] if begin < look else []
        self.look, self.rows = steps_of(body[look + 1 : rows]), [row.strip() for row in body[rows + 1 : behind]]
        self.verdicts = body[behind:]
        self.ends = next((line.split(" ")[1:] for line in self.verdicts if line.startswith("ends ")), None)
        # Whether it is judged wherever it is stopped, and not at one place alone.
        self.is_whole = any(re.fullmatch("stops [0-9]+", line) for line in self.verdicts)


def steps_of(lines):
    """Each line with those below it."""
    steps = []
    for line in lines:
        if line.startswith(INDENT):
            steps[-1][1].append(line)
        else:
            steps.append((line, []))
    return steps


def all_trials():
    """Each trial of the text."""
    with open(TEXT, encoding="utf-8") as text:
        lines = [line for line in text.read().splitlines() if line and not line.startswith("#")]
    starts = [at for at, line in enumerate(lines) if line.startswith("== ")] + [len(lines)]
    return [Trial(lines[start:end]) for start, end in zip(starts, starts[1:])]


def trials():
    """Those that are judged wherever they are stopped."""
    return [trial for trial in all_trials() if trial.is_whole]


class Ended(Exception):
    """A run came to no end of its own: its status."""


class Files:
    """A folder with the files of a trial, and the program that works on them."""

    def __init__(self, folder, program):
        self.folder, self.program, self.guids = folder, program, []

    def names(self):
        return [os.path.relpath(os.path.join(at, name), self.folder.path) for at, _, names in os.walk(self.folder.path) for name in names]

    def read(self, name):
        try:
            with open(self.folder.file(name), "rb") as file:
                return file.read()
        except FileNotFoundError:
            return None

    def write(self, name, data):
        with open(self.folder.file(name), "wb") as file:
            file.write(data)

    def keep(self, names):
        for name in set(self.names()) - set(names):
            os.remove(self.folder.file(name))

    def all(self):
        """The bytes of every file, and the GUIDs that were said."""
        return {name: self.read(name) for name in self.names()}, list(self.guids)

    def restore(self, state):
        files, guids = state
        self.keep(files)
        for name, data in files.items():
            self.write(name, data)
        self.guids = list(guids)

    def named(self, text):
        """The text with the k-th GUID that is said as a host in memory draws it. One that the trial itself wrote, which looks like that, stays."""
        drawn = [guid for guid in GUID.findall(text) if not guid.startswith(NIL[:-12])]
        self.guids.extend(guid for guid in dict.fromkeys(drawn) if guid not in self.guids)
        return GUID.sub(lambda guid: f"{NIL[:-12]}{self.guids.index(guid[0]) + 1:012}" if guid[0] in self.guids else guid[0], text)

    def word(self, word):
        """The GUID that a word stands for."""
        is_drawn = GUID.fullmatch(word) and word != NIL and int(word[-12:]) <= len(self.guids)
        return self.guids[int(word[-12:]) - 1] if is_drawn else word

    def drawn(self, data):
        """The bytes of the GUID that these stand for."""
        number = int.from_bytes(data, "big")
        return bytes.fromhex(self.guids[number - 1].replace("-", "")) if len(data) == 16 and 0 < number <= len(self.guids) else data

    def start(self, words, wrap=(), **options):
        """Runs the program: what it says, and its status."""
        command = [*wrap, self.program, *map(self.word, words)]
        ran = subprocess.run(command, cwd=self.folder.path, stdout=subprocess.PIPE, stderr=subprocess.PIPE, timeout=SECONDS, check=False, **options)
        return self.named(ran.stdout.decode("ascii")), ran.returncode, ran.stderr.decode("utf-8", "replace")

    def words_of(self, step):
        """The words of a step that is a run; its script is placed."""
        line, below = step
        if line == "run":
            self.write("s", text_below(below))
            return ["run", "s"]
        return line.split()[1:] if line.startswith("words") else None

    def play(self, steps):
        """What the steps tell, up to a run that ends with a failure."""
        told = ""
        for step in steps:
            words = self.words_of(step)
            if words is None:
                told += self.do(*step)
                continue
            said, status, _ = self.start(words)
            told += said
            if status not in (0, 1, 2):
                raise Ended(f"status {status}")
        return told

    def do(self, line, below):
        """A step that is no run: a file is changed, or something is told of it."""
        verb, name, *rest = line.split(" ", 2)
        rest = rest[0] if rest else ""
        file = self.read(name)
        if verb == "keep":
            self.keep(line.split(" ")[1:])
            self.guids = []
        elif verb == "text":
            self.write(name, text_below(below))
        elif verb == "put":
            self.write(name, bytes_of(rest))
        elif verb == "set":
            at, data = int(rest.split(" ")[0]), self.drawn(bytes_of(rest.split(" ", 1)[1]))
            self.write(name, file[:at] + data + file[at + len(data) :])
        elif verb == "cut":
            self.write(name, file[: int(rest)])
        elif verb == "copy":
            self.write(name, self.read(rest))
        else:
            return f"{name}: {'none' if file is None else self.shown(verb, file, rest)}\n"
        return ""

    def shown(self, verb, file, rest):
        """What is told of a file that is there."""
        words = rest.split(" ")
        if verb == "length":
            return f"{len(file)} bytes"
        if verb == "bytes":
            return f"at {words[0]}{text_of(file[int(words[0]) : int(words[0]) + int(words[1])])}"
        if verb == "same":
            return either(file == self.read(rest), "as the other")
        if verb == "between":
            return either(is_between(file, self.read(words[0]), self.read(words[1])), "between the others")
        if verb == "torn":
            whole = self.read(rest)
            return either(len(file) <= len(whole) and all(left in (0, byte) for left, byte in zip(file, whole)), "a front of the other")
        if verb == "entered":
            return either(are_entered(file), "entered")
        raise ValueError(verb)


def either(is_so, what):
    return what if is_so else f"not {what}"


def is_between(file, old, new):
    """Whether each page is as in one of the others."""
    if old is None or new is None or not len(file) == len(old) == len(new):
        return False
    pages = ([data[at : at + PAGE_SIZE] for at in range(0, len(file), PAGE_SIZE)] for data in (file, old, new))
    return all(page in others for page, *others in zip(*pages))


def are_entered(file):
    """Whether no page but the SCN page, which is page 2, has a stamp above its SCN entry."""
    number = lambda at: int.from_bytes(file[at : at + 4], "little")
    return all(page == 2 or number(page * PAGE_SIZE + 8) <= number(2 * PAGE_SIZE + 32 + 4 * page) for page in range(1, min(len(file) // PAGE_SIZE, 101)))


def is_cell(line, cell):
    """Whether a line is one of the choices; a `*` stands for the rest of it."""
    return any(line.startswith(choice[:-1]) if choice.endswith("*") else line == choice for choice in cell.split(" or "))


def may_be_said(rows, replies, said):
    """Whether a row allows that after so many replies."""
    lines = said.splitlines()
    for row in rows:
        numbers, *cells = row.split("|")[:-1]
        first, last = (numbers.split("-") * 2)[:2]
        if int(first) <= replies <= int(last) and len(cells) == len(lines) and all(map(is_cell, lines, cells)):
            return True
    return False


def ends_well(trial, files, said):
    """Whether `-N` ends a backup of which a look has told, and the same look then tells the same in the normal state."""
    if trial.ends is None or " state " not in said:
        return True
    db, scn = trial.ends
    front, rest = said.split(" state ", 1)
    was_under_way = rest[0] != "0"
    ended = f"1: ok scn {scn}\n" if was_under_way else "1: refused 6 WrongState 0\n"
    wanted = f"{ended}{front} state 0{rest[1:]}"
    is_said = files.start(["-N", db])[0] + files.play(trial.look) == wanted
    return is_said and not (was_under_way and os.path.exists(files.folder.file(f"{db}.delta")))


def what_is_wrong(trial, files, replies):
    """What the look tells where the files aren't what they may be after so many replies, and None where they are."""
    try:
        said = files.play(trial.look)
        if may_be_said(trial.rows, replies, said) and ends_well(trial, files, said):
            return None
    except Ended as ended:
        said = f"{ended}\n"
    return f"{trial.name}: {replies} replies, and then {said.splitlines()}"


class Run:
    """A run of a trial's steps: its words, the files that it begins with, what it says, its status, and what was said before it."""

    def __init__(self, words, state, said, status, before):
        self.words, self.state, self.said, self.status, self.before = words, state, said, status, before

    def replies(self, said):
        """How many replies there are behind a run that said so much."""
        return (self.before + said).count("\n")

    def is_front(self, said):
        """Whether that is a front of what the run says by itself: whole replies, but for one that was cut."""
        return self.said.startswith(said)


def runs_of(trial, files):
    """The runs of the trial's steps, none of which is cut short."""
    files.keep([])
    files.guids = []
    files.play(trial.before)
    files.keep(trial.kept)
    runs, before = [], ""
    for step in trial.steps:
        words = files.words_of(step)
        if words is None:
            files.do(*step)
            continue
        state = files.all()
        said, status, _ = files.start(words)
        runs.append(Run(words, state, said, status, before))
        before += said
    return runs
