"""A long run loses nothing: 100,000 drawn statements of four sessions, with backups, chains and restores between, beside a model of them.

The model has the pages that are taken, their texts, the rows of the tables and the SCNs, as maps, and says what each statement answers, in the
order of the turns: of two sessions' statements the schedule says which one comes first. While the first three sessions write, read, make and give
back pages and rows, the fourth makes backups of levels and copies, each from the database as it stands in that turn. Between the scripts chains
are restored and copies fixed, and everything in them is read; every third time the database goes on from what was restored. The most memory and
the open files of each run are measured: neither grows with the statements.
"""

import collections
import copy
import io
import itertools
import os
import random
import re
import time

from common import Folder, in_memory, program, report

STATEMENTS, RUNS, SIZE, RAW = 100_000, 20, 1024, 200
LIMIT = 600  # seconds for all of it
TABLES = [f"t{number}" for number in range(14)]
KEYS = list(range(60)) + [(1 << 64) - 1 - number for number in range(20)]
MOST_TURNS, MOST_TABLES, ROWS_IN_PAGE = 4096, 12, (SIZE - 32) // 256
SCN_STEP, INVENTORY_STEP = (SIZE - 32) // 4, 8 * (SIZE - 32)
HEADER, INVENTORY, DATA, RAW_PAGE, SCN = 1, 2, 5, 8, 10
GUID = re.compile(r"[0-9a-f]{8}(?:-[0-9a-f]{4}){3}-[0-9a-f]{12}")
MORE_MEMORY, MORE_FILES = 1.25, 8  # the most memory as a part of the least, and the open files beside those that a script names to be made


class Chain:
    """Data pages one after another, and what stands in the places of each."""

    def __init__(self, page):
        self.places = {page: [None] * ROWS_IN_PAGE}

    def free_page(self):
        return next((page for page, places in self.places.items() if None in places), None)

    def page_of(self, value):
        return next(page for page, places in self.places.items() if value in places)

    def put(self, page, value, instead=None):
        self.places[page][self.places[page].index(instead)] = value


class Model:
    """A database as maps."""

    def __init__(self):
        self.kinds = dict(enumerate([HEADER, INVENTORY, SCN, DATA, DATA]))
        self.texts, self.free_pages, self.scn, self.history = {}, set(), 1, []
        self.diverted = None  # the pages in the difference file, while the main file is frozen
        self.stamps = collections.Counter({page: 1 for page in range(5)})
        self.entries = collections.Counter()
        self.catalogue, self.rows_of_history = Chain(3), Chain(4)
        self.tables, self.rows = {}, {}
        while len(self.texts) < RAW:
            self.page_new()

    def as_it_stands(self):
        """A copy in the normal state, with the same backups in its history."""
        other = copy.deepcopy(self, {id(self.history): list(self.history)})
        other.diverted = None
        return other

    def touch(self, page):
        """A page is written: its stamp, and its SCN entry with the stamp of the SCN page."""
        place = page // SCN_STEP * SCN_STEP or 2
        if page not in (0, place) and self.entries[page] < self.scn:
            self.entries[page] = self.scn
            self.touch(place)
        self.stamps[page] = self.scn
        if self.diverted is not None:
            self.diverted.add(page)

    def take(self, kind):
        """The page that a new page of the kind gets: the lowest free one, or one behind the last and its system pages."""
        if self.free_pages:
            page = min(self.free_pages)
            self.free_pages.remove(page)
        else:
            while True:
                page = len(self.kinds)
                if page % SCN_STEP and (page + 1) % INVENTORY_STEP:
                    break
                self.kinds[page] = INVENTORY if (page + 1) % INVENTORY_STEP == 0 else SCN
                self.touch_taken(page)
        self.kinds[page] = kind
        self.touch_taken(page)
        return page

    def touch_taken(self, page):
        """It is written, and so is its bit."""
        self.touch(page)
        self.touch(page // INVENTORY_STEP * INVENTORY_STEP - 1 if page >= INVENTORY_STEP else 1)

    def give(self, page):
        self.free_pages.add(page)
        self.touch(page // INVENTORY_STEP * INVENTORY_STEP - 1 if page >= INVENTORY_STEP else 1)

    def page_new(self):
        page = self.take(RAW_PAGE)
        self.texts[page] = ""
        return page

    def refusal_of_page(self, page):
        if page >= len(self.kinds):
            return f"refused 9 PageRange {page} {len(self.kinds)}"
        if page in self.free_pages:
            return f"refused 10 NotAllocated {page}"
        return None if self.kinds[page] == RAW_PAGE else f"refused 11 SystemPage {page}"

    def put_row(self, chain, value):
        """A row goes into the first free place, or into a new page behind the last."""
        page = chain.free_page()
        if page is None:
            last, page = list(chain.places)[-1], self.take(DATA)
            chain.places[page] = [None] * ROWS_IN_PAGE
            self.touch(last)
        chain.put(page, value)
        self.touch(page)

    def answer(self, statement):
        """What a statement of one turn answers, once it is done."""
        verb, rest = statement.split(" ", 1) if " " in statement else (statement, "")
        if verb in ("read", "write", "free"):
            page, *text = rest.split(" ", 1)
            return self.answer_of_page(verb, int(page), "".join(text)[1:-1])
        if verb in ("insert", "update", "delete", "get", "scan"):
            return self.answer_of_row(verb, *rest.split(" ", 2))
        if statement == "page new":
            return f"ok page {self.page_new()}"
        if verb == "create":
            return self.create_table(rest.removeprefix("table "))
        if verb == "drop":
            return self.drop_table(rest.removeprefix("table "))
        if statement == "show pages":
            return self.pages_shown()
        if statement == "alter database begin backup":
            self.begin()
            return f"ok scn {self.scn}"
        if statement.startswith("forced"):
            self.touch(0)
        return "ok"

    def answer_of_page(self, verb, page, text):
        refusal = self.refusal_of_page(page)
        if refusal:
            return refusal
        if verb == "read":
            return f"ok '{self.texts[page]}'"
        if verb == "free":
            self.give(page)
        elif len(text) > 200:
            return f"refused 21 TextLong {len(text)}"
        else:
            self.texts[page] = text
            self.touch(page)
        return "ok"

    def answer_of_row(self, verb, table, key="0", text="''"):
        if table not in self.tables:
            return "refused 22 NoTable"
        key, text, chain, rows = int(key), text[1:-1], self.tables[table], self.rows[table]
        if verb == "scan":
            return f"ok rows {len(rows)}" + "".join(f" {key} '{rows[key]}'" for key in sorted(rows))
        if len(text) > 200:
            return f"refused 21 TextLong {len(text)}"
        if (key in rows) == (verb == "insert"):
            return f"refused 24 KeyExists {key}" if verb == "insert" else f"refused 25 NoKey {key}"
        if verb == "get":
            return f"ok '{rows[key]}'"
        if verb == "insert":
            self.put_row(chain, key)
        else:
            self.touch(chain.page_of(key))
        if verb == "delete":
            chain.put(chain.page_of(key), None, instead=key)
            del rows[key]
        else:
            rows[key] = text
        return "ok"

    def create_table(self, table):
        if table in self.tables:
            return "refused 23 TableExists"
        if len(self.tables) == MOST_TABLES:
            return "refused 26 TooManyTables"
        self.tables[table], self.rows[table] = Chain(self.take(DATA)), {}
        self.put_row(self.catalogue, table)
        return "ok"

    def drop_table(self, table):
        if table not in self.tables:
            return "refused 22 NoTable"
        page = self.catalogue.page_of(table)
        self.catalogue.put(page, None, instead=table)
        self.touch(page)
        for page in self.tables[table].places:
            self.give(page)
        del self.tables[table], self.rows[table]
        return "ok"

    def pages_shown(self):
        kinds = collections.Counter(kind for page, kind in self.kinds.items() if page not in self.free_pages)
        return (
            f"ok header {kinds[HEADER]} inventory {kinds[INVENTORY]} scn {kinds[SCN]} data {kinds[DATA]} raw {kinds[RAW_PAGE]} other 0 free {len(self.free_pages)}"
        )

    def begin(self):
        self.scn += 1
        self.stamps[0] = self.scn
        self.diverted = set()

    def end(self):
        """It answers how many pages are merged from then on."""
        self.scn += 1
        self.stamps[0] = self.scn
        count, self.diverted = len(self.diverted), None
        return count

    def history_room(self):
        """A place for the row of a backup, before it begins."""
        if self.rows_of_history.free_page() is None:
            last, page = list(self.rows_of_history.places)[-1], self.take(DATA)
            self.rows_of_history.places[page] = [None] * ROWS_IN_PAGE
            self.touch(last)

    def last_of(self, level):
        """The latest backup of a level."""
        return next((backup for backup in reversed(self.history) if backup.level == level), None)


class Backup:
    """A level file: the database as it stood when it began, and the backup that it goes on from."""

    def __init__(self, level, name, image, below):
        self.level, self.name, self.image, self.below = level, name, image, below
        self.scn = image.scn - 1

    def chain(self):
        return (self.below.chain() if self.below else []) + [self.name]

    def pages(self):
        """How many pages the file has."""
        return len(self.image.kinds) if self.below is None else sum(stamp > self.below.scn for stamp in self.image.stamps.values())

    def reply(self):
        return f"ok level {self.level} scn {self.scn} pages {self.pages()} guid GUID"


class Script:
    """The statements of a run, and what they say beside the model."""

    def __init__(self, model, first, statements, order, schedule):
        self.model, self.first, self.statements, self.order, self.schedule = model, first, statements, order, schedule
        self.frozen, self.backups, self.copies = None, [], []

    def lines(self):
        lines = [f"1: {self.first}", self.order]
        return lines + [f"{session}: {statement}" for session, its in self.statements.items() for statement in its]

    def replies(self):
        """What is said, in its order: the turns of the schedule, and then those of all sessions, one after the other."""
        yield f"1: ok pages {len(self.model.kinds)}" + " state 0" * self.first.startswith("open")
        left = {session: self.turns_of(its) for session, its in self.statements.items()}
        for session in itertools.chain(self.schedule, itertools.cycle(self.statements)):
            if not left:
                return
            try:
                reply = next(left[session]) if session in left else None
            except StopIteration:
                reply = left.pop(session) and None
            if reply is not None:
                yield f"{session}: {reply}"

    def turns_of(self, statements):
        """What each turn of a session says: nothing, where its statement takes further ones."""
        for statement in statements:
            verb = statement.split(" ")[0]
            if verb == "backup":
                yield from self.back_up(int(statement.split(" ")[1]), statement.split("'")[1])
            elif verb == "copy":
                yield from self.copy_to(statement.split("'")[1])
            elif statement == "alter database end backup":
                yield from itertools.repeat(None, 1 + self.model.end())
                yield f"ok scn {self.model.scn}"
            else:
                reply = self.model.answer(statement)
                if statement == "alter database begin backup":
                    self.frozen = self.model.as_it_stands()
                yield reply

    def back_up(self, level, name):
        """A turn that begins, one for each page, one for the row, one that ends the stalled state, and one for each page that is merged."""
        below = self.model.last_of(level - 1) if level else None
        if level and below is None:
            yield f"refused 14 NoHistory {level - 1}"
            return
        self.model.history_room()
        self.model.begin()
        backup = Backup(level, name, self.model.as_it_stands(), below)
        yield from itertools.repeat(None, 1 + len(backup.image.kinds))
        self.model.put_row(self.model.rows_of_history, name)
        self.model.history.append(backup)
        yield None
        yield from itertools.repeat(None, 1 + self.model.end())
        self.backups.append(backup)
        yield backup.reply()

    def copy_to(self, name):
        """A turn that begins, and one for each page."""
        yield from itertools.repeat(None, 1 + len(self.frozen.kinds))
        self.copies.append((name, self.frozen))
        yield f"ok pages {len(self.frozen.kinds)}"

    def judge(self, said):
        """The first line that isn't as the model has it, and None where there is none."""
        for line, wanted in itertools.zip_longest(said, self.replies()):
            if line is None or wanted is None or GUID.sub("GUID", line) != wanted:
                return f"{line!r} is said in place of {wanted!r}"
        return None


class Chance:
    """Statements that are drawn."""

    def __init__(self, seed):
        self.random, self.files = random.Random(seed), 0

    def text(self):
        size = 201 if self.random.random() < 0.002 else self.random.choice((0, 1, 5, 20, 200))
        return "'" + "".join(self.random.choice("abcdefgh 0123456789") for _ in range(size)) + "'"

    def page(self):
        return self.random.choice((self.random.randrange(RAW + 60), self.random.randrange(5, RAW)))

    def statement(self):
        table, key = self.random.choice(TABLES), self.random.choice(KEYS)
        kinds = {
            lambda: f"write {self.page()} {self.text()}": 30,
            lambda: f"read {self.page()}": 15,
            lambda: "page new": 3,
            lambda: f"free {self.page()}": 3,
            lambda: f"insert {table} {key} {self.text()}": 16,
            lambda: f"update {table} {key} {self.text()}": 8,
            lambda: f"delete {table} {key}": 9,
            lambda: f"get {table} {key}": 8,
            lambda: f"scan {table}": 2,
            lambda: f"create table {table}": 1.5,
            lambda: f"drop table {table}": 0.3,
            lambda: "show pages": 1,
            lambda: "sync": 0.5,
            lambda: f"forced writes {self.random.choice(('on', 'on', 'off'))}": 0.5,
        }
        return self.random.choices(list(kinds), list(kinds.values()))[0]()

    def statements(self, count):
        return [self.statement() for _ in range(count)]

    def file(self):
        self.files += 1
        return f"b.{self.files}"

    def backups(self, count):
        """Statements of the fourth session: backups of levels, and copies of a database that was locked."""
        its = []
        while len(its) < count:
            its += self.statements(self.random.randrange(1, 15))
            if self.random.random() < 0.75:
                its.append(f"backup {self.random.choice((0, 0, 1, 1, 1, 2, 2, 3, 4))} to '{self.file()}'")
            else:
                locked = self.statements(20) + [f"copy to '{self.file()}'"] + self.statements(10)
                its += ["alter database begin backup", *locked, "alter database end backup"]
        return its

    def order(self):
        """A line that says the order of turns, and that order."""
        if self.random.random() < 0.5:
            seed = self.random.getrandbits(64)
            return f"seed {seed}", seeded(seed)
        schedule = [self.random.randrange(1, 5) for _ in range(MOST_TURNS)]
        return f"schedule {' '.join(map(str, schedule))}", schedule

    def script(self, model, first, count):
        own = count // 12
        statements = {session: self.statements((count - own) // 3) for session in (1, 2, 3)}
        statements[4] = self.backups(own)
        return Script(model, f"{first} cache {self.random.choice((1, 2, 4, 64))}", statements, *self.order())


def seeded(seed):
    """The order of turns that a seed means."""
    schedule = []
    for _ in range(MOST_TURNS):
        seed = (seed * 6364136223846793005 + 1442695040888963407) % (1 << 64)
        schedule.append((seed >> 33) % 16 + 1)
    return schedule


class Runs:
    """The program's runs in a folder, the most memory of each script, in KiB, and the most files that it had open."""

    def __init__(self, folder, path):
        self.folder, self.path, self.memory, self.files = folder, path, [], []

    def run(self, words):
        """The lines that a run says, its memory and its open files, which are looked at behind every two hundredth line."""
        running = self.folder.start([self.path, *words])
        lines, memory, files = [], 0, 0
        for line in io.TextIOWrapper(io.BufferedReader(running.stdout), encoding="ascii"):
            lines.append(line.rstrip("\n"))
            if len(lines) % 200 == 1:
                memory, files = max(memory, memory_of(running.pid)), max(files, files_of(running.pid))
        if running.wait() not in (0, 1):
            report("long", False, f"{' '.join(words)} ended with status {running.returncode} behind {lines[-3:]}")
        return lines, memory, files

    def script(self, script):
        self.folder.write_script("s", script.lines())
        lines, memory, files = self.run(["run", "s"])
        self.memory.append(memory)
        self.files.append(files - sum(statement.startswith(("backup", "copy")) for statement in script.statements[4]))
        return lines


def memory_of(process):
    """The most that it has had in memory so far."""
    try:
        with open(f"/proc/{process}/status", encoding="ascii") as status:
            return max((int(line.split()[1]) for line in status if line.startswith("VmHWM")), default=0)
    except (FileNotFoundError, ProcessLookupError):
        return 0


def files_of(process):
    try:
        return len(os.listdir(f"/proc/{process}/fd"))
    except (FileNotFoundError, ProcessLookupError):
        return 0


def read_all(model):
    """Statements that read everything, and what they answer."""
    statements = [f"read {page}" for page in range(len(model.kinds) + 2)] + [f"scan {table}" for table in TABLES] + ["show pages"]
    return statements, [f"1: {model.answer(statement)}" for statement in statements]


def is_as(runs, name, model):
    """Whether everything in the database of that name is as the model has it."""
    statements, wanted = read_all(model)
    runs.folder.write_script("look", [f"1: open '{name}'"] + [f"1: {statement}" for statement in statements])
    lines, _, _ = runs.run(["run", "look"])
    return lines == [f"1: ok pages {len(model.kinds)} state 0"] + wanted


def restored(runs, backup):
    """What is wrong with the database that the chain of a backup gives, and None where nothing is."""
    if os.path.exists(runs.folder.file("r.db")):
        os.remove(runs.folder.file("r.db"))
    lines, _, _ = runs.run(["-R", "r.db", *backup.chain()])
    if lines != [f"1: ok pages {len(backup.image.kinds)}"]:
        return f"-R {' '.join(backup.chain())}: {lines}"
    return None if is_as(runs, "r.db", backup.image) else f"the chain {backup.chain()} isn't as it stood"


def try_run(runs, script, counts):
    """Runs a script, and then reads the database, and what its backups and copies give. It answers what is wrong."""
    lines = runs.script(script)
    counts["replies"] += len(lines)
    fault = script.judge(lines)
    if fault:
        return [fault]
    wrong = [] if is_as(runs, "x.db", script.model) else ["the database isn't as the model"]
    wrong += [text for text in (restored(runs, backup) for backup in script.backups) if text]
    for name, image in script.copies:
        runs.run(["-F", name])
        wrong += [] if is_as(runs, name, image) else [f"the copy {name} isn't as it stood"]
    counts["backups"] += len(script.backups)
    counts["copies"] += len(script.copies)
    return wrong


def go_on(runs, backup):
    """The database is from now on the one that the chain of the backup gives."""
    restored(runs, backup)
    os.replace(runs.folder.file("r.db"), runs.folder.file("x.db"))
    return backup.image.as_it_stands()


def clear(runs, model):
    """Takes away the files that no further backup goes on from."""
    last = [backup for backup in map(model.last_of, range(10)) if backup]
    needed = {name for backup in last for name in backup.chain()}
    for name in os.listdir(runs.folder.path):
        if name.startswith("b.") and name not in needed:
            os.remove(runs.folder.file(name))


def main():
    path = program()
    in_memory()
    chance, model, counts, wrong, until = Chance(41), Model(), collections.Counter(), [], time.monotonic() + LIMIT
    first = f"create database 'x.db' page_size {SIZE} raw {RAW}"
    with Folder() as folder:
        runs = Runs(folder, path)
        for number in range(RUNS):
            script = chance.script(model, first, STATEMENTS // RUNS)
            wrong += [f"run {number + 1}: {text}" for text in try_run(runs, script, counts)]
            if wrong or time.monotonic() > until:
                break
            if number % 3 == 2 and script.backups:
                model = go_on(runs, script.backups[-1])
            clear(runs, model)
            first = "open 'x.db'"
    least, most, files = min(runs.memory), max(runs.memory), max(runs.files)
    report(
        "long",
        not wrong and counts["replies"] >= STATEMENTS and most <= least * MORE_MEMORY and files <= MORE_FILES,
        f"{counts['replies']} replies in {len(runs.memory)} runs as the model has them, beside {counts['backups']} backups and {counts['copies']} copies, of which each "
        f"was restored or fixed and read whole; {least} to {most} KiB of memory, and {files} open files at most beside those that are made; "
        f"{len(wrong)} wrong{''.join(f' | {text}' for text in wrong[:3])}",
    )


if __name__ == "__main__":
    main()
