"""Databases, what something else does to their files, and statements on them, all drawn.

The databases are the reader's own, so that a draw gives the same bytes each time: small ones and long ones, of each size of pages, with raw pages,
tables of several pages and backups in their history, in the normal, the stalled and the merge state. Then a hand that knows no rules changes bytes,
fields and pages of either file.
"""

import struct

from reader import (
    APPLYING, CATALOGUE, DATA, HISTORY, INVENTORY, MERGE, MOST_PAGES, NORMAL, RAW, SCN_PAGE, SLOT, STALLED, Database, Gifts, backup_slot, created, guid_text, number,
    row_slot, table_slot,
)

NAME, DELTA = "a.db", "a.db.delta"
BASES = 90
TABLES = [f"t{letter}" for letter in "abcdefghijklm"]
KINDS = (0, 1, INVENTORY, DATA, RAW, SCN_PAGE, 77)
NUMBERS = (0, 1, 2, 200, 255, 4294967293, 4294967294, 4294967295)
NOWHERE = (4294967295, MOST_PAGES, MOST_PAGES - 1, 0)
# What else stands in the folder: names that are free for a backup and names that aren't.
BESIDE = {"taken": b"something", "zeros": bytes(80) + b"behind", "empty": b"", "beside.delta": b""}
FILES = ("f", "f", "f", "f", "f", "f", "zeros", "empty", "taken", "beside", NAME)
PAGE_SIZES = (1024,) * 12 + (2048,) * 4 + (4096,) * 2 + (8192, 8192, 16384, 32768)
# How many raw pages a new database has: few, or so many that the next page is at a system place or just before or behind one.
LENGTHS = {1024: (0, 0, 1, 3, 8, 8, 30, 100, *range(240, 252), 254, 300, 490, 491, 492), 2048: (0, 3, 8, 40, 496, 497, 498, 499, 500), 4096: (0, 3, 40, 1009, 1010)}


class DrawnGifts(Gifts):
    """GUIDs and times of backups, drawn."""

    def __init__(self, random):
        super().__init__()
        self.random = random

    def guid(self):
        return self.random.randbytes(16)

    def seconds(self, place):
        return self.random.randrange(1 << 32)


class Base:
    """A sound database: its files, and what a draw has to know of it."""

    def __init__(self, db):
        db.files.clear()
        self.files = db.left()
        self.size, self.count, self.places, self.state = db.size, db.count, db.places, db.state
        catalogue, history = db.catalogue(), db.history()
        chains = [catalogue, history] + [db.rows(table[0]) for _, _, table in catalogue.used]
        self.chains = [chain.pages for chain in chains]
        self.used = [place[:2] for chain in chains for place in chain.used]
        self.tables = {name.decode("ascii"): (first, [row[0] for _, _, row in db.rows(name).used]) for _, _, (name, first) in catalogue.used}
        self.raw = [page for page in db.numbers(5, db.count) if db.kind(page) == RAW] or [5]
        self.guids = [guid for _, _, (_, _, guid) in history.used]
        self.is_long = self.count > 20_000
        self.system = [page for page in db.numbers(1, db.count) if db.places.kind(page)]


def bases(random):
    """So many databases; the last of them are long."""
    drawn = [base(random, index) for index in range(BASES - 15)]
    return drawn + [long_base(random) for _ in range(13)] + [big_base(random) for _ in range(2)]


def base(random, index):
    """A database with tables, rows, backups and free pages, in one of the three states."""
    size = random.choice(PAGE_SIZES)
    db = created(NAME, size, random.choice(LENGTHS.get(size, (0, 3, 8))), {}, DrawnGifts(random))
    for _ in range(random.choice((0, 0, 1, 2, 3, 4, 6))):
        db.answer(f"backup {random.choice((0, 0, 1, 2))} to 'f'")
        db.files.clear()
        fill(random, db, 3)
    fill(random, db, random.choice((0, 5, 20, 40, 60)))
    if random.random() < 0.15:
        fill_catalogue(db)
    if random.random() < 0.1:
        db.answer(f"forced writes {random.choice(('on', 'off'))}")
    if random.random() < 0.5:
        db.answer("alter database begin backup")
        fill(random, db, random.choice((0, 1, 5, 20)))
        if index % 9 == 0:
            fill_group(random, db)
    elif random.random() < 0.2:
        db.answer("access read_only")
    if db.state and random.random() < 0.45:
        stop_merge(random, db)
    return Base(db)


def fill(random, db, count):
    """Statements, most of which are done."""
    for _ in range(count):
        table, key, page = random.choice(TABLES[:4]), random.randrange(12), random.randrange(5, db.count + 1)
        choices = (
            (f"create table {table}", 2), (f"insert {table} {key} '{'r' * random.randrange(5)}'", 12), (f"delete {table} {key}", 1), (f"drop table {table}", 0.3),
            ("page new", 2), (f"free {page}", 1.5), (f"write {page} 'text {key}'", 3),
        )
        db.answer(random.choices([choice[0] for choice in choices], [choice[1] for choice in choices])[0])


def fill_catalogue(db):
    """Tables up to the last that there may be, or to the end of a page of the catalogue."""
    for table in TABLES:
        if len(db.catalogue().free) == 0 and len(db.catalogue().used) >= 3:
            return
        db.answer(f"create table {table}")


def fill_group(random, db):
    """Nearly as many entries, or more, as an allocation page has."""
    most = db.size // 4 - 1
    if db.size == 1024:
        while len(db.slots) < random.choice((most - 2, most - 1, most, most + 2)):
            db.answer("page new")


def stop_merge(random, db):
    """The end of the backup was stopped behind some pages of its merge."""
    db.control(MERGE, db.scn + 1)
    for page, slot in list(db.slots.items())[: random.randrange(len(db.slots) + 1)]:
        if page:
            at = page * db.size
            db.main.extend(bytes(max(0, at - len(db.main))))
            db.main[at : at + db.size] = db.delta[slot * db.size : (slot + 1) * db.size]


def long_base(random):
    """A stalled database whose difference file has the end of a very long one, with all of its inventory pages: full, or nearly so."""
    size = random.choice((1024, 1024, 1024, 4096, 8192, 32768))
    db = created(NAME, size, random.choice((0, 8, 30)), {}, DrawnGifts(random))
    db.answer("create table ta")
    for key in range(random.choice((1, 3, 7))):
        db.answer(f"insert ta {key} 'row'")
    db.answer("alter database begin backup")
    count = MOST_PAGES - random.choice((0, 0, 0, 1, 1, 2, 3, 300)) if random.random() < 0.8 else random.randrange(3, 60) * db.places.entries + random.randrange(-1, 2)
    lengthen(random, db, count)
    return Base(db)


def lengthen(random, db, count):
    """The database has so many pages, all of them taken, or all but a few."""
    places, bits, share = db.places, db.places.bits, random.choice((0, 0, 0.02, 0.2))
    for first in range(0, count, bits):
        place, taken = places.inventory(first), min(bits, count - first)
        free = ((1 << bits) - 1) >> taken << taken
        if random.random() < share:
            free |= 1 << random.choice((random.randrange(5, bits), random.randrange(1, bits // places.entries) * places.entries, bits - 1))
        wanted = {place: (INVENTORY, struct.pack("<I12x", first // bits) + free.to_bytes(bits // 8, "little"))}
        wanted |= {places.scn(page): (SCN_PAGE, db.system_page(places.scn(page), SCN_PAGE)) for page in (place, count - 1, min(count, MOST_PAGES - 1))}
        for page, (kind, data) in sorted(wanted.items()):
            if page <= 5 or page < count and page not in db.slots:
                db.write(page, struct.pack("<B3xIII", kind, 1, db.scn, page) + data)
    if count - 1 not in db.slots:
        db.write(count - 1, struct.pack("<B3xIII", RAW, 1, db.scn, count - 1).ljust(db.size, b"\0"))


def big_base(random):
    """A main file that has nearly as many pages as one inventory page, or a few more."""
    db = created(NAME, 1024, random.choice((7897, 7898, 7899, 7900, 7902)), {}, DrawnGifts(random))
    fill(random, db, 6)
    return Base(db)


class Hand:
    """Something else that changes the files of a database, and tells what it did."""

    def __init__(self, random, base, aimed):
        self.random, self.base, self.size, self.aimed, self.told = random, base, base.size, aimed, []
        self.files = {name: bytearray(data) for name, data in base.files.items()}
        self.db = Database(self.files, NAME, None)
        self.db.open()

    def pick(self, *choices):
        return self.random.choice(choices)

    # ---- which page

    def chain(self):
        """The chain that is aimed at, or another."""
        return self.aimed if self.random.random() < 0.6 else self.random.choice(self.base.chains)

    def any_page(self):
        """A page that matters, or any."""
        base, chain = self.base, self.chain()
        page = self.pick(chain[-1], chain[0], self.random.choice(chain), self.random.choice(base.system), self.random.choice(base.system), 1, 2, CATALOGUE, HISTORY)
        return page if self.random.random() < 0.85 else self.raw_page()

    def raw_page(self):
        """Any page that a file has."""
        return self.random.choice(self.db.numbers(0, self.base.count))

    def system_place(self):
        """A system place, the next one behind the end among them."""
        places = self.base.places
        behind = (self.base.count + places.entries) // places.entries * places.entries
        return self.pick(*self.base.system, behind)

    def target(self):
        """Where a link may lead."""
        return self.pick(0, self.any_page(), self.raw_page(), self.base.count - 1, self.base.count, *NOWHERE[:1])

    # ---- what is changed

    def change(self, page, at, data):
        """Bytes of a page, in the file that has it."""
        name, place = (DELTA, self.db.slots[page]) if page in self.db.slots and page else (NAME, page)
        self.set(name, place * self.size + at, data, f"page {page} at {at}")

    def set(self, name, at, data, what=None):
        """Bytes of a file, where it has them."""
        file = self.files[name]
        if at + len(data) <= len(file):
            file[at : at + len(data)] = data
            shown = data.hex() if len(data) <= 16 else f"{data[:16].hex()}.. ({len(data)})"
            self.told.append(f"{name} {what or f'at {at}'}: {shown}")

    def number(self, page, at, value, width=4):
        self.change(page, at, (value % (1 << 8 * width)).to_bytes(width, "little"))

    def kind(self):
        self.number(self.any_page(), 0, self.pick(*KINDS), 1)

    def head(self):
        at, width = self.pick((1, 1), (2, 2), (4, 4), (8, 4), (8, 4), (12, 4))
        self.number(self.any_page(), at, self.pick(*NUMBERS, self.random.getrandbits(32)), width)

    def byte(self):
        self.number(self.any_page(), self.random.randrange(self.size), self.random.getrandbits(8), 1)

    def link(self):
        self.number(self.random.choice(self.chain()), 16, self.target())

    def owner(self):
        self.number(self.random.choice(self.chain()), 20, self.pick(0, 1, self.target()))

    def bit(self):
        """A bit of an inventory page: of a page of a chain, a system place, or any page."""
        page, is_free = self.pick(self.any_page(), self.any_page(), self.system_place(), self.raw_page(), self.base.count), self.pick(0, 1, 1)
        place, bit = self.base.places.inventory(page), page % self.base.places.bits
        if place < self.base.count:
            byte = self.db.page(place)[32 + bit // 8]
            self.number(place, 32 + bit // 8, byte & ~(1 << bit % 8) | is_free << bit % 8, 1)

    def full(self):
        """No page is free."""
        for first in range(0, self.base.count, self.base.places.bits):
            taken = min(self.base.count - first, self.base.places.bits)
            bits = ((1 << self.base.places.bits) - 1) >> taken << taken
            self.change(self.base.places.inventory(first), 32, bits.to_bytes(self.base.places.bits // 8, "little"))

    def free_all(self):
        """Many pages are free."""
        place = self.random.choice([page for page in self.base.system if self.base.places.kind(page) == INVENTORY])
        self.change(place, 32 + self.random.randrange(40), b"\xff" * self.random.randrange(1, 40))

    def entry(self):
        """An SCN entry."""
        page = self.pick(self.any_page(), self.raw_page())
        self.number(self.base.places.scn(page), 32 + 4 * (page % self.base.places.entries), self.pick(*NUMBERS, 3, 4, 5))

    def slot(self):
        """A field of a used slot, or a byte of any slot."""
        if self.base.used and self.random.random() < 0.8:
            page, at = self.random.choice(self.base.used)
            place, width = self.pick((0, 1), (1, 1), (2, 2), (2, 2), (4, 4), (4, 4), (8, 8), (16, 1), (17, 1), (32, 1))
            value = self.pick(*NUMBERS, self.random.getrandbits(64), 30, 31, 100, 101, 201, ord("a"), ord("-"), self.target())
            self.number(page, at + place, value, width)
        else:
            page = self.random.choice(self.chain())
            self.number(page, 32 + SLOT * self.random.randrange((self.size - 32) // SLOT), self.pick(0, 1, 2, 255), 1)

    def new_slot(self):
        """A slot of any form in a chain."""
        page, at = self.random.choice(self.chain()), 32 + SLOT * self.random.randrange((self.size - 32) // SLOT)
        forms = (
            row_slot(self.random.randrange(14), b"row"), table_slot(self.random.choice(TABLES).encode("ascii"), self.target()),
            backup_slot(self.random.randrange(11), self.pick(*NUMBERS), 9, self.random.randbytes(16), b"b.0"), bytes(SLOT),
        )
        self.change(page, at, self.pick(*forms))

    def text(self):
        page = self.raw_page()
        self.number(page, 16, self.pick(0, 5, 200, 201, 65535), 2)
        self.change(page, 18, self.random.randbytes(6))

    def zero(self):
        self.change(self.pick(self.any_page(), self.raw_page()), 0, bytes(self.size))

    def move(self):
        """A page over another, or both the other way round."""
        one, other = self.any_page(), self.pick(self.any_page(), self.raw_page())
        old, new = self.db.page(one), self.db.page(other)
        self.change(one, 0, new)
        if self.random.random() < 0.5:
            self.change(other, 0, old)

    def graft(self):
        """A chain leads on to a page of its own form elsewhere, full or not, at a system place perhaps, which may be said to be free."""
        chain, page = self.chain(), self.pick(*self.base.system[1:], self.raw_page(), self.base.count - 1)
        if page >= 5:
            self.lead(chain, page)

    def lead(self, chain, page):
        data = bytearray(self.db.page(chain[-1]))
        if len(chain) > 1 and self.random.random() < 0.5:
            self.number(chain[-2], 16, page)
        else:
            self.number(chain[-1], 16, page)
            data[32:] = self.full_slots(chain) if self.random.random() < 0.6 else bytes(self.size - 32)
        self.change(page, 0, bytes([DATA]) + bytes(data[1:16]) + bytes(4) + bytes(data[20:]))
        if self.random.random() < 0.6:
            self.give(page)

    def trap(self):
        """A chain ends at a page that the search for a new page comes to, as no lower one is free; other system pages may be broken."""
        pages = [page for page in self.base.system if page >= 5] or [self.raw_page()]
        page = self.pick(*pages, *pages, self.raw_page())
        if page < 5:
            return
        self.full()
        chain = self.chain()
        for full in chain if self.random.random() < 0.8 else ():
            self.change(full, 32, self.full_slots(chain))
        self.lead(chain, page)
        self.give(page)
        if self.random.random() < 0.3:
            self.some()

    def give(self, page):
        """The bit of a page says that it is free."""
        place, bit = self.base.places.inventory(page), page % self.base.places.bits
        self.number(place, 32 + bit // 8, self.db.page(place)[32 + bit // 8] | 1 << bit % 8, 1)

    def untaken(self):
        """Pages of a chain are said to be free."""
        for page in self.pick(self.aimed, self.aimed[-1:]):
            self.give(page)

    def loosen(self):
        """Nothing leads to some pages: a chain is cut, or a slot of the catalogue is free."""
        slots = [place for place in self.base.used if place[0] in self.base.chains[0]]
        if slots and self.random.random() < 0.5:
            page, at = self.random.choice(slots)
            self.number(page, at, 0, 1)
        else:
            self.number(self.random.choice(self.random.choice(self.base.chains)), 16, 0)

    def stray(self):
        """A page of another kind is a data page, or a further page of a chain is a raw one."""
        page, kind = self.pick((self.raw_page(), DATA), (self.random.choice(self.chain()), RAW))
        self.number(page, 0, kind, 1)

    def some(self):
        """System pages get other kinds: a few, or an inventory page and its SCN page."""
        pages = [self.pick(2, self.random.choice(self.base.system)) for _ in range(self.random.choice((1, 2, 3)))]
        maps = [page for page in self.base.system if self.base.places.kind(page) == INVENTORY]
        if self.random.random() < 0.4:
            pages = [self.random.choice(maps[1:] or maps)]
            pages.append(self.base.places.scn(pages[0]))
        for page in pages:
            self.number(page, 0, self.pick(*KINDS), 1)

    def full_slots(self, chain):
        """Used slots of the form that the chain has: not more of tables than there may be."""
        forms = {CATALOGUE: lambda index: table_slot(b"u%d" % index, 77), HISTORY: lambda index: backup_slot(index, index, 5, bytes(15) + b"x", b"old")}
        form = forms.get(chain[0], lambda index: row_slot(1000 + index, b"old"))
        count = (self.size - 32) // SLOT
        return b"".join(form(index) for index in range(min(count, 8) if chain[0] == CATALOGUE else count)).ljust(self.size - 32, b"\0")

    def header(self):
        """A field of the header."""
        fields = (
            (22, 2, (NORMAL, 1, MERGE, APPLYING, 4)), (28, 4, (0, *NUMBERS, *NUMBERS, 7)), (28, 4, NUMBERS[5:]), (64, 1, (0, 1, 2)), (65, 1, (0, 1, 7)), (4, 4, NUMBERS),
            (8, 4, NUMBERS), (1, 1, (3,)), (72, 4, (9,)), (76, 4, (9,)), (48, 4, (5,)), (65, 1, (1, 0, 0)),
        )
        if self.random.random() < 0.12:
            fields = ((0, 1, KINDS), (12, 4, (0, 1)), (16, 4, (7,)), (20, 2, (1, 2)), (24, 4, (512, 1000, 1024, 2048, 65536)))
        at, width, values = self.pick(*fields)
        if self.base.is_long and at == 22:  # its merge would make a main file of a gigabyte
            return
        file = DELTA if at in (64, 65) and 0 in self.db.slots else NAME
        place = self.db.slots[0] if file == DELTA else 0
        self.set(file, place * self.size + at, self.pick(*values).to_bytes(width, "little"))

    def end(self):
        """The main file is cut off, or has something behind its end."""
        main, count = self.files[NAME], len(self.files[NAME]) // self.size
        what = self.random.random()
        if what < 0.5:
            left = max(count - self.random.choice((1, 1, 2, 3, 8)), 4) * self.size - (self.random.random() < 0.1)
            del main[left:]
            self.told.append(f"{NAME}: cut to {left}")
        else:
            more = bytes(self.size * self.random.choice((1, 2))) if what < 0.8 else self.db.page(self.any_page()) if what < 0.97 else b"x"
            main.extend(more)
            self.told.append(f"{NAME}: {len(more)} more, {more[:16].hex()}")

    def last_zeros(self):
        """The last pages are zeros."""
        first = self.random.choice((*(self.base.count - few for few in (1, 2, 5)), 4, 4, 3, 1))
        for page in range(max(first, 1), min(self.base.count, first + 600)):
            self.change(page, 0, bytes(self.size))

    def leave(self):
        """A difference file beside a database in the normal state."""
        if DELTA not in self.files:
            self.files[DELTA] = bytearray(self.random.choice((b"", b"left", bytes(self.size), b"\1\0\0\0" + bytes(3 * self.size - 4))))
            self.told.append(f"{DELTA}: {len(self.files[DELTA])} bytes are left")

    def delta(self):
        """A word of the table, a slot, or the end of the difference file."""
        if DELTA not in self.files or self.base.state == NORMAL:
            return self.leave()
        file, entries, what = self.files[DELTA], len(self.db.slots), self.random.random()
        if what < 0.3 and entries:
            index = self.random.randrange(min(entries, self.size // 4 - 1))
            self.set(DELTA, 4 + 4 * index, self.pick(self.target(), self.raw_page(), self.base.count, self.base.count + 3, 0).to_bytes(4, "little"))
        elif what < 0.5:
            self.set(DELTA, 0, self.pick(0, max(entries - 1, 0), entries + 1, self.size // 4 - 1, self.size // 4).to_bytes(4, "little"))
        elif what < 0.65 and entries:
            self.set(DELTA, self.random.choice(list(self.db.slots.values())) * self.size, bytes(self.size))
        elif what < 0.8:
            left = self.random.choice((0, len(file) - 1, len(file) - self.size, self.random.randrange(len(file) + 1)))
            del file[max(left, 0) :]
            self.told.append(f"{DELTA}: cut to {max(left, 0)}")
        else:
            more = self.random.choice((bytes(self.size), self.db.page(self.any_page()), b"\7" * 30))
            file.extend(more)
            self.told.append(f"{DELTA}: {len(more)} more, {more[:16].hex()}")

    def junk(self):
        """Bytes that nothing reads: behind the entries, behind slots, in the first 64 bytes of the slot of page 0."""
        if DELTA in self.files and self.base.state:
            self.set(DELTA, min(4 + 4 * len(self.db.slots), self.size - 8), b"\x21\0\0\0")
        if self.size == 1024:
            self.change(self.random.choice(self.chain()), 32 + 3 * SLOT + self.random.randrange(224), b"junk"[:1])


# How often each of these is drawn.
HANDS = {
    Hand.kind: 14, Hand.head: 4, Hand.byte: 5, Hand.link: 9, Hand.owner: 3, Hand.bit: 14, Hand.full: 8, Hand.free_all: 4, Hand.entry: 6, Hand.slot: 9, Hand.new_slot: 7,
    Hand.text: 3, Hand.zero: 5, Hand.move: 5, Hand.graft: 12, Hand.trap: 5, Hand.untaken: 8, Hand.some: 12, Hand.header: 5, Hand.end: 5, Hand.last_zeros: 6, Hand.delta: 9, Hand.leave: 2, Hand.junk: 2,
}


def damaged(random, base, aimed, kind):
    """The files of a database behind a few changes, and what was changed. Of those that are checked half are sound but for pages that nothing leads to."""
    hand = Hand(random, base, aimed)
    if kind in CHECKS and random.random() < 0.5:
        for _ in range(random.choice((1, 1, 2, 3))):
            random.choice((Hand.loosen, Hand.loosen, Hand.stray))(hand)
    elif base.is_long and random.random() < 0.3:
        hand.some()
    elif random.random() < 0.12:
        hand.trap()
    else:
        for _ in range(random.choices((0, 1, 2, 3, 5), (6, 40, 28, 18, 8))[0]):
            random.choices(list(HANDS), list(HANDS.values()))[0](hand)
    return {name: bytes(data) for name, data in hand.files.items()} | BESIDE, hand.told


# ---- statements

def a_page(random, base):
    others = (random.choice(base.system), random.choice(random.choice(base.chains)), 0, base.count - 1, base.count, 4294967295)
    return random.choice(base.raw) if random.random() < 0.7 else random.choice(others)


def a_table(random, base, aimed):
    """A table, often that of the chain that is aimed at."""
    chosen = [table for table, (first, _) in base.tables.items() if first == aimed[0]]
    others = list(base.tables) + [random.choice(TABLES)]
    return random.choice(chosen) if chosen and random.random() < 0.7 else random.choice(others)


def a_row(random, base, aimed):
    """A table, and a key of it."""
    table = a_table(random, base, aimed)
    keys = base.tables[table][1] if table in base.tables else []
    return f"{table} {random.choice(keys) if keys and random.random() < 0.8 else a_key(random)}"


def a_key(random):
    return random.choice((random.randrange(14), 500, 18446744073709551615))


def a_text(random):
    return "'" + random.choice(("", "x", "some text", "y" * 200, "z" * 201 if random.random() < 0.3 else "z" * 199)) + "'"


def a_guid(random, base):
    return guid_text(random.choice(base.guids) if base.guids and random.random() < 0.85 else random.choice((bytes(16), random.randbytes(16))))


# Each kind of statement, and of words, as it is drawn.
STATEMENTS = {
    "page new": lambda random, base, aimed: "page new",
    "write": lambda random, base, aimed: f"write {a_page(random, base)} {a_text(random)}",
    "read": lambda random, base, aimed: f"read {a_page(random, base)}",
    "free": lambda random, base, aimed: f"free {a_page(random, base)}",
    "begin backup": lambda random, base, aimed: "alter database begin backup",
    "end backup": lambda random, base, aimed: "alter database end backup",
    "backup": lambda random, base, aimed: f"backup {random.choice((0, 0, 1, 1, 1, 2, 2, 3, 9))} to '{random.choice(FILES)}'",
    "copy to": lambda random, base, aimed: f"copy to '{random.choice(FILES)}'",
    "create table": lambda random, base, aimed: f"create table {random.choice(TABLES)}",
    "drop table": lambda random, base, aimed: f"drop table {a_table(random, base, aimed)}",
    "insert": lambda random, base, aimed: f"insert {a_table(random, base, aimed)} {a_key(random)} {a_text(random)}",
    "update": lambda random, base, aimed: f"update {a_row(random, base, aimed)} {a_text(random)}",
    "delete": lambda random, base, aimed: f"delete {a_row(random, base, aimed)}",
    "get": lambda random, base, aimed: f"get {a_row(random, base, aimed)}",
    "scan": lambda random, base, aimed: f"scan {a_table(random, base, aimed)}",
    "forced writes": lambda random, base, aimed: f"forced writes {random.choice(('on', 'off'))}",
    "access": lambda random, base, aimed: f"access {random.choice(('read_only', 'read_write'))}",
    "sync": lambda random, base, aimed: "sync",
    "check": lambda random, base, aimed: "check",
    "reclaim": lambda random, base, aimed: "reclaim",
    "show header": lambda random, base, aimed: "show header",
    "show pages": lambda random, base, aimed: "show pages",
    "show image": lambda random, base, aimed: "show image",
    "show cache": lambda random, base, aimed: "show cache",
}
WORDS = {
    "stat": lambda random, base, aimed: ["stat", NAME],
    "check DB": lambda random, base, aimed: ["check", NAME],
    "reclaim DB": lambda random, base, aimed: ["reclaim", NAME],
    "-L": lambda random, base, aimed: ["-L", NAME],
    "-L -S": lambda random, base, aimed: ["-L", "-S", NAME],
    "-N": lambda random, base, aimed: ["-N", NAME],
    "activate": lambda random, base, aimed: ["activate", NAME],
    "-B": lambda random, base, aimed: ["-B", str(random.choice((0, 0, 1, 1, 2, 9))), NAME, random.choice(FILES)],
    "-B since": lambda random, base, aimed: ["-B", a_guid(random, base), NAME, random.choice(FILES)],
}
# Those that need a new page, or may, are drawn more often.
OFTEN = ("page new", "create table", "insert", "page new", "create table", "insert", "drop table", "backup", "backup", "-B", "-B since")
# The states that they are for.
STATES = {"backup": (NORMAL,), "-B": (NORMAL,), "-B since": (NORMAL,), "begin backup": (NORMAL,), "-L": (NORMAL,), "access": (NORMAL,), "copy to": (STALLED,)}
CHECKS = ("check", "reclaim", "check DB", "reclaim DB")
# Those that read or write each page of a database are not drawn of one of a million pages.
WHOLE = ("end backup", "show pages", "show image", "stat", "-N", "activate", *CHECKS)


def base_for(random, bases, kind):
    """A database that a statement is for, mostly: where new pages are made often one with further system pages."""
    has_more = kind in OFTEN and random.random() < 0.5
    fitting = [base for base in bases if not (base.is_long and kind in WHOLE or has_more and len(base.system) < 3)]
    return random.choice([base for base in fitting if random.random() < 0.2 or base.state in STATES.get(kind, (base.state,))] or fitting)


def aim(random, base, kind):
    """The chain that a statement of the kind goes by."""
    if kind == "create table":
        return base.chains[0]
    return base.chains[1] if "backup" in kind or "-B" in kind else random.choice(base.chains[2:] or base.chains)


def asked(random, base, kind, aimed):
    """The words of a run with a statement of that kind, its script, and the kinds of all its statements."""
    if kind in WORDS:
        return WORDS[kind](random, base, aimed), None, [kind]
    others = [kind for kind in STATEMENTS if not (base.is_long and kind in WHOLE)]
    kinds = random.choices(others, k=random.choice((0, 0, 0, 0, 0, 1, 1, 2)))
    kinds.insert(random.randrange(len(kinds) + 1), kind)
    cache = random.choice(("", "", "", " cache 1", " cache 2", " cache 5", " cache 4096"))
    lines = [f"open '{NAME}'{cache if base.size <= 4096 else ''}"] + [STATEMENTS[kind](random, base, aimed) for kind in kinds]
    return ["run", "s"], "".join(f"1: {line}\n" for line in lines), kinds
