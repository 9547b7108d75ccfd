"""A plain reader of a database: what each statement answers, and what it leaves in the files.

It says what `docs/REFERENCE.md` and `docs/FORMATS.md` do, of any files whatever stands in them, and knows nothing of the program. A statement is done
on a copy of the files, as it would be on a sound database. Each page on its way that isn't of its kind is noted and passed. Where something was
noted, the lowest page is the refusal, and the copy is thrown away.
"""

import hashlib
import re
import struct

HEADER, INVENTORY, DATA, RAW, SCN_PAGE = 1, 2, 5, 8, 10
NORMAL, STALLED, MERGE, APPLYING = range(4)
CATALOGUE, HISTORY = 3, 4
CATALOGUE_OWNER, HISTORY_OWNER = 0, 1
SIZES = (1024, 2048, 4096, 8192, 16384, 32768)
MOST_PAGES, MOST_SCN, MOST_TABLES, MOST_TEXT, SLOT, RUN = 1 << 20, 4294967293, 12, 200, 256, 16
NIL = bytes(16)
NAME = re.compile(rb"[A-Za-z0-9._/-]{1,100}")
TABLE = re.compile(rb"[A-Za-z][A-Za-z0-9_]{0,29}")


class Refused(Exception):
    """Why a statement is refused: its number, its name and its values."""

    def __str__(self):
        return "refused " + " ".join(map(str, self.args))


def number(data, at, width=4):
    return int.from_bytes(data[at : at + width], "little")


def with_number(data, at, value, width=4):
    return data[:at] + value.to_bytes(width, "little") + data[at + width :]


def guid_text(guid):
    text = guid.hex()
    return "-".join((text[:8], text[8:12], text[12:16], text[16:20], text[20:]))


def is_header(front):
    """Whether these are the first 64 bytes of a database."""
    kind, page, signature, version, state, size, scn = struct.unpack_from("<B11xI4sHHII", front.ljust(64, b"\0"))
    has_form = len(front) >= 64 and (kind, page, signature, version) == (HEADER, 0, b"NBDB", 1)
    return has_form and state <= APPLYING and size in SIZES and scn >= 1 and not (state == STALLED and scn == (1 << 32) - 1)


def is_free(files, name):
    """Whether a new file may have that name."""
    front = bytes(files.get(name, b"")[:64])
    is_unfinished = is_header(front) and number(front, 22, 2) == APPLYING and front[48:64] == NIL
    return (not any(front) or is_unfinished) and not (len(name) <= 94 and name + ".delta" in files)


def without_zeros(data, size):
    """How many pages there are, without those of zeros at the end."""
    return -(-len(data.rstrip(b"\0")) // size)


class Places:
    """Where the system pages are, for a size of pages."""

    def __init__(self, size):
        self.entries = (size - 32) // 4
        self.bits = 8 * (size - 32)

    def inventory(self, page):
        """The inventory page that has the bit of a page."""
        return page // self.bits * self.bits - 1 if page >= self.bits else 1

    def scn(self, page):
        """The SCN page that has the entry of a page."""
        return page // self.entries * self.entries or 2

    def kind(self, page):
        """The kind of the system page that belongs there, and None where none does."""
        if page == 1 or (page + 1) % self.bits == 0:
            return INVENTORY
        return SCN_PAGE if page == 2 or page and page % self.entries == 0 else None


def row_of(slot):
    """The key and the text of a used slot of a table, and None where it breaks the form."""
    length = number(slot, 2, 2)
    return (number(slot, 8, 8), bytes(slot[16 : 16 + length])) if length <= MOST_TEXT else None


def table_of(slot):
    """The name and the first page of a used slot of the catalogue."""
    name = bytes(slot[16 : 16 + number(slot, 2, 2)])
    return (name, number(slot, 4)) if number(slot, 2, 2) <= 30 and TABLE.fullmatch(name) else None


def backup_of(slot):
    """The level, the SCN and the GUID of a used slot of the history."""
    name = bytes(slot[32 : 32 + number(slot, 2, 2)])
    return (slot[1], number(slot, 4), bytes(slot[16:32])) if number(slot, 2, 2) <= 100 and NAME.fullmatch(name) else None


def row_slot(key, text):
    return struct.pack("<BxH4xQ240s", 1, len(text), key, text)


def table_slot(name, first):
    return struct.pack("<BxHI8x240s", 1, len(name), first, name)


def backup_slot(level, scn, time, guid, name):
    return struct.pack("<BBHIQ16s224s", 1, level, len(name), scn, time, guid, name)


class Chain:
    """Data pages one after another: their numbers, and of each used slot its page, its place and what it has."""

    def __init__(self, pages, used, free):
        self.pages, self.used, self.free = pages, used, free

    def last(self, is_wanted):
        return next((place for place in reversed(self.used) if is_wanted(place[2])), None)

    def first(self, is_wanted):
        return next((place for place in self.used if is_wanted(place[2])), None)


class Database:
    """An open database. `files` are all files by their names, `gifts` gives the GUIDs and times that the outside draws."""

    def __init__(self, files, name, gifts):
        self.files, self.name, self.gifts = files, name, gifts
        self.delta_name = name + ".delta"
        self.main, self.delta, self.slots = files.get(name), files.get(self.delta_name), {}
        self.broken, self.is_full, self.cache = set(), False, 64

    # ---- opening

    def open(self):
        if self.main is None:
            raise Refused(3, "NoFile", self.name)
        if not is_header(bytes(self.main[:64])):
            raise Refused(5, "NotDatabase", 0)
        self.size = number(self.main, 24)
        self.places = Places(self.size)
        pages, rest = divmod(len(self.main), self.size)
        if rest or pages < 5 or pages > MOST_PAGES:
            raise Refused(5, "NotDatabase", min(pages, MOST_PAGES))
        if self.state == APPLYING:
            raise Refused(8, "Unfinished")
        if self.state != NORMAL:
            if self.delta is None:
                raise Refused(3, "NoFile", self.delta_name)
            self.slots = self.table()
        self.count = self.counted()
        return f"ok pages {self.count} state {self.state}"

    def table(self):
        """The slot of each page in the difference file."""
        slots, most, whole = {}, self.size // 4 - 1, len(self.delta) // self.size
        for place in range(0, MOST_PAGES * 2, most + 1):
            if place * self.size >= len(self.delta):
                break
            entries = number(self.delta, place * self.size)
            if place >= whole or entries > most:
                raise Refused(7, "BadDelta", place)
            for index in range(entries):
                page = number(self.delta, place * self.size + 4 + 4 * index)
                if page >= MOST_PAGES or page in slots:
                    raise Refused(7, "BadDelta", place)
                if place + 1 + index >= whole:
                    raise Refused(7, "BadDelta", place + 1 + index)
                slots[page] = place + 1 + index
            if entries < most:
                break
        return slots

    def counted(self):
        """How many pages the database has."""
        return max(without_zeros(self.main, self.size), max(self.slots, default=-1) + 1)

    # ---- what page 0 says

    @property
    def state(self):
        return number(self.main, 22, 2)

    @property
    def scn(self):
        return number(self.main, 28)

    @property
    def is_read_only(self):
        return self.page(0)[65] != 0

    def control(self, state, scn, guid=None):
        """The state, the SCN and the GUID are set in page 0 of the main file, which is stamped."""
        self.main[22:24] = state.to_bytes(2, "little")
        self.main[28:32] = self.main[8:12] = scn.to_bytes(4, "little")
        self.main[4:8] = ((number(self.main, 4) + 1) % (1 << 32)).to_bytes(4, "little")
        self.main[32:48] = guid or self.main[32:48]

    # ---- pages

    def page(self, page):
        """A page as the database has it, whichever file does: zeros past the end."""
        file, place = (self.delta, self.slots[page]) if page in self.slots else (self.main, page)
        data = bytes(file[place * self.size : (place + 1) * self.size]).ljust(self.size, b"\0")
        return bytes(self.main[:64]) + data[64:] if page == 0 else data

    def kind(self, page):
        file, place = (self.delta, self.slots[page]) if page in self.slots and page else (self.main, page)
        at = place * self.size
        return file[at] if at < len(file) else 0

    def write(self, page, data):
        """The page goes where the state wants it."""
        if self.state == STALLED and page not in self.slots:
            self.enter(page, data)
        elif page in self.slots:
            put_page(self.delta, self.slots[page], data)
        if self.state != STALLED:
            put_page(self.main, page, data)
        self.count = max(self.count, page + 1)

    def enter(self, page, data):
        """A page gets its slot in the difference file, and then its entry."""
        most = self.size // 4 - 1
        group, index = divmod(len(self.slots), most)
        place = group * (most + 1)
        self.slots[page] = place + 1 + index
        put_page(self.delta, self.slots[page], data)
        if index + 1 == most:
            put_page(self.delta, place + most + 1, bytes(self.size))
        words = [index + 1] + list(self.slots)[group * most :]
        put_page(self.delta, place, struct.pack(f"<{len(words)}I", *words).ljust(self.size, b"\0"))

    def put(self, page, kind, data):
        """A page is changed: its SCN entry is raised first, where it is lower, and the page is stamped."""
        if page and self.places.kind(page) != SCN_PAGE:
            self.raise_entry(page)
        generation = (number(data, 4) + 1) % (1 << 32)
        self.write(page, struct.pack("<B3xIII", kind, generation, self.scn, page) + data[16:])

    def raise_entry(self, page):
        place = self.places.scn(page)
        if not self.is_kind(place, SCN_PAGE):
            return
        data, at = self.page(place), 32 + 4 * (page % self.places.entries)
        if number(data, at) < self.scn:
            self.put(place, SCN_PAGE, with_number(data, at, self.scn))

    def is_kind(self, page, kind):
        """Whether a page is of its kind; where it isn't, that is noted."""
        if page < self.count and self.kind(page) == kind:
            return True
        self.broken.add(page)
        return False

    def settle(self):
        """What was noted on the way refuses the statement."""
        if self.broken:
            raise Refused(5, "NotDatabase", min(self.broken))
        if self.is_full:
            raise Refused(12, "Full", MOST_PAGES)

    # ---- inventories

    def bit(self, page):
        """Whether a page is free; its inventory page has to be one."""
        place = self.places.inventory(page)
        if not self.is_kind(place, INVENTORY):
            self.settle()
        bit = page % self.places.bits
        return self.page(place)[32 + bit // 8] >> bit % 8 & 1

    def set_bit(self, page, is_free_now):
        place, bit = self.places.inventory(page), page % self.places.bits
        if self.is_kind(place, INVENTORY):
            data = bytearray(self.page(place))
            data[32 + bit // 8] = data[32 + bit // 8] & ~(1 << bit % 8) | is_free_now << bit % 8
            self.put(place, INVENTORY, bytes(data))

    def lowest_free(self):
        """The lowest free page from 5 on, or the one behind the last, and None where an inventory page on the way isn't one."""
        bits = self.places.bits
        for first in range(0, self.count + 1, bits):
            place = self.places.inventory(first)
            if not self.is_kind(place, INVENTORY):
                return None
            free = int.from_bytes(self.page(place)[32:], "little") & ((1 << max(self.count - first, 0)) - 1)
            free = free >> 5 << 5 if first == 0 else free
            if free:
                return first + (free & -free).bit_length() - 1
        return self.count

    def take(self, kind, data_of):
        """A new page of the kind: the lowest that is free, behind the system pages on the way. None where there is none."""
        while True:
            page = self.lowest_free()
            if page is None or page == MOST_PAGES:
                self.is_full |= page == MOST_PAGES
                return None
            system = self.places.kind(page)
            if system is None:
                self.put(page, kind, self.page(page)[:16] + data_of(page))
            elif self.kind(page) != system:
                self.put(page, system, self.page(page)[:16] + self.system_page(page, system))
            self.set_bit(page, 0)
            if system is None:
                return page

    def system_page(self, page, kind):
        """What a new system page has behind its head."""
        if kind == INVENTORY:
            return struct.pack("<I12x", page // self.places.bits + (page > 1)) + b"\xff" * (self.size - 32)
        return struct.pack("<I12x", page // self.places.entries) + self.scn.to_bytes(4, "little") * self.places.entries

    def has_five_pages(self):
        if self.count < 5:
            raise Refused(5, "NotDatabase", self.count)

    def may_change(self):
        if self.is_read_only:
            raise Refused(20, "Access", 1)

    # ---- raw pages

    def raw(self, page):
        """A raw page that is taken."""
        if page >= self.count:
            raise Refused(9, "PageRange", page, self.count)
        if self.bit(page):
            raise Refused(10, "NotAllocated", page)
        if self.kind(page) != RAW:
            raise Refused(11, "SystemPage", page)

    def page_new(self):
        self.may_change()
        self.has_five_pages()
        page = self.take(RAW, lambda page: bytes(self.size - 16))
        self.settle()
        return f"ok page {page}"

    def page_write(self, page, text):
        self.raw(page)
        self.may_change()
        is_short(text)
        data = self.page(page)
        self.put(page, RAW, data[:16] + struct.pack("<H", len(text)) + text.ljust(self.size - 18, b"\0"))
        self.settle()
        return "ok"

    def page_read(self, page):
        self.raw(page)
        data = self.page(page)
        length = number(data, 16, 2)
        if length > MOST_TEXT:
            raise Refused(5, "NotDatabase", page)
        return quoted(data[18 : 18 + length])

    def page_free(self, page):
        self.raw(page)
        self.may_change()
        self.set_bit(page, 1)
        self.settle()
        return "ok"

    # ---- chains of data pages

    def chain(self, first, owner, read):
        """The whole chain, each slot read by its form."""
        page, pages, used, free = first, {}, [], []
        while page or not pages:
            if page in pages:
                raise Refused(5, "NotDatabase", self.page_too_many(list(pages), pages[page]))
            if not self.is_data_of(page, owner):
                raise Refused(5, "NotDatabase", page)
            data = self.page(page)
            for at in range(32, self.size - SLOT + 1, SLOT):
                slot = data[at : at + SLOT]
                value = read(slot) if slot[0] == 1 else None
                if slot[0] > 1 or slot[0] == 1 and value is None:
                    raise Refused(5, "NotDatabase", page)
                used += [(page, at, value)] if slot[0] else []
                free += [] if slot[0] else [(page, at)]
            pages[page] = len(pages)
            page = number(data, 16)
        return Chain(list(pages), used, free)

    def is_data_of(self, page, owner):
        return page < self.count and self.kind(page) == DATA and number(self.page(page), 20) == owner

    def page_too_many(self, pages, at):
        """The chain leads back to the one at that place: the page that is one more than the database has."""
        return pages[at + (self.count - at) % (len(pages) - at)]

    def put_slot(self, page, at, slot):
        """A slot of a data page is written."""
        if self.is_kind(page, DATA):
            data = self.page(page)
            self.put(page, DATA, data[:at] + slot + data[at + SLOT :])

    def new_data(self, owner, slot=bytes(SLOT)):
        """A new data page with its first slot; where no owner is named it owns itself."""
        return self.take(DATA, lambda page: struct.pack("<II8x", 0, page if owner is None else owner) + slot.ljust(self.size - 32, b"\0"))

    def grow(self, chain, owner, slot):
        """A new page with the slot, to which the last page of the chain leads then."""
        self.has_five_pages()
        page, last = self.new_data(owner, slot), chain.pages[-1]
        if self.is_kind(last, DATA):
            self.put(last, DATA, with_number(self.page(last), 16, page or 0))
        return page

    def place(self, chain, owner, slot):
        """The slot goes into the first free one, or into a new page."""
        if chain.free:
            self.put_slot(*chain.free[0], slot)
        else:
            self.grow(chain, owner, slot)

    # ---- tables

    def catalogue(self):
        return self.chain(CATALOGUE, CATALOGUE_OWNER, table_of)

    def history(self):
        return self.chain(HISTORY, HISTORY_OWNER, backup_of)

    def table_named(self, name):
        """The slot of a table in the catalogue: its page, its place, and its name and first page."""
        found = self.catalogue().first(lambda table: table[0] == name)
        if found is None:
            raise Refused(22, "NoTable")
        return found

    def rows(self, name):
        first = self.table_named(name)[2][1]
        return self.chain(first, first, row_of)

    def create_table(self, name):
        self.may_change()
        catalogue = self.catalogue()
        if catalogue.first(lambda table: table[0] == name):
            raise Refused(23, "TableExists")
        if len(catalogue.used) >= MOST_TABLES:
            raise Refused(26, "TooManyTables")
        self.has_five_pages()
        first = self.new_data(None)
        self.place(catalogue, CATALOGUE_OWNER, table_slot(name, first or 0))
        self.settle()
        return "ok"

    def drop_table(self, name):
        self.may_change()
        page, at, (_, first) = self.table_named(name)
        chain = self.chain(first, first, row_of)
        self.put_slot(page, at, bytes(SLOT))
        for page in chain.pages:
            self.set_bit(page, 1)
        self.settle()
        return "ok"

    def row(self, name, key):
        found = self.rows(name).first(lambda row: row[0] == key)
        if found is None:
            raise Refused(25, "NoKey", key)
        return found

    def insert(self, name, key, text):
        self.may_change()
        first = self.table_named(name)[2][1]
        is_short(text)
        chain = self.chain(first, first, row_of)
        if chain.first(lambda row: row[0] == key):
            raise Refused(24, "KeyExists", key)
        self.place(chain, first, row_slot(key, text))
        self.settle()
        return "ok"

    def update(self, name, key, text):
        self.may_change()
        self.table_named(name)
        is_short(text)
        page, at, _ = self.row(name, key)
        self.put_slot(page, at, row_slot(key, text))
        self.settle()
        return "ok"

    def delete(self, name, key):
        self.may_change()
        page, at, _ = self.row(name, key)
        self.put_slot(page, at, bytes(SLOT))
        self.settle()
        return "ok"

    def get(self, name, key):
        return quoted(self.row(name, key)[2][1])

    def scan(self, name):
        rows = {}
        for _, _, (key, text) in self.rows(name).used:
            rows.setdefault(key, text)
        return f"ok rows {len(rows)}" + "".join(f" {key} {quoted(rows[key])[3:]}" for key in sorted(rows))

    # ---- backups

    def begin(self):
        self.may_change()
        self.in_normal_state()
        self.has_scn()
        self.start()
        return f"ok scn {self.scn}"

    def in_normal_state(self):
        if self.state != NORMAL:
            raise Refused(6, "WrongState", self.state)

    def has_scn(self):
        if self.scn > MOST_SCN:
            raise Refused(13, "ScnExhausted", self.scn)

    def start(self):
        self.delta = bytearray(self.size)
        self.control(STALLED, self.scn + 1, self.gifts.guid())

    def end(self):
        if self.state == NORMAL:
            raise Refused(6, "WrongState", NORMAL)
        if self.state == STALLED:
            self.control(MERGE, self.scn + 1)
        for page in self.slots:
            put_page(self.main, page, self.page(page))
        self.control(NORMAL, self.scn)
        self.delta, self.slots = None, {}
        self.count = self.counted()
        return f"ok scn {self.scn}"

    def activate(self):
        """In the normal state nothing is done."""
        if self.state != NORMAL:
            self.end()
        return f"ok pages {self.count} scn {self.scn}"

    def frozen(self):
        """The main file without pages of zeros at its end."""
        return bytes(self.main[: without_zeros(self.main, self.size) * self.size])

    def backup(self, level, name):
        """A backup of a level goes on from the latest one of the level below."""
        self.is_startable(name)
        history = self.history()
        below = history.last(lambda backup: backup[0] == level - 1) if level else None
        if level and below is None:
            raise Refused(14, "NoHistory", level - 1)
        return self.back_up(history, level, below and below[2], name)

    def backup_since(self, guid, name):
        """A backup goes on from the latest one of that GUID."""
        self.is_startable(name)
        history = self.history()
        below = history.last(lambda backup: backup[2] == guid)
        if below is None:
            raise Refused(30, "NoGuid", guid_text(guid))
        return self.back_up(history, min(below[2][0] + 1, 9), below[2], name)

    def is_startable(self, name):
        self.may_change()
        self.in_normal_state()
        if not is_free(self.files, name):
            raise Refused(4, "FileExists", name)

    def back_up(self, history, level, below, name):
        page, at = self.room(history)
        self.settle()
        self.has_scn()
        self.start()
        scn, guid = self.scn - 1, bytes(self.main[32:48])
        pages = self.taken(below) if level else range(without_zeros(self.main, self.size))
        self.files[name] = self.level_file(level, below, pages) if level else self.frozen()
        self.put_slot(page, at, backup_slot(level, scn, self.gifts.seconds(page * self.size + at + 8), guid, name.encode("ascii")))
        self.settle()
        self.end()
        return f"ok level {level} scn {scn} pages {len(pages)} guid {guid_text(guid)}"

    def room(self, history):
        """The place of the history for a row: its page has to be taken, and its SCN page one."""
        if not history.free:
            return self.grow(history, HISTORY_OWNER, bytes(SLOT)), 32
        page, at = history.free[0]
        self.is_kind(self.places.scn(page), SCN_PAGE)
        place, bit = self.places.inventory(page), page % self.places.bits
        if self.is_kind(place, INVENTORY) and self.page(place)[32 + bit // 8] >> bit % 8 & 1:
            self.broken.add(page)
        return page, at

    def taken(self, below):
        """The pages that were changed since a backup: by their stamp, and by their SCN entry where they have one."""
        return [page for page in range(without_zeros(self.main, self.size)) if self.is_changed(page, below[1])]

    def is_changed(self, page, scn):
        at = self.places.scn(page) * self.size + 32 + 4 * (page % self.places.entries)
        has_entry = page and self.places.kind(page) != SCN_PAGE
        return number(self.main, page * self.size + 8) > scn and (not has_entry or number(self.main, at) > scn)

    def level_file(self, level, below, pages):
        """A head, runs of at most sixteen pages, and an end."""
        data = struct.pack("<4sHH16s16sIII", b"NBAK", 102, level, self.main[32:48], below[2], self.size, self.scn - 1, below[1])
        runs = []
        for page in pages:
            if runs and page == runs[-1][-1] + 1 and len(runs[-1]) < RUN:
                runs[-1].append(page)
            else:
                runs.append([page])
        for run in runs:
            data += struct.pack("<II", run[0], len(run)) + self.main[run[0] * self.size : (run[-1] + 1) * self.size]
        return data + struct.pack("<II", 0xFFFFFFFF, len(pages))

    def copy_to(self, name):
        if self.state != STALLED:
            raise Refused(6, "WrongState", self.state)
        if not is_free(self.files, name):
            raise Refused(4, "FileExists", name)
        self.files[name] = self.frozen()
        return f"ok pages {len(self.files[name]) // self.size}"

    # ---- checks

    def check(self):
        leaked = self.leaked()
        return f"ok leaked {len(leaked)}" + "".join(f" {page}" for page in leaked)

    def reclaim(self):
        self.may_change()
        leaked = self.leaked()
        for page in leaked:
            self.set_bit(page, 1)
        self.settle()
        return f"ok freed {len(leaked)}"

    def leaked(self):
        """The data pages that are taken, and that no chain leads to, where the inventories agree with the pages and each chain has its form."""
        below, past, entered = range(self.count), range(self.count, self.count + self.places.bits), range(self.count + self.places.entries)
        facts = ((self.is_blank, below), (self.lacks_system, below), (self.is_taken_past, past), (self.is_late, below), (self.has_wrong_entry, entered), (self.is_header_off, [0]))
        for fact, (breaks, pages) in enumerate(facts, 1):
            broken = next(filter(breaks, pages), None)
            if broken is not None:
                raise Refused(31, "Unsound", fact, broken)
        tables = self.catalogue().used
        chains = [self.catalogue(), self.history()] + [self.chain(first, first, row_of) for _, _, (_, first) in tables]
        reached = {page for chain in chains for page in chain.pages}
        return [page for page in below if self.kind(page) == DATA and self.is_taken(page) and page not in reached]

    def field(self, page, at, width=4):
        """A number of a page."""
        file, place = (self.delta, self.slots[page]) if page in self.slots and (page or at >= 64) else (self.main, page)
        return number(file, place * self.size + at, width)

    def is_taken(self, page):
        bit = page % self.places.bits
        return not self.field(self.places.inventory(page), 32 + bit // 8, 1) >> bit % 8 & 1

    def is_blank(self, page):
        return not any(self.page(page))

    def lacks_system(self, page):
        return self.places.kind(page) not in (None, self.kind(page))

    def is_taken_past(self, page):
        return self.places.inventory(page) < self.count and self.is_taken(page)

    def is_late(self, page):
        return self.field(page, 8) > self.scn

    def has_wrong_entry(self, page):
        """The entry of a page that has one is below its stamp, or above the current SCN, or isn't there."""
        if page == 0 or self.places.kind(page) == SCN_PAGE:
            return False
        place = self.places.scn(page)
        if place >= self.count:
            return page < self.count
        entry = self.field(place, 32 + 4 * (page % self.places.entries))
        return entry > self.scn or page < self.count and entry < self.field(page, 8)

    def is_header_off(self, page):
        return self.field(page, 8) != self.scn

    # ---- flags, and what is shown

    def set_byte(self, at, value):
        data = self.page(0)
        self.write(0, data[:at] + bytes([value]) + data[at + 1 :])
        return "ok"

    def forced(self, is_on):
        self.may_change()
        return self.set_byte(64, is_on)

    def access(self, is_read_only):
        self.in_normal_state()
        return self.set_byte(65, is_read_only)

    def show_header(self):
        forced, access = (int(byte != 0) for byte in self.page(0)[64:66])
        guid = guid_text(bytes(self.main[32:48]))
        return f"ok size {self.size} pages {self.count} state {self.state} scn {self.scn} guid {guid} forced {forced} access {access} delta {len(self.slots)}"

    def show_pages(self):
        """Pages that neither file has are zeros, and of no kind."""
        kinds, free = dict.fromkeys((HEADER, INVENTORY, SCN_PAGE, DATA, RAW), 0), 0
        for first in range(0, self.count, self.places.bits):
            place, behind = self.places.inventory(first), min(first + self.places.bits, self.count)
            if not self.is_kind(place, INVENTORY):
                self.settle()
            bits = int.from_bytes(self.page(place)[32:], "little") & ((1 << (behind - first)) - 1)
            free += bits.bit_count()
            for page in self.numbers(first, behind):
                if not bits >> (page - first) & 1 and self.kind(page) in kinds:
                    kinds[self.kind(page)] += 1
        names = ("header", "inventory", "scn", "data", "raw")
        shown = " ".join(f"{name} {count}" for name, count in zip(names, kinds.values()))
        return f"ok {shown} other {self.count - free - sum(kinds.values())} free {free}"

    def numbers(self, first, behind):
        """The pages from one to another that a file has."""
        in_main = range(first, min(behind, len(self.main) // self.size))
        return [*in_main, *(page for page in self.slots if first <= page < behind and page not in in_main)]

    def show_image(self):
        digest = hashlib.sha256()
        for page in range(self.count):
            digest.update(self.page(page))
        return f"ok pages {self.count} sha256 {digest.hexdigest()}"

    # ---- statements

    def answer(self, statement):
        """What a statement answers. Where it is refused the files are as they were."""
        trial = self.copy()
        try:
            reply = trial.do(statement)
        except Refused as refusal:
            return str(refusal)
        self.__dict__.update(trial.__dict__)
        return reply

    def copy(self):
        other = Database(dict(self.files), self.name, self.gifts)
        other.size, other.places, other.count, other.cache, other.slots = self.size, self.places, self.count, self.cache, dict(self.slots)
        other.main, other.delta = bytearray(self.main), None if self.delta is None else bytearray(self.delta)
        return other

    def do(self, statement):
        start = next(start for start in DEEDS if statement.startswith(start))
        return DEEDS[start](self, *values_of(statement[len(start) :]))

    def left(self):
        """All files as they stand."""
        files = {**self.files, self.name: self.main, self.delta_name: self.delta}
        return {name: bytes(data) for name, data in files.items() if data is not None}


def put_page(file, place, data):
    """A page goes to its place of a file; where that is shorter, zeros stand between."""
    at = place * len(data)
    file.extend(bytes(max(at - len(file), 0)))
    file[at : at + len(data)] = data


def is_short(text):
    if len(text) > MOST_TEXT:
        raise Refused(21, "TextLong", len(text))


def quoted(text):
    return "ok '" + text.decode("latin-1") + "'"


def values_of(words):
    """What stands behind a statement's first words: numbers, names, and texts in quotes."""
    values, rest = [], words.strip()
    while rest:
        if rest.startswith("'"):
            return values + [rest[1:-1]]
        word, _, rest = rest.partition(" ")
        values.append(word)
    return values


# Each statement by its first words.
DEEDS = {
    "page new": Database.page_new,
    "write": lambda db, page, text: db.page_write(int(page), text.encode("ascii")),
    "read": lambda db, page: db.page_read(int(page)),
    "free": lambda db, page: db.page_free(int(page)),
    "alter database begin backup": Database.begin,
    "alter database end backup": Database.end,
    "backup since": lambda db, guid, name: db.backup_since(bytes.fromhex(guid.replace("-", "")), name),
    "backup": lambda db, level, _, name: db.backup(int(level), name),
    "copy to": Database.copy_to,
    "create table": lambda db, name: db.create_table(name.encode("ascii")),
    "drop table": lambda db, name: db.drop_table(name.encode("ascii")),
    "insert": lambda db, name, key, text: db.insert(name.encode("ascii"), int(key), text.encode("ascii")),
    "update": lambda db, name, key, text: db.update(name.encode("ascii"), int(key), text.encode("ascii")),
    "delete": lambda db, name, key: db.delete(name.encode("ascii"), int(key)),
    "get": lambda db, name, key: db.get(name.encode("ascii"), int(key)),
    "scan": lambda db, name: db.scan(name.encode("ascii")),
    "forced writes": lambda db, word: db.forced(word == "on"),
    "access": lambda db, word: db.access(word == "read_only"),
    "sync": lambda db: "ok",
    "check": Database.check,
    "reclaim": Database.reclaim,
    "activate": Database.activate,
    "show header": Database.show_header,
    "show pages": Database.show_pages,
    "show image": Database.show_image,
    "show cache": lambda db: f"ok cache {db.cache} held HELD",
}


class Gifts:
    """What the outside draws, in its order: GUIDs, and the times of history rows, whose places in the main file are noted."""

    def __init__(self, guids=(), times=()):
        self.guids, self.times, self.given, self.places = iter(guids), iter(times), [], []

    def guid(self):
        """The next one, and once those are used up, one that can be told from all others."""
        self.given.append(next(self.guids, b"\xfe" * 8 + len(self.given).to_bytes(8, "big")))
        return self.given[-1]

    def seconds(self, place):
        self.places.append(place)
        return next(self.times, 0)


def said_by(files, words, gifts):
    """What a run on a database says, its exit status, and the files that it leaves."""
    lines = lines_of(files, words)
    db, reply = attached(files, lines[0][1], gifts)
    replies = [(lines[0][0], reply)]
    if reply.startswith("ok"):
        replies += [(session, db.answer(statement)) for session, statement in lines[1:]]
        files = db.left()
        if words[0] != "run":
            del replies[0]
        if "-S" in words and replies[0][1].startswith("ok"):
            replies = [("1", f"{replies[0][1]} pages {db.count}")]
    status = int(any(reply.startswith("refused") for _, reply in replies))
    return "".join(f"{session}: {reply}\n" for session, reply in replies), status, files


def attached(files, statement, gifts):
    """The database of a first statement, and what that answers."""
    words = statement.split(" ")
    name = statement.split("'")[1]
    if words[0] == "create" and not is_free(files, name):
        return None, str(Refused(4, "FileExists", name))
    if words[0] == "create":
        db = created(name, int(words[4]), int(words[6]), files, gifts)
        return db, f"ok pages {db.count}"
    db = Database(files, name, gifts)
    db.cache = int(words[-1]) if words[-2] == "cache" else 64
    try:
        return db, db.open()
    except Refused as refusal:
        return None, str(refusal)


def lines_of(files, words):
    """The session and the statement of each line of a script, or of what words ask for."""
    if words[0] == "run":
        lines = bytes(files[words[1]]).decode("ascii").splitlines()
        return [tuple(line.split(": ", 1)) for line in lines if line and not line.startswith("#")]
    flags = "".join(word for word in words if word in ("stat", "check", "reclaim", "activate", "-L", "-S", "-N", "-B"))
    plain = [word for word in words if word not in flags]
    if flags == "-B":
        level, name, file = plain
        return [("1", f"open '{name}'"), ("1", f"backup {level} to '{file}'" if len(level) == 1 else f"backup since {level} '{file}'")]
    begin, end = "alter database begin backup", "alter database end backup"
    statements = {"stat": ["show header", "show pages"], "-L": [begin], "-L-S": [begin], "-N": [end]}.get(flags, [flags])
    return [("1", f"open '{plain[0]}'")] + [("1", statement) for statement in statements]


def created(name, size, raw, files, gifts):
    """A new database, as it is made."""
    places, data, pages, left = Places(size), [], 0, raw
    while pages < 5 or left:
        kind = HEADER if pages == 0 else DATA if pages in (CATALOGUE, HISTORY) else places.kind(pages) or RAW
        left -= kind == RAW
        data.append(struct.pack("<BxHIII", kind, 0, 1, 1, pages))
        pages += 1
    db = Database(files, name, gifts)
    db.size, db.places, db.count, db.slots = size, places, pages, {}
    db.main, db.delta = bytearray(b"".join(head.ljust(size, b"\0") for head in data)), None
    fill_header(db.main, size)
    db.main[4 * size + 20] = HISTORY_OWNER
    for page in range(1, pages):
        kind = places.kind(page)
        if kind:
            body = bytearray(db.system_page(page, kind))
            db.main[page * size + 16 : (page + 1) * size] = body
    for page in range(pages):
        place, bit = places.inventory(page), page % places.bits
        db.main[place * size + 32 + bit // 8] &= ~(1 << bit % 8)
    return db


def fill_header(main, size):
    struct.pack_into("<4sHHII", main, 16, b"NBDB", 1, NORMAL, size, 1)
    main[64] = 1
    struct.pack_into("<II", main, 72, CATALOGUE, HISTORY)
