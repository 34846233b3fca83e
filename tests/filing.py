"""The file calls as a model: drives, open files, locks, marks, passwords, and what each function answers and leaves. It is written from the
rules in force (docs/PROFILE.md, "Open files and record locks" to "File calls", and docs/DECISIONS.md where those leave a choice) and by none of the
program's code, so that what the program does can be compared with it.

A call is refused by the first cause of its row (ROWS) that applies: CAUSES and RECORD_CAUSES have what each means. What a call does that isn't
refused is in DOES, or is done record by record."""

from typing import NamedTuple, Optional

from tools import images

QUESTION = 0x3F
LAST_RECORD = 262_143
NOT_FOUND = 0x00FF

# The refusals of each function in their order. E are extended errors, C codes of a record, NF is not found, and NF' not found as the directory is
# full. After a bar come the codes of each record; there C1' and C5 are the full directory.
ROWS = {
    13: "NF",
    14: "E4",
    15: "E4 E9 NF E7 E5 E10 E11",
    16: "E4 NF",
    17: "E4 NF",
    18: "NF",
    19: "E4 NF E2 E3 E7 E5",
    20: "E4 C10 | C1",
    21: "E4 C10 C6 E2 E3 | C8 C1' C2",
    22: "E4 E9 E2 E8 E10 E11 NF'",
    23: "E4 E9 NF E2 E3 E8 E7 E5",
    24: "",
    28: "NF",
    29: "",
    30: "E4 E9 NF E2 E7 E5",
    31: "E4",
    33: "E4 C10 C6 | C4 C1",
    34: "E4 C10 C6 E2 E3 | C8 C5 C2",
    35: "E4 E9 NF",
    36: "",
    37: "NF",
    38: "",
    39: "",
    40: "E4 C10 C6 E2 E3 | C8 C5 C2",
    41: "E4 C10 C6 E2 E3 | C4 C1 C8 C7",
    42: "E4 C13 C6 | C4 C1 C8 C12 C14",
    43: "E4 C13 C6",
    46: "E4",
    48: "",
    100: "E4 E2 E7 NF'",
    101: "E4",
    102: "E4 E9 NF",
    103: "E4 E9 NF E2 E7 E5 NF'",
}

# The parameter blocks.
PARAMETERS = {
    "ibm3740": bytes([26, 0, 3, 7, 0, 242, 0, 63, 0, 0xC0, 0, 16, 0, 2, 0]),
    "hd4": bytes([128, 0, 4, 15, 0, 0xFF, 7, 0xFF, 1, 0xFF, 0, 0, 0, 0, 0]),
    "hd8": bytes([128, 0, 5, 31, 1, 0xFF, 7, 0xFF, 1, 0xF0, 0, 0, 0, 0, 0]),
}


def word(number):
    return number.to_bytes(2, "little")


# A drive.


class Part:
    """An entry of a file: its attributes, its last extent and that one's record count, and the records of the blocks that it holds."""

    def __init__(self, attributes, last, top=0):
        self.attributes, self.last, self.top, self.blocks = list(attributes), last, top, {}


class Protection:
    """What an XFCB or the label has: the mode or the data byte, the decode byte, the stored password, and the two stamps."""

    def __init__(self, stored=bytes(18)):
        self.mode, self.decode, self.stored = stored[0], stored[1], stored[2:10]
        self.stamps = [stored[10:14], stored[14:18]]

    def set_password(self, password):
        self.decode = sum(password) % 256
        self.stored = bytes(byte ^ self.decode for byte in reversed(password))

    @property
    def password(self):
        return bytes(byte ^ self.decode for byte in reversed(self.stored))

    def bytes(self):
        return bytes([self.mode, self.decode]) + self.stored + b"".join(self.stamps)


class Drive:
    """What an image stands for, and whether it is protected from writing."""

    def __init__(self, kind_name, image):
        self.kind_name, self.kind, self.protected = kind_name, images.KINDS[kind_name], False
        self.parts, self.xfcbs, self.label, self.label_name, self.kept = {}, {}, None, None, 0
        for entry in images.directory(self.kind, image):
            self.take(image, entry)

    def take(self, image, entry):
        if isinstance(entry, images.File):
            part = Part(entry.attributes, entry.extent, entry.count)
            part.blocks = {place: images.block_records(self.kind, image, block) for place, block in enumerate(entry.blocks) if block}
            self.parts[entry.user, entry.name, self.number(entry.extent)] = part
        elif isinstance(entry, images.Xfcb):
            self.xfcbs[entry.user, entry.name] = Protection(entry.protection)
        elif isinstance(entry, images.Label):
            self.label, self.label_name = Protection(entry.protection), entry.name
        elif entry is not None:
            self.kept += 1

    def number(self, extent):
        """The number of the entry that covers an extent."""
        return extent // (self.kind.mask + 1)

    @property
    def free_entries(self):
        return self.kind.drm + 1 - len(self.parts) - len(self.xfcbs) - (self.label is not None) - self.kept

    @property
    def free_blocks(self):
        return self.kind.dsm + 1 - self.kind.directory_blocks - sum(len(part.blocks) for part in self.parts.values())

    def entries(self, user, name):
        """The entries of a file, by their numbers."""
        return [self.parts[key] for key in sorted(self.parts) if key[:2] == (user, name)]

    def names(self, user, pattern):
        """The names of a user that fit a pattern, in order."""
        return sorted({key[1] for key in self.parts if key[0] == user and fits(pattern, key[1])})

    def covering(self, user, name, extent):
        return self.parts.get((user, name, self.number(extent)))

    def has_extent(self, user, name, extent):
        part = self.covering(user, name, extent)
        return part is not None and extent <= part.last

    def top(self, user, name, extent):
        """The record count of an extent: that of the last one of an entry, 128 below it, 0 where it isn't there."""
        if not self.has_extent(user, name, extent):
            return 0
        part = self.covering(user, name, extent)
        return part.top if extent == part.last else 128

    def place(self, record):
        """The place of a record's block in its entry, and of the record in the block."""
        return divmod(record % (128 * (self.kind.mask + 1)), self.kind.block_records)

    def block(self, user, name, record):
        """The records of a record's block, where the file holds it."""
        part = self.covering(user, name, record // 128)
        return part.blocks.get(self.place(record)[0]) if part else None

    def sees(self, user, name, record):
        is_below = record % 128 < self.top(user, name, record // 128)
        return is_below and self.block(user, name, record) is not None

    def read(self, user, name, record):
        return self.block(user, name, record)[self.place(record)[1]]

    def write(self, user, name, record, bytes_):
        extent = record // 128
        if self.covering(user, name, extent) is None:
            self.parts[user, name, self.number(extent)] = Part(self.attributes(user, name), extent)
        part = self.covering(user, name, extent)
        if extent > part.last:
            part.last, part.top = extent, 0
        place, within = self.place(record)
        if place not in part.blocks:
            part.blocks[place] = [bytes(128)] * self.kind.block_records
        part.blocks[place][within] = bytes_
        if extent == part.last:
            part.top = max(part.top, record % 128 + 1)

    def attributes(self, user, name):
        return self.entries(user, name)[0].attributes

    def is_read_only(self, user, name):
        return bool(self.attributes(user, name)[8])

    def remove(self, user, name):
        self.parts = {key: part for key, part in self.parts.items() if key[:2] != (user, name)}
        self.xfcbs.pop((user, name), None)

    def rename(self, user, name, new):
        for key in [key for key in self.parts if key[:2] == (user, name)]:
            self.parts[user, new, key[2]] = self.parts.pop(key)
        self.xfcbs.pop((user, new), None)
        if (user, name) in self.xfcbs:
            self.xfcbs[user, new] = self.xfcbs.pop((user, name))

    def text(self):
        """All that is kept of it, with which another's can be compared."""
        files = {key: (part.attributes, part.last, part.top, part.blocks) for key, part in self.parts.items()}
        xfcbs = {key: xfcb.bytes() for key, xfcb in self.xfcbs.items()}
        return files, xfcbs, self.label and (self.label_name, self.label.bytes()), self.kept


def fits(pattern, name):
    return all(wanted & 0x7F in (QUESTION, letter) for wanted, letter in zip(pattern, name))


# What stands for a drive that isn't mounted: one without files.
NOWHERE = Drive("ibm3740", bytes([images.FREE]) * images.KINDS["ibm3740"].size)


# Open files, processes, and all together.


class Item:
    """A file that a process has open."""

    def __init__(self, owner, drive, user, name, mode):
        self.owner, self.drive, self.user, self.name, self.mode = owner, drive, user, name, mode
        self.count, self.has_written = 1, False

    @property
    def file(self):
        return self.drive, self.user, self.name


class Search(NamedTuple):
    """A search, and the last entry that it found, by name and number."""

    drive: int
    user: int
    pattern: bytes
    ex: int
    found: tuple


class Memory:
    """A segment of all pages, and the common memory that follows it."""

    def __init__(self, common):
        self.segment, self.common = bytearray(0xC000), common

    def pieces(self, address, count):
        """The bytes from an address on, in pieces: those among which they are, the first and the end of a piece there."""
        while count:
            address %= 0x10000
            bytes_, first = (self.segment, address) if address < 0xC000 else (self.common, address - 0xC000)
            end = min(first + count, len(bytes_))
            yield bytes_, first, end
            address, count = address + end - first, count - (end - first)

    def read(self, address, count):
        return b"".join(bytes(bytes_[first:end]) for bytes_, first, end in self.pieces(address, count))

    def place(self, address, given):
        for bytes_, first, end in self.pieces(address, len(given)):
            bytes_[first:end] = given[: end - first]
            given = given[end - first :]


class Process:
    def __init__(self, memory):
        self.memory = memory
        self.drive = self.user = self.error_mode = 0
        self.dma, self.count = 0x80, 1
        self.default = bytes(8)
        self.search: Optional[Search] = None
        self.marks = set()


class Ended(Exception):
    """The call ended its process."""


class Refused(Exception):
    """The call is refused."""


class System:
    """The drives by number, and the processes that use them, so many in each segment. `said` has texts with whose they are. `met` has, for each function that was called, the causes of
    its row that applied at once, of which the first was answered."""

    def __init__(self, drives, processes, stamp, segments=1):
        self.drives, self.stamp = drives, stamp
        common = bytearray(0x4000)
        self.processes = [Process(memory) for memory in (Memory(common) for _ in range(segments)) for _ in range(processes)]
        self.items = [None] * 64
        self.locks = {}
        self.said = []
        self.met = set()

    def call(self, who, function, parameter):
        """The answer in HL; None where the process ends."""
        process = self.processes[who]
        if function in SIMPLE:
            return SIMPLE[function](self, process, parameter)
        call = Call(self, who, function, parameter)
        try:
            return call.answer()
        except Ended:
            self.end(who)
            return None

    def end(self, who):
        for drive in range(16):
            self.give_back_drive(who, drive)
        self.processes[who].search = None

    def give_back_drive(self, who, drive):
        self.processes[who].marks.discard(drive)
        for number, item in enumerate(self.items):
            if item and item.owner == who and item.drive == drive:
                self.give_back(number)

    def give_back(self, number):
        """An open file goes, with its process's locks of that file."""
        item, self.items[number] = self.items[number], None
        self.locks = {lock: owner for lock, owner in self.locks.items() if (lock[:3], owner) != (item.file, item.owner)}

    def items_of(self, who):
        return [item for item in self.items if item and item.owner == who]

    def is_busy(self, who, drives, with_marks):
        """Whether another process has a file open, or a mark, on one of the drives."""
        others = [number for number in range(len(self.processes)) if number != who]
        opened = any(item and item.owner != who and item.drive in drives for item in self.items)
        return opened or (with_marks and any(self.processes[other].marks & drives for other in others))


def set_count(_, process, parameter):
    count = parameter % 256
    if not 1 <= count <= 16:
        return NOT_FOUND
    process.count = count
    return 0


def set_user(_, process, parameter):
    if parameter % 256 == 0xFF:
        return process.user
    process.user = parameter % 16
    return 0


def set_dma(_, process, parameter):
    process.dma = parameter
    return 0


def set_error_mode(_, process, parameter):
    process.error_mode = parameter % 256
    return 0


def set_default(_, process, parameter):
    process.default = process.memory.read(parameter, 8)
    return 0


# The functions that are no calls on files, and need no disk.
SIMPLE = {
    25: lambda _, process, __: process.drive,
    26: set_dma,
    32: set_user,
    44: set_count,
    45: set_error_mode,
    106: set_default,
}


# A call.


class Call:
    """A call on files with what it took at its gate: `drive` is the number of the drive that it names, `disk` that drive, an empty one
    where it isn't mounted."""

    def __init__(self, system, who, function, parameter):
        self.system, self.who, self.function, self.parameter = system, who, function, parameter
        self.process = system.processes[who]
        self.memory = self.process.memory
        self.fcb = bytearray(self.memory.read(parameter, 36))
        self.drive = self.named_drive()
        self.disk = system.drives.get(self.drive) or NOWHERE
        self.name = bytes(byte & 0x7F for byte in self.fcb[1:12])
        self.user = self.process.user
        self.item_number = self.named_item() if function in WITH_ITEM else None
        self.item = None if self.item_number is None else system.items[self.item_number]

    def named_drive(self):
        if self.function in (14, 46, 101):
            return self.parameter % 256
        if self.function in (28, 31):
            return self.process.drive
        return self.process.drive if self.fcb[0] == 0 else self.fcb[0] - 1

    def dma(self, count):
        return self.memory.read(self.process.dma, count)

    def named_item(self):
        """The number of the open file that the handle, or the word at the DMA address, names."""
        number, rest = self.fcb[16] - 1, self.fcb[17:32]
        if self.function in (42, 43):
            number, rest = int.from_bytes(self.dma(2), "little") - 1, b""
        if any(rest) or not 0 <= number < 64:
            return None
        item = self.system.items[number]
        is_named = item is not None and (item.owner, item.drive, item.name) == (self.who, self.drive, self.name)
        return number if is_named else None

    # The answer.

    def answer(self):
        if self.function == 13:
            # In any case.
            self.process.drive, self.process.dma = 0, 0x80
        heads, _, codes = ROWS[self.function].partition("|")
        told = [cause for cause in heads.split() if self.applies(cause)]
        if told:
            records = self.codes(codes.split(), self.first_record(), self.dma(128)) if self.item else []
            self.system.met.add((self.function, tuple(told + records)))
            return self.refuse(told[0])
        if codes:
            return self.serve_records(codes.split())
        return DOES[self.function](self) or 0

    def refuse(self, cause):
        if cause.startswith("NF"):
            return NOT_FOUND
        code = int(cause[1:])
        if cause.startswith("C"):
            return code
        if self.process.error_mode != 0xFF:
            letter = chr(65 + self.drive % 256) if self.drive % 256 < 16 else "?"
            self.system.said.append((self.who, f"Bdos error {code} on {letter}:\\r\n"))
            if self.process.error_mode != 0xFE:
                raise Ended
        return 256 * code + 0xFF

    # What refuses a call.

    def applies(self, cause):
        return CAUSES[cause](self)

    def is_unmounted(self):
        return self.drive not in self.system.drives

    def is_wild(self):
        names = self.fcb[1:12] + (self.fcb[17:28] if self.function == 23 else b"")
        return any(byte & 0x7F == QUESTION for byte in names)

    def is_beyond(self):
        """Whether one of the records is above the last that a file can have."""
        is_above = self.function != 21 and self.fcb[35] > 3
        return is_above or self.first_record() + self.process.count - 1 > LAST_RECORD

    def is_not_found(self):
        match self.function:
            case 13 | 37:
                drives = set(range(16)) if self.function == 13 else bits(self.parameter)
                return self.system.is_busy(self.who, drives, True)
            case 28:
                return not self.is_unmounted() and self.system.is_busy(self.who, {self.drive}, False)
            case 15:
                user = self.opened_user()
                return user is None or not self.disk.has_extent(user, self.name, self.fcb[12])
            case 16:
                return self.item is None
            case 17:
                return self.next_found(Search(self.drive, self.user, self.name, self.fcb[12], ())) is None
            case 18:
                return self.process.search is None or self.next_found(self.process.search) is None
            case 19:
                return not self.disk.names(self.user, self.name)
        return not self.disk.entries(self.user, self.name)

    def opened_user(self):
        """The user whose file is opened: the caller, or 0 where that one has none of the name and 0 has one with T2'."""
        if self.disk.entries(self.user, self.name):
            return self.user
        return 0 if self.disk.entries(0, self.name) and self.disk.attributes(0, self.name)[9] else None

    def is_read_only(self):
        if self.function == 19:
            return "E3" in self.file_causes()
        if self.function == 23:
            return bool(self.disk.entries(self.user, self.name)) and self.disk.is_read_only(self.user, self.name)
        return self.item is not None and (self.item.mode == "read-only" or self.disk.is_read_only(*self.item.file[1:]))

    def is_there_already(self):
        new = self.new_name() if self.function == 23 else self.name
        return bool(self.disk.entries(self.user, new))

    def new_name(self):
        return bytes(byte & 0x7F for byte in self.fcb[17:28])

    def is_password_refused(self):
        if self.function == 19:
            return "E7" in self.file_causes()
        if self.function == 100:
            label = self.disk.label
            return label is not None and any(label.stored) and not self.admits(label)
        user = self.opened_user() if self.function == 15 else self.user
        return user is not None and self.is_held_back(user, self.name, 0x80 if self.function == 15 else 0xFF)

    def is_held_back(self, user, name, bits_):
        """Whether passwords hold on the drive, the file's mode has one of these bits, and the caller hasn't its password."""
        xfcb = self.disk.xfcbs.get((user, name))
        holds = self.disk.label is not None and self.disk.label.mode & 0x80 and xfcb is not None
        return bool(holds and xfcb.mode & bits_ and not self.admits(xfcb))

    def admits(self, protection):
        return protection.password in (self.dma(8), self.process.default)

    def is_open_elsewhere(self):
        if self.function == 19:
            return "E5" in self.file_causes()
        if self.function != 15:
            return self.is_used(self.user, self.name)
        user, mode = self.opened_user(), self.asked_mode()
        items = [item for item in self.system.items if item and item.file == (self.drive, user, self.name)]
        return any(item.mode != mode or (mode == "locked" and item.owner != self.who) for item in items)

    def is_used(self, user, name):
        return any(item and item.file == (self.drive, user, name) and item.owner != self.who for item in self.system.items)

    def file_causes(self):
        """The causes for which the first file that can't be deleted isn't."""
        for name in self.disk.names(self.user, self.name):
            is_so = {
                "E3": self.disk.is_read_only(self.user, name),
                "E7": self.is_held_back(self.user, name, 0xFF),
                "E5": self.is_used(self.user, name),
            }
            if any(is_so.values()):
                return [cause for cause in is_so if is_so[cause]]
        return []

    def asked_mode(self):
        user = self.opened_user()
        is_kept = user is not None and self.is_held_back(user, self.name, 0x40)
        if self.fcb[6] & 0x80 or user != self.user or is_kept:
            return "read-only"
        return "unlocked" if self.fcb[5] & 0x80 else "locked"

    def own_item(self):
        """The number of the caller's item of the file that is opened, or None."""
        file = self.drive, self.opened_user(), self.name
        numbers = [number for number, item in enumerate(self.system.items) if item and item.owner == self.who and item.file == file]
        return numbers[0] if numbers and self.function == 15 else None

    def has_too_many(self):
        own = self.own_item()
        return len(self.system.items_of(self.who)) == 16 or (own is not None and self.system.items[own].count == 255)

    def are_too_many(self):
        return None not in self.system.items

    def is_directory_full(self):
        needed = {22: 1 + self.makes_xfcb(), 100: self.disk.label is None, 103: 1}[self.function]
        if self.function != 100 and (self.user, self.name) in self.disk.xfcbs:
            needed = 1 if self.function == 22 else 0
        return self.disk.free_entries < needed

    def makes_xfcb(self):
        label = self.disk.label
        return label is not None and bool(label.mode & 0x10 or (label.mode & 0x80 and self.fcb[6] & 0x80))

    # The position.

    def position(self):
        return 128 * (32 * (self.fcb[14] % 64) + self.fcb[12] % 32) + self.fcb[32]

    def random_record(self):
        return int.from_bytes(self.fcb[33:36], "little")

    def first_record(self):
        return self.position() if self.function in (20, 21) else self.random_record()

    def set_position(self, record):
        extent = min(2047, record // 128)
        self.fcb[12], self.fcb[14], self.fcb[32] = extent % 32, extent // 32, record - 128 * extent

    def set_top(self, user):
        self.fcb[15] = self.disk.top(user, self.name, self.position_extent())

    def position_extent(self):
        return 32 * (self.fcb[14] % 64) + self.fcb[12] % 32

    def put_fcb(self):
        self.memory.place(self.parameter, self.fcb)

    # Records.

    def serve_records(self, row):
        first = self.first_record()
        records = self.dma(128 * self.process.count * (2 if self.function == 41 else 1))
        records = [records[place : place + 128] for place in range(0, len(records), 128)]
        code, done, read = None, 0, []
        idles = self.function == 42 and self.item.mode != "unlocked"
        while done < self.process.count and not idles:
            codes = self.codes(row, first + done, records[done])
            self.system.met.add((self.function, tuple(codes)))
            if codes:
                code = codes[0]
                break
            self.serve_record(first + done, records[done + (self.process.count if self.function == 41 else 0)], read)
            done += 1
        if self.function != 42 and (done or code is None):
            self.set_position(first + (done if self.function in (20, 21) else 0))
            self.set_top(self.item.user)
            self.put_fcb()
        self.memory.place(self.process.dma, b"".join(read))
        return 4096 * done % 0x10000 + int(code.strip("C'")) if code else 0

    def codes(self, row, record, bytes_):
        """The codes of a record that apply, in the order of their row."""
        return [cause for cause in row if RECORD_CAUSES[cause](self, record, bytes_)]

    def serve_record(self, record, bytes_, read):
        _, user, name = self.item.file
        if self.function in (20, 33):
            read.append(self.disk.read(user, name, record))
        elif self.function == 42:
            self.system.locks[self.item.file + (record,)] = self.who
        else:
            self.disk.write(user, name, record, bytes_)
            if not self.item.has_written:
                self.item.has_written = True
                self.stamp_file(user, name, 0x20, 1)

    def lock_owner(self, record):
        return self.system.locks.get(self.item.file + (record,))

    def is_locked_elsewhere(self, record):
        return self.lock_owner(record) not in (None, self.who)

    def locks_at_most(self, owners, count):
        return sum(owner in owners for owner in self.system.locks.values()) >= count

    # What a call does.

    def stamp_file(self, user, name, bit, place):
        label, xfcb = self.disk.label, self.disk.xfcbs.get((user, name))
        if label is not None and label.mode & bit and xfcb is not None:
            xfcb.stamps[place] = self.system.stamp

    def set_opened(self, number, user, attributes):
        """The block becomes that of an open file."""
        self.fcb[1:12] = bytes(letter + 128 * bit for letter, bit in zip(self.name, attributes))
        self.fcb[5] &= 0x7F
        self.fcb[6] &= 0x7F
        self.fcb[13] = self.fcb[14] = 0
        self.set_top(user)
        self.fcb[16:32] = bytes([number + 1]).ljust(16, b"\0")
        if self.system.items[number].mode == "unlocked":
            self.fcb[33:35] = word(number + 1)
        self.put_fcb()

    def unprotect(self, drives):
        for number, drive in self.system.drives.items():
            if number in drives:
                drive.protected = False

    def select(self):
        self.process.drive = self.drive

    def open_file(self):
        user, mode, own = self.opened_user(), self.asked_mode(), self.own_item()
        if own is None:
            own = self.system.items.index(None)
            self.system.items[own] = Item(self.who, self.drive, user, self.name, mode)
        else:
            self.system.items[own].count += 1
        self.stamp_file(user, self.name, 0x40, 0)
        self.set_opened(own, user, self.disk.attributes(user, self.name))

    def close_file(self):
        if self.fcb[5] & 0x80:
            return
        self.item.count -= 1
        if self.item.count == 0:
            self.system.give_back(self.item_number)

    def next_found(self, search):
        """The key of the least entry after the last one that fits a search."""
        drive = self.system.drives.get(search.drive)
        keys = sorted(key[1:] for key in drive.parts if key[0] == search.user) if drive else []
        fitting = (key for key in keys if fits(search.pattern, key[0]) and search.ex in (QUESTION, *covered(drive, key[1])))
        return next((key for key in fitting if key > search.found), None)

    def search(self):
        search = self.process.search if self.function == 18 else Search(self.drive, self.user, self.name, self.fcb[12], ())
        name, number = found = self.next_found(search)
        self.process.search = search._replace(found=found)
        part = self.system.drives[search.drive].parts[search.user, name, number]
        entry = bytes([search.user]) + bytes(letter + 128 * bit for letter, bit in zip(name, part.attributes))
        entry += bytes([part.last % 32, 0, part.last // 32, part.top])
        self.memory.place(self.process.dma, entry.ljust(32, b"\0") + b"\xE5" * 96)

    def delete(self):
        for name in self.disk.names(self.user, self.name):
            self.give_back_own(name)
            self.disk.remove(self.user, name)

    def give_back_own(self, name):
        for number, item in enumerate(self.system.items):
            if item and (item.owner, item.file) == (self.who, (self.drive, self.user, name)):
                self.system.give_back(number)

    def make(self):
        self.disk.parts[self.user, self.name, 0] = Part([0] * 11, 0)
        if self.makes_xfcb():
            xfcb = self.disk.xfcbs[self.user, self.name] = Protection()
            if self.fcb[6] & 0x80:
                given = self.dma(9)
                xfcb.mode = given[8]
                xfcb.set_password(given[:8])
            self.stamp_file(self.user, self.name, 0x10, 0)
        number = self.system.items.index(None)
        mode = "unlocked" if self.fcb[5] & 0x80 else "locked"
        self.system.items[number] = Item(self.who, self.drive, self.user, self.name, mode)
        self.set_opened(number, self.user, [0] * 11)

    def rename(self):
        self.give_back_own(self.name)
        self.disk.rename(self.user, self.name, self.new_name())

    def set_attributes(self):
        for part in self.disk.entries(self.user, self.name):
            for place in (0, 1, 2, 3, 8, 9, 10):
                part.attributes[place] = self.fcb[1 + place] >> 7

    def vector(self):
        drives = (number for number, drive in self.system.drives.items() if self.function == 24 or drive.protected)
        return sum(1 << number for number in drives)

    def protect(self):
        if not self.is_unmounted():
            self.disk.protected = True

    def parameters(self):
        self.memory.place(0xFE80, PARAMETERS[self.disk.kind_name])
        return 0xFE80

    def size(self):
        part = self.disk.entries(self.user, self.name)[-1]
        self.fcb[33:36] = (128 * part.last + part.top).to_bytes(3, "little")
        self.put_fcb()

    def set_random(self):
        self.fcb[33:36] = self.position().to_bytes(3, "little")
        self.put_fcb()

    def mark(self):
        self.process.marks |= bits(self.parameter)

    def leave(self):
        for drive in bits(self.parameter):
            self.system.give_back_drive(self.who, drive)

    def unlock(self):
        for record in range(self.random_record(), self.random_record() + self.process.count):
            if self.lock_owner(record) == self.who:
                del self.system.locks[self.item.file + (record,)]

    def free_space(self):
        self.memory.place(self.process.dma, (self.disk.free_blocks * self.disk.kind.block_records).to_bytes(3, "little"))

    def set_label(self):
        if self.disk.label is None:
            self.disk.label = Protection()
        self.disk.label_name = bytes(self.fcb[1:12])
        self.disk.label.mode = self.fcb[12] | 1
        if self.fcb[12] & 1:
            self.disk.label.set_password(self.dma(16)[8:])

    def label_data(self):
        return self.disk.label.mode if self.disk.label else 0

    def read_xfcb(self):
        xfcb = self.disk.xfcbs.get((self.user, self.name)) or Protection()
        self.fcb[12] = xfcb.mode
        self.fcb[24:32] = b"".join(xfcb.stamps)
        self.put_fcb()

    def write_xfcb(self):
        xfcb = self.disk.xfcbs.setdefault((self.user, self.name), Protection())
        xfcb.mode = self.fcb[12] & 0xE0
        if self.fcb[12] & 1:
            xfcb.set_password(self.dma(16)[8:])


def bits(vector):
    return {number for number in range(16) if vector >> number & 1}


def covered(drive, number):
    """The extents that an entry covers."""
    return range(number * (drive.kind.mask + 1), (number + 1) * (drive.kind.mask + 1))


# The functions that take the open file that their block names.
WITH_ITEM = (16, 20, 21, 33, 34, 40, 41, 42, 43)

CAUSES = {
    "E4": Call.is_unmounted,
    "E9": Call.is_wild,
    "C10": lambda call: call.item is None,
    "C13": lambda call: call.item is None,
    "C6": Call.is_beyond,
    "NF": Call.is_not_found,
    "E2": lambda call: call.disk.protected,
    "E3": Call.is_read_only,
    "E8": Call.is_there_already,
    "E7": Call.is_password_refused,
    "E5": Call.is_open_elsewhere,
    "E10": Call.has_too_many,
    "E11": Call.are_too_many,
    "NF'": Call.is_directory_full,
}


def needs_entry(call, record):
    return call.disk.covering(*call.item.file[1:], record // 128) is None and not call.disk.free_entries


RECORD_CAUSES = {
    "C4": lambda call, record, _: not call.disk.has_extent(*call.item.file[1:], record // 128),
    "C1": lambda call, record, _: not call.disk.sees(*call.item.file[1:], record),
    "C8": lambda call, record, _: call.is_locked_elsewhere(record),
    "C7": lambda call, record, old: call.disk.sees(*call.item.file[1:], record) and call.disk.read(*call.item.file[1:], record) != old,
    "C1'": lambda call, record, _: needs_entry(call, record),
    "C5": lambda call, record, _: needs_entry(call, record),
    "C2": lambda call, record, _: call.disk.block(*call.item.file[1:], record) is None and not call.disk.free_blocks,
    "C12": lambda call, record, _: call.lock_owner(record) != call.who and call.locks_at_most({call.who}, 32),
    "C14": lambda call, record, _: call.lock_owner(record) != call.who and call.locks_at_most(range(64), 128),
}

DOES = {
    13: lambda call: call.unprotect(range(16)),
    14: Call.select,
    15: Call.open_file,
    16: Call.close_file,
    17: Call.search,
    18: Call.search,
    19: Call.delete,
    22: Call.make,
    23: Call.rename,
    24: Call.vector,
    28: Call.protect,
    29: Call.vector,
    30: Call.set_attributes,
    31: Call.parameters,
    35: Call.size,
    36: Call.set_random,
    37: lambda call: call.unprotect(bits(call.parameter)),
    38: Call.mark,
    39: Call.leave,
    43: Call.unlock,
    46: Call.free_space,
    48: lambda call: 0,
    100: Call.set_label,
    101: Call.label_data,
    102: Call.read_xfcb,
    103: Call.write_xfcb,
}
