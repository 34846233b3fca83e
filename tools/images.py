#!/usr/bin/env python3
"""Images of disks, read without the program: by docs/PROFILE.md and docs/IMAGES.md alone, and by none of the program's code.

images.py read KIND IMAGE           prints the drive that the image stands for, or its first fault as `cause N at N`
images.py slots KIND IMAGE          prints each slot of the directory that isn't free: where its 32 bytes begin, and what they say
images.py get KIND IMAGE FOLDER     writes the files of an image without fault into a new folder, as USER/NAME.TYP
images.py rescue KIND IMAGE FOLDER  writes what an image has into a new folder, whatever its faults, and prints each file with what is wrong

KIND is ibm3740, hd4 or hd8; docs/IMAGES.md, "The three kinds", says which. Ends with status 0; 4 where the image, or with `rescue` a file, is at fault; 1 where something can't be done.
"""

import os
import signal
import sys
import zlib
from typing import NamedTuple

SECTOR = 128
ENTRY = 32
FREE = 0xE5
LABEL = 0x20


class Kind(NamedTuple):
    size: int
    system_tracks: int
    block: int
    dsm: int
    drm: int
    directory_blocks: int
    wide: bool
    mask: int

    @property
    def block_records(self):
        return self.block // SECTOR

    @property
    def places(self):
        """How many blocks a directory entry has room for."""
        return 8 if self.wide else 16


KINDS = {
    "ibm3740": Kind(256256, 2, 1024, 242, 63, 2, False, 0),
    "hd4": Kind(4194304, 0, 2048, 2047, 511, 8, True, 0),
    "hd8": Kind(8388608, 0, 4096, 2047, 511, 4, True, 1),
}

TRACK = 26
SKEW = [1, 7, 13, 19, 25, 5, 11, 17, 23, 3, 9, 15, 21, 2, 8, 14, 20, 26, 6, 12, 18, 24, 4, 10, 16, 22]


class File(NamedTuple):
    """A directory entry of a file."""

    user: int
    name: bytes
    attributes: tuple
    s2: int
    ex: int
    count: int
    blocks: tuple

    @property
    def extent(self):
        return 32 * self.s2 + self.ex


class Xfcb(NamedTuple):
    user: int
    name: bytes
    protection: bytes


class Label(NamedTuple):
    name: bytes
    protection: bytes


class Kept(NamedTuple):
    """An entry of another sort, which nobody reads."""

    sort: int


# Where things are.


def sector_place(kind, logical):
    """The byte of the image at which a sector after the system's tracks begins."""
    if kind.wide:
        return SECTOR * logical
    track, index = divmod(logical, TRACK)
    return SECTOR * ((kind.system_tracks + track) * TRACK + SKEW[index] - 1)


def record(kind, image, logical):
    place = sector_place(kind, logical)
    return bytes(image[place : place + SECTOR])


def block_records(kind, image, block):
    first = block * kind.block_records
    return [record(kind, image, first + number) for number in range(kind.block_records)]


def slot_place(kind, slot):
    sector, within = divmod(ENTRY * slot, SECTOR)
    return sector_place(kind, sector) + within


def slot_bytes(kind, image, slot):
    place = slot_place(kind, slot)
    return bytes(image[place : place + ENTRY])


# What a slot says.


def plain(name):
    return bytes(letter & 0x7F for letter in name)


def protection(entry):
    """Mode or data byte, decode byte, password and stamps."""
    return entry[12:14] + entry[16:32]


def file_entry(kind, entry):
    numbers = entry[16:32]
    if kind.wide:
        numbers = [numbers[at] + 256 * numbers[at + 1] for at in range(0, 16, 2)]
    name = entry[1:12]
    attributes = tuple(letter >> 7 for letter in name)
    return File(entry[0], plain(name), attributes, entry[14], entry[12], entry[15], tuple(numbers))


def meaning(kind, entry):
    """What an entry is; None for a free one."""
    sort = entry[0]
    if sort < 16:
        return file_entry(kind, entry)
    if sort < 32:
        return Xfcb(sort - 16, plain(entry[1:12]), protection(entry))
    if sort == LABEL:
        return Label(entry[1:12], protection(entry))
    return None if sort == FREE else Kept(sort)


def directory(kind, image):
    return [meaning(kind, slot_bytes(kind, image, slot)) for slot in range(kind.drm + 1)]


# Faults.


class Fault(NamedTuple):
    cause: int
    place: int

    def __str__(self):
        return f"cause {self.cause} at {self.place}"


def held(file):
    """The blocks that an entry has; a number 0 is none."""
    return [block for block in file.blocks if block]


def key_of(kind, entry):
    """What no two slots may have."""
    if isinstance(entry, File):
        return "file", entry.user, entry.name, entry.extent // (kind.mask + 1)
    if isinstance(entry, Xfcb):
        return "xfcb", entry.user, entry.name
    return ("label",) if isinstance(entry, Label) else None


def file_causes(kind, file, taken, keys):
    """Whether each of the causes 2 to 6 is there."""
    blocks = held(file)
    return {
        2: file.count > 128,
        3: any(block < kind.directory_blocks or block > kind.dsm for block in blocks),
        4: len(set(blocks)) < len(blocks) or not taken.isdisjoint(blocks),
        5: key_of(kind, file) in keys,
        6: file.s2 > 63 or file.ex > 31,
    }


def causes(kind, entry, taken, keys):
    """The causes that an entry has, where earlier slots have these blocks and keys."""
    if isinstance(entry, File):
        return [cause for cause, is_there in file_causes(kind, entry, taken, keys).items() if is_there]
    if key_of(kind, entry) not in keys:
        return []
    return [7] if isinstance(entry, Label) else [8]


def first_fault(kind, image):
    if len(image) != kind.size:
        return Fault(1, 0)
    taken, keys = set(), set()
    for slot, entry in enumerate(directory(kind, image)):
        found = causes(kind, entry, taken, keys)
        if found:
            return Fault(min(found), slot)
        if isinstance(entry, File):
            taken.update(held(entry))
        if key_of(kind, entry):
            keys.add(key_of(kind, entry))
    return None


# The drive.


def name_text(name):
    letters = (chr(c) if 0x21 <= c < 0x7F and c not in b"\\/." else f"\\x{c:02X}" for c in name.rstrip(b" "))
    return "".join(letters)


def file_text(name):
    """A name and its type as a file of the host may be called, no two alike, and one of spaces alone too."""
    kind = name_text(name[8:])
    return name_text(name[:8]) + ("." + kind if kind else "") or "\\x20"


def extent_lines(kind, image, file):
    """The last extent of an entry, its record count, its attributes, and the sums of the records of its blocks."""
    attributes = "".join(str(bit) for bit in file.attributes)
    yield f"  extent {file.extent} count {file.count} attributes {attributes}"
    for place, block in enumerate(file.blocks):
        if block:
            sums = (f"{zlib.crc32(one):08X}" for one in block_records(kind, image, block))
            yield f"    block {place}: " + " ".join(sums)


def files_of(kind, image):
    """The files of an image without fault, each with its entries, by user and name."""
    files = {}
    for entry in directory(kind, image):
        if isinstance(entry, File):
            files.setdefault((entry.user, entry.name), []).append(entry)
    return {key: sorted(files[key], key=lambda entry: entry.extent) for key in sorted(files)}


def free_lines(kind, entries):
    used = sum(len(held(entry)) for entry in entries if isinstance(entry, File))
    yield f"kept {sum(isinstance(entry, Kept) for entry in entries)}"
    yield f"free records {(kind.dsm + 1 - kind.directory_blocks - used) * kind.block_records}"
    yield f"free entries {entries.count(None)}"


def drive_lines(kind, image):
    """The drive, without the slots of its entries and the numbers of its blocks."""
    entries = directory(kind, image)
    for (user, name), parts in files_of(kind, image).items():
        yield f"file {user}:{file_text(name)}"
        for part in parts:
            yield from extent_lines(kind, image, part)
    for xfcb in sorted(entry for entry in entries if isinstance(entry, Xfcb)):
        yield f"xfcb {xfcb.user}:{file_text(xfcb.name)} {xfcb.protection.hex()}"
    for label in (entry for entry in entries if isinstance(entry, Label)):
        yield f"label {name_text(label.name)} {label.protection.hex()}"
    yield from free_lines(kind, entries)


def part_contents(kind, image, file):
    """The records of an entry up to its last one; a block that it doesn't have gives zeros."""
    before = file.extent % (kind.mask + 1) * 128
    data = b""
    for block in file.blocks:
        data += b"".join(block_records(kind, image, block)) if block else bytes(kind.block)
    return data[: (before + file.count) * SECTOR]


def contents(kind, image, parts):
    """The bytes of a file up to its last record; an extent that it doesn't have gives zeros."""
    data = b""
    for part in parts:
        first = part.extent // (kind.mask + 1) * (kind.mask + 1)
        data = data.ljust(first * 128 * SECTOR, b"\0") + part_contents(kind, image, part)
    return data


# The files of an image that may be at fault.


class Part(NamedTuple):
    """An entry of a file, its slot, and the number of its place in the file, None where it has none there; and what is wrong with it."""

    slot: int
    file: File
    number: int | None
    remarks: tuple


def whole(kind, image):
    """An image brought to its kind's size: a byte that is missing is E5h, as on a new disk."""
    return image[: kind.size].ljust(kind.size, bytes([FREE]))


def is_file(entry):
    """Whether an entry is a file's, or has a name that is typed and a byte 0 that nothing has. One byte throughout is no entry."""
    sort, name = entry[0], plain(entry[1:12])
    is_name = name[0] > 0x20 and all(0x20 <= letter < 0x7F for letter in name)
    return len(set(entry)) > 1 and (sort < 16 or sort > LABEL and sort != FREE and is_name)


def mended(kind, file):
    """An entry without blocks that no file can have, and, where its record count can't be right, with that of all its blocks."""
    is_right = lambda block: kind.directory_blocks <= block <= kind.dsm
    last = max((place + 1 for place, block in enumerate(file.blocks) if block), default=0)
    count = file.count if file.count <= 128 else min(128, last * kind.block_records)
    return file._replace(blocks=tuple(block if is_right(block) else 0 for block in file.blocks), count=count)


def cut_blocks(kind, length, file):
    """The blocks of an entry with a record of the file that isn't whole in an image of this length."""
    last = file.extent % (kind.mask + 1) * 128 + file.count
    for place, block in enumerate(file.blocks):
        count = min(kind.block_records, last - place * kind.block_records)
        places = [sector_place(kind, block * kind.block_records + number) for number in range(count)]
        if block and any(at + SECTOR > length for at in places):
            yield block


def remarks_of(kind, length, slot, file, others):
    """What is wrong with an entry, where the image has this length and `others` has the slots of each block, in words."""
    if file.user > 15:
        yield f"slot {slot}: its byte 0 is {file.user:02X}h, which no file has"
    if file.count > 128:
        yield f"slot {slot}: its record count is {file.count}, above 128: its blocks are written whole"
    bad = sorted(set(held(file)) - set(held(mended(kind, file))))
    if bad:
        yield f"slot {slot}: no file can have block {' '.join(map(str, bad))}: zeros"
    if len(set(held(file))) < len(held(file)):
        yield f"slot {slot}: a block is in it twice"
    for other in sorted({other for block in held(file) for other in others[block]} - {slot}):
        shared = (str(block) for block in held(file) if other in others[block])
        yield f"slot {slot}: slot {other} has block {' '.join(shared)} too"
    if cut := sorted(set(cut_blocks(kind, length, mended(kind, file)))):
        yield f"slot {slot}: block {' '.join(map(str, cut))} isn't whole in the image: E5h"


def parts_of(kind, image, length):
    """The parts of each file, by its folder and name, where the image had this length. A part that has no place in its file is a file by
    itself."""
    entries = ((slot, slot_bytes(kind, image, slot)) for slot in range(kind.drm + 1))
    found = [(slot, file_entry(kind, entry)) for slot, entry in entries if is_file(entry)]
    others, files = {}, {}
    for slot, file in found:
        for block in held(file):
            others.setdefault(block, set()).add(slot)
    for slot, file in found:
        key = str(file.user) if file.user < 16 else f"{file.user:02X}h", file_text(file.name)
        number, remarks = file.extent // (kind.mask + 1), []
        first = next((part.slot for part in files.get(key, []) if part.number == number), None)
        if file.s2 > 63 or file.ex > 31 or first is not None:
            key, number = (key[0], f"{key[1]}.slot{slot}"), None
            why = f"S2 is {file.s2} and EX {file.ex}" if first is None else f"slot {first} has this part of the file"
            remarks = [f"slot {slot}: {why}: it is a file by itself"]
        remarks += remarks_of(kind, length, slot, file, others)
        files.setdefault(key, []).append(Part(slot, mended(kind, file), number, tuple(remarks)))
    return files


def unread(kind, image):
    """The slots that have something else than is known, by their byte 0. 21h is a stamp of CP/M 3."""
    slots = {}
    for slot in range(kind.drm + 1):
        entry = slot_bytes(kind, image, slot)
        if not is_file(entry) and (entry[0] < 16 or entry[0] > LABEL + 1) and entry[0] != FREE:
            slots.setdefault(entry[0], []).append(slot)
    return slots


def gaps(numbers):
    """The runs of numbers that lack below the greatest, each with its first and the one after it."""
    ordered = [-1, *sorted(numbers)]
    return [(before + 1, after) for before, after in zip(ordered, ordered[1:]) if after > before + 1]


def rescued(kind, image, length):
    """Each file of an image that had this length and has its kind's size: its folder, its name, its bytes, and what is wrong with it."""
    size = kind.places * kind.block
    for (folder, name), parts in sorted(parts_of(kind, image, length).items()):
        remarks = [remark for part in parts for remark in part.remarks]
        if parts[0].number is None:
            yield folder, name, part_contents(kind, image, parts[0].file), remarks
        else:
            parts.sort(key=lambda part: part.number)
            remarks += [f"no slot has bytes {first * size:,} to {end * size - 1:,}: zeros" for first, end in gaps([part.number for part in parts])]
            yield folder, name, contents(kind, image, [part.file for part in parts]), remarks


# The commands.


def read_image(kind, path):
    with open(path, "rb") as file:
        return file.read(kind.size + 1)


def read(kind, path):
    image = read_image(kind, path)
    fault = first_fault(kind, image)
    print(fault or "\n".join(drive_lines(kind, image)))
    return 4 if fault else 0


def told(entry):
    """An entry that isn't free, in words."""
    if isinstance(entry, File):
        where = f"S2 {entry.s2}, EX {entry.ex} (extent {entry.extent}), record count {entry.count}"
        return f"file {entry.user}:{file_text(entry.name)}, {where}, blocks {' '.join(map(str, held(entry)))}"
    if isinstance(entry, Xfcb):
        return f"XFCB of {entry.user}:{file_text(entry.name)}"
    if isinstance(entry, Label):
        return f"label {name_text(entry.name)}"
    return f"kept unread, of the sort {entry.sort:02X}h"


def slots(kind, path):
    image = read_image(kind, path)
    if len(image) != kind.size:
        print(Fault(1, 0))
        return 4
    for slot, entry in enumerate(directory(kind, image)):
        if entry is not None:
            print(f"slot {slot} at byte {slot_place(kind, slot)}: {told(entry)}")
    return 0


def get(kind, path, folder):
    image = read_image(kind, path)
    fault = first_fault(kind, image)
    if fault:
        print(fault)
        print("images.py: nothing is written, as the image has a fault: `images.py rescue` writes what it has", file=sys.stderr)
        return 4
    os.mkdir(folder)
    for (user, name), parts in files_of(kind, image).items():
        os.makedirs(os.path.join(folder, str(user)), exist_ok=True)
        with open(os.path.join(folder, str(user), file_text(name)), "wb") as file:
            file.write(contents(kind, image, parts))
    return 0


def rescue(kind, path, folder):
    with open(path, "rb") as file:
        image = file.read()
    os.mkdir(folder)
    status, lines = 0, []  # The lines come after the last file, so that all are written where nobody reads the lines.
    if len(image) != kind.size:
        lines.append(f"{len(image):,} bytes in place of {kind.size:,}: what is missing is taken as E5h, and what is too much isn't read")
        status = 4
    for user, name, data, remarks in rescued(kind, whole(kind, image), len(image)):
        os.makedirs(os.path.join(folder, user), exist_ok=True)
        with open(os.path.join(folder, user, name), "wb") as file:
            file.write(data)
        lines.append("\n  ".join([f"{user}/{name} {len(data):,} bytes", *remarks]))
        status = 4 if remarks else status
    for sort, slots in unread(kind, whole(kind, image)).items():
        lines.append(f"no entry in slot {' '.join(map(str, slots))}: byte 0 is {sort:02X}h")
        status = 4
    for line in lines:
        print(line)
    return status


def main(words):
    match words:
        case ["read", kind, path] if kind in KINDS:
            return read(KINDS[kind], path)
        case ["slots", kind, path] if kind in KINDS:
            return slots(KINDS[kind], path)
        case ["get", kind, path, folder] if kind in KINDS:
            return get(KINDS[kind], path, folder)
        case ["rescue", kind, path, folder] if kind in KINDS:
            return rescue(KINDS[kind], path, folder)
        case ["read" | "slots" | "get" | "rescue", kind, _, *_] if kind not in KINDS:
            print(f"images.py: there is no kind {kind}: {', '.join(KINDS)}", file=sys.stderr)
            return 1
    print(__doc__, file=sys.stderr)
    return 1


if __name__ == "__main__":
    signal.signal(signal.SIGPIPE, signal.SIG_DFL)  # as in `images.py .. | head`
    try:
        sys.exit(main(sys.argv[1:]))
    except OSError as error:
        sys.exit(f"images.py: {error.filename}: {error.strerror}" if error.filename else f"images.py: {error}")
