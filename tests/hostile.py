"""Hostile guests, each at console 0 beside a witness at console 1, whose lines are to be byte for byte those that it writes alone. The
sources are in guests/, with what pasmo makes of them (commands/make). All that is expected here comes of the rules in force
(docs/PROFILE.md) and of the sources: of what a guest asks, which answers it gets, and what its files have in the end."""

import itertools
import os
from typing import NamedTuple

from tests.running import TESTS
from tools import images

# The steps of a turn of the disk with which each case is run.
DISK_TURNS = (0, 20)

# Where the guest is started: the witness has made its queues, opened its file, locked its records and done some rounds by then.
STARTED = 20_000


class Case(NamedTuple):
    """A run: its guest, the kind of its disk, its script, its steps, the lines of each console, and the files that the disk has at first
    and in the end, None where nothing is said of a file's contents."""

    name: str
    kind: str
    script: str
    steps: int
    consoles: tuple
    files: dict
    left: dict
    disk_turn: int


def guest(name):
    with open(os.path.join(TESTS, "guests", name + ".com"), "rb") as file:
        return file.read()


# The disk.


def with_records(kind, image, block, contents):
    """Writes the contents into blocks from this one on, and answers how many they take."""
    records = [contents[place : place + 128].ljust(128, b"\0") for place in range(0, len(contents), 128)]
    for number, record in enumerate(records, block * kind.block_records):
        place = images.sector_place(kind, number)
        image[place : place + 128] = record
    return -(-len(records) // kind.block_records)


def disk(kind_name, files):
    """An image with files of user 0, each of one entry, by their names of eleven characters."""
    kind = images.KINDS[kind_name]
    image = bytearray(b"\xE5" * kind.size)
    block = kind.directory_blocks
    width = 2 if kind.wide else 1
    for slot, (name, contents) in enumerate(files.items()):
        count = with_records(kind, image, block, contents)
        numbers = b"".join(number.to_bytes(width, "little") for number in range(block, block + count))
        place = images.slot_place(kind, slot)
        entry = b"\0" + name.encode() + bytes([0, 0, 0, -(-len(contents) // 128)]) + numbers
        image[place : place + 32] = entry.ljust(32, b"\0")
        block += count
    return bytes(image)


def files_of(kind_name, image):
    """The contents of each file, by its user and name; the image's fault where it has one."""
    kind = images.KINDS[kind_name]
    fault = images.first_fault(kind, image)
    if fault:
        return fault
    return {key: images.contents(kind, image, parts) for key, parts in images.files_of(kind, image).items()}


# The witness.

ROUNDS = "abcdefghijklmnop"
WITNESSED = "".join(f"{letter} ....\\r\n" for letter in ROUNDS) + "done\\r\n"
# Each of its four records has the letter of the last round that wrote it: p, m, n and o are 70h, 6Dh, 6Eh and 6Fh.
WITNESS_DATA = b"".join(letter * 128 for letter in (b"p", b"m", b"n", b"o"))


def typed(name, text):
    """What a console's lines are where a command is typed, which writes a text, and the console prompts again."""
    return f"0A>{name}\\r\n{text}0A>\\\n"


def held(name, text):
    """What they are where the program keeps the console."""
    return f"0A>{name}\\r\n{text}"


class Beginning(str):
    """Lines of which a first part is there, perhaps with an unfinished one, and not the last but one."""

    def __eq__(self, found):
        part = found.removesuffix("\\\n")
        return self.startswith(part) and "a ...." in part and "done" not in part


# The lines of guests.


def hexadecimal(*words):
    return " ".join(f"{word:04X}" for word in words)


def copies():
    """The witness has slot 3 and segment 0, after the interpreter and two terminal processors; the guest has slot 4 and segment 1, and
    calls with its return address at BEFCh. Both segments have 192 pages from 0 on."""
    descriptor = bytes([0, 0, 0, 200, 0xFC, 0xBE]) + b"COPIES  " + bytes([0, 1])
    page = bytes([0xFF, 2]).ljust(15, b"\0") + bytes([2, 0, 192, 0x80, 0, 0, 192, 0x80, 1])
    return f"F8D0 {descriptor.ljust(52, bytes(1)).hex().upper()}\\r\nFF00 {page.hex().upper()}\\r\n0000\\r\n"


def string():
    """All 65,536 bytes from 0 on: the base page, the program, the return address at BEFCh, and zeros elsewhere."""
    code = guest("string")
    memory = bytearray(0x10000)
    memory[0:3] = b"\xC3\x03\xBF"
    memory[5:8] = b"\xC3\x06\xBF"
    for block in (0x5C, 0x6C):
        memory[block + 1 : block + 12] = b" " * 11
    memory[0x100 : 0x100 + len(code)] = code
    # LD DE; LD C; twice DEC C; and the CALL: ten bytes.
    memory[0xBEFC:0xBEFE] = b"\x0A\x01"
    return lined(bytes(memory) + b"done\r\n")


def shown(byte):
    if byte == 0x5C:
        return "\\\\"
    return {0x0D: "\\r", 0x09: "\\t"}.get(byte) or (chr(byte) if 0x20 <= byte < 0x7F else f"\\x{byte:02X}")


def lined(text):
    """The lines of bytes among which no tab is, each of 200 bytes at most, of which the last one ends."""
    lines, count = "", 0
    for byte in text:
        if byte == 0x0A:
            lines, count = lines + "\n", 0
            continue
        lines, count = lines + shown(byte), count + 1
        if count == 200:
            lines, count = lines + "\\\n", 0
    return lines


def slain():
    """Residents, and who isn't there, are refused. The witness is aborted: it holds a message of a mutual exclusion queue, so that it goes on
    until it gives that back, and ends then."""
    none = "FF" * 16
    slots = "FF" * 3 + "00" + "FF" * 27
    return f"{none}\\r\n{none}\\r\n{none}\\r\nFF00{'FF' * 14}\\r\n{none}\\r\n{slots}\\r\n"


# What each function of `tamper` answers.
TAMPERED = hexadecimal(0x5FF, 0x5FF, 0x5FF, 0x5FF, 0x5FF, 0x8FF, 0x5FF, 0, 8, 8, 0, 0xFF, 0xFF, 0xFF, 0, 0) + " \\r\n"


# The cases.


def beside(name, lines, kind="hd4", steps=400_000, keys="", files=None, more=None, witness=typed("witness", WITNESSED)):
    """The guest beside the witness. The disk has these files besides theirs, and in the end some more."""
    script = f"0 key 1 witness\\r\n{STARTED} key 0 {name}\\r\n" + keys
    programs = {f"{who.upper():8}COM": guest(who) for who in ("witness", name)}
    first = {**programs, "WITNESS DAT": bytes(512), **(files or {})}
    left = {**first, "WITNESS DAT": None if isinstance(witness, Beginning) else WITNESS_DATA, **(more or {})}
    for disk_turn in DISK_TURNS:
        yield Case(name, kind, script, steps, (lines, witness), first, left, disk_turn)


def cases():
    yield from beside("copies", typed("copies", copies()))
    yield from beside("loop", typed("loop", "00FF\\r\n"))
    yield from beside("wrap", typed("wrap", "010A 010A\\r\nAZ\\r\n"))
    yield from beside("string", typed("string", string()))
    yield from beside("flood", held("flood", ""))
    yield from beside("breed", held("breed", ""), steps=4_000_000)
    yield from beside("slay", typed("slay", slain()))
    # Keys that would abort it, or take its console, are keys of its own: 03h is ^C, 04h is ^D.
    keys = "100000 key 0 \\x03\\x04\\x13x\n"
    yield from beside("hold", held("hold", "03041378\\\n"), keys=keys)
    yield from beside("seize", typed("seize", hexadecimal(0xFF, 0xFF, 0xFF) + "\\r\n"))
    # The processor is kept, and the witness runs no more.
    yield from beside("halt", held("halt", ""), witness=Beginning(held("witness", WITNESSED)))
    for kind in images.KINDS:
        # Six functions through 255 handles.
        yield from beside("forge", typed("forge", "05FA\\r\n"), kind)
        yield from beside("tamper", typed("tamper", TAMPERED), kind)
        yield from grabbing(kind)
    for kind in ("ibm3740", "hd4"):
        yield from filling(kind)


def grabbing(kind):
    """The witness is started again once the guest has ended. There are 64 items, of which the witness has one; 128 locks, of which it has
    four; and 32 queues, of which the interpreter has one, the witness two, and the guest one before it counts."""
    files = {f"GRAB{letter}   DAT": bytes(128 * 128 if letter == "A" else 128) for letter in "ABCDEFGHIJKLMNOP"}
    again = held("witness", WITNESSED) + typed("witness", WITNESSED)
    yield from beside("grab", typed("grab", "3F 7C 1C\\r\n"), kind, 600_000, "300000 key 1 witness\\r\n", files, witness=again)


def filling(kind_name):
    """Three blocks and three entries are had by the programs and the witness's file. What is left is one file of all other blocks, whose
    records are that of the base page, zeros; and empty files for all entries that are free then, by their numbers as letters."""
    kind = images.KINDS[kind_name]
    blocks = kind.dsm + 1 - kind.directory_blocks - 3
    count = kind.drm + 1 - 3 - -(-blocks // kind.places)
    more = {f"MOREAA{chr(65 + number // 16)}{chr(65 + number % 16)}DAT": b"" for number in range(1, count + 1)}
    more["FULL    DAT"] = bytes(blocks * kind.block)
    # Each record is a turn of twenty steps at most.
    yield from beside("fill", held("fill", f"0002 00FF {count:04X}\\r\n"), kind_name, 30 * blocks * kind.block_records + 400_000, more=more)


def files(case):
    """The files of a case: two segments of all pages, in banks of their own, two consoles and one drive."""
    head = f"version = 1\nconsoles = 2\ntick_every = 1000\ndisk_turn = {case.disk_turn}\nscript = 'keys'\n"
    segments = "[[segment]]\nbase = 0\npages = 192\n" * 2
    drive = f"[[drive]]\nletter = 'A'\nkind = '{case.kind}'\nimage = 'A'\n"
    return {"file": head + segments + drive, "keys": case.script, "A": disk(case.kind, case.files)}


def wrong(case, status, said, wrote, image):
    """What of a case's ending isn't as it should be; None where all is."""
    if (status, said) != (0, ""):
        return f"status {status}, {said!r}"
    for console, lines in enumerate(case.consoles):
        found = "".join(line[3:] for line in wrote.splitlines(True) if line.startswith(f"c{console} "))
        if not lines == found:
            return f"console {console} has {first_other(found, lines)}"
    left = files_of(case.kind, image)
    if isinstance(left, images.Fault):
        return str(left)
    wanted = {(0, name.encode()): contents for name, contents in case.left.items()}
    names = sorted(name for name in left.keys() | wanted.keys() if not is_same(left.get(name), wanted.get(name, b"none")))
    return f"other files in the end: {names}" if names else None


def first_other(found, lines):
    """The first line that differs, in words."""
    for number, (line, wanted) in enumerate(itertools.zip_longest(found.splitlines(), lines.splitlines()), 1):
        if line != wanted:
            return f"in its line {number} {line!r}, and not {wanted!r}"
    return "other lines"


def is_same(left, wanted):
    """Whether a file that is left has the contents, as a whole number of records."""
    return left is not None and (wanted is None or left == wanted.ljust(-(-len(wanted) // 128) * 128, b"\0"))
