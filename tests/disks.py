#!/usr/bin/env python3
"""python3 -m tests.disks [PROGRAM [PART..]]: runs a built mpm, crates/mpm/out/mpm where none is named, on images of each kind that cpmtools make
(apt-get install cpmtools), and takes what is on them back by cpmtools. Each part is played with a disk that serves calls at once, and with one that takes turns:

copied      files of all sizes, copied one record after the other by examples/office/copy.asm, and turned round at random by guests/turn.c; every file
            comes back byte for byte
changed     files of whole records, of which a guest writes one anew, or one after the end: they come back so
shared      two consoles count in the records of one file for a million steps, each under its lock (guests/tally.c): no count is lost, and
            the file has as many as the kernel says were written; without locks some are lost
filled      a guest takes all blocks and entries that are left (tests/guests/fill.asm): the other files stay, and the answers are those of a full disk
faults      one byte or a few of a directory become others: the program reports the fault and its place
texts       each text of the kernel and of the command line interpreter at a console

What is expected comes of the files, and of the rules in force (docs/PROFILE.md). Each part has a line for each kind, which says what
isn't as it should be. Status: 0 where all is; 1 where something isn't; 127 where cpmtools aren't there."""

import os
import random
import shutil
import subprocess
import sys
import tempfile

from tests import running
from tests.running import ROOT
from tools import images

EXAMPLES = os.path.join(ROOT, "examples")

DISK_TURNS = (0, 20)
SECONDS = 300


def guest(place):
    with open(os.path.join(ROOT, place), "rb") as file:
        return file.read()


def padded(contents):
    """A file as a disk has it: whole records."""
    return contents.ljust(-(-len(contents) // 128) * 128, b"\0")


class Machine:
    """A folder with a machine whose drive A is an image that cpmtools made, with these files by user and name."""

    def __init__(self, program, kind, files, consoles=1, segments=((0, 192), (0, 192))):
        self.program, self.kind, self.files = program, kind, dict(files)
        self.consoles, self.segments = consoles, segments
        self.folder = tempfile.mkdtemp(prefix="mpm-disks-")
        for name, place in (("diskdefs", "diskdefs"), ("libdskrc", ".libdskrc")):
            shutil.copy(os.path.join(EXAMPLES, name), os.path.join(self.folder, place))
        self.tool("mkfs.cpm", "-f", kind, "-L", "DISKS", "A")
        os.truncate(self.path("A"), images.KINDS[kind].size)
        for (user, name), contents in files.items():
            self.write("file", contents)
            self.tool("cpmcp", "-f", kind, "A", "file", f"{user}:{name}")

    def __enter__(self):
        return self

    def __exit__(self, *_):
        shutil.rmtree(self.folder)

    def path(self, name):
        return os.path.join(self.folder, name)

    def write(self, name, contents):
        with open(self.path(name), "wb") as file:
            file.write(contents)

    def tool(self, *words):
        subprocess.run(words, cwd=self.folder, env=os.environ | {"HOME": self.folder}, check=True, stdout=subprocess.DEVNULL)

    def image(self):
        with open(self.path("A"), "rb") as file:
            return bytearray(file.read())

    def run(self, keys, steps, disk_turn, *words, more=""):
        """The status, what is said, and the lines that are written."""
        text = f"version = 1\nconsoles = {self.consoles}\ntick_every = 1000\ndisk_turn = {disk_turn}\nscript = 'keys'\n{more}"
        text += "".join(f"[[segment]]\nbase = {base}\npages = {pages}\n" for base, pages in self.segments)
        self.write("machine", f"{text}[[drive]]\nletter = 'A'\nkind = '{self.kind}'\nimage = 'A'\n".encode())
        self.write("keys", keys.encode())
        given = [self.program, "run", "machine", str(steps), *words]
        done = running.run(given, timeout=SECONDS, cwd=self.folder)
        return done.returncode, done.stderr.decode(), done.stdout.decode().splitlines(True)

    def taken(self, user, name):
        """A file as cpmtools take it from the image."""
        self.tool("cpmcp", "-f", self.kind, "A", f"{user}:{name}", "back")
        with open(self.path("back"), "rb") as file:
            return file.read()

    def wrong_files(self, wanted):
        """What of these files, and of all others, isn't so in the image, as cpmtools and as the reader of images take them."""
        kind, image = images.KINDS[self.kind], self.image()
        fault = images.first_fault(kind, image)
        if fault:
            yield str(fault)
            return
        found = images.files_of(kind, image)
        names = {(user, entry_name(name)): (user, name) for user, name in wanted}
        if found.keys() != names.keys():
            yield f"other files: {found.keys() ^ names.keys()}"
        for key in found.keys() & names.keys():
            contents = wanted[names[key]]
            if padded(images.contents(kind, image, found[key]))[: len(contents)] != contents:
                yield f"{names[key]} has other contents"
            if padded(self.taken(*names[key])) != padded(contents):
                yield f"{names[key]} comes back otherwise by cpmtools"


def entry_name(name):
    first, _, kind = name.upper().partition(".")
    return first.encode().ljust(8) + kind.encode().ljust(3)


def console(lines, number):
    return "".join(line[3:] for line in lines if line.startswith(f"c{number} "))


def ended(status, said):
    return [] if (status, said) == (0, "") else [f"status {status}, {said!r}"]


# Copies.

# Sizes about those of a record, a block and an entry of each kind.
LENGTHS = (0, 1, 127, 128, 129, 1024, 2047, 2048, 2049, 4096, 16_383, 16_384, 16_385, 32_768, 32_769, 50_000)


def turned(contents):
    records = [padded(contents)[place : place + 128] for place in range(0, len(padded(contents)), 128)]
    return b"".join(reversed(records))


def copied(program, kind, disk_turn):
    rng = random.Random(kind)
    programs = {(0, "copy.com"): guest("examples/office/copy.com"), (0, "turn.com"): guest("tests/guests/turn.com")}
    whose = [(user, number) for number in range(len(LENGTHS)) for user in (0, 3) if user == 0 or number % 5 == 0]
    files = {(user, f"f{number}.dat"): rng.randbytes(LENGTHS[number]) for user, number in whose}
    if kind == "ibm3740":
        # It has room for three times these.
        files = {(user, name): contents for (user, name), contents in files.items() if len(contents) <= 4_096 or (user, len(contents)) == (0, 16_385)}
    # Programs of user 0 serve the others too, as they have the attribute SYS.
    with Machine(program, kind, programs | files) as machine:
        machine.tool("cpmchattr", "-f", kind, "A", "s", "0:copy.com", "0:turn.com")
        typed, made = Typed(), {}
        for (user, name), contents in sorted(files.items()):
            typed.user(user)
            new = name[:-4]
            typed.command(f"copy {name} {new}.cop", "copied\\r\n")
            typed.command(f"turn {name} {new}.tur", f"{len(padded(contents)) // 128} records\\r\n")
            made |= {(user, new + ".cop"): padded(contents), (user, new + ".tur"): turned(contents)}
        yield from typed.wrong(machine, disk_turn)
        yield from machine.wrong_files(programs | files | made)


class Typed:
    """Commands at console 0, each well after the end of the one before, and what is there then."""

    BETWEEN = 400_000

    def __init__(self):
        self.step, self.keys, self.lines, self.prompt = 0, "", "0A>", "0A>"

    def user(self, user):
        if self.prompt != f"{user}A>":
            self.prompt = f"{user}A>"
            self.command(f"user {user}", "")

    def command(self, line, text):
        self.keys += f"{self.step} key 0 {line}\\r\n"
        self.lines += f"{line}\\r\n{text}{self.prompt}"
        self.step += self.BETWEEN

    def wrong(self, machine, disk_turn):
        status, said, wrote = machine.run(self.keys, self.step, disk_turn)
        yield from ended(status, said)
        yield from other_lines(console(wrote, 0), self.lines + "\\\n")


def other_lines(found, wanted):
    for line, right in zip(found.splitlines() + [""], wanted.splitlines() + [""]):
        if line != right:
            yield f"{line!r}, and not {right!r}"
            return


# Changes.


def changing(name, record):
    """A program that opens a file, writes a record of letters X by function 34, and closes it."""
    block, data = 0x0180, 0x0200
    place = b"\x21" + record.to_bytes(2, "little") + b"\x22" + (block + 33).to_bytes(2, "little")
    code = call(15, block) + call(26, data) + place + call(34, block) + call(16, block) + END
    return code.ljust(block - 0x0100, b"\0") + (b"\0" + entry_name(name)).ljust(data - block, b"\0") + b"X" * 128


def changed(program, kind, disk_turn):
    """In the first record, in the last one, and after it: in the same entry, in another one, and beyond a gap, which are zeros."""
    rng = random.Random(kind)
    files, typed = {}, Typed()
    cases = [(0, 0), (1, 1), (5, 4), (5, 5), (128, 127), (128, 128), (255, 255), (256, 256), (3, 300)]
    for number, (count, record) in enumerate(cases):
        name = f"f{number}.dat"
        files |= {(0, f"w{number}.com"): changing(name, record), (0, name): rng.randbytes(128 * count)}
        typed.command(f"w{number}", "")
    with Machine(program, kind, files) as machine:
        yield from typed.wrong(machine, disk_turn)
        for number, (count, record) in enumerate(cases):
            contents = bytearray(files[0, f"f{number}.dat"].ljust(128 * record, b"\0"))
            contents[128 * record : 128 * record + 128] = b"X" * 128
            files[0, f"f{number}.dat"] = bytes(contents)
        yield from machine.wrong_files(files)


# Two consoles.


def shared(program, kind, disk_turn):
    files = {(0, "tally.com"): guest("tests/guests/tally.com"), (0, "shared.dat"): bytes(512)}
    for words in (("a", "b"), ("c", "d")):
        with Machine(program, kind, files, consoles=2) as machine:
            keys = "".join(f"0 key {number} tally {word}\\r\n" for number, word in enumerate(words))
            status, said, wrote = machine.run(keys, 1_000_000, disk_turn, "--trace")
            yield from ended(status, said)
            # As records of completed calls tell function 34's answer.
            written = sum(line.split()[3] == "34" and line.split()[-1] == "0000" for line in wrote if line.startswith("t "))
            data = machine.taken(0, "shared.dat")
            counts = [[int.from_bytes(data[at + place : at + place + 4], "little") for place in (0, 4, 8)] for at in range(0, 512, 128)]
            lost = written - sum(all_ for all_, _, _ in counts)
            if min(min(count) for count in counts) < 100:
                yield f"{words}: one of them hardly counted: {counts}"
            if words[0] == "a" and (lost or any(all_ != one + other for all_, one, other in counts)):
                yield f"{lost} of {written} are lost: {counts}"
            if words[0] == "c" and not lost:
                yield "none was lost without locks"


# Full disks.


def filled(program, kind_name, disk_turn):
    rng = random.Random(kind_name)
    kind = images.KINDS[kind_name]
    files = {(0, "fill.com"): guest("tests/guests/fill.com"), (0, "big.dat"): rng.randbytes(40_000), (1, "small.dat"): b"1", (2, "none.dat"): b""}
    with Machine(program, kind_name, files) as machine:
        free = dict(line.rsplit(" ", 1) for line in images.drive_lines(kind, machine.image()))
        blocks, entries = int(free["free records"]) // kind.block_records, int(free["free entries"])
        count = entries - -(-blocks // kind.places)
        full = bytes(blocks * kind.block)
        made = {(0, f"moreaa{chr(97 + number // 16)}{chr(97 + number % 16)}.dat"): b"" for number in range(1, min(count, 255) + 1)}
        made |= {(0, f"moreab{chr(97 + number % 256 // 16)}{chr(97 + number % 16)}.dat"): b"" for number in range(256, count + 1)}
        status, said, wrote = machine.run("0 key 0 fill\\r\n", 200_000 + (15 + 4 * disk_turn) * blocks * kind.block_records, disk_turn)
        yield from ended(status, said)
        yield from other_lines(console(wrote, 0), f"0A>fill\\r\n0002 00FF {count:04X}\\r\n")
        yield from machine.wrong_files(files | made | {(0, "full.dat"): full})


# Faults.


def with_bytes(kind, image, slot, place, bytes_):
    at = images.slot_place(kind, slot) + place
    image[at : at + len(bytes_)] = bytes_


def faults(program, kind_name, disk_turn):
    """The label has slot 0; files of one entry each have the slots after it."""
    kind = images.KINDS[kind_name]
    width = 2 if kind.wide else 1
    number = lambda block: block.to_bytes(width, "little")
    files = {(0, f"f{slot}.dat"): bytes([slot]) * 3000 for slot in range(1, 9)}
    xfcb = bytes([16]) + b"F1      DAT" + bytes(20)
    with Machine(program, kind_name, files) as machine:
        sound = machine.image()
        for slot, (user, name) in enumerate(files, 1):
            if bytes(images.slot_bytes(kind, sound, slot)[:12]) != bytes([user]) + entry_name(name):
                yield f"slot {slot} isn't that of {name}"
        first = images.slot_bytes(kind, sound, 1)
        for what, changes, fault in (
            ("none", [], None),
            ("a file with 129 records", [(3, 15, b"\x81")], (2, 3)),
            ("a block of the directory", [(4, 16, number(kind.directory_blocks - 1))], (3, 4)),
            ("a block beyond the last", [(5, 16 + 7 * width, number(kind.dsm + 1))], (3, 5)),
            ("a block that another file has", [(6, 16 + 7 * width, first[16 : 16 + width])], (4, 6)),
            ("a block twice", [(7, 16 + 7 * width, images.slot_bytes(kind, sound, 7)[16 : 16 + width])], (4, 7)),
            ("the name of another file", [(8, 0, first[:12])], (5, 8)),
            ("the name of another file, with an attribute", [(8, 0, first[:9] + bytes([first[9] | 0x80]) + first[10:12])], (5, 8)),
            ("an extent above 31", [(2, 12, b"\x20")], (6, 2)),
            ("S2 above 63", [(2, 14, b"\x40")], (6, 2)),
            ("a second label", [(9, 0, images.slot_bytes(kind, sound, 0))], (7, 9)),
            ("a second XFCB", [(10, 0, xfcb), (kind.drm, 0, xfcb)], (8, kind.drm)),
            ("several, of which the first slot's least is reported", [(3, 15, b"\x81"), (3, 12, b"\x20"), (2, 14, b"\x40")], (6, 2)),
            ("several in one slot", [(3, 15, b"\x81"), (3, 12, b"\x20")], (2, 3)),
            ("a byte too few", None, (1, 0)),
        ):
            image = bytearray(sound[:-1] if changes is None else sound)
            for slot, place, bytes_ in changes or []:
                with_bytes(kind, image, slot, place, bytes_)
            machine.write("A", image)
            status, said, _ = machine.run("", 10, disk_turn)
            wanted = (4, f"bad image A: cause {fault[0]} at {fault[1]}\n") if fault else (0, "")
            if (status, said) != wanted or machine.image() != image:
                yield f"{what}: status {status}, {said!r}"


# Texts.


def call(function, parameter):
    """LD C,function; LD DE,parameter; CALL 0005h."""
    return b"\x0E" + bytes([function]) + b"\x11" + parameter.to_bytes(2, "little") + b"\xCD\x05\x00"


END = call(0, 0)
# Creates processes from one descriptor, as many as there may be, says so, and waits for a key: the first call over again while it answers 0
# (OR A; JR Z). Each of them delays itself beyond the end of the run: LD SP,0400h.
AT = 0x0180
MANY = (call(144, AT) + b"\xB7\x28\xF5" + call(9, AT + 34) + call(1, 0) + END).ljust(0x40, b"\0") + b"\x31\x00\x04" + call(141, 0xFFFF)
MANY = MANY.ljust(AT - 0x0100, b"\0") + b"\0\0\0\xC7\xA0\x01MANY    ".ljust(32, b"\0") + b"\x40\x01full\r\n$"
# A queue of one message of four bytes, which nobody reads.
QUEUE = (call(134, AT) + END).ljust(AT - 0x0100, b"\0") + b"\0\0Q       \x04\x00\x01\x00".ljust(32, b"\0")
TEXTS = {
    (0, "ill.com"): b"\x00\xED\xFF",
    (0, "many.com"): MANY,
    (0, "queue.com"): QUEUE,
    (0, "wait.com"): call(1, 0) + END,
    # A file of no drive, with the error mode that ends the program, and one with that which only reports.
    (0, "lost.com"): call(14, 1) + call(9, 0x0100) + END,
    (0, "told.com"): call(45, 0xFE) + call(14, 16) + call(14, 15) + END,
    (0, "short.prl"): b"\0\x50".ljust(128, b"\0"),
}


def texts(program, kind, disk_turn):
    with Machine(program, kind, TEXTS, consoles=2, segments=((0, 192),)) as machine:
        typed = Typed()
        typed.BETWEEN = 100_000
        for line, text in (
            ("ill", "Illegal instruction at 0101\\r\n"),
            ("lost", "Bdos error 4 on B:\\r\n"),
            ("told", "Bdos error 4 on ?:\\r\nBdos error 4 on P:\\r\n"),
            ("b:", "No drive\\r\n"),
            ("nothing", "Command not found\\r\n"),
            ("short", "Bad load\\r\n"),
            ("a=b;", "Command not found\\r\n"),
            ("?", "Bad load\\r\n"),
            ("queue", ""),
            ("q 1", ""),
            ("q 2", "Queue full\\r\n"),
        ):
            typed.command(line, text)
        yield from typed.wrong(machine, disk_turn)
        # The line is mended, emptied, and has a key below 20h; ^C ends who waits.
        keys = "0 key 0 wx\\x08aitt\\x7F\\r\n100000 key 1 wait\\r\n200000 key 0 \\x03\n300000 key 0 abc\\x15\\x01\\x18many\\r\n900000 key 1 nothing\\r\n"
        status, said, wrote = machine.run(keys, 2_000_000, disk_turn)
        yield from ended(status, said)
        back = "\\x08 \\x08"
        yield from other_lines(console(wrote, 0), f"0A>wx{back}aitt{back}\\r\n^C\\r\n0A>abc#\\r\n^A#\\r\nmany\\r\nfull\\r\n")
        yield from other_lines(console(wrote, 1), "0A>wait\\r\nNo memory\\r\n0A>nothing\\r\nCommand not found\\r\n0A>\\\n")
    with Machine(program, kind, TEXTS, consoles=2) as machine:
        status, said, wrote = machine.run("0 key 0 many\\r\n900000 key 1 wait\\r\n", 2_000_000, disk_turn)
        yield from ended(status, said)
        yield from other_lines(console(wrote, 0), "0A>many\\r\nfull\\r\n")
        yield from other_lines(console(wrote, 1), "0A>wait\\r\nNo process\\r\n0A>\\\n")


PARTS = (copied, changed, shared, filled, faults, texts)


def main(words):
    if not shutil.which("mkfs.cpm"):
        print("disks: mkfs.cpm isn't on the PATH: install Debian's package cpmtools", file=sys.stderr)
        return 127
    program = running.program_in(words)
    failed = 0
    for part in PARTS:
        if len(words) < 2 or part.__name__ in words[1:]:
            for kind in images.KINDS:
                for disk_turn in DISK_TURNS:
                    wrong = running.in_time(lambda: list(part(program, kind, disk_turn)))
                    wrong = [wrong] if isinstance(wrong, running.OutOfTime) else wrong
                    print(f"{part.__name__} on {kind} with {disk_turn}:", "; ".join(wrong) or "as it should be", flush=True)
                    failed += bool(wrong)
    return 1 if failed else 0


if __name__ == "__main__":
    sys.exit(main(sys.argv[1:]))
