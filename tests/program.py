#!/usr/bin/env python3
"""python3 -m tests.program [PROGRAM]: runs a built mpm, crates/mpm/out/mpm where none is named, with the words and files of each case below, and
compares its exit status, what it says on the standard error and what it writes; of hostile guests (hostile.py) also what their
disk has in the end. A case that ends otherwise, or that runs out of time, has a line; the last line counts the cases. Status: 0
where each ended as it should, 1 where one didn't, 2 where one ran out of time and all others ended as they should.

What the program's layers do with such inputs is proved; these cases show that a whole run of the built program does it."""

import os
import sys
import tempfile

from tests import endings, hostile, running
from tests.endings import write_files
from tools import images

USAGE = "usage: mpm program FILE STEPS [--trace] or mpm run MACHINE STEPS [--trace]"
BAD_MACHINE = (2, "bad machine file", "")
TOO_LONG = (5, "input too long", "")
CANNOT_READ = (6, "cannot read", "")


def writes(text):
    return (0, "", text)


# Programs: what each says, by which functions.

# `Hi` by function 9, and an end by function 0.
HI = b"\x0E\x09\x11\x0D\x01\xCD\x05\x00\x0E\x00\xCD\x05\x00Hi\r\n$"
# `A` by function 2, and an end.
LETTER = b"\x0E\x02\x1E\x41\xCD\x05\x00\x0E\x00\xCD\x05\x00"
# The sum of 06h and 3Bh, an `A`, by function 2, and an end.
SUM = b"\x3E\x06\xC6\x3B\x5F\x0E\x02\xCD\x05\x00\x0E\x00\xCD\x05\x00"
# 40h and one more, an `A`, by function 2: LD IXH,40h; INC IXH; LD E,IXH.
HALF = b"\xDD\x26\x40\xDD\x24\xDD\x5C\x0E\x02\xCD\x05\x00"
# A string with a tab at column 2, by function 9; a tab at column 0, by function 2.
TAB_IN_STRING = b"\x0E\x09\x11\x08\x01\xCD\x05\x00ab\tc$"
TAB_ALONE = b"\x0E\x02\x1E\x09\xCD\x05\x00"
# The version by function 12.
VERSION = b"\x0E\x0C\xCD\x05\x00"
# A segment by function 129, where none is free.
SEGMENT = b"\x0E\x81\x11\x20\x01\xCD\x05\x00"
# The process `CHILD   ` of priority 199 by function 144, and an end. The child, at 0120h, asks for the version by function 163
# and ends.
CHILD = (
    b"\x0E\x90\x11\x30\x01\xCD\x05\x00\x0E\x00\xCD\x05\x00".ljust(32, b"\0")
    + b"\x0E\xA3\xCD\x05\x00\x0E\x00\xCD\x05\x00".ljust(16, b"\0")
    + b"\0\0\0\xC7\x50\x01CHILD   ".ljust(32, b"\0")
    + b"\x20\x01"
)
# A printer by functions 158 to 161, where there is none.
PRINTERS = b"".join(bytes([0x0E, function, 0xCD, 5, 0]) for function in (158, 159, 160, 161))
# Processes by function 144 with a descriptor that is linked to itself, so that 32 are read.
CHAIN = b"\x0E\x90\x11\x08\x01\xCD\x05\x00\x08\x01\0\xC7\x18\x01LOOP    \0\0"

PROGRAMS = [
    (HI, "4000000000", "c0 Hi\\r\n"),
    (HI, "9", "c0 Hi\\r\n"),
    (HI, "5", "c0 Hi\\r\n"),
    (HI, "4", ""),
    (HI, "0", ""),
    (b"\xDD\x24", "3", ""),
    (HALF, "7", "c0 A\\\n"),
    (b"\xED\x00", "3", "c0 Illegal instruction at 0100\\r\n"),
    (b"\xC3\xFF\x01".ljust(255, b"\0") + b"\xED\x00", "3", "c0 Illegal instruction at 01FF\\r\n"),
    (b"", "50000", ""),
    (LETTER, "9", "c0 A\\\n"),
    (SUM, "11", "c0 A\\\n"),
    (TAB_IN_STRING, "5", "c0 ab      c\\\n"),
    (TAB_ALONE, "5", "c0         \\\n"),
]

TRACED = [
    (HI, "9", "c0 Hi\\r\nt 5 0 9 00 0009 010D 0000\n"),
    (HI, "4", ""),
    (LETTER, "9", "t 5 0 2 00 0002 0041 0000\nc0 A\\\n"),
    (VERSION, "4", "t 4 0 12 30 010C 0000 0130\n"),
    (SEGMENT, "5", "t 5 0 129 FF 0081 0120 00FF\n"),
    (
        PRINTERS,
        "16",
        "t 4 0 158 FF 009E 0000 00FF\nt 8 0 159 FF 009F 0000 00FF\nt 12 0 160 FF 00A0 0000 00FF\nt 16 0 161 FF 00A1 0000 00FF\n",
    ),
    (CHAIN, "5", "t 5 0 144 FF 0090 0108 00FF\n"),
    (CHILD, "17", "t 5 0 144 00 0090 0130 0000\nt 9 1 163 30 01A3 0000 0130\n"),
]


def programs():
    for program, steps, text in PROGRAMS:
        yield ["program", "file", steps], {"file": program}, writes(text)
    for program, steps, text in TRACED:
        yield ["program", "file", steps, "--trace"], {"file": program}, writes(text)


# Machine files. What comes before and after other keys in one of one console and one segment of all pages:

BEFORE = "version = 1\nconsoles = 1\n"
BEHIND = "\n[[segment]]\nbase = 0\npages = 192\n"
MACHINE = BEFORE + BEHIND
PROMPT = "c0 0A>\\\n"

LIMITS = """
yes printers = 0
yes printers = 4
no  printers = 5
no  printers = -1
yes tick_every = 0
no  tick_every = 1
no  tick_every = 99
yes tick_every = 100
yes tick_every = 1_000_000
no  tick_every = 1_000_001
yes disk_turn = 0
yes disk_turn = 1_000
no  disk_turn = 1_001
yes date = 0
yes date = 65_535
no  date = 65_536
yes hour = 0
yes hour = 23
no  hour = 24
yes minute = 0
yes minute = 59
no  minute = 60
yes second = 0
yes second = 59
no  second = 60
no  script = ''
no  colour = 1
no  Version = 1
no  version = 1
no  version
no  hour.x = 1
no  date = 1979-05-27
no  residents = []
no  residents = 1
"""

# Of a machine file without its version and its consoles.
HEADS = """
yes version = 1;consoles = 1
yes version = 1;consoles = 8
no  version = 1;consoles = 0
no  version = 1;consoles = 9
no  version = 0;consoles = 1
yes version = 2;consoles = 1
no  version = 3;consoles = 1
no  version = '2';consoles = 1
no  version = 1
no  consoles = 1
no  
no  version = 1;consoles = 1.0
no  version = 1;consoles = true
no  version = 1;consoles = '1'
no  version = 1;consoles = [1]
yes version = 1;consoles = +1
yes version = 1;consoles = 0x8
no  version = 1;consoles = 08
no  version = 1;consoles = -1
no  version = 1;consoles = 4294967297
no  version = 1;consoles = 18446744073709551617
no  version = 1 consoles = 1
no  version = 1;consoles =
yes consoles = 1;version = 2;residents = ['spool']
yes consoles = 1;version = 2;residents = ['sched']
yes consoles = 1;version = 2;residents = ['sched', 'spool']
no  consoles = 1;version = 2;residents = ['spool', 'spool']
no  consoles = 1;version = 2;residents = ['spool', 'cli']
no  consoles = 1;version = 2;residents = ['SPOOL']
no  consoles = 1;version = 2;residents = [1]
no  consoles = 1;version = 2;residents = 'spool'
yes consoles = 1;version = 2;residents = []
"""

# Of a machine file without segments.
SEGMENTS = """
yes [{ base = 0, pages = 192 }]
no  [{ base = 0, pages = 193 }]
no  [{ base = 1, pages = 192 }]
yes [{ base = 188, pages = 4 }]
yes [{ base = 187, pages = 5 }]
no  [{ base = 189, pages = 4 }]
no  [{ base = 0, pages = 3 }]
no  [{ base = -1, pages = 4 }]
no  [{ base = 0 }]
no  [{ pages = 4 }]
no  [{ base = 0, pages = 4, bank = 0 }]
no  []
no  [0]
no  { base = 0, pages = 192 }
no  [{ base = 0, pages = 4 }, { base = 0, pages = 3 }]
no  [[{ base = 0, pages = 4 }]]
"""


def judged(rows):
    """The rows of a table: whether the rest of a line is read, and that."""
    for row in rows[1:-1].split("\n"):
        yield row[:3] == "yes", row[4:].replace(";", "\n")


def ends_read(is_read, consoles):
    """A machine of so many consoles has the prompt of each."""
    return writes("".join(f"c{console} 0A>\\\n" for console in range(consoles))) if is_read else BAD_MACHINE


def machines():
    words = ["run", "file", "100"]
    for is_read, line in judged(LIMITS):
        yield words, {"file": BEFORE + line + BEHIND}, ends_read(is_read, 1)
    for is_read, line in judged(HEADS):
        yield words, {"file": line + BEHIND}, ends_read(is_read, 8 if "8" in line else 1)
    for is_read, segments in judged(SEGMENTS):
        yield words, {"file": BEFORE + "segment = " + segments}, ends_read(is_read, 1)
    for version, most in ((1, 8), (2, 16)):
        for count in range(18):
            text = f"version = {version}\nconsoles = 1\n" + "[[segment]]\nbase = 64\npages = 4\n" * count
            yield words, {"file": text}, ends_read(1 <= count <= most, 1)
    for text in (
        # A byte order mark, CR LF, comments, quoted keys and missing ends of lines are TOML.
        "\uFEFF" + MACHINE.strip(),
        MACHINE.replace("\n", "\r\n"),
        "# a machine\n'version' = 1 # one\n\"consoles\" = 1\n[[segment]]\nbase = 0\npages = 192",
    ):
        yield words, {"file": text}, writes(PROMPT)
    for text in (
        # Keys that come twice, a bare CR, bytes that aren't UTF-8, and what is no document are not.
        "",
        "version = 1\n" + MACHINE,
        HI,
        bytes(48_513),
        MACHINE.replace("\n", "\r", 1),
        b"# \xFF\n" + MACHINE.encode(),
        # Other keys, at any level, and other types are TOML, and no machine file.
        BEFORE + "[segment]\nbase = 0\npages = 192",
        MACHINE + "[segment.x]",
        MACHINE + "[other]",
    ):
        yield words, {"file": text}, BAD_MACHINE


DRIVES = """
yes []
no  [{ letter = 'Q', kind = 'hd4', image = 'a' }]
no  [{ letter = '@', kind = 'hd4', image = 'a' }]
no  [{ letter = 'a', kind = 'hd4', image = 'a' }]
no  [{ letter = 'AB', kind = 'hd4', image = 'a' }]
no  [{ letter = '', kind = 'hd4', image = 'a' }]
no  [{ letter = 1, kind = 'hd4', image = 'a' }]
no  [{ letter = 'A', kind = 'HD4', image = 'a' }]
no  [{ letter = 'A', kind = 'hd6', image = 'a' }]
no  [{ letter = 'A', kind = 'hd4', image = '' }]
no  [{ kind = 'hd4', image = 'a' }]
no  [{ letter = 'A', image = 'a' }]
no  [{ letter = 'A', kind = 'hd4' }]
no  [{ letter = 'A', kind = 'hd4', image = 'a', user = 0 }]
no  [{ letter = 'A', kind = 'hd4', image = 'a' }, { letter = 'A', kind = 'hd4', image = 'b' }]
no  [{ letter = 'A', kind = 'hd4', image = 'a' }, { letter = 'B', kind = 'hd4', image = 'a' }]
no  'A'
"""

# The bytes of an image of each kind.
SIZES = {"ibm3740": 256_256, "hd4": 4_194_304, "hd8": 8_388_608}

# Where the first three sectors of the directory of an `ibm3740` begin, four entries in each: sectors 52, 58 and 64 of the image.
DIRECTORY = (6_656, 7_424, 8_192)


def image(*entries):
    """An `ibm3740` with files of one block: the slot, the file's letter, its record count, the block."""
    image = bytearray(b"\xE5" * SIZES["ibm3740"])
    for slot, letter, records, block in entries:
        place = DIRECTORY[slot // 4] + 32 * (slot % 4)
        fields = bytes([0]) + letter.ljust(8) + b"TXT" + bytes([0, 0, 0, records, block])
        image[place : place + 32] = fields.ljust(32, b"\0")
    return bytes(image)


# The sectors of a track in the order in which they are numbered, six apart.
SKEW = [6 * number % 26 for number in range(13)] + [6 * number % 26 + 1 for number in range(13)]


def with_file(image, slot, name, block, contents):
    """An `ibm3740` with one more file, of one block, in the slot."""
    image = bytearray(image)
    records = [contents[place : place + 128].ljust(128, b"\0") for place in range(0, len(contents), 128)]
    place = DIRECTORY[slot // 4] + 32 * (slot % 4)
    image[place : place + 32] = (b"\0" + name + bytes([0, 0, 0, len(records), block])).ljust(32, b"\0")
    for number, record in enumerate(records, 8 * block):
        place = 128 * (52 + number // 26 * 26 + SKEW[number % 26])
        image[place : place + 128] = record
    return bytes(image)


def drives():
    words = ["run", "file", "10"]
    for is_read, rows in judged(DRIVES):
        yield words, {"file": BEFORE + "drive = " + rows + BEHIND}, ends_read(is_read, 1)
    for letter, kind in (("A", "ibm3740"), ("B", "hd4"), ("P", "hd8")):
        row = f"drive = [{{ letter = '{letter}', kind = '{kind}', image = 'a' }}]"
        files = {"file": BEFORE + row + BEHIND, "a": b"\xE5" * SIZES[kind]}
        yield words, files, writes(PROMPT)
    # The first image with a fault is reported, by letter, or a drive before it that can't be attached.
    text = MACHINE + "".join(f"[[drive]]\nletter = '{letter}'\nkind = 'ibm3740'\nimage = '{letter}'\n" for letter in "CA")
    sound = image((2, b"A", 128, 242))
    large = image((2, b"A", 129, 243))
    beyond = image((2, b"A", 128, 243))
    twice = image((3, b"A", 1, 7), (9, b"B", 1, 7))
    next_sector = image((4, b"A", 129, 2))
    short = image()[:-1]
    bad = lambda letter, cause, place: (4, f"bad image {letter}: cause {cause} at {place}", "")
    failed = (7, "disk failed at step 0", "")
    for a, c, ending in (
        (sound, sound, writes(PROMPT)),
        (large, sound, bad("A", 2, 2)),
        (beyond, sound, bad("A", 3, 2)),
        (sound, twice, bad("C", 4, 9)),
        (next_sector, short, bad("A", 2, 4)),
        (short, twice, bad("A", 1, 0)),
        (sound, short, bad("C", 1, 0)),
        (large, None, bad("A", 2, 2)),
        (None, large, failed),
        (sound, None, failed),
    ):
        images = {name: bytes for name, bytes in (("A", a), ("C", c)) if bytes is not None}
        yield words, {"file": text, **images}, ending
    # A drive is selected at the prompt where it is mounted.
    text = SCRIPTED + "[[drive]]\nletter = 'B'\nkind = 'ibm3740'\nimage = 'B'\n"
    files = {"file": text, "keys": "0 key 0 b:\\ra:\\r\n", "B": image()}
    yield ["run", "file", "1000"], files, writes("c0 0A>b:\\r\nc0 0B>a:\\r\nc0 No drive\\r\nc0 0B>\\\n")
    # An image of bytes FFh has entries that are kept unread, and no room for a file.
    for kind, size in SIZES.items():
        text = with_disk(1, (0, 192)) + f"[[drive]]\nletter = 'B'\nkind = '{kind}'\nimage = 'B'\n"
        disk = hard_disk(refused_com=hostile.guest("refused"))
        files = {"file": text, "keys": "0 key 0 refused\\r\n", "A": disk, "B": b"\xFF" * size}
        yield ["run", "file", "20000"], files, writes("c0 0A>refused\\r\nc0 00FF\\r\nc0 0A>\\\n")


# Commands: programs on a disk, and what the command line interpreter makes of a line.


def relocatable(code, places, extra=0):
    """A page relocatable program: its header, its code, and a mark for each byte that gets the segment's first page added."""
    header = b"\0" + len(code).to_bytes(2, "little") + b"\0" + extra.to_bytes(2, "little")
    marks = bytearray(-(-len(code) // 8))
    for place in places:
        marks[place // 8] |= 0x80 >> place % 8
    return header.ljust(256, b"\0") + code + bytes(marks)


def hard_disk(**files):
    """An `hd4` with files of user 0, each of one entry, by names in which `_` comes before the type."""
    image = bytearray(b"\xE5" * SIZES["hd4"])
    block = 8
    for slot, (name, contents) in enumerate(files.items()):
        name, kind = name.split("_")
        count = -(-len(contents) // 2048)
        blocks = b"".join(number.to_bytes(2, "little") for number in range(block, block + count))
        head = b"\0" + name.upper().encode().ljust(8) + kind.upper().encode() + bytes([0, 0, 0, -(-len(contents) // 128)])
        image[32 * slot : 32 * slot + 32] = (head + blocks).ljust(32, b"\0")
        image[2048 * block : 2048 * block + len(contents)] = contents
        block += count
    return bytes(image)


def call(function, parameter):
    """A call of a function with a word as its parameter: LD C,function; LD DE,parameter; CALL 0005h."""
    return b"\x0E" + bytes([function]) + b"\x11" + parameter.to_bytes(2, "little") + b"\xCD\x05\x00"


END = b"\x0E\x00\xCD\x05\x00"
# `Hi` as a page relocatable program, whose marks are those of the high bytes of its three addresses.
HI_PRL = relocatable(HI, (4, 7, 12))
# `Hi` after 3,000 bytes of code, over which it jumps.
FAR = bytes([0xC3, 3000 % 256, 1 + 3000 // 256]).ljust(3000, b"\0") + call(9, 0x0100 + 3000 + 13) + END + b"Hi\r\n$"
FAR_PRL = relocatable(FAR, (2, 3004, 3007, 3012))
# Reads a key, which is echoed, by function 1, and ends.
WAIT_PRL = relocatable(b"\x0E\x01\xCD\x05\x00" + END, (4, 9))
# Writes the bytes from 005Ch to 0092h by function 2, and ends: LD HL,005Ch; LD E,(HL); PUSH HL; LD C,02h; CALL 0005h; POP HL;
# INC HL; LD A,L; CP 93h; JR NZ,0103h.
SHOW = b"\x21\x5C\x00\x5E\xE5\x0E\x02\xCD\x05\x00\xE1\x23\x7D\xFE\x93\x20\xF2" + END


def marked(count, message):
    """Calls function 150 so often with the message at an address, and writes `.` where the answer is 0, `?` where it isn't:
    LD B,count; PUSH BC; the call; OR A; LD E,'.'; JR Z,+2; LD E,'?'; LD C,02h; CALL 0005h; POP BC; DJNZ to the PUSH."""
    loop = b"\xC5" + call(150, message) + b"\xB7\x1E.\x28\x02\x1E?\x0E\x02\xCD\x05\x00\xC1"
    return bytes([0x06, count]) + loop + b"\x10" + bytes([256 - len(loop) - 2])


# Where the programs below have their texts and messages.
AT = 0x0180
# Of better priority than the interpreter, by function 145; sends `x` for console 1 so often by function 150, and for console 2.
PREFERRED = call(145, 10)
SEND = (PREFERRED + marked(17, AT) + marked(1, AT + 16) + call(9, AT + 32) + END).ljust(AT - 0x0100, b"\0")
SEND += b"\x00\x01x\0".ljust(16, b"\0") + b"\x00\x02x\0".ljust(16, b"\0") + b"\r\n$"
# Chains to `hi`, the text at its DMA address, by function 47.
CHAIN = (call(26, AT) + call(47, 0)).ljust(AT - 0x0100, b"\0") + b"hi\0"
# The same once the command queue is full.
FILL = (PREFERRED + marked(16, AT + 16) + call(26, AT) + call(47, 0)).ljust(AT - 0x0100, b"\0")
FILL += b"hi\0".ljust(16, b"\0") + b"\x00\x01x\0"
# Sends `hi` for its own console once the command queue is full, and then writes `!`: the console passed, and it waits for it before
# the terminal message processor does, as its priority is better.
PASS = (PREFERRED + marked(16, AT + 16) + call(150, AT) + call(2, ord("!")) + END).ljust(AT - 0x0100, b"\0")
PASS += b"\x00\x00hi\0".ljust(16, b"\0") + b"\x00\x01x\0"
# Sends `x` and `y` for console 1, and reads the second command itself from the command queue, which it opens by function 135:
# its text is written by function 9 from 0202h on.
GRAB = PREFERRED + marked(1, AT) + marked(1, AT + 16) + call(135, AT + 32) + call(137, AT + 32) + call(9, AT + 130) + END
GRAB = GRAB.ljust(AT - 0x0100, b"\0") + b"\x00\x01x\0".ljust(16, b"\0") + b"\x00\x01y$\0".ljust(16, b"\0")
GRAB += b"\0\0" + (AT + 128).to_bytes(2, "little") + b"CliQ    "


# Creates processes by function 144 until no more can live, says so, and waits for a key. Each of them waits for a tick: LD SP,0400h;
# LD C,8Dh; LD DE,0001h; CALL 0005h.
MANY = (call(144, AT) + b"\xB7\x28\xF5" + call(9, AT + 34) + b"\x0E\x01\xCD\x05\x00" + END).ljust(0x40, b"\0") + b"\x31\x00\x04" + call(141, 1)
MANY = MANY.ljust(AT - 0x0100, b"\0") + b"\0\0\0\xC7\xA0\x01MANY    ".ljust(32, b"\0") + b"\x40\x01full\r\n$"


# Makes the queue `Q` of one message of four bytes by function 134, says so, and waits for a key; then it opens the queue, reads the
# message and writes it as a text.
QUEUE = call(134, AT) + call(9, AT + 64) + b"\x0E\x01\xCD\x05\x00" + call(135, AT + 32) + call(137, AT + 32) + call(9, AT + 80) + END
QUEUE = QUEUE.ljust(AT - 0x0100, b"\0") + (b"\0\0Q       " + b"\x04\x00\x01\x00").ljust(32, b"\0")
QUEUE += (b"\0\0" + (AT + 80).to_bytes(2, "little") + b"Q       ").ljust(32, b"\0") + b"made\r\n$".ljust(64, b"\0")


# Holds the message of a mutual exclusion queue, for which the process that it creates waits, and chains to `hi`. The other one then
# sends `x` for console 1.
HOLD = call(134, AT) + call(135, AT + 32) + call(139, AT + 32) + call(137, AT + 32) + call(144, AT + 64) + call(26, AT + 112) + call(47, 0)
HOLD = HOLD.ljust(0x40, b"\0") + b"\x31\x00\x04" + call(137, AT + 32) + call(150, AT + 120) + END
HOLD = HOLD.ljust(AT - 0x0100, b"\0") + (b"\0\0MXhold  " + b"\x00\x00\x01\x00").ljust(32, b"\0") + (b"\0" * 4 + b"MXhold  ").ljust(32, b"\0")
HOLD += b"\0\0\0\xC7\xE0\x01WAITER  ".ljust(32, b"\0") + b"\x40\x01".ljust(16, b"\0") + b"hi\0".ljust(8, b"\0") + b"\x00\x01x\0"


def with_disk(consoles, *segments):
    """A machine file with so many consoles, segments by base and pages, a script and an `hd4` as drive A."""
    text = f"version = 1\nconsoles = {consoles}\nscript = 'keys'\n"
    for base, pages in segments:
        text += f"[[segment]]\nbase = {base}\npages = {pages}\n"
    return text + "[[drive]]\nletter = 'A'\nkind = 'hd4'\nimage = 'A'\n"


def commands():
    # A program of an `ibm3740`.
    text = with_disk(1, (64, 64)).replace("hd4", "ibm3740")
    files = {"file": text, "keys": "0 key 0 hi\\r\n", "A": with_file(image(), 0, b"HI      PRL", 2, HI_PRL)}
    yield ["run", "file", "20000"], files, writes("c0 0A>hi\\r\nc0 Hi\\r\nc0 0A>\\\n")
    # What a line comes to, by the programs of a disk, of which a page relocatable one comes first, in a segment of 64 pages.
    disk = hard_disk(hi_prl=HI_PRL, far_prl=FAR_PRL, hi_com=LETTER, one_prl=HI_PRL[:128], short_prl=HI_PRL[:256], none_prl=bytes(512))
    for line, said in (
        ("hi", "Hi"),
        (" Hi.com  now", "Hi"),
        ("a:hi", "Hi"),
        ("far", "Hi"),
        ("ho", "Command not found"),
        ("b:hi", "Bad load"),
        (";x", "Bad load"),
        ("one", "Bad load"),
        ("short", "Bad load"),
        ("none", "Bad load"),
    ):
        # The segment is free again, whatever came of the line.
        files = {"file": with_disk(1, (64, 64)), "keys": f"0 key 0 {line}\\rhi\\r\n", "A": disk}
        yield ["run", "file", "40000"], files, writes(f"c0 0A>{line}\\r\nc0 {said}\\r\nc0 0A>hi\\r\nc0 Hi\\r\nc0 0A>\\\n")
    # A segment of eight pages has room for 1,408 bytes.
    for length, extra, said in ((1408, 0, "Hi"), (1409, 0, "No memory"), (18, 1390, "Hi"), (18, 1391, "No memory"), (0, 0, "Bad load")):
        disk = hard_disk(hi_prl=relocatable(HI.ljust(length, b"\0")[:length], (4, 7, 12) if length else (), extra))
        files = {"file": with_disk(1, (64, 8)), "keys": "0 key 0 hi\\r\n", "A": disk}
        yield ["run", "file", "20000"], files, writes(f"c0 0A>hi\\r\nc0 {said}\\r\nc0 0A>\\\n")
    # Two segments have two programs; the first ends by its key, and there is room again.
    keys = "0 key 0 wait\\r\n5000 key 1 wait\\r\n10000 key 2 wait\\r\n15000 key 0 x\n20000 key 2 wait\\r\n"
    files = {"file": with_disk(3, (64, 16), (64, 16)), "keys": keys, "A": hard_disk(wait_prl=WAIT_PRL)}
    text = "c0 0A>wait\\r\nc1 0A>wait\\r\nc2 0A>wait\\r\nc2 No memory\\r\nc2 0A>wait\\r\nc0 x0A>\\\n"
    yield ["run", "file", "40000"], files, writes(text)
    # No process begins where 32 live; the segment is free again then.
    keys = "0 key 0 many\\r\n20000 key 1 hi\\r\n40000 key 0 x\n60000 key 1 hi\\r\n"
    files = {"file": with_disk(2, (0, 192), (64, 16)), "keys": keys, "A": hard_disk(many_com=MANY, hi_prl=HI_PRL)}
    text = "c0 0A>many\\r\nc0 full\\r\nc1 0A>hi\\r\nc1 No process\\r\nc1 0A>hi\\r\nc1 Hi\\r\nc0 x0A>\\\nc1 0A>\\\n"
    yield ["run", "file", "100000"], files, writes(text)
    # A queue of the command's name gets the tail.
    keys = "0 key 0 queue\\r\n20000 key 1 q 1$\\rq 2$\\r\n40000 key 0 x\n"
    files = {"file": with_disk(2, (0, 192)), "keys": keys, "A": hard_disk(queue_com=QUEUE)}
    text = "c0 0A>queue\\r\nc0 made\\r\nc1 0A>q 1$\\r\nc1 0A>q 2$\\r\nc1 Queue full\\r\nc0 x 10A>\\\nc1 0A>\\\n"
    yield ["run", "file", "100000"], files, writes(text)
    # A program for page 0 has the two names and the tail in its base page.
    files = {"file": with_disk(1, (0, 192)), "keys": "0 key 0 show b:one.txt two.* x\\r\n", "A": hard_disk(show_com=SHOW)}
    page = "\\x02ONE     TXT" + "\\x00" * 5 + "TWO     ???" + "\\x00" * 8 + "\\x12 B:ONE.TXT TWO.* X"
    yield ["run", "file", "40000"], files, writes(f"c0 0A>show b:one.txt two.* x\\r\nc0 {page}0A>\\\n")
    # Commands that programs send. The command queue has room for fifteen, beside the one that the interpreter has read.
    disk = hard_disk(send_com=SEND, chain_com=CHAIN, fill_com=FILL, grab_com=GRAB, hi_com=HI)
    unknown = "Command not found\\r\n"
    for line, text in (
        ("send", f"c1 0A>{unknown}c0 {'.' * 17}?\\r\n" + f"c1 {unknown}" * 16 + "c0 0A>\\\n"),
        ("chain", "c0 Hi\\r\nc0 0A>\\\nc1 0A>\\\n"),
        ("fill", f"c1 0A>{unknown}" + f"c1 {unknown}" * 15 + f"c0 {'.' * 16}Hi\\r\nc0 0A>\\\n"),
        ("grab", f"c1 0A>{unknown}c0 ..y0A>\\\n"),
    ):
        files = {"file": with_disk(2, (0, 192)), "keys": f"0 key 0 {line}\\r\n", "A": disk}
        yield ["run", "file", "100000"], files, writes(f"c0 0A>{line}\\r\n{text}")
    # A console passes in the step in which a command that was held goes in.
    files = {"file": with_disk(2, (0, 192), (64, 16)), "keys": "0 key 0 pass\\r\n", "A": hard_disk(pass_com=PASS, hi_prl=HI_PRL)}
    text = f"c0 0A>pass\\r\nc1 0A>{unknown}" + f"c1 {unknown}" * 15 + f"c0 {'.' * 16}Hi\\r\nc0 !0A>\\\n"
    yield ["run", "file", "100000"], files, writes(text)


def chained():
    """Whom a chain completes, the interpreter, and whom the end of its process completes are both answered. Where the interpreter has
    to wait as it looks for the program that isn't there, the other one writes before it."""
    lines = ["c1 0A>Command not found\\r\n", "c0 Hi\\r\n"]
    for turn in (0, 20, 1000):
        text = "".join(["c0 0A>hold\\r\n", *(lines if turn == 0 else lines[::-1]), "c0 0A>\\\n"])
        machine = f"disk_turn = {turn}\n" + with_disk(2, (0, 192), (64, 16))
        files = {"file": machine, "keys": "0 key 0 hold\\r\n", "A": hard_disk(hold_com=HOLD, hi_prl=HI_PRL)}
        yield ["run", "file", "100000"], files, writes(text)


def in_turns():
    """Commands on a disk that serves file calls in turns of some steps: they write the lines that they write where each is done at
    once."""
    for number, (words, files, ending) in enumerate(commands()):
        turn = (1, 20, 1000)[number % 3]
        steps = int(words[2]) + 100 * turn
        yield ["run", "file", str(steps)], {**files, "file": f"disk_turn = {turn}\n" + files["file"]}, ending


def asked(function, parameter):
    """Calls a function, and writes `.` where the answer is 0, `?` where it isn't."""
    return call(function, parameter) + b"\xB7\x1E.\x28\x02\x1E?\x0E\x02\xCD\x05\x00"


# Asks to delete the queues of the spooler and of the scheduler by function 136, and to abort both by function 157.
HARM = asked(136, AT) + asked(136, AT + 16) + asked(136, AT + 32) + asked(157, AT + 48) + asked(157, AT + 64) + END
HARM = HARM.ljust(AT - 0x0100, b"\0") + b"\0\0SPOOL   ".ljust(16, b"\0") + b"\0\0STOPSPLR".ljust(16, b"\0") + b"\0\0SCHED   ".ljust(16, b"\0")
HARM += b"\0\0\0\0Spool   \0".ljust(16, b"\0") + b"\0\0\0\0Sched   \0"


def digit(load):
    """Writes a byte below 10, which these instructions load into A, as a digit."""
    return load + b"\xC6\x30\x5F\x0E\x02\xCD\x05\x00"


# Opens the queues of the spooler and of the scheduler by function 135, and writes the pointer of each, 0 where it isn't there.
QUEUES = b"".join(call(135, AT + place) + digit(b"\x3A" + (AT + place).to_bytes(2, "little")) for place in (0, 16, 32)) + END
QUEUES = QUEUES.ljust(AT - 0x0100, b"\0") + b"\0\0\0\0SPOOL   ".ljust(16, b"\0") + b"\0\0\0\0STOPSPLR".ljust(16, b"\0") + b"\0\0\0\0SCHED   "
# Takes errors as answers by function 45; opens, deletes, renames, changes and makes A.TXT, and writes the code of each refusal.
CHANGE = call(45, 0x00FF) + b"".join(call(function, AT) + digit(b"\x7C") for function in (15, 19, 23, 30, 22)) + END
CHANGE = CHANGE.ljust(AT - 0x0100, b"\0") + b"\0A       TXT".ljust(16, b"\0") + b"\0NEW     TXT".ljust(20, b"\0")
# Sets the clock to 14:31 of 29 February 1980 by function 104.
CLOCK = (call(104, AT) + END).ljust(AT - 0x0100, b"\0") + (790).to_bytes(2, "little") + b"\x14\x31"
# Writes `X` and the end of a line by function 5, and waits for a key, with the printer.
PRINT = call(5, ord("X")) + call(5, 10) + b"\x0E\x01\xCD\x05\x00" + END


def with_residents(turn, residents, consoles, *segments):
    """A machine file of version 2 with these residents, a disk of such turns, and a clock at 14:29:59 of 29 February 1980, whose second takes
    6,000 steps."""
    machine = with_disk(consoles, *segments).replace("version = 1", "version = 2")
    return f"disk_turn = {turn}\ntick_every = 100\ndate = 790\nhour = 14\nminute = 29\nsecond = 59\nresidents = {residents}\n" + machine


def residents():
    """The spooler and the scheduler, on a disk that serves calls at once, and on one that takes turns."""
    lines = b"".join(b"%0127d\n" % number for number in range(3))
    texts = {"a_txt": b"AB\n\x1A".ljust(128, b"\0"), "b_txt": b"CD\n\x1A".ljust(128, b"\0"), "long_txt": lines}
    disk = hard_disk(**texts, harm_com=HARM, print_com=PRINT, queues_com=QUEUES, change_com=CHANGE, clock_com=CLOCK)
    spool, sched, both = ["spool"], ["sched"], ["sched", "spool"]
    prompt = "c0 0A>"
    printed = f"l0 {0:0127d}\n"
    # A disk's turns, and a step in which the first record of a file is being printed.
    for turn, printing in ((0, 120), (20, 200)):
        for asks, keys, text in (
            # A file is printed and deleted, so that it isn't printed again; two are printed in their order; a list with a star is none.
            (spool, [(0, "spool a.txt[d]"), (30000, "spool a.txt")], f"{prompt}spool a.txt[d]\\r\nl0 AB\n{prompt}spool a.txt\\r\n{prompt}\\\n"),
            (spool, [(0, "spool b.txt,a.txt")], f"{prompt}spool b.txt,a.txt\\r\nl0 CD\nl0 AB\n{prompt}\\\n"),
            (spool, [(0, "spool *.txt")], f"{prompt}spool *.txt\\r\n{prompt}\\\n"),
            # A file that is stopped in its first record isn't deleted, and the rest of its list isn't printed. A stop while nothing is printed
            # ends the next file.
            (
                spool,
                [(0, "spool long.txt[d],a.txt"), (printing, "stopsplr"), (30000, "stopsplr"), (40000, "spool long.txt")],
                f"{prompt}spool long.txt[d],a.txt\\r\n{prompt}stopsplr\\r\n{printed}{prompt}stopsplr\\r\n{prompt}spool long.txt\\r\n{prompt}\\\n",
            ),
            # A scheduled command goes to the spooler's queue; one of a bad form and one for a console that isn't there are lost.
            (
                both,
                [(0, "sched 02/29/81 14:30 0 spool a.txt"), (300, "sched 02/29/80 14:30 7 spool a.txt"), (600, "sched 02/29/80 14:30 0 spool b.txt")],
                f"{prompt}sched 02/29/81 14:30 0 spool a.txt\\r\n{prompt}sched 02/29/80 14:30 7 spool a.txt\\r\n"
                f"{prompt}sched 02/29/80 14:30 0 spool b.txt\\r\nl0 CD\n{prompt}\\\n",
            ),
            # Without a spooler the command isn't found; an entry of the past is sent at once.
            (
                sched,
                [(0, "sched 01/01/78 00:00 0 nobody")],
                f"{prompt}sched 01/01/78 00:00 0 nobody\\r\nc0 {prompt[3:]}Command not found\\r\n",
            ),
            # The queues aren't deleted, and the residents not aborted.
            (both, [(0, "harm")], f"{prompt}harm\\r\nc0 ?????{prompt[3:]}\\\n"),
            # A queue's pointer is its number and one.
            (both, [(0, "queues")], f"{prompt}queues\\r\nc0 234{prompt[3:]}\\\n"),
            (spool, [(0, "queues")], f"{prompt}queues\\r\nc0 230{prompt[3:]}\\\n"),
            (sched, [(0, "queues")], f"{prompt}queues\\r\nc0 002{prompt[3:]}\\\n"),
            # The clock is set to the time of a command.
            (
                sched,
                [(0, "sched 02/29/80 14:31 0 nobody"), (10000, "clock")],
                f"{prompt}sched 02/29/80 14:31 0 nobody\\r\n{prompt}clock\\r\n{prompt}Command not found\\r\n",
            ),
        ):
            script = "".join(f"{step} key 0 {line}\\r\n" for step, line in keys)
            files = {"file": with_residents(turn, asks, 1, (0, 192)), "keys": script, "A": disk}
            yield ["run", "file", "100000"], files, writes(text)
        # Of entries that came in before the clock is read, the earliest is sent first, and of one minute the one that came first.
        lines = [f"sched 02/29/80 14:{minute} 0 spool {name}.txt" for minute, name in ((29, "b"), (28, "a"), (28, "long"))]
        script = "".join(f"{1000 * number} key 0 {line}\\r\n" for number, line in enumerate(lines))
        files = {"file": with_residents(turn, both, 1, (0, 192)).replace("tick_every = 100\n", "tick_every = 50000\n"), "keys": script, "A": disk}
        text = "".join(f"{prompt}{line}\\r\n" for line in lines) + "l0 AB\n" + "".join(f"l0 {number:0127d}\n" for number in range(3)) + "l0 CD\n"
        yield ["run", "file", "100000"], files, writes(f"{text}{prompt}\\\n")
        yield ["run", "file", "400000"], *a_day(with_residents(turn, both, 2, (0, 192)), disk)
        # While the spooler has a file, others can't open it to write, delete, rename, change or make it.
        keys = "0 key 0 print\\r\n10000 key 1 spool a.txt\\r\n20000 key 1 change\\r\n40000 key 0 x\n"
        files = {"file": with_residents(turn, spool, 2, (0, 64), (0, 64)), "keys": keys, "A": disk}
        text = "c0 0A>print\\r\nl0 X\nc1 0A>spool a.txt\\r\nc1 0A>change\\r\nl0 AB\nc0 x0A>\\\nc1 555580A>\\\n"
        yield ["run", "file", "100000"], files, writes(text)
        # A program that has the printer keeps it until it ends.
        keys = "0 key 0 print\\r\n10000 key 1 spool a.txt\\r\n40000 key 0 x\n"
        files = {"file": with_residents(turn, spool, 2, (0, 192)), "keys": keys, "A": disk}
        yield ["run", "file", "100000"], files, writes("c0 0A>print\\r\nl0 X\nc1 0A>spool a.txt\\r\nl0 AB\nc0 x0A>\\\nc1 0A>\\\n")


def a_day(machine, disk):
    """Two consoles print files while a program has the printer: one list is stopped, a file is deleted after it was printed, and a command
    is sent at 14:31."""
    lines = (
        (0, 0, "spool b.txt[d],a.txt\\r", "c0 0A>spool b.txt[d],a.txt\\r\nl0 CD\nl0 AB\n"),
        (10000, 1, "print\\r", "c1 0A>print\\r\nl0 X\n"),
        # The spooler has opened a file and waits for the printer, and finds the stop once it has that.
        (20000, 0, "spool a.txt[d],long.txt\\r", "c0 0A>spool a.txt[d],long.txt\\r\n"),
        (30000, 0, "stopsplr\\r", "c0 0A>stopsplr\\r\n"),
        (40000, 1, "x", ""),
        # The one file is gone, and the other is there.
        (50000, 1, "spool b.txt,a.txt\\r", "c1 x0A>spool b.txt,a.txt\\r\nl0 AB\n"),
        (60000, 0, "sched 02/29/80 14:31 0 spool long.txt\\r", "c0 0A>sched 02/29/80 14:31 0 spool long.txt\\r\n"),
    )
    printed = "".join(f"l0 {number:0127d}\n" for number in range(3))
    keys = "".join(f"{step} key {console} {line}\n" for step, console, line, _ in lines)
    return {"file": machine, "keys": keys, "A": disk}, writes("".join(shown for *_, shown in lines) + printed + "c0 0A>\\\nc1 0A>\\\n")


def office(name):
    with open(os.path.join(running.ROOT, "examples/office", name), "rb") as file:
        return file.read()


def stopped():
    """Of two programs the first keeps a record locked, and the second asks for it again and again, every ten ticks, until ^C stops it:
    in its delay, as it waits for the disk, as it is served, or as it goes on."""
    disk = hard_disk(keep_prl=office("keep.prl"), wait_prl=office("wait.prl"), data_dat=office("data.dat"))
    text = "c0 0A>keep\\r\nc0 kept\\r\nc1 0A>wait\\r\nc1 ^C\\r\nc1 0A>\\\n"
    machine = "tick_every = 1000\n" + with_disk(2, (0, 192), (0, 192))
    for turn, first, behind, stride in ((0, 300_000, 300_001, 1), (1, 300_000, 300_001, 1), (20, 300_000, 310_100, 673), (1000, 300_000, 312_000, 997)):
        for step in range(first, behind, stride):
            keys = f"0 key 0 keep\\r\n100000 key 1 wait\\r\n{step} key 1 \\x03\n"
            files = {"file": f"disk_turn = {turn}\n" + machine, "keys": keys, "A": disk}
            yield ["run", "file", "400000"], files, writes(text)


# Scripts.

SCRIPTED = endings.MACHINE
TWO_CONSOLES = SCRIPTED.replace("consoles = 1", "consoles = 2")


def scripts():
    for steps, keys, text in (
        ("4000000000", "0 key 0 user 3\\r\n", "c0 0A>user 3\\r\nc0 3A>\\\n"),
        (
            "200",
            "0 key 0 us\\x08\\x7F\\x08\\x15user 16\\r\n",
            "c0 0A>us\\x08 \\x08\\x08 \\x08#\\r\nc0 user 16\\r\nc0 Bad load\\r\nc0 0A>\\\n",
        ),
    ):
        yield ["run", "file", steps, "--trace"], {"file": SCRIPTED, "keys": keys}, writes(text)
    keys = "100 key 0 usr\\x08er 3\\r\n200 key 1 b:\\r\n300 key 1 not this\\x15\\r\n"
    text = """c0 0A>usr\\x08 \\x08er 3\\r
c1 0A>b:\\r
c1 No drive\\r
c1 0A>not this#\\r
c1 \\r
c0 3A>\\
c1 0A>\\
"""
    yield ["run", "file", "100000", "--trace"], {"file": TWO_CONSOLES, "keys": keys}, writes(text)
    for keys, ending in (
        ("", writes(PROMPT)),
        ("5 tick\n5 tick\n", writes(PROMPT)),
        ("5 tick\n4 tick\n", (3, "bad script line 2", "")),
        ("\n# none\n5 tock\n", (3, "bad script line 3", "")),
        ("\n" * 1_048_576, writes(PROMPT)),
        ("\n" * 1_048_577, TOO_LONG),
    ):
        yield ["run", "file", "10"], {"file": SCRIPTED, "keys": keys}, ending
    yield ["run", "file", "10"], {"file": SCRIPTED}, CANNOT_READ


# Words, and inputs at their greatest lengths.


def words():
    ran = ["run file 1", "run file 0", "run file 1 --trace", "program file 1", "program file 1 --trace"]
    refused = [
        "", "run", "run file", "program file", "program file --trace", "Run file 1", "runs file 1", " file 1", "gen 1", "gen 1 x", "gen 01 0",
        "gen 2147483648 0", "gen -1 0", "gen 1 4000000001", "gen 1 0 --trace", "Gen 1 0",
        "run  1", "program  1", "run file ", "run file 09", "run file 00", "run file +9", "run file -0", "run file 1_0",
        "run file 4000000001", "run file 18446744073709551617", "program file 1 --Trace", "run file 1 trace",
        "run file 1 --trace x",
    ]  # fmt: skip
    for line in ran:
        yield line.split(" "), {"file": MACHINE}, writes("")
    for line in refused:
        yield line.split(" ") if line else [], {"file": MACHINE}, (1, USAGE, "")
    yield ["run", "file", "9 "], {"file": MACHINE}, (1, USAGE, "")
    # In each record of its file a machine of a seed has 2Eh at first: 46 times the sum of 1 to 32.
    for seed in ("0", "1", "2147483647"):
        yield ["gen", seed, "0"], {}, writes("lines 0\ncalls 0\ndata 24288\n")
    for word, first, greatest, text in (("program", b"", 48_512, ""), ("run", MACHINE.encode(), 65_536, PROMPT)):
        yield [word, "file", "9"], {"file": first.ljust(greatest)}, writes(text)
        yield [word, "file", "9"], {"file": first.ljust(greatest + 1)}, TOO_LONG
        yield [word, "other", "9"], {"file": first}, CANNOT_READ


def run(program, words, files, left=None):
    """The exit status of the program with these words, in a folder with these files, and what it says and writes. The file of the
    name `left` is then answered too."""
    with tempfile.TemporaryDirectory() as folder:
        write_files(folder, files)
        done = running.run([program, *words], cwd=folder)
        ending = done.returncode, done.stderr.decode().rstrip("\n"), done.stdout.decode()
        if left is None:
            return ending
        with open(os.path.join(folder, left), "rb") as file:
            return *ending, file.read()


def refused(program):
    """Endings by images and by the system, and inputs from pipes."""
    files = {"file": with_disk(1, (0, 192)), "keys": "", "A": hard_disk()}
    yield from endings.outputs(program, ["run", "file", "100"], files)
    yield from endings.differences(program, ["run", "file", "10"], PROMPT.encode())
    yield from endings.scripts(program)
    yield from endings.of_images(program)
    yield "an image that is cut short", endings.cut(program)
    yield from endings.in_their_step(program, HI, LETTER, PROMPT.encode())
    yield from endings.stops(program, next(files for _, files, _ in stopped() if files["file"].startswith("disk_turn = 20\n")))
    yield "little memory", endings.starved(program, ["program", "file", "9"], {"file": HI})
    # A program, a machine file and a script that come by a pipe, each of which is read once, in pieces where it is long.
    for words, piped, contents, files, text in (
        (["program", "file", "9"], "file", HI, {}, "c0 Hi\\r\n"),
        (["program", "file", "9"], "file", HI.ljust(48_512), {}, "c0 Hi\\r\n"),
        (["run", "file", "10"], "file", SCRIPTED.encode(), {"keys": ""}, PROMPT),
        (["run", "file", "1000"], "keys", b"0 key 0 user 3\\r\n", {"file": SCRIPTED}, "c0 0A>user 3\\r\nc0 3A>\\\n"),
    ):
        yield f"{' '.join(words)} with {piped} from a pipe", endings.piped(program, words, piped, contents, files, text)


# Makes OUT.DAT and writes sixteen records at once, of zeros.
OUT = (call(44, 16) + call(26, 0x0400) + call(22, AT) + call(21, AT) + END).ljust(AT - 0x0100, b"\0") + b"\0OUT     DAT".ljust(36, b"\0")


def ends_within(program):
    """A run that ends while a call is served carries it to its end, so that a disk has all of what a call writes or nothing; and what it
    has in the end of a run it has in the end of a longer one."""
    for kind in images.KINDS:
        first = {"OUT     COM": OUT}
        image, found = hostile.disk(kind, first), []
        ways = [first, {**first, "OUT     DAT": b""}, {**first, "OUT     DAT": bytes(2048)}]
        for steps in range(0, 1200, 7):
            files = {"file": "disk_turn = 20\n" + with_disk(1, (0, 192)).replace("hd4", kind), "keys": "0 key 0 out\\r\n", "A": image}
            status, _, _, left = run(program, ["run", "file", str(steps)], files, "A")
            left = hostile.files_of(kind, left)
            is_way = [left == {(0, name.encode()): data.ljust(-(-len(data) // 128) * 128, b"\0") for name, data in way.items()} for way in ways]
            found.append(is_way.index(True) if status == 0 and True in is_way else -1)
        yield f"ends within a call on {kind}", None if found == sorted(found) and set(found) == {0, 1, 2} else str(found)


def given_cases(program):
    """Each case of words and files: its name, and a function that says what is wrong with it, if anything is."""
    for group in (programs, machines, drives, commands, chained, in_turns, residents, stopped, scripts, words):
        for number, (given, files, expected) in enumerate(group()):

            def wrong(given=given, files=files, expected=expected):
                ending = run(program, given, files)
                return None if ending == expected else f"{ending}, and not {expected}"

            yield f"{group.__name__} {number}: {' '.join(given)}", wrong
    for case in hostile.cases():

        def wrong(case=case):
            return hostile.wrong(case, *run(program, ["run", "file", str(case.steps)], hostile.files(case), "A"))

        yield f"hostile {case.name} on {case.kind} with {case.disk_turn}", wrong


def main(words):
    program, tally = running.program_in(words), running.Tally()
    for name, wrong in given_cases(program):
        tally.add(name, running.in_time(wrong))
    for group in (refused, ends_within):
        for name, wrong in running.each_in_time(group, program):
            tally.add(name, wrong)
    return tally.status()


if __name__ == "__main__":
    sys.exit(main(sys.argv[1:]))
