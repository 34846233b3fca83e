#!/usr/bin/env python3
"""python3 -m tests.explained [PROGRAM]: breaks a machine file, its script and its images in a hundred ways, and looks whether ./explain says of each the
place where it was broken and the cause, and nothing else. What is expected is written by how each was broken. A built mpm,
crates/mpm/out/mpm where none is named, has to end on each as ./explain says that it does.

A case that comes out otherwise, or that runs out of time, has a line; the last line counts the cases. Status: 0 where each came out as it
should, 1 where one didn't, 2 where one ran out of time and all others came out as they should."""

import contextlib
import fcntl
import io
import os
import sys
import tempfile

from tests import running
from tests.running import ROOT
from tools import explaining, images

# A machine file, whose lines are numbered from 1.
MACHINE = """\
version = 2
consoles = 2
tick_every = 10000
script = "keys"
[[segment]]
base = 0
pages = 192
[[drive]]
letter = "A"
kind = "ibm3740"
image = "disk.img"
"""

KEYS = "# Types a line.\n100 key 0 user 3\\r\n200 key 1 b:\\r\n"


def entry(user=0, name=b"A       TXT", ex=0, s2=0, count=1, blocks=(2,)):
    return (bytes([user]) + name + bytes([ex, 0, s2, count]) + bytes(blocks)).ljust(32, b"\0")


def disk(*entries, kind="ibm3740"):
    """An image with these entries in its slots from 0 on, None for a free one."""
    image = bytearray(b"\xE5" * images.KINDS[kind].size)
    for slot, one in enumerate(entries):
        if one is not None:
            place = images.slot_place(images.KINDS[kind], slot)
            image[place : place + 32] = one
    return bytes(image)


def sound():
    return {"machine.toml": MACHINE, "keys": KEYS, "disk.img": disk(entry())}


BAD = "2, `bad machine file`"


def with_line(number, text):
    """The machine file with another line, or without it where the text is None."""
    lines = MACHINE.splitlines()
    lines[number - 1 : number] = [] if text is None else text.split("\n")
    return "\n".join(lines) + "\n"


# The line that is another one, what it is then, and where that is wrong: the line, and words that tell the cause.
LINES = [
    (1, "version = 3", (1, "version = 3: it may be 1 or 2")),
    (1, "version = '2'", (1, "it must be a number, 1 or 2: a number has no quotes")),
    (1, "Version = 2", (1, "`Version` is no key of a machine file; is `version` meant?"), (None, "`version` is missing")),
    (1, None, (None, "`version` is missing")),
    (2, "consoles = 9", (2, "consoles = 9: it may be 1 to 8")),
    (2, "consoles = 0", (2, "it may be 1 to 8")),
    (2, "consoles = 2.0", (2, "it must be a number, 1 to 8")),
    (2, "consoles = true", (2, "it must be a number, 1 to 8")),
    (2, "console = 2", (2, "`console` is no key of a machine file; is `consoles` meant?"), (None, "`consoles` is missing")),
    (2, "consoles = 02", (2, "a number has no leading zero")),
    (2, "consoles =", (2, "a value comes after the =")),
    (2, "consoles 2", (2, "this isn't TOML")),
    (2, "consoles: 2", (2, "parted by =")),
    (2, "consoles = 2\nconsoles = 2", (3, "`consoles` comes a second time")),
    (2, "consoles = 2\nprinters = 5", (3, "it may be 0 to 4")),
    (3, "tick_every = 99", (3, "it may be 100 to 1,000,000, or 0 for no ticks")),
    (3, "tick_every = 1_000_001", (3, "it may be 100 to 1,000,000")),
    (3, "tick_every = 10,000", (3, "a number has no commas")),
    (3, "ticks_every = 10000", (3, "is `tick_every` meant?")),
    (3, "disk_turn = 1001", (3, "it may be 0 to 1,000")),
    (3, "date = 65536", (3, "it may be 0 to 65,535")),
    (3, "hour = 24", (3, "it may be 0 to 23")),
    (3, "minute = 60\nsecond = -1", (3, "minute = 60: it may be 0 to 59"), (4, "second = -1: it may be 0 to 59")),
    (3, "letter = 'A'", (3, "`letter` is a key of a [[drive]], and is outside one")),
    (3, "residents = ['printer']", (3, '"printer" is no resident')),
    (3, "residents = ['spool', 'sched', 'spool']", (3, '"spool" comes twice')),
    (3, "residents = 'spool'", (3, 'residents must be an array of texts, each "spool" or "sched"')),
    (4, "script = keys", (4, "a text needs quotes")),
    (4, 'script = ""', (4, "it is empty")),
    (4, 'script = "keys', (4, "this isn't TOML")),
    (4, "script = 1", (4, "it must be a text")),
    (5, "[segment]", (5, "each segment begins with double brackets")),
    (5, "[[segment]", (5, "between [[ and ]]")),
    (5, "[[segments]]", (5, "`segments` is no key of a machine file; is `segment` meant?"), (None, "`segment` is missing")),
    (6, "base = 1", (7, "base 1 and pages 192 are 193 together")),
    (6, "base = 189", (6, "base = 189: it may be 0 to 188")),
    (6, None, (5, "`base` is missing in this [[segment]]")),
    (7, "pages = 3", (7, "pages = 3: it may be 4 to 192")),
    (7, "pages = 192\nbank = 1", (8, "`bank` is no key of a [[segment]]")),
    (7, "pages = 192\nconsoles = 1", (8, "`consoles` is within a [[segment]]")),
    (7, "pages = 192" + "\n[[segment]]\nbase = 0\npages = 4" * 16, (53, "there are 17 tables [[segment]]: there may be 16")),
    (9, 'letter = "a"', (9, 'it may be "A" to "P"; is `A` meant?')),
    (9, 'letter = "Q"', (9, 'it may be "A" to "P"')),
    (10, 'kind = "IBM3740"', (10, "is `ibm3740` meant?")),
    (10, 'kind = "hd6"', (10, 'it may be "ibm3740", "hd4" or "hd8"')),
    (11, None, (8, "`image` is missing in this [[drive]]")),
    (11, 'image = "disk.img"\n[[drive]]\nletter = "A"\nkind = "hd4"\nimage = "b.img"', (13, "an earlier drive has it already (line 9)")),
    (11, 'image = "disk.img"\n[[drive]]\nletter = "B"\nkind = "hd4"\nimage = "disk.img"', (15, "an earlier drive has it already (line 11)")),
]  # fmt: skip


def machines():
    """Machine files: a whole line is another one."""
    for number, text, *places in LINES:
        files = sound() | {"machine.toml": with_line(number, text)}
        yield files, BAD, [(f"machine.toml:{place}" if place else "machine.toml", words) for place, words in places]
    # In version 1 there are fewer segments; a byte that isn't UTF-8; one byte too many; none at all; not there; a folder.
    machine = MACHINE.replace("version = 2", "version = 1") + "[[segment]]\nbase = 0\npages = 4\n" * 8
    yield sound() | {"machine.toml": machine}, BAD, [("machine.toml:33", "there may be 8; with `version = 2` it may have 16")]
    machine = MACHINE.encode() + b"# caf\xE9\n"
    yield sound() | {"machine.toml": machine}, BAD, [("machine.toml:12", "a byte E9h that isn't UTF-8")]
    machine = MACHINE + "#" * (65_537 - len(MACHINE))
    yield sound() | {"machine.toml": machine}, "5, `input too long`", [("machine.toml", "a machine file has at most 65,536")]
    yield sound() | {"machine.toml": ""}, BAD, [("machine.toml", f"`{key}` is missing") for key in ("version", "consoles", "segment")]
    yield sound() | {"machine.toml": None, "machine.tml": MACHINE}, "6, `cannot read`", [("machine.toml", "is `machine.tml` meant?")]
    yield sound() | {"machine.toml": FOLDER}, "6, `cannot read`", [("machine.toml", "it is a folder")]


def residents():
    """A spooler without a printer and a scheduler without ticks end no run; a script has ticks, too."""
    both = with_line(3, "printers = 0\nresidents = ['spool', 'sched']")
    printer, ticks = ("machine.toml", "the spooler prints nothing"), ("machine.toml", "the scheduler sends no command")
    yield sound() | {"machine.toml": both}, None, [printer, ticks]
    yield sound() | {"machine.toml": both, "keys": "5 tick\n"}, None, [printer]
    yield sound() | {"machine.toml": both.replace("printers = 0", "tick_every = 10000")}, None, []
    yield sound() | {"machine.toml": MACHINE.replace("version = 2", "version = 1\nresidents = []")}, BAD, [("machine.toml:2", "`version = 2`")]


# A script of one line, and words that tell the cause; all of these are bad in line 3, after a comment and an event in step 5.
EVENTS = [
    ("key 0 x", "a line begins with the step"),
    ("4 tick", "its step is below 5, that of line 2"),
    ("07 tick", "without leading zeros"),
    ("4000000001 tick", "the step is 0 to 4,000,000,000"),
    ("7  tick", "one space"),
    ("7\ttick", "one space"),
    (" 7 tick", "one space"),
    ("7 tick ", "nothing follows `tick`"),
    ("7 keys 0 x", "is `key` meant?"),
    ("7", "here nothing"),
    ("7 key 8 x", "the console is 0 to 7, and this is 8"),
    ("7 key x", "the console is 0 to 7"),
    ("7 key 0", "types at least one"),
    ("7 key 0 a\\q", "after a \\ comes r, n, t, \\ or x"),
    ("7 key 0 a\\x1", "after a \\ comes r, n, t, \\ or x"),
    ("7 key 0 a\tb", "a tab is \\t"),
    ("7 key 0 caf\u00E9", "a byte C3h"),
    ("7 key 0 " + "x" * 129, "it types 129 keys: a line types at most 128"),
    ("7 ready 16 00", "the device is 0 to 15"),
    ("7 ready 1 0", "two hexadecimal digits"),
    ("7 int 3", "the flag is 4 to 31, and this is 3"),
]  # fmt: skip


def scripts():
    for event, words in EVENTS:
        yield sound() | {"keys": f"# A script.\n5 tick\n{event}\n9 tick\n"}, "3, `bad script line 3`", [("keys:3", words)]
    two = "5 tock\n5 tick\n6 int 32\n"
    yield sound() | {"keys": two}, "3, `bad script line 1`", [("keys:1", "is `tick` meant?"), ("keys:3", "the flag is 4 to 31")]
    yield sound() | {"keys": "\n" * 1_048_577}, "5, `input too long`", [("keys", "a script has at most 1,048,576")]
    yield sound() | {"keys": None}, "6, `cannot read`", [("keys", "it isn't there")]
    yield sound() | {"keys": None, "key.txt": "", "kyes": ""}, "6, `cannot read`", [("keys", "is `kyes` meant?")]
    yield sound() | {"keys": FOLDER}, "6, `cannot read`", [("keys", "it is a folder")]
    machine = MACHINE.replace('"keys"', '"scripts/keys"')
    yield sound() | {"machine.toml": machine}, "6, `cannot read`", [("scripts/keys", "there is no folder scripts")]
    # Keys that are dropped end no run: for a console that isn't there; more than 64 in one step; more than are read in the steps between.
    yield sound() | {"keys": "7 key 2 x\n"}, None, [("keys:1", "the machine has consoles 0 to 1")]
    yield sound() | {"keys": "7 key 0 x\n7 key 0 " + "y" * 64 + "\n"}, None, [("keys:2", "1 of this line are dropped")]
    yield sound() | {"keys": "0 key 1 " + "x" * 64 + "\n74 key 1 " + "y" * 20 + "\n"}, None, [("keys:2", "11 of this line are dropped")]
    # 64 keys are stored, and ^S, ^Q, ^C and ^D aren't.
    yield sound() | {"keys": "0 key 0 " + "x" * 64 + "\n0 key 0 \\x13\\x11\\x03\\x04\n0 key 1 " + "x" * 64 + "\n"}, None, []


LABEL = b" DISK       " + bytes(20)
XFCB = b"\x10A       TXT" + bytes(20)


def faults():
    """Directories: the entries of an `ibm3740` from slot 0 on, the cause and the slot, and words on what is wrong with it."""
    yield [entry(), None, entry(name=b"B       DAT", count=129, blocks=[3])], 2, 2, "file 0:B.DAT", "its record count is 129"
    yield [entry(blocks=[1])], 3, 0, "file 0:A.TXT", "it has block 1; blocks of files are 2 to 242"
    yield [entry(), entry(user=3, name=b"B       DAT", blocks=[4, 243])], 3, 1, "file 3:B.DAT", "it has block 243"
    yield [None, entry(blocks=[7, 9]), entry(name=b"B       DAT", blocks=[9])], 4, 2, "file 0:B.DAT", "slot 1 (file 0:A.TXT"
    yield [entry(blocks=[7, 7])], 4, 0, "file 0:A.TXT", "block 7 is in it twice"
    yield [entry(), entry(blocks=[3])], 5, 1, "slot 0 (file 0:A.TXT", "the same part"
    yield [entry(s2=64)], 6, 0, "file 0:A.TXT", "S2 is 64 and EX 0"
    yield [entry(ex=32)], 6, 0, "file 0:A.TXT", "S2 is 0 and EX 32"
    yield [LABEL, entry(), LABEL], 7, 2, "label DISK", "the first is in slot 0"
    yield [XFCB, entry(), None, XFCB], 8, 3, "XFCB of 0:A.TXT", "the first is in slot 0"


def commands(name, quote=""):
    """The lines that get the files out of an image, and that mend a copy of it."""
    image, copy, faults, out = (f"{quote}{name}{more}{quote}" for more in ("", ".copy", ".faults", ".files"))
    yield f"\n    {ROOT}/tools/images.py rescue ibm3740 {image} {out}"
    yield f"\n    cp -- {image} {copy}\n    {ROOT}/fsck check ibm3740 {copy} > {faults}\n    {ROOT}/fsck apply ibm3740 {copy} {faults}"


def drives():
    """Images: of another size, at fault, and such as can't be had."""
    for entries, cause, slot, *words in faults():
        status = f"4, `bad image A: cause {cause} at {slot}`"
        words = [*words, f"cause {cause}", *commands("disk.img")]
        yield sound() | {"disk.img": disk(*entries)}, status, [(f"disk.img: slot {slot}", *words)]
    # Two slots at fault; on `hd8` two extents of one entry.
    two = disk(entry(count=200), entry(blocks=[3]), entry(name=b"B       DAT", blocks=[0, 1]))
    places = [("disk.img: slot 0", "cause 2"), ("disk.img: slot 2", "cause 3", *commands("disk.img"))]
    yield sound() | {"disk.img": two}, "4, `bad image A: cause 2 at 0`", places
    wide = [entry(ex=extent, blocks=[block, 0]) for extent, block in ((2, 9), (3, 10))]
    files = sound() | {"machine.toml": MACHINE.replace("ibm3740", "hd8"), "disk.img": disk(*wide, kind="hd8")}
    yield files, "4, `bad image A: cause 5 at 1`", [("disk.img: slot 1", "slot 0 (file 0:A.TXT")]
    size = "4, `bad image A: cause 1 at 0`"
    yield sound() | {"disk.img": disk(kind="hd4")}, size, [("disk.img", "The kind hd4 fits")]
    yield sound() | {"disk.img": disk()[:-128]}, size, [("disk.img", "It is 128 bytes too short", next(commands("disk.img")))]
    yield sound() | {"disk.img": disk() + bytes(256)}, size, [("disk.img", "It is 256 bytes too long")]
    yield sound() | {"disk.img": b""}, size, [("disk.img", "It is 256,256 bytes too short")]
    yield sound() | {"disk.img": b"IMD 1.18: 12/03/1984\r\n\x1a" + bytes(90_000)}, size, [("disk.img", "It is an ImageDisk file")]
    yield sound() | {"disk.img": b"\x1f\x8b\x08" + bytes(100)}, size, [("disk.img", "packed by gzip")]
    failed = "7, `disk failed at step 0`"
    yield sound() | {"disk.img": None}, failed, [("disk.img", "drive A: it isn't there")]
    yield sound() | {"disk.img": None, "disk.img.gz": b""}, failed, [("disk.img", "gunzip -k disk.img.gz")]
    yield sound() | {"disk.img": None, "disc.img": disk()}, failed, [("disk.img", "is `disc.img` meant?")]
    yield sound() | {"disk.img": FOLDER}, failed, [("disk.img", "it is a folder")]
    yield sound() | {"disk.img": LINK}, failed, [("disk.img", "it is a link to nowhere.img, which isn't there")]
    yield sound() | {"disk.img": LOCKED}, failed, [("disk.img", "in use by another run")]
    second = MACHINE + '[[drive]]\nletter = "B"\nkind = "ibm3740"\nimage = "./disk.img"\n'
    yield sound() | {"machine.toml": second}, failed, [("./disk.img", "drive B: this is the file that drive A has as disk.img")]
    second = second.replace("./disk.img", "b.img")
    files = sound() | {"machine.toml": second, "disk.img": disk(entry(s2=64)), "b.img": disk()[:-1]}
    yield files, "4, `bad image A: cause 6 at 0`", [("disk.img: slot 0", "drive A"), ("b.img", "drive B", "1 bytes too short")]


class Made:
    """What is in place of a file: a folder, a link to a file that isn't there, or an image that another run holds."""

    def __init__(self, make):
        self.make = make


def locked(path):
    with open(path, "wb") as file:
        file.write(disk())
    held = open(path, "r+b")
    fcntl.flock(held, fcntl.LOCK_EX)
    return held


FOLDER, LINK, LOCKED = Made(os.mkdir), Made(lambda path: os.symlink("nowhere.img", path)), Made(locked)


def write(files):
    """Writes the files of a case; those that have to stay open."""
    held = []
    for name, contents in files.items():
        if isinstance(contents, Made):
            held.append(contents.make(name))
        elif contents is not None:
            os.makedirs(os.path.dirname(name) or ".", exist_ok=True)
            with open(name, "wb") as file:
                file.write(contents.encode() if isinstance(contents, str) else contents)
    return held


def explained(*words):
    """What ./explain says, and its status."""
    with contextlib.redirect_stdout(io.StringIO()) as said:
        status = explaining.main(list(words), "")
    return status, said.getvalue().splitlines()


def wrong(found, status, places):
    """What isn't as it should be in what was said."""
    ended, lines = found
    if ended != (1 if places else 0):
        return f"status {ended}: {lines}"
    if not places:
        return None if lines[0].endswith("nothing is wrong") else f"{lines}"
    lines = "\n".join(lines).replace("\n    ", "\0").split("\n")  # A command goes with what it is said of.
    lines = [line.replace("\0", "\n    ") for line in lines]
    head = [f"The program ends with status {status}:"] if status else []
    if lines[: len(head)] != head or len(lines) != len(head) + len(places):
        return f"{lines}, and not {head + [*places]}"
    for line, (place, *words) in zip(lines[len(head) :], places):
        if not line.startswith(place + ": ") or not all(word in line for word in words):
            return f"{line!r}, and not {place}: {words}"
    return None


def ends(program, words, status):
    """How the program ends otherwise than it should; None where it doesn't."""
    done = running.run([program, *words])
    found = f"{done.returncode}, `{done.stderr.decode().strip()}`" if done.returncode else None
    return None if found == status else f"the program ends with {found}, and not {status}"


def cases():
    """The files of each case, the words, how the program ends, and where what is wrong."""
    yield "sound", sound(), ["machine.toml"], None, []
    for group in (machines, residents, scripts, drives):
        for number, (files, status, places) in enumerate(group()):
            yield f"{group.__name__} {number}", files, ["machine.toml"], status, places
    # Names count from the folder of the call.
    files = {f"there/{name}": contents for name, contents in sound().items()}
    places = [("keys", "not from that of the machine file. Call the program in there", 'write script = "there/keys"')]
    places.append(("disk.img", "drive A", "not from that of the machine file", 'write image = "there/disk.img"'))
    yield "another folder", files, ["there/machine.toml"], "6, `cannot read`", places
    program = ["program", "hello.bin"]
    yield "program", {"hello.bin": b"\xC9"}, program, None, []
    yield "program that is long", {"hello.bin": bytes(48_513)}, program, "5, `input too long`", [("hello.bin", "at most 48,512")]
    yield "program that isn't there", {"hello.com": b""}, program, "6, `cannot read`", [("hello.bin", "is `hello.com` meant?")]
    usage = "1, `usage: mpm program FILE STEPS [--trace] or mpm run MACHINE STEPS [--trace]`"
    for steps, said in (("4000000001", "above 4,000,000,000"), ("1,000", "a comma"), ("+5", "a sign"), ("007", "leading zeros")):
        yield f"steps {steps}", sound(), ["run", "machine.toml", steps], usage, [("STEPS", said)]
    yield "a word after the steps", sound(), ["run", "machine.toml", "5", "--traced"], usage, [("after STEPS", "`--traced`")]
    yield "program that is a folder", {"hello.bin": FOLDER}, program, "6, `cannot read`", [("hello.bin", "it is a folder")]


def case_wrong(program, files, given, status, places):
    """What is wrong with a case; None where nothing is."""
    with tempfile.TemporaryDirectory() as folder, contextlib.chdir(folder):
        held = write(files)
        run = given if given[0] == "run" else [*given, "0"] if given[0] == "program" else ["run", *given, "0"]
        found = wrong(explained(*given), status, places) or ends(program, run, status)
        for file in held:
            if file is not None:
                file.close()
        return found


def spaced(program):
    """A text that ./spaced types is read whole, and one whose keys come at once isn't, as is said."""
    text, shown = "user 3\n" * 50, "".join(f"c0 {user}A>user 3\\r\n" for user in [0] + 49 * [3]) + "c0 3A>\\\nc1 0A>\\\n"
    for words, is_whole in (([], True), (["--every", "100", "--line", "5"], True), (["--every", "0"], False)):
        with tempfile.TemporaryDirectory() as folder, contextlib.chdir(folder):
            script = running.run([os.path.join(ROOT, "spaced"), *words], input=text.encode()).stdout
            write({"machine.toml": MACHINE.partition("[[drive]]")[0], "keys": script})
            done = running.run([program, "run", "machine.toml", "1000000"])
            said, lines = explained("machine.toml")
        found = (done.stdout.decode() == shown, said == 0)
        yield f"spaced {' '.join(words)}", None if found == (is_whole, is_whole) else f"{found}: {lines}"


def pasted():
    """The commands that are said of an image whose name has a space; those that need no built program are run."""
    with tempfile.TemporaryDirectory() as folder, contextlib.chdir(folder):
        image = disk(entry(count=1), entry(name=b"B       TXT", s2=64, count=1, blocks=[3]))
        write({"machine.toml": with_line(4, None).replace("disk.img", "my disk.img"), "my disk.img": image})
        said = explained("machine.toml")[1]
        lines = [line for line in said if line.startswith("    ")]
        done = [running.run(["bash", "-c", line]).returncode for line in lines[:2]]
        files = sorted(os.listdir("my disk.img.files/0")) if os.path.isdir("my disk.img.files") else []
        copied = os.path.getsize("my disk.img.copy") if os.path.exists("my disk.img.copy") else None
    is_so = "\n" + "\n".join(lines) == "".join(commands("my disk.img", "'"))
    is_run = (done, files, copied) == ([4, 0], ["A.TXT", "B.TXT.slot1"], 256_256)
    yield "commands that are pasted", None if is_so and is_run else f"{done}, {files}, {copied}: {said}"


def unreached():
    """A line of a script that comes after the steps of a run is reported where these are said, and only then."""
    with tempfile.TemporaryDirectory() as folder, contextlib.chdir(folder):
        write({"machine.toml": MACHINE.partition("[[drive]]")[0], "keys": "0 tick\n100 tick\n101 tick\n102 tick\n"})
        found = [explained("run", "machine.toml", steps) for steps in ("100", "102")]
    statuses, said = [status for status, _ in found], str(found[0])
    is_so = statuses == [1, 0] and "keys:3: this line and 1 after it come after step 100" in said
    yield "a script that outlives its run", None if is_so else str(found)


def main(words):
    program, tally = running.program_in(words), running.Tally()
    for name, *case in cases():
        tally.add(name, running.in_time(case_wrong, program, *case))
    for name, found in [*running.each_in_time(spaced, program), *unreached(), *running.each_in_time(pasted)]:
        tally.add(name, found)
    return tally.status()


if __name__ == "__main__":
    sys.exit(main(sys.argv[1:]))
