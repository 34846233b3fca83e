"""python3 -m tests.fsck [PROGRAM [COUNT]]: runs a built mpm_fsck, crates/mpm_fsck/out/mpm_fsck where none is named, on images of each
kind, COUNT (20) of them with some changes of the directory, and compares what it lists with the rules of docs/IMAGES.md and
docs/PROFILE.md as they are written here and in tools/images.py. Each list is applied: byte 0 of the slots that it names has to be E5h then, and
all else as it was. Entries whose faults were worked out by hand are listed so, and lists that were are taken or refused. The other endings of
the program have a case each, also where the system refuses something (refusing.py), and so has what ./fsck says of them. That reads of a
drive fail is tried in crates/mpm_fsck: the built program reads an image once, as it is opened.

A case that comes out otherwise, or that runs out of time, has a line; the last line counts the cases. Status: 0 where each came out as it
should, 1 where one didn't, 2 where one ran out of time and all others came out as they should."""

import fcntl
import os
import shutil
import sys
import tempfile

from tests import refusing, running
from tools import image_maker, images
from tools.images import FREE, KINDS, LABEL

BUILT = os.path.join(running.ROOT, "crates", "mpm_fsck", "out", "mpm_fsck")
USAGE = "usage: mpm_fsck check KIND IMAGE or mpm_fsck apply KIND IMAGE LIST"


def fault_list(kind, image):
    """The slots at fault, each with its least cause and the slot with which it clashes, beside the earlier ones that stay."""
    blocks, keys = {}, {}
    for slot, entry in enumerate(images.directory(kind, image)):
        found = images.causes(kind, entry, set(blocks), set(keys))
        numbers = images.held(entry) if isinstance(entry, images.File) else []
        if not found:
            for block in numbers:
                blocks[block] = slot
            if images.key_of(kind, entry):
                keys[images.key_of(kind, entry)] = slot
        elif min(found) == 4:
            yield slot, 4, min((blocks[block] for block in numbers if block in blocks), default=slot)
        else:
            yield slot, min(found), keys[images.key_of(kind, entry)] if min(found) in (5, 7, 8) else "-"


def without(kind, image, slots):
    """An image with these slots free."""
    left = bytearray(image)
    for slot in slots:
        left[images.slot_place(kind, slot)] = FREE
    return bytes(left)


def sound(kind, image):
    """What is said of an image without fault."""
    free = next(line for line in images.free_lines(kind, images.directory(kind, image)) if line.startswith("free records"))
    return f"sound {free.split()[-1]}\n"


def said(kind, image):
    """What a check says of an image, and its status."""
    if len(image) != kind.size:
        return 3, "", "wrong size"
    faults = [f"fault {slot} {cause} {other}\n" for slot, cause, other in fault_list(kind, image)]
    return (2, "".join(faults), "") if faults else (0, sound(kind, image), "")


def write(folder, name, contents):
    with open(os.path.join(folder, name), "wb") as file:
        file.write(contents if isinstance(contents, bytes | bytearray) else contents.encode())


def image_in(folder):
    with open(os.path.join(folder, "disk.img"), "rb") as file:
        return file.read()


def ended(program, folder, *words, **options):
    """The status of a run, its text, and what it says on the standard error."""
    done = running.run([program, *words], cwd=folder, **options)
    return done.returncode, (done.stdout or b"").decode(), done.stderr.decode().rstrip("\n")


def checked(program, folder, name, image):
    """What is wrong with a check of an image, with its list as it is applied, and with a check of what is left."""
    kind = KINDS[name]
    write(folder, "disk.img", image)
    wanted = said(kind, image)
    if ended(program, folder, "check", name, "disk.img") != wanted:
        return "the check"
    if image_in(folder) != image:
        return "the image, which a check changed"
    if wanted[0] != 2:
        return None
    write(folder, "list", wanted[1])
    slots = [slot for slot, _, _ in fault_list(kind, image)]
    if ended(program, folder, "apply", name, "disk.img", "list") != (0, f"freed {len(slots)}\n", ""):
        return "what apply says"
    left = without(kind, image, slots)
    if image_in(folder) != left:
        return "the image that is left"
    return None if ended(program, folder, "check", name, "disk.img") == (0, sound(kind, left), "") else "the check of what is left"


# Two entries of one block, in slots 3 and 9.
def clashing():
    image = bytearray(b"\xE5" * KINDS["ibm3740"].size)
    for slot, name in ((3, b"C          "), (9, b"J          ")):
        image_maker.put_entry(KINDS["ibm3740"], image, slot, image_maker.entry_of(KINDS["ibm3740"], name=name, blocks=[7]))
    return bytes(image)


# The words, the list, how they end, and the slots that are free then.
ENDINGS = [
    (["check", "ibm3740", "disk.img"], "", (2, "fault 9 4 3\n", ""), []),
    (["apply", "ibm3740", "disk.img", "list"], "fault 3 4 9\n", (0, "freed 1\n", ""), [3]),
    (["apply", "ibm3740", "disk.img", "list"], "fault 40 2 -\n", (5, "", "not enough: cause 4 at 9"), []),
    (["apply", "ibm3740", "disk.img", "list"], "fault 9 4 3\r\n", (4, "", "bad list line 1"), []),
    (["apply", "ibm3740", "disk.img", "list"], "fault 9 4 3\nfault 3\n", (4, "", "bad list line 2"), []),
    (["apply", "ibm3740", "disk.img", "list"], "fault 9 4 3\n" * 5462, (10, "", "list too long"), []),
    (["apply", "ibm3740", "disk.img", "list"], "fault 9 4 3\n" * 11 + "fault 9 4\n", (4, "", "bad list line 12"), []),
    (["apply", "ibm3740", "disk.img", "lost"], "", (6, "", "cannot read"), []),
    (["apply", "ibm3740", "disk.img", "."], "", (6, "", "cannot read"), []),
    (["apply", "ibm3740", "lost.img", "list"], "", (7, "", "disk failed"), []),
    (["check", "ibm3740", "lost.img"], "", (7, "", "disk failed"), []),
    (["check", "hd4", "disk.img"], "", (3, "", "wrong size"), []),
    (["apply", "hd8", "disk.img", "list"], "", (3, "", "wrong size"), []),
    ([], "", (1, "", USAGE), []),
    (["check"], "", (1, "", USAGE), []),
    (["check", "hd5", "disk.img"], "", (1, "", USAGE), []),
    (["apply", "ibm3740", "disk.img", ""], "", (1, "", USAGE), []),
    (["apply", "ibm3740", "", "list"], "", (1, "", USAGE), []),
    (["apply", "ibm3740", "disk.img", "list", "list"], "", (1, "", USAGE), []),
    (["check", "ibm3740"], "", (1, "", USAGE), []),
    (["check", "ibm3740", "disk.img", "list"], "", (1, "", USAGE), []),
    (["apply", "ibm3740", "disk.img"], "", (1, "", USAGE), []),
    (["check", "ibm3740", ""], "", (1, "", USAGE), []),
    (["check", "ibm3740", b"\xFF"], "", (1, "", USAGE), []),
]


def ends(program, folder, words, text, wanted, slots):
    """What is wrong with a run on the image of one clash."""
    image = clashing()
    write(folder, "disk.img", image)
    write(folder, "list", text)
    found = ended(program, folder, *words)
    if found != wanted:
        return f"{found} in place of {wanted}"
    return None if image_in(folder) == without(KINDS["ibm3740"], image, slots) else "the image that is left"


# The words, what is refused, how they end, and the slots that are free then.
NOTHING = (8, "", "output failed")
REFUSED = [
    ("a full output", "check", refusing.full(), NOTHING, []),
    ("a full output", "apply", refusing.full(), NOTHING, [9]),
    ("a closed output", "check", lambda: os.close(1), NOTHING, []),
    ("a closed output", "apply", lambda: os.close(1), NOTHING, [9]),
    ("no write to the image", "apply", refusing.file_size(6_656), (7, "", "disk failed"), []),
    # The system takes a half of the sector, with the slot's first byte, and then refuses the rest: what was there is written back.
    ("no write of a half", "apply", refusing.file_size(8_256), (7, "", "disk failed"), []),
    ("no sync", "check", refusing.no_sync(), (2, "fault 9 4 3\n", ""), []),
    ("no sync", "apply", refusing.no_sync(), (7, "", "disk failed"), [9]),
]


def refused(program, folder, word, prepare, wanted, slots):
    """What is wrong with a run on the image of one clash to which the system refuses something; no other byte has changed."""
    write(folder, "disk.img", clashing())
    write(folder, "list", "fault 9 4 3\n")
    found = ended(program, folder, word, "ibm3740", "disk.img", *["list"] * (word == "apply"), preexec_fn=prepare)
    left = without(KINDS["ibm3740"], clashing(), slots)
    return None if (found, image_in(folder)) == (wanted, left) else found


def starved(program, folder):
    """What is wrong with runs that have little memory: they end so with nothing changed, or as they do with enough."""
    image, found = clashing(), set()
    write(folder, "list", "fault 9 4 3\n")
    for most in range(0, 2_000_000, 65_536):
        write(folder, "disk.img", image)
        found.add((ended(program, folder, "apply", "ibm3740", "disk.img", "list", preexec_fn=refusing.memory(most)), image_in(folder) == image))
    return refusing.wrong_of_starved(found, ((9, "", "out of memory"), True), ((0, "freed 1\n", ""), False))


# Lists for the image of one clash, in slots 3 and 9: how many slots they free, or the first bad line.
BAD_LISTS = """
1 fault 9 4  3|
1  fault 9 4 3|
1 fault 9 4 3 |
1 fault\t9 4 3|
1 fault 09 4 3|
1 fault +9 4 3|
1 fault 64 4 3|
1 fault 9 1 3|
1 fault 9 9 3|
1 fault 9 4 64|
1 fault 9 4 --|
1 fault 9 4|
1 Fault 9 4 3|
1 sound 1928|
1 |
1 fault 9 4 3
2 fault 9 4 3||
3 fault 9 4 3|fault 3 4 -|fault
"""
GOOD_LISTS = [
    ("fault 3 8 63\n", [3]),
    ("fault 9 4 3\nfault 9 2 -\n", [9]),
    ("fault 9 4 3\nfault 3 4 -\n", [3, 9]),
    ("fault 63 7 0\nfault 3 4 9\nfault 0 2 0\n", [0, 3, 63]),
    ("fault 9 3 -\nfault 40 5 40\nfault 40 6 -\n", [9, 40]),
    # Exactly as long as a list may be: 65,536 bytes.
    ("fault 9 4 3\n" * 5459 + "fault 10 8 10\nfault 10 4 11\n", [9, 10]),
]
FULL_LIST = GOOD_LISTS[-1][0]


def lists():
    """The words of each list, its text, how it ends, and the slots that are free then, for `ends`."""
    words = ["apply", "ibm3740", "disk.img", "list"]
    for row in BAD_LISTS[1:-1].split("\n"):
        yield words, row[2:].replace("|", "\n"), (4, "", f"bad list line {row[0]}"), []
    for text, slots in GOOD_LISTS:
        yield words, text, (0, f"freed {len(slots)}\n", ""), slots
    yield words, "", (5, "", "not enough: cause 4 at 9"), []
    yield words, FULL_LIST + "x", (10, "", "list too long"), []


# Entries, in the first slots of a directory, and what was worked out by hand of them: what is listed.
def floppy(letter, ex=0, s2=0, count=1, blocks=()):
    return image_maker.entry_of(KINDS["ibm3740"], name=letter.encode().ljust(8) + b"TXT", ex=ex, s2=s2, count=count, blocks=blocks)


def hard(name, letter, ex=0, blocks=()):
    return image_maker.entry_of(KINDS[name], name=letter.encode().ljust(8) + b"TXT", ex=ex, blocks=blocks)


def other(sort, letter):
    return image_maker.protected_entry(sort, letter.encode().ljust(8) + b"TXT")


UNUSED = b"\xE5" * 32
A, HIGH_A = floppy("A"), floppy("A")[:1] + b"\xC1" + floppy("A")[2:]
L, M = other(LABEL, "L"), other(LABEL, "M")
THREE = [floppy(letter, blocks=[9]) for letter in "ABC"]
LISTED = [
    ("ibm3740", [], "sound 1928\n"),
    ("ibm3740", [UNUSED, UNUSED, UNUSED, floppy("C", blocks=[7])], "sound 1920\n"),
    ("ibm3740", [UNUSED, *THREE], "fault 2 4 1\nfault 3 4 1\n"),
    # Of an entry that doesn't stay its other block, 12, clashes with none.
    ("ibm3740", [UNUSED, THREE[0], floppy("B", blocks=[9, 12]), THREE[2], UNUSED, floppy("D", blocks=[12])], "fault 2 4 1\nfault 3 4 1\n"),
    ("ibm3740", [floppy("A", count=129)], "fault 0 2 -\n"),
    ("ibm3740", [floppy("A", blocks=[1])], "fault 0 3 -\n"),
    ("ibm3740", [floppy("A", blocks=[20, 20])], "fault 0 4 0\n"),
    ("ibm3740", [floppy("A", blocks=[20]), floppy("B", blocks=[21, 0, 20])], "fault 1 4 0\n"),
    ("ibm3740", [A, UNUSED, A], "fault 2 5 0\n"),
    ("ibm3740", [A, HIGH_A], "fault 1 5 0\n"),
    ("ibm3740", [floppy("A", ex=32)], "fault 0 6 -\n"),
    ("ibm3740", [floppy("A", s2=64)], "fault 0 6 -\n"),
    ("ibm3740", [UNUSED, L, M], "fault 2 7 1\n"),
    ("ibm3740", [other(16, "A"), other(16, "B"), other(16, "A")], "fault 2 8 0\n"),
    ("ibm3740", [floppy("A", count=200), A, A, L, M], "fault 0 2 -\nfault 2 5 1\nfault 4 7 3\n"),
    # The blocks of a hard disk have two bytes; on hd8 an entry covers two extents.
    (
        "hd4",
        [hard("hd4", "A", 2, [0] * 7 + [2048]), hard("hd4", "A", 2, [0] * 7 + [2047]), hard("hd4", "A", 3, [2047])],
        "fault 0 3 -\nfault 2 4 1\n",
    ),
    ("hd8", [hard("hd8", "A", 2), hard("hd8", "A", 3), hard("hd8", "B", 0, [0, 0, 0, 3])], "fault 1 5 0\nfault 2 3 -\n"),
]


def with_entries(name, entries):
    """An unused image of a kind with these entries in its first slots."""
    image = bytearray(b"\xE5" * KINDS[name].size)
    for slot, entry in enumerate(entries):
        image_maker.put_entry(KINDS[name], image, slot, entry)
    return bytes(image)


def listed(program, folder, name, entries, text):
    """What is wrong with the list of an image with these entries, and with what comes of it."""
    image = with_entries(name, entries)
    write(folder, "disk.img", image)
    faults = text.count("fault")
    found = ended(program, folder, "check", name, "disk.img")
    return checked(program, folder, name, image) if found == (2 if faults else 0, text, "") else found


def lists_of_others(program, folder):
    """Lists for other images: one that leaves an entry at fault; one that is empty, where there is nothing to free; of a hard disk the
    last slot is 511."""
    for name, entries, text, wanted in (
        ("ibm3740", [UNUSED, *THREE], "fault 2 4 1\n", (5, "", "not enough: cause 4 at 3")),
        ("ibm3740", [], "", (0, "freed 0\n", "")),
        ("hd4", [], "fault 511 4 1\nfault 512 4 1\n", (4, "", "bad list line 2")),
        ("hd4", [], "fault 511 4 1\n", (0, "freed 1\n", "")),
    ):
        image = with_entries(name, entries)
        write(folder, "disk.img", image)
        write(folder, "list", text)
        found = ended(program, folder, "apply", name, "disk.img", "list")
        yield f"the list {text!r}", None if (found, image_in(folder)) == (wanted, image) else found


def piped(program, folder):
    """What is wrong with a run whose list comes by a pipe, from which it can be read once."""
    write(folder, "disk.img", clashing())
    with running.pipe(os.path.join(folder, "pipe"), b"fault 9 4 3\n"):
        found = ended(program, folder, "apply", "ibm3740", "disk.img", "pipe", timeout=10)
    return None if found == (0, "freed 1\n", "") else found


def installed(program, folder):
    """The script ./fsck in a folder where it finds this program built."""
    for name in ("fsck", "tools/proved.bash", "tools/saying.bash"):
        os.makedirs(os.path.dirname(os.path.join(folder, name)), exist_ok=True)
        shutil.copy(os.path.join(running.ROOT, name), os.path.join(folder, name))
    os.makedirs(os.path.join(folder, "crates", "mpm_fsck", "out"))
    os.symlink(program, os.path.join(folder, "crates", "mpm_fsck", "out", "mpm_fsck"))
    return os.path.join(folder, "fsck")


# What ./fsck says after the program's own text: the words, the list, the status, and words of its line. `{root}` is its folder.
MENDING = '{root}/docs/IMAGES.md, "An image at fault", says what to do'
FORM = "each line of list is `fault SLOT CAUSE SLOT` or `fault SLOT CAUSE -`, with a LF at its end"
HINTS = [
    (["check", "ibm3740", "disk.img"], "", 2, MENDING),
    (["check", "hd4", "disk.img"], "", 3, "disk.img has 256256 bytes, and an image of the kind hd4 has 4194304: " + MENDING),
    (["check", "hd8", "disk.img"], "", 3, "disk.img has 256256 bytes, and an image of the kind hd8 has 8388608: " + MENDING),
    (["apply", "ibm3740", "list", "list"], "fault 9 4 3\n", 3, "list has 12 bytes, and an image of the kind ibm3740 has 256256: " + MENDING),
    (["apply", "ibm3740", "disk.img", "list"], "fault 9 4 3", 4, FORM),
    (["apply", "ibm3740", "disk.img", "lost"], "", 6, "there is no file lost"),
    (["check", "ibm3740", "lost.img"], "", 7, "there is no file lost.img"),
    (["check", "ibm3740", "."], "", 7, ". is in use by a run, or can't be read or written"),
    (["check", "ibm3740", "held.img"], "", 7, "held.img is in use by a run, or can't be read or written"),
]


def hinted(script, folder, words, text, status, hint):
    """What is wrong with the last line that ./fsck says on the image of one clash."""
    write(folder, "disk.img", clashing())
    write(folder, "list", text)
    write(folder, "held.img", clashing())
    with open(os.path.join(folder, "held.img"), "rb") as held:
        fcntl.flock(held, fcntl.LOCK_EX)
        found, _, said = ended(script, folder, *words)
    wanted = "fsck: " + hint.format(root=os.path.dirname(script))
    return None if (found, said.splitlines()[-1]) == (status, wanted) else f"{found}, {said}"


def main(words):
    program = running.program_in(words, BUILT)
    count = int(words[1]) if len(words) > 1 else 20
    tally = running.Tally()
    with tempfile.TemporaryDirectory() as folder:
        for row in [*ENDINGS, *lists()]:
            tally.add(f"{' '.join(map(str, row[0]))} by {row[1][:40]!r}", running.in_time(ends, program, folder, *row))
        for name, *row in REFUSED:
            tally.add(f"{name}: {row[0]}", running.in_time(refused, program, folder, *row))
        for name, wrong in (("little memory", starved), ("a list from a pipe", piped)):
            tally.add(name, running.in_time(wrong, program, folder))
        for row in LISTED:
            tally.add(f"{row[0]} listed {row[2]!r}", running.in_time(listed, program, folder, *row))
        for name, said in running.each_in_time(lists_of_others, program, folder):
            tally.add(name, said)
        with tempfile.TemporaryDirectory() as root:
            script = installed(program, os.path.realpath(root))
            for row in HINTS:
                tally.add("./fsck " + " ".join(row[0]), running.in_time(hinted, script, folder, *row))
        for name, kind in KINDS.items():
            for title, image in image_maker.made(kind, count):
                tally.add(f"{name} {title}", running.in_time(checked, program, folder, name, image))
    return tally.status()


if __name__ == "__main__":
    sys.exit(main(sys.argv[1:]))
