"""python3 -m tests.rescue: `tools/images.py rescue` on images that are broken in one place each, of every kind, and `get` on sound ones.
What has to come out is worked out of the bytes that were put there and of how the image was broken. It needs no built program. Where
cpmtools are there, `examples/make-image` also gets files with right and with wrong names.

A case that comes out otherwise has a line; the last line counts the cases. Status: 0 where each came out as it should, else 1."""

import os
import random
import shutil
import signal
import sys
import tempfile

from tests import running
from tools.image_maker import entry_of, protected_entry, put_entry
from tools.images import FREE, KINDS, sector_place

TOOL, MAKER = os.path.join(running.ROOT, "tools", "images.py"), os.path.join(running.ROOT, "examples", "make-image")
RECORD = 128
# By docs/PROFILE.md: where the first record of the disk's last block begins in the image, counted from its end; and the record of the block
# that is the last one in the image of the first two. On ibm3740 block 242 begins at sector 21 of the last track, whose 26 are the
# image's end; its second record is in sector 2.
LAST = {"ibm3740": (6 * RECORD, 0), "hd4": (2048, 1), "hd8": (4096, 1)}
SHORT, LONG, THIRD = b"SHORT   TXT", b"LONG    DAT", b"THIRD   DAT"


class Disk:
    """An image with a file of three records, and one of a whole entry and two records more; and the bytes of its blocks."""

    def __init__(self, name, kind):
        self.name, self.kind = name, kind
        first, step = kind.directory_blocks, kind.mask + 1
        self.short, self.whole, self.rest = first, list(range(first + 1, first + 1 + kind.places)), first + 1 + kind.places
        rng = random.Random(name)
        self.blocks = {block: rng.randbytes(kind.block) for block in range(first, self.rest + 1)}
        self.entries = {
            2: self.entry(name=SHORT, count=3, blocks=[self.short]),
            3: self.entry(name=LONG, ex=kind.mask, count=128, blocks=self.whole),
            4: self.entry(name=LONG, ex=step, count=2, blocks=[self.rest]),
        }
        self.text = self.blocks[self.short][: 3 * RECORD]
        self.full = b"".join(self.blocks[block] for block in self.whole)
        self.tail = self.blocks[self.rest][: 2 * RECORD]
        self.files = {"0/SHORT.TXT": self.text, "0/LONG.DAT": self.full + self.tail}

    def entry(self, **parts):
        return entry_of(self.kind, **parts)

    def image(self, changes):
        """The image, with other entries in some slots."""
        image = bytearray([FREE]) * self.kind.size
        for block, data in self.blocks.items():
            for number in range(self.kind.block_records):
                place = sector_place(self.kind, block * self.kind.block_records + number)
                image[place : place + RECORD] = data[number * RECORD : (number + 1) * RECORD]
        for slot, entry in (self.entries | changes).items():
            put_entry(self.kind, image, slot, entry)
        return bytes(image)


def cases(disk):
    """What is broken, the image, the files that come out, and what has to be said of them."""
    kind, entry, files = disk.kind, disk.entry, disk.files
    free, sound = bytes([FREE]) * 32, disk.image({})
    without = {"0/LONG.DAT": files["0/LONG.DAT"]}
    size = kind.places * kind.block

    def row(what, changes, found, *said):
        return what, disk.image(changes), found, said

    def short(**parts):
        return {2: entry(**{"name": SHORT, "count": 3, "blocks": [disk.short]} | parts)}

    yield row("nothing", {}, files)
    yield row("a record count", short(count=129), files | {"0/SHORT.TXT": disk.blocks[disk.short]}, "slot 2: its record count is 129")
    for block in (kind.dsm + 1, 1):
        yield row(f"block {block}", short(blocks=[block]), files | {"0/SHORT.TXT": bytes(3 * RECORD)}, f"slot 2: no file can have block {block}")
    shared = {9: entry(name=THIRD, user=3, count=1, blocks=[disk.short])}
    yield row("a block of two files", shared, files | {"3/THIRD.DAT": disk.text[:RECORD]}, f"slot 2: slot 9 has block {disk.short} too", f"slot 9: slot 2 has block {disk.short} too")
    twice = {9: entry(name=SHORT, count=1, blocks=[disk.rest + 1])}
    yield row("a part twice", twice, files | {"0/SHORT.TXT.slot9": bytes([FREE]) * RECORD}, "slot 9: slot 2 has this part")
    yield row("a part that lacks", {3: free}, files | {"0/LONG.DAT": bytes(size) + disk.tail}, f"no slot has bytes 0 to {size - 1:,}")
    yield row("a place", short(s2=64), without | {"0/SHORT.TXT.slot2": disk.text}, "slot 2: S2 is 64 and EX 0")
    yield row("a user", {2: bytes([0x25]) + disk.entries[2][1:]}, without | {"25h/SHORT.TXT": disk.text}, "slot 2: its byte 0 is 25h")
    yield row("a name", short(name=b"\x07HORT   TXT"), without | {"0/\\x07HORT.TXT": disk.text})
    filled = {2: b"\xF6" * 32, 7: b"\xF6" * 32, 9: bytes(32)}
    yield row("entries that are filled", filled, without, "no entry in slot 2 7: byte 0 is F6h", "no entry in slot 9: byte 0 is 00h")
    yield row("a label, a password and stamps", {0: protected_entry(0x20), 1: protected_entry(16), 7: protected_entry(0x21, b"\x09" * 11)}, files)
    yield "the end", sound[:-RECORD], files, [f"{kind.size - RECORD:,} bytes in place of {kind.size:,}"]
    yield "more at the end", sound + b"\x1A", files, [f"{kind.size + 1:,} bytes in place of {kind.size:,}"]


def cut_cases(disk):
    """Images that are cut off in the last block, of which LONG has the first two records."""
    kind, last = disk.kind, disk.kind.dsm
    data = disk.blocks[last] = disk.blocks.pop(disk.rest)
    disk.entries[4] = disk.entry(name=LONG, ex=kind.mask + 1, count=2, blocks=[last])
    sound, remark = disk.image({}), f"slot 4: block {last} isn't whole in the image: E5h"
    back, number = LAST[disk.name]
    end = kind.size - back + number * RECORD  # Where the last of the two records begins.
    for what, length, missing in (("a record", end, RECORD), ("a byte of a record", end + RECORD - 1, 1), ("what no file has", end + RECORD, 0)):
        at = (number + 1) * RECORD
        tail = data[: at - missing] + bytes([FREE]) * missing + data[at : 2 * RECORD]
        size = f"{length:,} bytes in place of {kind.size:,}"
        yield f"{what} lacks at the end", sound[:length], disk.files | {"0/LONG.DAT": disk.full + tail}, [size, remark][: 2 if missing else 1]


def tree(folder):
    """The files below a folder, by their paths in it."""
    found = {}
    for path, _, names in os.walk(folder):
        for name in names:
            with open(os.path.join(path, name), "rb") as file:
                found[os.path.relpath(os.path.join(path, name), folder)] = file.read()
    return found


def wrong(folder, kind, image, files, said):
    """What comes out otherwise than it should; None where nothing does."""
    path, out = os.path.join(folder, "disk.img"), os.path.join(folder, "out")
    with open(path, "wb") as file:
        file.write(image)
    done = running.run([sys.executable, TOOL, "rescue", kind, path, out])
    printed = done.stdout.decode()
    lines = [f"{name} {len(data):,} bytes" for name, data in files.items()]
    if done.returncode != (4 if said else 0) or done.stderr:
        return f"status {done.returncode}, {done.stderr.decode()}"
    if tree(out) != files:
        return f"the files are {({name: len(data) for name, data in tree(out).items()})}"
    if missing := [text for text in [*lines, *said] if text not in printed]:
        return f"it doesn't say {missing}: {printed}"
    if len(printed.splitlines()) != len(lines) + len(said):
        return f"it says more: {printed}"
    if running.run([sys.executable, TOOL, "rescue", kind, path, out]).returncode != 1:
        return "it writes into a folder that is there"
    with open(path, "rb") as file:
        return None if file.read() == image else "the image has changed"


def got(folder, disk):
    """What is wrong with `get` on an image without fault, once into a new folder, and once where there is one with a file of the user's."""
    path, new, old = (os.path.join(folder, name) for name in ("disk.img", "new", "old"))
    with open(path, "wb") as file:
        file.write(disk.image({}))
    os.makedirs(os.path.join(old, "0"))
    with open(os.path.join(old, "0", "SHORT.TXT"), "wb") as file:
        file.write(b"mine")
    done = [running.run([sys.executable, TOOL, "get", disk.name, path, out]) for out in (new, old)]
    found = [(one.returncode, one.stderr.decode()) for one in done]
    if found != [(0, ""), (1, f"images.py: {old}: File exists\n")]:
        return f"{found}"
    return None if (tree(new), tree(old)) == (disk.files, {"0/SHORT.TXT": b"mine"}) else f"the files {tree(new).keys()} and {tree(old)}"


def unread(folder, disk):
    """What is wrong where nobody reads the lines: they end quietly by the signal of a pipe, and all files are written."""
    path, out = os.path.join(folder, "disk.img"), os.path.join(folder, "out")
    with open(path, "wb") as file:
        file.write(disk.image({}))
    reader, writer = os.pipe()
    os.close(reader)
    try:
        words = [["read", disk.name, path], ["slots", disk.name, path], ["rescue", disk.name, path, out]]
        done = [running.run([sys.executable, TOOL, *one], stdout=writer) for one in words]
    finally:
        os.close(writer)
    found = [(one.returncode, one.stderr) for one in done]
    if found != [(-signal.SIGPIPE, b"")] * 3:
        return f"{found}"
    return None if tree(out) == disk.files else f"the files are {tree(out).keys()}"


# Files for a new image, and why each is refused; by docs/PROFILE.md, "File names", which characters a name has, and how many. `*` and `?`
# are in patterns only.
LONG_NAME, TYPED = "1 to 8 characters, and perhaps a dot and at most 3 more", "a character that can't be typed"
REFUSED = {
    "report-1981.txt": LONG_NAME, "letter.text": LONG_NAME, "LETTER.TXT.slot33": LONG_NAME, "a.b.c": LONG_NAME, ".abc": LONG_NAME,
    "a b.txt": TYPED, "caf\u00E9": TYPED, "\x7F": TYPED, **{f"a{delimiter}b.txt": TYPED for delimiter in "=<>,:;[]|*?"},
    "folder": "it is a folder", "pipe": "it is no regular file", "lost": "it isn't there",
}  # fmt: skip
# Files that go in, and what they are called in the directory.
TAKEN = {"a": "A", "A.": "A", "letter_1.txt": "LETTER_1.TXT", "s!x{}~.$#@": "S!X{}~.$#@", "link.txt": "LINK.TXT"}


def put(folder, kind, name, why):
    """What is wrong where a file is put into a new image, which is refused unless `why` is None."""
    path, image = os.path.join(folder, name), os.path.join(folder, "disk.img")
    match name:
        case "folder":
            os.mkdir(path)
        case "pipe":
            os.mkfifo(path)
        case "link.txt":
            with open(os.path.join(folder, "a long name.text"), "wb") as file:
                file.write(b"text")
            os.symlink("a long name.text", path)
        case "lost":
            pass
        case _:
            with open(path, "wb") as file:
                file.write(b"text")
    done = running.run([MAKER, kind, image, path])
    if why:
        said = done.stderr.decode().splitlines()[-1:]
        is_so = done.returncode == 1 and said and said[0].startswith(f"make-image: {path}: ") and why in said[0]
        return None if is_so and not os.path.exists(image) else f"status {done.returncode}: {said}"
    running.run([sys.executable, TOOL, "get", kind, image, os.path.join(folder, "out")])
    found = {file: data[:4] for file, data in tree(os.path.join(folder, "out")).items()}
    return None if found == {f"0/{TAKEN[name]}": b"text"} and done.returncode == 0 else f"status {done.returncode}, {found}"


def puts():
    """Files that go into a new image of cpmtools, and such as don't."""
    for name, why in [*REFUSED.items(), *((name, None) for name in TAKEN)]:
        with tempfile.TemporaryDirectory() as folder:
            yield f"make-image {name!r}", running.in_time(put, folder, "ibm3740", name, why)


def main():
    tally = running.Tally()
    for name, kind in KINDS.items():
        with tempfile.TemporaryDirectory() as folder:
            tally.add(f"{name}: get", running.in_time(got, folder, Disk(name, kind)))
        with tempfile.TemporaryDirectory() as folder:
            tally.add(f"{name}: lines that nobody reads", running.in_time(unread, folder, Disk(name, kind)))
        for what, image, files, said in [*cases(Disk(name, kind)), *cut_cases(Disk(name, kind))]:
            with tempfile.TemporaryDirectory() as folder:
                tally.add(f"{name}: {what}", running.in_time(wrong, folder, name, image, files, said))
    if shutil.which("mkfs.cpm"):
        for name, found in puts():
            tally.add(name, found)
    else:
        print("cpmtools aren't installed: nothing is put into a new image")
    return tally.status()


if __name__ == "__main__":
    sys.exit(main())
