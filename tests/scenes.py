"""Scenes: plays in which each function meets each refusal of its row, and each two neighbouring ones at once where they can be had."""

from tests import drawn, filing, plays

# The block of each process; the DMA address.
BLOCKS, DMA = 0xB000, 0x9000
LOCKED, UNLOCKED, READ_ONLY = (), (4,), (5,)
SECRET, OTHER = b"SECRET  ", b"OTHER   "
# In the first byte of a block: a drive that isn't mounted.
UNMOUNTED = 16

# Neighbours in a row that never apply at once. A call without an open file has no record; a record that another has locked is there, and
# so are its entry and its block; a drive that isn't mounted isn't protected; a label that is there takes no new entry.
APART = {"C10 C1", "C8 C1'", "C8 C5", "C1 C8", "E4 E2", "E7 NF'"}


def named(name):
    first, _, kind = name.partition(".")
    return first.encode().ljust(8) + kind.encode().ljust(3)


def pairs(text):
    """Pairs of names, of whose types nothing is said."""
    for pair in text.split(", "):
        first, second = pair.split()
        yield first + ".DAT", second + ".DAT"


class Scene:
    """A play on drive B of a kind, which has files of so many records, and perhaps so many free entries and blocks."""

    def __init__(self, kind, files, entries=None, blocks=None, home=0):
        drive = plays.empty(kind)
        for name, count in files.items():
            plays.put_file(drive, 0, named(name.strip("!")), b"".join(bytes([number % 256]) * 128 for number in range(count)))
            drive.parts[0, named(name.strip("!")), 0].attributes[8] = int(name.endswith("!"))
        if blocks is not None:
            drawn.fill_blocks(drive, blocks)
        if entries is not None:
            drive.kept = drive.free_entries - entries
        self.play = plays.Play({"B": drive}, home)
        for who in range(plays.PROCESSES):
            self.go(who)
            self.do(45, 0xFF)
            self.do(26, DMA)
            self.do(14, 1)
        self.go(0)

    def go(self, who):
        self.play.go(who)
        return self

    @property
    def address(self):
        return BLOCKS + 0x40 * self.play.who

    def put(self, place, bytes_):
        """Puts bytes into the block."""
        self.play.poke(self.address + place, bytes_)

    def dma(self, bytes_):
        self.play.poke(DMA, bytes_)

    def name(self, name, drive=0, mode=LOCKED, ex=0, new="", attributes=()):
        """Makes the block one without a handle that names a file, and perhaps a new name."""
        letters = bytearray(named(name))
        for place in mode + attributes:
            letters[place] |= 0x80
        self.put(0, (bytes([drive]) + letters + bytes([ex, 0, 0, 0, 0]) + named(new) * bool(new)).ljust(36, b"\0"))

    def do(self, function, parameter=None, what=""):
        sums = [(self.address, 36), (DMA, 128)] if parameter is None else []
        return self.play.call(what, function, self.address if parameter is None else parameter, sums)

    def count(self, count):
        self.do(44, count)

    def open(self, name, mode=LOCKED, **more):
        """Opens a file, and has its number where 42 and 43 look for it."""
        self.name(name, mode=mode, **more)
        self.do(15)
        self.dma(self.handle)

    @property
    def handle(self):
        return self.play.read(self.address + 16, 2)

    def at(self, record):
        """The position and the random record."""
        extent = min(2047, record // 128)
        self.put(12, bytes([extent % 32, 0, extent // 32]))
        self.put(32, bytes([record - 128 * extent]) + record.to_bytes(3, "little"))

    def label(self, data, password=None):
        self.name("LABEL", ex=data | (password is not None))
        self.dma(bytes(8) + (password or b""))
        self.do(100)
        self.dma(bytes(16))

    def guard(self, name, mode, password=SECRET):
        """Gives a file a password."""
        self.name(name, ex=mode | 1)
        self.dma(bytes(8) + password)
        self.do(103)
        self.dma(bytes(16))

    def finish(self):
        self.play.finish()
        return self.play


def names(kind):
    """Drives that aren't mounted, names that can't be, files that aren't there, drives that are protected, and names that are taken."""
    scene = Scene(kind, {"A.DAT": 3, "R.DAT!": 1})
    for function, row in filing.ROWS.items():
        if "E4" in row:
            for drive in (UNMOUNTED, 17, 255):
                scene.name("?.DAT", drive=drive, new="N?")
                scene.do(function, drive - 1 if function in (14, 46, 101) else None, "E4")
    scene.do(18, what="NF")
    for is_protected in (False, True):
        if is_protected:
            scene.do(28, 0)
        for function in (15, 16, 17, 19, 22, 23, 30, 35, 102, 103, 100):
            for name, new in pairs("N? R, N R, R A, A R?, A A, R N"):
                # Where nothing refuses it a call is done by other scenes.
                if is_protected or (function, name) in ((15, "N.DAT"), (22, "A.DAT")) or function in (16, 17, 23, 35, 102) or "?" in name:
                    scene.name(name, new=new)
                    scene.do(function, what="protected" if is_protected else "")
    return scene.finish()


def records(kind):
    """Handles, records that can't be or aren't there, files that are read-only, and locks, in turn and at once."""
    return records_of(kind, False)


def protected_records(kind):
    """The same on a drive that is protected."""
    return records_of(kind, True)


def records_of(kind, is_protected):
    scene = Scene(kind, {"A.DAT": 3, "R.DAT!": 3, "B.DAT": 200})
    if is_protected:
        scene.do(28, 0)
    for name in ("A.DAT", "R.DAT"):
        scene.go(1).open(name, UNLOCKED)
        scene.at(1)
        scene.do(42)
        scene.go(0).open(name, UNLOCKED)
        number = scene.handle
        for function in (20, 33, 42, 43, 41, 21, 34, 40):
            for record in (0, 1, 2, 3, 128, 300, 262_143, 262_144):
                if is_writing(function) or not is_protected:
                    scene.at(record)
                    # The record as it is, or another.
                    scene.play.fill(DMA, 2, record % 128 + (record in (1, 2)))
                    scene.dma(number) if function in (42, 43) else None
                    scene.do(function, what=str(record))
        handles(scene, name, number)
        for who in (0, 1):
            scene.go(who).do(16)
    scene.count(16)
    scene.name("B.DAT")
    scene.do(15)
    for function in (33, 20, 41):
        scene.at(190)
        scene.do(function)
    return scene.finish()


def is_writing(function):
    return "E3" in filing.ROWS[function]


def handles(scene, name, number):
    """A handle of nobody's, of another process, of another file or drive, and with a byte after it, now with a record that can't be."""
    other = bytes([3 - number[0]])
    for function in filing.WITH_ITEM:
        for record in (0, 262_144):
            for drive, file, handle in (
                (0, name, bytes(16)),
                (0, name, other),
                (0, "B.DAT", number),
                (1, name, number),
                (0, name, b"\x41"),
                (0, name, number.ljust(15, b"\0") + b"\x01"),
            ):
                if function not in (42, 43) or len(handle) < 15:
                    scene.name(file, drive)
                    scene.put(16, handle)
                    scene.at(record)
                    scene.dma(handle[:2].ljust(2, b"\0"))
                    scene.do(function)
    scene.name(name)
    scene.put(16, number)


def passwords(kind):
    """Passwords in each mode, with files that are read-only or open elsewhere, and drives that are protected."""
    scene = Scene(kind, {"A.DAT": 1, "B.DAT": 1, "R.DAT!": 1, "X.DAT": 1, "Y.DAT": 1})
    scene.label(0xF0, SECRET)
    for name, mode in (("A.DAT", 0x80), ("B.DAT", 0x40), ("R.DAT", 0x20), ("X.DAT", 0x80), ("Y.DAT", 0)):
        scene.guard(name, mode)
    # Process 1 knows the password, and has two of the files open.
    scene.go(1)
    scene.play.poke(0xB400, SECRET)
    scene.do(106, 0xB400)
    for name in ("X.DAT", "B.DAT"):
        scene.open(name, UNLOCKED)
    for is_protected in (False, True):
        if is_protected:
            # Who alone has files open there may protect the drive.
            scene.go(1).do(28, 0)
        for password in (OTHER, SECRET):
            for function in (15, 19, 23, 30, 103, 100, 102):
                for name, new in pairs("A N, B N, R A, X N, X A, Y N"):
                    if password == OTHER or function == 15 or is_protected or name == "X.DAT":
                        scene.go(0).name(name, new=new, ex={15: int(name == "A.DAT"), 100: 0xF0}.get(function, 0))
                        scene.dma(password + OTHER)
                        scene.do(function, what=password[:3].decode())
                        if function == 15:
                            scene.do(16)
    scene.go(1)
    for name in ("X.DAT", "B.DAT"):
        scene.open(name, UNLOCKED)
        scene.do(16)
    # Patterns: the first file that is refused decides.
    scene.do(37, 2)
    scene.go(0).dma(OTHER)
    for name in ("R?.DAT", "A?.DAT", "X?.DAT", "?.DAT", "Y?.DAT"):
        scene.name(name)
        scene.do(19)
    return scene.finish()


def full(kind):
    """A full directory, and a disk of which few blocks are free."""
    scene = Scene(kind, {"A.DAT": 1, "B.DAT": 1}, entries=1, blocks=1)
    last = 128 * 40
    scene.go(0).open("A.DAT", UNLOCKED)
    # An entry that would fit is not added where there is no block.
    scene.at(last + 127)
    scene.do(34)
    for record in (last, last + 1, 2 * last, 3 * last):
        scene.at(record)
        for function in (34, 40, 21, 46):
            scene.do(function, 1 if function == 46 else None)
    scene.name("N.DAT")
    scene.do(22)
    scene.label(0x81)
    scene.guard("A.DAT", 0x80)
    # A file of another process takes its XFCB no more than one's own.
    scene.go(1).guard("A.DAT", 0x80)
    scene.guard("B.DAT", 0x80)
    # A file that goes gives its entry and its block.
    scene.name("B.DAT")
    scene.do(19)
    scene.do(46, 1)
    # With passwords a file of one's own takes two entries.
    scene.label(0x81)
    scene.name("N.DAT", mode=READ_ONLY)
    scene.dma(SECRET + b"\x80")
    scene.do(22)
    return scene.finish()


def crowded(kind):
    """As many open files as a process may have, and as all may."""
    files = {f"F{number}.DAT": 0 for number in range(18)}
    scene = Scene(kind, files, entries=0)
    for who in range(1, 5):
        scene.go(who)
        for number in range(16):
            scene.open(f"F{number}.DAT", UNLOCKED)
    for who in (1, 0):
        scene.go(who)
        for function, name, mode in ((15, "F16", LOCKED), (15, "F1", UNLOCKED), (15, "F1", LOCKED), (22, "N", LOCKED), (22, "F1", LOCKED)):
            scene.name(name + ".DAT", mode=mode)
            scene.do(function)
    # One is closed, and opened by another.
    scene.go(4).do(16)
    scene.go(1).open("F16.DAT")
    scene.go(0).open("F17.DAT")
    for _ in range(255):
        scene.name("F17.DAT")
        scene.do(15)
    return scene.finish()


def locking(kind):
    """As many locks as a process may have, and as all may; 255 openings."""
    scene = Scene(kind, {"B.DAT": 200, "F.DAT": 1})
    for who in range(5):
        scene.go(who).open("B.DAT", UNLOCKED)
    for who in range(1, 5):
        scene.go(who).dma(scene.handle)
        scene.count(16)
        for first in (0, 16):
            scene.at(32 * who + first)
            scene.do(42)
    scene.count(3)
    # Its own, those of another, one more, and beyond the end.
    for who in (4, 0):
        scene.go(who).dma(scene.handle)
        for first in (32 * 4, 32 * 4 + 30, 32 * 3, 0, 30, 198, 200, 1000, 262_143):
            scene.at(first)
            scene.do(42)
    # Some are freed, by who has them and by others.
    for who in (0, 4):
        scene.go(who).dma(scene.handle)
        scene.at(32 * 4 + 30)
        scene.do(43)
    scene.go(0).dma(scene.handle)
    for first in (32 * 4 + 29, 32 * 4 + 30, 198):
        scene.at(first)
        scene.do(42)
    # A file that is closed gives its locks back.
    scene.go(3).do(16)
    scene.go(0).dma(scene.handle)
    scene.at(32 * 3)
    scene.do(42)
    # With one free, the limit of the process alone: 255 openings.
    scene.open("F.DAT")
    for _ in range(255):
        scene.name("F.DAT")
        scene.do(15)
    return scene.finish()


def modes(kind):
    """Two processes, and one twice, on one file in each two modes; and on a file of user 0, by others."""
    scene = Scene(kind, {"A.DAT": 4, "S.DAT": 2})
    scene.name("S.DAT", attributes=(9,))
    scene.do(30)
    for first in (LOCKED, UNLOCKED, READ_ONLY, UNLOCKED + READ_ONLY):
        for second in (LOCKED, UNLOCKED, READ_ONLY):
            for others in (2, 1):
                scene.go(1).open("A.DAT", first)
                scene.go(others).open("A.DAT", second)
                for who in sorted({1, others}):
                    scene.go(who).at(who)
                    scene.dma(scene.handle)
                    for function in (42, 33, 34, 43):
                        scene.do(function)
                for who, name in ((3, "A.DAT"), (3, "S.DAT")):
                    scene.go(who).open(name, second)
                    scene.do(16)
                for who in (1, others):
                    scene.go(who).do(16)
    for user in (1, 16 + 2, 0):
        for name in ("A.DAT", "S.DAT"):
            for mode in (LOCKED, UNLOCKED):
                scene.go(1).do(32, user)
                scene.open(name, mode)
                for function in (20, 21, 35, 102, 17, 18, 19 if user else 42, 16):
                    scene.do(function)
    return scene.finish()


def changed(kind):
    """Each byte of a block that is changed between calls, and put right again."""
    scene = Scene(kind, {"A.DAT": 300, "B.DAT": 3})
    scene.open("B.DAT", UNLOCKED)
    scene.open("A.DAT", UNLOCKED)
    for place in range(36):
        for change in (0x01, 0x80, 0xFF):
            block = scene.play.read(scene.address, 36)
            for function in (20, 34):
                scene.put(place, bytes([block[place] ^ change]))
                scene.do(function, what=f"{place} {change}")
                scene.put(0, block[:12])
                scene.put(16, block[16:])
    scene.do(16)
    return scene.finish()


def places(kind):
    """Blocks and records at the ends of memories, over one another, and with each count."""
    scene = Scene(kind, {"A.DAT": 40})
    for block in (0x0000, 0x0080, 0xBFDD, 0xBFFF, 0xC000, 0xFFDC, 0xFFFF):
        scene.name("A.DAT", mode=UNLOCKED)
        scene.play.poke(block, scene.play.read(scene.address, 36))
        scene.do(15, block)
        for number, dma in enumerate((0x9000, 0xBF00, 0xC000, 0xF700, 0xFF81, block, (block - 127) % 0x10000)):
            scene.do(26, dma)
            for count in range(1 + number % 2, 17, 2):
                # Only so many records as leave the guest as it is, and what it kept.
                reached = (dma + 128 * count - 1) % 0x10000
                if reached < 0x0100 or 0x9000 <= reached < 0xBE00 or 0xBF00 <= reached:
                    scene.count(count)
                    for function in (33, 20) if count % 5 else (33, 34):
                        scene.play.call(str(count), function, block, [(block, 36), (dma, 128 * count)])
            scene.count(1)
            scene.play.poke(block + 32, bytes(4))
        scene.do(16, block)
    return scene.finish()


def told(kind):
    """Extended errors as texts at the console, which come beside the answers, and those of a process that ends."""
    scene = Scene(kind, {"A.DAT": 3, "R.DAT!": 1, "P.DAT": 1, **{f"F{number}.DAT": 0 for number in range(16)}})
    scene.label(0x80)
    scene.guard("P.DAT", 0x80)
    scene.go(1).open("A.DAT")
    scene.go(0).do(45, 0xFE)
    for drive in (3, UNMOUNTED, 17, 255):
        scene.name("A.DAT", drive=drive)
        scene.do(15)
        scene.do(14, drive - 1)
    # 9, 3, 8, 7 and 5, and once they are protected 2.
    for function, name in ((15, "?"), (19, "R"), (22, "A"), (15, "P"), (15, "A"), (20, "A"), (33, "N"), (16, "A")):
        scene.name(name + ".DAT")
        scene.do(function)
    for number in range(16):
        scene.open(f"F{number}.DAT", UNLOCKED)
    scene.open("R.DAT")
    for who in (2, 3, 4):
        scene.go(who)
        for number in range(16):
            scene.open(f"F{number}.DAT", UNLOCKED)
    scene.go(1).do(45, 0xFE)
    scene.open("R.DAT")
    scene.go(4).do(39, 2)
    for who in (0, 2, 3):
        scene.go(who).do(39, 2)
    scene.go(1).do(28, 0)
    scene.name("N.DAT")
    scene.do(22)
    # With any other mode a process ends.
    scene.do(45, 0x00)
    scene.play.call("", 22, scene.address, is_last=True)
    scene.go(2).do(45, 0x7F)
    scene.play.call("", 101, 15, is_last=True)
    return scene.finish()


def leaving(kind):
    """Drives that others use, marks, and ends."""
    scene = Scene(kind, {"A.DAT": 3})
    for who in (1, 0):
        scene.go(who)
        scene.do(38, 2)
        scene.open("A.DAT", UNLOCKED)
        scene.at(who)
        scene.do(42)
        for function, parameter in ((28, 0), (37, 2), (37, 4), (13, 0), (26, DMA), (14, 1), (24, 0), (29, 0)):
            scene.do(function, parameter)
    # A process that leaves the drive has neither mark nor file nor lock; one that only closes has its mark.
    scene.go(1).do(39, 2)
    scene.do(16)
    scene.go(0).at(1)
    scene.dma(scene.handle)
    scene.do(42)
    scene.do(16)
    scene.go(1).do(28, 0)
    scene.do(29, 0)
    scene.do(37, 2)
    # The end of a process: a text, and all that it had is given back.
    scene.go(2).open("A.DAT")
    scene.go(1).name("A.DAT")
    scene.do(15)
    scene.go(2).do(45, 0xFE)
    scene.do(14, 2)
    scene.do(45, 0)
    scene.play.call("", 14, 255, is_last=True)
    scene.go(1).do(15)
    scene.go(0).do(39, 2)
    scene.go(3).do(37, 2)
    return scene.finish()


def away(kind):
    """A machine without drive A, which a reset selects."""
    scene = Scene(kind, {"A.DAT": 3}, home=2)
    scene.do(31, 0)
    scene.do(13, 0)
    scene.do(26, DMA)
    scene.do(31, 0)
    scene.name("A.DAT")
    scene.do(15)
    scene.do(28, 0)
    scene.do(29, 0)
    return scene.finish()


SCENES = (names, records, protected_records, passwords, full, crowded, locking, modes, changed, places, told, leaving, away)


def never(met):
    """The refusals of each row, and its neighbours, that never came, where they can be had."""
    for function, row in filing.ROWS.items():
        causes = row.replace("|", "").split()
        for first, second in zip(causes, [*causes[1:], None]):
            told = [all_ for one, all_ in met if one == function and all_ and all_[0] == first]
            if not told:
                yield f"{function} {first}"
            elif second and f"{first} {second}" not in APART and not any(second in all_ for all_ in told):
                yield f"{function} {first} {second}"
