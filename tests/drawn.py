"""Plays of calls that are drawn: three processes, few names, drives of each kind, blocks and addresses anywhere, and of each call what it takes
now right and now wrong."""

import random

from tests import filing, plays

NAMES = [b"A       DAT", b"B       DAT", b"C       TXT", b"AB      DAT"]
PATTERNS = [b"????????DAT", b"A???????DAT", b"???????????", b"A       D?T"]
PASSWORDS = [bytes(8), b"SECRET  ", b"OTHER   "]
# Blocks of processes of their own; blocks that all share, in page 0, into common memory, and over the end of memory.
OWN_BLOCKS = [0xB000, 0xB040, 0xB080]
SHARED_BLOCKS = [0xB800, 0x0000, 0xBFFF, 0xFFFF]
# DMA addresses, and the largest count of records for each.
# Who calls as they come: three processes of the first guest and two of the second one, and their addresses.
CROWD = (0, 1, 2, plays.PROCESSES, plays.PROCESSES + 1)
OWN_DMA = [0x9000, 0xA000, 0xC000]
DMA = {0x9000: 16, 0xA000: 16, 0xC000: 16, 0xB000: 1, 0xBFFF: 16, 0xF600: 8, 0xFFFF: 1, 0x0000: 1}
RECORDS = [0, 0, 1, 2, 3, 5, 7, 8, 15, 16, 31, 32, 126, 127, 128, 129, 255, 256, 257, 300, 4096, 65_536, 262_142, 262_143, 262_144]
FUNCTIONS = {
    13: 1, 14: 2, 15: 14, 16: 5, 17: 3, 18: 3, 19: 3, 20: 8, 21: 12, 22: 8, 23: 3, 24: 1, 28: 1, 29: 1, 30: 3, 31: 1, 33: 8, 34: 10, 35: 2, 36: 2,
    37: 2, 38: 1, 39: 1, 40: 3, 41: 6, 42: 9, 43: 3, 46: 1, 48: 1, 100: 3, 101: 1, 102: 2, 103: 3, 25: 1, 26: 3, 32: 3, 44: 5, 45: 2, 106: 1,
}  # fmt: skip
WITHOUT_BLOCK = (13, 14, 18, 24, 25, 26, 28, 29, 31, 32, 37, 38, 39, 44, 45, 46, 48, 101, 106)


def drives(rng):
    """A drive of each kind with some files; now and then with few free entries or blocks."""
    made = {}
    for letter, kind in zip("BCD", filing.PARAMETERS):
        drive = made[letter] = plays.empty(kind)
        for name in rng.sample(NAMES, 2):
            user, count = rng.choice([0, 0, 1]), rng.choice([0, 1, 5, 130, 200])
            plays.put_file(drive, user, name, b"".join(bytes([rng.randrange(256)]) * 128 for _ in range(count)))
        for (_, _, _), part in drive.parts.items():
            part.attributes[9] = rng.randrange(2)
        if rng.random() < 0.4:
            fill_blocks(drive, rng.randrange(8))
        if rng.random() < 0.4:
            drive.kept = drive.free_entries - rng.randrange(6)
    return made


def fill_blocks(drive, left):
    """Gives the free blocks but a few to files of user 9."""
    number = 0
    while drive.free_blocks > left:
        part = drive.parts[9, b"FULL%04dDAT" % number, 0] = filing.Part([0] * 11, drive.kind.mask, 128)
        for place in range(min(drive.kind.places, drive.free_blocks - left)):
            part.blocks[place] = [bytes(128)] * drive.kind.block_records
        number += 1


class Drawing:
    """Calls for a play of a kind: in a crowd each process has blocks and addresses of its own alone."""

    def __init__(self, seed, kind):
        self.rng = random.Random(seed)
        self.play, self.is_crowd = kind(drives(self.rng)), kind is plays.Crowd
        self.who = CROWD if self.is_crowd else range(3)
        for who in self.who:
            self.play.go(who)
            self.play.call("", 45, 0xFF)
            self.play.call("", 26, self.own_dma())
        for letter in range(1, 4):
            if self.rng.random() < 0.7:
                self.set_label(letter)

    def choose(self, *weighted):
        values, weights = zip(*weighted)
        return self.rng.choices(values, weights)[0]

    def chance(self, share):
        return self.rng.random() < share

    def set_label(self, letter):
        block = self.own_blocks()[0]
        self.play.poke(block, bytes([letter + 1]) + b"LABEL   DSK" + bytes([self.rng.choice([0x80, 0xF0, 0xE1, 0x10, 0x60])]) + bytes(23))
        self.give_password(8)
        self.play.call("", 100, block)

    def own_blocks(self):
        return [address + 0x100 * (self.play.who % plays.PROCESSES) for address in OWN_BLOCKS]

    def own_dma(self):
        return OWN_DMA[self.play.who % plays.PROCESSES] if self.is_crowd else 0x9000

    def give_password(self, count):
        """Passwords where the calls that take one look for it."""
        given = self.rng.choice(PASSWORDS)
        if count == 1:
            given += bytes([self.rng.choice([0, 0x80, 0x40, 0x20, 0xE0])])
        elif count == 8:
            given += self.rng.choice(PASSWORDS)
        self.play.poke(self.play.process.dma, given)

    # Blocks.

    def fresh_block(self):
        rng = self.rng
        name = bytearray(rng.choice(NAMES) if self.chance(0.85) else rng.choice(PATTERNS))
        for place, share in ((4, 0.3), (5, 0.15), (8, 0.1), (9, 0.1), (0, 0.05)):
            name[place] |= 0x80 if self.chance(share) else 0
        record = rng.choice(RECORDS)
        place = bytes([record // 128 % 32, rng.choice([0, 0, 5]), record // 4096 % 64, rng.choice([0, 128])])
        handle = bytes(16) if self.chance(0.7) else rng.choice(NAMES).rjust(12, b"\0").ljust(16, b"\0")
        return self.drive_byte() + name + place + handle + bytes([record % 128]) + rng.choice(RECORDS).to_bytes(3, "little")

    def drive_byte(self):
        return bytes([self.choose((2, 12), (3, 8), (4, 12), (0, 4), (1, 1), (16, 1), (17, 1), (255, 1))])

    def change_block(self, address):
        """Some bytes of a block become others."""
        rng = self.rng
        record = rng.choice(RECORDS).to_bytes(3, "little")
        place, bytes_ = self.choose(
            ((0, self.drive_byte()), 2),
            ((1, rng.choice(NAMES)), 2),
            ((5, bytes([rng.choice([0x20, 0xA0])])), 2),
            ((6, bytes([rng.choice([0x20, 0xA0])])), 2),
            ((12, bytes([rng.choice([0, 1, 2, 31, 32, 63, 255])])), 4),
            ((14, bytes([rng.choice([0, 1, 63, 64, 255])])), 2),
            ((16, bytes([rng.choice([0, 1, 2, 3, 4, 5, 65, 255])])), 3),
            ((rng.randrange(17, 32), bytes([rng.randrange(2)])), 1),
            ((17, rng.choice(NAMES)), 4),
            ((32, bytes([rng.choice([0, 1, 2, 127, 128, 255])])), 6),
            ((33, record), 14),
            ((35, bytes([rng.choice([0, 3, 4])])), 1),
            ((rng.randrange(36), bytes([rng.randrange(256)])), 2),
        )
        self.play.poke(address + place, bytes_)

    def block(self, function):
        """The address of a block for a call, which is as a call before left it, or is changed or made anew."""
        own, shared = self.own_blocks(), [] if self.is_crowd else SHARED_BLOCKS
        address = self.rng.choice(shared if shared and self.chance(0.15) else own)
        if function in filing.WITH_ITEM:
            opened = [one for one in own + shared if self.is_opened(one)]
            address = self.rng.choice(opened) if opened and self.chance(0.9) else address
            self.play.poke(address + 33, self.rng.choice(RECORDS).to_bytes(3, "little")) if self.chance(0.5) else None
        share = 0.7 if function in (15, 22) else 0.05 if function in filing.WITH_ITEM else 0.3
        if self.chance(share):
            self.play.poke(address, self.fresh_block())
        elif self.chance(0.25):
            self.change_block(address)
        if function == 23 and self.chance(0.8):
            self.play.poke(address + 17, self.rng.choice(NAMES))
        return address

    def is_opened(self, address):
        return filing.Call(self.play.system, self.play.who, 20, address).item is not None

    # Calls.

    def draw(self):
        play, rng = self.play, self.rng
        if self.chance(0.3):
            play.go(rng.choice(self.who))
        function = rng.choices(list(FUNCTIONS), FUNCTIONS.values())[0]
        block = None if function in WITHOUT_BLOCK else self.block(function)
        self.prepare(function, block)
        process = play.process
        length = 128 * process.count if function in (20, 33) else 128
        sums = [(process.dma, length)] + ([(block, 36)] if block is not None else [])
        play.call(f"{sum(map(len, play.tables)):04X} {play.who}", function, self.parameter(function, block), sums)
        if function == 13:
            # A DMA address of its own in place of 0080h, after which the guest is.
            play.call("", 26, self.own_dma())

    def prepare(self, function, block):
        play, rng = self.play, self.rng
        dma, count = play.process.dma, play.process.count
        if function in (21, 34, 40):
            play.fill(dma, count, rng.randrange(256))
        elif function == 41:
            self.give_old(dma, count, block)
        elif function in (42, 43):
            number = filing.Call(play.system, play.who, 20, block).item_number
            play.poke(dma, filing.word(number + 1 if number is not None and self.chance(0.9) else rng.choice([0, 1, 2, 3, 65, 257])))
        elif function in (15, 19, 22, 23, 30, 100, 103) and self.chance(0.6):
            self.give_password({22: 1, 100: 8, 103: 8}.get(function, 0))

    def give_old(self, dma, count, block):
        """The records of a file as they are, mostly, and new ones after them."""
        call = filing.Call(self.play.system, self.play.who, 41, block)
        for number in range(count):
            byte = self.rng.randrange(256)
            record = call.random_record() + number
            if call.item and call.disk.sees(*call.item.file[1:], record) and self.chance(0.9):
                byte = call.disk.read(*call.item.file[1:], record)[0]
            self.play.fill((dma + 128 * number) % 0x10000, 1, byte)
        self.play.fill((dma + 128 * count) % 0x10000, count, self.rng.randrange(256))

    def parameter(self, function, block):
        rng, process = self.rng, self.play.process
        match function:
            case 14 | 46 | 101:
                return self.choose((1, 4), (2, 4), (3, 4), (0, 2), (15, 1), (16, 1), (0x0102, 1), (255, 1))
            case 26 if self.is_crowd:
                return self.own_dma()
            case 26:
                return rng.choice([dma for dma, most in DMA.items() if process.count <= most])
            case 32:
                return self.choose((0, 6), (1, 4), (255, 1), (16, 1))
            case 37 | 38 | 39:
                return rng.choice([0, 2, 4, 8, 0xFFFF, 0x8000])
            case 44:
                most = DMA[process.dma]
                return self.choose((1, 4), (min(2, most), 2), (min(3, most), 2), (most, 2), (0, 1), (17, 1))
            case 45:
                return self.choose((0xFF, 3), (0xFE, 1))
            case 106:
                address = 0xB500 + 8 * self.play.who
                self.play.poke(address, rng.choice(PASSWORDS))
                return address
        return block if block is not None else rng.randrange(0x10000)


def play(seed, kind=plays.Play):
    """A play of as many calls as there is room for; then all of the memory that calls may have written is compared."""
    drawing = Drawing(seed, kind)
    while not drawing.play.is_full:
        drawing.draw()
    sums = [(0x9000, 0x2800), (0, 0x80)] + ([] if drawing.is_crowd else [(0xBFFF, 0x3800)])
    drawing.play.call("", 25, 0, sums)
    drawing.play.finish()
    return drawing.play


def crowd(seed):
    return play(seed, plays.Crowd)
