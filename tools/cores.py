"""The file of a core, as `mpm_snapshot` saves and reads it: one process of a machine at a step."""

import os
from dataclasses import dataclass

MAGIC = b"MPMCORE1"
HEAD = 51
COMMON = 0xC000
COMMON_SIZE = 65_536 - COMMON
GREATEST_STEP = 2**64 - 1

BYTES = "a f b c d e h l a2 f2 b2 c2 d2 e2 h2 l2".split()
WORDS = "ix iy sp pc".split()
LAST = "i r iff1 iff2 mode halted shadow".split()
FLAGS = "SZ5H3PNC"
PLACES_OF_FLAGS = (19, 46, 47, 49, 50)


class CoreError(Exception):
    """A file that is none of a core: `place` is where that is seen."""

    def __init__(self, place):
        super().__init__(f"bad core at {place}")
        self.place = place


def may_stand(text, place):
    byte = text[place]
    if place < len(MAGIC):
        return byte == MAGIC[place]
    if place == 16:
        return byte < 32
    if place == 17:
        return byte + text[18] <= COMMON // 256
    if place == 18:
        return 4 <= byte <= COMMON // 256
    if place == 48:
        return byte < 3
    return place not in PLACES_OF_FLAGS or byte < 2


def judge(text):
    """Raises CoreError where the bytes are no file of a core. Pages, at 18, are judged before the base, at 17."""
    for place in [*range(17), 18, 17, *range(19, HEAD)]:
        if place >= len(text) or not may_stand(text, place):
            raise CoreError(min(place, len(text)))
    size = HEAD + 256 * text[18] + COMMON_SIZE
    if len(text) != size:
        raise CoreError(min(size, len(text)))


@dataclass(frozen=True)
class Core:
    """A process after `step` steps: its registers by their names (those of the second set end in 2), and its memory."""

    step: int
    process: int
    base: int
    pages: int
    inside: bool
    registers: dict
    segment: bytes
    common: bytes

    def pair(self, high, low):
        return 256 * self.registers[high] + self.registers[low]

    def byte(self, address):
        """The byte that the process reads at an address, or None where it has no memory there, and reads FFh."""
        address %= 65_536
        if address >= COMMON:
            return self.common[address - COMMON]
        place = address - 256 * self.base
        return self.segment[place] if 0 <= place < len(self.segment) else None

    def bytes_from(self, address, count):
        return bytes(0xFF if (byte := self.byte(address + k)) is None else byte for k in range(count))

    def flags(self):
        """The flags that are set, by their letters."""
        return "".join(letter for bit, letter in enumerate(FLAGS) if self.registers["f"] & (128 >> bit)) or "-"


def core_of(text):
    """The core that a file says. Raises CoreError."""
    judge(text)
    registers = dict(zip(BYTES, text[20:36]))
    registers |= {name: int.from_bytes(text[36 + 2 * k : 38 + 2 * k], "little") for k, name in enumerate(WORDS)}
    registers |= dict(zip(LAST, text[44:HEAD]))
    end = HEAD + 256 * text[18]
    return Core(int.from_bytes(text[8:16], "little"), text[16], text[17], text[18], text[19] == 1, registers, text[HEAD:end], text[end:])


def read(path):
    """The core of a file. Raises OSError, CoreError."""
    with open(os.fspath(path), "rb") as file:
        return core_of(file.read())
