"""Images of disks, made without the program: without fault, full, and with changes of their directories, each of a generator of a seed.
tests/faults.py runs the program on them.

python3 -m tools.image_maker make FOLDER [COUNT]    writes images into a folder: of each kind COUNT (1000) with one to three changes of the
                                                    directory, and those of other sizes, of random bytes and of all FFh; and `expected`, a
                                                    line of each with its name, its kind, and its first fault (tools/images.py) or `none`
python3 -m tools.image_maker full KIND IMAGE        writes an image without fault, all of whose slots and blocks files have
"""

import os
import random
import sys

from tools import images
from tools.images import ENTRY, FREE, KINDS, LABEL


def put_entry(kind, image, slot, entry):
    place = images.slot_place(kind, slot)
    image[place : place + ENTRY] = entry


def map_bytes(kind, blocks):
    numbers = list(blocks) + [0] * (kind.places - len(blocks))
    return b"".join(number.to_bytes(2 if kind.wide else 1, "little") for number in numbers)


def entry_of(kind, user=0, name=b"A          ", ex=0, s2=0, count=1, blocks=()):
    return bytes([user]) + name + bytes([ex, 0, s2, count]) + map_bytes(kind, blocks)


def protected_entry(sort, name=b"A          ", rest=bytes(20)):
    return bytes([sort]) + name + rest


# Images without fault.


def random_name(rng):
    letters = b"ABCDEFGHIJKLMNOPQRSTUVWXYZ0123456789"
    name = bytes(rng.choices(letters, k=rng.randint(1, 8))).ljust(8)
    ending = bytes(rng.choices(letters, k=rng.randint(0, 3))).ljust(3)
    return bytes(letter | (0x80 if rng.random() < 0.1 else 0) for letter in name + ending)


def random_part(kind, rng, user, name, number, free):
    """An entry of a file, with blocks from those that are free."""
    extent = number * (kind.mask + 1) + rng.randint(0, kind.mask)
    count = min(rng.randint(0, kind.places), len(free))
    blocks = [free.pop() if rng.random() < 0.9 else 0 for _ in range(count)]
    entry = entry_of(kind, user, name, extent % 32, extent // 32, rng.randint(0, 128), blocks)
    return entry[:13] + rng.randbytes(1) + entry[14:]


def random_files(kind, rng):
    """The entries of some files, some of them with an XFCB."""
    free = list(range(kind.directory_blocks, kind.dsm + 1))
    rng.shuffle(free)
    names = {(rng.randrange(16), images.plain(name)): name for name in (random_name(rng) for _ in range(rng.randint(1, 20)))}
    for (user, _), name in names.items():
        far = rng.sample(range(2048 // (kind.mask + 1)), 2)
        for number in far if rng.random() < 0.2 else range(rng.randint(1, 2)):
            yield random_part(kind, rng, user, name, number, free)
        if rng.random() < 0.3:
            yield protected_entry(16 + user, name, rng.randbytes(20))


def random_entries(kind, rng):
    yield from random_files(kind, rng)
    if rng.random() < 0.7:
        yield protected_entry(LABEL, random_name(rng), rng.randbytes(20))
    for _ in range(rng.randrange(3)):
        sort = rng.choice([sort for sort in range(33, 256) if sort != FREE])
        yield protected_entry(sort, random_name(rng), rng.randbytes(20))


def random_image(kind, rng):
    """An image without fault: its entries in any slots, any bytes in those that are free, and zeros in all blocks."""
    image = bytearray(kind.size)
    entries = list(random_entries(kind, rng))
    entries += [bytes([FREE]) + rng.randbytes(31) for _ in range(kind.drm + 1 - len(entries))]
    rng.shuffle(entries)
    for slot, entry in enumerate(entries):
        put_entry(kind, image, slot, entry)
    return image


def full_image(kind):
    """An image without fault with an entry of a file in each slot, which have all blocks together."""
    image = bytearray(kind.size)
    free = list(range(kind.dsm, kind.directory_blocks - 1, -1))
    for slot in range(kind.drm + 1):
        blocks = [free.pop() for _ in range(min(kind.places, len(free)))]
        put_entry(kind, image, slot, entry_of(kind, name=b"FILE%04dDAT" % slot, ex=kind.mask, count=128, blocks=blocks))
    return image


# Changes of a directory.

BYTES = {
    0: [0, 1, 15, 16, 17, 31, LABEL, 33, FREE, 255],
    12: [0, 1, 31, 32, 255],
    14: [0, 1, 63, 64, 255],
    15: [0, 127, 128, 129, 255],
}


def random_number(kind, rng, entry, other):
    """A block's number of this entry or of another, or one at a limit."""
    width = 2 if kind.wide else 1
    at = 16 + width * rng.randrange(kind.places)
    limits = [1, kind.directory_blocks - 1, kind.directory_blocks, kind.dsm, min(kind.dsm + 1, 256**width - 1)]
    numbers = [other[at : at + width], entry[at : at + width]]
    return rng.choice(numbers + [limit.to_bytes(width, "little") for limit in limits])


def random_slot(kind, image, rng):
    """A slot that isn't free: of a file, an XFCB, a label or a kept entry, each of these alike."""
    sorts = {}
    for slot, entry in enumerate(images.directory(kind, image)):
        if entry is not None:
            sorts.setdefault(type(entry), []).append(slot)
    return rng.choice(sorts[rng.choice(sorted(sorts, key=str))]) if sorts else 0


def change(kind, image, rng):
    slot, source = random_slot(kind, image, rng), random_slot(kind, image, rng)
    entry, other = (bytearray(images.slot_bytes(kind, image, number)) for number in (slot, source))
    match rng.choice(["byte", "bit", "copy", "name", "block"]):
        case "byte":
            place = rng.choice(list(BYTES))
            entry[place] = rng.choice(BYTES[place])
        case "bit":
            entry[rng.randrange(1, 12)] ^= 0x80
        case "copy":
            slot = rng.randrange(kind.drm + 1)
        case "name":
            entry[1:13] = other[1:13]
        case "block":
            number = random_number(kind, rng, entry, other)
            at = 16 + len(number) * rng.randrange(kind.places)
            entry[at : at + len(number)] = number
    put_entry(kind, image, slot, entry)


def mutant(kind, seed):
    rng = random.Random(seed)
    image = random_image(kind, rng)
    for _ in range(rng.randint(1, 3)):
        change(kind, image, rng)
    return image


def made(kind, count):
    """Images with their names."""
    for seed in range(count):
        yield f"mutant-{seed}", mutant(kind, seed)
    whole = random_image(kind, random.Random(1))
    yield "nothing", b""
    yield "short", whole[:-1]
    yield "long", whole + b"\0"
    yield "whole", whole
    yield "full", full_image(kind)
    yield "random", random.Random(2).randbytes(kind.size)
    yield "all-ff", b"\xFF" * kind.size
    yield "all-e5", b"\xE5" * kind.size


def write(path, image):
    """Writes an image, with holes where it has zeros."""
    piece = 4096
    zeros = bytes(piece)
    with open(path, "wb") as file:
        for at in range(0, len(image), piece):
            if image[at : at + piece] != zeros:
                file.seek(at)
                file.write(image[at : at + piece])
        file.truncate(len(image))


def make(folder, count):
    os.makedirs(folder, exist_ok=True)
    with open(os.path.join(folder, "expected"), "w", encoding="ascii") as expected:
        for name, kind in KINDS.items():
            for image_name, image in made(kind, count):
                write(os.path.join(folder, f"{name}-{image_name}.img"), image)
                print(f"{name}-{image_name}.img", name, images.first_fault(kind, image) or "none", file=expected)


def main(words):
    match words:
        case ["make", folder]:
            make(folder, 1000)
            return 0
        case ["make", folder, count] if count.isdecimal():
            make(folder, int(count))
            return 0
        case ["full", kind, path] if kind in KINDS:
            write(path, full_image(KINDS[kind]))
            return 0
    print(__doc__, file=sys.stderr)
    return 1


if __name__ == "__main__":
    sys.exit(main(sys.argv[1:]))
