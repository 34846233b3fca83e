"""Tests of the reader of images, tools/images.py, and of the program beside it.

python3 -m tests.faults test                      tests that reader: by rows that were worked by hand, by images that are made, and,
                                                  where cpmtools are installed, by images that they made
python3 -m tests.faults compare FOLDER PROGRAM    runs PROGRAM, a built mpm, on a machine with each image that `python3 -m
                                                  tools.image_maker make FOLDER` made as drive A, and prints each that doesn't end as
                                                  it should: status 4 and the fault's text, or status 0 and nothing
"""

import os
import random
import shutil
import subprocess
import sys
import tempfile

from tests import running
from tools import image_maker, images
from tools.images import FREE, KINDS, LABEL, SECTOR, Fault

EXAMPLES = os.path.join(running.ROOT, "examples")


# The comparison.

MACHINE = """version = 1
consoles = 1
[[segment]]
base = 0
pages = 192
[[drive]]
letter = "A"
kind = "{kind}"
image = "{image}"
"""


def ending(folder, program, image, kind):
    """The status and the text with which the program ends, which does no step."""
    with open(os.path.join(folder, "machine.toml"), "w", encoding="ascii") as file:
        file.write(MACHINE.format(kind=kind, image=image))
    ended = running.run([program, "run", "machine.toml", "0"], cwd=folder)
    return ended.returncode, ended.stderr.decode(errors="replace")


def wrong(folder, program, image, kind, wanted):
    """How the program ends otherwise than it should; None where it doesn't."""
    found = ending(folder, program, image, kind)
    return None if found == wanted else f"{found} for {wanted}"


def compare(folder, program):
    tally = running.Tally()
    program = os.path.abspath(program)
    with open(os.path.join(folder, "expected"), encoding="ascii") as expected:
        for line in expected:
            image, kind, fault = line.rstrip("\n").split(" ", 2)
            wanted = (0, "") if fault == "none" else (4, f"bad image A: {fault}\n")
            tally.add(image, running.in_time(wrong, folder, program, image, kind, wanted))
    return tally.status()


# The tests of the reader.


def check(is_so, what):
    if not is_so:
        raise SystemExit(f"faults: failed: {what}")


def with_entries(kind, entries):
    """An empty image with these entries in the slots from 3 on."""
    image = bytearray([FREE]) * kind.size
    for slot, entry in enumerate(entries):
        image_maker.put_entry(kind, image, 3 + slot, entry)
    return image


def fault_rows(kind):
    """Entries, and the first fault that they have, worked by hand from docs/PROFILE.md, "Faults of images"."""

    def file(**parts):
        return image_maker.entry_of(kind, **parts)

    first, last = kind.directory_blocks, kind.dsm
    high = b"\xC1" + b" " * 10
    return [
        ([], None),
        ([file(count=128, blocks=[first, last])], None),
        ([file(count=129)], Fault(2, 3)),
        ([file(), file(count=129, blocks=[1])], Fault(2, 4)),
        ([file(blocks=[0, 0, first - 1])], Fault(3, 3)),
        ([file(blocks=[last + 1])], Fault(3, 3)),
        ([file(blocks=[first, first])], Fault(4, 3)),
        ([file(blocks=[first]), file(user=1, blocks=[0, first])], Fault(4, 4)),
        ([file(blocks=[first]), file(user=1, blocks=[first, 1])], Fault(3, 4)),
        ([file(), file(name=high)], Fault(5, 4)),
        ([file(), file(user=1), file(s2=1)], None),
        ([file(ex=0), file(ex=1)], Fault(5, 4) if kind.mask else None),
        ([file(ex=1), file(ex=2)], None),
        ([file(ex=2), file(), file(ex=3)], Fault(5, 5) if kind.mask else None),
        ([file(s2=63, ex=31)], None),
        ([file(s2=64)], Fault(6, 3)),
        ([file(ex=32)], Fault(6, 3)),
        ([file(ex=32), file(s2=1)], Fault(6, 3)),
        ([file(s2=1), file(ex=32)], Fault(5, 4)),
        ([image_maker.protected_entry(LABEL), image_maker.protected_entry(LABEL, high)], Fault(7, 4)),
        ([image_maker.protected_entry(16), image_maker.protected_entry(16, high)], Fault(8, 4)),
        ([image_maker.protected_entry(16), image_maker.protected_entry(17), file()], None),
        ([image_maker.protected_entry(33), image_maker.protected_entry(33), image_maker.protected_entry(255)], None),
        ([image_maker.protected_entry(LABEL), file(count=129), image_maker.protected_entry(LABEL)], Fault(2, 4)),
    ]


def test_rows(name, kind):
    check(images.first_fault(kind, bytes(kind.size - 1)) == Fault(1, 0), f"{name}: another size")
    for number, (entries, fault) in enumerate(fault_rows(kind)):
        found = images.first_fault(kind, with_entries(kind, entries))
        check(found == fault, f"{name}: row {number}: {found} for {fault}")


def test_made(name, kind):
    for seed in range(5):
        found = images.first_fault(kind, image_maker.random_image(kind, random.Random(seed)))
        check(found is None, f"{name}: seed {seed}: {found} in an image that was made without fault")
    full = list(images.drive_lines(kind, image_maker.full_image(kind)))
    check(images.first_fault(kind, image_maker.full_image(kind)) is None, f"{name}: a fault in a full image")
    check(full[-2:] == ["free records 0", "free entries 0"], f"{name}: a full image has {full[-2:]}")
    sectors = (kind.dsm + 1) * kind.block_records
    places = {images.sector_place(kind, sector) for sector in range(sectors)}
    check(len(places) == sectors and max(places) + SECTOR <= kind.size, f"{name}: two sectors in one place, or one outside")


def test_mutants(name, kind):
    found = [images.first_fault(kind, image_maker.mutant(kind, seed)) for seed in range(200)]
    counts = {cause: sum(fault == cause for fault in (one and one.cause for one in found)) for cause in (None, 2, 3, 4, 5, 6, 7, 8)}
    check(all(counts.values()), f"{name}: a cause never came: {counts}")
    print(f"{name}: 200 images by cause:", ", ".join(f"{cause or 'none'} {count}" for cause, count in counts.items()))


def tool(folder, *words):
    subprocess.run(words, cwd=folder, env=os.environ | {"HOME": folder}, check=True, stdout=subprocess.DEVNULL)


def with_cpmtools(folder, name, kind, files):
    """An image that cpmtools make, with each file under a user of its own."""
    path = os.path.join(folder, name + ".img")
    tool(folder, "mkfs.cpm", "-f", name, path)
    os.truncate(path, kind.size)
    for user, (file, data) in enumerate(files.items()):
        image_maker.write(os.path.join(folder, file), data)
        tool(folder, "cpmcp", "-f", name, path, file, f"{user}:{file}")
    with open(path, "rb") as image:
        return image.read()


def test_files(folder, name, kind, files):
    image = with_cpmtools(folder, name, kind, files)
    check(images.first_fault(kind, image) is None, f"{name}: {images.first_fault(kind, image)} in an image of cpmtools")
    found = images.files_of(kind, image)
    for user, (file, data) in enumerate(files.items()):
        base, _, ending = file.upper().partition(".")
        parts = found[user, base.encode().ljust(8) + ending.encode().ljust(3)]
        read = images.contents(kind, image, parts)
        check(read[: len(data)] == data and len(read) - len(data) < SECTOR, f"{name}: {file} isn't as it was")
        tool(folder, "cpmcp", "-f", name, f"{name}.img", f"{user}:{file}", "back")
        with open(os.path.join(folder, "back"), "rb") as back:
            check(back.read() == data, f"{name}: {file} doesn't come back from cpmtools")


def test_cpmtools(name, kind):
    rng = random.Random(3)
    rest = (kind.dsm + 1 - kind.directory_blocks) * kind.block
    few = {"none.txt": b"", "one.dat": b"1", "record.dat": rng.randbytes(128), "16k.bin": rng.randbytes(16384), "big.bin": rng.randbytes(70001)}
    with tempfile.TemporaryDirectory() as folder:
        shutil.copy(os.path.join(EXAMPLES, "diskdefs"), folder)
        shutil.copy(os.path.join(EXAMPLES, "libdskrc"), os.path.join(folder, ".libdskrc"))
        test_files(folder, name, kind, few)
        test_files(folder, name, kind, {"abcdefgh.ijk": rng.randbytes(rest)})


def test():
    for name, kind in KINDS.items():
        test_rows(name, kind)
        test_made(name, kind)
        test_mutants(name, kind)
        if shutil.which("mkfs.cpm"):
            test_cpmtools(name, kind)
            print(f"{name}: the files of cpmtools' images are as they were")
        else:
            print("cpmtools aren't installed: their images are left out")
    print("passed")
    return 0


def main(words):
    match words:
        case ["test"]:
            return test()
        case ["compare", folder, program]:
            return compare(folder, program)
    print(__doc__, file=sys.stderr)
    return 1


if __name__ == "__main__":
    sys.exit(main(sys.argv[1:]))
