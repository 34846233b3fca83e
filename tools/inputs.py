"""Random and malformed inputs: words, machine files, scripts, images and programs, each of a generator of a seed; and the reader of
words that says which of them are refused, beside those of machine files and scripts in tools/. They rest on docs/PROFILE.md alone,
and share no code with the program. tests/malformed.py runs the program on them."""

from tools import image_maker, images, machine_files
from tools.scripts import STEPS_LIMIT, is_number


# Words.


def are_words(words):
    """Whether a command line has one of the forms."""
    try:
        for word in words:
            word.decode()
    except UnicodeDecodeError:
        return False
    match words:
        case [b"gen", seed, steps]:
            return is_number(seed, 2_147_483_647) and is_number(steps, STEPS_LIMIT)
        case [b"program" | b"run", name, steps] | [b"program" | b"run", name, steps, b"--trace"]:
            return name != b"" and is_number(steps, STEPS_LIMIT)
    return False



def random_count(rng):
    """A number of steps as it might be written, few enough to be done at once."""
    if rng.random() < 0.8:
        return b"%d" % rng.choice([0, 1, 2, 9, 100, rng.randrange(30_000)])
    return rng.choice([b"", b"00", b"-1", b"+1", b"1_0", b"0x10", b"1e3", b" 1", b"1 ", b"\xb9", b"4000000001", b"1" * 40, b"9\n"])


def random_word(rng, files):
    choices = [*files, b"run", b"program", b"gen", b"--trace", b"", b"--", b"-", b"\xFF\xFE", b"a" * 5000, "né".encode(), b"."]
    return rng.choice(choices) if rng.random() < 0.7 else rng.randbytes(rng.randrange(1, 12)).replace(b"\0", b"0")


def random_words(rng, files):
    """Words that are one of the forms, or nearly one."""
    first = rng.choice([b"run", b"program", b"gen"])
    second = rng.choice(files) if first != b"gen" else b"%d" % rng.choice([0, 1, rng.randrange(2**31), 2**31])
    words = [first, second, random_count(rng)] + [b"--trace"] * (rng.random() < 0.3)
    while rng.random() < 0.4:
        place = rng.randrange(len(words) + 1)
        match rng.randrange(3):
            case 0:
                words.insert(place, random_word(rng, files))
            case 1 if words:
                del words[min(place, len(words) - 1)]
            case 2 if words:
                words[min(place, len(words) - 1)] = random_word(rng, files)
    return words


# Bytes that are changed.


def mangled(rng, text, pieces):
    """A text with some changes: bytes that come, go or are others, pieces that come, go or come twice."""
    text = bytearray(text)
    while rng.random() < 0.6:
        place, length = rng.randrange(len(text) + 1), rng.choice([1, 1, 1, 2, 8, 40])
        match rng.randrange(5):
            case 0:
                text[place : place + length] = b""
            case 1:
                text[place:place] = rng.choice(pieces)
            case 2:
                text[place : place + 1] = bytes([rng.choice(b"\0\t\n\r \"#'+,-.0123456789:=[]\\_{}x~\x7f\x80\xc3\xff")])
            case 3:
                text[place:place] = text[place : place + length]
            case 4:
                text[place : place + 1] = rng.randbytes(1)
    return bytes(text)


# Scripts.


def random_keys(rng):
    words = [b"user 3", b"b:", b"a:", b"hi", b"x" * 128, b"\\x03", b"\\x04", b"\\x13", b"\\x08\\x08", b"\\r\\n", b"\\t", b"\\\\", b"x" * 129]
    return b"".join(rng.choice(words) for _ in range(rng.choice([1, 1, 2, 3]))) + rng.choice([b"\\r", b"\\r", b""])


def random_line(rng, step):
    match rng.choice(["tick", "key", "key", "ready", "int", "other"]):
        case "tick":
            return b"%d tick" % step
        case "key":
            return b"%d key %d %b" % (step, rng.randrange(9), random_keys(rng))
        case "ready":
            return b"%d ready %d %02X" % (step, rng.randrange(17), rng.randrange(256))
        case "int":
            return b"%d int %d" % (step, rng.randrange(3, 33))
    return rng.choice([b"", b"# a comment", b"%d" % step, b"tick", b"\xEF\xBB\xBF", b" ", b"%d tock" % step])


def random_script(rng):
    lines, step = [], 0
    for _ in range(rng.choice([0, 1, 3, 10, 40])):
        step += rng.choice([0, 0, 1, 50, 1000])
        lines.append(random_line(rng, step))
    script = rng.choice([b"\n", b"\n", b"\r\n"]).join(lines) + rng.choice([b"", b"\n"])
    if rng.random() < 0.5:
        script = mangled(rng, script, [b" ", b"\n", b"\r\n", b"0 tick\n", b"4000000000 tick\n", b"key 0 x", b"\\x4", b"\\q"])
    return script


# Machine files.

def random_value(rng):
    return rng.choice([
        "0", "1", "2", "4", "8", "60", "100", "192", "65_535", "65536", "-1", "+1", "0x8", "0b1", "1.0", "1e0", "true", "'A'", '"B"', "''",
        "[]", "{}", "[1]", "1979-05-27", "99999999999999999999", '"\\u0041"', "'''A'''", "nan", "inf", "00", "1__0", "[[]]", "{ a = 1 }",
    ])  # fmt: skip


def random_key(rng):
    keys = [*machine_files.KEYS, "colour", "'version'", "hour.x", "Version", ""]
    return rng.choice(keys)


def segment_text(rng):
    base = rng.choice([0, 0, 64, 100, 188])
    return f"[[segment]]\nbase = {base}\npages = {rng.choice([4, 8, 16, 192 - base])}\n"


def drive_text(rng, number):
    letter, kind = rng.choice("ABCP"), rng.choice(["ibm3740"] * 4 + ["hd4", "hd8", "hd6"])
    return f'[[drive]]\nletter = "{letter}"\nkind = "{kind}"\nimage = "image{number}"\n'


def random_machine(rng, drives=0):
    """A machine file with up to so many drives, of which most are read and some aren't."""
    lines = [f"version = {rng.choice([1, 1, 2])}", f"consoles = {rng.choice([1, 2, 8])}"]
    if rng.random() < 0.7:
        lines.append("script = 'keys'")
    if rng.random() < 0.5:
        lines.append(f"tick_every = {rng.choice([0, 100, 1000, 99])}")
    while rng.random() < 0.3:
        lines.append(f"{random_key(rng)} = {random_value(rng)}")
    rng.shuffle(lines)
    text = "\n".join(lines) + "\n"
    parts = [segment_text(rng) for _ in range(rng.choice([1, 1, 2, 3, 9, 17]))] + [drive_text(rng, number) for number in range(drives)]
    rng.shuffle(parts)
    text = (text + "".join(parts)).encode()
    if rng.random() < 0.5:
        text = mangled(rng, text, [b"\n", b" = ", b"[", b"]]", b"\"", b"'''", b"\\", b"#", b"[[segment]]\n", b"[a.b]\n", b"\xEF\xBB\xBF"])
    return text


# Images.


def random_image(rng):
    """An image of the kind `ibm3740`: without fault, or with a few changes of its directory, or with random bytes, or cut."""
    kind = images.KINDS["ibm3740"]
    sort = rng.random()
    if sort < 0.4:
        return bytes(image_maker.random_image(kind, rng))
    if sort < 0.8:
        return bytes(image_maker.mutant(kind, rng.randrange(2**32)))
    image = bytearray(image_maker.random_image(kind, rng))
    if sort < 0.9:
        for _ in range(rng.choice([1, 5, 50])):
            image[rng.randrange(6_656, 8_704)] = rng.randrange(256)
        return bytes(image)
    return rng.choice([b"", image[:-1], image + b"\0", rng.randbytes(len(image)), b"\xFF" * len(image), image[: rng.randrange(len(image))]])


# Programs.

# Functions of files above all, with everything else.
FUNCTIONS = [*range(0, 51), *range(98, 108), *range(128, 166), 255]
FILE_FUNCTIONS = [15, 16, 17, 18, 19, 20, 21, 22, 23, 30, 33, 34, 35, 36, 40, 41, 42, 43, 100, 101, 102, 103]


def random_call(rng, blocks):
    """LD C; LD DE; CALL 0005h. Now and then the address is anything at all."""
    function = rng.choice(FILE_FUNCTIONS if rng.random() < 0.6 else FUNCTIONS)
    # A string without an end is 65,536 bytes of text: function 9 has one of the blocks, after which there are ends.
    address = rng.choice(blocks) if function == 9 or rng.random() < 0.85 else rng.randrange(65_536)
    return bytes([0x0E, function, 0x11]) + address.to_bytes(2, "little") + b"\xCD\x05\x00"


def random_block(rng):
    """A file control block, often of one of a few names."""
    drive = rng.choice([0, 0, 0, 1, 2, 17, 255])
    name = rng.choice([b"A       TXT", b"B       DAT", b"NEW     FIL", b"???????????", b"A???????T??", rng.randbytes(11)])
    name = bytes(byte | (0x80 if rng.random() < 0.05 else 0) for byte in name)
    rest = bytes(24) if rng.random() < 0.6 else bytes(rng.choice([0, 0, 1, 31, 63, 128, 255, rng.randrange(256)]) for _ in range(24))
    return bytes([drive]) + name + rest


def random_program(rng):
    """Random bytes; random instructions with calls among them; or calls alone, over a few control blocks, again and again."""
    sort = rng.random()
    if sort < 0.2:
        return rng.randbytes(rng.choice([1, 10, 1000, 48_512]))
    blocks = [0x1000 + 64 * number for number in range(8)]
    parts = []
    for _ in range(rng.choice([5, 30, 200])):
        parts.append(random_call(rng, blocks))
        if sort < 0.5:
            parts.append(rng.randbytes(rng.randrange(4)))
    code = b"\x1E\xFF\x0E\x2D\xCD\x05\x00" + b"".join(parts) + rng.choice([b"\xC3\x00\x01", b"\x0E\x00\xCD\x05\x00", b""])
    return code.ljust(0x0F00, b"\0") + b"".join(random_block(rng).ljust(64, b"$") for _ in blocks)


# Disks with programs.


def put_file(kind, image, slot, block, name, contents):
    """Puts a file of one entry into a slot and into blocks from this one on, and answers the block after them."""
    records = [contents[place : place + 128].ljust(128, b"\0") for place in range(0, len(contents), 128)]
    for number, record in enumerate(records, block * kind.block_records):
        place = images.sector_place(kind, number)
        image[place : place + 128] = record
    behind = block + -(-len(records) // kind.block_records)
    image_maker.put_entry(kind, image, slot, image_maker.entry_of(kind, name=name, count=len(records), blocks=range(block, behind)))
    return behind


def disk_with(rng, kind, programs):
    """A disk with programs, two files that the programs name, and perhaps a label and XFCBs that guard them."""
    image = bytearray(b"\xE5" * kind.size)
    files = [*((name, program[:16_384]) for name, program in programs), (b"A       TXT", rng.randbytes(384)), (b"B       DAT", rng.randbytes(4096))]
    block = kind.directory_blocks
    for slot, (name, contents) in enumerate(files):
        block = put_file(kind, image, slot, block, name, contents)
    slot = len(files)
    if rng.random() < 0.5:
        data = bytes([rng.choice([0x01, 0x81, 0xE1, 0xF1, rng.randrange(256)]), 0])
        image_maker.put_entry(kind, image, slot, image_maker.protected_entry(images.LABEL, b"LABEL      ", data + bytes(18)))
    for number, name in enumerate((b"A       TXT", b"B       DAT")):
        if rng.random() < 0.3:
            image_maker.put_entry(kind, image, slot + 1 + number, image_maker.protected_entry(16, name, rng.randbytes(20)))
    return bytes(image)
