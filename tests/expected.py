"""What the commands show of a disk: worked out of the files that were put there, and of the parameters of its kind."""

from tests import filing, machines

def fits(pattern, name):
    """Whether a name fits a pattern with `?` and `*`."""
    letters = [part for part in (pattern + ".").split(".")[:2]]
    full = "".join((letters[at].split("*")[0] + "?" * (width * ("*" in letters[at]))).ljust(width)[:width] for at, width in enumerate((8, 3)))
    return all(one in ("?", other) for one, other in zip(full, machines.name_bytes(name).decode()))


def names(disk, pattern="*.*", user=0, system=None):
    """The names that fit, in their order."""
    found = [name for (of, name), (_, attributes) in disk.files.items() if of == user and fits(pattern, name) and system in (None, "SYS" in attributes)]
    return sorted(found, key=machines.name_bytes)


def columns(name):
    first, _, kind = name.partition(".")
    return f"{first:8} {kind:3}"


def dir_lines(disk, letter="A", pattern="*.*", user=0, system=False):
    """What DIR shows."""
    shown = [columns(name) for name in names(disk, pattern, user, system)]
    rows = [f"{letter}: " + " : ".join(shown[at : at + 4]) for at in range(0, len(shown), 4)]
    lines = [f"Directory for User {user}:", *rows] if rows else ["File not found"]
    return lines + ["System files exist"] * (not system and bool(names(disk, pattern, user, True)))


def records(disk, name, user=0):
    return len(disk.files[user, name][0]) // 128


def blocks(disk, name, user=0):
    return -(-records(disk, name, user) // disk.drive.kind.block_records)


def kilobytes(disk, name, user=0):
    return blocks(disk, name, user) * disk.drive.kind.block // 1024


def entries(disk, name, user=0):
    return max(1, -(-records(disk, name, user) // (128 * (disk.drive.kind.mask + 1))))


def free_kilobytes(disk):
    kind = disk.drive.kind
    used = sum(blocks(disk, name, user) for user, name in disk.files)
    return (kind.dsm + 1 - kind.directory_blocks - used) * kind.block // 1024


def space(disk, letter, access="R/W"):
    return f"{letter}: {access}, Space: {free_kilobytes(disk):5}k"


def stat_lines(disk, letter="A", pattern="*.*", size=False):
    lines = ["  Size" * size + "  Recs  Bytes  Ext Acc"]
    for name in names(disk, pattern):
        attributes = disk.files[0, name][1]
        count = records(disk, name)
        text = f"{count:6}" * size + f"{count:6}{kilobytes(disk, name):6}k{entries(disk, name):5} "
        text += ("R/O " if "RO" in attributes else "R/W ") + (f"({letter}:{name})" if "SYS" in attributes else f"{letter}:{name}")
        lines.append(text)
    return lines + [f"Bytes Remaining On {letter}: {free_kilobytes(disk)}k"]


SDIR_HEAD = [
    "Name          Bytes   Recs Attributes   Prot   Update         Access",
    "------------ ------ ------ ------------ ------ -------------- --------------",
]
PROTECTIONS = {0x80: "Read  ", 0x40: "Write ", 0x20: "Delete"}


def sdir_row(disk, name, user, stamps):
    attributes = disk.files[user, name][1]
    mode = disk.protections.get((user, name), (0, ""))[0]
    row = f"{columns(name)}{kilobytes(disk, name, user):6}k{records(disk, name, user):7}"
    row += (" Sys" if "SYS" in attributes else " Dir") + (" RO" if "RO" in attributes else " RW") + (" A" if "ARC" in attributes else "  ")
    row += "".join(str(number) if f"F{number}" in attributes else " " for number in range(1, 5))
    return row + " " + PROTECTIONS.get(mode, "None  ") + stamps


def sdir_lines(disk, letter="A", pattern="*.*", user=0, system=None, stamps=()):
    """What SDIR shows, with the text of the stamps of those files that have one."""
    found = names(disk, pattern, user, system)
    if not found:
        return ["File not found"]
    total = (sum(kilobytes(disk, name, user) for name in found), sum(records(disk, name, user) for name in found), len(found))
    rows = [sdir_row(disk, name, user, dict(stamps).get(name, "")) for name in found]
    head = [f"Directory for Drive {letter}:  User {user}", *SDIR_HEAD]
    return [*head, *rows, "", "Total Bytes = %dk  Total Records = %d  Files Found = %d" % total]


def characteristics(disk, letter):
    kind = disk.drive.kind
    count = (kind.dsm + 1) * kind.block_records
    rows = [
        (count, "128 Byte Record Capacity"),
        (count // 8, "Kilobyte Drive  Capacity"),
        (kind.drm + 1, "32  Byte Directory Entries"),
        (int.from_bytes(filing.PARAMETERS[disk.drive.kind_name][11:13], "little"), "Checked  Directory Entries"),
        (128 * (kind.mask + 1), "Records/ Extent"),
        (kind.block_records, "Records/ Block"),
        (128 if kind.wide else 26, "Sectors/ Track"),
        (kind.system_tracks, "Reserved Tracks"),
    ]
    return [f"    {letter}: Drive Characteristics"] + [f"{number:5}: {text}" for number, text in rows]


def text_lines(contents):
    """What TYPE shows of a text."""
    text = contents.split(b"\x1A")[0].decode()
    lines = text.split("\r\n")
    return [line.expandtabs(8) for line in lines[: -1 if not lines[-1] else None]]


def dump_lines(contents):
    for place in range(0, len(contents), 16):
        row = contents[place : place + 16]
        letters = "".join(chr(byte) if 0x20 <= byte < 0x7F else "." for byte in row)
        yield f"{place:04X}: " + "".join(f"{byte:02X} " for byte in row) + " " + letters


def joined(*texts):
    """What PIP makes of texts: each up to its end, and the last record filled."""
    text = b"".join(text.split(b"\x1A")[0] for text in texts)
    return text + b"\x1A" * (-len(text) % 128)
