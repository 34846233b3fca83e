"""What is wrong with a machine file, its script and its images, or with the file of a program: each thing with its place and its cause,
and what the program says of it. By docs/PROFILE.md alone, and by none of the program's code."""

import contextlib
import difflib
import fcntl
import os
import re
import shlex
import stat
import sys
from typing import NamedTuple

from tools import images, machine_files, scripts
from tools.machine_files import Fault, Refused

ROOT = os.path.dirname(os.path.dirname(os.path.abspath(__file__)))

PROGRAM_BYTES = 48_512
MOST_STEPS = 4_000_000_000
MOST_SLOTS = 20


class Finding(NamedTuple):
    """Where something is wrong, by which rule, what is wrong in words, and commands against it, each a line of its own."""

    place: str
    cause: str
    said: str
    commands: tuple = ()

    def __str__(self):
        return "\n    ".join([f"{self.place}: {self.said}", *self.commands])


class Ending(NamedTuple):
    """How the program ends, as far as these files tell: its status and its text on the standard error."""

    status: int = 0
    said: str = ""


SOUND = Ending()
USAGE = Ending(1, "usage: mpm program FILE STEPS [--trace] or mpm run MACHINE STEPS [--trace]")


def found(name, faults):
    """Faults of a text as findings in a file of this name."""
    return [Finding(name if fault.line is None else f"{name}:{fault.line}", fault.cause, fault.said) for fault in faults]


# Files.


def missing(name, key, machine):
    """Why a file isn't there: from which folder its name counts, whether it is packed, or which one is meant."""
    folder, base = os.path.split(name)
    beside = os.path.join(os.path.dirname(machine), name) if machine else name
    if os.path.islink(name):
        return Fault(None, "dangling", f"it is a link to {os.readlink(name)}, which isn't there")
    for packed in (name + ".gz", beside + ".gz"):
        if os.path.exists(packed) and not os.path.exists(beside):
            return Fault(None, "packed", f"it isn't there, and {packed} is: gunzip -k {packed}")
    if os.path.exists(beside):
        place = os.path.dirname(machine)
        said = f"it isn't there: names count from the folder of the call, which is {os.getcwd()}, and not from that of the machine file"
        return Fault(None, "other folder", f'{said}. Call the program in {place}, or write {key} = "{beside}"')
    if folder and not os.path.isdir(folder):
        return Fault(None, "no folder", f"it isn't there: there is no folder {folder} in {os.getcwd()}")
    if base != base.strip():
        return Fault(None, "missing", "it isn't there: its name begins or ends with a space")
    names = []
    with contextlib.suppress(OSError):
        names = os.listdir(folder or ".")
    near = difflib.get_close_matches(base, names, 1, 0.6)
    hint = f"; is `{os.path.join(folder, near[0])}` meant?" if near else ""
    return Fault(None, "missing", f"it isn't there, in {os.path.abspath(folder)}{hint}")


def unreadable(name, key, machine=None):
    """Why a file can't be read; None where it can."""
    try:
        mode = os.stat(name).st_mode
        if stat.S_ISDIR(mode):
            return Fault(None, "folder", "it is a folder")
        if not stat.S_ISREG(mode):
            return Fault(None, "no regular file", "it is no regular file")
        with open(name, "rb"):
            return None
    except FileNotFoundError:
        return missing(name, key, machine)
    except NotADirectoryError:
        return Fault(None, "no folder", f"it isn't there: {os.path.dirname(name)} is no folder")
    except PermissionError:
        return Fault(None, "permission", f"you may not read it: chmod u+r {name}")
    except (OSError, ValueError) as error:
        return Fault(None, "unreadable", f"it can't be read: {getattr(error, 'strerror', None) or error}")


def read_file(name):
    with open(name, "rb") as file:
        return file.read()


# Images.

CONTAINERS = {
    b"IMD ": "an ImageDisk file (IMD)", b"TD": "a Teledisk file (TD0)", b"td": "a Teledisk file (TD0)", b"MV - CPC": "a DSK file",
    b"EXTENDED CPC": "a DSK file", b"\x1f\x8b": "packed by gzip", b"PK\x03\x04": "packed by zip",
}  # fmt: skip


def command(program, *words):
    """A command of this repository, as it is typed in any folder."""
    return shlex.join([os.path.join(ROOT, program), *words])


def rescue_command(name, kind_name):
    """The command that gets the files out of an image, into a folder beside it."""
    return command("tools/images.py", "rescue", kind_name, name, f"{name}.files")


def mending_commands(name, kind_name):
    """The commands that free the slots at fault in a copy of an image."""
    copy, faults = f"{name}.copy", f"{name}.faults"
    check = f"{command('fsck', 'check', kind_name, copy)} > {shlex.quote(faults)}"
    return shlex.join(["cp", "--", name, copy]), check, command("fsck", "apply", kind_name, copy, faults)


def size_finding(name, kind_name, image, size):
    """What is wrong with an image of another size; its files are got out where it is of no other kind and in no container."""
    fault = size_fault(kind_name, image, size)
    if fault.cause != "size":
        return Finding(name, fault.cause, fault.said)
    said = f'{fault.said}. docs/IMAGES.md, "An image at fault", has what to do, after this command, which gets its files out:'
    return Finding(name, fault.cause, said, (rescue_command(name, kind_name),))


def size_fault(kind_name, image, size):
    """Why an image has another size."""
    kind = images.KINDS[kind_name]
    said = f"it has {size:,} bytes; an image of the kind {kind_name} has {kind.size:,}"
    container = next((words for start, words in CONTAINERS.items() if image.startswith(start)), None)
    if container:
        return Fault(None, "container", f"{said}. It is {container}: turn it into a plain image")
    fitting = next((name for name, other in images.KINDS.items() if other.size == size), None)
    if fitting:
        return Fault(None, "kind", f'{said}. The kind {fitting} fits: kind = "{fitting}"')
    sizes = ", ".join(f"{name} {other.size:,}" for name, other in images.KINDS.items())
    more = "too long" if size > kind.size else "too short"
    return Fault(None, "size", f"{said}. It is {abs(size - kind.size):,} bytes {more}, and no kind fits it ({sizes})")


def earlier(kind, image, slot, is_same):
    """The first slot before this one whose entry is so, with its entry in words."""
    for other, entry in enumerate(images.directory(kind, image)[:slot]):
        if entry is not None and is_same(entry):
            return f"slot {other} ({images.told(entry)})"
    return "an earlier slot"


def block_said(kind, image, slot, entry):
    """Which block of an entry another one has, or the entry twice."""
    blocks = images.held(entry)
    for place, block in enumerate(blocks):
        if block in blocks[:place]:
            return f"block {block} is in it twice"
        has = lambda other: isinstance(other, images.File) and block in images.held(other)
        if any(other is not None and has(other) for other in images.directory(kind, image)[:slot]):
            return f"{earlier(kind, image, slot, has)} has block {block} already"
    return "a block that is taken"


def slot_said(kind, image, fault):
    """What is wrong with the entry of a slot, and who else is concerned."""
    entry = images.directory(kind, image)[fault.place]
    same = lambda: earlier(kind, image, fault.place, lambda other: images.key_of(kind, other) == images.key_of(kind, entry))
    match fault.cause:
        case 2:
            said = f"its record count is {entry.count}, above 128"
        case 3:
            block = next(block for block in images.held(entry) if block < kind.directory_blocks or block > kind.dsm)
            said = f"it has block {block}; blocks of files are {kind.directory_blocks} to {kind.dsm}"
        case 4:
            said = block_said(kind, image, fault.place, entry)
        case 5:
            said = f"{same()} is the same part of that file"
        case 6:
            said = f"S2 is {entry.s2} and EX {entry.ex}; they are at most 63 and 31"
        case 7:
            said = f"a second label; the first is in {same()}"
        case _:
            said = f"a second XFCB of that file; the first is in {same()}"
    return f"cause {fault.cause}: {images.told(entry)}: {said}"


def slot_findings(name, kind_name, image):
    """The slots at fault, each as if those before it were free, with how to free them."""
    kind, image, slots, findings = images.KINDS[kind_name], bytearray(image), [], []
    while len(slots) < MOST_SLOTS and (fault := images.first_fault(kind, image)):
        findings.append(Finding(f"{name}: slot {fault.place}", f"cause {fault.cause}", slot_said(kind, image, fault)))
        slots.append(fault.place)
        image[images.slot_place(kind, fault.place)] = images.FREE
    if findings:
        more = "There are more, which speaks for a disk of another kind. " if len(slots) == MOST_SLOTS else ""
        last = findings[-1]
        it = "it" if len(slots) == 1 else "them"
        how = f'{more}The first command gets its files out, the others free {it} in a copy (docs/IMAGES.md, "An image at fault"):'
        commands = rescue_command(name, kind_name), *mending_commands(name, kind_name)
        findings[-1] = last._replace(said=f"{last.said}. {how}", commands=commands)
    return findings


def is_in_use(name):
    """Whether another run holds the image's lock, as the program asks for it."""
    is_written = os.access(name, os.W_OK)
    with open(name, "r+b" if is_written else "rb") as file:
        try:
            fcntl.flock(file, (fcntl.LOCK_EX if is_written else fcntl.LOCK_SH) | fcntl.LOCK_NB)
        except BlockingIOError:
            return True
    return False


def image_findings(drive, machine):
    """What is wrong with the image of a drive, and how the program ends by it."""
    name, failed = drive.image, Ending(7, "disk failed at step 0")
    fault = unreadable(name, "image", machine)
    if fault:
        return found(name, [fault]), failed
    if is_in_use(name):
        said = "it is in use by another run: an image that may be written is a drive of one run at a time"
        return [Finding(name, "in use", said)], failed
    size, kind = os.path.getsize(name), images.KINDS[drive.kind]
    with open(name, "rb") as file:
        image = file.read(kind.size)
    if size != kind.size:
        return [size_finding(name, drive.kind, image, size)], Ending(4, f"bad image {drive.letter}: cause 1 at 0")
    findings = slot_findings(name, drive.kind, image)
    return findings, Ending(4, f"bad image {drive.letter}: {images.first_fault(kind, image)}") if findings else SOUND


def same_file(drive, files):
    """Whether another drive has the file of a drive's image, which may have several names."""
    try:
        state = os.stat(drive.image)
    except (OSError, ValueError):
        return None
    first = files.setdefault((state.st_dev, state.st_ino), drive)
    if first is drive or not stat.S_ISREG(state.st_mode):
        return None
    said = f"this is the file that drive {first.letter} has as {first.image}: each drive has an image of its own"
    return Finding(drive.image, "same file", said)


def drive_findings(machine, path):
    """The drives in the order in which they are mounted; the first that isn't ends the program."""
    findings, ending, files = [], SOUND, {}
    for drive in machine.drives:
        same = same_file(drive, files)
        more, ends = ([same], Ending(7, "disk failed at step 0")) if same else image_findings(drive, path)
        findings += [finding._replace(said=f"drive {drive.letter}: {finding.said}") for finding in more]
        ending = ends if ending == SOUND else ending
    return findings, ending


# Residents.


def has_ticks(machine):
    """Whether the clock ticks, by itself or by the script."""
    if machine.tick_every or machine.script is None or unreadable(machine.script, "script"):
        return machine.tick_every > 0
    return any(event.sort == b"tick" for event in scripts.parsed(read_file(machine.script))[0])


def resident_findings(machine, path):
    """What the spooler and the scheduler lack. It ends no run."""
    residents = machine.tables.get("residents", [])
    if "spool" in residents and machine.printers == 0:
        yield Finding(path, "no printer", "the spooler prints nothing, since `printers` is 0")
    if "sched" in residents and not has_ticks(machine):
        yield Finding(path, "no ticks", "the clock doesn't go on, since `tick_every` is 0: the scheduler sends no command of a later time")


# The whole.


def unreached(events, steps):
    """The first event after the last step of a run, where that is known and there is one."""
    late = [] if steps is None else [event for event in events if event.step > steps]
    if late:
        lines = "this line comes" if len(late) == 1 else f"this line and {len(late) - 1:,} after it come"
        yield Fault(late[0].line, "unreached", f"{lines} after step {steps:,}, with which the run ends, and has no effect")


def script_findings(machine, path, steps):
    name = machine.script
    if name is None:
        return [], SOUND
    fault = unreadable(name, "script", path)
    if fault:
        said = f"the script that {path} names: {fault.said}"
        return [Finding(name, fault.cause, said)], Ending(6, "cannot read")
    text = read_file(name)
    if len(text) > scripts.SCRIPT_BYTES:
        said = f"it has {len(text):,} bytes; a script has at most {scripts.SCRIPT_BYTES:,}"
        return [Finding(name, "too long", said)], Ending(5, "input too long")
    events, faults = scripts.parsed(text)
    if faults:
        return found(name, faults), Ending(3, f"bad script line {faults[0].line}")
    return found(name, [*scripts.lost_keys(events, machine.consoles), *unreached(events, steps)]), SOUND


def explain_machine(path, steps=None):
    """All that is wrong with a machine file, else with its script and its images, for a run of so many steps where these are known; and
    how the program ends by that."""
    fault = unreadable(path, "MACHINE")
    if fault:
        return found(path, [fault]), Ending(6, "cannot read")
    text = read_file(path)
    try:
        machine = machine_files.Machine.of(machine_files.read(text))
    except Refused as refused:
        ending = Ending(5, "input too long") if len(text) > machine_files.MACHINE_BYTES else Ending(2, "bad machine file")
        return found(path, refused.faults), ending
    findings, ending = script_findings(machine, path, steps)
    more, ends = drive_findings(machine, path)
    return [*findings, *more, *resident_findings(machine, path)], ends if ending == SOUND else ending


def explain_program(path):
    """What is wrong with the file of a program."""
    fault = unreadable(path, "FILE")
    if fault:
        return found(path, [fault]), Ending(6, "cannot read")
    size = os.path.getsize(path)
    if size > PROGRAM_BYTES:
        said = f"it has {size:,} bytes; a program has at most {PROGRAM_BYTES:,}, from 0100h up to the kernel's page at BF00h"
        return [Finding(path, "too long", said)], Ending(5, "input too long")
    return [], SOUND


def word_findings(words):
    """What is wrong with the words after FILE or MACHINE, where there are any."""
    steps, *rest = words or ["0"]
    if not re.fullmatch("0|[1-9][0-9]*", steps):
        yield Finding("STEPS", "form", f"`{steps}` isn't in decimal digits without a sign, a comma or leading zeros")
    elif int(steps) > MOST_STEPS:
        yield Finding("STEPS", "range", f"{int(steps):,} is above {MOST_STEPS:,}")
    if rest not in ([], ["--trace"]):
        yield Finding("after STEPS", "word", f"`{' '.join(rest)}`: only `--trace` may be there")


def main(words, usage):
    """Explains what these words name: [run] MACHINE or program FILE, perhaps with steps and `--trace` after it."""
    match words:
        case ["-h" | "--help"]:
            print(usage)
            return 0
        case ["run" | "program", path, *more] if faults := [*word_findings(more)]:
            findings, ending = faults, USAGE
        case ["program", path, *_]:
            findings, ending = explain_program(path)
        case ["run", path, steps, *_]:
            findings, ending = explain_machine(path, int(steps))
        case ["run", path] | [path]:
            findings, ending = explain_machine(path)
        case _:
            print(usage, file=sys.stderr)
            return 2
    if not findings:
        print(f"{path}: nothing is wrong")
        return 0
    if ending.status:
        print(f"The program ends with status {ending.status}, `{ending.said}`:")
    print(*findings, sep="\n")
    return 1
