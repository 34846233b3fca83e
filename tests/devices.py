#!/usr/bin/env python3
"""python3 -m tests.devices [PROGRAM]: runs a built mpm, crates/mpm/out/mpm where none is named, on devices of this machine that fail, as far as that can be
had without rights:

limit       a limit for the size of files (ulimit -f) that the image passes as it is written, of each KiB that the image has
within      the same with a limit that lies within a sector, of which the system then takes a part: within each directory entry that an
            `ibm3740` may have, and within sectors after the directory
room        a file system without room for what is written to the image, of each of some sizes, where `unshare` can mount one
killed      the same as limit where the system ends the program by a signal, as it does where nobody asked it not to
cut         an image that is cut short from outside while the program waits for who reads its output, and is made as long again: that is
            seen at the end of the run, where the drive is synced
read-only   an image that may only be read
text        a limit for the size of files that the text passes, of each KiB
pipe        a pipe whose reader ends, after each of some numbers of bytes
slow        a pipe that doesn't block, and whose reader takes its time
full        /dev/full, and no standard output at all
failing     each call that reads, writes or syncs the image, from the first on until none fails, on each kind of disk; then each write of
            which a part is taken before it fails; and each call that reads or writes any file, where a signal interrupts it: they need a
            C compiler (failing.c). The last call on the image is the one that brings it to the disk (fsync)

All is done with a disk that does each call at once, and with one that serves calls in turns of twenty steps. The guest makes, renames,
deletes and reads files (devices.asm). Of each run it checks the status and what is said; that what is written is the text of the steps
before the one that failed, as another run of so many steps without failures writes it, and of that step's own a first part where the
output failed; that the image has no fault, mounts again, and stands for the files as they were but for those that the guest was about;
and that of these each record is as it was, as it was to be, or zeros. Where cpmtools are installed, fsck.cpm is to find no fault in an
`ibm3740` either; on larger disks fsck.cpm itself fails.

Each run that ends otherwise has a line, and so has each sort of runs. Status: 0 where each ended as it should; 1 where one didn't."""

import collections
import fcntl
import itertools
import os
import re
import resource
import shutil
import signal
import subprocess
import sys
import tempfile
import time

from tests import hostile, running
from tests.running import ROOT, SECONDS, TESTS
from tools import images

STEPS = 100_000
MACHINE = """version = 1
consoles = 1
disk_turn = {turn}
script = "keys"
[[segment]]
base = 0
pages = 192
[[drive]]
letter = "A"
kind = "{kind}"
image = "image"
"""
KEYS = "0 key 0 devices\\r\n"


class Wrong(Exception):
    """What isn't as it should be."""


def need(is_so, what):
    if not is_so:
        raise Wrong(what)


# The disk: three entries each for what is renamed and deleted, and a file of 64 records that is read.


def guest():
    with open(os.path.join(TESTS, "devices.com"), "rb") as file:
        return file.read()


def contents(letter, records):
    return b"".join((b"%c%04d" % (letter, number)).ljust(128, b"%c" % letter) for number in range(records))


FILES = {
    b"DEVICES COM": guest(), b"OLD     DAT": contents(ord("o"), 260), b"GONE    DAT": contents(ord("g"), 260),
    b"BIG     DAT": contents(ord("b"), 64), b"OTHER   DAT": contents(ord("x"), 9),
}  # fmt: skip
# What the guest makes: its DMA address has the number of records that are left, and zeros of its base page after it.
NEW = b"".join(bytes([number]).ljust(128, b"\0") for number in range(40, 0, -1))


# Where the directory of an `ibm3740` begins, after the two system tracks, and where its last sector ends at the latest: 16 sectors of the
# next track have it.
DIRECTORY = 128 * 26 * 2
DIRECTORY_END = 128 * 26 * 3


def disk(name):
    """An image whose free blocks are zeros, so that a file system needs no room for them."""
    kind = images.KINDS[name]
    image = bytearray(kind.size)
    for slot in range(kind.drm + 1):
        image[images.slot_place(kind, slot)] = images.FREE
    slot, block = 0, kind.directory_blocks
    for name, data in FILES.items():
        for first in range(0, len(data), kind.places * kind.block):
            part = data[first : first + kind.places * kind.block]
            count = hostile.with_records(kind, image, block, part)
            extent, last = divmod((first + len(part) - 1) // 128, 128)
            numbers = b"".join(number.to_bytes(1 + kind.wide, "little") for number in range(block, block + count))
            place = images.slot_place(kind, slot)
            image[place : place + 32] = (b"\0" + name + bytes([extent, 0, 0, last + 1]) + numbers).ljust(32, b"\0")
            slot, block = slot + 1, block + count
    return bytes(image)


DISKS = {name: disk(name) for name in images.KINDS}


# A run, in a folder of its own.


class Folder:
    """A folder with the machine, whose disk is of a kind and has turns of so many steps, and what can be done there."""

    def __init__(self, program, turn, kind="ibm3740"):
        self.program, self.turn, self.kind, self.disk = program, turn, kind, DISKS[kind]
        self.path = tempfile.mkdtemp(prefix="mpm-devices-")
        os.chmod(self.path, 0o777)
        self.image = os.path.join(self.path, "image")
        for name, text in (("machine", MACHINE.format(turn=turn, kind=kind).encode()), ("keys", KEYS.encode()), ("image", self.disk)):
            with open(os.path.join(self.path, name), "wb") as file:
                file.write(text)

    def __enter__(self):
        return self

    def __exit__(self, *_):
        shutil.rmtree(self.path)

    def start(self, steps=STEPS, prepare=None, **streams):
        words = [self.program, "run", "machine", str(steps)]
        streams = {"stdout": subprocess.PIPE, **streams}
        streams["env"] = {**os.environ, **streams.get("env", {})}
        return subprocess.Popen(words, cwd=self.path, stdin=subprocess.DEVNULL, stderr=subprocess.PIPE, preexec_fn=prepare, **streams)

    def ran(self, *given, **more):
        """The status of a run to its end, and what it said and wrote."""
        process = self.start(*given, **more)
        wrote, said = process.communicate(timeout=SECONDS)
        return process.returncode, said.decode(), wrote

    def read_image(self):
        with open(self.image, "rb") as file:
            return file.read()


CACHED = {}


def text_of(folder, steps):
    """What a run of so many steps without failures writes in the machine of a folder."""
    key = folder.turn, folder.kind, steps
    if key not in CACHED:
        with Folder(folder.program, folder.turn, folder.kind) as other:
            status, said, wrote = other.ran(steps)
            need((status, said) == (0, ""), f"status {status} and {said!r} without a failure")
            CACHED[key] = wrote
    return CACHED[key]


def finished(text):
    """The lines of a text that were written before the unfinished ones were closed: of one console the last may be closed."""
    return re.sub(rb"[^\n]*\\\n\Z", b"", text) if not is_cut(text) else text


def is_cut(text):
    """Whether the last line is one of 200 bytes."""
    last = text.splitlines()[-1] if text else b""
    return last.endswith(b"\\") and len(re.findall(rb"\\x..|\\[\\rt]|[^\\]", last[3:-1])) == 200


def step_of(said, what):
    found = re.fullmatch(what + r" failed at step ([0-9]+)\n", said)
    need(found, f"said {said!r}")
    return int(found[1])


# What an image may have.


def records(data):
    return [data[place : place + 128] for place in range(0, len(data), 128)]


def is_within(found, choices):
    """Whether each record is one of the choices' at its place, or zeros."""
    return all(
        record == bytes(128) or any(record == choice[128 * number : 128 * number + 128] for choice in choices)
        for number, record in enumerate(records(found))
    )  # fmt: skip


def check_files(kind, image):
    """That an image has no fault, and which files it has: those that nobody names as they were; what is made, renamed or deleted as it
    was, as it was to be, or a part of it."""
    fault = images.first_fault(kind, image)
    need(fault is None, f"the image has {fault}")
    found = {name: images.contents(kind, image, parts) for (_, name), parts in images.files_of(kind, image).items()}
    old, gone = found.pop(b"OLD     DAT", b""), found.pop(b"GONE    DAT", b"")
    named, new = found.pop(b"NAMED   DAT", b""), found.pop(b"NEW     DAT", b"")
    need(is_within(new, [NEW]), "NEW.DAT has other records")
    need(is_within(gone, [FILES[b"GONE    DAT"]]), "GONE.DAT has other records")
    whole = FILES[b"OLD     DAT"]
    need(is_within(old, [whole]) and is_within(named, [whole]), "OLD.DAT has other records")
    parted = [(old[place : place + 128] or bytes(128), named[place : place + 128] or bytes(128)) for place in range(0, len(whole), 128)]
    need(all((a != bytes(128)) + (b != bytes(128)) == 1 for a, b in parted), "a record of OLD.DAT is in none of its names, or in both")
    others = {name: data.ljust(-(-len(data) // 128) * 128, b"\0") for name, data in FILES.items() if name not in (b"OLD     DAT", b"GONE    DAT")}
    need(found == others, f"other files: {sorted(found.keys() ^ others.keys()) or 'with other contents'}")


def check_image(folder):
    """That the image is contained, mounts again, and passes fsck.cpm."""
    image = folder.read_image()
    check_files(images.KINDS[folder.kind], image)
    need(folder.ran(0) == (0, "", b""), "the image doesn't mount again")
    if folder.kind == "ibm3740" and shutil.which("fsck.cpm"):
        os.symlink(os.path.join(ROOT, "examples/diskdefs"), os.path.join(folder.path, "diskdefs"))
        shutil.copy(os.path.join(ROOT, "examples/libdskrc"), os.path.join(folder.path, ".libdskrc"))
        words = ["fsck.cpm", "-n", "-f", folder.kind, "image"]
        done = subprocess.run(words, cwd=folder.path, env={**os.environ, "HOME": folder.path}, capture_output=True, check=False)
        need(done.returncode == 0, f"fsck.cpm: {(done.stdout + done.stderr).decode(errors='replace')!r}")


def check_disk_fault(folder, status, said, wrote):
    """A drive that failed: the step, and the whole text of the steps before it."""
    need(status == 7, f"status {status} and {said!r}")
    step = step_of(said, "disk")
    need(1 <= step <= STEPS, f"step {step}")
    need(wrote == text_of(folder, step - 1), f"the text at a failure of step {step}")
    check_image(folder)
    return step


def check_write_fault(folder, status, said, wrote):
    """An output that failed: the step, whose text isn't all there."""
    need(status == 8, f"status {status} and {said!r}")
    step = step_of(said, "output")
    before, afterwards = (finished(text_of(folder, steps)) for steps in (step - 1, step))
    need(step == STEPS or len(before) < len(afterwards), f"step {step} writes nothing")
    whole = afterwards if step < STEPS else text_of(folder, STEPS)
    need(whole.startswith(wrote), "what came is no first part of the text")
    check_image(folder)
    return step, len(before)


# The sorts. Each yields a name and what is to be done in a folder; what comes of it is counted.


def with_limit(size, is_ignored):
    """What a process does before the program: files are limited, and the signal that says so is ignored, or ends the program."""

    def prepare():
        resource.setrlimit(resource.RLIMIT_FSIZE, (size, size))
        signal.signal(signal.SIGXFSZ, signal.SIG_IGN if is_ignored else signal.SIG_DFL)

    return prepare


def limits(folder, size):
    status, said, wrote = folder.ran(prepare=with_limit(size, True))
    if status == 0:
        need(wrote == text_of(folder, STEPS), "the text without a failure")
        check_image(folder)
        return "status 0"
    check_disk_fault(folder, status, said, wrote)
    return "status 7"


# Runs the program in a file system of so many KiB that has copies of the files, and takes the image out of it; 99 where that can't be.
IN_ROOM = """
mkdir room && mount -t tmpfs -o size="$1k" none room && cp --sparse=always machine keys image room || exit 99
(cd room && exec "$2" run machine "$3")
status=$?
cp room/image image && exit "$status"
exit 99
"""


def room(folder, kibibytes):
    words = ["unshare", "-rm", "sh", "-c", IN_ROOM, "room", str(kibibytes), folder.program, str(STEPS)]
    try:
        done = subprocess.run(words, cwd=folder.path, stdin=subprocess.DEVNULL, capture_output=True, timeout=SECONDS, check=False)
    except FileNotFoundError:
        return "none, as there is no unshare"
    if done.returncode == 99:
        return "none, as there is no such file system or no room in it for the files themselves"
    if done.returncode == 0:
        need(done.stdout == text_of(folder, STEPS), "the text without a failure")
        check_image(folder)
        return "status 0"
    check_disk_fault(folder, done.returncode, done.stderr.decode(), done.stdout)
    return "status 7"


def killed(folder, kibibytes):
    status, _, wrote = folder.ran(prepare=with_limit(1024 * kibibytes, False))
    need(status in (0, 7, -signal.SIGXFSZ), f"status {status}")
    need(text_of(folder, STEPS).startswith(finished(wrote)), "what came is no first part of the text")
    check_image(folder)
    return f"status {status}"


def started_with_pipe(folder):
    """A run whose output is a pipe of one page, which the guest's first lines fill, and the pipe's other end."""
    reader, writer = os.pipe()
    fcntl.fcntl(writer, fcntl.F_SETPIPE_SZ, 4096)
    process = folder.start(stdout=writer)
    os.close(writer)
    return process, reader


def cut(folder, kibibytes):
    """The image is cut as soon as the guest has filled the pipe with its first lines, and is made as long again after the run. It is
    read from memory meanwhile, so that the run goes on to its end."""
    process, reader = started_with_pipe(folder)
    wrote = os.read(reader, 1)
    os.truncate(folder.image, 1024 * kibibytes)
    while piece := os.read(reader, 65_536):
        wrote += piece
    os.close(reader)
    status, said = process.wait(timeout=SECONDS), process.stderr.read().decode()
    need((status, said) == (7, f"disk failed at step {STEPS}\n"), f"status {status} and {said!r}")
    need(wrote == text_of(folder, STEPS), "the text of a run without a failure")
    need(len(folder.read_image()) == len(folder.disk) or folder.ran(0)[:2] == (4, "bad image A: cause 1 at 0\n"), "a cut image that mounts")
    if 1024 * kibibytes > DIRECTORY_END:
        os.truncate(folder.image, len(folder.disk))
        need(folder.ran(0) == (0, "", b""), "an image that is as long again doesn't mount")
    return "status 7"


def read_only(folder, _):
    os.chmod(folder.image, 0o444)

    def prepare():
        if os.geteuid() == 0:
            os.setuid(65534)

    status, said, wrote = folder.ran(prepare=prepare)
    check_disk_fault(folder, status, said, wrote)
    need(folder.read_image() == folder.disk, "an image that may only be read has changed")
    return "status 7"


def texts(folder, kibibytes):
    path = os.path.join(folder.path, "text")
    # The image's own writes lie below the limit of the text's: they are let through, as they are below 256 KiB.
    with open(path, "wb") as file:
        file.truncate(262_144)
        file.seek(262_144)
        status, said, _ = folder.ran(prepare=with_limit(262_144 + 1024 * kibibytes, True), stdout=file)
    with open(path, "rb") as file:
        wrote = file.read()[262_144:]
    if status == 0:
        need(wrote == text_of(folder, STEPS), "the text without a failure")
        return "status 0"
    need(len(wrote) == 1024 * kibibytes, f"{len(wrote)} bytes below a limit of {1024 * kibibytes}")
    step, before = check_write_fault(folder, status, said, wrote)
    need(before <= len(wrote), f"not all of the text before step {step}")
    return "status 8"


def pipes(folder, count):
    process, reader = started_with_pipe(folder)
    wrote = b""
    while len(wrote) < count and (piece := os.read(reader, count - len(wrote))):
        wrote += piece
    os.close(reader)
    status, said = process.wait(timeout=SECONDS), process.stderr.read().decode()
    step, before = check_write_fault(folder, status, said, wrote)
    need(before <= len(wrote) + 8192, f"step {step} is too late for {len(wrote)} bytes")
    return "status 8"


def slow(folder, count):
    reader, writer = os.pipe()
    fcntl.fcntl(writer, fcntl.F_SETPIPE_SZ, 4096)
    os.set_blocking(writer, False)
    process = folder.start(stdout=writer)
    os.close(writer)
    wrote = b""
    while piece := os.read(reader, count):
        wrote += piece
        time.sleep(0.005)
    os.close(reader)
    status, said = process.wait(timeout=SECONDS), process.stderr.read().decode()
    need((status, said, wrote) == (0, "", text_of(folder, STEPS)), f"status {status}, {said!r} and {len(wrote)} bytes")
    check_image(folder)
    return "status 0"


def full(folder, is_full):
    if is_full:
        with open("/dev/full", "wb") as file:
            status, said, _ = folder.ran(stdout=file)
    else:
        status, said, _ = folder.ran(prepare=lambda: os.close(1))
    step, before = check_write_fault(folder, status, said, b"")
    need(before == 0, f"step {step} isn't the first that writes")
    return "status 8"


def failing(folder, number, library, how):
    """A run whose call of that number fails so, if it makes so many: how it ends, and the name of that call."""
    mark = os.path.join(folder.path, "mark")
    environment = {"LD_PRELOAD": library, "FAILING": str(number), "FAILING_AS": how, "FAILING_MARK": mark}
    status, said, wrote = folder.ran(env=environment)
    if not os.path.exists(mark):
        need((status, said, wrote) == (0, "", text_of(folder, STEPS)), f"status {status} and {said!r} without a failure")
        return None, None
    with open(mark) as file:
        call = file.read()
    if how == "interrupted":
        need((status, said, wrote) == (0, "", text_of(folder, STEPS)), f"status {status} and {said!r} after a call that was interrupted")
        check_image(folder)
        return "status 0", call
    if said == "disk failed at step 0\n":
        need((status, wrote, folder.read_image()) == (7, b"", folder.disk), "a failure before the first step that changes something")
        return "status 7 before the first step", call
    step = check_disk_fault(folder, status, said, wrote)
    return "status 7 within the steps" if step < STEPS else "status 7 at the end", call


def all_failing(program, turn):
    """What is wrong with the runs of which each call fails; each sort of disk has a line."""
    wrong = []
    with tempfile.TemporaryDirectory() as room:
        library = os.path.join(room, "failing.so")
        words = [os.environ.get("CC", "cc"), "-O2", "-shared", "-fPIC", "-o", library, os.path.join(TESTS, "failing.c"), "-ldl"]
        if not shutil.which(words[0]) or subprocess.run(words, check=False).returncode:
            print("failing: none, as there is no C compiler")
            return wrong
        for how, kind in itertools.product(("device", "part", "interrupted"), DISKS):
            came, last = collections.Counter(), None
            for number in itertools.count(1):
                with Folder(program, turn, kind) as folder:
                    try:
                        end, call = failing(folder, number, library, how)
                    except Wrong as fault:
                        end, call = "something wrong", None
                        wrong.append(f"failing {number} ({how}) on {kind}, turns of {turn}: {fault}")
                if end is None:
                    break
                came[end] += 1
                last = call
            if how != "interrupted" and last != "fsync":
                wrong.append(f"failing ({how}) on {kind}, turns of {turn}: the last call on the image is {last}, no fsync")
            print(f"failing ({how}) on {kind}, turns of {turn}:", told(came), flush=True)
    return wrong


def told(came):
    return ", ".join(f"{count} with {what}" for what, count in sorted(came.items())) or "none as it should be"


SORTS = {
    "limit": (limits, range(0, 251 * 1024, 1024)),
    "within": (limits, [*range(DIRECTORY + 4, DIRECTORY_END, 16), *range(DIRECTORY_END + 20, 251 * 1024, 1024)]),
    "room": (room, range(72, 128, 4)),
    "killed": (killed, range(0, 251, 10)),
    "cut": (cut, [*range(0, 100, 2), 250, 1000]),
    "read-only": (read_only, [0]),
    "text": (texts, range(0, 14)),
    "pipe": (pipes, [0, 1, 100, 1000, 5000, 9000, 10_000, 12_000]),
    "slow": (slow, [100, 1000, 5000]),
    "full": (full, [True, False]),
}


def main(words):
    program = running.program_in(words)
    wrong = []
    for turn, (name, (run, numbers)) in itertools.product((0, 20), SORTS.items()):
        came = collections.Counter()
        for number in numbers:
            with Folder(program, turn) as folder:
                try:
                    came[run(folder, number)] += 1
                except Wrong as fault:
                    wrong.append(f"{name} {number}, turns of {turn}: {fault}")
                except subprocess.TimeoutExpired as late:
                    wrong.append(f"{name} {number}, turns of {turn}: {running.OutOfTime(late)}")
        print(f"{name}, turns of {turn}:", told(came), flush=True)
    wrong += [line for turn in (0, 20) for line in all_failing(program, turn)]
    for line in wrong:
        print(line)
    print(f"{len(wrong)} failed")
    return 1 if wrong else 0


if __name__ == "__main__":
    sys.exit(main(sys.argv[1:]))
