#!/usr/bin/env python3
"""python3 -m tests.terminal [PROGRAM [CASE..]]: sits at machines by ./terminal in a pseudo-terminal, with a built mpm, crates/mpm/out/mpm where none is
named, types there, and looks at what the terminal shows, at the files that are left and at the state of the terminal afterwards. The
office (examples/office) is among the machines, and a disk with programs that write what is typed into a file.

A case that comes out otherwise, or of which a run takes too long, has a line; the last line counts the cases. Status: 0 where each came out as
it should, 1 where one didn't, 2 where a run of one took too long and all others came out as they should."""

import contextlib
import fcntl
import gzip
import os
import random
import re
import shutil
import signal
import sys
import tempfile
import termios
import time
from concurrent.futures import ThreadPoolExecutor

from tests import running
from tests.running import ROOT, SECONDS
from tests.sitter import Glass, Sitter, Wrong, need
from tools import images, outputs, room, scripts, session


# The program to be tried.
PROGRAM = running.BUILT


# Machines.


def write(folder, name, contents):
    with open(os.path.join(folder, name), "wb") as file:
        file.write(contents.encode() if isinstance(contents, str) else contents)


def read(folder, name):
    with open(os.path.join(folder, name), "rb") as file:
        return file.read()


def office(folder):
    for name in ("office.toml", "office.keys"):
        shutil.copy(os.path.join(ROOT, "examples/office", name), folder)
    with gzip.open(os.path.join(ROOT, "examples/office/office.img.gz")) as file:
        write(folder, "office.img", file.read())


PLAIN = "version = 1\nconsoles = 2\ntick_every = 10000\n[[segment]]\nbase = 0\npages = 192\n"
DRIVE = '[[drive]]\nletter = "A"\nkind = "ibm3740"\nimage = "disk.img"\n'


def taker(function):
    """A program that makes the file of its tail and writes into it what is typed, taken by this function, up to ^Z:
    0100 LD DE,005Ch; LD C,16h; CALL 0005h; 0108 LD HL,0080h; 010B PUSH HL; LD C,function; CALL 0005h; POP HL; LD (HL),A; CP 1Ah;
    JR Z,011Fh; INC L; JR NZ,010Bh; CALL 012Fh; JR 0108h; 011F CALL 012Fh; LD C,10h; LD DE,005Ch; CALL 0005h; LD C,00h; CALL 0005h;
    012F LD DE,005Ch; LD C,15h; JP 0005h."""
    return (
        b"\x11\x5C\x00\x0E\x16\xCD\x05\x00\x21\x80\x00\xE5\x0E" + bytes([function]) + b"\xCD\x05\x00\xE1\x77\xFE\x1A\x28\x08\x2C\x20\xF1"
        b"\xCD\x2F\x01\x18\xE9\xCD\x2F\x01\x0E\x10\x11\x5C\x00\xCD\x05\x00\x0E\x00\xCD\x05\x00\x11\x5C\x00\x0E\x15\xC3\x05\x00"
    )  # fmt: skip


# Reads no key: JR to itself.
DEAF = b"\x18\xFE"


def with_files(files):
    """An `ibm3740` with files of one block of user 0, by names of eight and three letters."""
    kind = images.KINDS["ibm3740"]
    image = bytearray(b"\xE5" * kind.size)
    for slot, (name, contents) in enumerate(files.items()):
        records = [contents[place : place + 128].ljust(128, b"\0") for place in range(0, len(contents), 128)]
        place = images.slot_place(kind, slot)
        image[place : place + 32] = (b"\0" + name + bytes([0, 0, 0, len(records), 2 + slot])).ljust(32, b"\0")
        for number, record in enumerate(records, (2 + slot) * kind.block_records):
            place = images.sector_place(kind, number)
            image[place : place + 128] = record
    return bytes(image)


def takers(folder, turn=0, every=10_000):
    machine = PLAIN.replace("10000", str(every))
    write(folder, "machine.toml", f"disk_turn = {turn}\n" + machine + "[[segment]]\nbase = 0\npages = 192\n" + DRIVE)
    write(folder, "disk.img", with_files({b"TAKE    COM": taker(3), b"SHOW    COM": taker(1), b"DEAF    COM": DEAF}))


def file_of(folder, name):
    kind = images.KINDS["ibm3740"]
    image = read(folder, "disk.img")
    need(images.first_fault(kind, image) is None, "an image at fault")
    files = images.files_of(kind, image)
    return images.contents(kind, image, files[0, name]) if (0, name) in files else None


# The cases: each has a folder of its own.


def two_consoles(folder, sits):
    """The office at two consoles, and the screens of both as they are changed to and fro."""
    office(folder)
    sitter = sits("--no-script", "office.toml")
    sitter.sees("0A>")
    sitter.type(b"stock 2 -\r")
    sitter.sees("0A>stock 2 -", "2 disks           39", "0A>")
    sitter.type(b"\x1d1")
    sitter.told("Console 1")
    need(not sitter.has(["0A>stock 2 -"]), "console 1 shows what console 0 has")
    sitter.type(b"stock 2 -\r")
    sitter.sees("0A>stock 2 -", "2 disks           38", "0A>")
    sitter.type(b"\x1d0")
    sitter.sees("0A>stock 2 -", "2 disks           39", "0A>")
    sitter.told(r"^ Console 0   step [0-9,]+   clock [0-9,.]+ s   run [0-9,]+ ms   \^\]\? helps$")
    sitter.type(b"user 3\x08\x7f 4\r")
    sitter.sees("0A>user 4", "4A>")
    sitter.ends(0)


def locked_record(folder, sits):
    """A record that one console keeps, and for which the other one waits."""
    office(folder)
    sitter = sits("--no-script", "office.toml")
    sitter.type(b"keep\r")
    sitter.sees("0A>keep", "kept")
    sitter.type(b"\x1d1wait\r")
    sitter.sees("0A>wait")
    time.sleep(0.5)
    need(not sitter.has(["mine"]), "a record that is locked was got")
    sitter.type(b"\x1d0x\x1d1")
    sitter.sees("0A>wait", "mine", "0A>")
    sitter.type(b"\x1d0")
    sitter.sees("0A>keep", "kept", "free again", "0A>")
    sitter.ends(0)


def stopped_output(folder, sits):
    """^S stops the output until ^Q, also where keys wait; ^C ends a program."""
    office(folder)
    sitter = sits("--no-script", "--rate", "100000", "office.toml")
    sitter.sees("0A>")
    sitter.type(b"\x13")
    sitter.told(r"\^S: \^Q goes on$")
    sitter.type(b"\x1d1")
    sitter.told(r"Console 1 .*\^\]\? helps$")
    sitter.type(b"\x1d0")
    sitter.told(r"Console 0 .*\^S: \^Q goes on$")
    sitter.type(b"stock\r")
    sitter.sees("0A>stock")
    time.sleep(0.7)
    need(not sitter.has(["0 paper           12"]), "output that was stopped comes")
    sitter.told(r"\^S: \^Q goes on$")
    sitter.type(b"y" * 90)
    sitter.told("[0-9]+ keys wait")
    sitter.type(b"\x11")
    sitter.told(r"\^\]\? helps$")
    sitter.sees("0A>stock", "0 paper           12", "3 envelopes       100", "0A>" + "y" * 77)
    sitter.type(b"\x15keep\r")
    sitter.sees("keep", "kept")
    sitter.type(b"\x03")
    sitter.sees("keep", "kept", "^C", "0A>")
    sitter.ends(0)


def pasted(folder, sits):
    """Texts of 5,000 keys, each pasted at once into a file by a command: with an echo, without one, and on a disk in turns."""
    takers(folder)
    text = "".join(f"{number:04} the quick brown fox jumps over a lazy dog\r" for number in range(109)).encode()[:4_999] + b"\x1a"
    wanted = text.ljust(-(-len(text) // 128) * 128, b"\0")
    sitter = sits("--keep", "machine.toml")
    sitter.sees("0A>")
    for name in (b"take", b"show"):
        sitter.type(name + b" " + name + b".txt\r" + text + b"user 0\r")
        sitter.waits(lambda: sum("0A>user 0" in line for line in sitter.lines()) == 1 + (name == b"show"), "what is typed after it")
    said = sitter.ends(0)
    need("disk.img: kept as the sitting left it" in said, said)
    for name in (b"TAKE    TXT", b"SHOW    TXT"):
        left = file_of(folder, name)
        need(left is not None and left[: len(text)] == text, f"{name}: {left and len(left)} bytes, not the {len(wanted)} that were pasted")


def pasted_short(sits, folder, rate):
    """Pastes a text into a file, at so many steps a second."""
    text = bytes(32 + number % 90 for number in range(1_999)) + b"\x1a"
    sitter = sits("--keep", "--rate", rate, "machine.toml")
    sitter.sees("0A>")
    sitter.type(b"take take.txt\r" + text)
    sitter.sees("0A>take take.txt", "0A>")
    sitter.ends(0)
    left = file_of(folder, b"TAKE    TXT")
    need(left is not None and left[: len(text)] == text, "not the text that was pasted")


def pasted_in_turns(folder, sits):
    takers(folder, 1000, 1000)
    pasted_short(sits, folder, "3000000")


def pasted_standing(folder, sits):
    """The same where time stands still but for keys."""
    takers(folder)
    pasted_short(sits, folder, "0")


def unread(folder, sits):
    """Keys that nobody reads wait, and are typed once somebody does; or they are dropped, by ^]k or by ^C."""
    takers(folder)
    sitter = sits("machine.toml")
    sitter.sees("0A>")
    sitter.type(b"deaf\r" + b"x" * 100)
    sitter.told("45 keys wait")
    sitter.type(b"\x1dk")
    sitter.told("45 keys are dropped")
    sitter.type(b"y" * 20)
    sitter.told("20 keys wait")
    sitter.type(b"\x03")
    sitter.sees("0A>deaf", "^C", "0A>" + "x" * 55)
    need("wait" not in sitter.bottom(), sitter.bottom())
    sitter.ends(0)


def recorded(folder, sits):
    """What is recorded writes the lines that were shown, with the machine file's own script in it."""
    office(folder)
    sitter = sits("--record", "sat.keys", "office.toml")
    sitter.sees("0A>stock 2 -")
    # The script has typed its last line then; console 0 waits for a key.
    sitter.waits(lambda: sitter.step() > 1_800_000, "1,800,000 steps")
    sitter.type(b"xstock 3 -\r")
    sitter.sees("kept", "x", "free again", "0A>stock 3 -", "3 envelopes       99", "0A>")
    sitter.type(b"\x1d1")
    sitter.sees("0A>copy letter.txt copy.txt", "copied", "0A>nothing", "Command not found", "0A>")
    sitter.type(b"stock 1 +\r")
    sitter.sees("0A>nothing", "0A>stock 1 +", "1 ribbons         6", "0A>")
    sitter.type(b"\x1d0")
    sitter.sees("0A>stock 3 -", "3 envelopes       99", "0A>")
    sitter.told("Console 0")
    shown = sitter.lines()[:-1]
    said = sitter.ends(0)
    steps = int(re.search(r"in ([0-9]+) steps", said)[1])
    keys = read(folder, "sat.keys")
    need(all(part in keys for part in (b"key 0 stock 2 -", b"key 0 xstock 3 -", b"1 +\\r")), keys)
    machine = read(folder, "office.toml").replace(b"office.keys", b"sat.keys")
    write(folder, "again.toml", machine)
    done = running.run([PROGRAM, "run", "again.toml", str(steps)], cwd=folder)
    need(done.returncode == 0, done.stderr)
    output = outputs.Output()
    output.take(done.stdout)
    glass = Glass(23, 80)
    glass.feed(output.of("c0"))
    need(glass.lines() == shown, "\n".join(["other lines:", *shown, "again:", *glass.lines()]))


def kept(folder, sits):
    """The images stay as they were, and it says so; with --keep they are as the sitting left them, under their old modes."""
    takers(folder)
    before = read(folder, "disk.img")
    os.chmod(os.path.join(folder, "disk.img"), 0o640)
    for words in ([], ["--keep"]):
        sitter = sits(*words, "machine.toml")
        sitter.sees("0A>")
        sitter.type(b"take new.txt\rshort\x1a")
        sitter.sees("0A>take new.txt", "0A>")
        said = sitter.ends(0)
        if words:
            need("disk.img: kept as the sitting left it" in said, said)
            need(os.stat(os.path.join(folder, "disk.img")).st_mode & 0o777 == 0o640, "another mode")
            need(file_of(folder, b"NEW     TXT")[:6] == b"short\x1a", "not what was typed")
        else:
            need("The images stay as they were" in said and read(folder, "disk.img") == before, said)
    need(sorted(os.listdir(folder)) == ["disk.img", "machine.toml"], f"files that are left: {os.listdir(folder)}")


def changed(folder, sits):
    """An image that another program changes meanwhile isn't replaced: what the sitting left is beside it."""
    takers(folder)
    sitter = sits("--keep", "machine.toml")
    sitter.sees("0A>")
    sitter.type(b"take new.txt\rshort\x1a")
    sitter.sees("0A>take new.txt", "0A>")
    other = with_files({b"OTHER   TXT": b"other"})
    write(folder, "disk.img", other)
    said = sitter.ends(0)
    beside = [name for name in os.listdir(folder) if name.startswith("disk.img.")]
    need("another program changed it" in said and len(beside) == 1 and beside[0] in said.replace("\n", ""), said)
    need(read(folder, "disk.img") == other, "not as the other program left it")
    write(folder, "disk.img", read(folder, beside[0]))
    need(file_of(folder, b"NEW     TXT")[:6] == b"short\x1a", "not what was typed")


def held(folder, sits):
    """An image that is kept is locked against other runs; another sitting at it is refused, as is a run."""
    takers(folder)
    sitter = sits("--keep", "machine.toml")
    sitter.sees("0A>")
    done = running.run([PROGRAM, "run", "machine.toml", "0"], cwd=folder)
    need((done.returncode, done.stderr) == (7, b"disk failed at step 0\n"), done)
    other = sits("machine.toml")
    said = other.ends(7, b"")
    need("disk failed at step 0" in said and "explain machine.toml says what is wrong" in said, said)
    sitter.ends(0)


def standing(folder, sits):
    """Where time stands still, only keys and ^]s give steps."""
    takers(folder)
    sitter = sits("--rate", "0", "--console", "1", "machine.toml")
    sitter.told("Console 1   step 2,000 ")
    sitter.type(b"x")
    sitter.sees("0A>x")
    sitter.told("step 102,000 ")
    time.sleep(0.5)
    need(sitter.step() == 102_000, "time doesn't stand still")
    sitter.type(b"\x1ds")
    sitter.told("step 702,000 ")
    sitter.ends(0)


def traced(folder, sits):
    """The records of one process's calls."""
    takers(folder)
    sitter = sits("--trace", "3", "machine.toml")
    sitter.sees("0A>")
    sitter.type(b"take new.txt\rab\x1a")
    sitter.sees("0A>take new.txt", "0A>")
    said = sitter.ends(0)
    lines = read(folder, "trace-3.txt").decode().splitlines()
    calls = [line.split(" ")[2:5] for line in lines]
    need([call for call in calls if call[1] == "3"] == [["3", "3", "61"], ["3", "3", "62"], ["3", "3", "1A"]], lines)
    need("trace-3.txt has the calls of process 3" in said, said)


def helped(folder, sits):
    """The commands after ^]: help, printers, what isn't there, and ^] itself."""
    takers(folder)
    sitter = sits("machine.toml")
    sitter.sees("0A>")
    sitter.type(b"\x1d?")
    sitter.sees("^] and then", "  q           ends the sitting", "  s           gives 600,000 steps, where time stands still (--rate 0)")
    sitter.type(b"x")
    sitter.sees("0A>")
    for keys, said in (
        (b"\x1d7", "has consoles 0 to 1"),
        (b"\x1dl3", "has printer 0 alone"),
        (b"\x1dw", r"\^\]\? lists"),
        (b"\x1dl0", "Printer 0"),
        (b"x", "has no keys"),
    ):
        sitter.type(keys)
        sitter.told(said)
    sitter.type(b"\x1d0\x1d\x1d\x1d")
    sitter.sees("0A>^]")
    sitter.type(b"q")
    sitter.ends(0, b"")


def resized(folder, sits):
    """A window of another size has the same lines, and its own last line; one of two rows has none."""
    office(folder)
    sitter = sits("--no-script", "office.toml")
    sitter.type(b"stock\r")
    sitter.sees("0A>stock", "3 envelopes       100", "0A>")
    for rows, columns in ((30, 100), (12, 60), (2, 40), (24, 80)):
        sitter.resize(rows, columns)
        if rows > 2:
            sitter.sees("0A>stock", "3 envelopes       100", "0A>")
            sitter.told("Console 0")
            need(sum("Console 0" in line for line in sitter.lines()) == 1, "two last lines")
        else:
            sitter.waits(lambda: "0A>" in sitter.lines()[-1] and "Console" not in "".join(sitter.lines()), "the prompt in the last row")
    for _ in range(8):
        sitter.type(b"stock\r")
    sitter.waits(lambda: sitter.lines()[22] == "0A>" and sitter.lines()[21] == "3 envelopes       100", "scrolled lines")
    sitter.told("Console 0")
    for number in (signal.SIGSTOP, signal.SIGCONT, signal.SIGTSTP, signal.SIGCONT):
        os.kill(sitter.process.pid, number)
        time.sleep(0.2)
    sitter.told("Console 0")
    sitter.ends(0)


def killed(folder, sits):
    """A signal ends a sitting with all that is owed: the terminal, the script, the images. After a kill the script is there, which makes
    the images, and its folder goes; the next sitting there clears the screen."""
    takers(folder)
    rooms = lambda: {name for name in os.listdir("/dev/shm") + os.listdir(tempfile.gettempdir()) if name.startswith("mpm-terminal-")}
    for number in (signal.SIGTERM, signal.SIGHUP, signal.SIGINT):
        sitter = sits("--record", f"sat{int(number)}.keys", "--keep", "machine.toml")
        sitter.sees("0A>")
        sitter.type(b"take n%d.txt\rab\x1a" % number)
        sitter.sees(f"0A>take n{int(number)}.txt", "0A>")
        os.kill(sitter.process.pid, number)
        sitter.ends(128 + number, b"")
        need(b"take n%d" % number in read(folder, f"sat{int(number)}.keys"), "no script")
        need(file_of(folder, (b"N%d" % number).ljust(8) + b"TXT") is not None, "no file")
    sitter = sits("--record", "left.keys", "--keep", "machine.toml")
    sitter.sees("0A>")
    sitter.type(b"take k.txt\rab\x1a")
    sitter.sees("0A>take k.txt", "0A>")
    held = {name for name in rooms()}
    sitter.process.kill()
    sitter.process.wait()
    need(rooms() & held, "no folder of a sitting")
    need(file_of(folder, b"K       TXT") is None, "the images aren't as they were")
    left = read(folder, "left.keys")
    said = sits("--record", "left.keys", "machine.toml").ends(1, b"")
    need("left.keys: the file is there already" in said and read(folder, "left.keys") == left, "a recording is overwritten")
    write(folder, "again.toml", b'script = "left.keys"\n' + read(folder, "machine.toml"))
    done = running.run([PROGRAM, "run", "again.toml", "4000000000"], cwd=folder)
    need(done.returncode == 0, done.stderr)
    need(file_of(folder, b"K       TXT")[:3] == b"ab\x1a", "not what was typed")
    time.sleep(1.5)
    need(sitter.has(["0A>take k.txt"]), "a sitting that is killed doesn't leave its screen")
    sitter.begin("machine.toml")
    sitter.waits(lambda: sitter.lines()[:2] == ["0A>", ""] and "step" in sitter.bottom(), "a screen of its own")
    need(not sitter.has(["0A>take k.txt"]), "the screen of the sitting that was killed")
    # Folders of other sittings that end meanwhile go too.
    sitter.waits(lambda: all(is_held(name) for name in rooms() & held), "the folder of a sitting that was killed goes")
    sitter.ends(0)


def is_held(name):
    """Whether a sitting goes on in a folder."""
    for place in ("/dev/shm", tempfile.gettempdir()):
        try:
            with open(os.path.join(place, name, "lock"), "rb") as lock:
                fcntl.flock(lock, fcntl.LOCK_EX | fcntl.LOCK_NB)
        except BlockingIOError:
            return True
        except OSError:
            pass
    return False


STUB = """#!/bin/sh
if [ "$3" = 0 ] || [ ! -e {folder}/fails ]; then exec {program} "$@"; fi
echo 'c0 its last words\\r'
echo '{said}' >&2
exit {status}
"""


def stopped(folder, sits):
    """A sitting that is stopped leaves the terminal as it was, and goes on where it was; one whose terminal is gone keeps what it left."""
    takers(folder)
    sitter = sits("--keep", "--record", "sat.keys", "machine.toml")
    sitter.sees("0A>")
    sitter.type(b"user 4\r")
    sitter.sees("0A>user 4", "4A>")
    os.kill(sitter.process.pid, signal.SIGTSTP)
    sitter.waits(lambda: termios.tcgetattr(sitter.line) == sitter.before and not sitter.glass.is_other, "the terminal as it was")
    os.kill(sitter.process.pid, signal.SIGCONT)
    sitter.sees("0A>user 4", "4A>")
    sitter.type(b"user 5\r")
    sitter.sees("4A>user 5", "5A>")
    os.kill(sitter.process.pid, signal.SIGSTOP)
    os.kill(sitter.process.pid, signal.SIGCONT)
    sitter.type(b"user 0\rtake b.txt\rab\x1a")
    sitter.sees("5A>user 0", "0A>take b.txt", "0A>")
    sitter.hang_up()
    need(sitter.process.wait(SECONDS) in (0, 128 + signal.SIGHUP), "another status")
    need(file_of(folder, b"B       TXT")[:2] == b"ab" and b"take b.txt" in read(folder, "sat.keys"), "not what was typed")


def taken_turn(turn):
    """Does a turn of a session, whose runs are waited for."""
    runs = None
    with contextlib.suppress(StopIteration):
        while True:
            runs = [run.wait() for run in turn.send(runs)]


def drawn(folder, _):
    """Keys that are drawn and come at any time to both consoles, beside those of a script: none of them is lost, what was shown is a
    beginning of what is shown next, and the script of it all writes the same lines."""
    for seed in range(6):
        rng = random.Random(seed)
        takers(folder)
        machine = room.machine_of(os.path.join(folder, "machine.toml"))
        machine.drives[0].image = os.path.join(folder, "disk.img")
        steps = sorted(rng.randrange(400_000) for _ in range(rng.choice([0, 40])))
        given = [scripts.Event(step, b"key", 0, bytes(rng.choices(b"uvw", k=rng.randrange(1, 9)))) for step in steps]
        place = room.Room(machine, False)
        try:
            sitting = session.Session(PROGRAM, machine, place, given, rng.choice([200_000, 600_000, 3_000_000]))
            typed = [b"", b""]
            for _ in range(30):
                if rng.random() < 0.5:
                    console, keys = rng.randrange(2), bytes(rng.choices(b"abc", k=rng.choice([1, 3, 20, 300])))
                    typed[console] += keys
                    sitting.put(console, keys)
                shown = sitting.output.of("c0"), sitting.output.of("c1")
                taken_turn(sitting.turn())
                need(all(sitting.output.of(f"c{console}").startswith(shown[console]) for console in (0, 1)), f"seed {seed}: another beginning")
            end = time.monotonic() + SECONDS
            while time.monotonic() < end and (sitting.waiting() or sitting.shown < max(sitting.keys.last, 400_000) + 10_000):
                taken_turn(sitting.turn())
            for console in (0, 1):
                # A line that is full ends, and is no command.
                text = sitting.output.of(f"c{console}").replace(b"Bad load", b"")
                echoed = bytes(byte for byte in text if byte in b"abc")
                need(echoed == typed[console], f"seed {seed}, console {console}: {len(echoed)} keys of {len(typed[console])}")
            given_keys = sum(byte in b"uvw" for byte in sitting.output.of("c0"))
            need(given_keys == sum(len(event.keys) for event in given), f"seed {seed}: {given_keys} keys of the script")
            again = session.Run(PROGRAM, place.prepare("again", sitting.recorded()), sitting.shown).wait()
            need(b"".join(again.pieces) == sitting.output.lines, f"seed {seed}: other lines")
        finally:
            place.close()


def statuses(folder, sits):
    """A machine that ends with each status."""
    sound = PLAIN + DRIVE
    write(folder, "disk.img", with_files({}))
    write(folder, "short.img", with_files({})[:-1])
    write(folder, "bad.keys", "0 tock\n")
    write(folder, "long.keys", b"\n" * 1_048_577)
    script = lambda name: f'script = "{name}"\n' + sound
    for status, said, machine in (
        (2, "bad machine file", sound.replace("consoles = 2", "consoles = 9")),
        (3, "bad script line 1", script("bad.keys")),
        (4, "bad image A: cause 1 at 0", sound.replace("disk.img", "short.img")),
        (5, "input too long", script("long.keys")),
        (6, "cannot read", script("none.keys")),
        (7, "disk failed at step 0", sound.replace("disk.img", "none.img")),
    ):
        write(folder, "machine.toml", machine)
        found = sits("machine.toml").ends(status, b"")
        need(said in found and ("explain machine.toml says" in found) == (status != 5), found)
    write(folder, "machine.toml", sound)
    need("usage" in sits().ends(1, b""), "no usage")
    said = sits("--record", "no/sat.keys", "machine.toml").ends(1, b"")
    need(said == "terminal: no/sat.keys: No such file or directory\n", said)
    for number in ("32", "-1"):
        said = sits("--trace", number, "machine.toml").ends(1, b"")
        need(said == "terminal: --trace is 0 to 31\n" and not os.path.exists(os.path.join(folder, f"trace-{number}.txt")), said)
    need("consoles 0 to 1" in sits("--console", "2", "machine.toml").ends(1, b""), "no word on the console")
    sits("machine.toml", program=os.path.join(folder, "none")).ends(126, b"")
    for status, said in ((7, "disk failed at step 60000"), (8, "output failed at step 60000"), (9, "out of memory")):
        stub = f"stub{status}"
        write(folder, stub, STUB.format(folder=folder, program=PROGRAM, said=said, status=status))
        os.chmod(os.path.join(folder, stub), 0o755)
        sitter = sits("machine.toml", program=os.path.join(folder, stub))
        sitter.sees("0A>")
        write(folder, "fails", "")
        sitter.type(b"x")
        sitter.told(f"ended with status {status}, {said}")
        sitter.sees("its last words")
        need(said in sitter.ends(status), "not said at last")
        os.remove(os.path.join(folder, "fails"))


def gone(folder, sits):
    """An error leaves the terminal as it was: the program goes while somebody sits at its machine."""
    takers(folder)
    program = os.path.join(folder, "mpm")
    shutil.copy(PROGRAM, program)
    sitter = sits("machine.toml", program=program)
    sitter.sees("0A>")
    os.remove(program)
    sitter.type(b"x")
    said = sitter.ends(1, b"")
    need("No such file" in said, said)


def without_terminal(folder, sits):
    """What isn't a terminal is refused; a dumb one gets the bytes alone."""
    takers(folder)
    words = [os.path.join(ROOT, "terminal"), "--program", PROGRAM, "machine.toml"]
    done = running.run(words, cwd=folder)
    need((done.returncode, done.stdout) == (1, b"") and b"must be a terminal" in done.stderr, done)
    sitter = sits("machine.toml", name="dumb")
    sitter.type(b"user 5\r")
    sitter.waits(lambda: "5A>" in sitter.lines(), "the prompt")
    need(b"\x1b" not in sitter.came, "a sequence for a dumb terminal")
    sitter.ends(0)


CASES = [
    pasted, drawn, killed, statuses, stopped, recorded, two_consoles, locked_record, stopped_output, pasted_in_turns, pasted_standing,
    unread, kept, changed, held, standing, traced, helped, resized, gone, without_terminal,
]  # fmt: skip


def failure(case):
    """What is wrong with a case; None where nothing is."""
    sitters = []

    with tempfile.TemporaryDirectory(prefix="mpm-cases-") as folder:

        def sits(*words, **options):
            sitters.append(Sitter(folder, *words, **({"program": PROGRAM} | options)))
            return sitters[-1]

        try:
            case(folder, sits)
            return None
        except Wrong as wrong:
            return str(wrong)
        finally:
            for sitter in sitters:
                sitter.close()


def main(words):
    global PROGRAM
    PROGRAM, tally = running.program_in(words), running.Tally()
    cases = [case for case in CASES if not words[1:] or case.__name__ in words[1:]]
    with ThreadPoolExecutor(6) as workers:
        for case, wrong in zip(cases, workers.map(lambda case: running.in_time(failure, case), cases)):
            tally.add(case.__name__, wrong)
    return tally.status()


if __name__ == "__main__":
    sys.exit(main(sys.argv[1:]))
