#!/usr/bin/env python3
"""python3 -m tests.starved [PROGRAM..]: runs built programs, crates/NAME/out/NAME of mpm, mpm_fsck and mpm_snapshot where none is named, again
and again, each time with one allocation of memory refused: the first, the second, and so on up to the last that a run makes; and then
likewise with one and all after it. It does so for each of these runs, by the name of the program:

mpm
program       a program, with records of its calls
run           a machine of two consoles, two drives, a script and commands, whose programs write files
in turns      the same with a disk that serves calls in turns
refused       the same with a fault in the second drive's image
gen           a machine of a seed

mpm_fsck
check         an image with two entries of one block
sound         one without a fault
apply         the list of the first, whose slot is freed
not enough    a list that leaves a fault

mpm_snapshot
save program  a program
save run      a machine whose program has written a file
resume        a core, up to a gate

Each is to end as it does with all the memory it asks for, with the same output and the same files; or with status 9 and `out of memory`,
with nothing written and the files as they were. It needs a C compiler (starved.c).

Each number at which it ends otherwise has a line, and so has each run, with how many allocations it makes and how many of them it can do
without. Status: 0 where each ended as it should; 1 where one didn't; 2 where nothing can be compiled."""

import os
import subprocess
import sys
import tempfile

from tests import fsck, hostile, running
from tests.cores import core_file
from tests.program import END, OUT, with_disk
from tests.running import ROOT, TESTS
from tools.images import KINDS


def compiled(folder):
    """The library that refuses."""
    library = os.path.join(folder, "starved.so")
    words = [os.environ.get("CC", "cc"), "-O2", "-shared", "-fPIC", "-o", library, os.path.join(TESTS, "starved.c")]
    try:
        subprocess.run(words, check=True)
    except (OSError, subprocess.CalledProcessError) as error:
        print(f"starved: {error}", file=sys.stderr)
        sys.exit(2)
    return library


def ending(program, library, words, files, number, more):
    """How a run ends: its status, what it said and wrote, and its files; and whether an allocation was refused."""
    with tempfile.TemporaryDirectory() as folder, tempfile.TemporaryDirectory() as marks:
        mark = os.path.join(marks, "mark")
        for name, contents in files.items():
            with open(os.path.join(folder, name), "wb") as file:
                file.write(contents)
        environment = {"LD_PRELOAD": library, "STARVED": str(number), "STARVED_MARK": mark, **more}
        done = running.run([program, *words], cwd=folder, env=environment)
        left = {}
        for name in files:
            with open(os.path.join(folder, name), "rb") as file:
                left[name] = file.read()
        return (done.returncode, done.stderr, done.stdout, left), os.path.exists(mark)


# The runs: each with its status where memory is had, its name, its words and its files.

# Asks for the version by function 12 and writes `A` by function 2, again and again: LD C; CALL 0005h; LD C; LD E; CALL 0005h; JR.
PROGRAM = b"\x0E\x0C\xCD\x05\x00\x0E\x02\x1E\x41\xCD\x05\x00\x18\xF2"


def guest():
    with open(os.path.join(TESTS, "devices.com"), "rb") as file:
        return file.read()


def machine(turn):
    """The files of a machine with two drives, whose disk has turns of so many steps. The witness writes and locks records on the one, and
    the guest of `devices` makes, renames, deletes and reads files on the other."""
    text = f"version = 1\nconsoles = 2\nprinters = 2\ntick_every = 1000\ndisk_turn = {turn}\nscript = 'keys'\n"
    text += "[[segment]]\nbase = 0\npages = 192\n" * 2
    text += "[[drive]]\nletter = 'C'\nkind = 'hd4'\nimage = 'C'\n[[drive]]\nletter = 'A'\nkind = 'ibm3740'\nimage = 'A'\n"
    keys = "0 key 1 witness\\r\n0 key 0 c:\\rdevices\\r\n150000 key 1 none\\r\n"
    a = {"WITNESS COM": hostile.guest("witness"), "WITNESS DAT": bytes(512)}
    c = {"DEVICES COM": guest(), **{f"{name:8}DAT": bytes(8192) for name in ("OLD", "GONE", "BIG")}}
    return {
        "machine": text.encode(), "keys": keys.encode(), "A": hostile.disk("ibm3740", a), "C": hostile.disk("hd4", c),
    }  # fmt: skip


def machine_runs():
    files = machine(0)
    yield 0, "program", ["program", "file", "20000", "--trace"], {"file": PROGRAM}
    yield 0, "run", ["run", "machine", "200000", "--trace"], files
    yield 0, "in turns", ["run", "machine", "200000", "--trace"], machine(20)
    # A record count of 129 in the first slot.
    at_fault = bytearray(files["C"])
    at_fault[15] = 129
    yield 4, "refused", ["run", "machine", "200000"], files | {"C": bytes(at_fault)}
    yield 0, "gen", ["gen", "7", "50000"], {}


def image_runs():
    check, apply = (["check", "ibm3740", "image"], ["apply", "ibm3740", "image", "list"])
    image = fsck.clashing()
    yield 2, "check", check, {"image": image}
    yield 0, "sound", check, {"image": fsck.without(KINDS["ibm3740"], image, [9])}
    yield 0, "apply", apply, {"image": image, "list": b"fault 9 4 3\n"}
    yield 5, "not enough", apply, {"image": image, "list": b"fault 40 2 -\n"}


# Makes a file, writes sixteen records, and goes on for ever: JR to itself.
WRITES = OUT.replace(END, b"\x18\xFE".ljust(len(END), b"\0"))


def core_runs():
    yield 0, "save program", ["save", "program", "file", "20000", "0"], {"file": PROGRAM}
    disk = hostile.disk("ibm3740", {"OUT     COM": WRITES})
    text = with_disk(1, (0, 192)).replace("hd4", "ibm3740")
    files = {"machine": f"disk_turn = 20\n{text}".encode(), "keys": b"0 key 0 out\\r\n", "A": disk}
    # Slots 0 and 1 have the interpreter and the terminal message processor, and slot 2 the program.
    yield 0, "save run", ["save", "run", "machine", "2000", "2"], files
    # CALL 0005h.
    yield 0, "resume", ["resume", "core", "20000"], {"core": core_file(b"\xCD\x05\x00")}


RUNS = {"mpm": machine_runs, "mpm_fsck": image_runs, "mpm_snapshot": core_runs}


def built(name):
    return os.path.join(ROOT, "crates", name, "out", name)


def told(found):
    status, said, wrote, _ = found
    return f"status {status}, {said.decode(errors='replace').strip()!r}, {len(wrote)} bytes written"


def starve(program, library, run, more):
    """How many numbers end otherwise than they should."""
    status, name, words, files = run
    whole, _ = ending(program, library, words, files, 0, {})
    without = (9, b"out of memory\n", b"", files)
    wrong, spared, number = int(whole[0] != status), 0, 0
    if wrong:
        print(f"{name}, with all memory: {told(whole)}, and not status {status}", flush=True)
    while True:
        number += 1
        found, is_refused = ending(program, library, words, files, number, more)
        if not is_refused:
            break
        spared += found == whole
        if found not in (whole, without):
            wrong += 1
            print(f"{name}, allocation {number}{' and on' if more else ''}: {told(found)}", flush=True)
    kind = "one and all after it" if more else "one"
    print(f"{name}: {told(whole)}; {number - 1} allocations; without {kind} the same for {spared}; {wrong} wrong", flush=True)
    return wrong


def main(words):
    programs = [running.program_in([path]) for path in words or map(built, RUNS)]
    for program in programs:
        if os.path.basename(program) not in RUNS:
            sys.exit(f"{program} is none of {', '.join(RUNS)}")
    with tempfile.TemporaryDirectory() as folder:
        library = compiled(folder)
        runs = [(program, run) for program in programs for run in RUNS[os.path.basename(program)]()]
        wrong = sum(starve(program, library, run, more) for more in ({}, {"STARVED_ON": "1"}) for program, run in runs)
    return 1 if wrong else 0


if __name__ == "__main__":
    sys.exit(main(sys.argv[1:]))
