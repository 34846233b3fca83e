#!/usr/bin/env python3
"""python3 -m tests.malformed [COUNT [SEED [PROGRAM [SORT..]]]]: runs a built mpm, crates/mpm/out/mpm where none is named, on COUNT (1000) random and
malformed inputs of each of these sorts, or of those that are named, from the seeds SEED (0) and on, each input twice:

words       command lines that have one of the forms, or nearly one
machines    machine files with other keys, values and bytes, some with a script and drives
scripts     scripts with other events, keys, steps and bytes
images      images at fault and without, mounted
programs    random bytes, instructions and calls, run alone
guests      the same, run from a disk by a command, with all functions on files
seeds       machines of `gen`

Of each it checks what can be known from outside: that the program ends, in twenty seconds, with a status of 0 to 9, and says on the standard
error exactly what that status says; that words, machine files, scripts and images are refused where they are off their form, and
nowhere else (inputs.py, images.py, machine_files.py and scripts.py in tools/ read them by docs/PROFILE.md); that a refusal writes nothing and leaves the image as it was;
that the output is made of lines as it should be; that an image which a run leaves has no fault; that no other file changes; and that
both runs end alike, with the same output and the same image. Status 9, want of memory, has no place here.

Each input that fails has a line with its sort and seed, and stays in a folder that the last line names, with what the program did.
Status: 0 where none failed; 1 where one did."""

import os
import random
import re
import shutil
import subprocess
import sys
import tempfile

from tests import running
from tools import images, inputs, machine_files
from tools.scripts import first_bad_line

SECONDS = 20

USAGE = "usage: mpm program FILE STEPS [--trace] or mpm run MACHINE STEPS [--trace]"
SAID = [
    "", re.escape(USAGE), "bad machine file", r"bad script line [1-9][0-9]*", r"bad image [A-P]: cause [1-8] at (0|[1-9][0-9]*)", "input too long",
    "cannot read", r"disk failed at step (0|[1-9][0-9]*)", r"output failed at step [1-9][0-9]*", "out of memory",
]  # fmt: skip

# A line of the output: of a console or a printer, with at most 200 bytes of text, or of a completed call.
BYTE = r"(?:[\x20-\x5b\x5d-\x7e]|\\\\|\\r|\\t|\\x[0-9A-F]{2})"
LINE = re.compile(
    rf"(?:c[0-7]|l[0-3]) {BYTE}{{0,200}}\\?\n"
    r"|t [1-9][0-9]* (?:0|[12]?[0-9]|3[01]) [0-9]{1,3} [0-9A-F]{2}(?: [0-9A-F]{4}){3}\n"
)  # fmt: skip
COUNTS = re.compile(r"lines [0-9]+\ncalls [0-9]+\ndata [0-9]+\n")


class Ending:
    """How a run ended: its status, what it said, what it wrote, and its files after it."""

    def __init__(self, program, words, files):
        with tempfile.TemporaryDirectory(dir=ROOM) as folder:
            for name, contents in files.items():
                with open(os.path.join(folder, name), "wb") as file:
                    file.write(contents)
            self.run(program, words, folder)
            self.files = {}
            for name in os.listdir(folder):
                with open(os.path.join(folder, name), "rb") as file:
                    self.files[name] = file.read()

    def run(self, program, words, folder):
        try:
            done = running.run([program, *words], timeout=SECONDS, cwd=folder)
            self.status, self.said, self.wrote = done.returncode, done.stderr, done.stdout
        except subprocess.TimeoutExpired as late:
            self.status, self.said, self.wrote = "late", late.stderr or b"", late.stdout or b""

    def __eq__(self, other):
        return self.__dict__ == other.__dict__


class Wrong(Exception):
    """What isn't as it should be."""


def need(is_so, what):
    if not is_so:
        raise Wrong(what)


def check_form(ending, is_counted):
    """Of any run: the status, what is said, and that lines are lines."""
    need(ending.status in range(9), f"status {ending.status}")
    said = ending.said.decode(errors="replace")
    line = SAID[ending.status]
    need(re.fullmatch(line + "\n" if line else "", said), f"status {ending.status} and {said!r}")
    wrote = ending.wrote.decode(errors="replace")
    if ending.status == 0:
        form = COUNTS.fullmatch(wrote) if is_counted else LINE.sub("", wrote) == ""
        need(form, "lines of another form")
    if ending.status in range(1, 7) or said == "disk failed at step 0\n":
        need(wrote == "", "a refusal that writes something")


def check_files(ending, files):
    """Of any run: refusals leave all files, and other runs all but images, which have no fault then."""
    need(ending.files.keys() == files.keys(), f"files that come or go: {ending.files.keys() ^ files.keys()}")
    for name, contents in files.items():
        is_kept = ending.status != 0 or not name.startswith("image")
        need(not is_kept or ending.files[name] == contents, f"{name} changed")
        if not is_kept and ending.files[name] != contents:
            kind = next(kind for kind in images.KINDS.values() if kind.size == len(contents))
            fault = images.first_fault(kind, ending.files[name])
            need(fault is None, f"{name}: {fault} after the run")


# The sorts: each gives words and files, and what the status is to be, where that is known.


def of_words(rng):
    files = {"program": inputs.random_program(rng)[:48_512], "machine": inputs.random_machine(rng), "keys": b"0 tick\n"}
    words = inputs.random_words(rng, [b"program", b"machine", b"missing"])
    words = [word.replace(b"\0", b"") for word in words]
    return words, files, None if inputs.are_words(words) else (1, USAGE)


def machine_status(files):
    """The status and the text of a machine file that is refused, or of its script; None where another one comes."""
    try:
        machine = machine_files.read(files["machine"])
    except machine_files.Refused:
        return 2, "bad machine file"
    if "script" in machine:
        script = files.get(machine["script"])
        if script is None:
            return 6, "cannot read"
        bad = first_bad_line(script)
        if bad:
            return 3, f"bad script line {bad}"
    for drive in sorted(machine.get("drive", []), key=lambda drive: drive["letter"]):
        image = files.get(drive["image"])
        if image is None:
            return 7, "disk failed at step 0"
        fault = images.first_fault(images.KINDS[drive["kind"]], image)
        if fault:
            return 4, f"bad image {drive['letter']}: {fault}"
    return 0, ""


def of_machines(rng):
    drives = rng.choice([0, 0, 1, 2])
    files = {"machine": inputs.random_machine(rng, drives), "keys": inputs.random_script(rng) if rng.random() < 0.5 else b""}
    for number in range(drives):
        files[f"image{number}"] = inputs.random_image(rng)
    return [b"run", b"machine", b"2000"], files, machine_status(files)


ONE = b"version = 1\nconsoles = 8\nscript = 'keys'\n[[segment]]\nbase = 0\npages = 192\n"


def of_scripts(rng):
    files = {"machine": ONE, "keys": inputs.random_script(rng)}
    return [b"run", b"machine", b"50000"] + [b"--trace"] * (rng.random() < 0.3), files, machine_status(files)


def with_drive(kind, letter="A"):
    drive = f"[[drive]]\nletter = '{letter}'\nkind = '{kind}'\nimage = 'image'\n"
    return ONE.replace(b"consoles = 8", b"consoles = 2\ntick_every = 100") + drive.encode()


def of_images(rng):
    files = {"machine": with_drive("ibm3740", rng.choice("AP")), "keys": b"", "image": inputs.random_image(rng)}
    return [b"run", b"machine", b"100"], files, machine_status(files)


def of_programs(rng):
    files = {"program": inputs.random_program(rng)}
    words = [b"program", b"program", b"%d" % rng.choice([100, 2_000, 20_000])]
    return words + [b"--trace"] * (rng.random() < 0.3), files, (0, "")


def of_guests(rng):
    """Two programs on a disk, of which the commands run one or both, twice."""
    kind = rng.choice(["ibm3740"] * 8 + ["hd4", "hd8"])
    programs = [(name, inputs.random_program(rng)) for name in (b"ONE     COM", b"TWO     COM")]
    files = {
        "machine": with_drive(kind) + b"[[segment]]\nbase = 0\npages = 192\n",
        "keys": b"0 key 0 one\\r\n%d key 1 two\\r\n" % rng.choice([0, 10, 5_000]) + b"60000 key 0 two\\r\n",
        "image": inputs.disk_with(rng, images.KINDS[kind], programs),
    }
    return [b"run", b"machine", b"%d" % rng.choice([20_000, 120_000])] + [b"--trace"] * (rng.random() < 0.2), files, (0, "")


def of_seeds(rng):
    return [b"gen", b"%d" % rng.randrange(2**31), b"%d" % rng.choice([0, 1_000, 50_000])], {}, (0, "")


SORTS = {
    "words": of_words, "machines": of_machines, "scripts": of_scripts, "images": of_images, "programs": of_programs,
    "guests": of_guests, "seeds": of_seeds,
}  # fmt: skip


def keep(name, words, files, endings, wrong):
    """Keeps an input that failed, with what came of it."""
    folder = os.path.join(KEPT, name)
    os.makedirs(folder)
    for file, contents in files.items():
        with open(os.path.join(folder, file), "wb") as out:
            out.write(contents)
    with open(os.path.join(folder, "REPORT"), "w", encoding="utf-8") as out:
        print(wrong, words, sep="\n", file=out)
        for ending in endings:
            print(ending.status, ending.said, ending.wrote[:10_000], sep="\n", file=out)


def failure(program, name, sort, seed):
    """What is wrong with an input; None where nothing is."""
    words, files, expected = sort(random.Random(f"{name} {seed}"))
    endings = [Ending(program, words, files) for _ in range(2)]
    try:
        need("late" not in (ending.status for ending in endings), "a run that is late")
        check_form(endings[0], words[:1] == [b"gen"])
        check_files(endings[0], files)
        need(endings[0] == endings[1], "two runs that differ")
        if expected:
            status, said = expected
            found = endings[0].status, endings[0].said.decode(errors="replace").rstrip("\n")
            need(found == (status, said), f"{found}, and not {expected}")
        return None
    except Wrong as wrong:
        keep(f"{name}-{seed}", words, files, endings, wrong)
        return f"{name} {seed}: {wrong}"


def main(words):
    count, first = int(words[0]) if words else 1000, int(words[1]) if len(words) > 1 else 0
    program = running.program_in(words[2:])
    failed = 0
    for name in words[3:] or SORTS:
        for seed in range(first, first + count):
            wrong = failure(program, name, SORTS[name], seed)
            if wrong:
                failed += 1
                print(wrong, flush=True)
        print(f"{name}: {count} inputs from seed {first} on", flush=True)
    print(f"{failed} failed" + (f": see {KEPT}" if failed else ""))
    return 1 if failed else 0


if __name__ == "__main__":
    ROOM = tempfile.mkdtemp(prefix="mpm-malformed-")
    KEPT = tempfile.mkdtemp(prefix="mpm-malformed-kept-")
    try:
        sys.exit(main(sys.argv[1:]))
    finally:
        shutil.rmtree(ROOM, ignore_errors=True)
        if not os.listdir(KEPT):
            os.rmdir(KEPT)
