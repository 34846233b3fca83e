"""python3 -m tests.cores [MPM_SNAPSHOT]: follows examples/README.md, "A fault is found", with a built mpm_snapshot, crates/mpm_snapshot/out/mpm_snapshot
where none is named, and compares what each command writes with what the page has under it. Then it saves programs that wait in a call, and shows
them by tools.core; it saves processes that aren't there by a copy of `./snapshot`; it runs cores on whose line was worked out by hand, and files
that are none; it tries words of other forms, a pipe, a closed output, and a system that refuses something.

What differs has a line; the last line counts the cases. Status: 0 where nothing differs, 1 where something does, 2 where something ran
out of time and nothing differs."""

import os
import re
import shlex
import shutil
import sys
import tempfile

from tests import endings, refusing, running
from tests.lessons import missing
from tests.program import HI, HI_PRL, image, with_disk, with_file, write_files
from tests.running import ROOT

PAGE = os.path.join(ROOT, "examples", "README.md")
SECTION = "\n## A fault is found\n"
BUILT = os.path.join(ROOT, "crates", "mpm_snapshot", "out", "mpm_snapshot")
COMMANDS = "./snapshot ", "python3 "


def commands(text):
    """The commands of a text, each with the lines under it."""
    found = []
    for line in re.findall(r"^    (.*)$", text, re.M):
        if line.startswith(COMMANDS):
            found.append((line, []))
        else:
            found[-1][1].append(line)
    return found


def wrong(command, lines, program, folder):
    """What is wrong with a command that is run in a folder."""
    asked, _, output = command.partition(" >")
    words = [os.path.join(ROOT, word) if word.startswith("examples/") else word for word in shlex.split(asked)]
    words[0] = program if words[0] == "./snapshot" else sys.executable
    done = running.run(words, cwd=folder, env=os.environ | {"PYTHONPATH": ROOT})
    if done.returncode or done.stderr:
        return f"status {done.returncode}, {done.stderr.decode(errors='replace').strip()}"
    if output:
        with open(os.path.join(folder, output), "wb") as file:
            file.write(done.stdout)
        return None
    lost = missing(lines, done.stdout.decode("ascii").splitlines())
    return lost and f"not in its place: {lost}"


# Programs that wait: what they do, and where PC, C and DE are then by docs/PROFILE.md, "The kernel's calls".
WAITING = (
    # LD C,141; LD DE,1; CALL 0005h. Such a call is held, and its return address is taken from the stack.
    ("a held call", b"\x0E\x8D\x11\x01\x00\xCD\x05\x00", "0108", "008D", "0001"),
    # LD C,1; CALL 0005h. A call on the console isn't held: the gate step is taken again, at 06h of the last page.
    ("a call on the console", b"\x0E\x01\xCD\x05\x00", "BF06", "0001", "0000"),
)


def waiting_differences(program, folder):
    """What tools.core shows of programs that wait."""
    for name, code, *words in WAITING:
        path, core = os.path.join(folder, "waits.bin"), os.path.join(folder, "waits.core")
        with open(path, "wb") as file:
            file.write(code)
        with open(core, "wb") as file:
            running.run([program, "save", "program", path, "100", "0"], stdout=file)
        shown = running.run([sys.executable, "-m", "tools.core", core], cwd=ROOT, text=True).stdout
        found = [found[1] if (found := re.search(rf"^(?:.*  )?{pair} ([0-9A-F]{{4}})", shown, re.M)) else None for pair in ("PC", "BC", "DE")]
        yield name, None if found == words else f"PC, BC and DE are {found}, and not {words}"


def script_in(folder, program):
    """A copy of `./snapshot` beside a program that needs no proof."""
    built = os.path.join(folder, os.path.relpath(BUILT, ROOT))
    os.makedirs(os.path.dirname(built))
    shutil.copy(program, built)
    shutil.copytree(os.path.join(ROOT, "tools"), os.path.join(folder, "tools"))
    return shutil.copy(os.path.join(ROOT, "snapshot"), folder)


def missing_differences(program, folder):
    """What `./snapshot` says where there is no such process: a program has ended, or the number is another one."""
    script = script_in(folder, program)
    for steps, process in (("1000", "0"), ("2", "5")):
        done = running.run([script, "save", "program", os.path.join(ROOT, "examples", "hi.bin"), steps, process], text=True)
        found = done.returncode, done.stdout, done.stderr
        wanted = 10, "", f"no process\nsnapshot: no process {process} with a segment after {steps} steps: has it ended?\n"
        yield f"process {process} after {steps} steps", None if found == wanted else f"{found}, and not {wanted}"


def device_differences(program, folder):
    """A core that comes by a pipe is read once. A closed output takes no core, and no image gets it. A word that is no text is refused."""
    core, pipe = os.path.join(folder, "hi.core"), os.path.join(folder, "pipe")
    with open(core, "wb") as file:
        running.run([program, "save", "program", os.path.join(ROOT, "examples", "hi.bin"), "2", "0"], stdout=file)
    with open(core, "rb") as file, running.pipe(pipe, file.read()):
        given, piped = (running.run([program, "resume", name, "1"], timeout=10) for name in (core, pipe))
    yield "a core from a pipe", None if (given.returncode, given.stdout) == (piped.returncode, piped.stdout) == (0, piped.stdout) else str(piped)
    disk = with_file(image(), 0, b"HI      PRL", 2, HI_PRL)
    text = with_disk(1, (64, 64)).replace("hd4", "ibm3740")
    write_files(folder, {"file": text, "keys": "0 key 0 hi\\r\n", "A": disk})
    asked = ([program, "save", "run", "file", str(steps), str(process)] for steps in range(0, 2000, 5) for process in range(8))
    words = next((words for words in asked if running.run(words, cwd=folder).returncode == 0), None)
    closed = words and running.run(words, cwd=folder, preexec_fn=lambda: os.close(1))
    with open(os.path.join(folder, "A"), "rb") as file:
        found = closed and (closed.returncode, closed.stderr, file.read() == disk)
    yield "a closed output", None if found == (8, b"output failed\n", True) else str(found)
    refused = running.run([program, "resume", b"\xFF", "1"])
    yield "a word that is no text", None if (refused.returncode, refused.stdout) == (1, b"") else str(refused)


# The head of the core of `HI` after so many steps, in all 192 pages below common memory: after two C is 9, DE 010Dh, SP BEFEh, PC 0105h; two
# instructions were fetched, and interrupts are let in.
def head(steps, c, de, pc, fetched):
    registers = bytes([0, 0, 0, c]) + de.to_bytes(2, "big") + bytes(10)
    words = bytes(4) + (0xBEFE).to_bytes(2, "little") + pc.to_bytes(2, "little")
    return b"MPMCORE1" + steps.to_bytes(8, "little") + bytes([0, 0, 192, 0]) + registers + words + bytes([0, fetched, 1, 1, 0, 0, 0])


HEADS = {"0": head(0, 0, 0, 0x0100, 0), "2": head(2, 9, 0x010D, 0x0105, 2)}
SIZE = 51 + 65_536
# The steps after which a core is saved, how many instructions it is run on at most, and the line of that.
RUN_ON = [
    ("2", "5", "core 2 0 2 gate BF06 BEFC 0000 0009 010D 0000 0000 0000\n"),
    ("2", "2", "core 2 0 2 steps BF06 BEFC 0000 0009 010D 0000 0000 0000\n"),
    ("0", "2", "core 0 0 2 steps 0105 BEFE 0000 0009 010D 0000 0000 0000\n"),
]


def core_file(code=b"", size=SIZE):
    """The file of a core with the second head, of so many bytes. At 0005h there is a jump to the gate of calls, at BF06h; at PC, 0105h, are some
    bytes, and all else is 0."""
    text = bytearray(SIZE)
    for place, some in ((0, HEADS["2"]), (51 + 0x0005, b"\xC3\x06\xBF"), (51 + 0x0105, code)):
        text[place : place + len(some)] = some
    return bytes(text[:size]).ljust(size, b"\0")


def run_on_differences(program, _):
    """Cores that are saved and run on."""
    for steps, most, line in RUN_ON:
        status, said, core = endings.ended(program, ["save", "program", "file", steps, "0"], {"file": HI})
        found = (status, said, len(core), core[:51]), endings.ended(program, ["resume", "file", most], {"file": core})
        wanted = (0, "", SIZE, HEADS[steps]), (0, "", line.encode())
        yield f"saved after {steps} steps and run on by {most}", None if found == wanted else f"{found}, and not {wanted}"


# Code at PC, and the line of at most five instructions: an input (IN A,(10h)) and an illegal instruction; LD HL,1234h; LD IX,ABCDh;
# LD IY,0F1Eh; LD A,5Ah; PUSH BC.
REPLAYS = [
    (b"\x00\xDB\x10", "core 2 0 1 input 0106 BEFE 0000 0009 010D 0000 0000 0000\n"),
    (b"\xED\x00", "core 2 0 0 illegal 0105 BEFE 0000 0009 010D 0000 0000 0000\n"),
    (b"\x21\x34\x12\xDD\x21\xCD\xAB\xFD\x21\x1E\x0F\x3E\x5A\xC5", "core 2 0 5 steps 0113 BEFC 5A00 0009 010D 1234 ABCD 0F1E\n"),
]
# How many bytes a file has of a core, what is put at which place, and where it is seen that it is none.
FAULTS = [
    (100, 0, b"", 100), (SIZE, 0, b"m", 0), (SIZE + 1, 0, b"", SIZE), (70_000, 0, b"", SIZE), (0, 0, b"", 0), (17, 0, b"", 17),
    (18, 0, b"", 18), (19, 0, b"", 19), (SIZE, 7, b"2", 7), (SIZE, 16, b"\x20", 16), (SIZE, 17, b"\xC8\x03", 18), (SIZE, 17, b"\x01\xC0", 17),
    (SIZE, 18, b"\xC1", 18), (SIZE, 18, b"\x04", 17_459), (SIZE, 48, b"\x03", 48), (SIZE, 50, b"\x02", 50), (7, 0, b"", 7), (50, 0, b"", 50),
    (SIZE, 18, b"\x03", 18), (SIZE, 19, b"\x02", 19), (SIZE, 46, b"\x02", 46), (SIZE, 47, b"\x02", 47), (SIZE, 49, b"\x02", 49), (100, 16, b"\x20", 16),
]  # fmt: skip
USAGE = (
    "usage: mpm_snapshot save program FILE STEPS PID or mpm_snapshot save run MACHINE STEPS PID or mpm_snapshot resume CORE M"
)
# Words of other forms, parted by `,`.
OTHER_FORMS = """
save,program,file,2
save,program,file,2,0,--trace
save,program,file,2,--trace
save,program,file,2,32
save,program,file,2,05
save,program,file,4000000001,0
save,program,,2,0
save,gen,1,2,0
save,file,5
resume,,5
resume,file,4000000001
"""
# The words after which a file is run, and how that ends.
ENDED = [
    ("save program file 9 0", HI, (10, "no process", b"")),
    ("save run file 2 0", HI, (2, "bad machine file", b"")),
    ("save program file 2 0", bytes(48_513), (5, "input too long", b"")),
    ("save run file 2 0", endings.MACHINE.ljust(65_537), (5, "input too long", b"")),
    ("save program other 2 0", HI, (6, "cannot read", b"")),
    ("save program . 2 0", HI, (6, "cannot read", b"")),
    ("resume file 5", HI, (11, "bad core at 0", b"")),
    ("resume other 5", HI, (6, "cannot read", b"")),
    ("resume . 5", HI, (6, "cannot read", b"")),
]


def ended_differences(program, _):
    """How words and files end that say no core or no machine, or code that stops a replay."""
    rows = [("resume file 5".split(" "), core_file(code), (0, "", line.encode())) for code, line in REPLAYS]
    for size, place, some, seen in FAULTS:
        text = core_file(size=size)
        text = text[:place] + some + text[place + len(some) :]
        rows.append(("resume file 5".split(" "), text, (11, f"bad core at {seen}", b"")))
    rows += [(line.split(","), HI, (1, USAGE, b"")) for line in OTHER_FORMS[1:-1].split("\n")]
    rows += [([], HI, (1, USAGE, b"")), *((words.split(" "), text, ending) for words, text, ending in ENDED)]
    for number, (words, text, wanted) in enumerate(rows):
        found = endings.ended(program, words, {"file": text})
        yield f"{' '.join(words)} ({number})", None if found == wanted else f"{found[:2]} and {found[2][:99]}, and not {wanted}"
    yield from endings.differences(program, ["save", "run", "file", "10", "0"], b"")


# The most bytes that an output takes. A core's head, its segment and common memory are written one after the other.
LIMITS = [0, 20, 51, 1_000, 49_203, 60_000]


def refused_differences(program, folder):
    """What is left of an output that takes no more, and how a run ends that has little memory."""
    whole = endings.ended(program, ["save", "program", "file", "2", "0"], {"file": HI})[2]
    path = os.path.join(folder, "part")
    for words, text, limits in ((["save", "program", "file", "2", "0"], whole, LIMITS), (["resume", "file", "5"], RUN_ON[0][2].encode(), [0, 20])):
        files = {"file": HI if words[0] == "save" else whole}
        for limit in limits:
            with open(path, "wb") as file:
                status, said, _ = endings.ended(program, words, files, preexec_fn=refusing.file_size(limit), stdout=file)
            with open(path, "rb") as file:
                found = status, said, file.read() == text[:limit]
            yield f"{words[0]} to {limit} bytes", None if found == (8, "output failed", True) else str(found)
        yield f"{words[0]} with little memory", endings.starved(program, words, files)


def main():
    program = running.program_in(sys.argv[1:], BUILT)
    with open(PAGE, encoding="utf-8") as file:
        section = file.read().partition(SECTION)[2].partition("\n## ")[0]
    tally = running.Tally()
    with tempfile.TemporaryDirectory() as folder:
        for command, lines in commands(section):
            tally.add(command, running.in_time(wrong, command, lines, program, folder))
        for group in (waiting_differences, missing_differences, device_differences, run_on_differences, ended_differences, refused_differences):
            for name, said in running.each_in_time(group, program, folder):
                tally.add(name, said)
    return tally.status()


if __name__ == "__main__":
    sys.exit(main())
