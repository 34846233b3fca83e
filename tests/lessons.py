#!/usr/bin/env python3
"""python3 -m tests.lessons [PROGRAM]          runs the lessons with a built mpm, crates/mpm/out/mpm where none is named, and compares: each block of docs/LESSONS.md
                      that begins with a command with what that command writes; each step that the page names with the steps of its runs; what
                      the consoles show with a disk that does each call at once and with one in turns; what is worked out here by the rules;
                      each picture with the one that comes of its run, and with what the page's commands draw; and, where sdcc and cpmtools
                      are installed, the lesson that the page makes anew with the one that is here.
python3 -m tests.lessons --draw [PROGRAM]   draws the pictures anew.

What differs, or runs out of time, has a line; the last line counts what was compared. Status: 0 where nothing differs, 1 where something
does, 2 where something ran out of time and nothing differs."""

import gzip
import os
import re
import shlex
import shutil
import subprocess
import sys
import tempfile
import textwrap

from tests import running
from tests.running import ROOT
from tools import lessons, pictures, traces

PAGE = os.path.join(ROOT, "docs", "LESSONS.md")
OFFICE = os.path.join(ROOT, "examples", "office")
COMMAND = "examples/lessons/run "
LEFT_OUT = ".."
OWN = "    mkdir mine\n"
TURN = 20
# The pictures, each with its run and the disk's turn.
PICTURES = {"count": 0, "count-locked": TURN, "word": 0, "work": 0, "work-starves": 0, "work-waits": 0, "pipe": 0, "hold": 0, "forks": 0,
            "locks": 0, "poke": 0, "save": TURN}
# What is drawn of a lesson: from the step on in which its keys come.
BEGIN = 100_000
# The stretch of the office that README shows.
OFFICE_STEPS, OFFICE_PART = 600_000, (405_500, 409_400)


class Runs:
    """The runs of the lessons by a program, each made once."""

    def __init__(self, program):
        self.program, self.made = program, {}

    def lines(self, name, turn=None, steps=lessons.STEPS):
        key = name, turn, steps
        if key not in self.made:
            self.made[key] = lessons.run(self.program, *key, running.SECONDS)
        return self.made[key]

    def of(self, command):
        """The lines of a command of the page."""
        words = command.removeprefix(COMMAND).split()
        options = dict(zip(words[1::2], map(int, words[2::2])))
        return self.lines(words[0], options.get("--turn"), options.get("--steps", lessons.STEPS))


# The page.


def blocks(text):
    """The blocks of a text that begin with a command: each command, with the lines under it."""
    for block in re.findall(r"(?:^    .*\n)+", text, re.M):
        command, *lines = [line[4:] for line in block.splitlines()]
        if command.startswith(COMMAND) and ">" not in command:
            yield command, lines


def quotations(text):
    """The other blocks of a text, which are parts of the lessons' files, but for that which makes a lesson anew."""
    for block in re.findall(r"(?:^    .*\n)+", text, re.M):
        if COMMAND not in block and not block.startswith(OWN):
            yield [line.strip() for line in block.splitlines()]


def drawings(text):
    """The commands of a text that draw pictures: the name of each picture, the command whose lines it draws, and the words of `./timeline`."""
    for command, name, words in re.findall(rf"^    ({re.escape(COMMAND)}.*) >(\w+)\.lines\n    \./timeline \2\.lines (.*) >\2\.svg$", text, re.M):
        yield name, command, shlex.split(words)


def own_lesson(text):
    """The block that makes a lesson anew, as a script."""
    return textwrap.dedent(next(block for block in re.findall(r"(?:^    .*\n)+", text, re.M) if block.startswith(OWN)))


def is_quoted(lines):
    """Whether a file of the lessons has these lines, one after the other."""
    files = [name for name in sorted(os.listdir(lessons.FOLDER)) if name.endswith((".c", ".asm", ".toml", ".keys"))]
    return any(place(lines, [line.strip() for line in lessons.text(name).splitlines()], 0) is not None for name in files)


def pieces(lines):
    """The stretches of lines between those that say that something is left out; an empty one is where that is first or last."""
    parts = [[]]
    for line in lines:
        if line == LEFT_OUT:
            parts.append([])
        else:
            parts[-1].append(line)
    return parts


def place(piece, lines, first):
    """Where a stretch of lines is, from a place on; None where it isn't there."""
    return next((at for at in range(first, len(lines) - len(piece) + 1) if lines[at : at + len(piece)] == piece), None)


def missing(wanted, lines):
    """The first line of the stretch that a run doesn't have, or not in this order; None where it has all."""
    at, parts = 0, pieces(wanted)
    for number, piece in enumerate(parts):
        found = place(piece, lines, at)
        is_at_its_end = number < len(parts) - 1 or not piece or (found is not None and lines[-len(piece) :] == piece)
        if found is None or (number == 0 and found != 0) or not is_at_its_end:
            return piece[0]
        at = found + len(piece)
    return None


def steps_of(runs, text):
    """The steps that a lesson may name: those of records, of the script, of ticks, and of what is worked out here."""
    names = {command.split()[1] for command, _ in blocks(text)}
    steps = {call.step for command, _ in blocks(text) for call in traces.Trace(runs.of(command)).calls}
    for name in names:
        steps |= {int(line.split()[0]) for line in lessons.text(f"{name}.keys").splitlines()}
    tick = min(int(re.search(r"^tick_every = (\d+)", lessons.machine_text(name, None), re.M)[1]) for name in names) if names else 1
    steps |= {int(value) for command, _ in blocks(text) for value in re.findall(r"--steps (\d+)", command)}
    return steps | set(WordModel().steps if "word" in names else ()), tick


def page_differences(runs):
    with open(PAGE, encoding="utf-8") as file:
        for part in file.read().split("\n## ")[1:]:
            title = part.partition("\n")[0]
            for command, lines in blocks(part):
                lost = missing(lines, runs.of(command))
                yield command, lost and f"not in its place: {lost}"
            steps, tick = steps_of(runs, part)
            for number in sorted({int(word.replace(",", "")) for word in re.findall(r"\bstep (\d[\d,]*\d)", part)}):
                yield f"{title}, step {number}", None if number in steps or number % tick == 0 else "no run has anything there"
            for lines in quotations(part):
                yield f"{title}, {lines[0]}", None if is_quoted(lines) else "no file of the lessons has this"


# Both kinds of disks.


def consoles(lines):
    """What each console shows, by itself."""
    return {unit: [line for line in lines if line.startswith(unit + " ")] for unit in ("c0", "c1")}


def shown_in_turns():
    """The runs that the page shows with a disk in turns."""
    with open(PAGE, encoding="utf-8") as file:
        return {command.split()[1] for command, _ in blocks(file.read()) if "--turn" in command}


def turn_differences(runs):
    for name in lessons.names():
        if name not in shown_in_turns():
            is_same = consoles(runs.lines(name, 0)) == consoles(runs.lines(name, TURN))
            yield f"{name} in turns", None if is_same else "its consoles show something else"


# What is worked out by the rules.


class WordModel:
    """The word of lesson 2, by the rules alone: two processes take turns at ticks, 100 steps apart, and a tick takes a step itself. Each does
    200 rounds of four instructions, of which the first one takes the word and the third one stores it. Process 3 begins its rounds six
    instructions after the call in which it took its key, and so does process 4, whose call is the first thing that it does in its turn."""

    ROUNDS, TICK, BEGIN = 200, 100, 100_003

    def __init__(self):
        self.word, self.held, self.done = 0, {3: 0, 4: 0}, {3: 0, 4: 0}
        self.steps, self.shown = set(), None
        waits, process, step = {3: 6, 4: 7}, 3, self.BEGIN
        while self.shown is None:
            step += 1
            if step % self.TICK == 0:
                process = 7 - process
            elif waits[process]:
                waits[process] -= 1
            else:
                self.instruction(process, step)

    def instruction(self, process, step):
        """One instruction of a round, or, after the last round, the jump to the one that shows the word, and that one."""
        round_, part = divmod(self.done[process], 4)
        self.done[process] += 1
        self.steps.add(step)
        if round_ == self.ROUNDS:
            self.shown = self.word if part == 1 else None
        elif part == 0:
            self.held[process] = self.word
        elif part == 1:
            self.held[process] += 1
        elif part == 2:
            self.word = self.held[process]


def numbers(lines):
    """The numbers that the lines of lesson 1 say were written, in order."""
    return [int(match[1]) for line in lines if (match := re.fullmatch(r"c\d \d to (\d)\\r", line))]


def claim_differences(runs):
    """What must be, whatever the steps are."""
    for turn in (0, TURN):
        yield f"a lock loses nothing, turn {turn}", None if sorted(numbers(runs.lines("count-locked", turn))) == [*range(1, 9)] else "not 1 to 8"
        yield f"without a lock, turn {turn}", None if max(numbers(runs.lines("count", turn))) < 8 else "nothing was lost"
        word = f"c0 {WordModel().shown:04X}\\r"
        yield f"the word, turn {turn}", None if word in runs.lines("word", turn) else f"console 0 doesn't show {word}"
        yield f"the word with DI, turn {turn}", None if f"c0 {400:04X}\\r" in runs.lines("word-guarded", turn) else "it isn't 400"


# The pictures.


def picture(runs, name, turn):
    trace = traces.Trace(runs.lines(name, turn), turn).part(BEGIN, lessons.STEPS)
    return pictures.Picture(trace, lessons.processes(name)).svg()


def office_picture(program):
    """The office at work: both consoles take a box out of the stock."""
    with tempfile.TemporaryDirectory() as folder:
        for name in ("office.toml", "office.keys"):
            shutil.copy(os.path.join(OFFICE, name), folder)
        with gzip.open(os.path.join(OFFICE, "office.img.gz")) as packed, open(os.path.join(folder, "office.img"), "wb") as image:
            shutil.copyfileobj(packed, image)
        words = [program, "run", "office.toml", str(OFFICE_STEPS), "--trace"]
        done = running.run(words, cwd=folder, text=True)
    return pictures.Picture(traces.Trace(done.stdout.splitlines(), TURN).part(*OFFICE_PART), {3: "3 stock", 4: "4 stock"}).svg()


def drawn(runs):
    """Each picture by its path."""
    for name, turn in PICTURES.items():
        yield os.path.join(lessons.FOLDER, f"{name}.svg"), picture(runs, name, turn)
    yield os.path.join(ROOT, "docs", "office.svg"), office_picture(runs.program)


def picture_differences(runs):
    for path, svg in drawn(runs):
        is_same = os.path.exists(path) and open(path, encoding="utf-8").read() == svg
        yield os.path.relpath(path, ROOT), None if is_same else "its run gives another picture: python3 -m tests.lessons --draw draws it anew"


def drawing_differences(runs):
    """What the page's commands draw."""
    with open(PAGE, encoding="utf-8") as file:
        for name, command, words in drawings(file.read()):
            lines = "\n".join(runs.of(command)) + "\n"
            svg = running.run([os.path.join(ROOT, "timeline"), *words], input=lines, text=True).stdout
            with open(os.path.join(lessons.FOLDER, f"{name}.svg"), encoding="utf-8") as committed:
                yield f"timeline {' '.join(words)}", None if committed.read() == svg else f"it isn't {name}.svg"


def folder_of_links(folder, program):
    """Makes a folder like the one above this one, with this program in the place of `./mpm`."""
    for name in ("commands", "examples", "tools"):
        os.symlink(os.path.join(ROOT, name), os.path.join(folder, name))
    os.symlink(program, os.path.join(folder, "mpm"))


def own_differences(runs):
    """The lesson that the page makes anew: its lines are those of the run of that name."""
    if not (shutil.which("sdcc") and shutil.which("mkfs.cpm")):
        return
    with open(PAGE, encoding="utf-8") as file:
        script = own_lesson(file.read())
    with tempfile.TemporaryDirectory() as folder:
        folder_of_links(folder, runs.program)
        done = running.run(["bash", "-ec", script], cwd=folder, stderr=subprocess.STDOUT, text=True)
        path = os.path.join(folder, "mine", "count.lines")
        found = open(path, encoding="ascii").read().splitlines() if os.path.exists(path) else None
    wanted = [line for line in runs.lines("count") if not line.startswith("d ")]
    yield "a lesson of one's own", None if done.returncode == 0 and found == wanted else f"its lines are others: {done.stdout}"


def main(words):
    is_drawn = words[:1] == ["--draw"]
    words = words[is_drawn:]
    runs, tally = Runs(running.program_in(words)), running.Tally()
    if is_drawn:
        for path, svg in drawn(runs):
            with open(path, "w", encoding="utf-8") as file:
                file.write(svg)
        return 0
    for group in (page_differences, turn_differences, claim_differences, picture_differences, drawing_differences, own_differences):
        for what, said in running.each_in_time(group, runs):
            tally.add(what, said)
    return tally.status()


if __name__ == "__main__":
    sys.exit(main(sys.argv[1:]))
