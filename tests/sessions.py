"""Sessions: what is typed at the consoles of a machine, what they should show, and how what they show and what the disks have in the end differ
from that."""

import re

from tests import machines


class Session:
    """Lines that are typed at the consoles of a machine, and what they should show."""

    def __init__(self, disks, **machine):
        self.disks, self.machine = disks, machine
        self.typed, self.texts = [], {number: "" for number in range(machine.get("consoles", 1))}
        self.prompts = {number: "0A>" for number in self.texts}
        self.printed, self.together = "", False

    def type(self, line, *shown, console=0):
        """A line at the prompt, and the lines that it brings."""
        self.typed.append((console, line + "\r", self.together))
        self.texts[console] += self.prompts[console] + line + "\r\n" + "".join(text + "\r\n" for text in shown)

    def key(self, keys, *shown, console=0, echo=None):
        """Keys that a program or the kernel takes, and the text that they bring after what is shown by then."""
        self.typed.append((console, keys, self.together))
        self.texts[console] += (keys if echo is None else echo) + "".join(text + "\r\n" for text in shown)

    def ask(self, question, answer, *shown, console=0):
        """A question, which ends in `(Y/N)? `, and the line that answers it."""
        self.texts[console] += question + " (Y/N)? "
        self.key(answer + "\r", *shown, console=console, echo=answer + "\r\n")

    def go(self, user_and_drive, console=0):
        """The prompt from now on."""
        self.prompts[console] = user_and_drive + ">"

    def wanted(self, console):
        return self.texts[console] + self.prompts[console]

    def differences(self, program):
        ran = machines.run(program, self.disks, self.typed, **self.machine)
        for console in self.texts:
            yield from differing(f"console {console}", ran.console(console), self.wanted(console))
        yield from differing("printer", ran.printer(), self.printed)
        for letter, disk in self.disks.items():
            yield from differing_disk(letter, disk, ran.images[letter])


def differing(what, found, wanted):
    if found != wanted:
        for place, (one, other) in enumerate(zip(found.split("\n") + [None], wanted.split("\n") + [None])):
            if one != other:
                yield f"{what}, line {place + 1}: found {one!r}, wanted {other!r}"
                return


def differing_disk(letter, disk, image):
    found = machines.files_on(disk.drive.kind_name, image)
    for name in sorted(found.keys() | disk.files.keys()):
        if found.get(name) != disk.files.get(name):
            yield f"drive {letter}, {name}: found {outline(found.get(name))}, wanted {outline(disk.files.get(name))}"
    kept = machines.protections_on(disk.drive.kind_name, image)
    if kept != (disk.protections, disk.label):
        yield f"drive {letter}: found {kept}, wanted {(disk.protections, disk.label)}"


def outline(file):
    return "no file" if file is None else f"{len(file[0])} bytes {file[0][:24]!r}, {sorted(file[1])}"


# What is typed after a command of the document: the answers to its questions, a text, and ^D.
ANSWERS = {
    "pip two.sub=con:": ["dir $1.*\rstat $1.*\r\x1A"],
    "eraq b:*.prl": ["y\r", "n\r"],
    "era b:*.*": ["n\r"],
    "eraq letter.txt": ["\x04"],
    "attach eraq": ["n\r"],
}


class Document(Session):
    """The examples of a document, one after the other, each of which begins with a prompt. Blanks at the ends of lines aren't there."""

    def __init__(self, path, disks, **machine):
        super().__init__(disks, **machine)
        with open(path, encoding="utf-8") as file:
            blocks = [block for block in re.findall(r"(?:^(?:    .*)?\n)+", file.read(), re.M) if block.strip("\n").startswith("    0A>")]
        self.lines = [line.removeprefix("    ") for block in blocks for line in block.strip("\n").split("\n")]
        for line in self.lines:
            command = line.rpartition("0A>")[2] if "0A>" in line else None
            if command and not self.is_of_submit(line):
                self.typed += [(0, keys, False) for keys in (command + "\r", *ANSWERS.get(command, []))]

    def is_of_submit(self, line):
        """A command that SUBMIT sends: the one in the document has a word of the upper case."""
        return "LETTER.*" in line

    def differences(self, program):
        ran = machines.run(program, self.disks, self.typed, **self.machine)
        found = [line.rstrip() for line in ran.console().replace("\r\n", "\n").replace("\r", "").split("\n")]
        yield from differing("the document", "\n".join(found), "\n".join([*self.lines, "0A>"]))
