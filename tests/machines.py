"""Machines on which commands are typed: disks of files, made without the program, what the consoles then show, and what the disks have
in the end."""

import os
import tempfile

from tests import filing, plays, running
from tools import images

COMMANDS = os.path.join(running.ROOT, "commands")
# Steps from one line that is typed to the next: enough for any command of the check.
PAUSE = 4_000_000
# The attributes by the letters whose bit 7 they are.
ATTRIBUTES = {"F1": 0, "F2": 1, "F3": 2, "F4": 3, "RO": 8, "SYS": 9, "ARC": 10}


def name_bytes(text):
    name, _, kind = text.partition(".")
    return name.ljust(8).encode() + kind.ljust(3).encode()


class Disk:
    """What a disk has: its files by user and name, each with its bytes and the set of its attributes; the modes and the passwords of its files;
    and its label's data. Once it was made these say what it should have in the end."""

    def __init__(self, kind, files=(), label=None):
        self.drive = plays.empty(kind)
        self.files, self.protections, self.label = {}, {}, label and label | 1
        for name, contents in dict(files).items():
            self.put(name, contents)
        if label is not None:
            self.drive.label, self.drive.label_name = filing.Protection(bytes([self.label]) + bytes(17)), b"LABEL      "

    def put(self, name, contents, *attributes, user=0):
        """Puts a file there, filled with ^Z up to a whole record."""
        contents += b"\x1A" * (-len(contents) % 128)
        self.files[user, name] = (contents, frozenset(attributes))
        if contents:
            plays.put_file(self.drive, user, name_bytes(name), contents)
        else:
            self.drive.parts[user, name_bytes(name), 0] = filing.Part([0] * 11, 0)
        for part in self.drive.entries(user, name_bytes(name)):
            for attribute in attributes:
                part.attributes[ATTRIBUTES[attribute]] = 1

    def protect(self, name, mode, password, user=0):
        """Gives a file a password and a mode (80h, 40h or 20h), as an XFCB has them."""
        xfcb = filing.Protection(bytes([mode]) + bytes(17))
        xfcb.set_password(password.ljust(8).encode())
        self.drive.xfcbs[user, name_bytes(name)] = xfcb
        self.protections[user, name] = (mode, password.ljust(8))

    def change(self, name, *attributes, user=0):
        """The attributes that a file should have."""
        self.files[user, name] = (self.files[user, name][0], frozenset(attributes))

    @property
    def image(self):
        return plays.image_of(self.drive)


class Given(Disk):
    """A disk of an image that is there."""

    def __init__(self, kind, image):
        super().__init__(kind)
        self.given, self.files = image, files_on(kind, image)
        self.protections, self.label = protections_on(kind, image)

    @property
    def image(self):
        return self.given


def with_commands(kind="hd4", *names):
    """A disk that has the commands under user 0, with SYS."""
    disk = Disk(kind)
    for file in sorted(os.listdir(COMMANDS)):
        name, _, type_ = file.partition(".")
        if type_ == "prl" and (not names or name in names):
            with open(os.path.join(COMMANDS, file), "rb") as program:
                code = program.read()
            disk.put(file.upper(), code + bytes(-len(code) % 128), "SYS")
    return disk


def files_on(kind, image):
    """The files of an image, as a disk has them."""
    letters = {place: attribute for attribute, place in ATTRIBUTES.items()}
    fault = images.first_fault(images.KINDS[kind], image)
    if fault:
        raise ValueError(f"the image is at fault: {fault}")
    found = {}
    for (user, name), parts in images.files_of(images.KINDS[kind], image).items():
        attributes = frozenset(letters[place] for place, bit in enumerate(parts[0].attributes) if bit)
        found[user, images.file_text(name)] = (images.contents(images.KINDS[kind], image, parts), attributes)
    return found


def protections_on(kind, image):
    """The modes and passwords of an image's files, of those that guard anything, and the label's data, as a disk has them."""
    drive = filing.Drive(kind, image)
    files = {(user, images.file_text(name)): (xfcb.mode, xfcb.password.decode()) for (user, name), xfcb in drive.xfcbs.items() if xfcb.mode}
    return files, drive.label and drive.label.mode


def shown(lines, mark):
    """The bytes that a console or printer got, of the lines of a run: each has its mark in front."""
    text = ""
    for line in lines.split("\n"):
        if line.startswith(mark + " "):
            line = line[len(mark) + 1 :]
            backslashes = len(line) - len(line.rstrip("\\"))
            text += line[:-1] if backslashes % 2 else line + "\n"
    return text.encode().decode("unicode_escape")


class Ran:
    """What a run has left."""

    def __init__(self, lines, images_):
        self.lines, self.images = lines, images_

    def console(self, number=0):
        return shown(self.lines, f"c{number}")

    def printer(self, number=0):
        return shown(self.lines, f"l{number}")


def keys(text):
    return "".join({"\r": "\\r", "\n": "\\n", "\\": "\\\\", "\t": "\\t"}.get(key, key if " " <= key < "\x7F" else f"\\x{ord(key):02X}") for key in text)


def run(program, disks, typed, *, consoles=1, turn=0, segments=(192, 192, 192), clock="", pause=PAUSE, tick=1000, printers=1):
    """Boots a machine on disks, by their letters, and types lines: each is its console and its keys; one that is typed at the same time
    as the one before has True after it."""
    with tempfile.TemporaryDirectory() as folder:
        step, script = 0, []
        for console, text, *together in typed:
            step += 0 if together and together[0] else pause
            script.append(f"{step} key {console} {keys(text)}\n")
        machine = f"version = 1\nconsoles = {consoles}\nprinters = {printers}\ntick_every = {tick}\ndisk_turn = {turn}\nscript = \"keys\"\n{clock}"
        machine += "".join(f"[[segment]]\nbase = 0\npages = {pages}\n" for pages in segments)
        for letter, disk in disks.items():
            machine += f'[[drive]]\nletter = "{letter}"\nkind = "{disk.drive.kind_name}"\nimage = "{letter}"\n'
            with open(os.path.join(folder, letter), "wb") as file:
                file.write(disk.image)
        for name, text in (("keys", "".join(script)), ("machine", machine)):
            with open(os.path.join(folder, name), "w", encoding="ascii") as file:
                file.write(text)
        done = running.run([program, "run", "machine", str(step + pause)], cwd=folder, text=True)
        if done.returncode:
            raise ValueError(f"status {done.returncode}: {done.stderr}{machine}")
        left = {}
        for letter in disks:
            with open(os.path.join(folder, letter), "rb") as file:
                left[letter] = file.read()
        return Ran(done.stdout, left)
