"""Plays: tables of calls for the guest of guests/calls.asm, with the lines that it should write and what the disks should have in the
end, which the model of filing.py works out as the tables are made; and their runs by the program."""

import itertools
import os
import tempfile

from tests import filing, running
from tools import images

# The date, 4,660 days, hour and minute of the machine, as a stamp has them.
STAMP = bytes([0x34, 0x12, 0x21, 0x43])
CLOCK = "date = 0x1234\nhour = 21\nminute = 43\n"
PROCESSES = 5
STEPS = 40_000_000
# The guest of each console.
GUESTS = ("calls", "callt")
# The base page of a segment of all pages, without a tail.
BASE_PAGE = {0: b"\xC3\x03\xBF", 5: b"\xC3\x06\xBF", 0x5D: b" " * 11, 0x6D: b" " * 11}
# Where the guest keeps lines, and how many bytes of them it may.
ROOM = 3_600
# The bytes of the program and its table: up to the lines.
LARGEST = 0x8000 - 0x0100


def image_of(drive):
    """An image that stands for a drive: its entries in their order, and blocks as they come."""
    kind = drive.kind
    image = bytearray([images.FREE]) * kind.size
    entries, block = [], kind.directory_blocks
    for (user, name, _), part in drive.parts.items():
        numbers = [0] * kind.places
        for place, records in part.blocks.items():
            for number, record in enumerate(records):
                at = images.sector_place(kind, block * kind.block_records + number)
                image[at : at + images.SECTOR] = record
            numbers[place], block = block, block + 1
        name = bytes(letter + 128 * bit for letter, bit in zip(name, part.attributes))
        head = bytes([user]) + name + bytes([part.last % 32, 0, part.last // 32, part.top])
        entries.append(head + b"".join(number.to_bytes(2 if kind.wide else 1, "little") for number in numbers))
    protected = [(bytes([16 + user]) + name, xfcb) for (user, name), xfcb in drive.xfcbs.items()]
    protected += [(bytes([images.LABEL]) + drive.label_name, drive.label)] if drive.label else []
    for name, protection in protected:
        stored = protection.bytes()
        entries.append(name + stored[:2] + bytes(2) + stored[2:])
    entries += [b"\xFF" * 32] * drive.kept
    for slot, entry in enumerate(entries):
        at = images.slot_place(kind, slot)
        image[at : at + 32] = entry
    return bytes(image)


def empty(kind_name):
    return filing.Drive(kind_name, bytes([images.FREE]) * images.KINDS[kind_name].size)


def put_file(drive, user, name, contents):
    """Puts a file of whole records into a drive."""
    drive.parts[user, name, 0] = filing.Part([0] * 11, 0)
    for record in range(len(contents) // 128):
        drive.write(user, name, record, contents[128 * record : 128 * record + 128])


def program_disk(codes):
    """The drive that has the guests."""
    drive = empty("hd4")
    for name, code in zip(GUESTS, codes):
        put_file(drive, 0, f"{name:8}COM".upper().encode(), code.ljust(LARGEST, b"\0"))
    return drive


class Play:
    """Tables under way: drives of the model by their letters, beside the one that has the guest, and what has been written so far."""

    # How many consoles there are, with a guest and a segment for each, what the machine file says of the clock, and the words of the run
    # after its steps.
    programs, clock, words = 1, "", ()

    def __init__(self, drives, home=0):
        self.home = home
        self.images = {letter: image_of(drive) for letter, drive in drives.items()}
        self.kinds = {letter: drive.kind_name for letter, drive in drives.items()}
        self.begin()
        # The other processes wait for their turn from the beginning on.
        self.tables = [bytearray()] + [bytearray([9]) for _ in range(1, PROCESSES)]
        self.lines, self.kept, self.who = "", "", 0

    def read(self, address, count):
        return self.process.memory.read(address, count)

    def begin(self):
        """The system as the guest begins."""
        drives = {ord(letter) - 65: filing.Drive(self.kinds[letter], image) for letter, image in self.images.items()}
        guests = program_disk([b""] * self.programs)
        self.system = filing.System({self.home: guests} | drives, PROCESSES, STAMP, self.programs)
        for process in self.system.processes:
            process.drive = self.home
            for address, bytes_ in BASE_PAGE.items():
                process.memory.place(address, bytes_)

    @property
    def process(self):
        return self.system.processes[self.who]

    @property
    def rows(self):
        """The table of the process that goes on."""
        return self.tables[self.who]

    def add(self, *bytes_):
        self.tables[self.who] += bytes(bytes_)

    def go(self, who):
        """Another process goes on, and this one waits."""
        if who != self.who:
            self.add(1, who, 9)
            self.who = who

    def poke(self, address, bytes_):
        address %= 0x10000
        for place in range(0, len(bytes_), 255):
            piece = bytes(bytes_[place : place + 255])
            self.add(2, *filing.word((address + place) % 0x10000), len(piece), *piece)
        self.process.memory.place(address, bytes_)

    def fill(self, address, count, byte):
        """Fills records, each with a byte that is one more."""
        self.add(3, *filing.word(address), count, byte)
        self.process.memory.place(address, b"".join(bytes([(byte + number) % 256]) * 128 for number in range(count)))

    def call(self, label, function, parameter, sums=(), is_last=False):
        """A call, whose line has a label, the function, the answer, and sums of memory by address and length."""
        head = f"{label} {function}"
        self.add(7, len(head), *head.encode(), 5 if is_last else 4, function, *filing.word(parameter))
        answer = self.system.call(self.who, function, parameter)
        self.lines += "".join(text for _, text in self.system.said)
        self.system.said.clear()
        self.kept += head
        if answer is None:
            self.who = 0
        else:
            self.keep_word(answer)
        for address, count in sums:
            self.add(6, *filing.word(address), *filing.word(count))
            self.keep_word(added_up(self.read(address, count)))
        self.add(7, 2, 13, 10)
        self.kept += "\\r\n"
        if len(self.kept) > ROOM:
            self.write()
        return answer

    def keep_word(self, number):
        self.add(7, 0)
        self.kept += f" {number:04X}"

    def write(self):
        who = self.who
        self.go(0)
        self.add(8)
        self.lines, self.kept = self.lines + self.kept, ""
        self.go(who)

    def finish(self):
        self.write()
        self.go(0)
        self.add(10)

    def ran(self, _):
        """The model has done the calls already, in their order."""
        return None

    def consoles(self):
        """What the guest of each console writes."""
        return [self.lines]

    def tables_of(self, program):
        return self.tables[PROCESSES * program : PROCESSES * (program + 1)]

    def codes(self):
        """Each guest with its tables, each of which begins where its word says."""
        for program in range(self.programs):
            code, tables = guest("calls"), self.tables_of(program)
            place = 0x0100 + len(code) + 2 * PROCESSES
            starts = [place + sum(map(len, tables[:number])) for number in range(PROCESSES)]
            yield code + b"".join(filing.word(start) for start in starts) + b"".join(tables)

    @property
    def is_full(self):
        return any(sum(map(len, self.tables_of(program))) > LARGEST - 3_000 for program in range(self.programs))


class Crowd(Play):
    """A play of two guests at two consoles, in which each process makes its calls as they come, each in memory of its own. While it is
    made the calls are tried one after the other; what they should answer is known after a run, by the order in which they were
    completed, as the disk serves one at a time."""

    # The ticks are too slow for another minute, which stamps would have.
    programs, clock, words = 2, "tick_every = 1000\n", ("--trace",)

    def __init__(self, drives):
        super().__init__(drives)
        self.tables = [bytearray() for _ in self.system.processes]
        # Nobody calls before both guests are loaded: their files were open until then.
        self.meet(FIRST_FLAG)
        self.who = 0
        self.steps = [[] for _ in self.system.processes]
        self.sums = []

    def meet(self, flag):
        """All processes of both guests wait for one another: each gives the turn to the next one of its guest, and the first ones have flags:
        before that as they begin, and after it in the end."""
        for self.who in range(len(self.tables)):
            number, other = self.who % PROCESSES, self.who // PROCESSES ^ 1
            if number:
                self.add(9, 1, (number + 1) % PROCESSES)
            else:
                turns, flags = (1, 1, 9), (4, SET_FLAG, flag + (other ^ 1), 0, 4, WAIT_FLAG, flag + other, 0)
                self.add(*(flags + turns if flag == FIRST_FLAG else turns + flags))

    def go(self, who):
        self.who = who

    def poke(self, address, bytes_):
        self.steps[self.who].append((address % 0x10000, bytes(bytes_)))
        super().poke(address, bytes_)

    def fill(self, address, count, byte):
        super().fill(address, count, byte)
        self.steps[self.who].append((address, self.read(address, 128 * count)))

    def call(self, label, function, parameter, sums=(), is_last=False):
        self.add(4, function, *filing.word(parameter))
        self.steps[self.who].append((function, parameter))
        self.sums = sums
        return self.system.call(self.who, function, parameter)

    def finish(self):
        """Nobody ends before all calls are completed; then a guest's first process writes the memory of the last call's sums."""
        self.meet(LAST_FLAG)
        for self.who in range(len(self.tables)):
            if self.who % PROCESSES:
                self.add(9)
            else:
                for address, count in self.sums:
                    self.add(6, *filing.word(address), *filing.word(count), 7, 0)
                self.add(7, 2, 13, 10, 8, 10)

    def ran(self, lines):
        """What is wrong with the answers of a run, by its records of completed calls; else the model has done them in their order."""
        self.begin()
        places = [0] * len(self.steps)
        processes = by_slot([int(line.split()[2]) for line in lines if line.split()[3] == str(CREATE)])
        for line in lines:
            _, _, slot, function, _, _, parameter, answer = line.split()
            who, function = processes[int(slot)], int(function)
            if function in NOT_COMPARED:
                continue
            while isinstance(self.steps[who][places[who]][1], bytes):
                self.system.processes[who].memory.place(*self.steps[who][places[who]])
                places[who] += 1
            if self.steps[who][places[who]] != (function, int(parameter, 16)):
                return f"{line!r} in place of {self.steps[who][places[who]]}"
            places[who] += 1
            wanted = self.system.call(who, function, int(parameter, 16))
            if f"{wanted:04X}" != answer:
                return f"{line!r}, and not {wanted:04X}"
        return None if places == list(map(len, self.steps)) else f"only {places} of its calls are completed"


    def consoles(self):
        """Texts of errors come as the calls are completed, and the sums after them. The descriptors of the processes that a guest creates have
        console 0."""
        for program in range(self.programs):
            first = self.system.processes[PROCESSES * program]
            texts = [text for who, text in self.system.said if (who // PROCESSES if who % PROCESSES == 0 else 0) == program]
            yield "".join([*texts, *(f" {added_up(first.memory.read(*where)):04X}" for where in self.sums), "\\r\n"])


# The flags of the guests, of each its own and after it the other's, by which they meet; calls that aren't compared.
FIRST_FLAG, LAST_FLAG = 10, 12
WAIT_FLAG, SET_FLAG, CREATE = 132, 133, 144
NOT_COMPARED = (9, WAIT_FLAG, SET_FLAG, 142, CREATE)


def by_slot(creators):
    """The process of each slot: of the guests' first ones, which create the others, that of console 0 has the lowest, as it begins first;
    those that they create have the lowest that are free."""
    firsts, processes = sorted(creators), {}
    for creator in creators:
        free = (slot for slot in range(firsts[0], 32) if slot not in firsts and slot not in processes)
        for number, slot in enumerate([creator, *itertools.islice(free, PROCESSES - 1)]):
            processes[slot] = PROCESSES * firsts.index(creator) + number
    return processes


def added_up(bytes_):
    first = second = 0
    for byte in bytes_:
        first = (first + byte) % 256
        second = (second + first) % 256
    return 256 * second + first


def guest(name):
    with open(os.path.join(running.TESTS, "guests", name + ".com"), "rb") as file:
        return file.read()


def run(program, play, disk_turn):
    """What is wrong with the play's run; None where all is as it should be."""
    codes = list(play.codes())
    if max(map(len, codes)) > LARGEST:
        return f"a table is too long: {list(map(len, codes))}"
    guests = program_disk(codes)
    disks = {chr(65 + play.home): image_of(guests), **play.images}
    # Where a guest isn't on drive A, its command names the drive.
    commands = [(f"{chr(97 + play.home)}:" if play.home else "") + name for name in GUESTS[: play.programs]]
    with tempfile.TemporaryDirectory() as folder:
        keys = "".join(f"0 key {console} {command}\\r\n" for console, command in enumerate(commands))
        for name, contents in {"file": machine_file(play, disk_turn).encode(), "keys": keys.encode(), **disks}.items():
            with open(os.path.join(folder, name), "wb") as file:
                file.write(contents)
        words = [program, "run", "file", str(STEPS), *play.words]
        done = running.run(words, timeout=120, cwd=folder)
        if done.returncode:
            return f"status {done.returncode}, {done.stderr.decode()!r}"
        lines = done.stdout.decode().splitlines(True)
        wrong = play.ran([line for line in lines if line.startswith("t ")])
        for console, (command, wanted) in enumerate(zip(commands, play.consoles())):
            found = "".join(line[3:] for line in lines if line.startswith(f"c{console} "))
            wrong = wrong or other_lines(found, f"0A>{command}\\r\n{wanted}0A>\\\n")
        left = play.system.drives[play.home].parts
        left |= {key: part for key, part in guests.parts.items() if key in left}
        return wrong or other_disks(folder, play)


def machine_file(play, disk_turn):
    text = f"version = 1\nconsoles = {play.programs}\n{play.clock}disk_turn = {disk_turn}\nscript = 'keys'\n{CLOCK}"
    text += "[[segment]]\nbase = 0\npages = 192\n" * play.programs
    for number, drive in play.system.drives.items():
        letter = chr(65 + number)
        text += f"[[drive]]\nletter = '{letter}'\nkind = '{drive.kind_name}'\nimage = '{letter}'\n"
    return text


def other_lines(found, wanted):
    for number, (line, right) in enumerate(zip(found.splitlines() + [""], wanted.splitlines() + [""]), 1):
        if line != right:
            return f"in line {number} {line!r}, and not {right!r}"
    return None if found == wanted else "other lines"


def other_disks(folder, play):
    for number, drive in play.system.drives.items():
        with open(os.path.join(folder, chr(65 + number)), "rb") as file:
            image = file.read()
        fault = images.first_fault(drive.kind, image)
        if fault:
            return f"disk {chr(65 + number)}: {fault}"
        left = filing.Drive(drive.kind_name, image)
        for what, found, wanted in zip(("files", "XFCBs", "label", "other entries"), left.text(), drive.text()):
            if found != wanted:
                return f"disk {chr(65 + number)} has other {what}: {first_other(found, wanted)}"
    return None


def first_other(found, wanted):
    """The first key that differs, where both are by keys."""
    if not isinstance(found, dict):
        return f"{found}, and not {wanted}"
    key = min(key for key in found.keys() | wanted.keys() if found.get(key) != wanted.get(key))
    short = lambda value: value[:3] if isinstance(value, tuple) else value
    return f"{key}: {short(found.get(key))}, and not {short(wanted.get(key))}"
