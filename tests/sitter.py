"""Someone who sits at ./terminal in a pseudo-terminal: what is shown there, and what is typed."""

import fcntl
import os
import pty
import re
import select
import struct
import subprocess
import termios
import threading
import time

from tests.running import ROOT, SECONDS


class Glass:
    """What a terminal shows of the bytes that it gets: the control bytes of MP/M's programs, and those sequences that ./terminal sends."""

    SEQUENCE = re.compile(rb"\x1b(?:([78])|\[(\??)([0-9;]*)([A-Za-z]))")

    def __init__(self, rows, columns):
        self.is_other, self.unknown, self.rest = False, [], b""
        self.cells, self.row = [], 0
        self.resize(rows, columns)

    def resize(self, rows, columns):
        """Takes another size, with what is there as far as it has room."""
        lines = self.cells[:rows] + [[] for _ in range(rows - len(self.cells))]
        self.rows, self.columns = rows, columns
        self.cells = [line[:columns] + [" "] * (columns - len(line)) for line in lines]
        self.row, self.column, self.saved = min(self.row, rows - 1), 0, (0, 0)
        self.top, self.bottom = 0, rows - 1

    def feed(self, some):
        some, self.rest = self.rest + some, b""
        place = 0
        while place < len(some):
            found = self.SEQUENCE.match(some, place)
            if found:
                self.do(found)
                place = found.end()
            elif some[place] == 0x1B and len(some) - place < 12:
                self.rest, place = some[place:], len(some)  # it may go on
            else:
                self.put(some[place])
                place += 1

    def put(self, byte):
        if byte == 0x1B:
            self.unknown.append("a sequence that isn't known")
        elif byte == 13:
            self.column = 0
        elif byte == 8:
            self.column = max(0, self.column - 1)
        elif byte == 10:
            self.next_line()
        elif byte >= 32:
            if self.column == self.columns:
                self.column = 0
                self.next_line()
            self.cells[self.row][self.column] = chr(byte)
            self.column += 1

    def next_line(self):
        if self.row == self.bottom:
            del self.cells[self.top]
            self.cells.insert(self.bottom, [" "] * self.columns)
        elif self.row < self.rows - 1:
            self.row += 1

    def do(self, found):
        short, private, numbers, letter = found.groups()
        values = [int(number or 0) for number in numbers.split(b";")] if numbers is not None else []
        if short == b"7":
            self.saved = self.row, self.column
        elif short == b"8":
            self.row, self.column = self.saved
        elif letter == b"H":
            values = (values + [1, 1])[:2] if numbers else [1, 1]
            self.row, self.column = min(values[0], self.rows) - 1, values[1] - 1
        elif letter == b"J" and values == [2]:
            self.cells = [[" "] * self.columns for _ in range(self.rows)]
        elif letter == b"r":
            self.top, self.bottom = (values[0] - 1, min(values[1], self.rows) - 1) if numbers else (0, self.rows - 1)
            self.row = self.column = 0
        elif private and values == [1049]:
            if self.is_other != (letter == b"h"):
                self.cells = [[" "] * self.columns for _ in range(self.rows)]
            self.is_other = letter == b"h"
        elif not (letter == b"m" or private and values == [25]):
            self.unknown.append(found[0])

    def lines(self):
        return ["".join(row).rstrip() for row in self.cells]


class Wrong(Exception):
    """What isn't as it should be."""


def need(is_so, what):
    if not is_so:
        raise Wrong(what)


class Sitter:
    """Someone who sits at ./terminal with a program, in a folder, with a window of so many rows and columns."""

    def __init__(self, folder, *words, program, rows=24, columns=80, name="xterm"):
        self.glass, self.came, self.folder = Glass(rows, columns), b"", folder
        self.keyboard, self.line = pty.openpty()
        self.size(rows, columns)
        self.program, self.name = program, name
        self.begin(*words)
        self.lock = threading.Lock()
        self.reader = threading.Thread(target=self.read, daemon=True)
        self.reader.start()

    def begin(self, *words):
        """Sits down with these words, also once more in the same terminal."""
        self.before = termios.tcgetattr(self.line)
        words = [os.path.join(ROOT, "terminal"), "--program", self.program, *words]
        self.process = subprocess.Popen(
            words, cwd=self.folder, stdin=self.line, stdout=self.line, stderr=self.line, env=os.environ | {"TERM": self.name}, preexec_fn=self.session
        )  # fmt: skip

    def session(self):
        os.setsid()
        fcntl.ioctl(0, termios.TIOCSCTTY, 0)

    def size(self, rows, columns):
        fcntl.ioctl(self.line, termios.TIOCSWINSZ, struct.pack("HHHH", rows, columns, 0, 0))

    def read(self):
        while self.line is not None:
            ready, _, _ = select.select([self.keyboard], [], [], 0.05)
            if ready:
                try:
                    some = os.read(self.keyboard, 65_536)
                except OSError:
                    return
                with self.lock:
                    self.came += some
                    self.glass.feed(some)

    def resize(self, rows, columns):
        with self.lock:
            self.glass.resize(rows, columns)
        self.size(rows, columns)

    def type(self, keys):
        while keys:
            keys = keys[os.write(self.keyboard, keys) :]

    def lines(self):
        with self.lock:
            return self.glass.lines()

    def bottom(self):
        return self.lines()[-1]

    def waits(self, is_so, what, seconds=SECONDS):
        """Waits until it is so."""
        end = time.monotonic() + seconds
        while not is_so():
            if time.monotonic() > end or self.process.poll() is not None and not is_so():
                raise Wrong("\n".join([f"not within {seconds} seconds: {what}", *self.lines()]))
            time.sleep(0.01)

    def sees(self, *texts, seconds=SECONDS):
        """Waits until the lines of the screen, without the last, have these texts as lines, in this order."""
        self.waits(lambda: self.has(texts), f"{texts}", seconds)

    def has(self, texts):
        lines = iter(self.lines()[:-1])
        return all(text in lines for text in texts)

    def step(self):
        found = re.search(r"step ([0-9,]+)", self.bottom())
        return int(found[1].replace(",", "")) if found else -1

    def told(self, pattern, seconds=SECONDS):
        """Waits until the last line has this."""
        self.waits(lambda: re.search(pattern, self.bottom()), f"{pattern} in the last line", seconds)

    def ends(self, status, keys=b"\x1dq"):
        """Types the end, or what is given: the status, and the terminal as it was. Answers what was said at last."""
        self.type(keys)
        try:
            found = self.process.wait(SECONDS)
        except subprocess.TimeoutExpired:
            self.process.kill()
            raise Wrong("it doesn't end") from None
        need(termios.tcgetattr(self.line) == self.before, "the terminal isn't in the modes in which it was")
        # All that was written last is read.
        while select.select([self.keyboard], [], [], 0.2)[0]:
            time.sleep(0.05)
        with self.lock:
            need(not self.glass.is_other and (self.glass.top, self.glass.bottom) == (0, self.glass.rows - 1), "the screen isn't as it was")
            need(not self.glass.unknown, f"sequences that no terminal knows: {self.glass.unknown}")
            text = re.sub(rb"\x1b(?:[78]|\[\??[0-9;]*[A-Za-z])", b"", self.came.rpartition(b"\x1b[?1049l")[2]).decode(errors="replace")
        need(found == status, f"status {found}, and not {status}: {text}")
        return text.replace("\r\n", "\n")

    def hang_up(self):
        """Takes the terminal away."""
        line, self.line = self.line, None
        self.reader.join()
        os.close(line)
        os.close(self.keyboard)

    def close(self):
        if self.process.poll() is None:
            self.process.kill()
            self.process.wait()
        if self.line is not None:
            self.hang_up()
