"""The terminal at which someone sits: raw, with the shown console's bytes as they come and a line at the bottom; and as it was, again."""

import contextlib
import os
import re
import select
import signal
import sys
import termios
import tty

# A sequence of control bytes that isn't complete yet: nothing may be written within it.
UNFINISHED = re.compile(rb"\x1b(?:\[[0-?]*[ -/]*|[=Y].?)?\Z", re.DOTALL)
# How much of a console is written where it is drawn anew.
SHOWN_BYTES = 65_536
LEAST_ROWS = 3


class Screen:
    def __init__(self):
        self.input, self.output = sys.stdin.fileno(), sys.stdout.fileno()
        self.is_plain = os.environ.get("TERM", "dumb") in ("", "dumb")
        self.before, self.tail, self.rows, self.columns = None, b"", 0, 0
        self.is_gone = False
        # The line at the bottom, None where it has to be written anew.
        self.written = None

    def write(self, some):
        """Writes all, unless the terminal is gone."""
        while some and not self.is_gone:
            try:
                some = some[os.write(self.output, some) :]
            except BlockingIOError:
                select.select([], [self.output], [])
            except OSError:
                self.is_gone = True

    # The modes of the terminal.

    def enter(self):
        """Makes the terminal raw, also once more, and takes its other screen where it has one. That is cleared, as a sitting that was
        killed leaves the terminal there."""
        if self.before is None:
            self.before = termios.tcgetattr(self.input)
        tty.setraw(self.input, termios.TCSADRAIN)
        if not self.is_plain:
            self.write(b"\x1b[?1049h\x1b[0m\x1b[2J\x1b[H")
        self.measure()

    def leave(self):
        """Leaves the terminal as it was."""
        if self.before is None:
            return
        self.write(b"\r\n" if self.is_plain else b"\x1b[0m\x1b[r\x1b[?25h\x1b[?1049l")
        with contextlib.suppress(termios.error):
            termios.tcsetattr(self.input, termios.TCSADRAIN, self.before)
        self.before = None

    def pause(self):
        """Stops this process, with the terminal as it was, until it is continued."""
        self.leave()
        os.kill(os.getpid(), signal.SIGSTOP)
        self.enter()

    def measure(self):
        """Takes the size of the window, whose last line is not the console's."""
        try:
            self.columns, self.rows = os.get_terminal_size(self.output)
        except OSError:
            self.columns, self.rows = 80, 24
        self.has_line = not self.is_plain and self.rows >= LEAST_ROWS
        if not self.is_plain:
            self.write(b"\x1b[1;%dr" % (self.rows - 1) if self.has_line else b"\x1b[r")

    # What is shown.

    def show(self, some):
        """Writes what came after all that is there."""
        if len(some) > SHOWN_BYTES:
            self.draw(some)
        elif some:
            self.write(some)
            self.tail = (self.tail + some)[-16:]

    def draw(self, some):
        """Draws a console anew: its last lines, from the beginning of one on."""
        if len(some) > SHOWN_BYTES:
            some = some[-SHOWN_BYTES:]
            some = some[some.find(b"\n") + 1 :]
        self.write(b"\r\n" if self.is_plain else b"\x1b[0m\x1b[2J\x1b[H")
        self.write(some)
        self.tail, self.written = some[-16:], None

    def line(self, text):
        """Writes the line at the bottom where it is another one, unless the console is within a sequence of control bytes."""
        if self.has_line and text != self.written and not UNFINISHED.search(self.tail):
            shown = text[: self.columns].ljust(self.columns).encode(errors="replace")
            self.write(b"\x1b7\x1b[%d;1H\x1b[0;7m%b\x1b[0m\x1b8" % (self.rows, shown))
            self.written = text


class Signals:
    """The signals of a sitting: a window of another size, and those by which it is ended, stopped and continued. They come as bytes to
    a pipe."""

    ENDING = (signal.SIGTERM, signal.SIGHUP, signal.SIGINT, signal.SIGQUIT)

    def __init__(self):
        self.reader, writer = os.pipe()
        os.set_blocking(self.reader, False)
        os.set_blocking(writer, False)
        signal.set_wakeup_fd(writer, warn_on_full_buffer=False)
        for number in (*self.ENDING, signal.SIGWINCH, signal.SIGTSTP, signal.SIGCONT):
            signal.signal(number, lambda *_: None)

    def fileno(self):
        return self.reader

    def taken(self):
        """The signals that came."""
        try:
            return set(os.read(self.reader, 4096))
        except BlockingIOError:
            return set()
