"""A sitting at the consoles of a machine: the words of `terminal`, its loop, its commands, and what it leaves."""

import argparse
import contextlib
import os
import select
import signal
import subprocess
import sys
import time

from tools import room as rooms
from tools import scripts
from tools.machine_files import Refused
from tools.screen import Screen, Signals
from tools.session import NEVER, REFRESH, Session

ROOT = os.path.dirname(os.path.dirname(os.path.abspath(__file__)))

# Steps a second: about those of a Z80 of 6 MHz, and with `tick_every = 10000` sixty ticks a second.
RATE = 600_000
# Where nothing new comes the machine is shown less often, at least so often.
REST = 0.5
PREFIX = 0x1D
STOP = 0x13
PROCESSES = 32
TOLD_SECONDS = 4
# How often the loop looks at the clocks.
HEARTBEAT = 0.5

HELP = f"""\
^] and then

  0 to 7      shows that console, whose keys are then typed
  l0 to l3    shows that printer
  q           ends the sitting
  ^]          types ^]
  s           gives {RATE:,} steps, where time stands still (--rate 0)
  k           drops the keys that wait to be typed
  ?           shows this

All other keys go to the console that is shown. It acts upon some itself:
^S stops its output until ^Q, ^C ends its program, and ^D leaves that and
brings back the prompt.

Any key goes back to the console."""


class Failed(Exception):
    """The sitting can't begin; with the status with which it ends."""

    def __init__(self, said, status=1):
        super().__init__(said)
        self.status = status


class Sitting:
    """The loop: keys, signals and runs as they come."""

    def __init__(self, session, screen, signals, console, record):
        self.session, self.screen, self.signals, self.record = session, screen, signals, record
        self.unit, self.console = f"c{console}", console
        self.shown, self.command, self.is_helping = b"", None, False
        self.told, self.told_until = "", 0.0
        self.turn, self.runs, self.ended = None, [], None
        # The consoles at which ^S was typed, and none of ^Q, ^C and ^D since.
        self.stopped = set()
        self.next_at, self.rest = 0.0, REFRESH

    # The loop.

    def sit(self):
        """Until the end: the number of the signal that ended it, or 0."""
        while self.ended is None:
            self.session.look()
            self.begin_turn()
            running = [run for run in self.runs if run.is_running]
            ready, _, _ = select.select([self.screen.input, self.signals, *running], [], [], self.timeout())
            if self.signals in ready:
                self.take_signals(self.signals.taken())
            if self.screen.input in ready:
                self.take_keys()
            for run in running:
                if run in ready:
                    run.take()
            if self.runs and not any(run.is_running for run in self.runs):
                self.advance(self.runs)
            self.screen.line(self.line())
            if self.screen.is_gone and self.ended is None:
                self.ended = int(signal.SIGHUP)
        return self.ended

    def timeout(self):
        if self.runs:
            return HEARTBEAT
        return min(HEARTBEAT, max(0.0, min(self.next_at, self.session.due_at) - time.monotonic()))

    def begin_turn(self):
        if self.turn is None and not self.session.halted and time.monotonic() >= min(self.next_at, self.session.due_at):
            self.turn, self.began = self.session.turn(), time.monotonic()
            self.advance(None)

    def advance(self, runs):
        """Goes on with the turn, up to its next runs or to its end."""
        try:
            self.runs = self.turn.send(runs)
        except StopIteration as end:
            self.turn, self.runs = None, []
            self.rest = REFRESH if end.value else min(REST, 1.5 * self.rest)
            now = time.monotonic()
            stands = not self.session.rate or self.session.is_at_end()
            self.next_at = NEVER if stands else now + max(self.rest - (now - self.began), now - self.began)
            if self.session.halted:
                self.next_at = self.session.due_at = NEVER
        if runs and not runs[0].is_summed:
            self.show()
            self.record.write_new(self.session)

    def stop(self):
        for run in self.runs:
            run.stop()

    # What is shown.

    def show(self):
        text = self.session.output.of(self.unit)
        if self.is_helping:
            return
        if not text.startswith(self.shown):
            self.screen.draw(text)
        elif len(text) > len(self.shown):
            self.screen.show(text[len(self.shown) :])
        self.shown = text

    def draw(self):
        """Draws all anew."""
        if self.is_helping:
            self.screen.draw(HELP.replace("\n", "\r\n").encode())
        else:
            self.shown = self.session.output.of(self.unit)
            self.screen.draw(self.shown)

    def tell(self, said):
        self.told, self.told_until = said, time.monotonic() + TOLD_SECONDS

    def line(self):
        """The line at the bottom: a message for some seconds, else the state of the machine."""
        session = self.session
        name = {"c": " Console ", "l": " Printer "}[self.unit[0]] + self.unit[1]
        if session.halted:
            return f"{name}   ended with status {session.halted[0]}, {session.halted[1]}: ^]q"
        if self.command is not None:
            return f"{name}   ^]{self.command}"
        if time.monotonic() < self.told_until:
            return f"{name}   {self.told}"
        every = session.machine.tick_every
        clock = f"clock {session.shown // every / 60:,.1f} s" if every else "no clock"
        return f"{name}   step {session.shown:,}   {clock}   run {1000 * session.seconds:,.0f} ms   {self.hint()}"

    def hint(self):
        """The end of the line at the bottom."""
        if self.session.waiting():
            return f"{self.session.waiting():,} keys wait"
        if self.session.is_at_end():
            return "all steps are done: ^]q"
        return "^S: ^Q goes on" if self.unit in self.stopped else "^]? helps"

    # Keys.

    def take_keys(self):
        try:
            some = os.read(self.screen.input, 65_536)
        except OSError:
            some = b""
        if some == b"":
            self.ended = 0  # the terminal is gone
            return
        while some:
            if self.is_helping:
                self.is_helping = False
                self.draw()
                some = some[some[0] != PREFIX :]
            elif self.command is not None:
                self.take_command(some[:1])
                some = some[1:]
            else:
                typed, found, some = some.partition(bytes([PREFIX]))
                self.type(typed)
                self.command = "" if found else None

    def type(self, keys):
        if keys and self.unit[0] == "l":
            self.tell("a printer has no keys: ^] and the number of a console")
        elif keys and not self.session.halted:
            self.session.put(self.console, keys)
            self.note_stop(keys)

    def note_stop(self, keys):
        """Notes whether the last of the keys ^S, ^Q, ^C and ^D is ^S."""
        controls = [key for key in keys if key in scripts.CONTROLS]
        if controls and controls[-1] == STOP:
            self.stopped.add(self.unit)
        elif controls:
            self.stopped.discard(self.unit)

    def take_command(self, key):
        """A key after ^]."""
        before, self.command = self.command, None
        machine = self.session.machine
        if before == "l":
            self.select("l", key, machine.printers, "printer")
        elif key.isdigit():
            self.select("c", key, machine.consoles, "console")
        elif key == b"l":
            self.command = "l"
        elif key == b"q":
            self.ended = 0
        elif key == b"?":
            self.is_helping = True
            self.draw()
        elif key == bytes([PREFIX]):
            self.type(key)
        elif key == b"s":
            self.session.give(RATE)
        elif key == b"k":
            self.tell(f"{self.session.drop():,} keys are dropped")
        else:
            self.tell("^]? lists what may follow ^]")

    def select(self, sort, key, count, name):
        if key.isdigit() and int(key) < count:
            self.unit = sort + key.decode()
            self.console = int(key) if sort == "c" else self.console
            self.draw()
        elif count:
            self.tell(f"the machine has {name}s 0 to {count - 1}" if count > 1 else f"the machine has {name} 0 alone")
        else:
            self.tell(f"the machine has no {name}")

    def take_signals(self, numbers):
        ending = [number for number in Signals.ENDING if number in numbers]
        if ending:
            self.ended = int(ending[0])
            return
        if signal.SIGCONT in numbers:
            self.screen.enter()
        elif signal.SIGTSTP in numbers:
            self.screen.pause()
        if numbers:
            self.screen.measure()
            self.draw()


# The words.


class Words(argparse.ArgumentParser):
    def error(self, message):
        self.print_usage(sys.stderr)
        self.exit(1, f"terminal: {message}\n")


def parser(usage):
    parsed = Words(prog="terminal", description=usage, formatter_class=argparse.RawDescriptionHelpFormatter, add_help=False)
    parsed.add_argument("machine", metavar="MACHINE", help="a machine file; names in it count from this folder, as they do for mpm")
    parsed.add_argument("-h", "--help", action="help", help="shows this")
    parsed.add_argument("--rate", type=int, default=RATE, metavar="N", help=f"steps a second ({RATE:,}); with 0 time stands still but for keys")
    parsed.add_argument("--console", type=int, default=0, metavar="N", help="the console that is shown first (0)")
    parsed.add_argument("--no-script", action="store_true", help="leaves out the script of the machine file")
    parsed.add_argument("--record", metavar="FILE", help="writes what was typed, with the machine file's script, as a script; overwrites nothing")
    parsed.add_argument("--trace", type=int, metavar="N", help="at the end writes the records of the calls of process N, 0 to 31, into trace-N.txt")
    parsed.add_argument("--keep", action="store_true", help="the images as the sitting leaves them replace the old ones")
    parsed.add_argument("--program", metavar="FILE", help="runs this built program, and not ./mpm")
    return parsed


def check_machine(options):
    """Does no step of the machine, as the program does it itself: builds that first if need be, and ends as it does if it refuses."""
    program = os.path.abspath(options.program or os.path.join(ROOT, "mpm"))
    try:
        done = subprocess.run([program, "run", options.machine, "0"], stdin=subprocess.DEVNULL, stdout=subprocess.DEVNULL, check=False)
    except OSError as error:
        raise Failed(f"{program}: {error.strerror}", 126) from error
    if done.returncode:
        if options.program and done.returncode in (2, 3, 4, 6, 7):
            print(f"terminal: {os.path.join(ROOT, 'explain')} {options.machine} says what is wrong, and where", file=sys.stderr)
        sys.exit(done.returncode if done.returncode > 0 else 128 - done.returncode)


def given_events(machine):
    if machine.script is None:
        return []
    with open(machine.script, "rb") as file:
        return scripts.read(file.read())


def say(line):
    """Writes a line to the standard error, if anybody is still there."""
    with contextlib.suppress(OSError):
        print(line, file=sys.stderr, flush=True)


def text_of(failed):
    """What a failure says: of a file, its name and what is wrong."""
    return f"{failed.filename}: {failed.strerror}" if isinstance(failed, OSError) and failed.filename else str(failed)


class Record:
    """The file with what was typed, if one is wanted. It is written over after each key that is shown, and never gets shorter, so that a
    sitting which is killed leaves it. A file that has something already is refused, as it may be all that is left of a sitting."""

    def __init__(self, path, machine):
        self.path, self.machine, self.written, self.mode = path, machine, b"", "wb"
        if path:
            with open(path, "ab") as file:
                is_there = file.tell() > 0
            if is_there:
                raise Failed(f"--record {path}: the file is there already, and is not overwritten: name another, or move it away")

    def write_new(self, session):
        """Writes what came since, if it can."""
        if self.path and session.recorded() != self.written:
            with contextlib.suppress(OSError):
                self.write(session)

    def write(self, session):
        head = f"# Typed at {self.machine}: with this script, `mpm run` writes in {session.shown} steps the lines that were shown.\n"
        keys = session.recorded()
        with open(self.path, self.mode) as file:
            file.write(head.encode(errors="replace") + keys)
        self.written, self.mode = keys, "r+b"


class Endings:
    """What is left after a sitting. Each part is done whatever becomes of the others."""

    def __init__(self, session, options, record):
        self.session, self.options, self.typed, self.has_failed = session, options, record, False

    def leave(self):
        """Does all, and says what was done; whether nothing failed."""
        for part in (self.halted, self.images, self.record, self.trace):
            try:
                for line in part():
                    say(line)
            except OSError as failed:
                say(f"terminal: {text_of(failed)}")
                self.has_failed = True
        return not self.has_failed

    def halted(self):
        if self.session.halted:
            status, said = self.session.halted
            yield f"The last run ended with status {status}, {said}: what is left is of the one before."

    def images(self):
        session = self.session
        if session.machine.drives and not self.options.keep:
            yield "The images stay as they were before this sitting: with --keep they would be as it leaves them."
        elif session.machine.drives and session.kept:
            for drive in session.machine.drives:
                yield session.room.replace(drive, session.kept)

    def record(self):
        if self.options.record:
            machine, steps = self.options.machine, self.session.shown
            self.typed.write(self.session)
            yield f"{self.options.record} is the script of this sitting: with it, {machine} writes in {steps} steps what was shown."

    def trace(self):
        if self.options.trace is not None:
            name = f"trace-{self.options.trace}.txt"
            with open(name, "wb") as file:
                file.write(self.session.traced(self.options.trace))
            yield f"{name} has the calls of process {self.options.trace}."


def sit(options):
    """A whole sitting; its status."""
    check_machine(options)
    machine = rooms.machine_of(options.machine)
    if not 0 <= options.console < machine.consoles:
        raise Failed(f"--console {options.console}: the machine has consoles 0 to {machine.consoles - 1}")
    given = [] if options.no_script else given_events(machine)
    record = Record(options.record, options.machine)
    program = os.path.abspath(options.program or os.path.join(ROOT, "crates/mpm/out/mpm"))
    room = rooms.Room(machine, options.keep)
    screen, signals = Screen(), Signals()
    session = Session(program, machine, room, given, options.rate)
    sitting = Sitting(session, screen, signals, options.console, record)
    try:
        try:
            screen.enter()
            ended = sitting.sit()
        finally:
            screen.leave()
            sitting.stop()
        is_left = Endings(session, options, record).leave()
    finally:
        room.close()
    if not is_left:
        return 1
    return 128 + ended if ended else session.halted[0] if session.halted else 0


def main(words, usage):
    options = parser(usage).parse_args(words)
    try:
        if options.rate < 0:
            raise Failed("--rate is 0 or more")
        if options.trace is not None and not 0 <= options.trace < PROCESSES:
            raise Failed(f"--trace is 0 to {PROCESSES - 1}")
        if not (sys.stdin.isatty() and sys.stdout.isatty()):
            raise Failed("its input and output must be a terminal; `mpm run` runs a machine without one")
        return sit(options)
    except Failed as failed:
        say(f"terminal: {failed}")
        return failed.status
    except (OSError, rooms.RoomFailed, Refused) as failed:
        say(f"terminal: {text_of(failed)}")
        return 1
