"""A session at a machine: what was typed so far is a script, and each run does it anew from the beginning, one key or some steps further.
A run is the same to the step each time, so that what was shown is a beginning of what is shown next."""

import hashlib
import os
import subprocess
import time
from bisect import bisect_right
from itertools import takewhile

from tools import scripts
from tools.outputs import Output

STEPS_LIMIT = scripts.STEPS_LIMIT
# How many keys may be stored at a console before it is asked whether it has read them. It stores 64: the rest is for ^C and the like.
ROOM = 60
# How far the machine may be shown ahead of its time, so that a key is answered at once.
ANSWER = 2_000
# How many steps a key gives to a machine whose time stands still.
KEY_STEPS = 100_000
# In how many steps a console is first asked to have read what was typed, and the most; after how many answers in a row in half as many.
PACE = 256
PACE_LIMIT = 65_536
ANSWERS = 8
# The most seconds of the host that count between two looks at its clock, which come more often: a sitting that was stopped goes on
# where it was.
LOOK = 1.0
# How often the machine is shown at most, in seconds, but for keys.
REFRESH = 0.1
NEVER = float("inf")


class Run:
    """A run of the program, whose output is taken as it comes; of one that is compared only its sum is kept."""

    def __init__(self, program, machine, steps, is_traced=False, is_summed=False):
        words = [program, "run", machine, str(steps)] + ["--trace"] * is_traced
        self.steps, self.began, self.is_summed = steps, time.monotonic(), is_summed
        self.pieces, self.sum, self.is_running = [], hashlib.blake2b(), True
        self.process = subprocess.Popen(words, stdin=subprocess.DEVNULL, stdout=subprocess.PIPE, stderr=subprocess.PIPE)
        os.set_blocking(self.process.stdout.fileno(), False)

    def fileno(self):
        return self.process.stdout.fileno()

    def take(self):
        """Takes what there is of the output, and the ending where no more comes."""
        while piece := self.process.stdout.read(1 << 20):
            if self.is_summed:
                self.sum.update(piece)
            else:
                self.pieces.append(piece)
        if piece is not None:
            self.said = self.process.stderr.read().decode(errors="replace").strip()
            self.process.stdout.close()
            self.process.stderr.close()
            self.status = self.process.wait()
            self.seconds = time.monotonic() - self.began
            self.is_running = False

    def ending(self):
        return self.status, self.sum.digest()

    def wait(self):
        os.set_blocking(self.process.stdout.fileno(), True)
        while self.is_running:
            self.take()
        return self

    def stop(self):
        if self.process.poll() is None:
            self.process.kill()
            self.process.wait()


class Keyboard:
    """The keys of a console: those that wait to be typed, and the most that may be stored, as far as is known. And how it reads: in how
    many steps it is asked to have read what was typed, whether nothing more can be typed before time goes on, and whether it reads
    without an echo."""

    def __init__(self):
        self.waiting, self.stored = bytearray(), 0
        self.pace, self.answers = PACE, 0
        self.is_stuck = self.is_silent = False

    def is_full(self):
        """Whether keys wait for which there is no room before the console is asked."""
        return bool(self.waiting) and self.stored >= ROOM

    def has_room(self):
        """Whether one more key can be typed at once, after those that wait."""
        return self.stored + len(self.waiting) < ROOM

    def taken(self):
        """The keys for which there is room, which wait no longer."""
        room = max(0, ROOM - self.stored)
        keys = bytes(self.waiting[:room])
        del self.waiting[:room]
        return keys

    def read(self, later):
        """The console has read all but so many keys that come later, and may be too many."""
        self.stored = later
        self.answers += 1
        if self.is_stuck or self.answers == ANSWERS:
            self.pace, self.answers = PACE if self.is_stuck else max(PACE, self.pace // 2), 0
        self.is_stuck = self.is_full()

    def has_not_read(self):
        """The console hasn't read all within its pace. It is asked again with twice that, up to the most."""
        self.answers = 0
        self.is_stuck = self.pace == PACE_LIMIT
        self.pace = min(2 * self.pace, PACE_LIMIT)


class Keys:
    """What is typed: the script of the machine file, the keys that came since, each with its step, and the keyboards."""

    def __init__(self, given, consoles):
        self.given, self.given_steps = given, [event.step for event in given]
        self.given_lines = [scripts.line_of(event) for event in given]
        self.keyboards = [Keyboard() for _ in range(consoles)]
        # The lines that were typed, by their steps, and the last of these.
        self.typed, self.last = [], 0
        self.counted = 0

    def count_given(self, step):
        """Counts the keys of the machine file's script that come up to this step."""
        while self.counted < len(self.given) and self.given[self.counted].step <= step:
            event = self.given[self.counted]
            if event.sort == b"key" and event.number < len(self.keyboards):
                self.keyboards[event.number].stored += len(event.keys)
            self.counted += 1

    def later(self, console, step):
        """How many keys of those that are counted come after this step."""
        events = (self.given[place] for place in range(self.counted - 1, -1, -1))
        after = takewhile(lambda event: event.step > step, events)
        return sum(len(event.keys) for event in after if event.sort == b"key" and event.number == console)

    def type(self, console, keys, step):
        for event in scripts.typed(step, console, keys):
            self.typed.append((step, scripts.line_of(event)))
            self.keyboards[console].stored += len(event.keys)
            self.last = max(self.last, step)

    def send(self, step):
        """Types what waits, as far as there is room."""
        for console, keyboard in enumerate(self.keyboards):
            self.type(console, keyboard.taken(), step)

    def full(self):
        """The consoles that have to be asked before more is typed there."""
        return [console for console, keyboard in enumerate(self.keyboards) if keyboard.is_full()]

    def script(self, *more, up_to=STEPS_LIMIT):
        """The whole script, with some more lines by their steps: those of the same step come in the order in which they were typed, after
        those of the machine file."""
        lines, place = [], 0
        for step, line in sorted([*self.typed, *more], key=lambda typed: typed[0]):
            if step <= up_to:
                after = bisect_right(self.given_steps, step)
                lines += self.given_lines[place:after]
                lines.append(line)
                place = after
        return b"".join(line + b"\n" for line in lines + self.given_lines[place:])


class Session:
    """The machine as it was shown last, and what is to be done next."""

    def __init__(self, program, machine, room, given, rate):
        self.program, self.machine, self.room, self.rate = program, machine, room, rate
        self.keys = Keys(given, machine.consoles)
        self.output = Output()
        self.shown, self.seconds, self.halted = 0, 0.0, None
        self.turns, self.kept, self.shown_at = 0, None, 0.0
        # Keys that go before those that wait, by consoles, and the first step in which keys may come.
        self.controls, self.floor = [], 1
        self.budget, self.looked = float(ANSWER), time.monotonic()
        # When the next turn is due, by the host's clock.
        self.due_at = 0.0

    # Time.

    def look(self):
        """The step up to which the machine may be shown: by the host's clock, or, where time stands still, by what keys gave."""
        now = time.monotonic()
        if self.rate:
            self.budget += self.rate * min(LOOK, now - self.looked)
        self.looked = now
        return min(int(self.budget), STEPS_LIMIT)

    def give(self, steps):
        """Gives steps to a machine whose time stands still."""
        if not self.rate:
            self.budget = max(self.budget, self.shown) + steps
        self.due_at = 0.0

    # Keys.

    def put(self, console, keys):
        """Takes keys. Where others wait, ^C, ^D, ^Q and ^S by themselves go before them, and ^C drops them."""
        keyboard = self.keys.keyboards[console]
        if self.is_at_end():
            return
        if len(keys) == 1 and keys in scripts.CONTROLS and not keyboard.has_room():
            if keys == b"\x03":
                keyboard.waiting.clear()
            self.controls.append((console, keys))
        else:
            keyboard.waiting += keys
        self.give(KEY_STEPS)

    def drop(self):
        """Drops the keys that wait; how many."""
        count = self.waiting()
        for keyboard in self.keys.keyboards:
            keyboard.waiting.clear()
        return count

    def waiting(self):
        return sum(len(keyboard.waiting) for keyboard in self.keys.keyboards)

    def is_at_end(self):
        return self.shown >= STEPS_LIMIT

    # Runs.

    def turn(self):
        """One turn, a generator that asks for runs and gets them when they have ended: types what there is room for, shows the machine
        as it is then, and asks the consoles at which more waits. Answers whether anything new was shown."""
        self.due_at, limit = NEVER, self.look()
        step = min(max(self.shown + 1, self.floor), STEPS_LIMIT)
        self.keys.count_given(step + PACE_LIMIT)
        for control in self.controls:
            self.keys.type(*control, step)
        self.controls = []
        self.keys.send(step)
        is_new = False
        if not self.is_pasting() or self.looked >= self.shown_at + REFRESH:
            is_new = yield from self.show(self.target(limit, step))
        if self.halted or not self.keys.full():
            return is_new
        if self.keys.last <= limit + ANSWER:
            for console in self.keys.full():
                yield from self.ask(console)
        elif self.rate:
            self.due_at = min(self.due_at, self.looked + (self.keys.last - limit) / self.rate)
        return is_new

    def is_pasting(self):
        """Whether a console reads what waits for it."""
        return any(not self.keys.keyboards[console].is_stuck for console in self.keys.full())

    def target(self, limit, step):
        """Up to which step the machine is shown: while keys are pasted only up to those that were typed last, so that more can follow."""
        last = self.keys.last
        if self.is_pasting():
            wanted = max(last, step)
        else:
            wanted = max(limit, last + ANSWER if last > self.shown else 0)
        return min(max(min(wanted, limit + ANSWER), self.shown), STEPS_LIMIT)

    def show(self, target):
        name = f"shown-{self.turns % 2}"
        machine = self.room.prepare(name, self.keys.script())
        (run,) = yield [Run(self.program, machine, target)]
        old, self.shown_at = self.output.lines, time.monotonic()
        self.output.take(b"".join(run.pieces))
        self.seconds = run.seconds
        if run.status:
            self.halted = run.status, run.said
        else:
            self.shown, self.kept = target, name
            self.turns += 1
        return self.output.lines != old

    def ask(self, console):
        """Asks a console in how many steps it has read what was typed, and lets more be typed after these."""
        keyboard, step = self.keys.keyboards[console], max(self.shown, self.keys.last) + 1
        self.keys.count_given(step + PACE_LIMIT)
        while not (yield from self.has_read(console, keyboard, step)):
            keyboard.has_not_read()
            if keyboard.is_stuck:
                return
        self.floor = max(self.floor, step + keyboard.pace + 1)
        keyboard.read(self.keys.later(console, step))
        self.due_at = self.due_at if keyboard.is_stuck else 0.0
        if not self.rate:
            self.budget = max(self.budget, self.floor + KEY_STEPS)

    def has_read(self, console, keyboard, step):
        """Whether a console reads within its pace: where one more key, of two different ones, makes a difference, that key was read, and
        so all before it. The lines show an echo, and the records of calls a key that isn't echoed."""
        for is_traced in (keyboard.is_silent, not keyboard.is_silent):
            both = [self.keys.script((step, b"%d key %d %b" % (step, console, key))) for key in (b"a", b"b")]
            machines = [self.room.prepare(f"asked-{number}", script) for number, script in enumerate(both)]
            steps = min(step + keyboard.pace, STEPS_LIMIT)
            first, second = yield [Run(self.program, machine, steps, is_traced, True) for machine in machines]
            if first.ending() != second.ending():
                keyboard.is_silent = is_traced
                return True
        return False

    def traced(self, process):
        """The records of a process's calls, up to the step that was shown."""
        machine = self.room.prepare("asked-0", self.recorded())
        run = Run(self.program, machine, self.shown, True).wait()
        lines = b"".join(run.pieces).splitlines(keepends=True)
        return b"".join(line for line in lines if line.startswith(b"t ") and line.split(b" ")[2] == b"%d" % process)

    def recorded(self):
        """The whole script of what was shown."""
        return self.keys.script(up_to=self.shown)
