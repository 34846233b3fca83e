"""The text of a run with records of its calls (docs/PROFILE.md, "The text of the outputs"), read as calls and lines in their order."""

import re
from dataclasses import dataclass

from tools import calls

RECORD = re.compile(r"t (\d+) (\d+) (\d+) ([0-9A-F]{2}) ([0-9A-F]{4}) ([0-9A-F]{4}) ([0-9A-F]{4})")
UNIT = re.compile(r"([cl]\d) (.*)", re.S)
DELAY = 141


@dataclass(frozen=True)
class Call:
    """A completed call: `is_held` where it is known that it had to wait, as another call, the clock or the disk completed it."""

    step: int
    process: int
    function: int
    a: str
    bc: str
    de: str
    hl: str
    is_held: bool

    def words(self):
        return f"step {self.step:,}: process {self.process}, function {self.function}, A {self.a} BC {self.bc} DE {self.de} HL {self.hl}"


@dataclass(frozen=True)
class Line:
    """A line of a console or printer, which was complete by a step."""

    step: int
    unit: str
    text: str


def call_of(fields, before, turn):
    """The call of a record. One process at most does a call by itself in a step, and its record comes first."""
    step, process, function = map(int, fields[:3])
    is_second = before is not None and before.step == step
    is_delay = function == DELAY and fields[5] != "0000"
    return Call(step, process, function, *fields[3:], is_second or is_delay or (turn > 0 and calls.is_served(function)))


def shown(text):
    """A line as a reader wants it: without the CR that ends it."""
    return text.removesuffix("\\r")


class Trace:
    """The calls and the lines of a run, by steps; a line has the step of the record after it, or of the last one. `turn` is the machine's
    `disk_turn`."""

    def __init__(self, lines, turn=0):
        self.calls, self.lines, waiting = [], [], []
        for line in lines:
            if match := RECORD.fullmatch(line):
                self.calls.append(call_of(match.groups(), self.calls[-1] if self.calls else None, turn))
                self.lines += [Line(self.calls[-1].step, *text) for text in waiting]
                waiting = []
            elif match := UNIT.fullmatch(line):
                waiting.append((match[1], shown(match[2])))
        last = self.calls[-1].step if self.calls else 0
        self.lines += [Line(last, *text) for text in waiting]

    def part(self, first, last):
        """What happened in a range of steps."""
        part = Trace([])
        part.calls = [call for call in self.calls if first <= call.step <= last]
        part.lines = [line for line in self.lines if first <= line.step <= last]
        return part

    def processes(self):
        return sorted({call.process for call in self.calls})

    def units(self):
        return sorted({line.unit for line in self.lines})

    def steps(self):
        return sorted({call.step for call in self.calls} | {line.step for line in self.lines})
