"""The text of a run's outputs (docs/PROFILE.md, "The text of the outputs"), turned back into the bytes that consoles and printers were given."""

import re

ESCAPE = re.compile(rb"\\(x[0-9A-F]{2}|.)")
PLAIN = {b"\\": b"\\", b"r": b"\r", b"t": b"\t"}
# At the end of a run each console and printer may have a line that is closed before its end.
CLOSED_LINES = 8 + 4


def plain(escape):
    return PLAIN.get(escape[1]) or bytes([int(escape[1][1:], 16)])


def unit_bytes(line):
    """The console or printer of a line, and the bytes that it was given: a line that ends in a single `\\` was cut, or is unfinished."""
    unit, text = line[:2].decode(), line[3:]
    is_cut = (len(text) - len(text.rstrip(b"\\"))) % 2 == 1
    text = text[:-1] if is_cut else text
    return unit, ESCAPE.sub(plain, text) + (b"" if is_cut else b"\n")


class Output:
    """What each console and printer was given by the last run; of the next one only what is new is read."""

    def __init__(self):
        self.lines, self.certain = b"", 0
        # By units, what the lines up to `certain` gave them, and what the last ones did, which the end of a run may have closed.
        self.before, self.last = {}, {}

    def take(self, lines):
        """Takes the lines of a run, which mostly begin with those of the run before."""
        if lines[: self.certain] != self.lines[: self.certain]:
            self.certain, self.before = 0, {}
        parts = lines[self.certain :].splitlines(keepends=True)
        firm = max(0, len(parts) - CLOSED_LINES)
        self.lines, self.last = lines, {}
        self.certain += sum(map(len, parts[:firm]))
        for number, part in enumerate(parts):
            if part[:1] in b"cl":
                unit, given = unit_bytes(part.rstrip(b"\n"))
                (self.before if number < firm else self.last).setdefault(unit, bytearray()).extend(given)

    def of(self, unit):
        return bytes(self.before.get(unit, b"") + self.last.get(unit, b""))
