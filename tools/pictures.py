"""A trace drawn as an SVG picture: bands from the top to the bottom, in each of which time goes from the left to the right. A band has its steps,
a lane for each process with its calls, and the lines of the consoles. The longer nothing was called, the wider is the gap, by its logarithm:
so each call has room for its number, whether it has a neighbour in the next step or a million steps later."""

import bisect
import math
import textwrap
from html import escape

from tools import calls

WIDTH, MARGIN, EDGE = 1000, 112, 16
RIGHT = WIDTH - EDGE
LEAST, PER_TENFOLD = 22, 9  # pixels from one step to the next that has a call
LANE, BOX, TEXT_ROW, AXIS, BETWEEN = 26, 18, 14, 20, 18
STEP_LABEL = 54  # pixels for a step's number
LETTER = 6.1  # pixels of a letter of the lines
LEGEND_LETTERS = 140  # of a line of the legend
MOST_ROWS, MOST_LETTERS, MOST_NAME = 8, 60, 15
COLOURS = {"console": "#2b6cb0", "file": "#a35f00", "queue": "#6b46c1", "flag": "#c02b2b", "memory": "#1f7a4d", "process": "#4a5568"}


def gap(steps):
    return LEAST + PER_TENFOLD * math.log10(steps)


def by_step(things):
    """Calls or lines by their steps, in their order."""
    found = {}
    for thing in things:
        found.setdefault(thing.step, []).append(thing)
    return found


def cut(words, most):
    return words if len(words) <= most else words[: most - 1] + "…"


def tag(name, contents=None, **fields):
    words = "".join(f' {field.replace("_", "-")}="{value}"' for field, value in fields.items())
    return f"<{name}{words}/>" if contents is None else f"<{name}{words}>{contents}</{name}>"


def text(x, y, words, **fields):
    return tag("text", escape(words), x=f"{x:.0f}", y=f"{y:.0f}", **fields)


class Band:
    """A stretch of steps that has room beside the names: where each of its steps is."""

    def __init__(self):
        self.places = {}

    def fill(self, steps):
        """Takes steps from the front of a list as long as there is room, and answers the others."""
        x, before = MARGIN + BOX, None
        for number, step in enumerate(steps):
            x += gap(step - before) if before is not None else 0
            if x > RIGHT - BOX:
                return steps[number:]
            self.places[step], before = x, step
        return []


def bands(steps):
    made = []
    while steps:
        made.append(Band())
        steps = made[-1].fill(steps)
    return made


class Rows:
    """The lines of one console in a band, each at its step, in as many rows as they need side by side."""

    def __init__(self, lines, band):
        self.ends, self.placed, self.left_out = [], [], 0
        for line in lines:
            self.place(line, band.places[line.step])

    def place(self, line, x):
        words = cut(line.text, MOST_LETTERS)
        width = LETTER * (len(words) + 2)
        x = max(MARGIN, min(x - BOX / 2, RIGHT - width))
        row = next((row for row, end in enumerate(self.ends) if end <= x), len(self.ends))
        if row == MOST_ROWS:
            self.left_out += 1
            return
        self.ends[row : row + 1] = [x + width]
        self.placed.append((x, row, words))

    def count(self):
        return max(1, len(self.ends)) + (self.left_out > 0)


class Picture:
    """The picture of a trace; `names` has what processes are called, by their numbers."""

    def __init__(self, trace, names):
        self.trace, self.names = trace, names
        self.processes, self.units = trace.processes(), trace.units()
        self.parts, self.y = [], 0
        self.calls, self.lines = by_step(trace.calls), by_step(trace.lines)
        self.waits = self.found_waits()

    def found_waits(self):
        """By processes, the held calls in their order, each with the step of the call before it, after which it was made."""
        last, waits = {}, {process: [] for process in self.processes}
        for call in self.trace.calls:
            if call.is_held and call.process in last:
                waits[call.process].append((last[call.process], call))
            last[call.process] = call.step
        return waits

    def waits_in(self, process, band):
        """Those that have a part in a band: they follow one another, and none overlaps the next."""
        first, *_, last = [*band.places, *band.places]
        waits = self.waits[process]
        begin = bisect.bisect_left(waits, first, key=lambda wait: wait[1].step)
        return waits[begin : bisect.bisect_right(waits, last, key=lambda wait: wait[0])]

    def add(self, *parts):
        self.parts += parts

    def legend(self):
        """The colours, and the names of the functions that were called."""
        self.y += 20
        x = MARGIN
        for kind, colour in COLOURS.items():
            self.add(tag("rect", x=x, y=self.y - 10, width=12, height=12, fill=colour, rx=2), text(x + 17, self.y, kind))
            x += 84
        self.add(tag("rect", x=x, y=self.y - 8, width=40, height=8, fill="#999", fill_opacity="0.35"))
        self.add(text(x + 46, self.y, "held: made somewhere in it"))
        words = [f"{function} {calls.name(function)}" for function in sorted({call.function for call in self.trace.calls})]
        for line in textwrap.wrap(" · ".join(word.replace(" ", "\N{NO-BREAK SPACE}") for word in words), LEGEND_LETTERS):
            self.y += 15
            self.add(text(MARGIN, self.y, line, fill="#444"))
        self.y += 10

    def lane(self, process, band):
        """The calls of a process in a band, each held one with a bar from the call before it."""
        middle = self.y + LANE / 2
        self.add(text(8, middle + 4, cut(self.names.get(process, f"process {process}"), MOST_NAME), font_weight="bold"))
        self.add(tag("line", x1=MARGIN, y1=f"{middle:.0f}", x2=RIGHT, y2=f"{middle:.0f}", stroke="#ccc"))
        boxes = []
        for start, held in self.waits_in(process, band):
            self.bar(held, start, band, middle)
        for step, x in band.places.items():
            boxes += [self.box(call, x, middle) for call in self.calls.get(step, ()) if call.process == process]
        self.add(*boxes)
        self.y += LANE

    def bar(self, held, start, band, middle):
        left, right = band.places.get(start, MARGIN), band.places.get(held.step, RIGHT)
        colour = COLOURS[calls.kind(held.function)]
        self.add(tag("rect", x=f"{left:.0f}", y=f"{middle - 4:.0f}", width=f"{right - left:.0f}", height=8, fill=colour, fill_opacity="0.35"))

    @staticmethod
    def box(call, x, middle):
        colour = COLOURS[calls.kind(call.function)]
        left = x - BOX / 2 - 1
        shape = tag("rect", x=f"{left:.0f}", y=f"{middle - BOX / 2:.0f}", width=BOX + 2, height=BOX, fill=colour, rx=3)
        number = text(x, middle + 4, str(call.function), fill="#fff", text_anchor="middle", font_size=10)
        return tag("g", tag("title", escape(f"{call.words()}: {calls.name(call.function)}")) + shape + number)

    def axis(self, band, height):
        """The numbers of the steps that have room, and a thin line down from each."""
        free = 0
        for step, x in band.places.items():
            if x >= free:
                self.add(tag("line", x1=f"{x:.0f}", y1=self.y + 14, x2=f"{x:.0f}", y2=self.y + height, stroke="#e4e4e4"))
                self.add(text(x, self.y + 11, f"{step:,}", text_anchor="middle", fill="#444", font_size=10))
                free = x + STEP_LABEL
        self.y += AXIS

    def console(self, unit, rows):
        self.add(text(8, self.y + 11, f"{'console' if unit[0] == 'c' else 'printer'} {unit[1]}"))
        for x, row, words in rows.placed:
            self.add(text(x, self.y + 11 + TEXT_ROW * row, words, xml__space="preserve", font_family="monospace", font_size=10))
        if rows.left_out:
            self.add(text(MARGIN, self.y + 11 + TEXT_ROW * (rows.count() - 1), f"and {rows.left_out} lines more", fill="#888", font_size=10))
        self.y += TEXT_ROW * rows.count() + 4

    def band(self, band):
        lines = [line for step in band.places for line in self.lines.get(step, ())]
        rows = {unit: Rows([line for line in lines if line.unit == unit], band) for unit in self.units}
        height = AXIS + LANE * len(self.processes) + sum(TEXT_ROW * row.count() + 4 for row in rows.values())
        self.axis(band, height)
        for process in self.processes:
            self.lane(process, band)
        for unit in self.units:
            self.console(unit, rows[unit])
        self.add(tag("line", x1=0, y1=self.y + 8, x2=WIDTH, y2=self.y + 8, stroke="#bbb"))
        self.y += BETWEEN

    def svg(self):
        self.legend()
        for band in bands(self.trace.steps()):
            self.band(band)
        head = f'<svg xmlns="http://www.w3.org/2000/svg" width="{WIDTH}" height="{self.y + 6:.0f}" viewBox="0 0 {WIDTH} {self.y + 6:.0f}" '
        body = "\n".join([tag("rect", width="100%", height="100%", fill="#fff"), *self.parts]).replace("xml--space", "xml:space")
        return f'{head}font-family="sans-serif" font-size="11">\n{body}\n</svg>\n'
