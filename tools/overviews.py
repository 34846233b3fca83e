"""A long trace drawn as an overview: bands of equally many steps from the top to the bottom, in each of which time goes evenly from the left
to the right. A process's lane has a column for each stretch of steps, as high as the calls that it completed there, by their kinds. Under the lanes
is where each console wrote. The numbered steps are what `timeline --from` and `--to` take to draw a part call by call."""

from collections import Counter

from tools import calls
from tools.pictures import AXIS, BETWEEN, COLOURS, MARGIN, MOST_NAME, RIGHT, WIDTH, cut, tag, text

MOST_BANDS, COLUMNS, COLUMN = 12, 280, 3  # bands, columns of a band, pixels of a column
MARK = 40  # columns from one numbered step to the next
LANE, UNIT = 36, 14  # pixels of a process's lane and of a console's


def rounded(steps):
    """The least of 1, 2, 5, 10, 20, 50 and so on that isn't below a number."""
    power = 10 ** (len(str(steps)) - 1)
    return next(power * digit for digit in (1, 2, 5, 10) if power * digit >= steps)


class Overview:
    """The overview of a trace; `names` has what processes are called, by their numbers."""

    def __init__(self, trace, names):
        self.trace, self.names = trace, names
        first, *_, last = trace.steps()
        self.width = rounded(-(-(last + 1 - first) // ((MOST_BANDS - 1) * COLUMNS)))  # steps of a column
        self.first = first - first % (self.width * MARK)
        self.bands = 1 + (last - self.first) // (self.width * COLUMNS)
        self.counts = Counter((self.column(call), call.process, calls.kind(call.function)) for call in trace.calls)
        self.lines = Counter((self.column(line), line.unit) for line in trace.lines)
        heights = Counter()
        for (column, process, _), count in self.counts.items():
            heights[column, process] += count
        self.most = max(heights.values())
        self.parts, self.y = [], 0

    def column(self, thing):
        return (thing.step - self.first) // self.width

    def legend(self):
        self.y += 20
        x = MARGIN
        for kind, colour in COLOURS.items():
            self.parts += [tag("rect", x=x, y=self.y - 10, width=12, height=12, fill=colour, rx=2), text(x + 17, self.y, kind)]
            x += 84
        self.y += 16
        words = f"{len(self.trace.calls):,} calls. A column is {self.width:,} steps, and its height the calls in them, at most {self.most:,}. --from and --to draw each call."
        self.parts.append(text(MARGIN, self.y, words, fill="#444"))
        self.y += 10

    def axis(self, band, height):
        for column in range(0, COLUMNS, MARK):
            x, step = MARGIN + column * COLUMN, self.first + (band * COLUMNS + column) * self.width
            self.parts += [tag("line", x1=x, y1=self.y + 14, x2=x, y2=self.y + height, stroke="#e4e4e4")]
            self.parts += [text(x, self.y + 11, f"{step:,}", fill="#444", font_size=10)]
        self.y += AXIS

    def lane(self, process, band):
        """The columns of a process: a path for each kind, of a stroke for each column."""
        bottom = self.y + LANE - 4
        self.parts += [text(8, bottom - 10, cut(self.names.get(process, f"process {process}"), MOST_NAME), font_weight="bold")]
        self.parts += [tag("line", x1=MARGIN, y1=bottom, x2=RIGHT, y2=bottom, stroke="#ccc")]
        strokes = {kind: [] for kind in COLOURS}
        for column in range(COLUMNS):
            y = bottom
            for kind in COLOURS:
                count = self.counts[band * COLUMNS + column, process, kind]
                if count:
                    height = max(2, count * (LANE - 8) / self.most)
                    strokes[kind].append(f"M{MARGIN + column * COLUMN + COLUMN / 2:.1f} {y:.1f}v-{height:.1f}")
                    y -= height
        self.parts += [tag("path", d="".join(found), stroke=COLOURS[kind], stroke_width=COLUMN - 0.5) for kind, found in strokes.items() if found]
        self.y += LANE

    def unit(self, unit, band):
        """A mark wherever a console or printer wrote, and how many lines it wrote in the band."""
        places = [column for column in range(COLUMNS) if self.lines[band * COLUMNS + column, unit]]
        count = sum(self.lines[band * COLUMNS + column, unit] for column in places)
        self.parts.append(text(8, self.y + 10, f"{'console' if unit[0] == 'c' else 'printer'} {unit[1]}: {count:,}", font_size=10))
        marks = "".join(f"M{MARGIN + column * COLUMN + COLUMN / 2:.1f} {self.y + 3}v8" for column in places)
        if marks:
            self.parts.append(tag("path", d=marks, stroke="#222", stroke_width=COLUMN - 0.5))
        self.y += UNIT

    def svg(self):
        self.legend()
        height = AXIS + LANE * len(self.trace.processes()) + UNIT * len(self.trace.units())
        for band in range(self.bands):
            self.axis(band, height)
            for process in self.trace.processes():
                self.lane(process, band)
            for unit in self.trace.units():
                self.unit(unit, band)
            self.y += BETWEEN
        head = f'<svg xmlns="http://www.w3.org/2000/svg" width="{WIDTH}" height="{self.y}" viewBox="0 0 {WIDTH} {self.y}" '
        body = "\n".join([tag("rect", width="100%", height="100%", fill="#fff"), *self.parts])
        return f'{head}font-family="sans-serif" font-size="11">\n{body}\n</svg>\n'
