"""Machine files, read by docs/PROFILE.md, "The machine file", and by none of the program's code: each thing that is wrong with one,
with its line and its cause; and the machine that it describes."""

import difflib
import json
import re
import tomllib
from dataclasses import dataclass, field

MACHINE_BYTES = 65_536
KINDS = ("ibm3740", "hd4", "hd8")


@dataclass(frozen=True)
class Fault:
    """What is wrong in a line of a text: `line` is counted from 1, None where no line has it; `cause` is a name for the rule."""

    line: int | None
    cause: str
    said: str


class Refused(Exception):
    """A text is off its form; `faults` says where, first by line."""

    def __init__(self, faults):
        super().__init__(faults[0].said)
        self.faults = faults


@dataclass(frozen=True)
class Number:
    least: int
    most: int
    allowed: str = ""

    def words(self):
        return self.allowed or f"{self.least:,} to {self.most:,}"

    def has(self, value):
        return self.least <= value <= self.most

    def fault(self, value):
        """The cause and the words of a value that may not be; None of one that may."""
        if type(value) is not int:
            quoted = ": a number has no quotes" if isinstance(value, str) and value.strip().isdecimal() else ""
            return "type", f"it must be a number, {self.words()}{quoted}"
        return None if self.has(value) else ("range", f"it may be {self.words()}")


class Ticks(Number):
    def has(self, value):
        return value == 0 or super().has(value)


@dataclass(frozen=True)
class Word:
    """A text that is one of these, or any that isn't empty where there are none."""

    choices: tuple = ()
    allowed: str = "the name of a file, in quotes"

    def fault(self, value):
        if not isinstance(value, str):
            return "type", f"it must be a text: {self.allowed}"
        if self.choices and value not in self.choices:
            return "choice", f"it may be {self.allowed}{meant(value, self.choices)}"
        return ("empty", f"it is empty: it must be {self.allowed}") if value == "" else None


@dataclass(frozen=True)
class Rows:
    """An array of tables with these keys, all of which must be there."""

    keys: dict
    least: int
    most: int

    def words(self):
        return ", ".join(f"`{key}`" for key in self.keys)


class Residents:
    """An array of these texts, each at most once."""

    NAMES = ("spool", "sched")


LETTERS = tuple("ABCDEFGHIJKLMNOP")
KEYS = {
    "version": Number(1, 2, "1 or 2"),
    "consoles": Number(1, 8),
    "printers": Number(0, 4),
    "tick_every": Ticks(100, 1_000_000, "100 to 1,000,000, or 0 for no ticks"),
    "disk_turn": Number(0, 1_000),
    "date": Number(0, 65_535),
    "hour": Number(0, 23),
    "minute": Number(0, 59),
    "second": Number(0, 59),
    "script": Word(),
    "segment": Rows({"base": Number(0, 188), "pages": Number(4, 192)}, 1, 16),
    "drive": Rows({"letter": Word(LETTERS, '"A" to "P"'), "kind": Word(KINDS, '"ibm3740", "hd4" or "hd8"'), "image": Word()}, 0, 16),
    "residents": Residents(),
}
NEEDED = ("version", "consoles", "segment")


def meant(word, choices):
    """A question after the choice that was meant, where one is near."""
    word, lowered = word.lower(), {choice.lower(): choice for choice in choices}
    near = [choice for choice in lowered if len(word) > 2 and choice.startswith(word)] or difflib.get_close_matches(word, lowered, 1, 0.7)
    return f"; is `{lowered[near[0]]}` meant?" if near else ""


# Where keys are.


class Places:
    """The lines in which keys and tables are, as far as each has a line of its own."""

    HEAD = re.compile(r"""\s*\[\[?\s*["']?([\w-]+)["']?\s*\]""")
    KEY = re.compile(r"""\s*["']?([\w-]+)["']?\s*[=.]""")

    def __init__(self, text):
        self.heads, self.keys = {}, {}
        table, row = None, 0
        for number, line in enumerate(text.split("\n"), 1):
            if head := self.HEAD.match(line):
                table = head[1]
                row = sum(name == table for name, _ in self.heads)
                self.heads[table, row] = number
            elif key := self.KEY.match(line):
                self.keys.setdefault((table, row if table else 0, key[1]), number)

    def key(self, key, table=None, row=0):
        """The line of a key, else that of its table, else that of the key whose value the table is."""
        return self.keys.get((table, row, key)) or (self.head(table, row) if table else self.heads.get((key, 0)))

    def head(self, table, row=0):
        return self.heads.get((table, row)) or self.keys.get((None, 0, table))


# What isn't TOML.

HINTS = (
    (r"=\s*[A-Za-z./~][^\"'#]*$", "a text needs quotes"),
    (r"=\s*0[0-9]", "a number has no leading zero"),
    (r"=\s*\d{1,3}(,\d{3})+", "a number has no commas: 1_000"),
    (r"=\s*(#.*)?$", "a value comes after the ="),
    (r"^\s*[\w-]+\s*(#.*)?$", "a line is KEY = VALUE"),
    (r"^\s*[\w-]+\s*:", "a key and its value are parted by =, and not by :"),
    (r"^\s*\[\[[^\]]*\]?\s*(#.*)?$", "the name of a table is between [[ and ]]"),
    (r"=\s*\"[^\"]*$|=\s*'[^']*$", "a quote isn't closed"),
)


def syntax_fault(text, error):
    """What the reader of TOML says, with a hint where the line shows one."""
    said = str(error)
    place = re.search(r" \(at line (\d+), column \d+\)$", said)
    lines = text.split("\n")
    line = int(place[1]) if place else max(1, len(text.rstrip().split("\n")))
    said = re.sub(r" \(at .*\)$", "", said)
    shown = lines[line - 1] if line <= len(lines) else ""
    key = Places.KEY.match(shown)
    if said.startswith("Cannot overwrite") and key:
        return Fault(line, "twice", f"`{key[1]}` comes a second time in its table")
    if said.startswith("Cannot declare"):
        return Fault(line, "twice", "this table comes a second time: each segment and each drive begins with double brackets, [[segment]]")
    hint = next((hint for form, hint in HINTS if re.search(form, shown)), None)
    return Fault(line, "syntax", f"this isn't TOML: {said}" + (f" ({hint})" if hint else ""))


def parsed(text):
    """The tables of a text; Refused where it isn't TOML in UTF-8, or is too long."""
    if len(text) > MACHINE_BYTES:
        raise Refused([Fault(None, "too long", f"it has {len(text):,} bytes; a machine file has at most {MACHINE_BYTES:,}")])
    try:
        decoded = text.decode()
    except UnicodeDecodeError as error:
        line = text.count(b"\n", 0, error.start) + 1
        raise Refused([Fault(line, "encoding", f"a byte {text[error.start]:02X}h that isn't UTF-8")]) from error
    try:
        return decoded, tomllib.loads(decoded)
    except (tomllib.TOMLDecodeError, ValueError, RecursionError) as error:
        raise Refused([syntax_fault(decoded, error)]) from error


# The rules.


def shown(value):
    text = json.dumps(value, ensure_ascii=False, default=str)
    return text if len(text) <= 40 else text[:37] + "..."


class Reading:
    """What is wrong with the tables of a machine file."""

    def __init__(self, text, tables):
        self.places, self.tables, self.faults = Places(text), tables, []

    def add(self, line, cause, said):
        self.faults.append(Fault(line, cause, said))

    def read(self):
        for key, value in self.tables.items():
            line = self.places.key(key)
            match KEYS.get(key):
                case None:
                    self.unknown_key(line, key)
                case Rows() as rule:
                    self.read_rows(key, rule, value)
                case Residents():
                    self.read_residents(line, value)
                case rule:
                    self.read_value(line, key, rule, value)
        for key in NEEDED:
            if key not in self.tables:
                table = f", a table [[{key}]] with `base` and `pages`" if key == "segment" else ""
                self.add(None, "missing", f"`{key}` is missing: every machine file has it{table}")
        return sorted(self.faults, key=lambda fault: (fault.line is None, fault.line or 0))

    def unknown_key(self, line, key):
        for table, rule in KEYS.items():
            if isinstance(rule, Rows) and key in rule.keys:
                self.add(line, "unknown key", f"`{key}` is a key of a [[{table}]], and is outside one")
                return
        self.add(line, "unknown key", f"`{key}` is no key of a machine file{meant(key, KEYS)}")

    def read_value(self, line, key, rule, value):
        wrong = rule.fault(value)
        if wrong:
            self.add(line, wrong[0], f"{key} = {shown(value)}: {wrong[1]}")

    def read_rows(self, table, rule, rows):
        line = self.places.head(table)
        if isinstance(rows, dict):
            self.add(line, "type", f"each {table} begins with double brackets: [[{table}]]")
            return
        if not isinstance(rows, list):
            self.add(line, "type", f"`{table}` must be tables [[{table}]] with {rule.words()}")
            return
        most = 8 if table == "segment" and self.tables.get("version") != 2 else rule.most
        if len(rows) > most:
            more = "; with `version = 2` it may have 16" if most < rule.most and len(rows) <= rule.most else ""
            self.add(self.places.head(table, most), "too many", f"there are {len(rows)} tables [[{table}]]: there may be {most}{more}")
        if len(rows) < rule.least:
            self.add(line, "too few", f"there is no [[{table}]]: there must be one at least")
        for row, values in enumerate(rows):
            self.read_row(table, rule, row, values)
        if table == "drive":
            self.differ(rows, "letter")
            self.differ(rows, "image")

    def read_row(self, table, rule, row, values):
        head = self.places.head(table, row)
        if not isinstance(values, dict):
            self.add(head, "type", f"each {table} is a table with {rule.words()}")
            return
        for key, value in values.items():
            line = self.places.key(key, table, row)
            if key in rule.keys:
                self.read_value(line, key, rule.keys[key], value)
            elif key in KEYS:
                self.add(line, "unknown key", f"`{key}` is within a [[{table}]]: it must be before the first table")
            else:
                self.add(line, "unknown key", f"`{key}` is no key of a [[{table}]]{meant(key, rule.keys)}")
        for key in rule.keys:
            if key not in values:
                self.add(head, "missing", f"`{key}` is missing in this [[{table}]]")
        if table == "segment":
            self.read_segment(row, values)

    def read_segment(self, row, values):
        base, pages = values.get("base"), values.get("pages")
        is_known = all(type(value) is int and rule.has(value) for value, rule in zip((base, pages), KEYS["segment"].keys.values()))
        if is_known and base + pages > 192:
            said = f"base {base} and pages {pages} are {base + pages} together: at most 192; from base {base} on there are {192 - base}"
            self.add(self.places.key("pages", "segment", row), "sum", said)

    def differ(self, rows, key):
        first = {}
        for row, values in enumerate(rows):
            value = values.get(key) if isinstance(values, dict) else None
            if isinstance(value, str) and first.setdefault(value, row) != row:
                earlier = self.places.key(key, "drive", first[value])
                line = self.places.key(key, "drive", row)
                self.add(line, f"same {key}", f"{key} = {shown(value)}: an earlier drive has it already (line {earlier}); drives differ in it")

    def read_residents(self, line, value):
        if self.tables.get("version") != 2:
            self.add(line, "version", "`residents` asks for `version = 2`")
        if not isinstance(value, list) or not all(isinstance(name, str) for name in value):
            self.add(line, "type", 'residents must be an array of texts, each "spool" or "sched"')
            return
        for number, name in enumerate(value):
            if name not in Residents.NAMES:
                self.add(line, "choice", f'{shown(name)} is no resident: they are "spool" and "sched"{meant(name, Residents.NAMES)}')
            elif name in value[:number]:
                self.add(line, "twice", f"{shown(name)} comes twice")


def faults(text):
    """All that is wrong with a machine file, by lines; what has no line comes last."""
    try:
        read(text)
        return []
    except Refused as refused:
        return refused.faults


def read(text):
    """The tables of a machine file; Refused where it is none."""
    decoded, tables = parsed(text)
    found = Reading(decoded, tables).read()
    if found:
        raise Refused(found)
    return tables


# The machine.


@dataclass
class Drive:
    letter: str
    kind: str
    image: str


def quoted(text):
    """A text as TOML has it in quotes."""
    return json.dumps(text, ensure_ascii=False).replace("\x7f", "\\u007f")


@dataclass
class Machine:
    """The machine of a machine file without fault; `drives` come by their letters."""

    tables: dict
    consoles: int
    printers: int
    tick_every: int
    script: str | None
    drives: list = field(default_factory=list)

    @classmethod
    def of(cls, tables):
        drives = sorted((Drive(**row) for row in tables.get("drive", [])), key=lambda drive: drive.letter)
        return cls(tables, tables["consoles"], tables.get("printers", 1), tables.get("tick_every", 0), tables.get("script"), drives)

    def text(self, script, images):
        """A machine file of this machine with another script, and with these images by the drives' letters."""
        plain = (key for key, rule in KEYS.items() if key in self.tables and not isinstance(rule, (Rows, Word)))
        lines = [f"{key} = {json.dumps(self.tables[key])}" for key in plain]
        lines.append(f"script = {quoted(script)}")
        for segment in self.tables["segment"]:
            lines += ["[[segment]]", *(f"{key} = {value}" for key, value in segment.items())]
        for drive in self.drives:
            lines += ["[[drive]]", f'letter = "{drive.letter}"', f'kind = "{drive.kind}"', f"image = {quoted(images[drive.letter])}"]
        return "\n".join(lines) + "\n"
