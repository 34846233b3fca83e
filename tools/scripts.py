"""Scripts, read by docs/PROFILE.md, "The script", and by none of the program's code: their events, each line that is off the form,
and the keys that are lost; and scripts that are written."""

import difflib
import re
from typing import NamedTuple

from tools.machine_files import Fault, Refused

SCRIPT_BYTES = 1_048_576
STEPS_LIMIT = 4_000_000_000
LINE_KEYS = 128
STORED_KEYS = 64
# ^C, ^D, ^Q and ^S, which a console that isn't raw doesn't store.
CONTROLS = b"\x03\x04\x11\x13"

SORTS = (b"tick", b"key", b"ready", b"int")
KEY_FORM = re.compile(rb"[\x20-\x5b\x5d-\x7e]|\\[rnt\\]|\\x[0-9A-Fa-f]{2}")
ESCAPES = {b"\\r": b"\r", b"\\n": b"\n", b"\\t": b"\t", b"\\\\": b"\\"}
WRITTEN = {value[0]: name for name, value in ESCAPES.items()}


class Event(NamedTuple):
    """An event of a script: its step, its sort, the number that follows (None for a tick), the bytes of its keys, and its line."""

    step: int
    sort: bytes
    number: int | None = None
    keys: bytes = b""
    line: int = 0


class Bad(Exception):
    def __init__(self, cause, said):
        super().__init__(said)
        self.cause, self.said = cause, said


def text_of(some):
    """Bytes of a line as they may be shown."""
    return "".join(chr(byte) if 0x20 <= byte < 0x7F else f"\\x{byte:02X}" for byte in some)


# Reading.


def is_number(word, most):
    return re.fullmatch(rb"0|[1-9][0-9]*", word) is not None and int(word) <= most


def number(word, least, most, cause, name):
    if is_number(word, most) and int(word) >= least:
        return int(word)
    shown = text_of(word[:20]) or "nothing"
    zeros = ", without leading zeros" if re.fullmatch(rb"0[0-9]+", word) else ""
    raise Bad(cause, f"the {name} is {least} to {most:,}{zeros}, and this is {shown}")


def spaced(line):
    """Of a line whose parts aren't separated by one space: what is there in place of it."""
    words = line.split()
    is_form = len(words) > 1 and words[0].isdigit() and words[1] in SORTS
    if is_form and b" ".join(line.split(b" ", 2)[:2]) != b" ".join(words[:2]):
        raise Bad("spaces", "one space, and nothing else, is between the parts of a line, and none before them")


def keys_of(text):
    """The bytes of the keys that a text types."""
    if text == b"":
        raise Bad("no keys", "a line of keys types at least one")
    keys, place = [], 0
    while place < len(text):
        form = KEY_FORM.match(text, place)
        if not form:
            byte = text[place]
            if byte == 0x5C:
                raise Bad("escape", f"{text_of(text[place:place + 4])}: after a \\ comes r, n, t, \\ or x and two hexadecimal digits")
            name = "a tab is \\t" if byte == 9 else "a CR is \\r" if byte == 13 else f"any other byte is \\xHH, here \\x{byte:02X}"
            raise Bad("byte", f"a byte {byte:02X}h: keys are written as 20h to 7Eh, {name}")
        keys.append(form[0])
        place = form.end()
    if len(keys) > LINE_KEYS:
        raise Bad("too many keys", f"it types {len(keys)} keys: a line types at most {LINE_KEYS}. Part it in two, or let ./spaced write it")
    return b"".join(ESCAPES.get(key) or (bytes([int(key[2:], 16)]) if len(key) == 4 else key) for key in keys)


def event_of(line):
    """The event of a line that is neither empty nor a comment."""
    spaced(line)
    step, _, rest = line.partition(b" ")
    sort, _, rest = rest.partition(b" ")
    if not is_number(step, STEPS_LIMIT) and step in SORTS:
        raise Bad("step", "a line begins with the step of its event")
    step = number(step, 0, STEPS_LIMIT, "step", "step")
    first, _, last = rest.partition(b" ")
    if sort == b"tick":
        if not line.endswith(b" tick"):
            raise Bad("rest", "nothing follows `tick`")
        return Event(step, sort)
    if sort == b"key":
        return Event(step, sort, number(first, 0, 7, "console", "console"), keys_of(last))
    if sort == b"ready":
        if not re.fullmatch(rb"[0-9A-Fa-f]{2}", last):
            number(first, 0, 15, "device", "device")
            raise Bad("hex", f"the byte of a device is two hexadecimal digits, and this is {text_of(last) or 'nothing'}")
        return Event(step, sort, number(first, 0, 15, "device", "device"), bytes.fromhex(last.decode()))
    if sort == b"int":
        return Event(step, sort, number(rest, 4, 31, "flag", "flag"))
    shown = text_of(sort[:20])
    near = difflib.get_close_matches(shown.lower(), [form.decode() for form in SORTS], 1, 0.6)
    hint = f"; is `{near[0]}` meant?" if near else ""
    raise Bad("sort", f"after the step comes `tick`, `key`, `ready` or `int`, and here {f'`{shown}`' if shown else 'nothing'}{hint}")


def lines_of(script):
    """The lines of a script with their numbers, without empty ones and comments."""
    lines = script.split(b"\n")
    for place, line in enumerate(lines, 1):
        line = line[:-1] if place < len(lines) and line.endswith(b"\r") else line
        if line and not line.startswith(b"#"):
            yield place, line


def parsed(script):
    """The events of the lines that have the form, and the faults of those that haven't."""
    events, faults, last = [], [], Event(0, b"tick")
    for place, line in lines_of(script):
        try:
            event = event_of(line)._replace(line=place)
            if event.step < last.step:
                raise Bad("order", f"its step is below {last.step}, that of line {last.line}: steps don't go down")
            events.append(event)
            last = event
        except Bad as bad:
            faults.append(Fault(place, bad.cause, bad.said))
    return events, faults


def read(script):
    """The events of a script; Refused where a line is off the form, or where it is too long."""
    if len(script) > SCRIPT_BYTES:
        raise Refused([Fault(None, "too long", f"it has {len(script):,} bytes; a script has at most {SCRIPT_BYTES:,}")])
    events, faults = parsed(script)
    if faults:
        raise Refused(faults)
    return events


def first_bad_line(script):
    """The first line of a script that is off the form, counted from 1; None where none is."""
    _, faults = parsed(script)
    return faults[0].line if faults else None


# Keys that are lost.


def lost_keys(events, consoles):
    """The lines of which keys are lost: those for a console that the machine doesn't have, and those that find 64 keys stored, however fast
    programs read. One event comes in a step, and nothing is read in that; in any other step at most one key is read. (Where a
    program keeps interrupts off events come later, and it may read meanwhile.)"""
    stored, free = [0] * 8, 1
    for event in events:
        if event.sort == b"key" and event.number >= consoles:
            has = "console 0" if consoles == 1 else f"consoles 0 to {consoles - 1}"
            yield Fault(event.line, "no console", f"keys for console {event.number}: the machine has {has}, and these are dropped")
        elif event.sort == b"key":
            rest = max(0, event.step - free)
            stored = [max(0, count - rest) for count in stored]
            room = STORED_KEYS - stored[event.number]
            kept = [key for key in event.keys if key not in CONTROLS]
            stored[event.number] += min(room, len(kept))
            if len(kept) > room:
                yield Fault(
                    event.line, "lost keys",
                    f"more than {STORED_KEYS} keys wait for console {event.number}: a console stores {STORED_KEYS}, and "
                    f"at least {len(kept) - room} of this line are dropped. ./spaced writes a script with its keys spaced",
                )  # fmt: skip
        free = max(free, event.step) + max(1, len(event.keys) if event.sort == b"key" else 1)


# Writing.


def written(keys):
    """Keys as a line of a script has them."""
    return b"".join(WRITTEN.get(key) or (bytes([key]) if 0x20 <= key < 0x7F else b"\\x%02X" % key) for key in keys)


def line_of(event):
    """The line of an event."""
    head = b"%d %b" % (event.step, event.sort)
    if event.sort == b"tick":
        return head
    if event.sort == b"key":
        return b"%b %d %b" % (head, event.number, written(event.keys))
    return b"%b %d" % (head, event.number) + (b" %02X" % event.keys[0] if event.sort == b"ready" else b"")


def script_of(events):
    """A script of events, whose steps don't go down."""
    return b"".join(line_of(event) + b"\n" for event in events)


def typed(step, console, keys, most=LINE_KEYS):
    """The events of keys that are typed from a step on, by lines of at most so many."""
    for place in range(0, len(keys), most):
        yield Event(step, b"key", console, bytes(keys[place : place + most]))
