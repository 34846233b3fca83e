"""python3 -m tools.core CORE: shows the core of a process as a reader wants it: its registers, the words on its stack, and memory around PC with the
instructions that are there.

z80dasm takes the instructions apart, where it is installed (Debian has a package of that name); else their bytes alone are shown. Where the
process has no memory there is `--`.

Status: 0; 1 where the file can't be read or is none of a core, 2 where the words are wrong."""

import argparse
import re
import signal
import subprocess
import sys
import tempfile

from tools import cores

STACK_WORDS = 8
ROW = 16
ROWS_AROUND = 2
# An instruction has at most four bytes: so many are sure to be whole.
INSTRUCTIONS = 8
LISTED = re.compile(r"\t(?P<words>.*?)\t*;(?P<address>[0-9a-f]{4})\t(?P<bytes>(?:[0-9a-f]{2} )+)\t")


def where(core):
    first, end = 256 * core.base, 256 * (core.base + core.pages)
    inside = ", in a resident procedure" if core.inside else ""
    return f"process {core.process} after {core.step:,} steps{inside}; its segment: {first:04X} to {end - 1:04X} ({core.pages} pages)"


def registers(core):
    r = core.registers
    halted = ", in a HALT" if r["halted"] else ""
    shadow = ", right after EI" if r["shadow"] else ""
    yield f"PC {r['pc']:04X}  SP {r['sp']:04X}  IX {r['ix']:04X}  IY {r['iy']:04X}  I {r['i']:02X}  R {r['r']:02X}"
    for name, second in ("", ""), ("'", "2"):
        pairs = ((high + low, core.pair(high + second, low + second)) for high, low in ("af", "bc", "de", "hl"))
        yield "  ".join(f"{pair.upper()}{name} {word:04X}" for pair, word in pairs)
    yield f"flags {core.flags()}; IFF1 {r['iff1']}, IFF2 {r['iff2']}, interrupt mode {r['mode']}{halted}{shadow}"


def hexadecimal(byte):
    return "--" if byte is None else f"{byte:02X}"


def stack(core):
    """The words from SP on, as RET would take them."""
    for k in range(STACK_WORDS):
        address = (core.registers["sp"] + 2 * k) % 65_536
        low, high = core.byte(address), core.byte(address + 1)
        yield f"{address:04X}  {hexadecimal(high)}{hexadecimal(low)}"


def rows(core):
    """The bytes around PC, that at PC in brackets."""
    pc = core.registers["pc"]
    first = pc - pc % ROW - ROWS_AROUND * ROW
    for row in range(2 * ROWS_AROUND + 1):
        begin = (first + row * ROW) % 65_536
        there = [core.byte(begin + k) for k in range(ROW)]
        marks = ("[" if begin + k == pc else "]" if begin + k == pc + 1 else " " for k in range(ROW + 1))
        shown = "".join(mark + hexadecimal(byte) for mark, byte in zip(marks, there)) + ("]" if begin + ROW == pc + 1 else "")
        text = "".join(chr(byte) if byte is not None and 32 <= byte < 127 else "." for byte in there)
        yield f"{begin:04X} {shown:<{3 * ROW + 1}} {text}"


def instructions(core):
    """The instructions from PC on, each with its bytes; None where z80dasm isn't installed, or fails."""
    pc = core.registers["pc"]
    code = core.bytes_from(pc, min(4 * INSTRUCTIONS, 65_536 - pc))
    with tempfile.NamedTemporaryFile() as file:
        file.write(code)
        file.flush()
        try:
            done = subprocess.run(["z80dasm", "-a", "-t", "-g", str(pc), file.name], capture_output=True, text=True, encoding="latin-1", check=True)
        except (OSError, subprocess.CalledProcessError):
            return None
    found = filter(None, map(LISTED.match, done.stdout.splitlines()))
    return [f"{one['address'].upper()}  {one['bytes'].upper():<12} {one['words'].replace(chr(9), ' ')}" for one in found][:INSTRUCTIONS]


def report(core):
    yield where(core)
    yield ""
    yield from registers(core)
    yield "\nstack"
    yield from stack(core)
    yield "\nmemory"
    yield from rows(core)
    yield "\nat PC"
    pc = core.registers["pc"]
    yield from instructions(core) or [f"{pc:04X}  {core.bytes_from(pc, ROW).hex(' ').upper()}"]


def main():
    signal.signal(signal.SIGPIPE, signal.SIG_DFL)  # as in `.. | head`
    words = argparse.ArgumentParser(prog="core", description=__doc__, formatter_class=argparse.RawDescriptionHelpFormatter)
    words.add_argument("core", metavar="CORE", help="a file that mpm_snapshot saved")
    path = words.parse_args().core
    try:
        core = cores.read(path)
    except OSError as error:
        sys.exit(f"core: {path}: {error.strerror}")
    except cores.CoreError as error:
        sys.exit(f"core: {path}: {error}")
    print("\n".join(report(core)))


if __name__ == "__main__":
    main()
