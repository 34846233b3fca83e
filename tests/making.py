"""What `commands/make` makes of small sources, whatever the case of their names, and what it tells of. The bytes of a page relocatable program
are worked out here by the format's rules (MP/M II System Guide, "Page Relocatable Programs"): a header of 256 bytes with the length of the
code at 1, the code, and a bit for each of its bytes, which is 1 where the byte is the high byte of an address."""

import os
import shutil
import sys
import tempfile

from tests import running

MAKE = os.path.join(running.ROOT, "commands", "make")
# LD DE,text; LD C,9; CALL 0005h; LD C,0; JP 0005h; and text, at 010Dh.
ASSEMBLER = """        org     base + 0100h
        ld      de,text
        ld      c,9
        call    {base}0005h
        ld      c,0
        jp      {base}0005h
text:   db      'a$'
"""
CODE = bytes.fromhex("11 0D 01 0E 09 CD 05 00 0E 00 C3 05 00 61 24")
# The bytes at 2, 7 and 12 are high bytes of addresses; without `base` that at 2 alone is.
MARKS, MARKS_WITHOUT = b"\x21\x08", b"\x20\x00"
TOLD = "".join(f"make: `{word} 0005h` at {place} isn't moved, and works in a segment at 0000h only: `{word} base + 0005h`\n"
               for word, place in (("call", "0105h"), ("jp", "010Ah")))
C = '#include "kernel.h"\nint main(void)\n{\n    return call(WRITE_CONSOLE, 65);\n}\n'


def relocatable(marks):
    return (b"\0" + len(CODE).to_bytes(2, "little")).ljust(256, b"\0") + CODE + marks


def made(source, text, program):
    """What is told of the source, and the bytes of the program; None where none is made."""
    with tempfile.TemporaryDirectory() as folder:
        with open(os.path.join(folder, source), "w", encoding="ascii") as file:
            file.write(text)
        done = running.run([sys.executable, MAKE, source, program], cwd=folder, text=True)
        path = os.path.join(folder, program)
        if done.returncode or not os.path.exists(path):
            return done.stderr, None
        with open(path, "rb") as file:
            return done.stderr, file.read()


def assembled():
    moved, fixed = ASSEMBLER.format(base="base + "), ASSEMBLER.format(base="")
    for source, text, program, told, bytes_ in (
        ("lines.asm", moved, "lines.prl", "", relocatable(MARKS)),
        ("LINES.ASM", moved, "LINES.PRL", "", relocatable(MARKS)),
        ("lines.asm", moved, "Lines.Prl", "", relocatable(MARKS)),
        ("lines.asm", moved, "LINES.COM", "", CODE),
        ("lines.asm", fixed, "lines.com", "", CODE),
        ("lines.asm", fixed, "LINES.PRL", TOLD, relocatable(MARKS_WITHOUT)),
    ):
        found = made(source, text, program)
        yield f"make {source} {program}, {'moved' if text == moved else 'not moved'}", None if found == (told, bytes_) else f"{found}"


def compiled():
    """In C the length in the header is that of the code, of which a bit for each byte follows."""
    for source, program in (("letter.c", "letter.prl"), ("LETTER.C", "LETTER.PRL")):
        told, bytes_ = made(source, C, program)
        count = int.from_bytes((bytes_ or b"")[1:3], "little")
        is_right = told == "" and count > 0 and len(bytes_) == 256 + count + (count + 7) // 8
        yield f"make {source} {program}", None if is_right else f"{told}{len(bytes_ or b'')} bytes for a length of {count}"


def cases():
    """The cases of each sort of source for which its tools are installed."""
    if shutil.which("pasmo"):
        yield from assembled()
    if shutil.which("sdcc"):
        yield from compiled()
