#!/usr/bin/env python3
"""python3 -m tests.commands [PROGRAM [SCENE..]]: types the commands at the consoles of machines that a built mpm runs, crates/mpm/out/mpm where none is named, on disks
of each kind, and compares what each console shows and what the disks have in the end with what is worked out here from the files that were put
there (machines.py). A scene that differs, or that runs out of time, has a line; the last line counts the scenes. Status: 0 where none differs, 1
where one does, 2 where one ran out of time and no other differs.

What the scenes expect comes from docs/COMMANDS.md and from the files alone. What a file has, how large it is and what is free is counted
here; only texts that never change are written out."""

import concurrent.futures
import gzip
import os
import random
import sys

from tests import machines, making, running
from tests.machines import Disk, with_commands
from tests.sessions import Document, Session
from tests.expected import blocks, characteristics, dir_lines, dump_lines, free_kilobytes, joined, names, sdir_lines, space, stat_lines, text_lines

KINDS = ("ibm3740", "hd4", "hd8")
SCENES = {}


def scene(*variants):
    """A scene, which is played once for each variant."""

    def added(play):
        for variant in variants or ((),):
            words = variant if isinstance(variant, tuple) else (variant,)
            SCENES[" ".join([play.__name__, *map(str, words)])] = (play, words)
        return play

    return added


# Files.

LETTER = b"Dear Sir,\r\n\tplease find\tenclosed\r\nthe list.\r\n"
LONG = b"".join(b"This is line %d\r\n" % number for number in range(60))
BIG = bytes((number * number // 7 + number) % 256 for number in range(45_000)).replace(b"\x1A", b"\x1B").ljust(45_056, b"e")


def home(*commands, kind="hd4", **files):
    disk = with_commands(kind, *commands)
    for name, contents in files.items():
        disk.put(name.replace("_", "."), contents)
    return disk


# The scenes.


@scene(*KINDS)
def listing(kind):
    """DIR: wildcards, names at the limits, SYS files, users, an empty disk, and what can't be listed."""
    disk = home("dir")
    other = Disk(kind)
    for name in ("A", "AB.C", "LONGNAME.TYP", "LONGNAM.TYP", "X.Y", "$%&'()-@.^_~", "Z9.TXT", "LETTER.TXT"):
        other.put(name, LETTER)
    other.put("HIDDEN.TXT", LETTER, "SYS")
    other.put("RO.TXT", LETTER, "RO")
    other.put("THREE.TXT", LETTER, user=3)
    session = Session({"A": disk, "B": other, "C": Disk(kind)})
    for words, pattern in (("b:", "*.*"), ("b:*.txt", "*.TXT"), ("b:longname.typ", "LONGNAME.TYP"), ("b:l*.*", "L*.*"), ("b:??.?", "??.?"), ("b:?.?", "?.?"), ("b:z*.t*t", "Z*.T*")):
        session.type("dir " + words, *dir_lines(other, "B", pattern))
    session.type("dir b:hidden.txt", *dir_lines(other, "B", "HIDDEN.TXT"))
    session.type("dir b:*.txt sys", *dir_lines(other, "B", "*.TXT", system=True))
    session.type("dir b: [sys]", *dir_lines(other, "B", system=True))
    session.type("dir b:*.* g3", *dir_lines(other, "B", user=3))
    session.type("dir b:[g3,sys]", "File not found")
    session.type("dir b:no.no", "File not found")
    session.type("dir c:", "File not found")
    session.type("dir d:", "D: - Invalid drive")
    session.type("dir toolongname.x", "Usage: DIR d:name.typ [SYS] [Gn]")
    session.type("dir *.* more", "Usage: DIR d:name.typ [SYS] [Gn]")
    session.type("dir", *dir_lines(disk))
    session.type("user 3")
    session.go("3A")
    session.type("dir b:", *dir_lines(other, "B", user=3))
    session.type("b:")
    session.go("3B")
    session.type("dir", "Command not found")
    session.type("a:dir b:", *dir_lines(other, "B", user=3))
    session.type("a:dir", "File not found")
    return session


@scene(*KINDS)
def showing(kind):
    """TYPE and DUMP: tabs, the end of a text, extents, pages, files of another user, and what can't be shown."""
    disk = home("type", "dump")
    other = Disk(kind, label=0x80)
    long = b"".join(b"%05d and so on\r\n" % number for number in range(1100))
    for name, contents in (("LETTER.TXT", LETTER), ("LONG.TXT", LONG), ("MANY.TXT", long), ("EMPTY.TXT", b""), ("PART.TXT", b"one\r\ntwo\x1Athree"), ("FULL.TXT", b"x" * 126 + b"\r\n")):
        other.put(name, contents)
    other.put("SHARED.TXT", LETTER, "SYS")
    other.put("SECRET.TXT", LETTER)
    other.protect("SECRET.TXT", 0x80, "PLUGH")
    session = Session({"A": disk, "B": other})
    for name in ("LETTER", "MANY", "EMPTY", "PART", "FULL"):
        session.type(f"type b:{name.lower()}.txt", *text_lines(other.files[0, name + ".TXT"][0]))
    lines = text_lines(LONG)
    for option in ("p", "[p]", "[pause]"):
        session.type("type b:long.txt " + option, *lines[:23])
        session.key("x", echo="Press RETURN to continue x\r\n")
        session.texts[0] += "".join(line + "\r\n" for line in lines[23:46])
        session.key("\r", *lines[46:], echo="Press RETURN to continue \r\r\n")
    session.type("type b:secret.txt", "B:SECRET.TXT - Password error")
    session.type("type b:secret.txt;xyzzy", "B:SECRET.TXT - Password error")
    session.type("type b:secret.txt;plugh", *text_lines(LETTER))
    session.type("type b:no.txt", "B:NO.TXT - File not found")
    session.type("type b:*.txt", "B:????????.TXT - Wildcards not allowed")
    session.type("type", "Usage: TYPE d:name.typ [P]")
    session.type("dump b:letter.txt", *dump_lines(other.files[0, "LETTER.TXT"][0]))
    session.type("dump b:empty.txt")
    session.type("dump b:secret.txt", "B:SECRET.TXT - Password error")
    session.type("dump", "Usage: DUMP d:name.typ")
    session.type("user 7")
    session.go("7A")
    session.type("type b:shared.txt", *text_lines(LETTER))
    session.type("type b:letter.txt", "B:LETTER.TXT - File not found")
    return session


def erase(disk, *erased, user=0):
    for name in erased:
        del disk.files[user, name]
        disk.protections.pop((user, name), None)


@scene(*KINDS)
def erasing(kind):
    """ERA and ERAQ: wildcards, all files, a file of several extents, read-only files, passwords."""
    disk = home("era", "eraq")
    other = Disk(kind, label=0x80)
    for name in ("A.TXT", "B.TXT", "C.TXT", "BIG.DAT", "ONE", "TWO", "THREE"):
        other.put(name, BIG if name == "BIG.DAT" else LETTER)
    other.put("RO.TXT", LETTER, "RO")
    other.put("SECRET.TXT", LETTER)
    other.protect("SECRET.TXT", 0x20, "PLUGH")
    other.put("A.TXT", LETTER, user=5)
    session = Session({"A": disk, "B": other})
    session.type("era b:big.dat")
    session.type("era b:a.txt")
    session.type("era b:a.txt", "B:A.TXT - File not found")
    session.type("era b:?.txt")
    session.type("era b:*.txt", "B:RO.TXT - File R/O", "B:SECRET.TXT - Password error")
    session.type("era b:secret.txt;plugh")
    session.type("era", "Usage: ERA d:name.typ")
    session.type("era d:x", "D: - Invalid drive")
    session.type("eraq b:t*.*")
    session.ask("B:THREE", "n")
    session.ask("B:TWO", "Y")
    session.type("eraq b:x*.*", "B:X???????.??? - File not found")
    session.type("era b:*.*")
    session.ask("Confirm delete all user files", "n")
    session.type("era b:*.*")
    session.ask("Confirm delete all user files", "what")
    session.ask("Confirm delete all user files", "yes", "B:RO.TXT - File R/O")
    erase(other, "A.TXT", "B.TXT", "C.TXT", "BIG.DAT", "ONE", "TWO", "THREE", "SECRET.TXT")
    return session


def rename(disk, old, new, user=0):
    disk.files[user, new] = disk.files.pop((user, old))
    if (user, old) in disk.protections:
        disk.protections[user, new] = disk.protections.pop((user, old))


@scene(*KINDS)
def renaming(kind):
    """REN: one file, wildcards, names that are taken, other drives, read-only files, passwords."""
    disk = home("ren")
    other = Disk(kind, label=0x80)
    for name in ("A.TXT", "B.TXT", "BIG.DAT", "X1.OLD", "X2.OLD", "LONGNAME.TYP"):
        other.put(name, BIG if name == "BIG.DAT" else LETTER)
    other.put("RO.TXT", LETTER, "RO")
    other.put("S.TXT", LETTER, "SYS")
    other.put("SECRET.TXT", LETTER)
    other.protect("SECRET.TXT", 0x80, "PLUGH")
    session = Session({"A": disk, "B": other})
    session.type("ren b:huge.dat=big.dat")
    session.type("ren b:c.txt=b:a.txt")
    session.type("ren b:b.txt=c.txt", "Not renamed, B:B.TXT - File already exists")
    session.type("ren b:*.new=*.old", "X1.NEW=X1.OLD", "X2.NEW=X2.OLD")
    session.type("ren z?.new=b:x?.new", "Z1.NEW=X1.NEW", "Z2.NEW=X2.NEW")
    session.type("ren b:rw.txt=ro.txt", "B:RO.TXT - File R/O")
    session.type("ren b:t.txt=s.txt")
    session.type("ren b:open.txt=secret.txt", "B:SECRET.TXT - Password error")
    session.type("ren b:open.txt=secret.txt;plugh")
    session.type("ren b:l=longname.typ")
    session.type("ren b:q=no.txt", "B:NO.TXT - File not found")
    for words in ("b:q", "b:q=a:r", "b:q=*.*", "b:*.x=?.old", "=b:l", ""):
        session.type(f"ren {words}".rstrip(), "Usage: REN d:newname.typ=oldname.typ")
    for old, new in (("BIG.DAT", "HUGE.DAT"), ("A.TXT", "C.TXT"), ("X1.OLD", "Z1.NEW"), ("X2.OLD", "Z2.NEW"), ("S.TXT", "T.TXT"), ("SECRET.TXT", "OPEN.TXT"), ("LONGNAME.TYP", "L")):
        rename(other, old, new)
    return session


def copy(to, from_, name, new=None, user=0, to_user=0):
    """A file as PIP copies it, with its attributes."""
    to.files[to_user, new or name] = from_.files[user, name]


@scene(*[(one, other) for one in KINDS for other in KINDS])
def copying(one, other):
    """PIP: a file to a file and to a drive, wildcards, attributes, users, its options, and what it asks."""
    disk = home("pip")
    first, second = Disk(one), Disk(other)
    for name, contents in (("A.TXT", LETTER), ("B.TXT", LONG), ("BIG.DAT", BIG), ("EMPTY", b""), ("ODD.BIN", b"1\x1A2")):
        first.put(name, contents)
    first.put("SYS.TXT", LETTER, "SYS", "F2")
    first.put("RO.TXT", LONG, "RO")
    first.put("THREE.TXT", LONG, user=3)
    second.put("B.TXT", b"old")
    second.put("RO.TXT", b"old", "RO")
    second.put("KEPT.TXT", b"old", "RO")
    session = Session({"A": disk, "B": first, "C": second})
    session.type("pip c:=b:a.txt")
    session.type("pip c:new.txt=b:a.txt")
    session.type("pip c:big.dat=b:[v]")
    session.type("pip c:odd.bin=b:odd.bin")
    session.type("pip c:empty=b:empty")
    session.type("pip c:three.txt=b:three.txt[g3]")
    session.type("pip c:five.txt[g5]=b:a.txt")
    session.type("pip c:=b:sys.txt", "B:SYS.TXT - File not found")
    session.type("pip c:s.txt=b:sys.txt", "B:SYS.TXT - File not found")
    session.type("pip c:=b:sys.txt[r]")
    session.type("pip c:kept.txt=b:a.txt")
    session.ask("C:KEPT.TXT is R/O, delete", "n")
    session.type("pip c:=b:*.txt", "COPYING -", "A.TXT", "B.TXT", "RO.TXT")
    session.ask("C:RO.TXT is R/O, delete", "y")
    session.type("pip c:=b:ro.txt[w]")
    session.type("pip b:a.txt=b:a.txt")
    session.type("pip c:no=b:no", "B:NO - File not found")
    session.type("pip c:=d:no", "D: - Invalid drive")
    session.type("pip d:=b:a.txt", "D: - Invalid drive")
    session.type("pip c:x=b:*.txt", "Invalid source")
    session.type("pip c:*.x=b:a.txt", "Invalid destination")
    for words in ("x", "x=", "=x", "x=y[q]", "x=y z", "x=y[g16]"):
        session.type("pip " + words, "Invalid format")
    for name in ("A.TXT", "B.TXT", "BIG.DAT", "ODD.BIN", "EMPTY", "SYS.TXT", "RO.TXT"):
        copy(second, first, name)
    copy(second, first, "A.TXT", "NEW.TXT")
    copy(second, first, "THREE.TXT", user=3)
    copy(second, first, "A.TXT", "FIVE.TXT", to_user=5)
    return session


@scene(*KINDS)
def secret(kind):
    """Passwords after the names that PIP, SUBMIT, DIR and STAT take; a label that makes an XFCB with each file."""
    disk = home("pip", "submit", "dir", "stat", "type")
    other = Disk(kind, label=0x90)
    for name, mode in (("READ.TXT", 0x80), ("WRITE.TXT", 0x40), ("DELETE.TXT", 0x20), ("DO.SUB", 0x80)):
        other.put(name, b"dir b:w*.*" if name == "DO.SUB" else LETTER)
        other.protect(name, mode, "PLUGH")
    other.put("OLD.TXT", LONG)
    session = Session({"A": disk, "B": other})
    session.type("pip b:new.txt=b:read.txt", "B:READ.TXT - Password error")
    session.type("pip b:new.txt=b:read.txt;plugh[v]")
    session.type("pip b:copy.txt=b:old.txt,b:read.txt;plugh")
    session.type("pip b:delete.txt=b:old.txt", "B:DELETE.TXT - Password error")
    session.type("pip b:delete.txt;plugh=b:old.txt")
    session.type("pip b:two.txt=b:write.txt")
    session.type("submit b:do", "B:DO.SUB - Password error")
    session.type("submit b:do;plugh", "0A>dir b:w*.*", *dir_lines(other, "B", "W*.*"))
    session.type("stat b:write.txt $r/o", "B:WRITE.TXT - Password error")
    session.type("stat b:write.txt;plugh $r/o", "WRITE.TXT set to R/O")
    copy(other, other, "READ.TXT", "NEW.TXT")
    copy(other, other, "OLD.TXT", "DELETE.TXT")
    copy(other, other, "WRITE.TXT", "TWO.TXT")
    other.files[0, "COPY.TXT"] = (joined(LONG, LETTER), frozenset())
    other.change("WRITE.TXT", "RO")
    del other.protections[0, "DELETE.TXT"]
    return session


@scene(*KINDS)
def joining(kind):
    """PIP: several files into one, the console and the printer on either side, and lines that it asks for."""
    disk = home("pip")
    other = Disk(kind)
    other.put("A.TXT", LETTER)
    other.put("B.TXT", LONG)
    other.put("ODD.BIN", b"1\x1A2" + b"." * 125)
    session = Session({"A": disk, "B": other})
    session.type("pip b:c.txt=b:a.txt,b:b.txt,b:a.txt[v]")
    session.type("pip b:d.txt=b:a.txt,b:odd.bin[o],b:a.txt")
    session.type("pip b:a.txt=b:a.txt,b:a.txt")
    session.type("pip con:=b:a.txt,b:odd.bin", *text_lines(LETTER + LETTER + b"1"))
    session.texts[0] = session.texts[0][:-2]
    session.type("pip lst:=b:b.txt,b:odd.bin")
    session.printed = LONG.decode() + "1"
    session.type("pip b:t.txt=con:")
    session.key("one\rtwo\r\x1A", echo="one\r\ntwo\r\n\r\n")
    session.type("pip b:no.txt=b:a.txt,b:none.txt", "B:NONE.TXT - File not found")
    session.type("pip b:no.txt=b:none.txt,b:a.txt", "B:NONE.TXT - File not found")
    session.type("pip b:no.txt=b:a.txt,b:b.txt,lst:,b:a.txt", "Invalid source")
    session.type("pip b:no.txt=b:a.txt,b:b.txt[q]", "Invalid format")
    session.type("pip")
    for line, *shown in (("b:e.txt=b:b.txt",), ("b:f.txt=b:none.txt", "B:NONE.TXT - File not found"), ("",)):
        session.texts[0] += "*"
        session.key(line + "\r", *shown, echo=line + "\r\n")
    none = frozenset()
    other.files |= {
        (0, "C.TXT"): (joined(LETTER, LONG, LETTER), none),
        (0, "D.TXT"): ((LETTER + other.files[0, "ODD.BIN"][0] + LETTER).ljust(256, b"\x1A"), none),
        (0, "A.TXT"): (joined(LETTER, LETTER), none),
        (0, "T.TXT"): (joined(b"one\r\ntwo\r\n"), none),
        (0, "E.TXT"): (joined(LONG), none),
    }
    return session


@scene(*KINDS)
def filling(kind):
    """A disk without room, and a directory without room: nothing is lost, and nothing is left."""
    disk = home("pip", "stat")
    full, crowded = Disk(kind), Disk(kind)
    full.put("OLD.TXT", LETTER)
    used = sum(blocks(full, name, user) for user, name in full.files)
    rest = full.drive.kind.dsm + 1 - full.drive.kind.directory_blocks - used - 3
    full.put("MOST.DAT", bytes(rest * full.drive.kind.block))
    for number in range(crowded.drive.kind.drm):
        crowded.put(f"F{number}.TXT", b"")
    source = Disk("hd4")
    source.put("BIG.DAT", BIG)
    source.put("A.TXT", LETTER)
    session = Session({"A": disk, "B": source, "C": full, "D": crowded})
    session.type("stat c:", f"Bytes Remaining On C: {3 * full.drive.kind.block // 1024}k")
    session.type("pip c:=b:big.dat", "C:BIG.$$0 - Disk full")
    session.type("pip c:old.txt=b:big.dat", "C:OLD.$$0 - Disk full")
    session.type("stat c:", f"Bytes Remaining On C: {3 * full.drive.kind.block // 1024}k")
    session.type("pip c:=b:a.txt")
    session.type("pip d:=b:a.txt")
    session.type("pip d:b.txt=b:a.txt", "D:B.$$0 - Directory full")
    copy(full, source, "A.TXT")
    copy(crowded, source, "A.TXT")
    return session


@scene(*KINDS)
def counting(kind):
    """STAT, SHOW and SDIR: room, sizes, users, parameters, and attributes that STAT sets."""
    disk = home("stat", "show", "sdir")
    other = Disk(kind)
    for name, contents in (("A.TXT", LETTER), ("BIG.DAT", BIG), ("EMPTY", b""), ("X", b"x" * 16_384), ("Y", b"y" * 32_896)):
        other.put(name, contents)
    other.put("S.TXT", LONG, "SYS")
    other.put("RO.TXT", LONG, "RO", "ARC", "F1", "F4")
    other.put("THREE.TXT", LONG, user=3)
    session = Session({"A": disk, "B": other, "C": Disk(kind)})
    session.type("stat", space(disk, "A"), space(other, "B"), space(session.disks["C"], "C"))
    session.type("show", space(disk, "A"), space(other, "B"), space(session.disks["C"], "C"))
    session.type("show b:", space(other, "B"))
    session.type("show c:[space]", space(session.disks["C"], "C"))
    session.type("stat b:", f"Bytes Remaining On B: {free_kilobytes(other)}k")
    session.type("stat b:*.*", *stat_lines(other, "B"))
    session.type("stat b:*.txt $s", *stat_lines(other, "B", "*.TXT", size=True))
    session.type("stat b:no", "B:NO - File not found")
    session.type("stat d:", "D: - Invalid drive")
    session.type("stat b:dsk:", *characteristics(other, "B"))
    session.type("show b:[drive]", *characteristics(other, "B"))
    session.type("stat b:usr:", "Active User :    0", "Active Files:    0   3")
    session.type("show b:[users]", "Active User :    0", "Active Files:    0   3", "# of Files  :    7   1")
    session.type("show c:[users]", "Active User :    0", "Active Files: ", "# of Files  : ")
    session.type("show b:[label]", "No label on drive B:")
    session.type("show b:[what]", "Usage: SHOW d:[SPACE], [LABEL], [USERS] or [DRIVE]")
    session.type("sdir b:", *sdir_lines(other, "B"))
    session.type("sdir b:*.txt [sys]", *sdir_lines(other, "B", "*.TXT", system=True))
    session.type("sdir b:[dir]", *sdir_lines(other, "B", system=False))
    session.type("sdir c:", "File not found")
    session.type("stat b:*.txt $r/o", *(f"{name} set to R/O" for name in names(other, "*.TXT")))
    session.type("stat b:ro.txt $r/w", "RO.TXT set to R/W")
    session.type("stat b:a.txt $sys", "A.TXT set to SYS")
    session.type("stat b:s.txt $dir", "S.TXT set to DIR")
    session.type("stat b:=r/o")
    session.type("stat b:a.txt $dir", "B:A.TXT - Disk R/O")
    session.type("show b:", space(other, "B", "R/O"))
    session.type("stat what", "A:WHAT - File not found")
    session.type("stat *.* $what", "Usage: STAT, STAT d:, STAT d:name.typ [$S], STAT VAL:")
    other.change("A.TXT", "RO", "SYS")
    other.change("S.TXT", "RO")
    other.change("RO.TXT", "ARC", "F1", "F4")
    return session


@scene(*KINDS)
def guarding(kind):
    """SET and SHOW: a label, its password, passwords and stamps of files, attributes, a drive; DSKRESET."""
    disk = home("set", "show", "sdir", "type", "era", "dskreset")
    other = Disk(kind)
    for name in ("A.TXT", "B.TXT", "C.TXT", "D.TXT"):
        other.put(name, LETTER)
    head = ["Label for drive B:", "", "Passwords  Make     Stamp    Stamp", "Required   XFCBs    Access   Update", "---------  -----    ------   ------"]
    stamp = " " * 15 + " 11/30/81 13:14"
    session = Session({"A": disk, "B": other}, tick=0, clock="date = 1430\nhour = 13\nminute = 14\n")
    session.type("set b:[name=my.lab,protect=on,access=on]")
    session.type("show b:[label]", *head, "on         off      on       off      ")
    session.type("set b:[update=on,protect=off,name=my.lab]")
    session.type("set b:[protect=on,update=off,name=my.lab,password=sesame]")
    session.type("set b:[make=on,name=x]")
    session.key("sesame\r", echo="Password? \r\n")
    session.type("set b:[make=off,name=y]")
    session.key("wrong\r", "Password error", echo="Password? \r\n")
    session.type("show b:[label]", *head, "on         on       on       off      ")
    session.type("set b:a.txt[password=plugh]", "B:A.TXT set")
    session.type("set b:b.txt[password=plugh,protect=write]", "B:B.TXT set")
    session.type("set b:c.txt[protect=delete, password=plugh]", "B:C.TXT set")
    other.protections |= {(0, "A.TXT"): (0x80, "PLUGH   "), (0, "B.TXT"): (0x40, "PLUGH   "), (0, "C.TXT"): (0x20, "PLUGH   ")}
    session.type("type b:a.txt", "B:A.TXT - Password error")
    session.type("type b:a.txt;plugh", *text_lines(LETTER))
    session.type("type b:b.txt", *text_lines(LETTER))
    session.type("set b:*.txt[ro]", "B:A.TXT - Password error", "B:B.TXT - Password error", "B:C.TXT - Password error", "B:D.TXT set")
    other.change("D.TXT", "RO")
    session.type("set b:d.txt[rw,sys,f1=on,archive=on]", "B:D.TXT set")
    other.change("D.TXT", "SYS", "F1", "ARC")
    session.type("set b:d.txt[f1=off,f3=on]", "B:D.TXT set")
    other.change("D.TXT", "SYS", "F3", "ARC")
    session.type("sdir b:", *sdir_lines(other, "B", stamps={"A.TXT": stamp, "B.TXT": stamp}))
    session.type("era b:c.txt", "B:C.TXT - Password error")
    session.type("set b:c.txt;plugh[protect=none]", "B:C.TXT set")
    session.type("era b:c.txt")
    session.type("set b:b.txt;plugh[password=]", "B:B.TXT set")
    session.type("era b:b.txt")
    erase(other, "B.TXT", "C.TXT")
    session.type("set b:[ro]")
    session.type("era b:d.txt", "B:D.TXT - Disk R/O")
    session.type("set b:[rw]")
    session.type("set b:[ro]")
    session.type("dskreset b:,a:")
    session.type("era b:d.txt")
    erase(other, "D.TXT")
    session.type("dskreset")
    session.type("dskreset x", "Usage: DSKRESET d:,d:")
    for words in ("", "b:", "b:[what=on]", "b:a.txt[what]", "b:[protect=maybe]", "b:a.txt[password=ninebytes]"):
        session.type(f"set {words}".rstrip(), "Usage: SET d:[option] or SET d:name.typ[option]")
    session.type("set b:no[ro]", "B:NO - File not found")
    session.type("set d:[protect=on]", "D: - Invalid drive")
    other.label = 0xD1
    return session


@scene()
def clock():
    """TOD, CONSOLE and PRINTER."""
    session = Session({"A": home("tod", "console", "printer")}, consoles=2, tick=0, printers=2, clock="date = 60\nhour = 23\nminute = 59\nsecond = 7\n")
    session.type("tod", "Wed 03/01/78 23:59:07")
    for words, shown in (("11/30/81 13:14", "Mon 11/30/81 13:14:00"), ("2/29/00 1:2:3", "Tue 02/29/00 01:02:00"), ("12/31/77 0:00", "Fri 12/31/77 00:00:00"), ("1/1/78 00:00", "Sun 01/01/78 00:00:00")):
        session.type("tod " + words)
        session.key("x", shown, echo="Strike key to set timex\r\n")
        session.type("tod", shown)
    for words in ("13/1/81 1:1", "2/29/81 1:1", "1/1/81 24:00", "1/1/81 1:60", "1/1/81", "now"):
        session.type("tod " + words, "Usage: TOD mm/dd/yy hh:mm:ss, or TOD P")
    session.type("console", "Console = 0")
    session.type("console", "Console = 1", console=1)
    session.type("printer", "Printer number = 0")
    session.type("printer 1", "Printer number = 1")
    session.type("printer 2", "No such printer")
    session.type("printer x", "Usage: PRINTER n")
    return session


@scene()
def ticking():
    """TOD P, with a clock so slow that no second passes."""
    session = Session({"A": home("tod")}, tick=1_000_000, clock="date = 1430\nhour = 13\n")
    session.type("tod p")
    session.key("x", echo="\rMon 11/30/81 13:00:00\r\n")
    return session


@scene(0, 20)
def submitting(turn):
    """SUBMIT: words, lines that count for what is after them, a text within a text, questions, and what can't be done."""
    disk = home("submit", "type", "dir", "era", "eraq", "pip", A_TXT=LETTER, B_TXT=LONG)
    disk.put("THREE.TXT", LETTER, user=3)
    disk.put("DO.SUB", b"; $1 and $2\r\ntype $1.txt\r\n\r\nuser 3\r\ndir\r\nuser 0\r\nsubmit more $1 c\r\nnothing $$5$9\r\nd:\r\ndir $2*.*\r\n")
    disk.put("AGAIN.SUB", b"submit again")
    disk.put("MORE.SUB", b"pip $2.txt=$1.txt\neraq $2.txt\nera $1.txt")
    session = Session({"A": disk}, turn=turn)
    session.type("submit do a b", "0A>; A and B", "0A>type A.txt", *text_lines(LETTER), "0A>user 3", "3A>dir", *dir_lines(disk, user=3), "3A>user 0", "0A>submit more A c")
    session.texts[0] += "0A>pip C.txt=A.txt\r\n0A>eraq C.txt\r\n"
    session.ask("A:C.TXT", "y", "0A>era A.txt", "0A>nothing $5", "Command not found", "0A>d:", "No drive", "0A>dir B*.*", *dir_lines(disk, pattern="B*.*"))
    shown = ["0A>submit again"] * 4
    session.type("submit again", *shown, "Too many commands")
    session.type("submit no", "A:NO.SUB - File not found")
    session.type("submit", "Usage: SUBMIT d:name words")
    erase(disk, "A.TXT")
    return session


@scene(0, 20)
def sharing(turn):
    """Files that are open at another console, of which one reads and the other writes."""
    disk = home("type", "era", "ren", "pip", "dir", "set", "show")
    other = Disk("ibm3740")
    other.put("LONG.TXT", LONG)
    session = Session({"A": disk, "B": other}, consoles=2, turn=turn)
    lines = text_lines(LONG)
    session.type("type b:long.txt p", *lines[:23])
    session.texts[0] += "Press RETURN to continue "
    session.type("type b:long.txt", *lines, console=1)
    session.type("era b:long.txt", "B:LONG.TXT - File currently open", console=1)
    session.type("ren b:new.txt=long.txt", "B:LONG.TXT - File currently open", console=1)
    session.type("pip b:long.txt=b:long.txt", "B:LONG.TXT - File currently open", console=1)
    session.type("pip b:copy.txt=b:long.txt", console=1)
    session.type("set b:[ro]", "Others have files open on the drive", console=1)
    session.key("\r", *lines[23:46], echo="\r\r\n")
    session.texts[0] += "Press RETURN to continue "
    session.key("\r", *lines[46:], echo="\r\r\n")
    session.type("pip b:typed.txt=con:")
    session.key("half", echo="half")
    session.type("type b:typed.$$0", "B:TYPED.$$0 - File currently open", console=1)
    session.type("era b:*.$$0", "B:TYPED.$$0 - File currently open", console=1)
    session.key("\x03", echo="^C\r\n")
    session.type("era b:*.$$0", console=1)
    session.type("era b:long.txt", console=1)
    copy(other, other, "LONG.TXT", "COPY.TXT")
    erase(other, "LONG.TXT")
    return session


@scene(0, 20)
def unlocked(turn):
    """A file that a program of the office shares in unlocked mode, one of its records locked: it can be read."""
    disk = home("dump", "pip", "era")
    office = os.path.join(running.ROOT, "examples", "office")
    for name in ("keep.prl", "data.dat"):
        with open(os.path.join(office, name), "rb") as file:
            contents = file.read()
        disk.put(name.upper(), contents + bytes(-len(contents) % 128))
    session = Session({"A": disk}, consoles=2, turn=turn)
    session.type("keep", "kept")
    session.type("dump data.dat", *dump_lines(disk.files[0, "DATA.DAT"][0]), console=1)
    session.type("pip copy.dat=data.dat[v]", console=1)
    session.type("pip data.dat=copy.dat", "A:DATA.DAT - File currently open", console=1)
    session.type("era data.dat", "A:DATA.DAT - File currently open", console=1)
    session.key("x", "free again", echo="x\r\n")
    session.type("era data.dat", console=1)
    rename(disk, "DATA.DAT", "COPY.DAT")
    return session


@scene(0, 20)
def together(turn):
    """Two consoles at once on one disk: each sees its own, and no file is lost."""
    disk = home("dir", "pip", "type", "era", "ren", "stat", "sdir", A_TXT=LETTER, B_TXT=LONG, BIG_DAT=BIG)
    other = Disk("hd8")
    session = Session({"A": disk, "B": other}, consoles=2, turn=turn)

    def both(line, *shown):
        session.type(line, *shown)
        session.together = True
        session.type(line.replace("0", "1"), *(text.replace("0", "1") for text in shown), console=1)
        session.together = False

    both("pip b:=*.*", "COPYING -", "A.TXT", "B.TXT", "BIG.DAT")
    both("pip c0.dat=b:big.dat[v]")
    session.type("type b:b.txt", *text_lines(LONG))
    both("pip c0.txt=a.txt,b.txt,a.txt")
    both("ren b:d0.txt=b:c0.txt", "B:C0.TXT - File not found")
    both("ren d0.txt=c0.txt")
    both("era c0.dat")
    both("pip b:same.txt=b.txt")
    for name in ("A.TXT", "B.TXT", "BIG.DAT"):
        copy(other, disk, name)
    copy(other, disk, "B.TXT", "SAME.TXT")
    for number in "01":
        disk.files[0, f"D{number}.TXT"] = (joined(LETTER, LONG, LETTER), frozenset())
    for console in (0, 1):
        session.type("dir b:", *dir_lines(other, "B"), console=console)
        session.together = True
    session.together = False
    session.type("sdir", *sdir_lines(disk))
    session.together = True
    session.type("stat *.*", *stat_lines(disk), console=1)
    return session


def drawn_line(session, console, rng, mine):
    """A line drawn at random, of a console that has some of the files Fn0.TXT to Fn3.TXT of drive B for itself."""
    disk, name, new = session.disks["A"], *(f"F{console}{rng.randrange(4)}.TXT" for _ in range(2))
    match rng.choice(["copy", "copy", "join", "type", "rename", "erase", "list"]):
        case "copy":
            source = rng.choice(["A.TXT", "B.TXT", "BIG.DAT"])
            session.type(f"pip b:{name}={source}{rng.choice(['', '[v]'])}".lower(), console=console)
            mine[name] = disk.files[0, source][0]
        case "join":
            session.type(f"pip b:{name}=a.txt,b.txt".lower(), console=console)
            mine[name] = joined(LETTER, LONG)
        case "type" if mine.get(name, b"").startswith(LETTER):
            session.type(f"type b:{name}".lower(), *text_lines(mine[name]), console=console)
        case "rename" if name in mine and new in mine:
            session.type(f"ren b:{new}={name}".lower(), f"Not renamed, B:{new} - File already exists", console=console)
        case "rename" if name in mine:
            session.type(f"ren b:{new}={name}".lower(), console=console)
            mine[new] = mine.pop(name)
        case "erase" | "rename":
            missing = [] if name in mine else [f"B:{name} - File not found"]
            session.type(f"era b:{name}".lower(), *missing, console=console)
            mine.pop(name, None)
        case _:
            listed = Disk(session.disks["B"].drive.kind_name)
            listed.files = {(0, name): (contents, frozenset()) for name, contents in mine.items()}
            session.type(f"dir b:f{console}*.*", *dir_lines(listed, "B"), console=console)


@scene(*range(6))
def drawn(seed):
    """Two to four consoles at once, each with its own files on one disk, and lines drawn at random."""
    rng = random.Random(seed)
    kind, consoles = KINDS[seed % 3], rng.randint(2, 4)
    disk = home("pip", "type", "ren", "era", "dir", A_TXT=LETTER, B_TXT=LONG, BIG_DAT=BIG[: 12_800 if kind == "ibm3740" else None])
    machine = {"turn": rng.choice([0, 1, 7, 20, 100]), "tick": rng.choice([100, 333, 1000, 5000]), "segments": (96,) * consoles, "pause": 8_000_000}
    session = Session({"A": disk, "B": Disk(kind)}, consoles=consoles, **machine)
    files = [{} for _ in range(consoles)]
    for _ in range(8):
        session.together = False
        for console in rng.sample(range(consoles), consoles):
            drawn_line(session, console, rng, files[console])
            session.together = True
    session.disks["B"].files = {(0, name): (contents, frozenset()) for mine in files for name, contents in mine.items()}
    return session


@scene(0, 20)
def stopping(turn):
    """^C, and ^D with ATTACH and ABORT."""
    disk = home("type", "attach", "abort", "era", "eraq", "pip", LONG_TXT=LONG, A_TXT=LETTER)
    session = Session({"A": disk}, consoles=2, turn=turn)
    lines = text_lines(LONG)

    def pages():
        session.type("type long.txt p", *lines[:23])
        session.texts[0] += "Press RETURN to continue "

    pages()
    session.key("\x03", echo="^C\r\n")
    pages()
    session.key("\x04", echo="")
    session.type("eraq a.txt")
    session.texts[0] += "A:A.TXT (Y/N)? "
    session.key("\x03", echo="^C\r\n")
    session.type("attach type")
    session.key("\r", *lines[23:46], echo="\r\r\n")
    session.texts[0] += "Press RETURN to continue "
    session.key("\x04", echo="")
    session.type("attach nobody", "Attach failed")
    session.type("attach type", "Attach failed", console=1)
    session.type("abort type 1", "Abort failed")
    session.type("abort type 0", console=1)
    session.type("abort type", "Abort failed")
    pages()
    session.key("\x04", echo="")
    session.type("abort type")
    session.type("abort toolonganame", "Usage: ABORT name console")
    session.type("attach", "Usage: ATTACH name")
    session.type("era long.txt")
    erase(disk, "LONG.TXT")
    return session


@scene("commands/commands.img.gz", "examples/office/office.img.gz")
def committed(path):
    """The disks that are committed: they have the commands as they are built, which every user can call."""
    with gzip.open(os.path.join(running.ROOT, path)) as file:
        disk = machines.Given("hd4", file.read())
    built = with_commands().files
    for name, contents in built.items():
        if disk.files.get(name) != contents:
            raise ValueError(f"{name} isn't the command that is built")
    session = Session({"A": disk, "B": Disk("ibm3740", {"A.TXT": LETTER})})
    session.type("dir", *dir_lines(disk))
    session.type("dir *.prl sys", *dir_lines(disk, pattern="*.PRL", system=True))
    session.type("type b:a.txt", *text_lines(LETTER))
    session.type("user 9")
    session.go("9A")
    session.type("dir", *dir_lines(disk, user=9))
    session.type("show", space(disk, "A"), space(session.disks["B"], "B"))
    return session


@scene()
def document():
    """The examples of docs/COMMANDS.md."""
    clock = "date = 1430\nhour = 13\nminute = 14\n"
    with gzip.open(os.path.join(running.ROOT, "examples", "office", "office.img.gz")) as file:
        office = machines.Given("hd4", file.read())
    return Document(os.path.join(running.ROOT, "docs", "COMMANDS.md"), {"A": office, "B": Disk("ibm3740")}, tick=0, clock=clock)


@scene()
def sizes():
    """The memory that a command takes: no more than docs/COMMANDS.md says, so that a small segment has room for it."""
    disk = home("dir", "pip", B_TXT=LONG)
    for file in sorted(os.listdir(machines.COMMANDS)):
        if file.endswith(".prl"):
            with open(os.path.join(machines.COMMANDS, file), "rb") as program:
                header = program.read(256)
            count = int.from_bytes(header[1:3], "little") + int.from_bytes(header[4:6], "little")
            if (count + 128 + 255) // 256 + 2 > (80 if file == "pip.prl" else 64):
                raise ValueError(f"{file} takes more pages than docs/COMMANDS.md says")
    session = Session({"A": disk}, segments=(64,))
    session.type("dir", *dir_lines(disk))
    session.type("pip a.txt=b.txt", "No memory")
    return session


def played(program, name):
    """What differs in a scene; None where nothing does."""
    play, words = SCENES[name]
    try:
        return "\n    ".join(play(*words).differences(program)) or None
    except (OSError, ValueError) as error:
        return str(error)


def main(words):
    program, tally = running.program_in(words), running.Tally()
    wanted = [name for name in SCENES if not words[1:] or any(name.startswith(word) for word in words[1:])]
    with concurrent.futures.ThreadPoolExecutor(2) as pool:
        for name, wrong in zip(wanted, pool.map(lambda name: running.in_time(played, program, name), wanted)):
            tally.add(name, wrong)
    if not words[1:]:
        for name, wrong in running.each_in_time(making.cases):
            tally.add(name, wrong)
    return tally.status()


if __name__ == "__main__":
    sys.exit(main(sys.argv[1:]))
