"""Endings of a machine's run that its images or the system bring about, most of them alike of `mpm` and of `mpm_snapshot`: tests.program and
tests.cores have them among their cases. What `mpm` says of each is in docs/ENDINGS.md."""

import fcntl
import os
import subprocess
import tempfile

from tests import refusing, running
from tools import image_maker
from tools.images import KINDS

MACHINE = "version = 1\nconsoles = 1\nscript = 'keys'\n[[segment]]\nbase = 0\npages = 192\n"
DRIVE = "[[drive]]\nletter = 'P'\nkind = 'ibm3740'\nimage = 'P'\n"
BAD_LINE = "\n" * 10 + "9 tick\n9 tock\n"


def image(*blocks):
    """An `ibm3740` with a file in slot 3 and the next sixth ones, each of one record in a block."""
    kind = KINDS["ibm3740"]
    made = bytearray(b"\xE5" * kind.size)
    for number, block in enumerate(blocks):
        entry = image_maker.entry_of(kind, name=b"%c          " % (b"A"[0] + number), blocks=[block])
        image_maker.put_entry(kind, made, 3 + 6 * number, entry)
    return bytes(made)


def write_files(folder, files):
    for name, contents in files.items():
        with open(os.path.join(folder, name), "wb") as file:
            file.write(contents.encode() if isinstance(contents, str) else contents)


def ended(program, words, files, links=(), **options):
    """The status of a run in a folder with these files, what it says on the standard error, and what it writes. A link is a function of `os`,
    what it is made to, and its name."""
    with tempfile.TemporaryDirectory() as folder:
        write_files(folder, files)
        for link, to, name in links:
            link(to if link is os.symlink else os.path.join(folder, to), os.path.join(folder, name))
        done = running.run([program, *words], cwd=folder, **options)
    return done.returncode, done.stderr.decode().rstrip("\n"), done.stdout or b""


def outputs(program, words, files):
    """An output that takes nothing, and none at all: the last step, which writes first, is named, and the drive's image stays as it is."""
    for name, prepare in (("full", refusing.full()), ("closed", lambda: os.close(1))):
        with tempfile.TemporaryDirectory() as folder:
            write_files(folder, files)
            done = running.run([program, *words], cwd=folder, preexec_fn=prepare)
            with open(os.path.join(folder, "A"), "rb") as file:
                found = done.returncode, done.stderr.decode(), file.read() == files["A"]
        yield f"output {name}", None if found == (8, f"output failed at step {words[-1]}\n", True) else str(found)


def piped(program, words, name, contents, files, text):
    """What is wrong with a run one of whose files comes by a pipe, from which it can be read once."""
    with tempfile.TemporaryDirectory() as folder, running.pipe(os.path.join(folder, name), contents):
        write_files(folder, files)
        done = running.run([program, *words], timeout=10, cwd=folder)
    found = done.returncode, done.stderr.decode(), done.stdout.decode()
    return None if found == (0, "", text) else str(found)


def differences(program, words, text):
    """Each ending, with what is wrong with it. `words` are those that run the file `file` for ten steps, and `text` is what they write as the
    last step is done."""
    sound, twice = {"keys": "", "P": image(7, 8)}, {"keys": "", "P": image(7, 7)}
    for name, files, prepare, wanted in (
        ("a bad image", {"file": MACHINE + DRIVE, **twice}, None, (4, "bad image P: cause 4 at 9", b"")),
        ("no image", {"file": MACHINE + DRIVE, "keys": ""}, None, (7, "disk failed at step 0", b"")),
        ("no sync", {"file": MACHINE + DRIVE, **sound}, refusing.no_sync(), (7, "disk failed at step 10", text)),
        ("a bad script", {"file": MACHINE, "keys": BAD_LINE}, None, (3, "bad script line 12", b"")),
        ("a bad machine file", {"file": MACHINE + "[other]\n", "keys": ""}, None, (2, "bad machine file", b"")),
        ("no script", {"file": MACHINE}, None, (6, "cannot read", b"")),
        ("a folder as script", {"file": MACHINE.replace("'keys'", "'.'")}, None, (6, "cannot read", b"")),
    ):
        found = ended(program, words, files, preexec_fn=prepare)
        yield f"{name}: {' '.join(words)}", None if found == wanted else f"{found}, and not {wanted}"


def starved(program, words, files):
    """What is wrong with runs that have little memory: they end so with nothing written, or as they do with enough."""
    whole = ended(program, words, files)
    found = {ended(program, words, files, preexec_fn=refusing.memory(most)) for most in range(0, 4_000_000, 65_536)}
    return refusing.wrong_of_starved(found, (9, "out of memory", b""), whole)


# The text of a script, and the line of its first fault, 0 where there is none.
SCRIPTS = [
    ("", 0), ("\n\n", 0), ("#\n# a comment", 0), ("x", 1), ("\nx", 2), ("0 tick\n\n#\nx\ny", 4), ("5 tick\n5 tick\n6 tick", 0),
    ("5 tick\n4 tick", 2), ("5 tick\n# 4 tick\n\n4 tick\n3 tick", 4), ("5 key 0 ab\n4 tick", 2), ("0 tick", 0), ("4000000000 tick", 0),
    ("4000000001 tick", 1), ("18446744073709551616 tick", 1), ("00 tick", 1), ("01 tick", 1), ("-1 tick", 1), ("+1 tick", 1),
    ("1x tick", 1), (" tick", 1), ("0 key 0 a", 0), ("0 key 7 a", 0), ("0 key 8 a", 1), ("0 key 00 a", 1), ("0 ready 0 00", 0),
    ("0 ready 15 fF", 0), ("0 ready 16 00", 1), ("0 ready 05 00", 1), ("0 ready 3 0", 1), ("0 ready 3 000", 1), ("0 ready 3 G0", 1),
    ("0 ready 3 0g", 1), ("0 int 4", 0), ("0 int 31", 0), ("0 int 3", 1), ("0 int 32", 1), ("0 int 04", 1), ("0 int x", 1), ("0", 1),
    ("0 ", 1), ("tick", 1), ("0 Tick", 1), ("0  tick", 1), (" 0 tick", 1), ("0 tick ", 1), ("0\ttick", 1), ("0 tick tick", 1),
    ("0 key", 1), ("0 key 0", 1), ("0 key 0 ", 1), ("0 key  0 a", 1), ("0 keys 0 a", 1), ("0 ready", 1), ("0 ready 3", 1),
    ("0 ready 3 ", 1), ("0 ready 3  5A", 1), ("0 ready 3 5A ", 1), ("0 int", 1), ("0 int ", 1), ("0 int 4 ", 1), ("0 int 4 4", 1),
    ("x 0 tick", 1), ("0 tick\r\n", 0), ("0 tick\r", 1), ("0 tick\r\r\n", 1), ("0 tick\r\n1 tick\r", 2), ("\r\n", 0), ("\r", 1),
    ("# a comment\r", 0), ("0 ti\rck\n", 1), ("0 key 0 \\", 1), ("0 key 0 a\\", 1), ("0 key 0 \\a", 1), ("0 key 0 \\R", 1),
    ("0 key 0 \\x", 1), ("0 key 0 \\x4", 1), ("0 key 0 \\x4g", 1), ("0 key 0 \\xg4", 1), ("0 key 0 \\X41", 1), ("0 key 0 \x7f", 1),
    ("0 key 0 \x1f", 1), ("0 key 0 \t", 1), ("0 key 0 \x80", 1),
    *((f"0 key 0 {128 * key}", 0) for key in ("a", "\\x41", "\\\\")), *((f"0 key 0 {129 * key}", 1) for key in ("a", "\\x41", "\\\\")),
    (b"# \xFF\xFE\nx\xFF", 2),
]  # fmt: skip


def scripts(program):
    """Scripts of a run of no steps, which ends at once where they have no fault."""
    for text, line in SCRIPTS:
        found, wanted = ended(program, ["run", "file", "0"], {"file": MACHINE, "keys": text}), (3, f"bad script line {line}", b"") if line else (0, "", b"")
        yield f"the script {text[:40]!r}", None if found == wanted else str(found)


def of_images(program):
    """What is no image, or no drive's alone, with what is wrong with how `mpm` ends then."""
    words, failed = ["run", "file", "10"], (7, "disk failed at step 0", b"")
    # What is no regular file, and a name that no file has.
    for name in (".", "/dev/null", "a\\u0000b"):
        files = {"file": MACHINE + DRIVE.replace("image = 'P'", f'image = "{name}"'), "keys": ""}
        found = ended(program, words, files)
        yield f"the image {name}", None if found == failed else str(found)
    # One file by two names.
    for name in ("./P", "twice", "link"):
        files = {"file": MACHINE + DRIVE + DRIVE.replace("letter = 'P'", "letter = 'B'").replace("image = 'P'", f"image = '{name}'")}
        links = [(os.link, "P", "twice"), (os.symlink, "P", "link")]
        found = ended(program, words, {**files, "keys": "", "P": image(7)}, links)
        yield f"drives P and B of P and {name}", None if found == failed else str(found)
    found = ended(program, words, {"file": MACHINE + DRIVE.replace("ibm3740", "hd8"), "keys": "", "P": bytes(9_000_000)})
    yield "an image of more than 8 MiB", None if found == (4, "bad image P: cause 1 at 0", b"") else str(found)


# Three hundred lines, for as many thousand steps.
MANY_STEPS = "301000"
MANY_KEYS = "".join(f"{1000 * number} key 0 user 3\\r\n" for number in range(300))


def cut(program):
    """What is wrong with a run whose image is cut short from outside, as soon as its output has begun, which a pipe has no room for: it goes by
    what it read, and tells it in the end."""
    files = {"file": MACHINE + DRIVE, "keys": MANY_KEYS, "P": image(7)}
    words = ["run", "file", MANY_STEPS]
    status, said, whole = ended(program, words, files)
    with tempfile.TemporaryDirectory() as folder:
        write_files(folder, files)
        reader, writer = os.pipe()
        fcntl.fcntl(writer, fcntl.F_SETPIPE_SZ, 4096)
        with subprocess.Popen([program, *words], cwd=folder, stdin=subprocess.DEVNULL, stdout=writer, stderr=subprocess.PIPE) as process:
            os.close(writer)
            with os.fdopen(reader, "rb") as output:
                wrote = output.read(1)
                os.truncate(os.path.join(folder, "P"), 256_255)
                wrote += output.read()
            found = process.wait(timeout=running.SECONDS), process.stderr.read().decode()
    if (status, said) != (0, "") or len(whole) <= 4096:
        return f"{status}, {said}, {len(whole)} bytes where nothing is cut"
    return None if (*found, wrote) == (7, f"disk failed at step {MANY_STEPS}\n", whole) else str(found)


def finished(text):
    """A text without the lines of the consoles that are closed at its end."""
    lines = text.splitlines(keepends=True)
    while lines and lines[-1].endswith(b"\\\n"):
        lines.pop()
    return b"".join(lines)


def ended_with_room(program, words, files, most):
    """How a run ends whose output takes at most so many bytes, and what it has of them."""
    with tempfile.TemporaryFile() as output:
        status, said, _ = ended(program, words, files, preexec_fn=refusing.file_size(most), stdout=output)
        output.seek(0)
        return status, said, output.read()


def stops(program, files):
    """A traced run of 400,000 steps whose output takes no more, from the beginning or the middle of some of its first thirty lines on: what came
    before is there, and the step that is named is the one that writes the line. A record of a call names that step itself; the other lines
    are those that a run of so many steps has, and one of a step less hasn't."""

    def words(steps):
        return ["run", "file", str(steps), "--trace"]

    whole = ended(program, words(400_000), files)[2]
    lines = whole.splitlines(keepends=True)[:30]
    for number, line in list(enumerate(lines))[::2]:
        start = len(b"".join(lines[:number]))
        for most in (start, start + len(line) // 2):
            status, said, wrote = ended_with_room(program, words(400_000), files, most)
            named, _, step = said.rpartition(" ")
            is_so = (status, named, wrote) == (8, "output failed at step", whole[:most]) and step.isdigit()
            if is_so and line.startswith(b"t "):
                is_so = line.split()[1] == step.encode()
            elif is_so:
                before, after = (finished(ended(program, words(int(step) - k), files)[2]) for k in (1, 0))
                is_so = whole.startswith(after) and after.startswith(before) and len(before) <= start < start + len(line) <= len(after)
            yield f"no room from {most} bytes on", None if is_so else f"{status}, {said}, {wrote[-99:]}"


def both(one, other):
    """Both are refused."""

    def prepare():
        one()
        other()

    return prepare


def in_their_step(program, hi, letter, prompt):
    """Programs and machines whose output takes so many bytes, with the step that is named: that of the call of the system, or the last one where
    the unfinished line is closed. A failed drive is named before a failed output."""
    machine = MACHINE.replace("script = 'keys'\n", "")
    drives = {"file": machine + DRIVE, "P": image(7)}
    shown = b"c0 Hi\\r\n"
    for words, files, most, wanted in (
        ("program file 9", {"file": hi}, 0, (8, "output failed at step 5", b"")),
        ("program file 4000000000", {"file": hi}, 0, (8, "output failed at step 5", b"")),
        ("program file 9 --trace", {"file": hi}, len(shown), (8, "output failed at step 5", shown)),
        ("program file 9", {"file": letter}, 0, (8, "output failed at step 9", b"")),
        ("run file 10", {"file": machine}, 0, (8, "output failed at step 10", b"")),
        ("run file 10", {"file": machine}, len(prompt), (0, "", prompt)),
        ("run file 10", drives, 0, (8, "output failed at step 10", b"")),
    ):
        found = ended_with_room(program, words.split(" "), files, most)
        yield f"{words} with room for {most} bytes", None if found == wanted else str(found)
    for steps, prepare, wanted in (
        ("10", both(refusing.no_sync(), refusing.full()), (7, "disk failed at step 10", b"")),
        ("0", refusing.no_sync(), (7, "disk failed at step 0", b"")),
        ("0", None, (0, "", b"")),
    ):
        found = ended(program, ["run", "file", steps], drives, preexec_fn=prepare)
        yield f"{steps} steps and no sync", None if found == wanted else str(found)
