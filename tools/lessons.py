"""run NAME [--turn N] [--steps N]: runs a lesson (docs/LESSONS.md) on a copy of its disk, and writes its lines with the records of its calls;
after them a line `d NAME RECORDS FILLED` for each file NAME.DAT on its disk, with how many records it has and how many of them aren't
zeros. The proved program runs where it is built already (./mpm), else the program as it is compiled before any proof (./try).

Each lesson has a machine file and a script in examples/lessons, where `run` is too.

Status: 0; 2 where the words are wrong; else that of the program."""

import argparse
import gzip
import os
import re
import subprocess
import sys
import tempfile

from tools import images

ROOT = os.path.dirname(os.path.dirname(os.path.abspath(__file__)))
FOLDER = os.path.join(ROOT, "examples", "lessons")
IMAGE = "lessons.img"
STEPS = 1_000_000


class Refused(Exception):
    """The program ended with another status than 0, which is the second argument; the first one is what it said."""


def names():
    """The runs that there are, by the names of their scripts."""
    return sorted(name.removesuffix(".keys") for name in os.listdir(FOLDER) if name.endswith(".keys"))


def text(name):
    with open(os.path.join(FOLDER, name), encoding="utf-8") as file:
        return file.read()


def machine_text(name, turn):
    """The machine file of a run: that of the first part of its name, with the run's own script, and with another `disk_turn` where one is given."""
    machine = text(name.partition("-")[0] + ".toml")
    machine = re.sub(r"^script = .*$", f'script = "{name}.keys"', machine, flags=re.M)
    return machine if turn is None else re.sub(r"^disk_turn = .*$", f"disk_turn = {turn}", machine, flags=re.M)


def prepare(folder, name, turn):
    """Puts into a folder what a run needs."""
    for file, contents in (("machine.toml", machine_text(name, turn)), (f"{name}.keys", text(f"{name}.keys"))):
        with open(os.path.join(folder, file), "w", encoding="utf-8") as made:
            made.write(contents)
    with gzip.open(os.path.join(FOLDER, IMAGE + ".gz")) as packed, open(os.path.join(folder, IMAGE), "wb") as image:
        image.write(packed.read())


def data_files(image):
    """A line for each file of the type DAT on a disk: its name, and how many records it has that aren't zeros throughout."""
    kind = images.KINDS["ibm3740"]
    for (_, name), parts in sorted(images.files_of(kind, image).items()):
        if images.file_text(name).endswith(".DAT"):
            contents = images.contents(kind, image, parts)
            records = [contents[place : place + 128] for place in range(0, len(contents), 128)]
            yield f"d {images.file_text(name)} {len(records)} {sum(any(record) for record in records)}"


def run(program, name, turn=None, steps=STEPS, seconds=None):
    """What a run writes, with the records of its calls, as lines; after them one for each file of data that is on its disk. A run that takes
    more than so many seconds raises subprocess.TimeoutExpired."""
    with tempfile.TemporaryDirectory() as folder:
        prepare(folder, name, turn)
        words = [program, "run", "machine.toml", str(steps), "--trace"]
        done = subprocess.run(words, cwd=folder, capture_output=True, text=True, timeout=seconds)
        if done.returncode:
            raise Refused(done.stderr, done.returncode)
        with open(os.path.join(folder, IMAGE), "rb") as image:
            return [*done.stdout.splitlines(), *data_files(image.read())]


def processes(name):
    """What the processes of a run are called: the programs that its script starts are processes 3 and 4, as the processes 0 to 2 are the
    command line interpreter and the terminal message processors."""
    typed = re.findall(r"^0 key \d ([^\\]*)", text(f"{name}.keys"), re.M)
    return {number: f"{number} {word}" for number, word in enumerate(typed, 3)}


def main():
    words = argparse.ArgumentParser(prog="run", description=__doc__, formatter_class=argparse.RawDescriptionHelpFormatter)
    words.add_argument("name", choices=names(), metavar="NAME", help=", ".join(names()))
    words.add_argument("--turn", type=int, metavar="N", help="the steps that the disk takes for a record; those of the machine file else")
    words.add_argument("--steps", type=int, default=STEPS, metavar="N", help=f"the steps of the run ({STEPS})")
    options = words.parse_args()
    is_built = os.path.exists(os.path.join(ROOT, "crates", "mpm", "out", "mpm"))
    if not is_built:
        print("run: the program isn't built yet (./mpm): it is compiled for this run, which takes a minute or two", file=sys.stderr)
    try:
        lines = run(os.path.join(ROOT, "mpm" if is_built else "try"), options.name, options.turn, options.steps)
    except Refused as refused:
        said, status = refused.args
        sys.stderr.write(said)
        sys.exit(status)
    print("\n".join(lines))


if __name__ == "__main__":
    main()
