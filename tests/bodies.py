"""python3 -m tests.bodies [CRATE..]: tries the wrong bodies of tests/bodies, of these crates or of all: each is one that the crate's contracts refuse,
and for which the gate has no time. They are tried by `rt must-fail` in a copy of this folder, whose libraries should be proved (minutes for a crate).
python3 -m tests.bodies look: sees only that each can still be put into its crate (a second).

Status: 0 where each is refused, or can be put in; 1 where one isn't; 2 where a crate has none."""

import os
import shutil
import subprocess
import sys
import tempfile

from tests.running import ROOT, TESTS

BODIES = os.path.join(TESTS, "bodies")


def bodies(crate):
    """The paths of a crate's wrong bodies."""
    folder = os.path.join(BODIES, crate)
    return [os.path.join(folder, name) for name in sorted(os.listdir(folder)) if name.endswith(".edit")]


def lines_of(body):
    """Of each change that a wrong body makes, its file, and the text there that is replaced."""
    found, file = [], None
    with open(body, encoding="utf-8") as opened:
        for line in opened.read().splitlines():
            if line.startswith("file: "):
                file = line.removeprefix("file: ")
            elif line.startswith("old: "):
                found.append((file, line.removeprefix("old: ")))
    return found


def misplaced(crate, body):
    """What keeps a wrong body from being put in, None where nothing does: each text that is replaced stands once in its file."""
    changes = lines_of(body)
    if not changes:
        return "it changes nothing"
    for file, old in changes:
        try:
            with open(os.path.join(ROOT, "crates", crate, file), encoding="utf-8") as opened:
                times = opened.read().count(old)
        except OSError:
            return f"there is no file {file}"
        if times != 1:
            return f"what it replaces stands {times} times in {file}"
    return None


def look(crates):
    """Writes what can't be put in, and returns the status."""
    wrong = 0
    for crate in crates:
        for body in bodies(crate):
            why = misplaced(crate, body)
            if why:
                print(f"{os.path.relpath(body, ROOT)}: {why}")
                wrong = 1
    return wrong


def tried(crates):
    """Tries the wrong bodies of these crates, and returns the status of `rt must-fail`."""
    with tempfile.TemporaryDirectory() as room:
        copy = os.path.join(room, "copy")
        shutil.copytree(ROOT, copy, symlinks=True, ignore=shutil.ignore_patterns(".git"))
        for crate in crates:
            folder = os.path.join(copy, "crates", crate, "must-fail")
            shutil.rmtree(folder, ignore_errors=True)
            shutil.copytree(os.path.join(BODIES, crate), folder)
        return subprocess.run(["rt", "must-fail", *crates], cwd=copy, check=False).returncode


def main():
    every = sorted(os.listdir(BODIES))
    match sys.argv[1:]:
        case ["look"]:
            sys.exit(look(every))
        case crates:
            lacking = [crate for crate in crates if crate not in every]
            if lacking:
                print(f"bodies: {lacking[0]} has no folder in tests/bodies", file=sys.stderr)
                sys.exit(2)
            sys.exit(tried(crates or every))


if __name__ == "__main__":
    main()
