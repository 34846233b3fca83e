"""What the drivers of tests share: the program that they try, its runs with a limit of time, and the count of what was tried."""

import contextlib
import os
import subprocess
import sys
import threading

ROOT = os.path.dirname(os.path.dirname(os.path.abspath(__file__)))
TESTS = os.path.join(ROOT, "tests")
BUILT = os.path.join(ROOT, "crates", "mpm", "out", "mpm")
# Seconds for one run, of which most take some hundredths.
SECONDS = 60


def program_in(words, built=BUILT):
    """The path of the program to be tried: the first word, or what a command of the folder above built, as ./mpm."""
    program = os.path.abspath(words[0] if words else built)
    if not os.access(program, os.X_OK):
        sys.exit(f"{program} isn't there, or can't be run")
    return program


def run(words, timeout=SECONDS, **options):
    """A run with these words. Its outputs are kept where `options`, which are those of subprocess.run, don't say where they go."""
    options = ({} if "input" in options else {"stdin": subprocess.DEVNULL}) | {"stdout": subprocess.PIPE, "stderr": subprocess.PIPE} | options
    return subprocess.run(words, timeout=timeout, check=False, **options)


@contextlib.contextmanager
def pipe(path, contents):
    """A pipe of a name: who reads it first gets these bytes, and who reads it once more waits for ever."""

    def fill():
        with open(path, "wb") as file:
            file.write(contents)

    os.mkfifo(path)
    threading.Thread(target=fill, daemon=True).start()
    try:
        yield
    finally:
        os.remove(path)


class OutOfTime(str):
    """What is said of a case that ran out of time."""

    def __new__(cls, late):
        return super().__new__(cls, f"took more than {late.timeout:g} seconds")


def in_time(wrong, *arguments):
    """What a function finds wrong, None where nothing is; or that a run of it took too long."""
    try:
        return wrong(*arguments)
    except subprocess.TimeoutExpired as late:
        return OutOfTime(late)


def each_in_time(group, *arguments):
    """The cases that a function yields, each with what is wrong; they end where a run takes too long."""
    try:
        yield from group(*arguments)
    except subprocess.TimeoutExpired as late:
        yield f"{group.__name__}, which begins no more cases", OutOfTime(late)


class Tally:
    """The count of what was tried. A case in which something is wrong, or that ran out of time, has a line."""

    def __init__(self):
        self.passed = self.failed = self.late = 0

    def add(self, name, wrong):
        if not wrong:
            self.passed += 1
            return
        self.late += isinstance(wrong, OutOfTime)
        self.failed += not isinstance(wrong, OutOfTime)
        print(f"{name}: {wrong}", flush=True)

    def status(self):
        """Prints the last line. Answers 0 where all passed, 1 where one failed, 2 where none failed and one ran out of time."""
        late = f", {self.late} ran out of time" if self.late else ""
        print(f"{self.passed} passed, {self.failed} failed{late}")
        return 1 if self.failed else 2 if self.late else 0
