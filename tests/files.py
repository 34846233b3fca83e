#!/usr/bin/env python3
"""python3 -m tests.files [PROGRAM [SEEDS]]: runs a built mpm, crates/mpm/out/mpm where none is named, with guests that make calls on files on
disks of each kind, and compares what each call answers, what it leaves in memory, and what the disks have in the end with the model of
filing.py.

The scenes (scenes.py) bring about each refusal of each function's row, and each two neighbours at once where they can be had; beside
them are the plays of so many seeds (drawn.py; 2 where none is given), each once with its calls one after the other, and once with five
processes of two segments that call as they come. Each is played with a disk that serves calls at once, and with one that takes turns. A play that ends
otherwise or runs out of time, and a refusal that never came, has a line; the last line counts. Status: 0 where all ended as they should, 1
where one didn't, 2 where one ran out of time and all others ended as they should."""

import sys

from tests import drawn, plays, running, scenes
from tools import images

DISK_TURNS = (0, 20)


def made(seeds):
    """Each play with its name."""
    for scene in scenes.SCENES:
        for kind in images.KINDS:
            yield f"{scene.__name__} on {kind}", scene(kind)
    for seed in range(seeds):
        yield f"seed {seed}", drawn.play(seed)
        yield f"crowd of seed {seed}", drawn.crowd(seed)


def main(words):
    program, tally = running.program_in(words), running.Tally()
    met = set()
    for name, play in made(int(words[1]) if len(words) > 1 else 2):
        met |= play.system.met
        for disk_turn in DISK_TURNS:
            tally.add(f"{name} with {disk_turn}", running.in_time(plays.run, program, play, disk_turn))
    for refusal in scenes.never(met):
        tally.add("never refused", refusal)
    return tally.status()


if __name__ == "__main__":
    sys.exit(main(sys.argv[1:]))
