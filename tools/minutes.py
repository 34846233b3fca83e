"""python3 -m tools.minutes watch PID LOG: writes into LOG what each crate's checks take of the processor, for as long as process PID (an `rt ci`) lives.
python3 -m tools.minutes table LOG..: writes the table of docs/PROVING.md, "Minutes", of such logs.

A line of LOG is a check: its crate, `itself`, `tests` or `edits` (wrong bodies), its processor seconds, and the number of its process. It is
written anew every two seconds; a check's seconds are those that it and its children had used when it was last seen.

Status: 0; 1 where the words are wrong, or LOG can't be read or written."""

import os
import sys
import time
from collections import defaultdict
from pathlib import Path

TICKS = os.sysconf("SC_CLK_TCK")
KINDS = ("itself", "tests", "edits")
DEAR = 250  # seconds from which on a crate has a row of its own


def statuses():
    """By its number each living process: its parent, its start, and its processor seconds with those of its ended children."""
    found = {}
    for folder in Path("/proc").glob("[0-9]*"):
        try:
            fields = (folder / "stat").read_text().rsplit(")", 1)[1].split()
        except OSError:
            continue
        found[int(folder.name)] = int(fields[1]), fields[19], sum(map(int, fields[11:15])) / TICKS
    return found


def check_of(process):
    """The crate and the kind of a process that checks one, else nothing."""
    try:
        words = Path(f"/proc/{process}/cmdline").read_text(errors="replace").split("\0")
        folder = os.readlink(f"/proc/{process}/cwd")
    except OSError:
        return None
    if "--crate-name" not in words:
        return None
    kind = "edits" if "rt-edit" in folder else "tests" if "--test" in words else "itself"
    return words[words.index("--crate-name") + 1], kind


def seen(root):
    """Each check below a process, with its seconds."""
    found, children = statuses(), defaultdict(list)
    for process, (parent, _, _) in found.items():
        children[parent].append(process)

    def below(process):
        return found[process][2] + sum(below(child) for child in children[process])

    checks, left = {}, [root]
    while left:
        process = left.pop()
        check = check_of(process) if process in found else None
        if check:
            checks[process, found[process][1], *check] = below(process)
        else:
            left += children[process]
    return checks


def watch(root, log):
    checks = {}
    while os.path.exists(f"/proc/{root}"):
        for check, seconds in seen(root).items():
            checks[check] = max(seconds, checks.get(check, 0))
        lines = [f"{crate} {kind} {seconds:.1f} {process}\n" for (process, _, crate, kind), seconds in checks.items()]
        Path(f"{log}.new").write_text("".join(lines))
        os.replace(f"{log}.new", log)
        time.sleep(2)


def table(logs):
    """The rows, in the order of crates.txt. Of a crate that was checked more than once, as a run that was begun anew does, the longest
    check counts; wrong bodies add up. Crates that take little are one row."""
    taken = {kind: defaultdict(float) for kind in KINDS}
    for line in "".join(Path(log).read_text() for log in logs).splitlines():
        crate, kind, seconds, _ = line.split()
        of = taken[kind]
        of[crate] = of[crate] + float(seconds) if kind == "edits" else max(of[crate], float(seconds))
    listed = Path(__file__).resolve().parent.parent.joinpath("crates.txt").read_text().splitlines()
    crates = [line.split(":")[0].strip() for line in listed if line.strip() and not line.startswith("#")]
    rows = {crate: [taken[kind][crate] for kind in KINDS] for crate in crates}
    print("    crate                 itself  tests  edits")
    for crate, row in rows.items():
        if sum(row) >= DEAR:
            print(f"    {crate:<20}" + "".join(f"{f'{seconds:.0f}' if seconds else '-':>8}" for seconds in row))
    others = [row for row in rows.values() if 0 < sum(row) < DEAR]
    print(f"    {f'{len(others)} others':<20}" + "".join(f"{sum(column):>8.0f}" for column in zip(*others)))
    minutes = [sum(taken[kind].values()) / 60 for kind in KINDS]
    print(f"    {'minutes in all':<20}" + "".join(f"{each:>8.0f}" for each in minutes))


def main():
    try:
        match sys.argv[1:]:
            case ["watch", process, log] if process.isdecimal():
                watch(int(process), log)
            case ["table", _, *_]:
                table(sys.argv[2:])
            case _:
                sys.exit(__doc__)
    except (OSError, ValueError, KeyError) as error:
        sys.exit(f"minutes: {error}")


if __name__ == "__main__":
    main()
