"""The functions of the kernel (docs/PROFILE.md, "The kernel's calls" and "File calls"): their names, and their kinds."""

KINDS = ("console", "file", "queue", "flag", "memory", "process")

NAMES = {
    0: "system reset", 1: "console input", 2: "console output", 3: "raw console input", 4: "raw console output", 5: "list output",
    6: "direct console I/O", 9: "print string", 10: "read console buffer", 11: "console status", 12: "version", 13: "reset disks",
    14: "select disk", 15: "open file", 16: "close file", 17: "search first", 18: "search next", 19: "delete file", 20: "read sequential",
    21: "write sequential", 22: "make file", 23: "rename file", 24: "login vector", 25: "current disk", 26: "set DMA address",
    28: "write protect disk", 29: "read-only vector", 30: "set attributes", 31: "disk parameters", 32: "user", 33: "read random",
    34: "write random", 35: "file size", 36: "set random record", 37: "reset drive", 38: "access drive", 39: "free drive",
    40: "write random, zero fill", 41: "test and write", 42: "lock record", 43: "unlock record", 44: "set multi-sector count",
    45: "set error mode", 46: "free space", 47: "chain", 48: "flush buffers", 100: "set label", 101: "label data", 102: "read XFCB",
    103: "write XFCB", 104: "set time", 105: "get time", 106: "set default password", 128: "absolute memory", 129: "relocatable memory",
    130: "free memory", 131: "poll", 132: "flag wait", 133: "flag set", 134: "make queue", 135: "open queue", 136: "delete queue",
    137: "read queue", 138: "read queue if there", 139: "write queue", 140: "write queue if room", 141: "delay", 142: "dispatch",
    143: "terminate", 144: "create process", 145: "set priority", 146: "attach console", 147: "detach console", 148: "set console",
    149: "assign console", 150: "send command", 151: "resident procedure", 152: "parse filename", 153: "console number",
    154: "system data", 155: "get time", 156: "process descriptor", 157: "abort process", 158: "attach list", 159: "detach list",
    160: "set list", 161: "attach list if free", 162: "attach console if free", 163: "version", 164: "list number",
}

CONSOLE = {1, 2, 3, 4, 5, 6, 9, 10, 11, 146, 147, 148, 149, 153, 158, 159, 160, 161, 162, 164}
FILE = {*range(13, 25), 26, *range(28, 32), *range(33, 45), 46, 48, *range(100, 104), 106, 152}
QUEUE = {*range(134, 141), 151}
FLAG = {104, 105, 131, 132, 133, 141, 155}
MEMORY = {128, 129, 130}
# The calls on files that no disk serves: they are answered in the step in which they are made.
AT_ONCE = {14, 24, 26, 29, 31, 36, 44, 106, 152}


def kind(function):
    """The kind of a function; those of the clock are with the flags."""
    for name, functions in zip(KINDS, (CONSOLE, FILE, QUEUE, FLAG, MEMORY)):
        if function in functions:
            return name
    return "process"


def is_served(function):
    """Whether the disk serves a function, where the machine file gives it turns."""
    return function in FILE - AT_ONCE


def name(function):
    return NAMES.get(function, "a function that isn't there")
