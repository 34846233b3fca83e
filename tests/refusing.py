"""What is done in a process before the program that is tried, so that the system refuses it something: size of files, memory, or that a file
is brought to the disk. It needs neither rights nor a compiler. Each function answers one for `preexec_fn` of subprocess.run."""

import ctypes
import errno
import os
import resource
import signal

# Of linux/prctl.h, linux/seccomp.h and linux/bpf_common.h, and the number that fsync has on x86-64.
NO_NEW_PRIVILEGES, SET_SECCOMP, BY_FILTER = 38, 22, 2
LOAD, IS_EQUAL, RETURN = 0x20, 0x15, 0x06
ALLOWED, REFUSED = 0x7FFF0000, 0x00050000
FSYNC = 74
C = ctypes.CDLL(None, use_errno=True)


class Program(ctypes.Structure):
    """A filter of calls: how many instructions it has, and where they are."""

    _fields_ = [("count", ctypes.c_ushort), ("instructions", ctypes.c_char_p)]


def instruction(code, value, otherwise=0):
    """An instruction, after which so many are left out where a comparison fails."""
    return code.to_bytes(2, "little") + bytes([0, otherwise]) + value.to_bytes(4, "little")


# Of a call its number is loaded.
SYNCS_FAIL = instruction(LOAD, 0) + instruction(IS_EQUAL, FSYNC, 1) + instruction(RETURN, REFUSED | errno.EIO) + instruction(RETURN, ALLOWED)


def no_sync():
    """No file is brought to the disk: fsync fails with EIO."""
    program = Program(len(SYNCS_FAIL) // 8, SYNCS_FAIL)

    def prepare():
        for words in ((NO_NEW_PRIVILEGES, 1, 0, 0, 0), (SET_SECCOMP, BY_FILTER, ctypes.byref(program), 0, 0)):
            if C.prctl(*words):
                raise OSError(ctypes.get_errno(), "prctl")

    return prepare


def file_size(most):
    """Nothing is written to a file from so many bytes on."""

    def prepare():
        signal.signal(signal.SIGXFSZ, signal.SIG_IGN)
        resource.setrlimit(resource.RLIMIT_FSIZE, (most, most))

    return prepare


def memory(most):
    """It has at most so many bytes for its data."""

    def prepare():
        resource.setrlimit(resource.RLIMIT_DATA, (most, most))
        resource.setrlimit(resource.RLIMIT_CORE, (0, 0))

    return prepare


def full():
    """The output takes nothing."""

    def prepare():
        os.dup2(os.open("/dev/full", os.O_WRONLY), 1)

    return prepare


def wrong_of_starved(found, out, whole):
    """What is wrong with what was found of runs with little memory, from none to enough: each ends as `out` or as `whole` says, or wasn't
    begun, which the system says in its own words; and both come. An ending begins with its status."""
    others = {ending for ending in found if 0 <= status_of(ending) < 126} - {out, whole}
    return None if not others and {out, whole} <= found else f"{sorted(map(str, found))}"


def status_of(ending):
    return status_of(ending[0]) if isinstance(ending, tuple) else ending
