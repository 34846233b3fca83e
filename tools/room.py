"""The folder in which the runs of a sitting have what they need: copies of the images, which each run gets as they were at first, and
its machine file and script. It lies in memory where the system has a folder for that."""

import contextlib
import fcntl
import os
import shutil
import tempfile
import time

from tools import machine_files

PREFIX = "mpm-terminal-"
FICLONE = 0x40049409
# The time of change that a copy gets: any later one says that a run wrote to it.
UNTOUCHED = 0
# A room that is younger may be one that is being made.
LEFT_SECONDS = 1


class RoomFailed(Exception):
    """The images can't be copied, locked or replaced."""


def copy_image(source, target):
    """Copies a file, shared where the file system can, and with the holes that it has."""
    with open(source, "rb") as old, open(target, "wb") as new:
        size = os.fstat(old.fileno()).st_size
        with contextlib.suppress(OSError):
            fcntl.ioctl(new, FICLONE, old.fileno())
            return
        place = 0
        while place < size:
            try:
                place = os.lseek(old.fileno(), place, os.SEEK_DATA)
            except OSError:
                break
            end = os.lseek(old.fileno(), place, os.SEEK_HOLE)
            os.lseek(new.fileno(), place, os.SEEK_SET)
            while place < end:
                place += os.sendfile(new.fileno(), old.fileno(), place, end - place)
        os.truncate(new.fileno(), size)


def is_same(one, other):
    """Whether two files have the same bytes."""
    with open(one, "rb") as first, open(other, "rb") as second:
        while True:
            piece = first.read(1 << 20)
            if piece != second.read(1 << 20):
                return False
            if not piece:
                return True


def folder_for(size):
    """Where a room of so many bytes has its place: in memory if there is room enough, else where temporary files are."""
    memory = "/dev/shm"
    with contextlib.suppress(OSError):
        state = os.statvfs(memory)
        if os.access(memory, os.W_OK | os.X_OK) and state.f_bavail * state.f_frsize > 2 * size:
            return memory
    return tempfile.gettempdir()


def remove_left(folder):
    """Removes the rooms of sittings that were killed: nobody holds their locks any more."""
    for name in os.listdir(folder):
        path = os.path.join(folder, name)
        with contextlib.suppress(OSError):
            state = os.lstat(path)
            if name.startswith(PREFIX) and state.st_uid == os.getuid() and state.st_mtime + LEFT_SECONDS < time.time():
                with open(os.path.join(path, "lock"), "rb") as lock:
                    fcntl.flock(lock, fcntl.LOCK_EX | fcntl.LOCK_NB)
                    shutil.rmtree(path, ignore_errors=True)


class Room:
    """The room of a sitting at a machine. Where `is_kept`, the images stay locked against other runs until it is closed."""

    SETS = 5  # the images as they were, those of two runs that are shown in turn, and of two that are compared

    def __init__(self, machine, is_kept):
        self.machine, self.locks = machine, []
        sizes = sum(os.path.getsize(drive.image) for drive in machine.drives)
        place = folder_for(self.SETS * sizes)
        remove_left(place)
        self.path = tempfile.mkdtemp(prefix=PREFIX, dir=place)
        try:
            self.lock = open(os.path.join(self.path, "lock"), "wb")
            fcntl.flock(self.lock, fcntl.LOCK_EX | fcntl.LOCK_NB)
            os.mkdir(self.file("first"))
            self.states = {drive.letter: self.take(drive, is_kept) for drive in machine.drives}
        except BaseException:
            self.close()
            raise

    def file(self, *names):
        return os.path.join(self.path, *names)

    def take(self, drive, is_kept):
        """Copies an image under its lock, which is kept where the images are."""
        is_written = os.access(drive.image, os.W_OK)
        folder = os.path.dirname(os.path.realpath(drive.image))
        if is_kept and is_written and not os.access(folder, os.W_OK):
            raise RoomFailed(f"{drive.image} can't be replaced: the folder {folder} can't be written")
        original = open(drive.image, "r+b" if is_kept and is_written else "rb")
        try:
            fcntl.flock(original, (fcntl.LOCK_EX if is_kept and is_written else fcntl.LOCK_SH) | fcntl.LOCK_NB)
        except BlockingIOError as error:
            raise RoomFailed(f"{drive.image} is in use by another run") from error
        copy_image(drive.image, self.file("first", drive.letter))
        if is_kept:
            self.locks.append(original)
        else:
            original.close()
        return self.state(drive)

    @staticmethod
    def state(drive):
        """By what a change of an image is seen."""
        state = os.stat(drive.image)
        return state.st_ino, state.st_size, state.st_mtime_ns

    def copies(self, name):
        """The images of a run by letters, as they were at first; copied only where the run before wrote to them."""
        os.makedirs(self.file(name), exist_ok=True)
        paths = {drive.letter: self.file(name, drive.letter) for drive in self.machine.drives}
        for drive in self.machine.drives:
            path = paths[drive.letter]
            if not os.path.exists(path) or os.stat(path).st_mtime_ns != UNTOUCHED:
                copy_image(self.file("first", drive.letter), path)
                os.chmod(path, 0o600 if os.access(drive.image, os.W_OK) else 0o400)
                os.utime(path, ns=(UNTOUCHED, UNTOUCHED))
        return paths

    def prepare(self, name, script):
        """The machine file of a run that has this script, and its own images."""
        paths = self.copies(name)
        machine, keys = self.file(name, "machine.toml"), self.file(name, "script")
        with open(keys, "wb") as file:
            file.write(script)
        with open(machine, "w", encoding="utf-8") as file:
            file.write(self.machine.text(keys, paths))
        return machine

    def replace(self, drive, name):
        """Brings the image of a run into the place of the old one, by a rename. Answers what was done."""
        copy = self.file(name, drive.letter)
        if is_same(copy, self.file("first", drive.letter)):
            return f"{drive.image}: as it was"
        is_changed = self.state(drive) != self.states[drive.letter]
        target = os.path.realpath(drive.image)
        new = self.beside(target, copy)
        if is_changed:
            return f"{drive.image}: another program changed it meanwhile, so that it stays; what this sitting left is {new}"
        os.rename(new, target)
        return f"{drive.image}: kept as the sitting left it"

    @staticmethod
    def beside(target, copy):
        """A copy in the folder of an image, brought to the disk, with the modes and the owner of that image."""
        old = os.stat(target)
        handle, new = tempfile.mkstemp(prefix=os.path.basename(target) + ".", dir=os.path.dirname(target))
        os.close(handle)
        try:
            copy_image(copy, new)
            os.chmod(new, old.st_mode & 0o7777)
            with contextlib.suppress(OSError):
                os.chown(new, old.st_uid, old.st_gid)
            with open(new, "rb") as file:
                os.fsync(file)
        except OSError:
            os.unlink(new)
            raise
        return new

    def close(self):
        for file in self.locks:
            file.close()
        shutil.rmtree(self.path, ignore_errors=True)


def machine_of(path):
    """The machine of a machine file that the program has read already."""
    with open(path, "rb") as file:
        return machine_files.Machine.of(machine_files.read(file.read()))
