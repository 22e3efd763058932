"""The files that outlast a session: the user's image, and the last sessions, to be repeated by the program alone."""

import fcntl
import os
import pathlib
import shutil
import tempfile

COUNT = 10
CURRENT, WORK = "current", "work"
MEMORY, PREFIX = pathlib.Path("/dev/shm"), "eid-pcsc-"


class InUse(Exception):
    """Another bridge works on the same files."""


class Image:
    """The user's image: replaced whole, so that at any time it is the old one or the new one."""

    def __init__(self, path):
        self.path = path.resolve(strict=True)
        self.cells = self.path.read_bytes()

    def replace(self, cells):
        """Keeps these cells, also where the file cannot be written."""
        self.cells = cells
        beside = self.path.with_name(f".{self.path.name}.new")
        with open(beside, "wb") as file:
            os.fchmod(file.fileno(), self.path.stat().st_mode & 0o7777)
            file.write(cells)
            file.flush()
            os.fsync(file.fileno())
        os.replace(beside, self.path)


class Archive:
    """A folder of sessions by number; the one that goes on is `current`."""

    def __init__(self, folder):
        self.folder = folder
        self.current, self.work = folder / CURRENT, folder / WORK
        folder.mkdir(mode=0o700, exist_ok=True)
        self.lock = os.open(folder, os.O_RDONLY | os.O_DIRECTORY)
        try:
            fcntl.flock(self.lock, fcntl.LOCK_EX | fcntl.LOCK_NB)
        except BlockingIOError:
            raise InUse(f"another bridge keeps its sessions in {folder}") from None
        self.fresh()

    def close(self):
        """Lets another bridge have the folder."""
        self.clear_work()
        os.close(self.lock)

    def workplace(self):
        """A new folder, in memory where there is one, for what the program reads and writes; `work` leads to it."""
        self.clear_work()
        place = tempfile.mkdtemp(prefix=PREFIX, dir=MEMORY if MEMORY.is_dir() else None)
        self.work.symlink_to(place)
        return pathlib.Path(place)

    def clear_work(self):
        """Removes that folder, also that of a bridge that was killed."""
        if self.work.is_symlink():
            place = self.work.readlink()
            if place.name.startswith(PREFIX):
                shutil.rmtree(place, ignore_errors=True)
            self.work.unlink()

    def fresh(self):
        """The place of the next session; what an end without notice left there is kept."""
        if self.current.exists():
            self.keep()
        return self.current

    def numbers(self):
        return sorted(int(path.name) for path in self.folder.iterdir() if path.name.isdecimal())

    def keep(self):
        """Gives the session that ended its number, and lets the oldest go."""
        numbers = self.numbers()
        number = numbers[-1] + 1 if numbers else 1
        self.current.rename(self.folder / f"{number:06}")
        for old in [*numbers, number][:-COUNT]:
            shutil.rmtree(self.folder / f"{old:06}")
        return number

    def drop(self):
        """A session in which nothing was sent."""
        shutil.rmtree(self.current)
