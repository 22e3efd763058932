"""Runs of the program `eid`."""

import os
import pathlib
import select
import signal

TOP = pathlib.Path(__file__).resolve().parent.parent.parent
BUILT = TOP / "crates/eid/out/eid"
HOW_TO_BUILD = "build it by `cd crates/eid && rt run -- show data/image.bin`, or name one by --program"
SECONDS = 60
WRITES = os.O_WRONLY | os.O_CREAT | os.O_TRUNC


class NotRun(Exception):
    """The program did not do what it was called for."""


class Program:
    """The program at a path. It is called with words and without an environment, and prints to a file."""

    def __init__(self, path=None):
        self.path = pathlib.Path(path or BUILT).absolute()
        if not (self.path.is_file() and os.access(self.path, os.X_OK)):
            raise NotRun(f"no program at {self.path}: {HOW_TO_BUILD}")

    def run(self, words, output=os.devnull):
        """Ends where the status is 0, and else tells it."""
        files = ((0, os.devnull, os.O_RDONLY), (1, output, WRITES))
        actions = [(os.POSIX_SPAWN_OPEN, number, path, flags, 0o600) for number, path, flags in files]
        words = [str(word) for word in words]
        process = os.posix_spawn(self.path, [self.path, *words], {}, file_actions=actions, setpgroup=0)
        status = wait(process)
        if status:
            raise NotRun(f"`eid {' '.join(words)}` ended with {status}")


def wait(process):
    """The status of a process, which is ended where it takes too long."""
    descriptor = os.pidfd_open(process)
    try:
        if not select.select([descriptor], [], [], SECONDS)[0]:
            os.kill(process, signal.SIGKILL)
    finally:
        os.close(descriptor)
    return os.waitstatus_to_exitcode(os.waitpid(process, 0)[1])
