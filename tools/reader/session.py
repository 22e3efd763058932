"""One chip from power-on to power-off: a run of `eid replay` that grows by a line at a time.

The program keeps nothing between two runs. So each new line of the script is a run of all of it, from the same image
and with the answers so far. The journal of a run is the only one for its files, so its front stays as it was, and only
what the new line left is read.
"""

from reader import coprocessor
from reader.trace import NoMoment, read_moment

LIMIT = 1_048_576
START, SCRIPT, ANSWERS, TRACE = "image.bin", "script.txt", "answers.txt", "trace.txt"
OFF = "off\n"
# More questions than any command asks.
QUESTIONS = 8


class Full(Exception):
    """A script or its answers have as many bytes as the program reads."""


class Lines:
    """A file that grows by lines, and is cut back where they came to nothing."""

    def __init__(self, path, limit=None):
        self.path, self.limit = path, limit
        self.file = open(path, "xb", buffering=0)
        self.size = 0

    def append(self, text, reserve=0):
        data = text.encode()
        if self.limit is not None and self.size + len(data) + reserve > self.limit:
            raise Full(f"{self.path.name} has {self.size} bytes, and the program reads {self.limit}")
        while data:
            written = self.file.write(data)
            self.size, data = self.size + written, data[written:]

    def cut_back(self, size):
        self.file.truncate(size)
        self.file.seek(size)
        self.size = size

    def close(self):
        self.file.close()


class Session:
    """Its folder has the image at its beginning, the script, the answers and the trace, and repeats it at any time."""

    def __init__(self, folder, program, scratch, cells, limit=LIMIT):
        folder.mkdir()
        self.folder, self.program, self.start = folder, program, cells
        self.work, self.output = scratch / "image.bin", scratch / "trace.txt"
        self.commands, self.tail = 0, ""
        (folder / START).write_bytes(cells)
        self.script, self.answers = Lines(folder / SCRIPT, limit), Lines(folder / ANSWERS, limit)
        self.trace = Lines(folder / TRACE)

    def plan_cut(self, cut):
        """A power cut in a later write, as the line `cut` has it behind its first word."""
        self.script.append(f"cut {cut}\n", len(OFF))

    def power(self, on):
        """What the trace says of it: `on` and the commit number, or `off`."""
        line = "on\n" if on else OFF
        tail = self.attempt(line, self.run)
        if not tail.startswith(line[:-1]) or tail.count("\n") != 1:
            raise NoMoment(f"the trace does not go on with `{line[:-1]}`")
        return tail[:-1]

    def transmit(self, command):
        """The moment of a command."""
        moment = self.attempt(f"apdu {command.hex()}\n", lambda: self.answered(command))
        self.commands += 1
        return moment

    def attempt(self, line, act):
        """Adds a line to the script and does with it what is to be done; where that fails the line was never there."""
        files = (self.script, self.answers, self.trace)
        sizes = [lines.size for lines in files]
        try:
            self.script.append(line, 0 if line == OFF else len(OFF))
            return self.recorded(act())
        except BaseException:
            for lines, size in zip(files, sizes):
                lines.cut_back(size)
            raise

    def recorded(self, result):
        """Adds what the newest line left to the trace."""
        self.trace.append(self.tail)
        return result

    def answered(self, command):
        """Runs the script until each question of its newest command has an answer."""
        for count in range(QUESTIONS):
            moment = read_moment(self.run(), command)
            question = moment.open_question(count)
            if question is None:
                return moment
            self.answers.append(coprocessor.answer(question) + "\n")
        raise NoMoment(f"a command asks more than {QUESTIONS} questions")

    def run(self):
        """Runs the script, and gives what its newest line left in the trace."""
        self.work.write_bytes(self.start)
        self.program.run(["replay", self.work, self.script.path, self.answers.path], self.output)
        with open(self.output, "rb") as trace:
            trace.seek(self.trace.size)
            self.tail = trace.read().decode("ascii", errors="replace")
        return self.tail

    def cells(self):
        """The image that the newest run left."""
        return self.work.read_bytes()

    def close(self):
        for lines in (self.script, self.answers, self.trace):
            lines.close()
