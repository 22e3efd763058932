"""What the tests share: a place with a chip, a card over it, a reader that speaks vpcd's protocol, and the bridge."""

import os
import pathlib
import shutil
import signal
import socket
import subprocess
import tempfile
import tomllib
import unittest

from reader.archive import Archive, Image
from reader.card import Card
from reader.program import Program
from reader.session import LIMIT
from reader.terminal import Terminal
from reader.wire import ASK_ATR, OFF, ON, RESET

TOOLS = pathlib.Path(__file__).resolve().parents[2]
CASES = TOOLS.parent / "tests"
MEMORY = "/dev/shm" if os.access("/dev/shm", os.W_OK) else None
SECONDS = 60
READ_CARD_ACCESS = bytes.fromhex("00B09C0000")
SILENT = bytes.fromhex("6F00")
# Set by the script that runs the tests.
PROGRAM = None


class Place(unittest.TestCase):
    """A temporary folder with the image of the examples, its PIN 123456 and its CAN 654321."""

    def setUp(self):
        self.folder = pathlib.Path(tempfile.mkdtemp(dir=MEMORY))
        self.addCleanup(shutil.rmtree, self.folder, ignore_errors=True)
        self.image = self.folder / "image.bin"
        self.kept = self.folder / "image.bin.sessions"
        shutil.copy(CASES / "files/image.bin", self.image)
        self.logged = []

    def make_profile(self):
        """Makes a profile and its image; gives the terminal's table."""
        subprocess.run([TOOLS / "profile", self.folder / "profile"], check=True)
        subprocess.run([PROGRAM, "make", self.folder / "profile/chip.toml", self.image], check=True)
        return tomllib.loads((self.folder / "profile/terminal.toml").read_text())

    def card(self, program=None, **options):
        """A card with its own place for the program's files."""
        scratch = self.folder / "scratch"
        scratch.mkdir(exist_ok=True)
        limit = options.pop("limit", LIMIT)
        image, archive = Image(self.image), Archive(self.kept)
        card = Card(Program(program or PROGRAM), image, archive, scratch, self.logged.append, limit=limit, **options)
        self.addCleanup(archive.close)
        self.addCleanup(card.close)
        return card

    def shown(self, name):
        """A value of `eid show` of the user's image."""
        ran = subprocess.run([PROGRAM, "show", self.image], capture_output=True, text=True, check=True)
        return dict(line.split(" ", 1) for line in ran.stdout.splitlines())[name]

    def sessions(self):
        return sorted(path for path in self.kept.iterdir() if path.name.isdecimal())

    def assert_repeats(self, session):
        """A kept session, by the program alone."""
        copy = self.folder / "copy.bin"
        shutil.copy(session / "image.bin", copy)
        words = [PROGRAM, "replay", copy, session / "script.txt", session / "answers.txt"]
        ran = subprocess.run(words, capture_output=True)
        self.assertEqual((ran.returncode, ran.stdout), (0, (session / "trace.txt").read_bytes()))
        return copy.read_bytes()

    def assert_logged(self, part):
        self.assertTrue(any(part in line for line in self.logged), f"{part!r} is not in {self.logged}")


class FakeReader:
    """What vpcd is to the bridge: it listens, sends messages, and waits for the replies to commands."""

    def __init__(self):
        self.server = socket.create_server(("127.0.0.1", 0))
        self.server.settimeout(SECONDS)
        self.port = self.server.getsockname()[1]
        self.connection = None

    def accept(self):
        self.connection = self.server.accept()[0]
        self.connection.settimeout(SECONDS)
        return self

    def send(self, message):
        self.send_raw(len(message).to_bytes(2, "big") + message)

    def send_raw(self, data):
        self.connection.sendall(data)

    def receive(self):
        return self.take(int.from_bytes(self.take(2), "big"))

    def take(self, count):
        data = b""
        while len(data) < count:
            piece = self.connection.recv(count - len(data))
            if not piece:
                raise EOFError("the bridge closed the connection")
            data += piece
        return data

    def ask(self, message):
        self.send(message)
        return self.receive()

    def power_on(self):
        self.send(ON)

    def reset(self):
        self.send(RESET)

    def power_off(self):
        """The reply to the next message tells that it is done."""
        self.send(OFF)
        self.ask(ASK_ATR)

    def hang_up(self):
        self.connection.close()

    def close(self):
        if self.connection:
            self.connection.close()
        self.server.close()


class Bridged(Place):
    """The bridge as a process of its own, and a fake reader that it is connected to."""

    def setUp(self):
        super().setUp()
        self.reader = FakeReader()
        self.addCleanup(self.reader.close)

    def begin(self, *words):
        """Starts the bridge, which is ended with the test."""
        self.log = open(self.folder / "log.txt", "w+b")
        command = [TOOLS / "pcsc", self.image, "--program", PROGRAM, "--port", str(self.reader.port), *words]
        self.bridge = subprocess.Popen(command, stdin=subprocess.DEVNULL, stderr=self.log)
        self.addCleanup(self.log.close)
        self.addCleanup(self.end)
        return self.reader.accept()

    def end(self, number=signal.SIGTERM):
        """The status of the bridge, once it got this signal."""
        if self.bridge.poll() is None:
            self.bridge.send_signal(number)
        return self.bridge.wait(SECONDS)

    def log_text(self):
        return (self.folder / "log.txt").read_text()

    def terminal(self):
        return Terminal(self.reader.ask)
