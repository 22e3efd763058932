"""The bridge as a process: a reader that speaks vpcd's protocol to it, well and badly."""

import random
import signal
import socket
import subprocess

from reader import terminal, tlv
from reader.card import ATR
from reader.wire import ASK_ATR
from support import READ_CARD_ACCESS, SILENT, TOOLS, Bridged, Place

CARD_ACCESS = bytes.fromhex("31009000")
NO_COMMAND = bytes.fromhex("6700")
COMMANDS = 1000


class Messages(Bridged):
    def test_the_answer_to_reset_with_and_without_power(self):
        reader = self.begin()
        self.assertEqual(reader.ask(ASK_ATR), ATR)
        reader.power_on()
        self.assertEqual(reader.ask(ASK_ATR), ATR)
        self.assertEqual(len(ATR), 5 - 1 + 10 + 1)
        check = 0
        for byte in ATR[1:]:
            check ^= byte
        self.assertEqual(check, 0)

    def test_a_command_is_answered_by_the_chip(self):
        reader = self.begin()
        reader.power_on()
        self.assertEqual(reader.ask(READ_CARD_ACCESS), CARD_ACCESS)
        self.assertEqual(reader.ask(bytes.fromhex("00FF0000")), bytes.fromhex("6D00"))

    def test_a_command_before_power_is_silent(self):
        reader = self.begin()
        self.assertEqual(reader.ask(READ_CARD_ACCESS), SILENT)

    def test_a_message_of_each_length(self):
        reader = self.begin()
        reader.power_on()
        self.assertEqual(reader.ask(b""), SILENT)
        for length in (1, 2, 3, 255, 256, 65534, 65535):
            self.assertEqual(reader.ask(length * b"\xff"), NO_COMMAND, length)
        self.assertEqual(reader.ask(READ_CARD_ACCESS), CARD_ACCESS)

    def test_messages_in_pieces_and_several_at_once(self):
        reader = self.begin()
        reader.power_on()
        message = len(READ_CARD_ACCESS).to_bytes(2, "big") + READ_CARD_ACCESS
        for byte in message:
            reader.send_raw(bytes([byte]))
        self.assertEqual(reader.receive(), CARD_ACCESS)
        reader.send_raw(3 * message)
        self.assertEqual([reader.receive() for _ in range(3)], 3 * [CARD_ACCESS])

    def test_noise_does_not_end_it(self):
        reader = self.begin()
        noise = random.Random(1)
        reader.power_on()
        for _ in range(100):
            message = noise.randbytes(noise.randrange(5, 40))
            self.assertGreaterEqual(len(reader.ask(message)), 2)
        self.assertEqual(reader.ask(ASK_ATR), ATR)
        self.assertIsNone(self.bridge.poll())

    def test_a_thousand_commands_in_one_session(self):
        reader = self.begin()
        reader.power_on()
        replies = {reader.ask(READ_CARD_ACCESS) for _ in range(COMMANDS)}
        self.assertEqual(replies, {CARD_ACCESS})
        reader.power_off()
        (session,) = self.sessions()
        self.assertEqual((session / "script.txt").read_text().count("apdu"), COMMANDS)
        self.assert_repeats(session)


class Connections(Bridged):
    def cut_off(self, part):
        """A reader that is gone within a message, and the next one."""
        reader = self.begin()
        reader.power_on()
        self.assertEqual(reader.ask(READ_CARD_ACCESS), CARD_ACCESS)
        reader.send_raw(part)
        reader.hang_up()
        reader.accept()
        self.assertEqual(reader.ask(READ_CARD_ACCESS), SILENT, "the power went with the reader")
        reader.power_on()
        self.assertEqual(reader.ask(READ_CARD_ACCESS), CARD_ACCESS)

    def test_a_reader_that_is_gone_between_two_messages(self):
        self.cut_off(b"")

    def test_a_reader_that_is_gone_in_a_length(self):
        self.cut_off(b"\0")

    def test_a_reader_that_is_gone_behind_a_length(self):
        self.cut_off(b"\xff\xff")

    def test_a_reader_that_is_gone_in_a_command(self):
        self.cut_off(b"\0\5\0\xb0")

    def test_a_reader_that_does_not_wait_for_its_reply(self):
        reader = self.begin()
        reader.power_on()
        for _ in range(5):
            reader.send(READ_CARD_ACCESS)
        reader.connection.setsockopt(socket.SOL_SOCKET, socket.SO_LINGER, b"\1\0\0\0\0\0\0\0")
        reader.hang_up()
        reader.accept()
        reader.power_on()
        self.assertEqual(reader.ask(READ_CARD_ACCESS), CARD_ACCESS)

    def test_resets_in_the_middle(self):
        reader = self.begin()
        reader.power_on()
        user = self.terminal()
        user.select_pace(terminal.CAN)
        reader.reset()
        self.assertEqual(user.send("10860000", tlv.put(0x7C), 256)[1], 0x6985)
        user.pace(terminal.CAN, "654321")
        reader.reset()
        self.assertEqual(reader.ask(bytes.fromhex("00B09D0000")), bytes.fromhex("6982"))

    def test_a_wrong_pin_three_times_with_the_power_taken_between(self):
        reader = self.begin()
        told = []
        for _ in range(3):
            reader.reset()
            try:
                self.terminal().pace(terminal.PIN, "000000")
            except terminal.Refused as refused:
                told.append((refused.status, self.shown("tries")))
        self.assertEqual(told, [(0x63C2, "2"), (0x63C1, "1"), (0x6985, "1")])
        reader.reset()
        self.assertEqual(self.terminal().select_pace(terminal.PIN), 0x63C1)


class Ends(Bridged):
    def test_sigterm_with_power_leaves_the_image_and_the_session(self):
        reader = self.begin()
        reader.power_on()
        self.terminal().pace(terminal.PIN, "123456")
        self.assertEqual(self.end(), 0)
        (session,) = self.sessions()
        self.assertEqual(self.assert_repeats(session), self.image.read_bytes())
        self.assertEqual((self.shown("number"), self.shown("tries")), ("2", "3"))
        self.assertNotIn("Traceback", self.log_text())

    def test_sigterm_in_half_a_message(self):
        reader = self.begin()
        reader.power_on()
        self.assertEqual(reader.ask(READ_CARD_ACCESS), CARD_ACCESS)
        reader.send_raw(b"\0\5\0")
        self.assertEqual(self.end(), 0)
        self.assert_repeats(self.sessions()[0])

    def test_sigterm_while_no_reader_is_there(self):
        self.begin().close()
        self.assertEqual(self.end(), 0)
        self.assertIn("waits for a reader", self.log_text())

    def test_sigint_and_sighup_are_the_same(self):
        self.begin()
        self.assertEqual(self.end(signal.SIGINT), 0)
        self.reader = type(self.reader)()
        self.addCleanup(self.reader.close)
        self.begin()
        self.assertEqual(self.end(signal.SIGHUP), 0)

    def test_a_kill_leaves_the_image_whole_and_the_session_to_the_next(self):
        reader = self.begin()
        reader.power_on()
        with self.assertRaises(terminal.Refused):
            self.terminal().pace(terminal.PIN, "000000")
        self.assertEqual(self.end(signal.SIGKILL), -signal.SIGKILL)
        self.assertEqual(self.shown("tries"), "2")
        reader.hang_up()
        reader = self.begin()
        reader.power_on()
        self.assertEqual(self.terminal().select_pace(terminal.PIN), 0x63C2)
        self.assertEqual(self.end(), 0)
        first, second = self.sessions()
        self.assertEqual(self.assert_repeats(first), (second / "image.bin").read_bytes())

    def test_the_programs_files_are_gone_at_the_end_or_by_the_next(self):
        for number in (signal.SIGTERM, signal.SIGKILL):
            reader = self.begin()
            reader.power_on()
            self.assertEqual(reader.ask(READ_CARD_ACCESS), CARD_ACCESS)
            place = (self.kept / "work").readlink()
            self.assertEqual(sorted(path.name for path in place.iterdir()), ["image.bin", "trace.txt"])
            self.end(number)
            self.assertEqual(place.exists(), number == signal.SIGKILL)
            reader.hang_up()
        self.begin()
        self.assertFalse(place.exists())


class Beginnings(Place):
    """Words and files that are refused: status 2, one line, and nothing else."""

    def refused(self, part, *words):
        ran = subprocess.run([TOOLS / "pcsc", *words], capture_output=True, text=True, timeout=60)
        self.assertEqual(ran.returncode, 2, ran.stderr)
        self.assertIn(part, ran.stderr)
        self.assertNotIn("Traceback", ran.stderr)

    def setUp(self):
        super().setUp()
        import support

        self.program = ["--program", support.PROGRAM]

    def test_no_image(self):
        self.refused("No such file", self.folder / "other.bin", *self.program)

    def test_an_image_that_is_none(self):
        self.image.write_bytes(bytes(65536))
        self.refused("ended with 4", self.image, *self.program)

    def test_no_program(self):
        self.refused("no program at", self.image, "--program", self.folder / "none")

    def test_cuts_and_ports_that_are_none(self):
        for cut in ("0 old", "9", "9 half ", "1000001 old", "fill 00", "9 fill 0"):
            self.refused("is no WRITE", self.image, "--cut", cut)
        for port in ("0", "65536", "x", "-1", "²"):
            self.refused("is no number" if port != "-1" else "port", self.image, "--port", port)

    def test_no_file_for_ef_dir(self):
        self.refused("No such file", self.image, "--ef-dir", self.folder / "none", *self.program)

    def test_two_bridges_on_one_image(self):
        card = self.card()
        self.refused("another bridge", self.image, *self.program)
        card.power_on()
