"""The card: sessions, the user's image, planned cuts, limits, and failures of the program and of the disk."""

import stat

from reader import terminal, tlv
from reader.archive import Archive, InUse
from reader.ef_dir import EfDir
from reader.terminal import Terminal
from reader.trace import NoMoment, read_moment
from support import CASES, READ_CARD_ACCESS, SILENT, Place

CARD_ACCESS = bytes.fromhex("31009000")
SELECT_EF_DIR = bytes.fromhex("00A4020C022F00")
NO_FILE = bytes.fromhex("6A82")


def wrong_pin(card):
    """The status of PACE with a PIN that is wrong."""
    try:
        Terminal(card.transmit).pace(terminal.PIN, "000000")
    except terminal.Refused as refused:
        return f"{refused.status:04X}"
    return "9000"


class Power(Place):
    def test_a_command_without_power_is_silent(self):
        card = self.card()
        self.assertEqual(card.transmit(READ_CARD_ACCESS), SILENT)
        self.assert_logged("a command while there is no power")
        card.power_on()
        self.assertEqual(card.transmit(READ_CARD_ACCESS), CARD_ACCESS)
        card.power_off()
        self.assertEqual(card.transmit(READ_CARD_ACCESS), SILENT)

    def test_an_empty_message_is_silent_and_changes_nothing(self):
        card = self.card()
        card.power_on()
        self.assertEqual(card.transmit(b""), SILENT)
        self.assert_logged("an empty message")
        self.assertEqual(card.transmit(READ_CARD_ACCESS), CARD_ACCESS)
        card.power_off()
        self.assertEqual(self.sessions()[0].joinpath("script.txt").read_text(), "on\napdu 00b09c0000\noff\n")

    def test_no_command_is_refused_by_the_chip(self):
        card = self.card()
        card.power_on()
        for command in (b"\0", b"\3", b"\0\0\0", bytes(65535)):
            self.assertEqual(card.transmit(command), bytes.fromhex("6700"))

    def test_power_on_twice_is_a_reset_and_ends_the_session_of_the_chip(self):
        card = self.card()
        card.power_on()
        user = Terminal(card.transmit)
        user.pace(terminal.CAN, "654321")
        self.assertEqual(user.read(terminal.CARD_SECURITY), bytes.fromhex("3000"))
        card.power_on()
        self.assertEqual(card.transmit(bytes.fromhex("00B09D0000")), bytes.fromhex("6982"))
        card.power_off()
        self.assertEqual(len(self.sessions()), 2)

    def test_a_reset_in_the_middle_of_pace_begins_anew(self):
        card = self.card()
        card.power_on()
        user = Terminal(card.transmit)
        user.select_pace(terminal.CAN)
        user.send("10860000", tlv.put(0x7C), 256)
        card.power_on()
        self.assertEqual(user.send("10860000", tlv.put(0x7C), 256), (b"", 0x6985))


class Sessions(Place):
    def test_a_kept_session_repeats_byte_by_byte(self):
        card = self.card()
        card.power_on()
        user = Terminal(card.transmit)
        user.pace(terminal.PIN, "123456")
        user.read(terminal.CARD_SECURITY)
        card.power_off()
        (session,) = self.sessions()
        self.assertEqual(self.assert_repeats(session), self.image.read_bytes())
        kinds = [line.split()[0] for line in (session / "answers.txt").read_text().splitlines()]
        self.assertEqual(kinds, ["nonce", "pair", "map", "pair", "agree"])
        self.assertNotIn("fault", (session / "trace.txt").read_text())

    def test_the_last_ten_are_kept(self):
        card = self.card()
        for _ in range(12):
            card.power_on()
            card.transmit(READ_CARD_ACCESS)
        card.power_off()
        self.assertEqual([path.name for path in self.sessions()], [f"{number:06}" for number in range(3, 13)])
        self.assertFalse((self.kept / "current").exists())

    def test_power_without_a_command_leaves_no_session(self):
        card = self.card()
        card.power_on()
        card.power_on()
        card.power_off()
        self.assertEqual(list(self.kept.iterdir()), [])

    def test_each_session_begins_with_the_image_that_the_one_before_left(self):
        card = self.card()
        for _ in range(2):
            card.power_on()
            wrong_pin(card)
        card.power_off()
        first, second = self.sessions()
        self.assertEqual(self.assert_repeats(first), (second / "image.bin").read_bytes())
        self.assertEqual(self.assert_repeats(second), self.image.read_bytes())

    def test_a_folder_of_sessions_has_one_bridge(self):
        self.card()
        with self.assertRaises(InUse):
            Archive(self.kept)


class Commits(Place):
    def test_a_wrong_pin_is_in_the_image_before_it_is_answered(self):
        card = self.card()
        card.power_on()
        self.assertEqual((wrong_pin(card), self.shown("tries")), ("63C2", "2"))
        card.power_on()
        self.assertEqual((wrong_pin(card), self.shown("tries")), ("63C1", "1"))
        card.power_on()
        self.assertEqual((wrong_pin(card), self.shown("tries")), ("6985", "1"))

    def test_the_right_pin_gives_the_tries_back(self):
        card = self.card()
        card.power_on()
        wrong_pin(card)
        Terminal(card.transmit).pace(terminal.PIN, "123456")
        self.assertEqual((self.shown("tries"), self.shown("number")), ("3", "3"))

    def test_the_image_is_replaced_at_power_off(self):
        card = self.card()
        card.power_on()
        wrong_pin(card)
        before = self.image.read_bytes()
        self.image.write_bytes(b"overwritten meanwhile")
        card.power_off()
        self.assertEqual(self.image.read_bytes(), before)

    def test_the_image_keeps_its_mode_and_the_link_to_it(self):
        self.image.chmod(0o640)
        link = self.folder / "link.bin"
        link.symlink_to(self.image)
        self.image, target = link, self.image
        card = self.card()
        card.power_on()
        wrong_pin(card)
        self.assertTrue(link.is_symlink())
        self.assertEqual(stat.S_IMODE(target.stat().st_mode), 0o640)
        self.assertEqual(self.shown("tries"), "2")

    def test_an_image_that_cannot_be_replaced_gives_no_try_back(self):
        card = self.card()
        card.image.path = self.folder / "gone" / "image.bin"
        card.power_on()
        self.assertEqual(wrong_pin(card), "6F00")
        card.power_on()
        self.assert_logged("No such file or directory")
        self.assertEqual(f"{Terminal(card.transmit).select_pace(terminal.PIN):04X}", "63C2")


class Cuts(Place):
    def struck(self, cut):
        """What a wrong PIN comes to under a planned cut, and the tries that the next power-on finds."""
        card = self.card(cut=cut)
        card.power_on()
        status = wrong_pin(card)
        self.assertEqual(card.transmit(READ_CARD_ACCESS), SILENT if status == "6F00" else CARD_ACCESS)
        card.power_on()
        self.assertEqual(card.transmit(READ_CARD_ACCESS), CARD_ACCESS)
        return status, self.shown("tries")

    def test_a_cut_before_the_gate_keeps_the_try(self):
        self.assertEqual(self.struck("9 half"), ("6F00", "3"))
        self.assert_logged("the planned cut struck")

    def test_a_cut_behind_the_gate_spends_the_try(self):
        self.assertEqual(self.struck("9 new"), ("6F00", "2"))
        self.assert_logged("the planned cut struck")

    def test_a_cut_that_did_not_strike_goes_on_over_a_reset(self):
        card = self.card(cut="12 half")
        card.power_on()
        self.assertEqual(wrong_pin(card), "63C2")
        card.power_on()
        self.assertEqual(wrong_pin(card), "6F00")
        card.power_on()
        self.assertEqual((card.transmit(READ_CARD_ACCESS), self.shown("tries")), (CARD_ACCESS, "2"))
        card.power_off()
        first, second = self.sessions()
        script = (first / "script.txt").read_text()
        self.assertTrue(script.startswith("cut 12 half\non\n"))
        self.assertEqual(script.count("on\n"), 2)
        self.assertEqual((second / "script.txt").read_text(), "on\napdu 00b09c0000\noff\n")
        self.assertEqual(self.assert_repeats(first), (second / "image.bin").read_bytes())

    def test_a_cut_that_never_strikes_is_told(self):
        card = self.card(cut="500 old")
        card.power_on()
        wrong_pin(card)
        card.close()
        self.assert_logged("the planned cut did not strike")
        self.assertEqual(self.shown("tries"), "2")


class Limits(Place):
    def test_a_full_script_is_6f00_until_the_power_is_taken(self):
        card = self.card(limit=100)
        card.power_on()
        replies = [card.transmit(READ_CARD_ACCESS) for _ in range(8)]
        self.assertEqual(replies, 5 * [CARD_ACCESS] + 3 * [SILENT])
        self.assertEqual(sum("script.txt has 83 bytes" in line for line in self.logged), 1)
        card.power_on()
        self.assertEqual(card.transmit(READ_CARD_ACCESS), CARD_ACCESS)
        self.assert_repeats(self.sessions()[0])
        self.assertEqual((self.sessions()[0] / "script.txt").stat().st_size, 87)

    def test_the_limit_is_that_of_the_program(self):
        card = self.card()
        card.power_on()
        longest = bytes(65535)
        statuses = [card.transmit(longest).hex() for _ in range(9)]
        self.assertEqual(statuses, 7 * ["6700"] + 2 * ["6f00"])
        self.assertEqual(card.transmit(READ_CARD_ACCESS), SILENT, "a shorter one is none of the chip's either")
        card.power_on()
        self.assertEqual(card.transmit(READ_CARD_ACCESS), CARD_ACCESS)
        self.assert_repeats(self.sessions()[0])

    def test_full_answers_are_the_same(self):
        card = self.card(limit=1100)
        card.power_on()
        user = Terminal(card.transmit)
        statuses = []
        for _ in range(20):
            user.select_pace(terminal.CAN)
            statuses.append(user.send("10860000", tlv.put(0x7C), 256)[1])
        self.assertEqual(statuses[0], 0x9000)
        self.assertEqual(statuses[-1], 0x6F00)
        card.power_off()
        self.assert_repeats(self.sessions()[0])

    def test_a_planned_cut_is_given_up_where_the_script_is_full(self):
        card = self.card(limit=66, cut="500 old")
        replies = []
        for _ in range(3):
            card.power_on()
            replies.append([card.transmit(READ_CARD_ACCESS) for _ in range(2)])
        self.assertEqual(replies, [2 * [CARD_ACCESS], 2 * [SILENT], 2 * [CARD_ACCESS]])
        self.assert_logged("the planned cut is given up")


class Failures(Place):
    """The program fails while a file is there, and works again without it."""

    def failing(self, how):
        program, flag = self.folder / "program", self.folder / "flag"
        program.write_text(f'#!/bin/sh\n[ -e {flag} ] && {how}\nexec {self.path} "$@"\n')
        program.chmod(0o755)
        return program, flag

    def setUp(self):
        super().setUp()
        import support

        self.path = support.PROGRAM

    def goes_on(self, how):
        program, flag = self.failing(how)
        card = self.card(program)
        card.power_on()
        user = Terminal(card.transmit)
        user.pace(terminal.CAN, "654321")
        flag.touch()
        self.assertEqual(card.transmit(READ_CARD_ACCESS), SILENT)
        flag.unlink()
        self.assertEqual(user.read(terminal.CARD_SECURITY), bytes.fromhex("3000"))
        card.power_off()
        self.assert_repeats(self.sessions()[0])

    def test_a_status_is_6f00_and_the_session_goes_on(self):
        self.goes_on("exit 3")
        self.assert_logged("ended with 3")

    def test_a_signal_is_6f00_and_the_session_goes_on(self):
        self.goes_on("kill -9 $$")
        self.assert_logged("ended with -9")

    def test_another_trace_is_6f00_and_the_session_goes_on(self):
        self.goes_on('{ echo "apdu 00"; exit 0; }')
        self.assert_logged("another command than the script")

    def test_an_empty_trace_is_6f00_and_the_session_goes_on(self):
        self.goes_on("exit 0")

    def test_power_that_cannot_be_given_is_6f00_until_it_can(self):
        program, flag = self.failing("exit 3")
        card = self.card(program)
        flag.touch()
        card.power_on()
        self.assertEqual(card.transmit(READ_CARD_ACCESS), SILENT)
        flag.unlink()
        card.power_on()
        self.assertEqual(card.transmit(READ_CARD_ACCESS), CARD_ACCESS)

    def test_a_folder_that_is_gone_is_6f00_until_it_is_there(self):
        card = self.card()
        self.kept.rmdir()
        card.power_on()
        self.assertEqual(card.transmit(READ_CARD_ACCESS), SILENT)
        self.kept.mkdir()
        card.power_on()
        self.assertEqual(card.transmit(READ_CARD_ACCESS), CARD_ACCESS)


class Directory(Place):
    CONTENT = bytes.fromhex("61094F07A0000002471001")

    def test_it_is_the_chips_where_no_file_is_named(self):
        card = self.card()
        card.power_on()
        self.assertEqual(card.transmit(SELECT_EF_DIR), NO_FILE)

    def test_it_is_answered_outside_of_the_chip(self):
        card = self.card(ef_dir=EfDir(self.CONTENT))
        card.power_on()
        self.assertEqual(card.transmit(SELECT_EF_DIR), bytes.fromhex("9000"))
        self.assertEqual(card.transmit(bytes.fromhex("00B0000000")), self.CONTENT + bytes.fromhex("9000"))
        self.assertEqual(card.transmit(bytes.fromhex("00B0000902")), self.CONTENT[9:] + bytes.fromhex("9000"))
        self.assertEqual(card.transmit(bytes.fromhex("00B000090A")), self.CONTENT[9:] + bytes.fromhex("6282"))
        self.assertEqual(card.transmit(bytes.fromhex("00B0000C00")), bytes.fromhex("6B00"))
        self.assertEqual(card.transmit(bytes.fromhex("00B09E0000")), self.CONTENT + bytes.fromhex("9000"))
        self.assertEqual(card.transmit(bytes.fromhex("00B09E00000000")), self.CONTENT + bytes.fromhex("9000"))
        self.assert_logged("not the chip's: EF.DIR")
        self.assertEqual(card.transmit(READ_CARD_ACCESS), CARD_ACCESS)
        self.assertEqual(card.transmit(bytes.fromhex("00B0000000")), CARD_ACCESS)
        card.power_off()
        self.assertNotIn("2f00", (self.sessions()[0] / "script.txt").read_text())

    def test_a_protocol_ends_it_until_the_next_power_on(self):
        card = self.card(ef_dir=EfDir(self.CONTENT))
        card.power_on()
        Terminal(card.transmit).select_pace(terminal.CAN)
        self.assertEqual(card.transmit(SELECT_EF_DIR), NO_FILE)
        card.power_on()
        self.assertEqual(card.transmit(SELECT_EF_DIR), bytes.fromhex("9000"))


class Traces(Place):
    def test_each_command_of_the_stored_traces_is_read(self):
        count = 0
        for path in sorted(CASES.glob("*/trace.txt"))[::5]:
            for part in path.read_text().split("\napdu ")[1:]:
                lines = part.splitlines()
                own = next((place for place, line in enumerate(lines) if place and line[0] != " "), len(lines))
                moment = read_moment("\n".join(["apdu " + lines[0], *lines[1:own]]) + "\n", bytes.fromhex(lines[0]))
                self.assertEqual(moment.sent is None, " sent none" in lines)
                count += 1
        self.assertGreater(count, 100)

    def test_what_is_no_moment_is_refused(self):
        good = "apdu 00\n plain none\n finished 0\n rule 1\n answer 6700\n sent 6700\n"
        self.assertEqual(read_moment(good, b"\0").sent, bytes.fromhex("6700"))
        for wrong in ("", "apdu 01\n", good.replace(" sent 6700\n", ""), good.replace("finished 0", "finished x")):
            with self.assertRaises(NoMoment):
                read_moment(wrong, b"\0")

    def test_a_command_is_lost_where_the_power_was_cut_in_it(self):
        text = "apdu 00b09c0000\n plain {}\n finished 0\n rule 0\n answer none\n sent none\n"
        self.assertTrue(read_moment(text.format("00 b0 9c00 - 256"), READ_CARD_ACCESS).is_lost)
        self.assertFalse(read_moment(text.format("none"), READ_CARD_ACCESS).is_lost)

    def test_an_answered_fault_is_no_open_question(self):
        text = "apdu 00\n plain none\n ask nonce = fault\n finished 0\n rule 50\n answer 6f00\n sent 6f00\n"
        moment = read_moment(text, b"\0")
        self.assertEqual((moment.open_question(0), moment.open_question(1)), ("nonce", None))
