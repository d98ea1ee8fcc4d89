import os
import random
import unittest

from tests.test_packing import CASE_D, CASE_D_BYTES
from zolfigar import layout, many, text

ROOT = os.path.dirname(os.path.dirname(os.path.dirname(os.path.abspath(__file__))))
PLAIN = (b"case D", b"a#b", b"empty", b"day", b"\xc3\xa4", b"x" * 256)
NAMES = (*PLAIN, b"", b" ", b"a  b", b" a", b"a ", b"#", b"a #b", b"hex:41", b"\xff", b"a\nb", b"\xc2\xa0")
KINDS = "cover-in, cover-out, order, answer, recall, return, decline, inquiry, cut, confirm, tick or message"


class Many(unittest.TestCase):
    def wrong(self, days_text, *messages):
        with self.assertRaises(text.TextError) as caught:
            many.pack("x", days_text)
        self.assertEqual(str(caught.exception).split("\n"), list(messages))

    def not_many(self, data, message):
        with self.assertRaises(many.NotMany) as caught:
            many.unpack(data)
        self.assertEqual(str(caught.exception), message)

    def test_to_the_byte(self):
        expected = bytes.fromhex("00000006 0000020c") + b"case D" + CASE_D_BYTES + bytes.fromhex("00000001 00000000") + b"e"
        self.assertEqual(many.pack("x", f"# two days\nday  case\tD # the paper's\n{CASE_D}\nday e\nbytes\n"), expected)

    def test_text(self):
        data = many.join([(b"a b", b"\1"), (b"", b"")])
        days = ("day a b\n# fewer bytes than a header has\nbytes 01\n", "day hex:\n# an empty file\nbytes\n")
        self.assertEqual(many.unpack(data), "\n".join(days))

    def test_no_days(self):
        self.assertEqual(many.unpack(b""), "")
        self.assertEqual(many.pack("x", "# none\n"), b"")

    def test_names_and_days_come_back(self):
        chance = random.Random(8)
        days = [(name, chance.randbytes(chance.randrange(60))) for name in NAMES]
        days += [(chance.randbytes(chance.randrange(20)), chance.randbytes(chance.randrange(300))) for _ in range(200)]
        data = many.join(days)
        self.assertEqual(many.split(data), days)
        self.assertEqual(many.pack("x", many.unpack(data)), data)

    def test_names_as_they_are_written(self):
        for name in NAMES:
            self.assertEqual(many.name_words(name), name.decode() if name in PLAIN else f"hex:{name.hex()}")

    def content(self, name):
        with open(os.path.join(ROOT, "crates", "days", name), "rb") as file:
            return file.read()

    def test_the_input_of_the_program_days(self):
        self.assertEqual(many.pack("x", self.content("days.txt").decode()), self.content("stdin"))

    def test_the_input_of_the_program_days_unpacked(self):
        data = self.content("stdin")
        unpacked = many.unpack(data)
        self.assertEqual(many.pack("x", unpacked), data)
        self.assertTrue(unpacked.startswith("day case D\n# participants\nparticipant AAAALV22 bank\n"))

    def test_mistakes_have_the_lines_of_the_whole_text(self):
        self.wrong(
            "day one\n1 tick\n1 tock\n\nday\nbytes 0\nday two\n",
            f'x:3:3: expected a kind of ticket: {KINDS}, found "tock"',
            "x:5:4: expected a name, found the line's end",
            "x:6:8: expected two hex digits for each byte, found 1 digits",
            "x:7:8: expected a line of a day, found none; `bytes` alone is an empty file",
        )
        self.wrong("# a\n1 tick\n1 tick\nday one\nbytes\n", 'x:2:1: expected a line `day NAME` before all others, found "1"')
        self.wrong("day hex:4\nbytes", 'x:1:5: expected hex: and two hex digits for each byte, found "hex:4"')
        self.wrong("day hex:41 b\nbytes", 'x:1:12: expected the line\'s end, found "b"')

    def test_payers_left_out_are_of_the_same_day(self):
        order = "1 order T from {} to CCCCLV22 EUR 1.00 iban LV80BANK0000435195001\n"
        days = [f"day {bic}\n{order.format(bic)}2 answer T yes from CCCCLV22\n" for bic in ("AAAALV22", "BBBBLV22")]
        tickets = [layout.sections(day).tickets for _, day in many.split(many.pack("x", "".join(days)))]
        self.assertEqual([[row["payee"] for row in rows[1:]] for rows in tickets], [[b"AAAALV22XXX"], [b"BBBBLV22XXX"]])
        said = "x:5:29: expected of BIC, found the line's end: no order of the day has this TxId"
        self.wrong(days[0] + "day other\n2 answer T yes from CCCCLV22\n", said)

    def test_limits_of_the_program(self):
        self.assertEqual(len(many.pack("x", f"day {'n' * 256}\nbytes {'00' * 57101}")), 8 + 256 + 57101)
        self.wrong(f"day {'n' * 257}\nbytes", "x:1:5: expected a name of at most 256 bytes, found 257")
        self.wrong(
            f" day n\nbytes {'00' * 57102}", "x:1:2: the day has 57102 bytes, and the program days reads at most 57101"
        )

    def test_bytes_that_are_not_many_days(self):
        one = many.join([(b"n", b"ab")])
        for cut, message in (
            (3, "cut off: the length of the name of day 1 at byte 11 has 3 bytes of 4"),
            (6, "cut off: the length of day 1 at byte 15 has 2 bytes of 4"),
            (8, "cut off: the name of day 1 at byte 19 has 0 bytes of 1"),
            (10, "cut off: day 1 at byte 20 has 1 bytes of 2"),
        ):
            self.not_many(one + one[:cut], message)
        self.not_many(
            bytes.fromhex("00000101 00000000"),
            "not many days: the length at byte 0 gives the name of day 0 257 bytes, above 256",
        )
        said = "not many days: the length at byte 4 gives day 0 57102 bytes, above 57101"
        self.not_many(bytes.fromhex("00000000 0000df0e"), said)


if __name__ == "__main__":
    unittest.main()
