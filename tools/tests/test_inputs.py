import os
import unittest

from tests.reader import READER
from zolfigar import inputs, packing, text

ROOT = os.path.dirname(os.path.dirname(os.path.dirname(os.path.abspath(__file__))))
FILE = "participant AAAALV22 bank\nroute AAAALV22 to 0\n"
TICKET = packing.pack("x", "5 cover-in from AAAALV22 cents 7\n")[12:]


def number(value):
    return value.to_bytes(4, "big")


class Inputs(unittest.TestCase):
    def wrong(self, cases_text, *messages):
        with self.assertRaises(text.TextError) as caught:
            inputs.pack("x", cases_text)
        self.assertEqual(str(caught.exception).split("\n"), list(messages))

    def content(self, name):
        with open(os.path.join(ROOT, "crates", "hands", name), "rb") as file:
            return file.read()

    def test_to_the_byte(self):
        file = packing.pack("x", FILE)
        head = number(3) + number(len(file)) + number(5) + b"a b" + file
        given = (
            number(108) + number(6528) + b"\0" + TICKET,
            number(108) + number(12) + b"\xff" + TICKET,
            number(0) + number(12) + b"\xff",
            number(107) + number(12) + b"\xff" + TICKET[:107],
            number(110) + number(12) + b"\xff" + TICKET + b"\0\0",
        )
        line = "5 cover-in from AAAALV22 cents 7\n"
        lines = f"{line}buffer 12 255\n{line}length 0\n{line}length 107\n{line}length 110\nraw {TICKET.hex()}\n"
        self.assertEqual(inputs.pack("x", f"day a  b\n{FILE}{lines}"), head + b"".join(given))

    def test_each_case_begins_anew(self):
        case = number(1) + number(0) + number(1) + b"%c" + number(108) + number(6528) + b"\0" + TICKET
        one = "day {}\nbytes\n5 cover-in from AAAALV22 cents 7\nbuffer 1 1\nlength 1\n"
        self.assertEqual(inputs.pack("x", one.format("a") + one.format("b")), case % b"a" + case % b"b")

    def test_payers_left_out_are_of_the_same_case(self):
        """Whatever the length of the tickets is, and behind the line too."""
        answer = "2 answer T yes from CCCCLV22\n"
        order = "1 order T from {} to CCCCLV22 EUR 1.00 iban LV80BANK0000435195001\n"
        written = answer.replace("yes", "of {} yes")
        case = "day {}\nbytes\nlength 38\n{}{}length 20\n{}"
        for bic in ("AAAALV22", "BBBBLV22"):
            filled = case.format(bic, answer, answer, order.format(bic))
            self.assertEqual(inputs.pack("x", filled), inputs.pack("x", filled.replace(answer, written.format(bic))))
        both = "".join(case.format(bic, answer, "", order.format(bic)) for bic in ("AAAALV22", "BBBBLV22"))
        inputs.pack("x", both)
        why = "orders of the day with this TxId are of AAAALV22, BBBBLV22"
        told = ["x:4:29: expected of BIC, found the line's end: no order of the day has this TxId"]
        told += [f"x:{line}:29: expected of BIC, found the line's end: {why}" for line in (9, 10)]
        orders = "".join(order.format(bic) for bic in ("AAAALV22", "BBBBLV22"))
        self.wrong(case.format("a", answer, "", "") + case.format("b", answer, answer, orders), *told)

    def test_the_payer_of_a_message(self):
        case = "day a\nbytes\n1 message plain.xml\n2 answer SALARY-41 {}yes from BBBBLV22\n"
        filled, written = (
            inputs.pack(os.path.join(ROOT, "examples", "x"), case.format(words), READER) for words in ("", "of AAAALV22 ")
        )
        self.assertEqual(filled, written)

    def test_a_payer_is_not_missed_where_a_ticket_is_wrong(self):
        answer = "2 answer T yes from CCCCLV22\n"
        said = 'x:3:8: expected but, or the line\'s end, found "tock"'
        self.wrong(f"day a\nbytes\n1 tick tock\n{answer}", said)
        other = "x:7:29: expected of BIC, found the line's end: no order of the day has this TxId"
        self.wrong(f"day a\nbytes\n1 tick tock\n{answer}day b\nbytes\n{answer}", said, other)

    def test_mistakes_have_their_places(self):
        self.wrong("1 tick\nday a\nbytes\n", 'x:1:1: expected a line `day NAME` before all others, found "1"')
        self.wrong("day a\nbytes\nbuffer\n", "x:3:7: expected a length, found the line's end")
        self.wrong("day a\nbytes\nbuffer 8193 0\n", 'x:3:8: expected a number from 0 to 8192, found "8193"')
        self.wrong("day a\nbytes\nbuffer 1 256\n", 'x:3:10: expected a number from 0 to 255, found "256"')
        self.wrong("day a\nbytes\nlength 1 2\n", 'x:3:10: expected the line\'s end, found "2"')
        self.wrong("day a\nbytes\n1 tick tock\n", 'x:3:8: expected but, or the line\'s end, found "tock"')

    def test_the_input_of_the_program_hands(self):
        self.assertEqual(inputs.pack("x", self.content("inputs.txt").decode()), self.content("stdin"))


if __name__ == "__main__":
    unittest.main()
