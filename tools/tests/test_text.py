import unittest

from zolfigar import text
from zolfigar.words import RECALL_LIMIT


def parted(line):
    return [(word.text, word.column) for word in text.words_of(line)]


class Lines(unittest.TestCase):
    def test_words_have_columns(self):
        self.assertEqual(parted("a  bc\td"), [("a", 1), ("bc", 4), ("d", 7)])
        self.assertEqual(parted(" \t a\t"), [("a", 4)])
        self.assertEqual(parted(" \t"), [])

    def test_comments(self):
        self.assertEqual(parted("# a b"), [])
        self.assertEqual(parted("a #b c"), [("a", 1)])
        self.assertEqual(parted("a\t#"), [("a", 1)])
        self.assertEqual(parted("a#b c"), [("a#b", 1), ("c", 5)])

    def test_one_trailing_carriage_return_is_white_space(self):
        self.assertEqual(parted("a\r"), [("a", 1)])
        self.assertEqual(parted("\r"), [])
        self.assertEqual(parted("a\r\r"), [("a\r", 1)])
        self.assertEqual(parted("a\rb"), [("a\rb", 1)])

    def test_no_other_character_is_white_space_or_a_line_end(self):
        found = text.lines("a\u00a0b\u2028c\x0bd\x0ce\x85f\n\ng")
        self.assertEqual([(line.number, len(line.words)) for line in found], [(1, 1), (3, 1)])

    def test_byte_order_mark_at_the_start_alone(self):
        self.assertEqual(text.lines("\ufeffa")[0].words, [("a", 1)])
        self.assertEqual(text.lines("\n\ufeffa")[0].words, [("\ufeffa", 1)])

    def test_end_is_behind_the_last_word(self):
        self.assertEqual(text.lines("  ab cd  # e")[0].end(), 8)


class Values(unittest.TestCase):
    def refused(self, read, *words):
        for word in words:
            with self.assertRaises(text.Wrong, msg=word):
                read(word)

    def test_times(self):
        for word, seconds in (("0", 0), ("00:00:05", 5), ("08:00:05", 28805), ("1:00:00", 3600), ("000001:59:59", 7199)):
            self.assertEqual(text.time(word), seconds)
        self.assertEqual((text.time("08:00:24"), text.time("248:00:24")), (28824, 28824 + RECALL_LIMIT))
        for word in ("4294967295", "1193046:28:15", "0" * 5000 + "4294967295"):
            self.assertEqual(text.time(word), 2**32 - 1)
        self.refused(text.time, "4294967296", "1193046:28:16", "9" * 5000, "9" * 5000 + ":00:00")
        self.refused(
            text.time, "", "1:2", "1:2:3", "1:60:00", "1:00:60", "1:00:00:00", "-1", "+1", "1.0", ":00:00", "\u0661"
        )

    def test_amounts(self):
        for word, cents in (("4.00", 400), ("0.00", 0), ("0.01", 1), ("000.10", 10), ("184467440737095516.15", 2**64 - 1)):
            self.assertEqual(text.euros(word), cents)
        self.refused(text.euros, "4", "4.0", "4.000", ".50", "4.", "4,00", "1,000.00", "-4.00", "")
        self.refused(text.euros, "184467440737095516.16", "9" * 5000 + ".00")
        self.assertEqual(text.cents("18446744073709551615"), 2**64 - 1)
        self.refused(text.cents, "18446744073709551616", "4.00", "-4", "", "9" * 5000)

    def test_bics(self):
        good = "AAAALV22 AAAALV22XXX AAAAAAAA ZZZZZZZZ AAAALV2N AAAALV2P AAAALVO0 AAAALV90009 AAAALV22O9Z"
        for word in good.split():
            self.assertEqual(text.filled(word), (word + "XXX")[:11].encode(), word)
        bad = "AAAALV2 AAAALV222 AAAALV22XX AAAALV22XXXX AAAALV02 AAAALV12 AAAALV2O AAAAL222 aAAALV22"
        for word in (*bad.split(), "", "AAAALV22XXx", "AAAALV22\n", "AAAALV22XX\u0662", "\u00c4AAALV22"):
            self.assertIsNone(text.filled(word), word)

    def test_txids(self):
        for word in ("a", "A" * 35, "aZ09/-?:().,'+"):
            self.assertEqual(text.txid(word), word.encode())
        self.refused(text.txid, "", "A" * 36, "a b", "a_b", "a#", 'a"', "\u00e4", "a\n", "a;")

    def test_ibans(self):
        for word in ("LV80BANK0000435195001", "GB82WEST12345698765432", "LV31BANK000043519500A", "DE89370400440532013000"):
            self.assertEqual(text.iban(word), word.encode())
        self.refused(text.iban, "LV81BANK0000435195001", "lv80BANK0000435195001", "LV80", "LV8", "LV80BANK" + "0" * 27)
        self.refused(text.iban, "LV80BANK 0000435195001", "LV80BANK0000435195001\n", "")
        self.refused(text.iban, "LV80bank0000435195001", "LV80bANK0000435195001", "LV31BANK000043519500a")
        self.assertEqual(text.remainder("LV81BANK0000435195001"), 2)

    def test_small_letters_are_named(self):
        cases = {
            "LV80BANK0000435195001": "",
            "": "",
            "\u00e4\u017f": "",
            "LV80bANK0000435195001": "character 5, b, is a small letter",
            "LV31BANK000043519500a": "character 21, a, is a small letter",
            "lV80BANK0000435195001": "character 1, l, is a small letter",
            "LV80bank0000435195001": "character 5, b, and 3 more are small letters",
            "LV80BAnk0000435195001": "character 7, n, and 1 more are small letters",
        }
        self.assertEqual({word: text.small_letters(word) for word in cases}, cases)

    def test_lengths_of_ibans(self):
        for length in (0, 1, 30, 31):
            checked = (f"LV{digits:02d}{'A' * length}" for digits in range(100))
            word = next(word for word in checked if text.remainder(word) == 1)
            if length in (1, 30):
                self.assertEqual(text.iban(word), word.encode())
            else:
                self.refused(text.iban, word)

    def test_literals(self):
        plain = "".join(chr(c) for c in range(0x21, 0x7F) if chr(c) not in '"#')
        self.assertEqual(text.literal(plain, 100), plain.encode())
        self.assertEqual(text.literal("empty", 1), b"")
        self.assertEqual(text.literal("hex:00fFa1", 3), b"\x00\xff\xa1")
        self.assertEqual(text.literal("hex:", 3), b"")
        self.assertEqual(text.literal("Hex:1", 5), b"Hex:1")
        self.refused(
            lambda word: text.literal(word, 3), "abcd", "hex:00000000", "hex:0", "hex:0g", 'a"', "a#", "\u00e4", "\x7f"
        )


class Messages(unittest.TestCase):
    def test_a_word_is_shown_short_and_printable(self):
        self.assertEqual(text.quoted("a\r\x00\u00a0\u00e4"), '"a\\r\\x00\\xa0\u00e4"')
        self.assertEqual(text.quoted("b" * 40), '"' + "b" * 40 + '"')
        self.assertEqual(text.quoted("b" * 41), '"' + "b" * 40 + '.."')
        self.assertEqual(text.quoted(None), "the line's end")

    def test_ten_mistakes_in_order_and_how_many_more(self):
        wrong = [text.Mistake(line, 1, "m") for line in range(10, 0, -1)]
        self.assertEqual(str(text.TextError("n", wrong)), "\n".join(f"n:{line}:1: m" for line in range(1, 11)))
        wrong = [text.Mistake(5, 7, "x"), *wrong, text.Mistake(11, 1, "m")]
        shown = str(text.TextError("n", wrong)).split("\n")
        self.assertEqual(shown[4:6], ["n:5:1: m", "n:5:7: x"])
        self.assertEqual(shown[9:], ["n:9:1: m", "n: errors that are not shown: 2"])


if __name__ == "__main__":
    unittest.main()
