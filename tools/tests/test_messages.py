"""The program messages: its input, what it prints, and what is told of a message that it refuses. The reader here is a stand-in."""

import os
import tempfile
import unittest

from tests import reader, scenes
from zolfigar import files, messages
from zolfigar.messages import Message, Refused

ADVICE = ": tools/tests/reader.py --input and --output print what belongs to the stdin and the stdout of crates/messages"


class Programs(unittest.TestCase):
    """Programs that are shell scripts."""

    def setUp(self):
        folder = tempfile.TemporaryDirectory()
        self.addCleanup(folder.cleanup)
        self.folder = folder.name

    def path(self, name):
        return os.path.join(self.folder, name)

    def program(self, script):
        files.write(self.path("program"), f"#!/bin/sh\n{script}\n".encode())
        os.chmod(self.path("program"), 0o755)
        return self.path("program")

    def fails(self, message, work):
        with self.assertRaises(files.Failed) as failed:
            work()
        self.assertEqual(str(failed.exception), message)


class Answers(Programs):
    TICKET = bytes(range(108))

    def printing(self, *lines):
        """A program that reads its input and prints these lines."""
        files.write(self.path("lines"), "".join(f"{line}\n" for line in lines).encode())
        return self.program(f"cat > {self.path('input')}; cat {self.path('lines')}")

    def test_input_to_the_byte(self):
        named = [(b"n", Message(b"<a/>", 0x01020304)), (b"", Message(b"", 0))]
        due = bytes.fromhex("00000001 00000004 01020304") + b"n<a/>" + bytes(12)
        self.assertEqual(messages.join(named), due)
        self.assertEqual(reader.split(due), named)

    def test_answers(self):
        program = self.printing("# 0", f"M 0 {self.TICKET.hex()}", "# 1", "M 23 65520 1", "# 2", "M 8 0 19")
        given = [Message(b"a", 1), Message(b"b", 2), Message(b"", 3)]
        self.assertEqual(messages.answers(program, given), [self.TICKET, Refused(23, 65520, 1), Refused(8, 0, 19)])
        named = list(zip((b"0", b"1", b"2"), given))
        self.assertEqual(files.read(self.path("input")), messages.join(named))

    def test_lines_that_are_no_answers(self):
        for line in (
            "M 0",
            "M 0 00",
            f"M 0 {'AB' * 108}",
            "M 22 0 1",
            "M 23 1",
            "M 23 01 1",
            "M 23 -1 1",
            "M 23 1 1 1",
            "T 0",
        ):
            said = f'the program messages printed "{line[:40]}{".." if len(line) > 40 else ""}" of message 0, which is no answer'
            self.fails(said, lambda line=line: messages.answers(self.printing("# 0", line), [Message(b"", 0)]))
        said = 'the program messages printed "# 1" of message 0, which is no answer'
        self.fails(said, lambda: messages.answers(self.printing("# 1", "M 8 0 19"), [Message(b"", 0)]))

    def test_lines_that_are_too_few_or_too_many(self):
        for lines in (
            (),
            ("# 0",),
            ("# 0", "M 8 0 19"),
            ("# 0", "M 8 0 19", "# 1"),
            ("# 0", "M 8 0 19", "# 1", "M 8 0 19", "# 2"),
        ):
            said = f"the program messages was given 2 messages, and printed {len(lines)} line{'s' * (len(lines) != 1)}"
            self.fails(said, lambda lines=lines: messages.answers(self.printing(*lines), [Message(b"", 0)] * 2))
        cut_off = self.program(f"cat > {self.path('input')}; printf '# 0\\nM 8 0 19'")
        said = "the program messages was given 1 message, and printed 1 line"
        self.fails(said, lambda: messages.answers(cut_off, [Message(b"", 0)]))

    def test_programs_that_fail(self):
        self.fails("the program messages ended with status 3", lambda: messages.answers(self.program("exit 3"), []))
        self.fails("the program messages ended with status -9", lambda: messages.answers(self.program("kill -9 $$"), []))
        files.write(self.path("no-program"), b"")
        said = f"can't run {self.path('no-program')}: Permission denied"
        self.fails(said, lambda: messages.answers(self.path("no-program"), []))

    def test_a_program_that_does_not_read_on(self):
        long = [Message(bytes(messages.MOST_READ), 0)] * 20
        said = "the program messages was given 20 messages, and printed 0 lines"
        self.fails(said, lambda: messages.answers(self.program("exit 0"), long))


class Places(unittest.TestCase):
    def test_lines_and_columns(self):
        text = "ab\n\u0101\u010d<\r\n".encode() + b"\xff\xfe<"
        at = [messages.place_of(text, place) for place in (0, 2, 3, 5, 7, 10, 12, len(text), len(text) + 9)]
        self.assertEqual(at, ["1:1", "1:3", "2:1", "2:2", "2:3", "3:1", "3:3", "3:4", "3:4"])

    def found(self, text, place, what=8):
        return messages.found_at(text, place, what)

    def test_what_stands_there(self):
        self.assertEqual(self.found(b"ab<c>", 2), '"<c>"')
        self.assertEqual(self.found(b"ab\t\x1b\xff\0\r\nc", 2), '"\\t\\x1b\\xff\\x00\\r"')
        self.assertEqual(self.found(b"ab\n\nc", 2), '"\\n"')
        self.assertEqual(self.found("\u0101".encode() * 41, 2), '"' + "\u0101" * 40 + '"')
        self.assertEqual(self.found("\u0101".encode() * 42, 2), '"' + "\u0101" * 40 + '.."')
        self.assertEqual(self.found("\U0001f600".encode() * 100, 0), '"' + "\U0001f600" * 40 + '.."')
        self.assertEqual([self.found(b"ab", place) for place in (2, 99)], ["the text's end"] * 2)
        self.assertEqual(self.found(b"ab", 2, 4), "the text's end: an element is still open")
        self.assertEqual(self.found(b"ab", 0, 1), "more")

    def test_what_is_said_of_it(self):
        self.assertEqual(self.found(b"<!-- x -->", 0, 5), '"<!-- x -->": a comment is not allowed')
        self.assertEqual(self.found(b"<!-- x -->", 0, 10), '"<!-- x -->"')
        self.assertEqual(self.found(b"\xef\xbb\xbf<a/>", 0, 3), '"\\ufeff<a/>": a byte order mark is not allowed')
        self.assertEqual(self.found("\ufeff<".encode("utf-16-le"), 0, 3), '"\\xff\\xfe<\\x00": UTF-16 is not allowed')

    def test_whole_texts(self):
        """Up to the next tag, over lines; an element of one tag has none, whatever stands behind it."""
        self.assertEqual(self.found(b"<BIC>\n A\n</BIC>", 5, 16), '"\\n A\\n"')
        self.assertEqual(self.found(b"<BIC>" + b"A" * 41 + b"</BIC>", 5, 16), '"' + "A" * 40 + '.."')
        self.assertEqual([self.found(b"<BIC/> A<", 6, what) for what in range(15, 20)], ["no text"] * 5)
        self.assertEqual(self.found(b"<BIC></BIC>", 5, 17), "no text")

    def test_a_txid_that_is_too_long(self):
        self.assertEqual(self.found(b" " * 35 + b"<", 0, 18), '"' + " " * 35 + '"')
        self.assertEqual(self.found(b"A" * 36 + b"<", 0, 18), '"' + "A" * 36 + '": 36 characters')

    def test_ibans(self):
        small = "character 5, b, and 3 more are small letters"
        self.assertEqual(self.found(b"LV80bank</IBAN>", 0, 19), f'"LV80bank": {small}')
        self.assertEqual(self.found(b"LV80bank</IBAN>", 0, 18), '"LV80bank"')
        self.assertEqual(self.found(b"LV80BANK-1</iban>", 0, 19), '"LV80BANK-1"')
        due = '"LV81BANK0000435195001": its check digits leave 2, not 1'
        self.assertEqual(self.found(b"LV81BANK0000435195001</IBAN>", 0, 19), due)

    def test_places_for_people(self):
        """Of a tag as a whole, and of the root's end, where the tag begins; of another root where that one does."""
        text = b'<?xml version="1.0"?> <a> <b x="1" >1</b></a>\n'
        for what, place, due in (
            (7, 35, 26),
            (14, 36, 26),
            (15, 36, 36),
            (32, 45, 22),
            (33, 45, 41),
            (47, 45, 41),
            (47, 26, 26),
            (48, 26, 26),
            (79, 26, 26),
            (23, 5, 5),
        ):
            self.assertEqual(messages.told_place(text, Refused(24, place, what)), due, (what, place))
        self.assertEqual(messages.told_place(b" <a/>", Refused(24, 5, 32)), 1)
        self.assertEqual(messages.told_place(b"<a/>", Refused(24, 4, 32)), 0)
        self.assertEqual([messages.told_place(b"", Refused(24, 0, what)) for what in (7, 32, 33)], [0, 0, 0])


class Told(unittest.TestCase):
    """What is said of each text that the stand-in refuses."""

    maxDiff = None

    def told(self, name):
        return messages.told("a/x.xml", *reader.REFUSED[name])

    def test_each(self):
        cases = {
            "nothing": "1:1: refused by 23 at byte 0: expected the root's start tag, found the text's end",
            "an empty root": "1:1: refused by 24 at byte 0: expected FIToFICstmrCdtTrf before the end of the root, "
            'found "<LBFastCdtTrf/>"',
            "version 1.1": "1:7: refused by 23 at byte 6: the declaration is wrong from here on: expected one like "
            '<?xml version="1.0" encoding="UTF-8"?>, or none, found "version="1.1" encoding="UTF-8"?>"',
            "white space before the declaration": "1:2: refused by 23 at byte 1: expected an element, with a letter or _ directly "
            'behind <, found "<?xml version="1.0" encoding="UTF-8"?>": a declaration is allowed as the text\'s first bytes '
            "alone",
            "an entity": "62:19: refused by 23 at byte 1507: expected text or a tag, "
            'found "&amp; Ozols</Nm>": & is not allowed, nor &amp; and the like',
            "cut off": "88:1: refused by 23 at byte 2581: expected text or a tag, found the text's end: an element is still open",
            "single quotes": "8:30: refused by 23 at byte 232: the tag is wrong from here on: expected attributes like "
            'name="value", white space before each, and then > or />, found "\'EUR\'>400.00</TtlIntrBkSttlmAmt>": a value stands '
            "in double quotes",
            "an attribute twice": "74:9: refused by 23 at byte 1924: expected each attribute's name once in a tag, found "
            '"<Reference URI="" URI="">"',
            "another root": '2:1: refused by 24 at byte 39: expected LBFastCdtTrf as the root, found "<Document>"',
            "no TxId": "40:7: refused by 24 at byte 942: expected CdtTrfTxInf/PmtId/TxId before this, "
            'found "<IntrBkSttlmAmt Ccy="EUR">400.00</IntrBk.."',
            "no IBAN": "90:1: refused by 24 at byte 2587: expected CdtTrfTxInf/CdtrAcct/Id/IBAN before the end of the root, "
            'found "</LBFastCdtTrf>"',
            "an element in the TxId": "38:9: refused by 24 at byte 920: CdtTrfTxInf/PmtId/TxId holds an element: expected text "
            'alone, found "<TxId><b>SALARY-41</b></TxId>"',
            "a second GrpHdr": "35:5: refused by 24 at byte 839: GrpHdr stands here again: expected it once, "
            'found "<GrpHdr/><CdtTrfTxInf>"',
            "dollars": "40:7: refused by 25 at byte 964: expected the amount, CdtTrfTxInf/IntrBkSttlmAmt, with one attribute, "
            'Ccy="EUR", found "<IntrBkSttlmAmt Ccy="USD">400.00</IntrBk.."',
            "one decimal": "40:33: refused by 25 at byte 990: expected the amount, CdtTrfTxInf/IntrBkSttlmAmt: 1 to 9 digits, a "
            'point and two digits, above zero, found "1.5"',
            "a TxId with a space": "38:15: refused by 7 XT33 at byte 926: expected the TxId, CdtTrfTxInf/PmtId/TxId: 1 to 35 of "
            'A-Z a-z 0-9 / - ? : ( ) . , \' +, found "SALARY 41"',
            "small letters": "66:17: refused by 8 XD19 at byte 1578: expected the payee's IBAN, CdtTrfTxInf/CdtrAcct/Id/IBAN: two "
            "A-Z, two digits, 1 to 30 of A-Z or 0-9, with the right check digits, found "
            '"LV80bank0000435195001": character 5, b, and 3 more are small letters',
        }
        self.assertEqual(
            {name: self.told(name) for name in cases}, {name: f"a/x.xml:{said}" for name, said in cases.items()}
        )

    def test_every_text_has_its_place(self):
        for name, (text, refused) in reader.REFUSED.items():
            place = messages.told_place(text, refused)
            lines = text[:place].split(b"\n")
            said = rf"a/x\.xml:{len(lines)}:{len(lines[-1]) + 1}: refused by {refused.number}( \w+)? at byte {place}: "
            self.assertRegex(self.told(name), rf"\A{said}\S.*, found \S")

    def test_every_number_has_words(self):
        due = [*range(1, 11), *range(14, 20), *range(32, 80)]
        self.assertEqual(sorted(messages.EXPECTED), due)
        self.assertEqual(len(set(messages.EXPECTED.values())), len(due))
        for row, path in enumerate(messages.ROWS):
            self.assertTrue(all(f"{path} " in messages.EXPECTED[kind + row] for kind in (32, 48, 64)), path)

    def test_numbers_without_words(self):
        said = 'x:1:1: refused by 23 at byte 0: wrong by 99, a number that has no words here, found "ab"'
        self.assertEqual(messages.told("x", b"ab", Refused(23, 0, 99)), said)

    def test_rows_are_in_their_order(self):
        """Each element comes behind the one that it is in, and each path once."""
        for at, path in enumerate(messages.ROWS[2:], 2):
            self.assertIn(path.rpartition("/")[0] or "FIToFICstmrCdtTrf", messages.ROWS[:at])
        self.assertEqual(len(set(messages.ROWS)), 16)

    def test_names_are_shown(self):
        self.assertTrue(messages.told("\x1b\n", b"", Refused(23, 0, 3)).startswith("\\x1b\\n:1:1: "))
        self.assertTrue(messages.told("-", b"", Refused(23, 0, 3)).startswith("standard input:1:1: "))


class Reading(Programs):
    """Files, some of them read, some refused, some not there; one run for all."""

    def counted(self):
        """The stand-in, with a line in a file for each run."""
        return messages.Reader(self.program(f"echo >> {self.path('runs')}; exec {reader.READER.path}"), lambda: None)

    def test_one_run_for_all(self):
        files.write(self.path("wrong.xml"), reader.REFUSED["an entity"][0])
        plain, free = (os.path.join(scenes.EXAMPLES, name) for name in scenes.MESSAGES)
        named = [(plain, 7), (self.path("none.xml"), 8), (self.path("wrong.xml"), 9), (free, 2**32 - 1), (plain, 0)]
        found = messages.read(named, self.counted())
        first, second, third = (found[at] for at in (0, 3, 4))
        missing, wrong = (failed for failed in found if isinstance(failed, files.Failed))
        orders = [(reader.ORDERS["plain"][1], 7), (reader.ORDERS["free"][1], 2**32 - 1), (reader.ORDERS["plain"][1], 0)]
        self.assertEqual([first, second, third], [reader.ticket(fields, time) for fields, time in orders])
        self.assertEqual(str(missing), f"can't read {self.path('none.xml')}: No such file or directory")
        self.assertEqual(str(wrong), messages.told(self.path("wrong.xml"), *reader.REFUSED["an entity"]))
        self.assertEqual([error.begins_with_place for error in (missing, wrong)], [False, True])
        self.assertEqual(files.read(self.path("runs")), b"\n")

    def test_no_run_for_none(self):
        self.assertEqual(messages.read([], self.counted()), [])
        self.assertEqual(len(messages.read([(self.path("none.xml"), 0)], self.counted())), 1)
        self.assertFalse(os.path.exists(self.path("runs")))

    def test_no_more_is_read_than_tells_that_it_is_too_long(self):
        files.write(self.path("long"), reader.REFUSED["65,521 bytes"][0] + b"more")
        (found,) = messages.read([(self.path("long"), 0)], reader.READER)
        due = "refused by 23 at byte 65520: expected a text of at most 65,520 bytes, found more"
        self.assertTrue(str(found).endswith(due), found)

    def test_a_file_without_an_end(self):
        counting = messages.Reader(self.program(f"wc -c > {self.path('bytes')}; exit 3"), lambda: None)
        self.fails("the program messages ended with status 3", lambda: messages.read([("/dev/zero", 0)], counting))
        self.assertEqual(int(files.read(self.path("bytes"))), 12 + 1 + 65521)

    def test_a_reader_that_is_not_built(self):
        def missing():
            raise files.Failed("it isn't built")

        nothing = messages.Reader(self.path("none"), missing)
        self.fails("it isn't built", lambda: messages.read([(os.path.join(scenes.EXAMPLES, "plain.xml"), 0)], nothing))


class StandIn(unittest.TestCase):
    def test_every_refusal_is_met(self):
        numbers = {answer.number for _, answer in reader.REFUSED.values()}
        self.assertEqual(numbers, {7, 8, 23, 24, 25})
        whats = {answer.what for _, answer in reader.REFUSED.values()}
        self.assertLessEqual({*range(1, 11), *range(14, 20)}, whats)
        self.assertEqual({what // 16 for what in whats if what >= 32}, {2, 3, 4})

    def test_both_examples_are_met(self):
        texts = [text for text, _ in reader.ORDERS.values()]
        self.assertEqual(texts[:2], [scenes.content("examples", name) for name in scenes.MESSAGES])

    def test_no_text_is_met_twice(self):
        known = [text for text, _ in [*reader.ORDERS.values(), *reader.REFUSED.values()]]
        self.assertEqual(len(set(known)), len(known))

    def test_the_gate_runs_every_text(self):
        """`rt ci` runs the proved program on its stdin and holds what it prints to its stdout: so its answers are the stand-in's."""
        given = scenes.content("crates", "messages", "stdin")
        printed = scenes.content("crates", "messages", "stdout")
        self.assertTrue(given == reader.texts(), f"stdin differs{ADVICE}")
        self.assertTrue(printed == reader.printed(given), f"stdout differs{ADVICE}")
        self.assertLess(len(given), 1_000_000)


if __name__ == "__main__":
    unittest.main()
