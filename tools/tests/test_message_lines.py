"""Lines that name messages: what they pack to, and what is told of them. The reader here is a stand-in."""

import os
import tempfile
import unittest

from tests import reader, scenes
from zolfigar import files, inputs, layout, many, messages, packing, text, unpacking

PLAIN = "order SALARY-41 from AAAALV22 to BBBBLV22 EUR 400.00 iban LV80BANK0000435195001"
FREE = "order RENT-7/11'A' from BBBBLV22 to CCCCLT2X EUR 25.50 iban LT121000011101001000"


class Lines(unittest.TestCase):
    def setUp(self):
        folder = tempfile.TemporaryDirectory()
        self.addCleanup(folder.cleanup)
        self.folder = folder.name
        for name in scenes.MESSAGES:
            self.put(name, scenes.content("examples", name))
        script = f"#!/bin/sh\necho >> {self.path('runs')}\nexec {reader.READER.path}\n"
        self.put("reader", script.encode())
        os.chmod(self.path("reader"), 0o755)
        self.reader = messages.Reader(self.path("reader"), lambda: None)

    def path(self, name):
        return os.path.join(self.folder, name)

    def put(self, name, data):
        os.makedirs(os.path.dirname(self.path(name)), exist_ok=True)
        files.write(self.path(name), data)

    def pack(self, *lines, by=packing.pack):
        return by(self.path("x.day"), "\n".join(lines), self.reader)

    def wrong(self, *said, lines, by=packing.pack):
        """What is said of a text's mistakes, where X is the text and @ the folder."""
        with self.assertRaises(text.TextError) as caught:
            self.pack(*lines, by=by)
        found = str(caught.exception).replace(self.path("x.day"), "X").replace(self.folder, "@")
        self.assertEqual(found.split("\n"), list(said))

    def runs(self):
        return len(files.read(self.path("runs"))) if os.path.exists(self.path("runs")) else 0


class Packed(Lines):
    def test_as_the_orders_that_they_are(self):
        lines = ("participant AAAALV22 bank", "0 tick", "09:00:01 message plain.xml", "5 message free.xml # why", "9 tick")
        due = ("participant AAAALV22 bank", "0 tick", f"09:00:01 {PLAIN}", f"5 {FREE}", "9 tick")
        self.assertEqual(self.pack(*lines), self.pack(*due))
        self.assertEqual(self.runs(), 1)

    def test_unpacked_as_orders(self):
        unpacked = unpacking.unpack(self.pack("4294967295 message plain.xml", "00:00:05\tmessage\tfree.xml\r"))
        lines = [line.split() for line in unpacked.split("\n")]
        self.assertEqual(lines[1:3], [f"4294967295 {PLAIN}".split(), f"00:00:05 {FREE}".split()])

    def test_names(self):
        words = ("two words.xml", "a#b.xml", "f\u00fcr.xml", "sub/x.xml", "-", "but", "message")
        in_hex = ("two  words.xml", "hex:41", " ", "#", "a\nb", os.fsdecode(b"\xff"))
        for name in (*words, *in_hex):
            self.put(name, reader.PLAIN)
        written = [name.replace(" ", "  ") for name in words] + [f"hex:{os.fsencode(name).hex()}" for name in in_hex]
        written += ["./sub/../plain.xml", self.path("plain.xml")]
        due = self.pack(*[f"1 {PLAIN}"] * len(written))
        self.assertEqual(self.pack(*[f"1  message  {name}" for name in written]), due)

    def test_beside_the_text(self):
        """Whatever folder it is that one stands in; for a text of no folder it is that one."""
        line, due = "1 message plain.xml", self.pack(f"1 {PLAIN}")
        self.put("plain.xml", reader.REFUSED["nothing"][0])
        self.assertEqual(packing.pack(os.path.join(scenes.EXAMPLES, "x.day"), line, self.reader), due)
        before = os.getcwd()
        self.addCleanup(os.chdir, before)
        os.chdir(scenes.EXAMPLES)
        for name in ("x.day", "standard input"):
            self.assertEqual(packing.pack(name, line, self.reader), due)
        with self.assertRaisesRegex(text.TextError, r"\Ax.day:1:11: can't read ./-: No such file or directory\Z"):
            packing.pack("x.day", "1 message -", self.reader)

    def test_the_word_is_a_txid_elsewhere(self):
        line = "1 inquiry message from AAAALV22"
        row = layout.sections(self.pack(line)).tickets[0]
        self.assertEqual((row["kind"], row["txid"]), (8, b"message"))
        self.assertEqual(self.runs(), 0)

    def test_many_days(self):
        lines = ("day a", "1 message plain.xml", "", "day b", "bytes", "", "day c", "1 tick", "2 message free.xml")
        due = ("day a", f"1 {PLAIN}", "", "day b", "bytes", "", "day c", "1 tick", f"2 {FREE}")
        self.assertEqual(self.pack(*lines, by=many.pack), self.pack(*due, by=many.pack))
        self.assertEqual(self.runs(), 1)

    def test_tickets_with_buffers(self):
        lines = ["day a", "bytes", "1 message plain.xml", "length 107", "buffer 3 4", "2 message free.xml", "day b", "bytes"]
        due = [line.replace("message plain.xml", PLAIN).replace("message free.xml", FREE) for line in lines]
        self.assertEqual(self.pack(*lines, by=inputs.pack), self.pack(*due, by=inputs.pack))
        self.assertEqual(self.runs(), 1)

    def test_an_example(self):
        for name in scenes.MESSAGES:
            self.assertEqual(files.read(self.path(name)), scenes.content("examples", name))
        self.assertEqual(self.pack(scenes.content("examples", "messages.day").decode()), scenes.day_file("messages"))


class Wrong(Lines):
    def test_lines(self):
        a_file = "expected the name of a message's file, found"
        for line, column, said in (
            ("1 message", 10, f"{a_file} the line's end"),
            ("1 message  # none", 10, f"{a_file} the line's end"),
            (
                "x1 message a",
                1,
                'expected header, participant, route, raw, bytes, or a time like 08:00:05 or 28805, found "x1"',
            ),
            ("1:0:0 message plain.xml", 1, 'expected a time like 08:00:05 or 28805, found "1:0:0"'),
            ("1 message hex:0", 11, 'expected hex: and two hex digits for each byte, found "hex:0"'),
            ("1 message hex:61 b", 18, 'expected the line\'s end, found "b"'),
            ("1 message hex:6100", 11, f"{a_file} one with a zero byte"),
            ("1 message none.xml", 11, "can't read @/none.xml: No such file or directory"),
            ("1 message hex:", 11, "can't read @/: Is a directory"),
            ("1 message plain.xml but flag 1", 11, "can't read @/plain.xml but flag 1: No such file or directory"),
        ):
            with self.subTest(line):
                self.wrong(f"X:2:{column}: {said}", lines=("# a comment", line))

    def test_every_text_that_is_refused(self):
        known = list(reader.REFUSED.values())
        for first in range(0, len(known), text.MOST_SHOWN):
            some = known[first : first + text.MOST_SHOWN]
            for at, (message, _) in enumerate(some):
                self.put(f"sub/{at}.xml", message)
            told = [f"X:{at + 2}:11: {messages.told(f'@/sub/{at}.xml', *one)}" for at, one in enumerate(some)]
            self.wrong(
                *told, lines=("1 message plain.xml", *[f"2 message sub/{at}.xml" for at in range(len(some))], "3 tick")
            )

    def test_with_other_mistakes(self):
        """All of them, in the order of the lines, up to ten."""
        self.put("wrong.xml", reader.REFUSED["nothing"][0])
        refused = "@/wrong.xml:1:1: refused by 23 at byte 0: expected the root's start tag, found the text's end"
        lines = (
            "1 tick tock",
            "2 message wrong.xml",
            "3 message plain.xml",
            "4 message none.xml",
            "5 cut now",
            "6 message wrong.xml",
        )
        said = "expected but, or the line's end, found \""
        none = "can't read @/none.xml: No such file or directory"
        first = f'X:1:8: {said}tock"'
        self.wrong(first, f"X:2:11: {refused}", f"X:4:11: {none}", f'X:5:7: {said}now"', f"X:6:11: {refused}", lines=lines)
        self.assertEqual(self.runs(), 1)
        told = [f"X:{at}:11: {refused}" for at in range(1, 11)]
        self.wrong(*told, "X: errors that are not shown: 2", lines=["1 message wrong.xml"] * 12)

    def test_in_many_days(self):
        self.put("wrong.xml", reader.REFUSED["nothing"][0])
        refused = "@/wrong.xml:1:1: refused by 23 at byte 0: expected the root's start tag, found the text's end"
        bank = "participant AAAALV22 bank"
        lines = (
            "day a",
            bank,
            "1 message wrong.xml",
            "day b",
            bank,
            "1 tick tock",
            "2 message plain.xml",
            "2 message wrong.xml",
        )
        said = (f"X:3:11: {refused}", 'X:6:8: expected but, or the line\'s end, found "tock"', f"X:8:11: {refused}")
        for by in (many.pack, inputs.pack):
            self.wrong(*said, lines=lines, by=by)
        self.assertEqual(self.runs(), 2)

    def test_the_mistake_of_the_guide(self):
        guide = scenes.content("docs", "DAYS.md").decode().splitlines()
        at = next(at for at, line in enumerate(guide) if line.startswith("    mine.day:9:18: "))
        told = messages.told("wrong.xml", *reader.REFUSED["a TxId with a space"])
        self.assertEqual(" ".join(line.strip() for line in guide[at : at + 2]), f"mine.day:9:18: {told}")

    def test_line_ends_in_names_are_shown(self):
        self.wrong("X:1:11: can't read @/a\\nb: No such file or directory", lines=("1 message hex:610a62",))


class NotBuilt(Lines):
    def setUp(self):
        super().setUp()
        self.reader = messages.Reader(self.path("none"), self.missing)

    @staticmethod
    def missing():
        raise files.Failed("it isn't built")

    def test_alone(self):
        with self.assertRaises(files.Failed) as caught:
            self.pack("1 message plain.xml")
        self.assertEqual(str(caught.exception), "it isn't built")

    def test_other_mistakes_are_told_first(self):
        for by, lines in ((packing.pack, ()), (many.pack, ("day a",)), (inputs.pack, ("day a", "bytes"))):
            place = f"X:{len(lines) + 2}:8"
            said = f'{place}: expected but, or the line\'s end, found "tock"'
            self.wrong(said, lines=(*lines, "1 message plain.xml", "1 tick tock"), by=by)

    def test_a_day_without_messages_needs_none(self):
        self.assertEqual(self.pack(f"1 {PLAIN}"), packing.pack("x.day", f"1 {PLAIN}"))


if __name__ == "__main__":
    unittest.main()
