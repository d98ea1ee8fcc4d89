"""The commands tools/message and tools/day, tools/explain on messages, as their users run them, with a stand-in for the reader."""

import os
import shutil
import subprocess
import sys
import tempfile
import unittest

from tests import reader, scenes
from zolfigar import files, messages

PLAIN = "order SALARY-41 from AAAALV22 to BBBBLV22 EUR 400.00 iban LV80BANK0000435195001"
FREE = "order RENT-7/11'A' from BBBBLV22 to CCCCLT2X EUR 25.50 iban LT121000011101001000"
NOT_BUILT = "the program messages, which reads messages, is not built: `tools/build messages` proves and builds it"


class Commands(unittest.TestCase):
    """A copy of the tools and the examples, with a program beside them."""

    def setUp(self):
        folder = tempfile.TemporaryDirectory()
        self.addCleanup(folder.cleanup)
        self.folder = folder.name
        tools = os.path.join(scenes.ROOT, "tools")
        shutil.copytree(tools, self.path("tools"), ignore=shutil.ignore_patterns("tests", "__pycache__"))
        shutil.copy(os.path.join(scenes.ROOT, "VERSION"), self.path("VERSION"))
        shutil.copytree(scenes.EXAMPLES, self.path("examples"))
        os.makedirs(self.path("target/bin"))
        os.symlink(reader.READER.path, self.path("target/bin/messages"))

    def path(self, name):
        return os.path.join(self.folder, name)

    def put(self, name, data):
        files.write(self.path(name), data)

    def run_tool(self, *words, given=b""):
        """The exit status and the lines of both streams."""
        command = [sys.executable, "-B", self.path(f"tools/{words[0]}"), *words[1:]]
        ran = subprocess.run(command, cwd=self.folder, input=given, capture_output=True, check=False)
        return ran.returncode, ran.stdout.decode().splitlines(), ran.stderr.decode().splitlines()


class Message(Commands):
    def test_orders(self):
        due = [f"examples/plain.xml: 00:00:00 {PLAIN}"]
        self.assertEqual(self.run_tool("message", "examples/plain.xml"), (0, due, []))
        due = [f"examples/free.xml: 09:00:01 {FREE}", f"examples/plain.xml: 09:00:01 {PLAIN}"]
        for time in ("09:00:01", "32401"):
            found = self.run_tool("message", "examples/free.xml", "--time", time, "examples/plain.xml")
            self.assertEqual(found, (0, due, []))
        due = [f"standard input: 4294967295 {FREE}"]
        given = scenes.content("examples", "free.xml")
        self.assertEqual(self.run_tool("message", "--time", "4294967295", "-", given=given), (0, due, []))

    def test_its_line_can_be_put_into_a_day(self):
        _, lines, _ = self.run_tool("message", "examples/plain.xml", "examples/free.xml", "--time", "8:00:00")
        self.put("a.day", "".join(line.split(": ", 1)[1] + "\n" for line in lines).encode())
        self.put("b.day", b"8:00:00 message examples/plain.xml\n08:00:00 message examples/free.xml\n")
        for name in ("a", "b"):
            self.assertEqual(self.run_tool("day", "pack", f"{name}.day", "-o", name), (0, [], []))
        self.assertEqual(files.read(self.path("a")), files.read(self.path("b")))

    def test_refused(self):
        text, refused = reader.REFUSED["an entity"]
        self.put("wrong.xml", text)
        told = messages.told("wrong.xml", text, refused)
        self.assertEqual(self.run_tool("message", "wrong.xml"), (1, [], [told]))
        self.assertEqual(self.run_tool("message", "-", given=text), (1, [], [told.replace("wrong.xml", "standard input")]))

    def test_some_of_many(self):
        """All orders are told, and all that is wrong."""
        text, refused = reader.REFUSED["small letters"]
        self.put("wrong.xml", text)
        self.put("red\x1b[31m.xml", scenes.content("examples", "plain.xml"))
        names = ("wrong.xml", "red\x1b[31m.xml", "none.xml", "examples/free.xml", ".")
        orders = [f"red\\x1b[31m.xml: 00:00:00 {PLAIN}", f"examples/free.xml: 00:00:00 {FREE}"]
        errors = [
            messages.told("wrong.xml", text, refused),
            "message: can't read none.xml: No such file or directory",
            "message: can't read .: Is a directory",
        ]
        self.assertEqual(self.run_tool("message", *names), (1, orders, errors))

    def test_a_program_that_is_not_built_or_fails(self):
        os.unlink(self.path("target/bin/messages"))
        self.assertEqual(self.run_tool("message", "examples/plain.xml"), (1, [], [f"message: {NOT_BUILT}"]))
        said = "message: can't read none.xml: No such file or directory"
        self.assertEqual(self.run_tool("message", "none.xml"), (1, [], [said]))
        self.put("target/bin/messages", b"#!/bin/sh\nexit 5\n")
        os.chmod(self.path("target/bin/messages"), 0o755)
        said = "message: the program messages ended with status 5"
        self.assertEqual(self.run_tool("message", "examples/plain.xml"), (1, [], [said]))
        os.chmod(self.path("target/bin/messages"), 0o644)
        status, _, err = self.run_tool("message", "examples/plain.xml")
        self.assertEqual((status, err), (1, [f"message: can't run {self.path('target/bin/messages')}: Permission denied"]))

    def test_wrong_usage(self):
        for words in ((), ("--time", "1"), ("a.xml", "--time"), ("a.xml", "--at", "1")):
            self.assertEqual(self.run_tool("message", *words)[0], 2, words)
        status, out, err = self.run_tool("message", "a.xml", "--time", "8:00")
        said = 'message: error: argument --time: expected a time like 08:00:05 or 28805, found "8:00"'
        self.assertEqual((status, out, err[-1]), (2, [], said))

    def test_help_has_an_example(self):
        status, out, err = self.run_tool("message", "--help")
        self.assertEqual((status, err), (0, []))
        self.assertIn("  tools/message examples/plain.xml", out)


class Day(Commands):
    """The other commands, on a day that names messages."""

    def test_packed_from_any_folder(self):
        self.assertEqual(self.run_tool("day", "pack", "examples/messages.day", "-o", "out"), (0, [], []))
        self.assertEqual(files.read(self.path("out")), scenes.day_file("messages"))
        self.put("plain.xml", scenes.content("examples", "plain.xml"))
        self.assertEqual(self.run_tool("day", "pack", "-", "-o", "out", given=b"1 message plain.xml\n"), (0, [], []))
        status, lines, _ = self.run_tool("day", "unpack", "out")
        self.assertEqual((status, lines), (0, ["# tickets", f"00:00:01 {PLAIN}"]))

    def test_refused(self):
        text, refused = reader.REFUSED["a second GrpHdr"]
        self.put("examples/wrong.xml", text)
        self.put("examples/wrong.day", b"1 message plain.xml\n2 message wrong.xml\n")
        told = f"examples/wrong.day:2:11: {messages.told('examples/wrong.xml', text, refused)}"
        self.assertEqual(self.run_tool("day", "pack", "examples/wrong.day", "-o", "out"), (1, [], [told]))
        self.assertFalse(os.path.exists(self.path("out")))
        self.assertEqual(self.run_tool("explain", "examples/wrong.day", "examples/messages.out"), (1, [], [told]))

    def test_explained(self):
        status, lines, err = self.run_tool("explain", "examples/messages.day", "examples/messages.out")
        self.assertEqual((status, err), (0, []))
        self.assertTrue(any(line.startswith("Everything adds up") for line in lines))

    def test_a_program_that_is_not_built(self):
        os.unlink(self.path("target/bin/messages"))
        self.assertEqual(self.run_tool("day", "pack", "examples/messages.day"), (1, [], [f"day: {NOT_BUILT}"]))
        self.assertEqual(self.run_tool("day", "pack", "examples/busy.day", "-o", "out"), (0, [], []))
        self.put("a.day", b"day a\n1 message examples/plain.xml\n")
        for form in ("--many", "--inputs"):
            self.assertEqual(self.run_tool("day", "pack", form, "a.day", "-o", "out")[2], [f"day: {NOT_BUILT}"])


if __name__ == "__main__":
    unittest.main()
