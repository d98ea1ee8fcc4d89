"""Files are read and written whole, and errors are one line."""

import contextlib
import io
import os
import tempfile
import unittest
from typing import Any

from zolfigar import files


class Files(unittest.TestCase):
    def setUp(self):
        self.folder = tempfile.TemporaryDirectory()
        self.addCleanup(self.folder.cleanup)

    def path(self, name):
        return os.path.join(self.folder.name, name)

    def test_written_and_read(self):
        files.write(self.path("a"), b"one")
        files.write(self.path("a"), b"two")
        self.assertEqual(files.read(self.path("a")), b"two")
        self.assertEqual(os.listdir(self.folder.name), ["a"])

    def test_nothing_half_written(self):
        """Where the writing fails, what was there stays, and nothing is left beside it."""
        files.write(self.path("a"), b"one")
        no_bytes: Any = "no bytes"
        with self.assertRaises(TypeError):
            files.write(self.path("a"), no_bytes)
        self.assertEqual((files.read(self.path("a")), os.listdir(self.folder.name)), (b"one", ["a"]))

    def test_a_link_and_the_rights_stay(self):
        files.write(self.path("a"), b"one")
        os.chmod(self.path("a"), 0o640)
        os.symlink("a", self.path("link"))
        files.write(self.path("link"), b"two")
        self.assertTrue(os.path.islink(self.path("link")))
        self.assertEqual((files.read(self.path("a")), os.stat(self.path("a")).st_mode & 0o777), (b"two", 0o640))

    def test_a_device_is_written_through(self):
        files.write(os.devnull, b"gone")
        self.assertFalse(os.path.isfile(os.devnull))

    def test_errors(self):
        with self.assertRaisesRegex(files.Failed, "can't read .*/none: No such file or directory"):
            files.read(self.path("none"))
        with self.assertRaisesRegex(files.Failed, "can't write .*/none/a: No such file or directory"):
            files.write(self.path("none/a"), b"")

    def test_output_with_other_bytes(self):
        files.write(self.path("a"), b"T 0 \xff\n")
        self.assertEqual(files.text(self.path("a")), "T 0 \\xff\n")


class Shown(unittest.TestCase):
    def test_what_can_not_be_printed_is_shown_by_its_number(self):
        cases = {
            "mine.day": "mine.day",
            "f\u00fcr Riga, \u0631\u064a\u063a\u0627.day": "f\u00fcr Riga, \u0631\u064a\u063a\u0627.day",
            "a\nb\tc\rd": "a\\nb\\tc\\rd",
            "\x1b[31mred\x07\x9b": "\\x1b[31mred\\x07\\x9b",
            "\u202egnp": "\\u202egnp",
            os.fsdecode(b"f\xfcr"): "f\\xfcr",
        }
        self.assertEqual({name: files.shown(name) for name in cases}, cases)

    def test_in_errors(self):
        name = self.id() + "\x1b[31m\n"
        with self.assertRaises(files.Failed) as failed:
            files.read(name)
        self.assertEqual(str(failed.exception), f"can't read {self.id()}\\x1b[31m\\n: No such file or directory")
        with self.assertRaises(files.Failed) as failed:
            files.write(os.path.join(name, "a"), b"")
        self.assertEqual(str(failed.exception), f"can't write {self.id()}\\x1b[31m\\n/a: No such file or directory")


class Guarded(unittest.TestCase):
    def test_statuses(self):
        def failing():
            raise files.Failed("it is not there")

        said = io.StringIO()
        with contextlib.redirect_stderr(said):
            self.assertEqual([files.guarded("day", lambda: 0), files.guarded("day", failing)], [0, 1])
        self.assertEqual(said.getvalue(), "day: it is not there\n")

    def test_what_is_said_has_no_escape_sequences(self):
        """Not even where others' words are in it, as rt's are; its lines stay."""

        def failing():
            raise files.Failed("rt failed:\n\x1b[31mfn f\x1b[0m")

        said = io.StringIO()
        with contextlib.redirect_stderr(said):
            files.guarded("run", failing)
        self.assertEqual(said.getvalue(), "run: rt failed:\n\\x1b[31mfn f\\x1b[0m\n")


if __name__ == "__main__":
    unittest.main()
