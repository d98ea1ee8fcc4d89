"""Inputs of any bytes: what they are, and that a program which does wrong is told."""

import os
import tempfile
import unittest
from unittest import mock

from tests import scenes
from zolfigar import anybytes, files, layout


class Programs(unittest.TestCase):
    """Stand-ins for the clearing program, each a shell script."""

    def setUp(self):
        folder = tempfile.TemporaryDirectory()
        self.addCleanup(folder.cleanup)
        self.folder = folder.name

    def program(self, text):
        path = os.path.join(self.folder, "program")
        files.write(path, f"#!/bin/sh\n{text}\n".encode())
        os.chmod(path, 0o755)
        return path

    def test_faults(self):
        day = scenes.day_file("case-d")
        cases = {
            "cat >/dev/null; echo F 3": None,
            "cat >/dev/null; echo F 6": "it printed F 6",
            "cat >/dev/null; echo F 3; exit 4": "it ended with status 4",
            "cat >/dev/null; echo F 3; echo oh >&2": "it wrote to standard error: b'oh\\n'",
            "cat >/dev/null; echo T 0 0 0": "line 1 of the output is none of the program's: 'T 0 0 0'",
            "cat >/dev/null; printf 'T 0 0 0 0'": "the last line of the output has no end: the output was cut off",
            "cat >/dev/null; echo T 0 0 0 0; echo C 0 0 0 0": "1 ticket and 1 participant of another number",
            "kill -SEGV $$": "it ended with status -11",
        }
        self.assertEqual({text: anybytes.run(self.program(text), day) for text in cases}, cases)

    def test_a_program_that_does_not_end(self):
        with mock.patch.object(anybytes, "LIMIT", 0.2):
            self.assertEqual(anybytes.run(self.program("exec sleep 5"), b""), "it didn't end in 0.2 seconds")

    def test_edges_are_told(self):
        wrong = self.program("cat >/dev/null 2>&1; echo F 7")
        self.assertEqual(anybytes.without_input(wrong), "it printed b'F 7\\n'")
        self.assertEqual(anybytes.slowly(wrong, b"abc"), "it printed F 7")
        self.assertEqual(anybytes.ends(self.program("exit 3"), b"", ">&-"), "it ended with status 3")


class Inputs(unittest.TestCase):
    def test_the_same_seed_gives_the_same_inputs(self):
        days = [scenes.day_file("case-d")]
        self.assertEqual(list(anybytes.inputs(1, 50, days)), list(anybytes.inputs(1, 50, days)))
        self.assertNotEqual(list(anybytes.inputs(1, 50, days)), list(anybytes.inputs(2, 50, days)))

    def test_of_each_kind(self):
        """Some are below 12 bytes, some longer than any day, some have the layout that their header gives."""
        made = list(anybytes.inputs(3, 500, [scenes.day_file("busy")]))
        self.assertTrue(any(len(file) < 12 for file in made))
        self.assertTrue(any(len(file) > anybytes.MOST for file in made))
        whole = [file for file in made if len(file) >= 12 and layout.sections(file).rest == b""]
        self.assertGreater(len(whole), 100)


if __name__ == "__main__":
    unittest.main()
