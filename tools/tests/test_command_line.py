"""Commands' lines: a command that is interrupted while it loads, words that are empty or can't be printed."""

import os
import subprocess
import tempfile
import unittest

from tests import scenes

# Python runs this before a command: whoever asks for the tools' modules is interrupted.
INTERRUPTED = """import sys
class Finder:
    def find_spec(self, name, path=None, target=None):
        if name == "zolfigar":
            raise KeyboardInterrupt
sys.meta_path.insert(0, Finder())
"""


def run(*words, **more):
    command = [os.path.join(scenes.ROOT, "tools", words[0]), *words[1:]]
    return subprocess.run(command, capture_output=True, text=True, check=False, env=os.environ | more)


class Commands(unittest.TestCase):
    def test_interrupted_while_modules_load(self):
        with tempfile.TemporaryDirectory() as folder:
            with open(os.path.join(folder, "sitecustomize.py"), "w", encoding="utf-8") as file:
                file.write(INTERRUPTED)
            for command in ("run", "explain", "day", "message", "anybytes", "unused"):
                ran = run(command, "--help", PYTHONPATH=folder)
                self.assertEqual((ran.returncode, ran.stdout, ran.stderr), (130, "", ""), command)

    def test_names_that_are_empty(self):
        options = {"explain": ("--member", "--order", "--page", "--journal"), "run": ("--member", "--order")}
        for command, option in ((command, option) for command, some in options.items() for option in some):
            ran = run(command, "a", option, "")
            self.assertEqual(ran.returncode, 2)
            self.assertIn(f"argument {option}: expected a name, found none", ran.stderr)

    def test_words_that_can_not_be_printed(self):
        for command in ("run", "explain", "day", "anybytes", "unused", "message"):
            ran = run(command, "\x1b[31m", "a", "b", "--c\n")
            self.assertEqual(ran.returncode, 2)
            self.assertNotIn("\x1b", ran.stderr)
            self.assertRegex(ran.stderr.splitlines()[-1], r"\\x1b\[31m|\\n")


class Scripts(unittest.TestCase):
    """The commands in bash. What they would run ends with 9 here."""

    NAMES = ("tools/check", "tools/lint", "hosts/check", "gateway/check", "peer/check", "bench/run", ".ci/run")
    RUN = ("python3", "rt", "cargo", "cc", "rustc", "black", "mypy", "pylint")

    def setUp(self):
        folder = tempfile.TemporaryDirectory()
        self.addCleanup(folder.cleanup)
        for name in self.RUN:
            with open(os.path.join(folder.name, name), "w", encoding="utf-8") as file:
                file.write("#!/bin/sh\nexit 9\n")
            os.chmod(os.path.join(folder.name, name), 0o755)
        self.environment = os.environ | {"PATH": folder.name + os.pathsep + os.environ["PATH"]}

    def run_script(self, name, *words):
        command = [os.path.join(scenes.ROOT, name), *words]
        return subprocess.run(command, capture_output=True, text=True, check=False, env=self.environment)

    def test_help_runs_nothing(self):
        for name in self.NAMES:
            for word in ("--help", "-h"):
                ran = self.run_script(name, word)
                self.assertEqual((ran.returncode, ran.stderr), (0, ""), name)
                self.assertTrue(ran.stdout.startswith(name), ran.stdout)
                self.assertNotIn("#", ran.stdout)
                self.assertNotIn("set -euo", ran.stdout)

    def test_words_that_they_do_not_know(self):
        for name in self.NAMES:
            ran = self.run_script(name, "--hlep")
            self.assertEqual((ran.returncode, ran.stdout), (2, ""), name)
            self.assertTrue(ran.stderr.startswith(name), ran.stderr)


if __name__ == "__main__":
    unittest.main()
