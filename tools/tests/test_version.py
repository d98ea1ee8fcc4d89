"""One version: VERSION has it, the C header and the newest entry of CHANGELOG.md repeat it, and the commands answer it."""

import os
import re
import subprocess
import sys
import unittest

from tests import scenes
from zolfigar import version

VERSION = scenes.content("VERSION").decode()


def text(*names):
    return scenes.content(*names).decode()


class Version(unittest.TestCase):
    def test_three_numbers_and_no_more(self):
        self.assertRegex(VERSION, r"\A\d+\.\d+\.\d+\n\Z")
        self.assertEqual(version.version() + "\n", VERSION)

    def test_the_header_has_it(self):
        found = re.findall(r'^#define ZOLFIGAR_VERSION "(.*)"$', text("include", "zolfigar.h"), re.M)
        self.assertEqual(found, [VERSION.strip()])

    def test_the_newest_entry_of_the_changes_is_about_it(self):
        headings = re.findall(r"^#+ .*$", text("CHANGELOG.md"), re.M)
        self.assertEqual(headings[0], "# Changes")
        self.assertRegex(headings[1], rf"\A## {re.escape(VERSION.strip())}, \d{{4}}-\d\d-\d\d\Z")

    def test_the_commands_answer_it(self):
        for name in ("day", "explain", "run", "message", "anybytes"):
            command = [sys.executable, "-B", os.path.join(scenes.ROOT, "tools", name), "--version"]
            said = subprocess.run(command, capture_output=True, text=True, check=True).stdout
            self.assertEqual(said, f"{name}, Zolfigar {VERSION}")


if __name__ == "__main__":
    unittest.main()
