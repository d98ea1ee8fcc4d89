"""Must-fail edits: each changes what stands once in its file, and those that the pages name are there."""

import glob
import os
import re
import unittest

from tests import scenes


def edits():
    return sorted(glob.glob(os.path.join(scenes.ROOT, "crates", "*", "must-fail", "*.edit")))


def lines(path):
    with open(path, encoding="utf-8") as file:
        return file.read().split("\n")


def named(text):
    """What a text calls a must-fail edit: in the sentences that say so, and in tables."""
    found = set()
    for sentence in re.findall(r"[Mm]ust-fail\s+((?:`\w+`|[^.`])*)\.", text):
        found |= set(re.findall(r"`([a-z0-9]+(?:_[a-z0-9]+)+)`", sentence))
    for row in re.findall(r"^\|.*\|$", text, re.M):
        found |= set(re.findall(r"`([a-z0-9]+(?:_[a-z0-9]+){2,})`", row))
    return found


class Edits(unittest.TestCase):
    def test_each_changes_what_stands_once(self):
        self.assertGreater(len(edits()), 80)
        for path in edits():
            crate = os.path.dirname(os.path.dirname(path))
            told = lines(path)
            names = [line[6:] for line in told if line.startswith("file: ")]
            self.assertEqual(len(names), 1, path)
            text = "\n".join(lines(os.path.join(crate, names[0])))
            old = [line[5:] for line in told if line.startswith("old: ")]
            new = [line[5:] for line in told if line.startswith("new: ")]
            self.assertTrue(old and len(old) == len(new), path)
            for part in old:
                self.assertEqual(text.count(part), 1, f"{path}: {part}")

    def test_each_says_what_is_wrong(self):
        for path in edits():
            self.assertTrue(lines(path)[0].startswith("# "), path)

    def test_those_that_the_paper_page_names_are_there(self):
        text = scenes.content("docs", "PAPER.md").decode()
        shut = text[text.index("## What shuts out a wrong book") : text.index("## Code places")]
        self.assertGreater(len(named(shut)), 30)
        self.assertEqual(sorted(named(shut) - {os.path.basename(path)[:-5] for path in edits()}), [])

    def test_those_with_a_crate_are_in_it(self):
        told = re.findall(r"`([a-z0-9]+(?:_[a-z0-9]+){2,})` of `([a-z]+)`", scenes.content("docs", "PAPER.md").decode())
        self.assertGreater(len(told), 10)
        for name, crate in told:
            self.assertTrue(scenes.exists(f"crates/{crate}/must-fail/{name}.edit"), f"{name} of {crate}")

    def test_as_many_as_the_tables_say(self):
        words = "one two three four five six seven eight nine ten eleven twelve thirteen".split()
        words += "fourteen fifteen sixteen seventeen eighteen".split()
        told = re.findall(r"the (\w+) of `(\w+)`", scenes.content("docs", "PAPER.md").decode())
        counted = [(words.index(number) + 1, crate) for number, crate in told if number in words]
        self.assertGreater(len(counted), 5)
        for number, crate in counted:
            there = [path for path in edits() if path.split(os.sep)[-3] == crate]
            self.assertEqual(len(there), number, crate)


if __name__ == "__main__":
    unittest.main()
