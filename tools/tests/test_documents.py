"""The pages for a newcomer: what they name is there, and table and picture of the layers have every crate."""

import re
import unittest

from tests import scenes

PAGES = ("README.md", "CONTRIBUTING.md", "docs/ARCHITECTURE.md")
FOLDERS = "bench|crates|docs|examples|gateway|hosts|include|peer|tools"


def page(name):
    return scenes.content(name).decode()


def crates():
    return sorted(re.findall(r"^(\w+)(?: staticlib)?:", page("crates.txt"), re.M))


class Pages(unittest.TestCase):
    def test_their_files_are_there(self):
        for name in PAGES:
            # the section on old names is about what is gone
            text = page(name).split("\n## Old and new names\n")[0]
            named = re.findall(rf"`((?:{FOLDERS})/[\w./-]+?)/?`", text)
            self.assertGreater(len(named), 10, name)
            for file in named:
                self.assertTrue(scenes.exists(file), f"{name}: {file}")

    def test_the_models_files_are_there(self):
        model = page("docs/ARCHITECTURE.md").split("\n## The model\n")[1].split("\n## ")[0]
        rows = re.findall(r"  (crates/\w+/\w+/)(\S.*)$", model, re.M)
        self.assertGreater(len(rows), 20)
        for folder, files in rows:
            for file in files.split(", "):
                self.assertTrue(scenes.exists(folder + file), folder + file)

    def test_the_table_of_the_folders_has_every_crate(self):
        rows = re.findall(r"^\| `crates/(\w+)` \|", page("docs/ARCHITECTURE.md"), re.M)
        self.assertEqual(sorted(rows), crates())

    def test_the_picture_of_the_layers_has_every_crate(self):
        drawn = re.findall(r'class="mid code"[^>]*>(\w+)<', page("docs/layers.svg"))
        self.assertEqual(sorted(drawn), crates())

    def test_the_pictures_are_there(self):
        for name in PAGES:
            folder = name.rpartition("/")[0]
            for file in re.findall(r"!\[[^]]+\]\(([^)]+)\)", page(name)):
                self.assertTrue(scenes.exists(f"{folder}/{file}" if folder else file), f"{name}: {file}")


if __name__ == "__main__":
    unittest.main()
