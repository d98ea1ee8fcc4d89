"""Results are kept under a name that no other day and no other file has."""

import os
import tempfile
import unittest

from zolfigar import files, results


class Results(unittest.TestCase):
    def setUp(self):
        folder = tempfile.TemporaryDirectory()
        self.addCleanup(folder.cleanup)
        self.folder = os.path.join(folder.name, "some", "folder")

    def path(self, name):
        return os.path.join(self.folder, name)

    def keep(self, path, data=b"one"):
        return results.keep(self.folder, path, {".out": data, ".html": data})

    def test_a_day_again(self):
        self.assertEqual([self.keep("a/mine.day"), self.keep("a/mine.day", b"two")], [1, 1])
        self.assertEqual(sorted(os.listdir(self.folder)), ["mine.from", "mine.html", "mine.out"])
        self.assertEqual(files.read(self.path("mine.out")), b"two")
        self.assertEqual(files.read(self.path("mine.from")), os.fsencode(os.path.realpath("a/mine.day")) + b"\n")

    def test_each_day_has_its_own(self):
        days = ("a/mine.day", "b/mine.day", "a/mine.txt", "a/mine-2.day")
        self.assertEqual([self.keep(day, day.encode()) for day in days * 2], [1, 2, 3, 2] * 2)
        kept = [files.read(self.path(name + ".out")).decode() for name in ("mine", "mine-2", "mine-3", "mine-2-2")]
        self.assertEqual(tuple(kept), days)

    def test_a_day_by_another_path(self):
        self.assertEqual([self.keep("a/mine.day"), self.keep("./a/../a/mine.day")], [1, 1])

    def test_files_of_others_stay(self):
        for name in ("mine.html", "mine-2.out"):
            files.make_folder(self.folder)
            files.write(self.path(name), b"mine")
        self.assertEqual(self.keep("a/mine.day"), 3)
        self.assertEqual([files.read(self.path(name)) for name in ("mine.html", "mine-2.out")], [b"mine", b"mine"])


if __name__ == "__main__":
    unittest.main()
