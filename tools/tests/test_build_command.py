"""The command tools/build, with a stand-in for rt: what it builds, where it puts that, and what it says."""

import os
import subprocess
import tempfile
import unittest

from tests import scenes
from zolfigar import files

# It is called in a crate's folder; a program that it built is a line of text.
RT = """#!/bin/sh
crate=$(basename "$(pwd)")
echo "$crate $*" >>../../asked
echo "rt: chose --jobs 2 for $crate" >&2
test ! -e broken || { echo "fn f: not proved" >&2; exit 1; }
mkdir -p out
case "$*" in
run) echo "$crate" >"out/$crate"; echo "what the program prints" ;;
lib) echo "$crate" >"out/lib$crate.a" ;;
*) exit 2 ;;
esac
"""


class Build(unittest.TestCase):
    def setUp(self):
        folder = tempfile.TemporaryDirectory()
        self.addCleanup(folder.cleanup)
        self.root = folder.name
        build = scenes.content("tools", "build")
        for name, text in (("bin/rt", RT.encode()), ("tools/build", build)):
            self.put(name, text)
            os.chmod(self.path(name), 0o755)
        self.put("crates/one/src/main.rt", b"")
        self.put("crates/two_c/src/lib.rt", b"")

    def path(self, name):
        return os.path.join(self.root, name)

    def put(self, name, text):
        os.makedirs(os.path.dirname(self.path(name)), exist_ok=True)
        files.write(self.path(name), text)

    def build(self, *words, path="bin"):
        """The exit status and all that is printed."""
        environment = os.environ | {"PATH": self.path(path) + ":/usr/bin:/bin"}
        command = [self.path("tools/build"), *words]
        ran = subprocess.run(command, capture_output=True, text=True, check=False, env=environment, cwd="/")
        return ran.returncode, ran.stdout + ran.stderr

    def test_a_program_and_a_static_library(self):
        self.assertEqual(self.build("one", "two_c"), (0, ""))
        self.assertEqual(files.text(self.path("asked")), "one run\ntwo_c lib\n")
        self.assertEqual(files.text(self.path("target/bin/one")), "one\n")
        self.assertEqual(files.text(self.path("target/staticlib/libtwo.a")), "two_c\n")
        self.assertEqual(os.listdir(self.path("target/bin")), ["one"])

    def test_what_rt_says_is_told(self):
        self.assertEqual(self.build("--told", "one"), (0, "rt: chose --jobs 2 for one\n"))

    def test_what_is_the_same_stays(self):
        self.build("one")
        os.utime(self.path("target/bin/one"), (1, 1))
        self.build("one")
        self.assertEqual(os.stat(self.path("target/bin/one")).st_mtime, 1)
        self.put("target/bin/one", b"older")
        self.build("one")
        self.assertEqual(files.text(self.path("target/bin/one")), "one\n")

    def test_one_that_is_not_proved(self):
        """It is said with what rt says, and nothing behind it is built."""
        self.put("crates/one/broken", b"")
        said = "rt: chose --jobs 2 for one\nfn f: not proved\nbuild: FAILED: one\n"
        self.assertEqual(self.build("one", "two_c"), (1, said))
        self.assertEqual(self.build("--told", "one"), (1, said))
        self.assertFalse(os.path.exists(self.path("target")))

    def test_a_crate_that_is_not_there(self):
        self.assertEqual(self.build("three"), (1, "build: FAILED: there is no crate three\n"))

    def test_without_the_kit(self):
        said = "build: can't run rt, the Rattle kit's command: it is not here\n"
        self.assertEqual(self.build("one", path="none"), (1, said))

    def test_usage(self):
        for words in ((), ("-x",), ("one", "--told"), ("--told",)):
            status, said = self.build(*words)
            self.assertEqual((status, said.startswith("tools/build [--told] CRATE ..: ")), (2, True), words)
        self.assertEqual(self.build("--help")[0], 0)


if __name__ == "__main__":
    unittest.main()
