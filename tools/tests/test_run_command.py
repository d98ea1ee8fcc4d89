"""The command tools/run, with a stand-in for rt that builds a stand-in for the program: it prints an example's output.

That the proved program prints these outputs is a test of the gate: crates/days has every example (test_examples.py)."""

import contextlib
import io
import os
import shutil
import subprocess
import tempfile
import unittest
from unittest import mock

from tests import reader, scenes
from zolfigar import files, run_command

# It is called in the folder of the program's crate.
RT = f"""#!/bin/sh
test ! -e ../../broken || {{ echo "fn f: not proved" >&2; exit 1; }}
test "$*" = run || exit 2
mkdir -p out
case "$(pwd)" in
*/crates/clearing) cp ../../program out/clearing ;;
*/crates/messages) printf '#!/bin/sh\\nexec {reader.READER.path} "$@"\\n' >out/messages && chmod +x out/messages ;;
*) exit 2 ;;
esac
"""

PROGRAM = """#!/usr/bin/env python3
import pathlib, sys
folder = pathlib.Path(__file__).resolve().parents[2] / "outputs"
day = sys.stdin.buffer.read()
for file in folder.glob("*.bin"):
    if file.read_bytes() == day:
        sys.stdout.write(file.with_suffix(".out").read_text())
"""


class Run(unittest.TestCase):
    def setUp(self):
        folder = tempfile.TemporaryDirectory()
        self.addCleanup(folder.cleanup)
        self.root = folder.name
        build = scenes.content("tools", "build").decode()
        for name, text in (("bin/rt", RT), ("program", PROGRAM), ("tools/build", build)):
            os.makedirs(os.path.dirname(self.path(name)), exist_ok=True)
            files.write(self.path(name), text.encode())
            os.chmod(self.path(name), 0o755)
        for name in ("clearing", "messages"):
            os.makedirs(self.path(f"crates/{name}/src"))
            files.write(self.path(f"crates/{name}/src/main.rt"), b"")
        os.makedirs(self.path("outputs"))
        for name in scenes.RUNNING + scenes.REFUSED:
            files.write(self.path(f"outputs/{name}.bin"), scenes.day_file(name))
            files.write(self.path(f"outputs/{name}.out"), scenes.output(name).encode())

    def path(self, name):
        return os.path.join(self.root, name)

    def run_day(self, *words):
        """The exit status, standard output and standard error."""
        written, err = io.BytesIO(), io.StringIO()
        out = io.TextIOWrapper(written, encoding="utf-8", write_through=True)
        path = self.path("bin") + os.pathsep + os.environ["PATH"]
        with mock.patch.dict(os.environ, PATH=path), contextlib.redirect_stdout(out), contextlib.redirect_stderr(err):
            status = files.guarded("run", lambda: run_command.run(run_command.arguments(words), self.root))
        return status, written.getvalue().decode(), err.getvalue()

    def example(self, name):
        return os.path.join(scenes.EXAMPLES, name + ".day")

    def test_each_example(self):
        for name in scenes.RUNNING + scenes.REFUSED:
            with self.subTest(name):
                status, out, _ = self.run_day(self.example(name))
                self.assertEqual(status, 0)
                self.assertTrue(out.startswith(name + ": "))
                for ending, starts in ((".html", b"<!DOCTYPE html>"), (".journal", b"; "), (".bin", scenes.day_file(name))):
                    self.assertTrue(files.read(self.path(f"target/run/{name}{ending}")).startswith(starts))
                self.assertEqual(files.text(self.path(f"target/run/{name}.out")), scenes.output(name))

    def test_what_is_missing_is_built(self):
        said = "run: the clearing program is not built yet: proving and building it, which takes some minutes\n"
        self.assertEqual(self.run_day(self.example("case-d"))[2], said)
        self.assertEqual(self.run_day(self.example("case-d"))[2], "")

    def test_the_reader_is_built_for_a_day_with_messages(self):
        """Not for one whose text is wrong, and what it refuses is told."""
        files.write(self.path("mine.day"), b"1 message none.xml\n1 tick tock\n")
        said = f"{self.path('mine.day')}:2:8: expected but, or the line's end, found \"tock\"\n"
        self.assertEqual(self.run_day(self.path("mine.day")), (1, "", said))
        building = "is not built yet: proving and building it, which takes some minutes\n"
        said = f"run: the reader of messages {building}run: the clearing program {building}"
        self.assertEqual(self.run_day(self.example("messages"))[2], said)
        self.assertEqual(self.run_day(self.example("messages"))[2], "")
        files.write(self.path("mine.xml"), reader.REFUSED["nothing"][0])
        files.write(self.path("mine.day"), b"1 message mine.xml\n1 tick tock\n")
        status, _, err = self.run_day(self.path("mine.day"))
        self.assertEqual((status, len(err.splitlines())), (1, 2))
        self.assertIn(f"{self.path('mine.day')}:1:11: {self.path('mine.xml')}:1:1: refused by 23 at byte 0: ", err)

    def test_building_shows_how_far_it_is(self):
        """On a terminal, the last line that rt said of how far it is."""
        shown = io.StringIO()
        with mock.patch.object(shown, "isatty", return_value=True), contextlib.redirect_stderr(shown):
            said = run_command.followed(["rt: chose --jobs 2 for fields\n", "fn f: proved\n"])
        self.assertEqual(said, "rt: chose --jobs 2 for fields\nfn f: proved\n")
        self.assertEqual(shown.getvalue(), "\rrt: chose --jobs 2 for fields\x1b[K\r\x1b[K")

    def test_a_build_that_fails(self):
        files.write(self.path("broken"), b"")
        status, _, err = self.run_day(self.example("case-d"))
        self.assertEqual(status, 1)
        self.assertIn("run: tools/build clearing failed:\nfn f: not proved\nbuild: FAILED: clearing\n", err)
        self.assertIn("run: tools/build messages failed:\nfn f: not proved\n", self.run_day(self.example("messages"))[2])

    def test_an_output_that_is_not_the_expected_one(self):
        files.write(self.path("mine.day"), scenes.content("examples", "case-d.day"))
        files.write(self.path("due.out"), scenes.output("case-e").encode())
        status, _, err = self.run_day(self.path("mine.day"), "--expect", self.path("due.out"))
        self.assertEqual(status, 1)
        self.assertIn(f"run: {self.path('due.out')}:4: expected 'T 2 18 2 0', found 'T 2 0 2 0'\n", err)
        files.write(self.path("due.out"), scenes.output("case-d").encode())
        self.assertEqual(self.run_day(self.path("mine.day"), "--expect", self.path("due.out"))[0], 0)
        for name in (self.path("none"), ""):
            status, _, err = self.run_day(self.path("mine.day"), "--expect", name)
            self.assertEqual(status, 1)
            self.assertIn(f"run: can't read {name}: No such file or directory\n", err)

    def test_where_an_output_differs(self):
        cases = {
            (b"a\nb\n", b"a\nb\n"): None,
            (b"a\nb\n", b"a\nc\n"): "due:2: expected 'b', found 'c'",
            (b"a\nb\n", b"a\n"): "due:2: expected 'b', found no line",
            (b"a\n", b"a\nb\n"): "due:2: expected no line, found 'b'",
            (b"a", b"a\n"): "due:1: expected 'a' without a line end, found 'a'",
            (b"a\r\n", b"a\n"): "due:1: expected 'a\\r', found 'a'",
        }
        self.assertEqual({case: run_command.difference("due", *case) for case in cases}, cases)

    def test_an_output_beside_the_day_is_not_asked(self):
        files.write(self.path("mine.day"), scenes.content("examples", "case-d.day"))
        files.write(self.path("mine.out"), scenes.output("case-e").encode())
        self.assertEqual(self.run_day(self.path("mine.day"))[0], 0)

    def test_an_example_is_held_to_its_output(self):
        os.makedirs(self.path("examples"))
        files.write(self.path("examples/mine.day"), scenes.content("examples", "case-d.day"))
        self.assertEqual(self.run_day(self.path("examples/mine.day"))[0], 0)
        files.write(self.path("examples/mine.out"), scenes.output("case-e").encode())
        status, _, err = self.run_day(self.path("examples/mine.day"))
        self.assertEqual(status, 1)
        self.assertIn(f"run: {self.path('examples/mine.out')}:4: expected 'T 2 18 2 0', found 'T 2 0 2 0'\n", err)

    def test_a_mistake_in_the_text(self):
        files.write(self.path("mine.day"), b"participant AAAALV22 bank\n00:00:00 cover-in from AAAALV22 EUR 4\n")
        status, out, err = self.run_day(self.path("mine.day"))
        self.assertEqual((status, out), (1, ""))
        self.assertIn(f"{self.path('mine.day')}:2:37: expected ", err)

    def test_text_under_another_name(self):
        for name in ("mine.txt", "MINE.DAY", "mine"):
            files.write(self.path(name), scenes.content("examples", "case-d.day"))
            status, out, _ = self.run_day(self.path(name))
            self.assertEqual(status, 0)
            self.assertIn("Everything adds up", out)
        files.write(self.path("slip.txt"), b"participant AAAALV22 bank\n00:00:00 cover-in from AAAALV22 EUR 4\n")
        status, out, err = self.run_day(self.path("slip.txt"))
        self.assertEqual((status, out), (1, ""))
        self.assertIn(f"{self.path('slip.txt')}:2:37: expected ", err)
        self.assertFalse(os.path.exists(self.path("target/run/slip.html")))

    def test_a_packed_day(self):
        files.write(self.path("packed.bin"), scenes.day_file("case-d"))
        self.assertEqual(self.run_day(self.path("packed.bin"), "--order", "TX1")[0], 0)

    def test_an_order_of_one_of_several_payers(self):
        file, output = scenes.numbered()
        for name, data in (
            ("outputs/numbered.bin", file),
            ("outputs/numbered.out", output.encode()),
            ("numbered.bin", file),
        ):
            files.write(self.path(name), data)
        status, out, _ = self.run_day(self.path("numbered.bin"), "--order", "1", "--of", "BBBBLV22")
        self.assertEqual((status, "order 1 (1 of BBBBLV22)" in out, "order 0" in out), (0, True, False))
        status, _, err = self.run_day(self.path("numbered.bin"), "--order", "1")
        self.assertEqual((status, err), (1, "run: the TxId 1 is of AAAALV22, BBBBLV22: --of says which is meant\n"))
        with self.assertRaises(SystemExit) as ended:
            self.run_day(self.path("numbered.bin"), "--of", "BBBBLV22")
        self.assertEqual(ended.exception.code, 2)

    def two_days(self):
        """Two days of one name, in two folders."""
        for folder, name in (("a", "case-d"), ("b", "case-e")):
            os.makedirs(self.path(folder))
            files.write(self.path(f"{folder}/mine.day"), scenes.content("examples", name + ".day"))
        return self.path("a/mine.day"), self.path("b/mine.day")

    def results(self, folder):
        """The outputs that are kept in a folder, by name."""
        return {name: files.text(os.path.join(folder, name)) for name in os.listdir(folder) if name.endswith(".out")}

    def test_two_days_of_one_name(self):
        """The second gets a name of its own, run after run, and what is written where is said."""
        one, other = self.two_days()
        written = os.path.relpath(self.path("target/run/mine"))
        for _ in range(2):
            self.assertIn(f"\nWritten: {written}.bin, .out, ", self.run_day(one)[1])
            out = self.run_day(other)[1]
            self.assertIn(f"\nWritten: {written}-2.bin, .out, ", out)
            self.assertIn(f"\n{written} is not of this day, and stays as it is.\n", out)
            due = {"mine.out": scenes.output("case-d"), "mine-2.out": scenes.output("case-e")}
            self.assertEqual(self.results(self.path("target/run")), due)
        files.write(one, scenes.content("examples", "busy.day"))
        self.run_day(one)
        due = {"mine.out": scenes.output("busy"), "mine-2.out": scenes.output("case-e")}
        self.assertEqual(self.results(self.path("target/run")), due)

    def test_into_a_folder(self):
        one, other = self.two_days()
        into = self.path("some/folder")
        status, out, _ = self.run_day(one, "--into", into)
        self.assertEqual(status, 0)
        self.assertIn(f"\nWritten: {os.path.relpath(into)}/mine.bin, .out, ", out)
        names = ["mine.bin", "mine.from", "mine.html", "mine.journal", "mine.out"]
        self.assertEqual(sorted(os.listdir(into)), names)
        self.assertFalse(os.path.exists(self.path("target/run")))
        status, _, err = self.run_day(other, "--into", one)
        self.assertEqual((status, err), (1, f"run: can't make the folder {one}: File exists\n"))
        status, _, err = self.run_day(other, "--into", "")
        self.assertEqual((status, err), (1, "run: can't make the folder : No such file or directory\n"))

    def test_files_of_others_stay(self):
        """A file that is there and isn't a result of this day, as an expected output beside it."""
        one, _ = self.two_days()
        files.write(self.path("a/mine.out"), b"mine\n")
        self.assertEqual(self.run_day(one, "--into", self.path("a"))[0], 0)
        due = {"mine.out": "mine\n", "mine-2.out": scenes.output("case-d")}
        self.assertEqual(self.results(self.path("a")), due)

    def test_a_name_that_a_shell_takes_apart(self):
        name = self.path("my \x1b[31mday.day")
        files.write(name, scenes.content("examples", "case-d.day"))
        out = self.run_day(name)[1]
        journal = os.path.relpath(self.path("target/run/my \\x1b[31mday.journal"))
        self.assertIn(f".journal (hledger -f '{journal}' balance)\n", out)
        self.assertNotIn("\x1b", out)

    def test_the_journals_date(self):
        self.assertEqual(self.run_day(self.example("case-d"), "--date", "2026-11-15")[0], 0)
        self.assertIn(b"\n2026-11-15 * (0) AAAALV22 | cover in", files.read(self.path("target/run/case-d.journal")))

    def test_streams_that_are_closed(self):
        leave = shutil.ignore_patterns("tests")
        shutil.copytree(os.path.join(scenes.ROOT, "tools"), self.path("tools"), ignore=leave, dirs_exist_ok=True)
        shutil.copy(os.path.join(scenes.ROOT, "VERSION"), self.path("VERSION"))
        environment = os.environ | {"PATH": self.path("bin") + os.pathsep + os.environ["PATH"]}
        building = "run: the clearing program is not built yet: proving and building it, which takes some minutes\n"
        closed = "run: standard output is closed\n"
        cases = {">&-": (1, building + closed), "<&-": (0, ""), "<&- >&-": (1, closed), "<&- >&- 2>&-": (1, "")}
        for streams, due in cases.items():
            shell = f"{self.path('tools/run')} {self.example('case-d')} {streams}"
            ran = subprocess.run(["sh", "-c", shell], capture_output=True, text=True, check=False, env=environment)
            self.assertEqual((ran.returncode, ran.stderr), due, streams)

    def test_without_the_kit(self):
        with mock.patch.object(shutil, "which", return_value=None):
            status, _, err = self.run_day(self.example("case-d"))
        said = "run: can't run rt, the Rattle kit's command: No such file or directory"
        self.assertEqual((status, err.splitlines()[-1]), (1, said))


if __name__ == "__main__":
    unittest.main()
