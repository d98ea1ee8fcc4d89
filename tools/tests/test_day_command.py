import os
import pty
import subprocess
import sys
import tempfile
import unittest

from tests.test_packing import CASE_D, CASE_D_BYTES
from tests.test_unpacking import CASE_D as UNPACKED
from zolfigar import many

COMMAND = os.path.join(os.path.dirname(os.path.dirname(os.path.abspath(__file__))), "day")


class Command(unittest.TestCase):
    def setUp(self):
        folder = tempfile.TemporaryDirectory()
        self.addCleanup(folder.cleanup)
        self.folder = folder.name
        self.put("d.day", CASE_D.encode())

    def put(self, name, data):
        with open(os.path.join(self.folder, name), "wb") as file:
            file.write(data)

    def got(self, name):
        with open(os.path.join(self.folder, name), "rb") as file:
            return file.read()

    def run_day(self, *words, **streams):
        streams = {"stdout": subprocess.PIPE, "stderr": subprocess.PIPE} | streams
        return subprocess.run([sys.executable, COMMAND, *words], cwd=self.folder, check=False, **streams)

    def fails(self, ran, status, *lines):
        self.assertEqual((ran.returncode, ran.stderr.decode().split("\n")[:-1]), (status, list(lines)))

    def test_to_a_file_and_back(self):
        self.fails(self.run_day("pack", "d.day", "-o", "d.bin"), 0)
        self.assertEqual(self.got("d.bin"), CASE_D_BYTES)
        self.fails(self.run_day("unpack", "d.bin", "-o", "d.day"), 0)
        self.assertEqual(self.got("d.day"), UNPACKED.encode())
        self.assertEqual(sorted(os.listdir(self.folder)), ["d.bin", "d.day"])

    def test_through_pipes(self):
        ran = self.run_day("pack", "-", input=CASE_D.encode())
        self.assertEqual((ran.returncode, ran.stdout, ran.stderr), (0, CASE_D_BYTES, b""))
        ran = self.run_day("unpack", "-", input=CASE_D_BYTES)
        self.assertEqual((ran.returncode, ran.stdout, ran.stderr), (0, UNPACKED.encode(), b""))

    def test_many(self):
        data = many.join([(b"a b", CASE_D_BYTES), (b"\xff", b"")])
        ran = self.run_day("unpack", "--many", "-", input=data)
        self.assertEqual(ran.stdout.decode(), f"day a b\n{UNPACKED}\nday hex:ff\n# an empty file\nbytes\n")
        self.assertEqual(self.run_day("pack", "--many", "-", input=ran.stdout).stdout, data)
        self.put("cut", data[:-1])
        said = "day: cut: cut off: the name of day 1 at byte 543 has 0 bytes of 1"
        self.fails(self.run_day("unpack", "--many", "cut"), 1, said)

    def test_inputs(self):
        ran = self.run_day("pack", "--inputs", "-", input=b"day a\nbytes\nbuffer 2 3\nlength 0\n1 tick\n")
        self.assertEqual(ran.stdout, bytes.fromhex("00000001 00000000 00000001 61 00000000 00000002 03"))
        self.assertEqual(self.run_day("unpack", "--inputs", "-", input=b"").returncode, 2)

    def test_mistakes_leave_what_was_there(self):
        self.put("bad.day", b"1 tick\n1 tick tock\n\n5 cut now\n")
        self.put("out", b"before")
        ran = self.run_day("pack", "bad.day", "-o", "out")
        said = "expected but, or the line's end, found"
        self.fails(ran, 1, f'bad.day:2:8: {said} "tock"', f'bad.day:4:7: {said} "now"')
        self.assertEqual(self.got("out"), b"before")
        self.assertEqual(sorted(os.listdir(self.folder)), ["bad.day", "d.day", "out"])
        self.assertEqual(self.run_day("pack", "bad.day").stdout, b"")

    def test_text_that_is_not_utf8(self):
        self.fails(self.run_day("pack", "-", input=b"1 tick\n# \xc3\xa4\xff"), 1, "standard input:2:4: not UTF-8: byte ff")

    def test_files_that_are_not_there(self):
        self.fails(self.run_day("pack", "no.day"), 1, "day: can't read no.day: No such file or directory")
        self.fails(self.run_day("unpack", "."), 1, "day: can't read .: Is a directory")
        self.fails(self.run_day("pack", "d.day", "-o", "no/d"), 1, "day: can't write no/d: No such file or directory")
        self.fails(self.run_day("pack", "d.day", "-o", "."), 1, "day: can't write .: Is a directory")

    def test_wrong_usage(self):
        for words in ((), ("pak", "d.day"), ("pack",), ("pack", "d.day", "e.day"), ("unpack", "--all", "d.day")):
            self.assertEqual(self.run_day(*words).returncode, 2, words)

    def test_help_has_an_example(self):
        ran = self.run_day("--help")
        self.assertEqual(ran.returncode, 0)
        self.assertIn(b"tools/day pack small.day -o small.bin", ran.stdout)

    def test_bytes_are_not_written_to_a_terminal(self):
        ours, theirs = pty.openpty()
        ran = self.run_day("pack", "d.day", stdout=theirs)
        os.close(theirs)
        os.close(ours)
        self.fails(ran, 1, "day: a day file isn't written to a terminal: use -o OUT, or a pipe")

    def test_a_closed_pipe_ends_quietly(self):
        self.put("long", bytes(300_000))
        reading, writing = os.pipe()
        os.close(reading)
        ran = self.run_day("unpack", "long", stdout=writing)
        os.close(writing)
        self.assertEqual(ran.stderr, b"")

    @unittest.skipUnless(os.path.exists("/dev/full"), "no full device here")
    def test_a_full_device(self):
        with open("/dev/full", "wb") as full:
            ran = self.run_day("pack", "d.day", stdout=full)
        self.fails(ran, 1, "day: can't write to standard output: No space left on device")
        self.fails(
            self.run_day("pack", "d.day", "-o", "/dev/full"), 1, "day: can't write /dev/full: No space left on device"
        )

    def test_a_device_is_not_replaced(self):
        self.fails(self.run_day("pack", "d.day", "-o", os.devnull), 0)
        self.assertFalse(os.path.isfile(os.devnull))


if __name__ == "__main__":
    unittest.main()
