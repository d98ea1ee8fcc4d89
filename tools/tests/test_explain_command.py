"""The command tools/explain, run as its users run it."""

import os
import pty
import subprocess
import tempfile
import unittest

from tests import scenes
from zolfigar import files

EXPLAIN = os.path.join(scenes.ROOT, "tools", "explain")


class Command(unittest.TestCase):
    folder: "tempfile.TemporaryDirectory[str]"

    @classmethod
    def setUpClass(cls):
        cls.folder = tempfile.TemporaryDirectory()
        cls.addClassCleanup(cls.folder.cleanup)
        for name in ("busy", "case-d", "refused-2"):
            files.write(cls.path(name + ".bin"), scenes.day_file(name))
            files.write(cls.path(name + ".out"), scenes.output(name).encode())
        other = scenes.changed(scenes.output("case-d"), "C 0 600 0 0", "C 0 601 0 0")
        files.write(cls.path("tampered.out"), other.encode())

    @classmethod
    def path(cls, name):
        return os.path.join(cls.folder.name, name)

    def explain(self, day, output, *words, **how):
        command = [EXPLAIN, self.path(day), self.path(output), *words]
        return subprocess.run(command, capture_output=True, text=True, check=False, **how)

    def test_a_day_that_adds_up(self):
        ran = self.explain("case-d.bin", "case-d.out")
        self.assertEqual((ran.returncode, ran.stderr), (0, ""))
        self.assertIn("6.00 available + 0.00 reserved + 0.00 held = 6.00, the program's line C 0", ran.stdout)
        self.assertNotIn("\x1b", ran.stdout)

    def test_a_day_as_text(self):
        for name in ("case-d.day", "case-d.txt"):
            files.write(self.path(name), scenes.content("examples", "case-d.day"))
            ran = self.explain(name, "case-d.out")
            self.assertEqual((ran.returncode, ran.stderr), (0, ""))
            self.assertIn("Everything adds up", ran.stdout)
        files.write(self.path("slip.txt"), b"1 tick tock\n")
        ran = self.explain("slip.txt", "case-d.out")
        said = f"{self.path('slip.txt')}:1:8: expected but, or the line's end, found \"tock\"\n"
        self.assertEqual((ran.returncode, ran.stdout, ran.stderr), (1, "", said))

    def test_a_day_that_does_not(self):
        ran = self.explain("case-d.bin", "tampered.out")
        self.assertEqual(ran.returncode, 1)
        self.assertIn("AAAALV22XXX: available adds up to 6.00, and the output closes it at 6.01", ran.stdout)

    def test_an_order_of_a_day_that_does_not(self):
        ran = self.explain("case-d.bin", "tampered.out", "--order", "TX1")
        self.assertEqual(ran.returncode, 1)
        self.assertIn("available adds up to 6.00, and the output closes it at 6.01", ran.stdout)
        self.assertNotIn("adds up", self.explain("case-d.bin", "case-d.out", "--order", "TX1").stdout)

    def test_the_output_of_another_day(self):
        self.assertEqual(self.explain("case-d.bin", "busy.out").returncode, 1)

    def test_late_recalls(self):
        """As the program turns them back, and as if a recall had still counted."""
        file, output = scenes.late()
        counted = scenes.changed(output, "T 7 26 0 0", "T 7 0 1 0\nR 1 5 0 40000")
        for name, data in (("late.bin", file), ("recalls.out", output.encode()), ("counted.out", counted.encode())):
            files.write(self.path(name), data)
        ran = self.explain("late.bin", "recalls.out", "--order", "TX1")
        self.assertEqual((ran.returncode, ran.stderr), (0, ""))
        self.assertEqual(ran.stdout.count("too late: settled at 00:00:24, the last moment was 240:00:23"), 2)
        for words in ((), ("--order", "TX1"), ("--journal", "-")):
            ran = self.explain("late.bin", "counted.out", *words)
            self.assertEqual(ran.returncode, 1)
            told = (
                "ticket 7 was accepted, and recalls order 0 (TX1) 864,001 seconds after its settlement: 26 turns that back"
            )
            self.assertIn(told, ran.stderr if "--journal" in words else ran.stdout)

    def test_a_refused_file(self):
        ran = self.explain("refused-2.bin", "refused-2.out")
        self.assertEqual(ran.returncode, 0)
        self.assertIn("the day file is refused by 2", ran.stdout)

    def test_a_refusal_that_does_not_fit_the_file(self):
        for line in ("F 0", "F 1", "F 7", "F 99"):
            files.write(self.path("other.out"), f"{line}\n".encode())
            ran = self.explain("case-d.bin", "other.out")
            self.assertEqual((ran.returncode, ran.stderr), (1, ""), line)
            self.assertIn(f"the output refuses the file by {line[2:]}, and ", ran.stdout)

    def test_a_day_of_a_file_that_its_header_refuses(self):
        ran = self.explain("refused-2.bin", "case-d.out")
        self.assertEqual(ran.returncode, 1)
        self.assertIn("tickets above 512, and the output doesn't refuse it", ran.stdout)

    def test_page_and_journal(self):
        page, journal = self.path("day.html"), self.path("day.journal")
        ran = self.explain("busy.bin", "busy.out", "--page", page, "--journal", journal, "--date", "2026-11-15")
        self.assertEqual((ran.returncode, ran.stdout, ran.stderr), (0, "", ""))
        self.assertTrue(files.read(page).startswith(b"<!DOCTYPE html>"))
        self.assertIn(b"2026-11-15 * (0) AAAALV22 | cover in", files.read(journal))

    def test_a_page_of_a_day_that_does_not_add_up(self):
        ran = self.explain("case-d.bin", "tampered.out", "--journal", "-")
        self.assertEqual(ran.returncode, 1)
        self.assertIn("One thing doesn't add up", ran.stderr)

    def test_followed(self):
        self.assertIn("Cover of CCCCLT2X", self.explain("busy.bin", "busy.out", "--member", "CCCCLT2X").stdout)
        self.assertIn("order 0 SALARY-1 returned", self.explain("busy.bin", "busy.out", "--order", "SALARY-1").stdout)

    def test_an_order_of_one_of_several_payers(self):
        """--of says which is meant; where one payer alone has the TxId it may be left out."""
        file, output = scenes.numbered()
        files.write(self.path("numbered.bin"), file)
        files.write(self.path("numbered.out"), output.encode())
        explain = lambda *words: self.explain("numbered.bin", "numbered.out", *words)
        those = "explain: the TxId 1 is of AAAALV22, BBBBLV22"
        of_a, of_b = "order 0 (1 of AAAALV22)", "order 1 (1 of BBBBLV22)"
        for bic, own, other in (("AAAALV22", of_a, of_b), ("BBBBLV22", of_b, of_a), ("BBBBLV22XXX", of_b, of_a)):
            ran = explain("--order", "1", "--of", bic)
            self.assertEqual((ran.returncode, ran.stderr, own in ran.stdout, other in ran.stdout), (0, "", True, False))
        for words in (("--order", "2"), ("--order", "2", "--of", "AAAALV22")):
            self.assertIn("order 2 (2) reserved, for AAAALV22", explain(*words).stdout)
        for words, said in {
            ("--order", "1"): f"{those}: --of says which is meant\n",
            ("--order", "1", "--of", "CCCCLV22"): f"{those}, and no order with it was accepted of CCCCLV22\n",
            ("--order", "1", "--of", "\x1b"): f"{those}, and no order with it was accepted of \\x1b\n",
            (
                "--order",
                "2",
                "--of",
                "BBBBLV22",
            ): "explain: the TxId 2 is of AAAALV22, and no order with it was accepted of BBBBLV22\n",
            ("--order", "3", "--of", "AAAALV22"): "explain: no order with the TxId 3 was accepted on this day\n",
        }.items():
            ran = explain(*words)
            self.assertEqual((ran.returncode, ran.stdout, ran.stderr), (1, "", said))
        for words in (("--of", "AAAALV22"), ("--member", "AAAALV22", "--of", "AAAALV22")):
            ran = explain(*words)
            said = "explain: error: --of is the payer of an order, and there is no --order"
            self.assertEqual((ran.returncode, ran.stderr.splitlines()[-1]), (2, said))

    def test_clear_errors(self):
        cases = {
            ("--member", "ZZZZLV22"): "explain: ZZZZLV22 is no participant of this day: AAAALV22XXX, BBBBLV22XXX\n",
            ("--order", "TX9"): "explain: no order with the TxId TX9 was accepted on this day\n",
        }
        for words, said in cases.items():
            ran = self.explain("case-d.bin", "case-d.out", *words)
            self.assertEqual((ran.returncode, ran.stdout, ran.stderr), (1, "", said))
        ran = self.explain("none.bin", "case-d.out")
        said = f"explain: can't read {self.path('none.bin')}: No such file or directory\n"
        self.assertEqual((ran.returncode, ran.stderr), (1, said))
        self.assertEqual(subprocess.run([EXPLAIN], capture_output=True, check=False).returncode, 2)

    def test_colour_on_a_terminal(self):
        """A terminal gets colour, unless NO_COLOR is set."""
        for more, coloured in (({}, True), ({"NO_COLOR": "1"}, False)):
            main, other = pty.openpty()
            command = [EXPLAIN, self.path("case-d.bin"), self.path("case-d.out")]
            environment = {k: v for k, v in os.environ.items() if k != "NO_COLOR"} | more
            ran = subprocess.Popen(command, stdout=other, stderr=subprocess.DEVNULL, env=environment)
            os.close(other)
            shown = b""
            try:
                while part := os.read(main, 65536):
                    shown += part
            except OSError:
                pass
            os.close(main)
            self.assertEqual(ran.wait(), 0)
            self.assertEqual(b"\x1b[32m" in shown, coloured)

    def test_streams_that_are_closed(self):
        busy = f"{EXPLAIN} {self.path('busy.bin')}"
        cases = {
            f"{busy} - <&-": (1, "explain: standard input is closed\n"),
            f"{busy} {self.path('busy.out')} >&-": (1, "explain: standard output is closed\n"),
            f"{busy} {self.path('busy.out')} >&- <&- 2>&-": (1, ""),
            f"{busy} {self.path('busy.out')} --page {self.path('closed.html')} >&- <&-": (0, ""),
            f"{busy} {self.path('busy.out')} --journal - >&-": (1, "explain: standard output is closed\n"),
        }
        for shell, due in cases.items():
            ran = subprocess.run(["sh", "-c", shell], capture_output=True, text=True, check=False)
            self.assertEqual((ran.returncode, ran.stderr), due, shell)

    def test_dates(self):
        out = self.path("dates.journal")
        for date in ("15.11.2026", "20261115", "2026-02-30", "2026-11-15T00:00", "", "٢٠٢٦-١١-١٥"):
            ran = self.explain("case-d.bin", "case-d.out", "--journal", out, "--date", date)
            said = f'explain: error: argument --date: expected a date like 2026-11-15, found "{date}"'
            self.assertEqual((ran.returncode, ran.stderr.splitlines()[-1]), (2, said))
        ran = self.explain("case-d.bin", "case-d.out", "--date", "2026-11-15")
        said = "explain: error: --date is the journal's, and there is no --journal"
        self.assertEqual((ran.returncode, ran.stderr.splitlines()[-1]), (2, said))

    def test_a_day_past_the_last_date(self):
        files.write(self.path("late.day"), b"participant AAAALV22 bank\n24:00:00 cover-in from AAAALV22 EUR 10.00\n")
        files.write(self.path("late.out"), b"T 0 0 0 0\nC 0 1000 0 0\n")
        for date, status in (("9999-12-30", 0), ("9999-12-31", 1)):
            ran = self.explain("late.day", "late.out", "--journal", "-", "--date", date)
            said = "explain: the journal has no date for 24:00:00 where second 0 is on 9999-12-31: no date is later than 9999-12-31\n"
            self.assertEqual((ran.returncode, ran.stderr), (status, said if status else ""))

    def test_names_that_can_not_be_printed(self):
        """On the terminal, in the journal's comment, on the page and in every message: by their numbers."""
        name = os.fsdecode(b"a\n2000-01-01 x\x1b[31m\xff")
        shown = "a\\n2000-01-01 x\\x1b[31m\\xff"
        files.write(self.path(name), scenes.day_file("case-d"))
        ran = self.explain(name, "case-d.out")
        self.assertEqual((ran.returncode, ran.stderr), (0, ""))
        self.assertTrue(ran.stdout.startswith(shown + ": 4 tickets"))
        ran = self.explain(name, "case-d.out", "--journal", "-", "--page", self.path("named.html"))
        self.assertTrue(ran.stdout.startswith(f"; {shown}: 4 tickets"))
        self.assertIn(shown.encode(), files.read(self.path("named.html")))
        cases = {
            (name + "0", "case-d.out"): f"explain: can't read {self.path(shown)}0: No such file or directory",
            ("case-d.bin", name): f"explain: can't read {self.path(shown)}: Is a directory",
            ("case-d.bin", "case-d.out", "--member", name): f"explain: {shown} is no participant of this day: "
            "AAAALV22XXX, BBBBLV22XXX",
            (
                "case-d.bin",
                "case-d.out",
                "--order",
                name,
            ): f"explain: no order with the TxId {shown} was accepted on this day",
            ("case-d.bin", "case-d.out", "--" + name): f"explain: error: unrecognized arguments: --{shown}",
            ("case-d.bin", "case-d.out", "--page", f"{name}/a/b"): f"explain: can't write {shown}/a/b: "
            "No such file or directory",
        }
        os.remove(self.path(name))
        os.mkdir(self.path(name))
        for words, said in cases.items():
            self.assertEqual(self.explain(*words).stderr.splitlines()[-1:], [said])
        os.rmdir(self.path(name))
        files.write(self.path(name), b"1 tick tock\n")
        said = f'{self.path(shown)}:1:8: expected but, or the line\'s end, found "tock"\n'
        self.assertEqual(self.explain(name, "case-d.out").stderr, said)

    def test_a_closed_pipe(self):
        shell = f"{EXPLAIN} {self.path('busy.bin')} {self.path('busy.out')} | head -1"
        ran = subprocess.run(["sh", "-c", shell], capture_output=True, text=True, check=False)
        self.assertEqual((ran.stdout.count("\n"), ran.stderr), (1, ""))


if __name__ == "__main__":
    unittest.main()
