"""The journal, read by hledger: its balances are the program's closing positions, and an altered entry is noticed.

hledger has to be there: where it isn't, these tests fail."""

import csv
import datetime
import io
import re
import subprocess
import unittest

from tests import scenes
from zolfigar import history, journal, packing, telling


def hledger(text, *words):
    return subprocess.run(["hledger", "-f", "-", *words], input=text, capture_output=True, text=True, check=False)


def balances(text):
    """Account names with their cents, as hledger has them."""
    ran = hledger(text, "balance", "--flat", "--empty", "--no-total", "-O", "csv")
    if ran.returncode:
        raise AssertionError(ran.stderr)
    found = {}
    for account, amount in list(csv.reader(io.StringIO(ran.stdout)))[1:]:
        [(whole, cents)] = re.findall(r"\A(?:EUR )?(-?\d+)(?:\.(\d\d))?\Z", amount)
        found[account] = int(whole + (cents or "00"))
    return found


def closed(name):
    """Account names with their cents, as the C lines of the output have them."""
    lines = [line.split() for line in scenes.output(name).splitlines() if line.startswith("C ")]
    bics = {p.number: p.bic for p in scenes.day(name).participants}
    parts = ("available", "reserved", "held")
    return {f"cover:{bics[int(n)]}:{part}": int(cents) for _, n, *amounts in lines for part, cents in zip(parts, amounts)}


class Hledger(unittest.TestCase):
    def test_balances_are_the_closing_positions(self):
        for name in scenes.RUNNING:
            with self.subTest(name):
                found = balances(journal.journal(scenes.day(name)))
                self.assertEqual({a: c for a, c in found.items() if a.startswith("cover:")}, closed(name))
                self.assertEqual(sum(found.values()), 0)

    def test_checked_strictly(self):
        for name in scenes.RUNNING:
            ran = hledger(journal.journal(scenes.day(name)), "check", "--strict", "ordereddates")
            self.assertEqual((ran.returncode, ran.stderr), (0, ""), name)

    def test_what_is_returned_and_what_is_kept(self):
        """A cent of an order, all but a cent, the whole; of one who pays itself nothing moves in sum."""
        for back in (1, 39999, 40000):
            kept = 40000 - back
            for to, covers in ((1, (100000 - kept, kept)), (0, (100000, 0))):
                found = balances(journal.journal(scenes.returned_day(back, to)))
                self.assertEqual([found[f"cover:{bic}XXX:available"] for bic in ("AAAALV22", "BBBBLV22")], [*covers])

    def test_an_altered_entry(self):
        """Both sides of one entry by a cent, one side alone, the closing position: hledger refuses each."""
        text = journal.journal(scenes.day("busy"))
        one_side = text.replace("EUR 40.00\n", "EUR 40.01\n", 1)
        both = one_side.replace("EUR -40.00\n", "EUR -40.01\n", 1)
        position = text.replace("= EUR 987.66", "= EUR 987.67")
        for altered, said in ((one_side, "balance"), (both, "assertion"), (position, "assertion")):
            self.assertNotEqual(altered, text)
            ran = hledger(altered, "balance")
            self.assertNotEqual(ran.returncode, 0)
            self.assertIn(said, ran.stderr)

    def test_a_tampered_output(self):
        other = scenes.changed(scenes.output("busy"), "C 3 8000 0 0", "C 3 8001 0 0")
        self.assertIn("assertion", hledger(journal.journal(scenes.day("busy", other)), "balance").stderr)


class Entries(unittest.TestCase):
    def test_an_entry(self):
        day = scenes.day("case-d")
        entries = journal.journal(day, datetime.date(2026, 11, 15)).split("\n\n")
        due = "2026-11-15 * (2) AAAALV22 | order 0 TX1 settled, to BBBBLV22  ; time: 00:00:24\n"
        due += "    cover:AAAALV22XXX:reserved                               EUR -4.00\n"
        due += "    cover:BBBBLV22XXX:available                               EUR 4.00"
        self.assertEqual(entries[-2], due)

    def test_a_part_returned(self):
        """The entry has the returned amount, and says what was kept; that of a whole return has no more words."""
        entries = journal.journal(scenes.day("part-return")).split("\n\n")
        part = "2000-01-01 * (4) BBBBLV22 | order 0 TX1 returned, to AAAALV22: "
        part += "399.00 of 400.00, charge 1.00  ; time: 09:10:00\n"
        part += "    cover:BBBBLV22XXX:available                            EUR -399.00\n"
        part += "    cover:AAAALV22XXX:available                             EUR 399.00"
        whole = "2000-01-01 * (11) BBBBLV22 | order 1 TX2 returned, to AAAALV22  ; time: 10:40:10\n"
        whole += "    cover:BBBBLV22XXX:available                            EUR -100.00\n"
        whole += "    cover:AAAALV22XXX:available                             EUR 100.00"
        self.assertEqual([entry for entry in entries if " returned, " in entry], [part, whole])

    def test_a_late_recall_moves_nothing(self):
        """Of its ticket there is what expired then alone; dates go on, and hledger finds the closing positions."""
        text = journal.journal(scenes.late_day())
        entries = [entry.split("\n")[0] for entry in text.split("\n\n")]
        due = [
            "2000-01-11 * (5) AAAALV22 | order 2 TX3 reserved, for BBBBLV22  ; time: 00:00:04",
            "2000-01-11 * (6) AAAALV22 | order 2 TX3 expired, freed  ; time: 00:00:24",
            "2000-01-21 * (10) BBBBLV22 | order 1 TX2 returned, to AAAALV22: 99.00 of 100.00, charge 1.00  ; time: 00:00:29",
        ]
        self.assertEqual(entries[-4:-1], due)
        found = balances(text)
        self.assertEqual([found[f"cover:{bic}XXX:available"] for bic in ("AAAALV22", "BBBBLV22")], [59900, 40100])

    def test_dates_go_on_behind_midnight(self):
        self.assertEqual(journal.date_of(journal.DATE, 86399), "2000-01-01")
        self.assertEqual(journal.date_of(journal.DATE, 86400), "2000-01-02")
        self.assertEqual(journal.date_of(journal.DATE, 2**32 - 1), "2136-02-07")

    def test_a_refused_file(self):
        self.assertEqual(balances(journal.journal(scenes.day("refused-3"))), {})


class Refused(unittest.TestCase):
    def test_it_says_so(self):
        """In its head and as an entry, which hledger prints: it is no day without tickets."""
        for name in scenes.REFUSED:
            text = journal.journal(scenes.day(name), datetime.date(2026, 11, 15))
            said = f"the day file is refused by {telling.refusal(int(name[-1]))}"
            self.assertTrue(text.startswith(f"; {name}: {said}\n; No ticket was looked at, and there is no cover.\n"))
            self.assertNotIn("0 tickets", text)
            printed = hledger(text, "print")
            self.assertEqual((printed.returncode, printed.stderr), (0, ""))
            self.assertEqual(printed.stdout.strip(), f"2026-11-15 ! {said}")
            self.assertEqual(hledger(text, "check", "--strict", "ordereddates").returncode, 0)

    def test_a_day_without_tickets_is_none(self):
        day = history.read("quiet", packing.pack("quiet", "participant AAAALV22 bank\n"), "C 0 0 0 0\n")
        self.assertNotIn("refused", journal.journal(day))


if __name__ == "__main__":
    unittest.main()
