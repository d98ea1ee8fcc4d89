"""The participants: the closing positions, the equation, the statement, and where their figures lead."""

import unittest

from tests import pages, scenes
from tests.pages import DAYS, FOCUS, cents, leads_of, printed, rows_of
from zolfigar import history
from zolfigar.page import participants
from zolfigar.page.view import View


class Parts(unittest.TestCase):
    def setUp(self):
        self.day = scenes.day("busy")
        self.view = View(self.day)

    def test_closing_positions(self):
        table = participants.closing(self.day)
        rows = rows_of(table)
        self.assertEqual(rows[1], ["AAAALV22", "bank", "1,000.00", "987.66", "12.34", "0.00", "1,000.00"])
        self.assertEqual(rows[5], ["RTONFRPP", "linked system", "none", "45.50", "0.00", "0.00", "45.50"])
        self.assertEqual(rows[6], ["All together", "", "", "1,778.16", "12.34", "0.00", "1,790.50"])
        leads = [("AAAALV22", "#p0"), ("987.66", "#t47"), ("12.34", "#t47"), ("0.00", "#t42")]
        self.assertEqual(leads_of(list(table.iter("tr"))[1]), leads)

    def test_a_position_that_is_not_in_the_output(self):
        day = scenes.day("case-d", scenes.changed(scenes.output("case-d"), "C 1 400 0 0", None))
        self.assertEqual(rows_of(participants.closing(day))[2], ["BBBBLV22", "bank", "none", "not in the output"])
        table = participants.equation(View(day), day.participants[1])
        self.assertEqual(rows_of(table)[-1], ["The output has no closing position", "", ""])

    def test_equation(self):
        table = participants.equation(self.view, self.day.participants[0])
        rows = rows_of(table)
        self.assertEqual(rows[0], ["Cover-ins", "ticket 0", "+1,500.00"])
        self.assertEqual(rows[3], ["Orders settled from it", "tickets 4, 12, 16, 39", "-180.50"])
        self.assertEqual(rows[4], ["Cover, added up", "", "1,000.00"])
        self.assertEqual(rows[5], ["As the output closes it: C 0 98766 1234 0"])
        self.assertEqual(rows[-1], ["Together", "the same", "1,000.00"])

    def test_statement(self):
        rows = rows_of(participants.statement(self.view, 0))
        self.assertEqual(rows[1], ["08:00:00", "0", "cover in", "available+1,500.00", "1,500.00", "0.00", "0.00"])
        changed = ["available-40.00reserved+40.00", "1,460.00", "40.00", "0.00"]
        self.assertEqual(rows[2], ["08:00:05", "3", "order 0 SALARY-1 reserved, for BBBBLV22", *changed])
        debit = rows_of(participants.statement(self.view, 1))
        self.assertIn(["open debit at the cut, 140.00 to be confirmed", "none"], [row[2:4] for row in debit])

    def test_a_part_returned(self):
        """Both parties' statements say what was kept."""
        view = View(scenes.day("part-return"))
        part = "399.00 of 400.00, charge 1.00"
        row = rows_of(participants.statement(view, 0))[4]
        figures = ["available+399.00", "999.00", "0.00", "0.00"]
        self.assertEqual(row, ["09:10:00", "4", f"order 0 TX1 returned, from BBBBLV22: {part}", *figures])
        row = rows_of(participants.statement(view, 1))[2]
        figures = ["available-399.00", "1.00", "0.00", "0.00"]
        self.assertEqual(row, ["09:10:00", "4", f"order 0 TX1 returned, to AAAALV22: {part}", *figures])

    def test_statements_are_open_on_a_small_day(self):
        for name, is_open in (("case D", True), ("busy", True), ("big", False)):
            view = View(history.read(*DAYS[name]))
            self.assertEqual(participants.statement(view, 0).get("open") is not None, is_open, name)


class Seen(pages.InBrowser):
    def test_equation_adds_up_to_the_cover(self):
        self.open("busy")
        amounts = "[...table.tBodies[0].rows].map(row => row.cells[2].textContent)"
        rows = self.js(f"[...document.querySelectorAll('.equation')].map(table => {amounts})")
        totals = [sum(position) for position in printed(DAYS["busy"][2])[2]]
        for (*terms, added), total in zip(rows, totals, strict=True):
            self.assertEqual((sum(cents(term.lstrip("+")) for term in terms), cents(added)), (total, total))
        self.assertEqual(set(self.texts(".closed .sum td:nth-child(2)")), {"the same"})

    def test_a_figure_of_a_statement_leads_to_its_ticket(self):
        self.open("busy")
        row = "#p0 .statement tbody tr:nth-child(15)"
        self.assertEqual([each.strip() for each in self.texts(f"{row} > *")][:2], ["19:05:05", "39"])
        cells = [f"{row} .change a", f"{row} .figure:nth-child(6) a", f"{row} .figure:nth-child(7) a"]
        for cell, ticket in zip(cells, ("t39", "t39", "t37")):
            self.open("busy")
            self.browser.click(cell)
            self.assertEqual(self.js(FOCUS), ticket, cell)

    def test_a_ticket_leads_to_its_line_and_unfolds_the_statement(self):
        self.open("big", "#t200")
        self.assertFalse(self.js("document.querySelector('#p0 details').open"))
        lead = self.js("document.querySelector('#t32 .moved a').getAttribute('href')")
        self.browser.click("#t32 .moved a")
        self.assertTrue(self.js(f"document.querySelector('{lead}').checkVisibility()"))
        self.assertEqual(self.texts(f"{lead} th"), ["32"])


if __name__ == "__main__":
    unittest.main()
