"""Two payers number their orders from 1 (02, slip 6): wherever an order is named, it is told whose it is."""

import re
import subprocess
import unittest

from tests import scenes
from tests.pages import DAYS, PAGES, READ, InBrowser, Parts, html_of, leads_of, rows_of, words_of
from zolfigar import audit, history, journal, telling, terminal
from zolfigar.page import head, orders, participants, tickets
from zolfigar.page.view import View

OF_A, OF_B = "order 0 (1 of AAAALV22)", "order 1 (1 of BBBBLV22)"
PLAIN = terminal.Style(False)
BOTH = "no order with this payer and TxId is held: this TxId is of AAAALV22, BBBBLV22"


class Seen(unittest.TestCase):
    """Payer and TxId together name an order."""

    def setUp(self):
        self.day = scenes.numbered_day()

    def test_tickets_name_the_order_of_their_payer(self):
        named = {2: 0, 3: 1, 4: 0, 5: 0, 6: 1, 7: 0, 8: 1, 9: None, 10: 1, 11: None, 12: 0, 13: 0, 14: 2, 15: 2}
        self.assertEqual({event.number: event.order for event in self.day.events[2:]}, named)

    def test_each_order_has_its_own_events(self):
        found = [[event.number for event in order.events] for order in self.day.orders]
        self.assertEqual(found, [[2, 4, 5, 7, 12, 13], [3, 6, 8, 10], [14, 15]])
        self.assertEqual([telling.status(order) for order in self.day.orders], ["returned", "refused", "settled"])

    def test_names(self):
        self.assertEqual([order.name for order in self.day.orders], ["1 of AAAALV22", "1 of BBBBLV22", "2"])
        self.assertEqual([telling.order_name(self.day, n) for n in range(4)], [OF_A, OF_B, "order 2 (2)", "order 3"])

    def test_one_payer_needs_no_name(self):
        """Where a wrong output accepts a payer's TxId twice, both orders are the same payer's."""
        order = (f"0 order 1 from AAAALV22 to BBBBLV22 EUR 1.00 {scenes.IBAN}", 0)
        day = history.read("twice", *scenes.stepped((*order, "1 1 0 100"), (*order, "1 1 1 100")))
        self.assertEqual([(order.name, order.shares) for order in day.orders], [("1", False)] * 2)
        self.assertIn(
            "ticket 1 was accepted, and order 0 (1) has its payer and TxId: 13 turns that back", audit.problems(day)
        )

    def test_a_payer_that_is_no_bic(self):
        """Of an output that takes it for good, as it stands in the ticket."""
        name = lambda bic: history.read("odd", *odd(bic)).orders[0].name
        self.assertEqual(name("but sender hex:ff"), "1 of hex:ff")
        self.assertEqual(name("but sender empty"), "1 of nobody")
        self.assertEqual(name("but sender AAAALV22ABC"), "1 of AAAALV22ABC")

    def test_the_keys_are_payer_and_txid_and_not_one_behind_the_other(self):
        """A shorter BIC and a longer TxId that join to the same bytes are another pair."""
        file, text = scenes.stepped(
            (f"0 order X1 to BBBBLV22 EUR 1.00 {scenes.IBAN} but sender AAAALV22XX", 0, "1 1 0 100"),
            (f"0 order 1 to BBBBLV22 EUR 1.00 {scenes.IBAN} but sender AAAALV22XXX", 0, "1 1 1 100"),
            ("1 answer X1 yes from BBBBLV22 but payer AAAALV22XX", 0),
            ("1 answer 1 yes from BBBBLV22 but payer AAAALV22XXX", 0),
        )
        day = history.read("joined", file, text)
        self.assertEqual([event.order for event in day.events], [0, 1, 0, 1])
        self.assertEqual([order.shares for order in day.orders], [False, False])


def odd(words):
    order = f"order 1 from AAAALV22 to BBBBLV22 EUR 1.00 {scenes.IBAN}"
    return scenes.stepped((f"0 {order} {words}", 0, "1 1 0 100"), (f"0 {order}", 0, "1 1 1 100"))


class Told(unittest.TestCase):
    def setUp(self):
        self.day = scenes.numbered_day()

    def test_refusals(self):
        told = {event.number: telling.outcome(self.day, event) for event in self.day.events if event.refusal}
        due = {
            4: "turned back, 13 AM05: an order with this payer and TxId is already held",
            9: f"turned back, 16 AG09: {BOTH}",
            10: "turned back, 17 XT87: the sender is the wrong party",
            11: f"turned back, 16 AG09: {BOTH}",
        }
        self.assertEqual(told, due)

    def test_orders_that_came_later_are_not_told(self):
        step = ("07:59:00 inquiry 1 from CCCCLV22", 16)
        file, text = scenes.stepped(step, *scenes.NUMBERED[:3], closed=(), banks=scenes.THREE)
        day = history.read("early", file, text)
        self.assertEqual(
            telling.outcome(day, day.events[0]), "turned back, 16 AG09: no order with this payer and TxId is held"
        )

    def test_reports_and_moves(self):
        report = telling.report(self.day, self.day.events[8].reports[0])
        self.assertEqual(report, f"to BBBBLV22: the order is refused by the payee (3), {OF_B}, EUR 100.00")
        told = [telling.move(self.day, move) for move, _ in self.day.statement(2)]
        due = [f"{OF_A} settled, from AAAALV22", f"{OF_A} returned, to AAAALV22: 399.00 of 400.00, charge 1.00"]
        self.assertEqual(told, due)


class OnTheTerminal(unittest.TestCase):
    def shown(self, **what):
        day = scenes.numbered_day()
        return list(terminal.lines(day, audit.problems(day), PLAIN, **what))

    def test_no_order_is_named_by_its_txid_alone(self):
        lines = self.shown()
        self.assertEqual(lines[1], "Everything adds up: every cover, every wait, every ending.")
        named = [name for line in lines for name in re.findall(r"order [01](?! from)[^,:]*", line)]
        self.assertEqual(len(named), 16)
        for name in named:
            self.assertTrue(name.startswith((OF_A, OF_B)), name)
        self.assertIn(f"  08:00:11       6  {OF_B} refused by CCCCLV22, freed  (100.00)     500.00      0.00  0.00", lines)
        self.assertIn("      1  1     BBBBLV22  CCCCLV22  100.00  08:00:06  refused" + " " * 45 + "6    5 s", lines)

    def test_one_order_is_followed(self):
        day = scenes.numbered_day()
        for order, others in ((day.orders[0], OF_B), (day.orders[1], OF_A)):
            lines = self.shown(order=order)
            numbers = [int(line.split()[0]) for line in lines if re.match(r" +\d+ +\d\d:\d\d:\d\d  [a-z]", line)]
            self.assertEqual(numbers, [event.number for event in order.events])
            self.assertNotIn(others, "\n".join(lines))


class InTheJournal(unittest.TestCase):
    def test_entries(self):
        entries = journal.journal(scenes.numbered_day())
        self.assertIn(f"(3) BBBBLV22 | {OF_B} reserved, for CCCCLV22  ;", entries)
        self.assertIn(f"(5) AAAALV22 | {OF_A} settled, to CCCCLV22  ;", entries)
        self.assertIn("(14) AAAALV22 | order 2 (2) reserved, for AAAALV22  ;", entries)
        named = re.findall(r"order [01] .*?(?= reserved| settled| refused| returned)", entries)
        self.assertEqual(sorted(named), [OF_A] * 3 + [OF_B] * 2)

    def test_hledger_adds_it_up(self):
        command = ["hledger", "-f", "-", "check", "--strict"]
        ran = subprocess.run(
            command, input=journal.journal(scenes.numbered_day()), capture_output=True, text=True, check=False
        )
        self.assertEqual((ran.returncode, ran.stderr), (0, ""))


class OnThePage(unittest.TestCase):
    def setUp(self):
        self.view = View(scenes.numbered_day())

    def test_the_orders(self):
        rows = rows_of(orders.orders(self.view).find("table"))[1:]
        self.assertEqual(
            [row[:4] for row in rows[:2]], [["0", "1", "AAAALV22", "CCCCLV22"], ["1", "1", "BBBBLV22", "CCCCLV22"]]
        )

    def test_a_ticket_leads_to_its_own_order(self):
        for number, order, name in ((5, 0, OF_A), (6, 1, OF_B), (7, 0, OF_A), (8, 1, OF_B)):
            row = tickets.ticket_row(self.view, self.view.day.events[number])
            leads = leads_of(row)
            self.assertIn((f"order {order}", f"#o{order}"), leads)
            self.assertIn((name, f"#o{order}"), leads)
            self.assertNotIn(f"#o{1 - order}", [href for _, href in leads])
        for number in (9, 11):
            row = tickets.ticket_row(self.view, self.view.day.events[number])
            self.assertEqual([href for _, href in leads_of(row) if href.startswith("#o")], [])
            self.assertIn(BOTH, words_of(row))

    def test_statements_lead_to_the_order(self):
        found = leads_of(participants.statement(self.view, 1))
        self.assertEqual([lead for lead in found if lead[1].startswith("#o")], [(OF_B, "#o1")] * 2)

    def test_ids_are_one_of_each(self):
        parts = READ["numbered"]
        self.assertEqual(len(parts.ids), len(set(parts.ids)))
        self.assertLessEqual({"o0", "o1", "o2"}, set(parts.ids))
        self.assertLessEqual({lead[1:] for lead in parts.leads if re.match(r"#[otpm]\d", lead)}, set(parts.ids))

    def test_a_problem_leads_to_the_order_that_it_names(self):
        text = scenes.changed(scenes.numbered()[1], "T 10 17 0 0", "T 10 16 0 0")
        day = scenes.numbered_day(text)
        (problem,) = audit.problems(day)
        self.assertEqual(leads_of(*head.linked(day, head.targets(day), problem)), [("10", "#t10"), (OF_B, "#o1")])
        self.assertIn(problem, Parts(html_of(("numbered", scenes.numbered()[0], text))).text)

    def test_the_page_is_of_the_right_day(self):
        self.assertEqual(PAGES["numbered"], html_of(DAYS["numbered"]))


class InABrowser(InBrowser):
    def test_the_filter_tells_payers_apart(self):
        """The text of a ticket has the payer that it names, so both can be looked for together."""
        self.open("numbered")
        shown = "[...document.querySelectorAll('.tickets tbody tr')].filter(row => row.checkVisibility()).map(row => row.id)"
        write = "document.getElementById('text').value = {!r}; document.getElementById('filter').dispatchEvent(new Event('input'))"
        for words, due in (
            ("1 of bbbb", ["t3", "t6", "t8", "t10"]),
            ("1 of aaaa", ["t2", "t5", "t7", "t12", "t13"]),
            ("1 of zzzz", ["t11"]),
        ):
            self.js(write.format(words))
            self.assertEqual(self.js(shown), due)

    def test_a_link_goes_to_its_own_order(self):
        for number, payer in ((0, "AAAALV22"), (1, "BBBBLV22")):
            self.open("numbered", f"#o{number}")
            found = self.js("[...document.querySelector('.current').cells].slice(0, 3).map(cell => cell.textContent)")
            self.assertEqual(found, [str(number), "1", payer])


if __name__ == "__main__":
    unittest.main()
