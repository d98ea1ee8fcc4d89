"""The orders: the words of a row, and where its marks lead."""

import dataclasses
import unittest

from tests import pages, scenes
from tests.pages import DAYS, FOCUS, leads_of, words_of
from zolfigar import history
from zolfigar.page import lives, orders
from zolfigar.page.view import View

PART = "399.00 of 400.00, charge 1.00"


class Words(unittest.TestCase):
    def setUp(self):
        self.day = scenes.day("busy")
        self.orders = {order.txid: order for order in self.day.orders}

    def test_status(self):
        cases = {
            "SALARY-1": "settled after 4 s, returned",
            "INVOICE-3": "settled after 6 s, returned",
            "RENT-7": "refused after 10 s",
            "GIFT": "expired after 20 s",
            "IN-TIME": "settled after 19 s",
            "TO-FI-1": "settled after 120 s no 20 s limit: linked system",
            "TO-FI-3": "waiting no 20 s limit: linked system",
        }
        for txid, words in cases.items():
            self.assertEqual(words_of(*orders.status_words(self.day, self.orders[txid])), words)

    def test_returned_though_no_end_was_told(self):
        order = dataclasses.replace(self.orders["SALARY-1"], ended=None, code=None)
        self.assertEqual(words_of(*orders.status_words(self.day, order)), "returned")

    def test_a_part_returned(self):
        """What came back and what was kept, which leads to the return; of a whole return the word alone."""
        cases = {39900: PART, 1: "0.01 of 400.00, charge 399.99"}
        for back, part in cases.items():
            for to in (1, 0):
                day = scenes.returned_day(back, to)
                words = orders.status_words(day, day.orders[0])
                self.assertEqual(words_of(*words), f"settled after 4 s, returned {part}")
                self.assertEqual(leads_of(*words), [(part, "#t5")])
        whole = scenes.returned_day(40000)
        words = orders.status_words(whole, whole.orders[0])
        self.assertEqual((words_of(*words), leads_of(*words)), ("settled after 4 s, returned", []))

    def test_a_part_returned_though_no_end_was_told(self):
        day = scenes.day("part-return")
        order = dataclasses.replace(day.orders[0], ended=None, code=None)
        self.assertEqual(words_of(*orders.status_words(day, order)), f"returned {PART}")

    def test_a_late_recall(self):
        """The order stays settled, which leads to the first recall that came too late."""
        day, late = scenes.late_day(), "not recalled: too late"
        words = [orders.status_words(day, order) for order in day.orders]
        due = [
            f"settled after 19 s, {late}",
            "settled after 4 s, returned 99.00 of 100.00, charge 1.00",
            "expired after 20 s",
        ]
        self.assertEqual([words_of(*found) for found in words], due)
        self.assertEqual(leads_of(*words[0]), [(late, "#t6")])

    def test_a_late_recall_of_an_order_to_a_linked_system(self):
        late = ("2864000 recall TX1 FRAD from AAAALV22", 26)
        day = history.read("linked", *scenes.settled(late, at=2_000_000, ordered=5, kind="linked"))
        words = words_of(*orders.status_words(day, day.orders[0]))
        self.assertEqual(words, "settled after 1,999,995 s, not recalled: too late no 20 s limit: linked system")

    def test_payee(self):
        cases = {"SALARY-1": "BBBBLV22", "IN-TIME": "BBBBLV22 for BBBBLV22RIX", "TO-FI-1": "RTONFRPP for EEEEFIHH"}
        for txid, words in cases.items():
            self.assertEqual(words_of(*orders.payee_words(self.day, self.orders[txid])), words)

    def test_a_row(self):
        row = orders.order_row(View(self.day), self.orders["RENT-7"])
        words = ["1", "RENT-7", "BBBBLV22", "CCCCLT2X", "25.00", "refused after 10 s"]
        self.assertEqual([words_of(cell) for cell in row][:6], words)
        leads = ["#o1", "#t5", "#p1", "#p2", "#t5", "#t5", "#t6"]
        self.assertEqual([lead for _, lead in leads_of(row)], leads)

    def test_marks_without_room_are_behind_a_fold(self):
        view = View(history.read(*DAYS["big"]))
        cells = [orders.life_cell(view, order) for order in view.day.orders]
        at = next(n for n, cell in enumerate(cells) if cell.find("details") is not None)
        fold, events = cells[at].find("details"), view.day.orders[at].events
        assert fold is not None
        self.assertEqual(words_of(fold[0]), "2 marks more; all 7 tickets")
        self.assertEqual([lead for _, lead in leads_of(fold)], [f"#t{event.number}" for event in events])

    def test_the_legend_has_the_signs(self):
        self.assertEqual(len(list(orders.signs_legend().iter("svg"))), 2 * (len(lives.SIGNS) - 1))


class Seen(pages.InBrowser):
    def test_what_came_back_leads_to_the_return(self):
        for width in (1280, 360):
            self.browser.size(width, 900)
            self.open("part")
            self.assertEqual(self.texts("#o0 .status, #o0 .status + a"), ["settled", "returned", PART])
            self.browser.click("#o0 .status + a")
            self.assertEqual(self.js(FOCUS), "t4")

    def test_a_late_recall_is_told_and_leads_to_its_reason(self):
        for width in (1280, 360):
            self.browser.size(width, 900)
            self.open("late")
            self.assertEqual(self.texts("#o0 td:nth-child(6)"), ["settled after 19 s, not recalled: too late"])
            self.browser.click("#o0 .after + a")
            self.assertEqual(self.js(FOCUS), "t6")
            why = "26 XT86: the recall is too late: settled at 00:00:24, the last moment was 240:00:23"
            self.assertEqual(self.texts("#t6 .outcome"), [f"turned back, {why}"])

    def test_marks_lead_to_their_tickets(self):
        self.open("busy")
        self.browser.click("#o4 .sign.decline")
        self.assertEqual(self.js(FOCUS), "t25")
        self.assertIn("no 20 s limit", self.texts("#o5 td:nth-child(6)")[0])
        self.assertNotIn("no 20 s limit", self.texts("#o4 td:nth-child(6)")[0])


if __name__ == "__main__":
    unittest.main()
