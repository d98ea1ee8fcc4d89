"""The tickets: the rows, the filter, the keys and the help."""

import unittest

from tests import pages, scenes
from tests.pages import COUNT, DAYS, FOCUS, SHOWN, printed, words_of
from zolfigar import history
from zolfigar.page import tickets
from zolfigar.page.view import View


class Rows(unittest.TestCase):
    def setUp(self):
        self.view = View(scenes.day("busy"))

    def row(self, number):
        return tickets.ticket_row(self.view, self.view.day.events[number])

    def test_a_row(self):
        row = self.row(10)
        self.assertEqual(
            [words_of(cell) for cell in row][:3], ["10", "08:01:20", "answer LATE of AAAALV22 yes from BBBBLV22 order 3"]
        )
        self.assertTrue(words_of(row[3]).startswith("turned back, 18 XT75: "))
        told = "the order has expired (4), order 3 LATE, EUR 60.00"
        self.assertEqual([words_of(item) for item in row[4].iter("li")], [f"to AAAALV22: {told}", f"to BBBBLV22: {told}"])
        self.assertEqual(words_of(row[5]), "AAAALV22: available +60.00, reserved -60.00")
        facts = {"id": "t10", "class": "turned", "data-kind": "answer", "data-members": "0 1", "data-reports": "2"}
        self.assertEqual(row.attrib, facts)

    def test_a_part_returned(self):
        """The return and the inquiry behind it tell the returned amount beside the order's."""
        view = View(scenes.day("part-return"))
        told = "to AAAALV22: the order is returned (6), order 0 TX1, EUR 399.00 of 400.00"
        for number in (4, 5):
            row = tickets.ticket_row(view, view.day.events[number])
            self.assertEqual([words_of(item) for item in row[4].iter("li")], [told])
        moved = [words_of(item) for item in tickets.ticket_row(view, view.day.events[4])[5].iter("li")]
        self.assertEqual(moved, ["BBBBLV22: available -399.00", "AAAALV22: available +399.00"])

    def test_a_late_recall(self):
        """It says why it was turned back, and what the clock's move brought; the payee, who isn't told, finds it too."""
        view = View(scenes.late_day())
        row = tickets.ticket_row(view, view.day.events[6])
        self.assertEqual(
            [words_of(cell) for cell in row][:3], ["6", "240:00:24", "recall TX1 of AAAALV22 FRAD from AAAALV22 order 0"]
        )
        why = "26 XT86: the recall is too late: settled at 00:00:24, the last moment was 240:00:23"
        self.assertEqual(words_of(row[3]), f"turned back, {why}")
        told = "the order has expired (4), order 2 TX3, EUR 50.00"
        self.assertEqual([words_of(item) for item in row[4].iter("li")], [f"to AAAALV22: {told}", f"to BBBBLV22: {told}"])
        second = tickets.ticket_row(view, view.day.events[7])
        self.assertEqual((words_of(second[3]), words_of(second[4])), (f"turned back, {why}", ""))
        self.assertEqual((second.get("class"), second.get("data-members")), ("turned", "0 1"))

    def test_an_open_debit_moves_nothing_and_is_told(self):
        moved = [words_of(item) for item in self.row(37)[5].iter("li")]
        self.assertEqual(moved[1:], ["BBBBLV22: open debit 140.00", "DDDDEE2X: available -150.00, held +150.00"])

    def test_many_reports_are_folded(self):
        view = View(history.read(*DAYS["big"]))
        for event in view.day.events:
            fold = tickets.ticket_row(view, event)[4].find("details")
            self.assertEqual(fold is not None, len(event.reports) > tickets.FEW)
            if fold is not None:
                self.assertEqual(words_of(fold[0]), f"{len(event.reports)} reports")

    def test_the_filter_has_the_kinds_and_members_of_the_day(self):
        choices = {each.get("id"): each for each in tickets.filter_form(View(scenes.day("case-d"))).iter("select")}
        self.assertEqual([words_of(option) for option in choices["kind"]], ["any", "cover-in", "order", "answer", "inquiry"])
        self.assertEqual([words_of(option) for option in choices["member"]], ["any", "AAAALV22", "BBBBLV22"])

    def test_the_help_has_all_keys(self):
        keys = [words_of(key) for key in tickets.help_box().iter("kbd")]
        self.assertEqual(keys, ["/", "Esc", "j, k", "Tab", "\u2193, \u2191", "\u2192, \u2190", "Enter", "?"])


class Seen(pages.InBrowser):
    def test_the_named_ticket_is_marked(self):
        self.open("big", "#t400")
        grounds = [
            self.js(f"getComputedStyle(document.getElementById('{row}')).backgroundColor") for row in ("t400", "t399")
        ]
        self.assertNotEqual(*grounds)

    # The filter

    def filter(self, text):
        self.js("document.getElementById('text').focus()")
        self.browser.type(text)

    def choose(self, name, value):
        self.js(
            f"(list => {{ list.value = '{value}'; list.dispatchEvent(new Event('input', {{bubbles: true}})) }})"
            f"(document.getElementById('{name}'))"
        )

    def test_filter_by_text(self):
        self.open("busy", "#t3")
        self.assertEqual(self.js(COUNT), "49 of 49 shown")
        self.filter("salary-1")
        expected = [f"t{n}" for n, words in enumerate(self.texts(".tickets tbody tr")) if "SALARY-1" in words]
        self.assertEqual(len(expected), 7)
        self.assertEqual(self.js(SHOWN), expected)
        self.assertEqual((self.js(COUNT), self.js("location.hash")), ("7 of 49 shown", "#t3"))
        self.filter("nothing has this")
        self.assertEqual((self.js(SHOWN), self.js(COUNT)), (["t3"], "0 of 49 shown, and ticket 3"))

    def test_filter_by_choice(self):
        refusals, reports, _ = printed(DAYS["busy"][2])
        self.open("busy")
        self.browser.click("[name=show][value=turned]")
        self.assertEqual(self.js(SHOWN), [f"t{n}" for n, refusal in enumerate(refusals) if refusal])
        self.browser.click("[name=show][value=told]")
        self.assertEqual(self.js(SHOWN), [f"t{n}" for n, told in enumerate(reports) if told])
        self.browser.press("Escape")
        self.choose("kind", "cut")
        self.assertEqual((self.js(SHOWN), self.js(COUNT)), (["t37", "t38"], "2 of 49 shown"))
        self.choose("kind", "")
        for member, others in ((4, {13, 14, 15, 16, 17, 18, 19, 47}), (3, {18, 19, 33, 34, 35, 40, 44, 45, 46})):
            self.choose("member", member)
            told = {n for n, row in enumerate(reports) if any(report[0] == member for report in row)}
            self.assertEqual({int(row[1:]) for row in self.js(SHOWN)}, told | others)

    def test_the_named_ticket_is_shown_in_spite_of_the_filter(self):
        self.open("busy")
        self.browser.click("[name=show][value=turned]")
        self.assertNotIn("t4", self.js(SHOWN))
        self.browser.click("#p0 .statement a[href='#t4']")
        self.assertIn("t4", self.js(SHOWN))
        self.assertEqual((self.js(FOCUS), self.js(COUNT)), ("t4", "9 of 49 shown, and ticket 4"))

    # Keys

    def test_slash_and_escape(self):
        self.open("busy")
        self.browser.press("/")
        self.assertEqual(self.js(FOCUS), "text")
        self.browser.type("tick")
        self.assertEqual(self.js(COUNT), "2 of 49 shown")
        self.browser.press("j", "/", "?")
        self.assertEqual((self.js("document.getElementById('text').value"), self.js(COUNT)), ("tickj/?", "0 of 49 shown"))
        self.choose("kind", "cut")
        self.browser.press("Escape")
        values = "['text', 'kind'].map(name => document.getElementById(name).value)"
        self.assertEqual((self.js(values), self.js(COUNT)), (["", ""], "49 of 49 shown"))

    def test_next_and_previous(self):
        self.open("busy")
        self.browser.click("[name=show][value=turned]")
        found = []
        for key in ("j", "j", "j", "k", "ArrowDown", "ArrowUp", "ArrowUp", "ArrowUp"):
            self.browser.press(key)
            found.append(self.js(FOCUS))
        self.assertEqual(found, ["t10", "t27", "t28", "t27", "t28", "t27", "t10", "t10"])
        self.js("new Promise(done => setTimeout(done, 300))")
        self.assertEqual(self.js("location.hash"), "#t10")

    def test_arrows_elsewhere_are_the_browsers(self):
        self.open("busy")
        self.browser.press("ArrowDown")
        self.assertEqual(self.js(FOCUS), "")

    def test_enter_unfolds_a_ticket(self):
        self.open("big", "#t249")
        folds = "[...document.querySelectorAll('#t249 details')].every(fold => fold.open)"
        found = [self.js(folds)]
        for _ in range(2):
            self.browser.press("Enter")
            found.append(self.js(folds))
        self.assertEqual(found, [False, True, False])

    def test_help(self):
        self.open("busy")
        is_open = "document.getElementById('help').open"
        for close in (lambda: self.browser.press("Escape"), lambda: self.browser.click("#close")):
            self.browser.press("?")
            self.assertTrue(self.js(is_open))
            close()
            self.browser.settle()
            self.assertFalse(self.js(is_open))
        self.browser.click("#keys")
        self.assertTrue(self.js(is_open))


if __name__ == "__main__":
    unittest.main()
