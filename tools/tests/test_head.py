"""The head: the verdict, a refused file, and where the words of a problem lead."""

import unittest

from tests import pages, scenes
from tests.pages import FOCUS, PAGES, READ, example, leads_of, words_of
from tests.test_audit import TAMPERED, TAMPERED_LATE
from zolfigar import audit, history, page
from zolfigar.page import head


class Text(unittest.TestCase):
    def test_refused_file(self):
        found = READ["refused"]
        self.assertIn("The file is refused. Refusal 3: offsets or file length are other than the layout gives.", found.text)
        self.assertIn("refused-3: refused", found.text)
        self.assertNotIn("adds up", found.text)

    def test_verdict(self):
        self.assertIn("Everything adds up: each participant's cover", READ["busy"].text)
        self.assertNotIn("Everything adds up", PAGES["tampered"])
        self.assertIn("busy: does not add up", PAGES["tampered"])

    def test_a_name_that_is_no_text_can_be_written(self):
        day = history.read("x\udcff", *example("case-d")[1:])
        self.assertIn(">x?</h1>", page.page(day).encode().decode())


def tampered():
    """The samples of the audit's tests: each day with the sentences that are said of it."""
    for name, line, other, said in TAMPERED:
        yield scenes.day(name, scenes.changed(scenes.output(name), line, other)), said
    for line, other, said in TAMPERED_LATE:
        yield scenes.late_day(scenes.changed(scenes.late()[1], line, other)), said


def linked(day, sentence):
    return head.linked(day, head.targets(day), sentence)


class Problems(unittest.TestCase):
    def test_the_sentences_of_each_clause_have_links(self):
        samples = list(tampered())
        for clause in audit.CLAUSES:
            found = [(day, sentence) for day, said in samples for sentence in clause(day) if sentence in said]
            self.assertTrue(found, f"no sample of {clause.__name__}")
            for day, sentence in found:
                with self.subTest(clause=clause.__name__, sentence=sentence):
                    self.assertTrue(leads_of(*linked(day, sentence)))
                    self.assertEqual(words_of(*linked(day, sentence)), sentence)

    def test_where_they_lead(self):
        day = scenes.day("case-d")
        cases = {
            "order 0 (TX1) stops waiting: at tickets 2, 3": [("order 0 (TX1)", "#o0"), ("2", "#t2"), ("3", "#t3")],
            "BBBBLV22XXX: ticket 1 takes held to -4.00": [("BBBBLV22XXX", "#p1"), ("1", "#t1")],
            "ticket 3 has 1 report of order 0": [("3", "#t3")],
            "ticket 4 is not there, nor is order 1 (TX1), nor CCCCLT2XXXX": [],
        }
        for sentence, leads in cases.items():
            self.assertEqual(leads_of(*linked(day, sentence)), leads)

    def test_many_are_counted_and_open(self):
        box = head.verdict(scenes.day("case-d"), [f"ticket {n}" for n in range(21)])
        fold = box.find("details")
        assert fold is not None
        self.assertEqual((words_of(box[0], fold[0]), fold.get("open")), ("21 things don't add up.21 problems", ""))


class Seen(pages.InBrowser):
    def test_a_tampered_output_shows_its_problems(self):
        self.open("tampered")
        problems = self.texts(".verdict.bad li")
        self.assertIn("AAAALV22XXX: available adds up to 987.66, and the output closes it at 988.66", problems)
        self.assertIn("ticket 8: a report 4 about order 2 (GIFT) tells 10.01, and the order is over 10.00", problems)
        leads = self.js("[...document.querySelectorAll('.verdict a')].map(link => link.getAttribute('href'))")
        self.assertLessEqual({"#p0", "#t8", "#o2"}, set(leads))
        self.assertEqual(self.texts("#p0 .closed .sum td:nth-child(2)"), ["differs by 1.00"])
        self.browser.click(".verdict a[href='#t8']")
        self.assertEqual(self.js(FOCUS), "t8")


if __name__ == "__main__":
    unittest.main()
