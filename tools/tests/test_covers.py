"""The cover charts: their scales, their steps, and where those lead."""

import re
import unittest

from tests import pages, scenes
from tests.pages import FOCUS, PAGES
from zolfigar import history, packing
from zolfigar.output import Parts
from zolfigar.page import covers


def found(element, name):
    return list(element.iter(name))


def labels(scale):
    return [label for _, label in scale.marks]


class Scales(unittest.TestCase):
    def test_round_steps(self):
        spans = (1, 6, 7, 12, 13, 30, 31, 600, 601, 10**18)
        self.assertEqual([covers.round_step(span, 6) for span in spans], [1, 1, 2, 2, 5, 5, 10, 100, 200, 2 * 10**17])

    def test_clock_steps(self):
        spans = (5, 6, 75, 76, 18000, 18001, 432000, 432001, 2**32)
        self.assertEqual([covers.clock_step(s, 5) for s in spans], [1, 2, 15, 30, 3600, 7200, 86400, 172800, 86400 * 10000])

    def test_time_labels(self):
        cases = ((29105, 5), (29100, 300), (28800, 3600), (86400 * 1234, 86400))
        self.assertEqual([covers.time_label(*case) for case in cases], ["08:05:05", "08:05:00", "08:00", "day 1,234"])

    def test_a_day_has_few_labels(self):
        for name in scenes.RUNNING:
            for scale in (covers.time_scale(scenes.day(name)), covers.ticket_scale(scenes.day(name))):
                self.assertTrue(1 <= len(scale.marks) <= 8, name)
                self.assertTrue(all(0 <= scale.part(at) <= 1 for at, _ in scale.marks))

    def test_amounts(self):
        step = lambda *after: covers.Step(scenes.day("case-d").events[0], [], Parts(*after))
        scale = covers.amount_scale([step(100, 20, 0), step(0, 0, 30)])
        self.assertEqual((scale.low, scale.high, labels(scale)[:2]), (0, 120, ["0.00", "0.20"]))
        self.assertEqual(labels(covers.amount_scale([step(150000, 0, 0)])), ["0", "500", "1,000", "1,500"])
        below = covers.amount_scale([step(-500, 0, 0), step(1000, 0, 0)])
        self.assertEqual((below.low, below.high), (-500, 1000))
        self.assertEqual(covers.amount_scale([]).part(0), 0)


def heights(chart, part):
    """The amounts of a drawn edge, read off its path: what it rises to, at each step."""
    path = next(path for path in found(chart, "path") if path.get("class") == part).get("d")
    return [float(y) for y in re.findall(r"V([-\d.]+)", path)]


class Cover(unittest.TestCase):
    def test_a_step_for_each_ticket(self):
        """Two orders of one bank that expire at one ticket are one step."""
        lines = ("00:00:01 order TX2", "00:00:02 order TX3")
        more = "".join(f"{line} from AAAALV22 to BBBBLV22 EUR 1.00 iban LV80BANK0000435195001\n" for line in lines)
        head = scenes.content("examples", "case-d.day").decode().partition("00:00:05")[0]
        file = packing.pack("x", head + more + "00:01:00 tick\n")
        told = "T 0 0 0 0\nT 1 0 1 1\nR 1 1 0 100\nT 2 0 1 1\nR 1 1 1 100\n"
        ended = "T 3 0 4 0\nR 0 4 0 100\nR 1 4 0 100\nR 0 4 1 100\nR 1 4 1 100\nC 0 1000 0 0\nC 1 0 0 0\n"
        day = history.read("x", file, told + ended)
        steps = [(step.event.number, len(step.moves), step.after) for step in covers.steps_of(day, 0)]
        self.assertEqual(steps, [(0, 1, (1000, 0, 0)), (1, 1, (900, 100, 0)), (2, 1, (800, 200, 0)), (3, 2, (1000, 0, 0))])
        self.assertEqual(
            covers.step_words(day, covers.steps_of(day, 0)[3]).split(". ")[0], "Ticket 3, 00:01:00: 2 movements"
        )

    def test_the_drawn_cover_is_the_statement(self):
        day = scenes.day("busy")
        for axis in covers.AXES:
            chart = covers.cover_chart(day, 0, axis)
            steps = covers.steps_of(day, 0)
            top = covers.amount_scale(steps).high
            drawn = [round((1 - y / covers.HEIGHT) * top) for y in heights(chart, "cover")]
            for step, amount in zip(steps, drawn, strict=True):
                self.assertAlmostEqual(sum(step.after), amount, delta=top / 10000)

    def test_areas_lie_on_each_other(self):
        chart = covers.cover_chart(scenes.day("case-d"), 0, "ticket")
        paths = {path.get("class"): path.get("d") for path in found(chart, "path")}
        self.assertEqual(paths["available"], "M0 100H0V0H250V40H500V40H1000V100H500V100H250V100H0V100H0Z")
        self.assertEqual(paths["reserved"], "M0 100H0V0H250V0H500V40H1000V40H500V40H250V0H0V100H0Z")
        self.assertEqual(paths["cover"], "M0 100H0V0H250V0H500V40H1000")

    def test_each_step_leads_to_its_ticket(self):
        links = found(covers.cover_chart(scenes.day("case-d"), 0, "time"), "a")
        self.assertEqual([link.get("href") for link in links], ["#t0", "#t1", "#t2"])
        after = "Then available 6.00, reserved 4.00, held 0.00"
        self.assertEqual(links[1][0].text, f"Ticket 1, 00:00:05: order 0 TX1 reserved, for BBBBLV22. {after}")
        rects = [rect for link in links for rect in found(link, "rect")]
        places = [(rect.get("x"), rect.get("width")) for rect in rects]
        self.assertEqual(places, [("0", "161.29"), ("161.29", "612.9"), ("774.19", "225.81")])


class Seen(pages.InBrowser):
    def test_a_step_of_a_chart_leads_to_its_ticket(self):
        self.open("busy")
        for axis in ("ticket", "time"):
            self.js(f"document.getElementById('by-{axis}').click()")
            self.assertEqual(
                self.js("[...document.querySelectorAll('#p0 .chart')].filter(c => c.checkVisibility()).length"), 1
            )
            self.browser.click(f"#p0 .by-{axis} a[href='#t42'] rect")
            self.assertEqual((self.js("location.hash"), self.js(FOCUS)), ("#t42", "t42"))
            self.assertIn("confirm from AAAALV22 EUR 359.50", self.texts("#t42 .words")[0])
            self.js("history.back()")
            self.browser.settle()
            self.assertEqual(self.js("location.hash"), "")
            self.browser.show(PAGES["busy"])

    def test_the_steps_are_those_of_the_statement(self):
        self.open("big")
        steps = "[...chart.querySelectorAll('a')].map(link => link.getAttribute('href'))"
        lines = "[...part.querySelectorAll('.statement tbody th a')].map(link => link.getAttribute('href'))"
        each = f"[...part.querySelectorAll('.chart')].map(chart => {steps}).concat([[...new Set({lines})]])"
        for by_ticket, by_time, tickets in self.js(f"[...document.querySelectorAll('.participant')].map(part => {each})"):
            self.assertEqual((by_ticket, by_time), (tickets, tickets))


if __name__ == "__main__":
    unittest.main()
