"""An order's life: the scale, the marks and their lanes, the bar."""

import unittest

from tests import scenes
from zolfigar.page import lives


def found(element, name):
    return list(element.iter(name))


def order_of(name, txid):
    day = scenes.day(name)
    return day, next(order for order in day.orders if order.txid == txid)


def signs(name, txid):
    _, order = order_of(name, txid)
    return [(mark.sign, mark.age, mark.event.number) for mark in lives.marks_of(order)]


class Lives(unittest.TestCase):
    def test_linear_up_to_the_limit_and_then_logarithmic(self):
        life = lives.Life(72000, 0)
        self.assertEqual([life.part(age) for age in (-5, 0, 10, 20, 72000)], [0, 0, 0.225, 0.45, 1])
        self.assertAlmostEqual(life.part(1200), 0.725)
        parts = [life.part(age) for age in range(0, 5000)]
        self.assertEqual(parts, sorted(set(parts)))

    def test_labels(self):
        words = lambda far: [label for _, label in lives.Life(far, 0).marks()]
        self.assertEqual(words(60)[4:], ["20 s", "1 min"])
        self.assertEqual(words(86400)[4:], ["20 s", "1 min", "10 min", "1 h", "10 h"])
        self.assertEqual(words(2**32)[4:], ["20 s", "10 min", "10 h", "10 days", "1,000 days"])

    def test_labels_where_there_is_little_room(self):
        self.assertEqual(sorted(lives.always_shown(lives.Life(60, 0))), [0, 10, 20, 60])
        self.assertEqual(sorted(lives.always_shown(lives.Life(86400, 0))), [0, 10, 20, 600, 36000])
        self.assertEqual(sorted(lives.always_shown(lives.Life(2**32, 0))), [0, 10, 20, 36000, 86400000])

    def test_what_the_marks_are(self):
        self.assertEqual(signs("busy", "IN-TIME")[:2], [("settled", 19, 12), ("recall", 5280, 24)])
        names = lambda txid: " ".join(sign for sign, *_ in signs("busy", txid))
        self.assertEqual(names("IN-TIME"), "settled recall decline inquiry turned")
        self.assertEqual(names("SALARY-1"), "settled recall inquiry return inquiry turned")
        self.assertEqual(signs("busy", "RENT-7"), [("refused", 10, 6)])
        self.assertEqual(signs("busy", "TO-FI-3"), [])

    def test_a_yes_that_comes_too_late_is_the_end_and_turned_back(self):
        self.assertEqual(signs("case-e", "TX1"), [("expired", 20, 2), ("turned", 20, 2), ("inquiry", 25, 3)])

    def test_a_return_says_what_came_back_and_what_was_kept(self):
        cases = {39999: " 399.99 of 400.00, charge 0.01", 1: " 0.01 of 400.00, charge 399.99", 40000: ""}
        for back, part in cases.items():
            marks = lives.marks_of(scenes.returned_day(back).orders[0])
            told = [mark.words for mark in marks if mark.sign == "return"]
            self.assertEqual(told, [f"115 s: returned{part}, ticket 5 (return)"])

    def test_a_return_that_is_turned_back_says_why(self):
        marks = lives.marks_of(scenes.day("part-return").orders[1])
        told = [mark.words for mark in marks if mark.sign == "turned"]
        why = "19 XT77: the return is above the order"
        self.assertEqual(told, [f"2,400 s: a ticket turned back, ticket 10 (return): {why}"])

    def test_a_late_recall(self):
        """The settlement with its time, each late recall with its reason, and no sign of a recall; an order that expires there."""
        first, _, expired = scenes.late_day().orders
        why = "26 XT86: the recall is too late: settled at 00:00:24, the last moment was 240:00:23"
        due = [
            "19 s: settled at 00:00:24, ticket 2 (answer yes)",
            f"864,019 s: a ticket turned back, ticket 6 (recall FRAD): {why}",
            f"864,020 s: a ticket turned back, ticket 7 (recall TECH): {why}",
            "864,021 s: inquiry, ticket 8 (inquiry)",
        ]
        self.assertEqual([mark.words for mark in lives.marks_of(first)], due)
        self.assertEqual([mark.words for mark in lives.marks_of(expired)], ["20 s: expired, ticket 6 (recall FRAD)"])

    def test_a_recall_in_time_and_its_return(self):
        marks = lives.marks_of(scenes.late_day().orders[1])
        due = [("settled", 4), ("recall", 864_003), ("return", 1_728_003)]
        self.assertEqual([(mark.sign, mark.age) for mark in marks], due)

    def test_a_ticket_that_is_no_end_and_does_not_name_the_order(self):
        text = scenes.changed(scenes.output("busy"), "T 48 0 0 0", "T 48 0 1 0\nR 1 1 0 4000")
        order = scenes.day("busy", text).orders[0]
        self.assertEqual([mark.sign for mark in lives.marks_of(order)][-2:], ["turned", "told"])

    def test_marks_that_lie_close_take_lanes(self):
        life = lives.Life(60, 0)
        at = lambda age, sign="inquiry": lives.Mark(scenes.day("case-d").events[0], age, sign, "")
        lanes = lambda *marks: [lane for _, lane in lives.lanes_of(life, marks)]
        self.assertEqual(lanes(at(0), at(10), at(20)), [0, 0, 0])
        self.assertEqual(lanes(at(1), at(1), at(2), at(10)), [0, 1, 2, 0])
        self.assertEqual(lanes(at(1), at(1), at(1, "settled")), [1, 2, 0])
        self.assertEqual(lanes(*[at(3)] * 6), [0, 1, 2, 3, None, None])

    def test_the_bar_ends_with_the_wait(self):
        day, order = order_of("busy", "RENT-7")
        drawing, left_out = lives.life_chart(lives.life_scale(day), order, True)
        bar = next(rect for rect in found(drawing, "rect") if rect.get("class").startswith("wait"))
        self.assertEqual((bar.get("class"), bar.get("width"), left_out), ("wait refused", "22.5%", 0))
        self.assertEqual([link.get("href") for link in found(drawing, "a")], ["#t5", "#t6"])

    def test_a_linked_system_has_no_limit(self):
        day, order = order_of("busy", "TO-FI-3")
        life = lives.life_scale(day)
        grids = {grid.get("id"): [line.get("class") for line in grid] for grid in lives.life_grids(life)}
        self.assertIn("limit", grids["limited"])
        self.assertNotIn("limit", grids["unlimited"])
        for has_limit, name in ((True, "#limited"), (False, "#unlimited")):
            drawing, _ = lives.life_chart(life, order, has_limit)
            self.assertEqual(found(drawing, "use")[0].get("href"), name)


if __name__ == "__main__":
    unittest.main()
