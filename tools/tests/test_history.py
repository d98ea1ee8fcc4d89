"""A day as it is seen: events, orders, moves, statements."""

import unittest

from tests import scenes
from zolfigar import history, packing, words


class Statements(unittest.TestCase):
    def test_case_d(self):
        day = scenes.day("case-d")
        payer = [(move.event.number, move.term, after) for move, after in day.statement(0)]
        due = [(0, "cover-ins", (1000, 0, 0)), (1, "reserved", (600, 400, 0)), (2, "orders settled from it", (600, 0, 0))]
        self.assertEqual(payer, due)
        payee = [(move.event.number, move.term, after) for move, after in day.statement(1)]
        self.assertEqual(payee, [(2, "orders settled to it", (400, 0, 0))])

    def test_case_e(self):
        day = scenes.day("case-e")
        self.assertEqual([(m.event.number, m.term) for m in day.moves], [(0, "cover-ins"), (1, "reserved"), (2, "expired")])
        self.assertEqual((day.orders[0].ended.number, day.orders[0].code), (2, 4))

    def test_every_example_closes_as_the_program_says(self):
        for name in scenes.RUNNING:
            day = scenes.day(name)
            for position in day.positions:
                last = ([(0, 0, 0)] + [after for _, after in day.statement(position.number)])[-1]
                self.assertEqual(last, position[1:4], (name, position.number))

    def test_sums_of_the_busy_day(self):
        sums = scenes.day("busy").sums(0)
        due = {"cover-ins": 150000, "returns to it": 4000, "confirmed credits": 35950, "orders settled from it": 18050}
        self.assertEqual({term: amount for term, amount in sums.items() if amount}, due)


class Orders(unittest.TestCase):
    def test_events_of_one_order(self):
        order = next(o for o in scenes.day("busy").orders if o.txid == "IN-TIME")
        self.assertEqual([e.number for e in order.events], [11, 12, 24, 25, 26, 30])
        self.assertEqual((order.payer, order.payee, order.amount, order.ended.number, order.code), (0, 1, 6000, 12, 2))

    def test_waiting(self):
        self.assertEqual([o.txid for o in scenes.day("busy").waiting(0)], ["TO-FI-3"])


class Returns(unittest.TestCase):
    def test_an_order_knows_its_return(self):
        """One that was turned back is none: of TX1 the second, of TX2 and INVOICE-3 the first."""
        known = lambda name: {o.txid: [(e.number, e.ticket["amount"]) for e in o.returns] for o in scenes.day(name).orders}
        self.assertEqual(known("part-return"), {"TX1": [(4, 39900)], "TX2": [(11, 10000)]})
        returned = {txid: found for txid, found in known("busy").items() if found}
        self.assertEqual(returned, {"SALARY-1": [(22, 4000)], "INVOICE-3": [(46, 12000)]})

    def test_the_first_of_two_returns(self):
        text = scenes.changed(scenes.output("part-return"), "T 6 18 0 0", "T 6 0 1 0\nR 0 6 0 100")
        order = scenes.day("part-return", text).orders[0]
        self.assertEqual(([event.number for event in order.returns], order.returned.number), ([4, 6], 4))

    def test_a_return_of_no_order(self):
        file, text = scenes.returned(39900)
        self.assertEqual(history.read("x", file.replace(b"TX1", b"TX9", 1), text).orders[0].returns, [])

    def test_a_return_moves_its_own_amount(self):
        for back in (1, 39999, 40000):
            day = scenes.returned_day(back)
            moved = [(m.participant, m.term, m.amount, m.parts()) for m in day.moves if m.event.number == 5]
            due = [(1, "returns by it", back, (-back, 0, 0)), (0, "returns to it", back, (back, 0, 0))]
            self.assertEqual(moved, due)
            sums = day.sums(1)
            self.assertEqual((sums["orders settled to it"], sums["returns by it"]), (40000, back))

    def test_where_payer_and_payee_are_one_nothing_moves_in_sum(self):
        for back in (1, 39999, 40000):
            day = scenes.returned_day(back, to=0)
            sums = day.sums(0)
            self.assertEqual((sums["returns by it"], sums["returns to it"]), (back, back))
            self.assertEqual([after for _, after in day.statement(0)][-1], (100000, 0, 0))


class Recalls(unittest.TestCase):
    def test_an_order_knows_its_recalls(self):
        """Those that were accepted, and those that came too late; one that 18 turned back is neither."""
        known = lambda day: [[[e.number for e in found] for found in (o.recalls, o.late_recalls)] for o in day.orders]
        self.assertEqual(known(scenes.late_day()), [[[], [6, 7]], [[9], []], [[], []]])
        busy = {o.txid: (len(o.recalls), len(o.late_recalls)) for o in scenes.day("busy").orders if o.recalls}
        self.assertEqual(busy, {"SALARY-1": (1, 0), "INVOICE-3": (1, 0), "IN-TIME": (1, 0)})

    def test_what_settled_it(self):
        """Known behind it alone; an order that ended otherwise is never settled."""
        day = scenes.late_day()
        found = [[order.settled_before(event) for event in day.events] for order in day.orders]
        yes, later = day.events[2], day.events[4]
        self.assertEqual(found, [[None] * 3 + [yes] * 8, [None] * 5 + [later] * 6, [None] * 11])

    def test_a_late_recall_sets_the_clock(self):
        day = scenes.late_day()
        self.assertTrue(day.events[6].sets_clock())
        self.assertEqual((day.orders[2].ended.number, day.orders[2].code), (6, 4))


class Files(unittest.TestCase):
    def test_a_refused_file(self):
        for number, name in enumerate(scenes.REFUSED, 1):
            day = scenes.day(name)
            self.assertEqual((day.refusal, day.participants, day.events, day.problems), (number, [], [], []))

    def test_answers_and_positions_are_counted(self):
        text = scenes.output("case-d")
        short = text[: text.index("T 3")]
        problems = scenes.day("case-d", short).problems
        due = ["the day file has 4 tickets, and the output answers 3"]
        due.append("the day file has 2 participants, and the output closes 0 positions")
        self.assertEqual(problems, due)

    def test_a_short_file_that_is_not_refused(self):
        day = history.read("short", b"short", "C 0 0 0 0\n")
        self.assertEqual(day.problems, ["the file is below 12 bytes, and the output doesn't refuse it"])

    def test_a_refused_header_that_is_not_refused(self):
        for name in ("refused-2", "refused-3"):
            day = scenes.day(name, "T 0 0 0 0\nC 0 1000 0 0\n")
            self.assertIn(f"{words.REFUSALS[int(name[-1])][1]}, and the output doesn't refuse it", day.problems)

    def test_a_refusal_that_does_not_fit(self):
        """Of a file that 1 to 3 don't refuse, and of one that each of them does."""
        other = "the output refuses the file by {}, and a file is refused by 1 to 5"
        not_so = "the output refuses the file by {}, and it isn't so that {}"
        first = "the output refuses the file by {}, and {} comes first: {}"
        for number in (0, 6, 7, 99):
            self.assertEqual(scenes.day("case-d", f"F {number}\n").problems, [other.format(number)])
        for number in (1, 2, 3):
            due = [not_so.format(number, words.REFUSALS[number][1])]
            self.assertEqual(scenes.day("case-d", f"F {number}\n").problems, due)
            for wrong in sorted({1, 2, 3, 4, 5} - {number}):
                due = [first.format(wrong, number, words.REFUSALS[number][1])]
                self.assertEqual(scenes.day(f"refused-{number}", f"F {wrong}\n").problems, due)
        # whether 4 or 5 is so is for the rows to tell, which are not judged; without a route row 5 is not so
        self.assertEqual([scenes.day("case-d", f"F {number}\n").problems for number in (4, 5)], [[], []])
        no_routes = packing.pack("no-routes", "participant AAAALV22 bank\n")
        due = ["the output refuses the file by 5, and it has no route row"]
        self.assertEqual(history.read("no-routes", no_routes, "F 5\n").problems, due)


if __name__ == "__main__":
    unittest.main()
