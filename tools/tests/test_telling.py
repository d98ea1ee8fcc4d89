"""A day in sentences."""

import unittest

from tests import scenes
from zolfigar import history, telling


class Telling(unittest.TestCase):
    def setUp(self):
        self.day = scenes.day("busy")

    def test_summary(self):
        due = "49 tickets: 40 carried out, 9 turned back; 11 orders: 4 settled, 2 returned, 2 refused, 2 expired, 1 waiting"
        self.assertEqual(telling.summary(self.day), due)

    def test_outcomes(self):
        cases = {
            0: "carried out",
            3: "carried out, 1 route row followed",
            9: "carried out, 2 route rows followed",
            10: "turned back, 18 XT75: the order's status or recall mark is not as the step needs",
            38: "turned back, 21: somebody has held cover or an open debit",
            41: "turned back, 21: the sender has neither held cover nor an open debit, or the amount is not as it must be",
        }
        self.assertEqual({n: telling.outcome(self.day, self.day.events[n]) for n in cases}, cases)

    def test_every_refusal_is_told_with_its_code(self):
        day = scenes.day("turned-back")
        told = {event.refusal: telling.outcome(day, event).split(":")[0] for event in day.events if event.refusal}
        self.assertEqual(sorted(told), list(range(7, 23)))
        self.assertEqual(told[15], "turned back, 15 TECH")
        self.assertEqual(told[22], "turned back, 22")

    def test_small_letters_of_an_iban_are_named(self):
        day = scenes.day("small-letters")
        told = [telling.outcome(day, event) for event in day.events if event.refusal]
        wrong = "turned back, 8 XD19: the IBAN is wrong: "
        due = ["character 5, b, and 3 more are small letters", "character 21, a, is a small letter"]
        self.assertEqual(told, [wrong + letters for letters in due])

    def test_a_wrong_iban_without_small_letters(self):
        day = scenes.day("turned-back")
        told = [telling.outcome(day, event) for event in day.events if event.refusal == 8]
        self.assertEqual(told, ["turned back, 8 XD19: the IBAN is wrong"])

    def test_small_letters_are_told_of_no_other_refusal(self):
        small = scenes.output("small-letters").replace("T 2 8 0 0", "T 2 11 0 0")
        day = scenes.day("small-letters", small)
        self.assertEqual(telling.outcome(day, day.events[2]), "turned back, 11 DT01: the time is before the clock")

    def test_reports(self):
        told = [telling.report(self.day, report) for report in self.day.events[37].reports]
        self.assertEqual(told[1], "to BBBBLV22: the cut left an open debit (10), EUR 140.00")
        first = telling.report(self.day, self.day.events[3].reports[0])
        self.assertEqual(first, "to BBBBLV22: an order to answer (1), order 0 SALARY-1, EUR 40.00")

    def test_moves(self):
        told = [telling.move(self.day, move) for move, _ in self.day.statement(1)]
        due = ["cover in", "order 0 SALARY-1 settled, from AAAALV22", "order 1 RENT-7 reserved, for CCCCLT2X"]
        due += ["order 1 RENT-7 refused by CCCCLT2X, freed", "order 4 IN-TIME settled, from AAAALV22"]
        due += ["order 0 SALARY-1 returned, to AAAALV22", "open debit at the cut, 140.00 to be confirmed"]
        self.assertEqual(told, due + ["order 9 NIGHT settled, from AAAALV22", "confirmed debit"])

    def test_equation(self):
        terms = [
            ("cover-ins", 30000),
            ("confirmed debits", 10000),
            ("orders settled to it", 10500),
            ("returns by it", -4000),
        ]
        self.assertEqual(telling.equation(self.day, 1), (terms, 46500))

    def test_one_who_is_no_participant(self):
        self.assertEqual(telling.member(self.day, 40), "participant 40")


TOP = 2**32 - 1  # the last second that a ticket can have

# Cents returned of an order of 400.00, and what is said behind a colon on both statements and behind returned of the order.
PARTS = {
    39900: "399.00 of 400.00, charge 1.00",
    39999: "399.99 of 400.00, charge 0.01",
    1: "0.01 of 400.00, charge 399.99",
    40000: "",
}


class Returns(unittest.TestCase):
    def lines(self, day, number):
        return [telling.move(day, move) for move, _ in day.statement(number) if move.term in telling.RETURNS]

    def test_both_statements_say_what_was_kept(self):
        for back, words in PARTS.items():
            day, kept = scenes.returned_day(back), f": {words}" if words else ""
            self.assertEqual(self.lines(day, 0), [f"order 0 TX1 returned, from BBBBLV22{kept}"])
            self.assertEqual(self.lines(day, 1), [f"order 0 TX1 returned, to AAAALV22{kept}"])

    def test_payer_and_payee_are_one(self):
        for back, words in PARTS.items():
            day, kept = scenes.returned_day(back, to=0), f": {words}" if words else ""
            self.assertEqual(self.lines(day, 0), [f"order 0 TX1 returned, {way} AAAALV22{kept}" for way in ("to", "from")])

    def test_the_order_says_what_was_kept(self):
        for back, words in PARTS.items():
            for to in (1, 0):
                [order] = scenes.returned_day(back, to).orders
                self.assertEqual(telling.standing(order), f"returned {words}".rstrip())
                self.assertEqual((telling.status(order), telling.part_returned(order)), ("returned", words))

    def test_an_order_that_is_not_returned(self):
        for order in scenes.day("busy").orders:
            self.assertEqual((telling.standing(order), telling.part_returned(order)), (telling.status(order), ""))

    def test_report_6_has_the_returned_amount_beside_the_orders(self):
        for back, amount in ((39900, "399.00 of 400.00"), (1, "0.01 of 400.00"), (40000, "400.00")):
            day = scenes.returned_day(back)
            told = [telling.report(day, event.reports[0]) for event in day.events[5:]]
            self.assertEqual(told, [f"to AAAALV22: the order is returned (6), order 0 TX1, EUR {amount}"] * 2)

    def test_the_summary_counts_a_part_as_returned(self):
        due = "12 tickets: 10 carried out, 2 turned back; 2 orders: 2 returned"
        self.assertEqual(telling.summary(scenes.day("part-return")), due)

    def test_a_return_above_its_order(self):
        """It is turned back; an output that takes it has no charge."""
        day = scenes.day("part-return")
        self.assertEqual(telling.outcome(day, day.events[10]), "turned back, 19 XT77: the return is above the order")
        [order] = scenes.returned_day(40001, to=0).orders
        self.assertEqual(telling.standing(order), "returned 400.01 of 400.00")

    def test_a_report_6_about_no_order(self):
        text = scenes.output("busy").replace("R 0 6 0 4000\nT 23", "R 0 6 99 3999\nT 23")
        day = scenes.day("busy", text)
        told = telling.report(day, day.events[22].reports[0])
        self.assertEqual(told, "to AAAALV22: the order is returned (6), order 99, EUR 39.99")
        moved = [telling.move(day, move) for move in day.moves if move.event.number == 22]
        self.assertEqual(moved, ["order 99 returned, to AAAALV22", "order 99 returned, from BBBBLV22"])


WRONG = "turned back, 26 XT86: the recall is too late"


class LateRecalls(unittest.TestCase):
    def told(self, *steps, **how):
        """What became of the last ticket behind a settled order."""
        day = history.read("settled", *scenes.settled(*steps, **how))
        return telling.outcome(day, day.events[-1])

    def recall(self, time):
        return f"{time} recall TX1 FRAD from AAAALV22", 26

    def test_it_says_when_the_order_was_settled_and_until_when_it_could_be_recalled(self):
        due = f"{WRONG}: settled at 00:00:24, the last moment was 240:00:23"
        day = scenes.late_day()
        self.assertEqual([telling.outcome(day, day.events[number]) for number in (6, 7)], [due, due])
        self.assertEqual(self.told(self.recall(TOP)), due)

    def test_it_is_counted_from_the_settlement(self):
        due = f"{WRONG}: settled at 555:33:20, the last moment was 795:33:19"
        self.assertEqual(self.told(self.recall(2_864_000), kind="linked", ordered=5, at=2_000_000), due)

    def test_near_the_top_of_32_bits(self):
        """The last settlement with a late moment, the next, whose last moment is the last second, and one beyond: a recall of
        these is turned back by a wrong output alone."""
        cases = {
            4_294_103_295: "settled at 1192806:28:15, the last moment was 1193046:28:14",
            4_294_103_296: "settled at 1192806:28:16, the last moment was 1193046:28:15",
            4_294_103_297: "settled at 1192806:28:17, and no recall of it can be late",
        }
        for at, words in cases.items():
            self.assertEqual(self.told(self.recall(TOP), at=at), f"{WRONG}: {words}")

    def test_no_time_where_none_is_told(self):
        """No order has payer and TxId, or none was settled by then: of a wrong output."""
        self.assertEqual(self.told(("864024 recall TX9 FRAD from AAAALV22", 26)), WRONG)
        steps = (f"5 order TX1 from AAAALV22 to BBBBLV22 EUR 400.00 {scenes.IBAN}", 0, "1 1 0 40000"), self.recall(900_000)
        later = ("900000 answer TX1 yes from BBBBLV22", 0, "0 2 0 40000")
        for more in ((), (later,)):
            day = history.read("unsettled", *scenes.stepped(*steps, *more, kind="linked"))
            self.assertEqual(telling.outcome(day, day.events[1]), WRONG)

    def test_the_order_stays_settled(self):
        day = scenes.late_day()
        due = ["settled, not recalled: too late", "returned 99.00 of 100.00, charge 1.00", "expired"]
        self.assertEqual([telling.standing(order) for order in day.orders], due)
        self.assertEqual([telling.status(order) for order in day.orders], ["settled", "returned", "expired"])
        counts = "11 tickets: 9 carried out, 2 turned back; 3 orders: 1 settled, 1 returned, 1 expired"
        self.assertEqual(telling.summary(day), counts)

    def test_an_order_that_was_recalled_in_time(self):
        """Or that another ticket was turned back of: nothing more is said of it."""
        asked = ("864023 recall TX1 FRAD from AAAALV22", 0, "1 5 0 40000")
        back = ("864024 return TX1 from BBBBLV22 EUR 400.00", 26)
        for steps in ((asked,), (asked, self.recall(864_024)), (asked, back), (back,)):
            [order] = history.read("settled", *scenes.settled(*steps)).orders
            self.assertEqual(telling.standing(order), "settled")


if __name__ == "__main__":
    unittest.main()
