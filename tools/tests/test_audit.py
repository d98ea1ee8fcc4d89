"""What doesn't add up is said: outputs that were tampered with, each with the sentence that tells it."""

import unittest

from tests import scenes
from zolfigar import audit, history
from zolfigar.figures import euro

# An example, a line of its output, what was put in its place (None: it was taken out), and what is said.
TAMPERED = [
    ("case-d", "C 0 600 0 0", "C 0 601 0 0", ["AAAALV22XXX: available adds up to 6.00, and the output closes it at 6.01"]),
    (
        "case-d",
        "C 1 400 0 0",
        "C 1 0 400 0",
        [
            "BBBBLV22XXX: available adds up to 4.00, and the output closes it at 0.00",
            "BBBBLV22XXX: reserved adds up to 0.00, and the output closes it at 4.00",
            "BBBBLV22XXX: its waiting orders are 0.00, and the output reserves 4.00",
        ],
    ),
    (
        "case-d",
        "R 1 1 0 400",
        "R 1 1 0 401",
        ["ticket 1: a report 1 about order 0 (TX1) tells 4.01, and the order is over 4.00"],
    ),
    (
        "case-d",
        "R 1 1 0 400",
        "R 7 1 0 400",
        [
            "ticket 1: a report goes to participant 7, and there is none",
            "ticket 2: a report 2 about order 0 (TX1) goes to BBBBLV22XXX, and must not",
            "ticket 2 was accepted, and its sender is not the payee of order 0 (TX1)",
        ],
    ),
    (
        "case-d",
        "R 1 2 0 400",
        "R 1 3 0 400",
        [
            "ticket 2: a report 3 about order 0 (TX1) goes to BBBBLV22XXX, and must not",
            "ticket 2 tells ending 3 of order 0 (TX1), and it ended with 2",
        ],
    ),
    ("case-d", "R 1 2 0 400", "R 0 2 0 400", ["ticket 2 tells the end of order 0 (TX1) twice to one party"]),
    ("case-d", "R 1 2 0 400", "R 1 12 0 400", ["ticket 2: a report 12, and there is no such code"]),
    (
        "case-d",
        "T 0 0 0 0",
        "T 0 9 0 0",
        [
            "AAAALV22XXX: ticket 1 takes available to -4.00",
            "AAAALV22XXX: ticket 2 takes available to -4.00",
            "AAAALV22XXX: available adds up to -4.00, and the output closes it at 6.00",
        ],
    ),
    (
        "case-d",
        "T 0 0 0 0",
        "T 0 4 0 0",
        [
            "ticket 0 has refusal 4, and the program gives a ticket 0, 7 to 22 or 26",
            "AAAALV22XXX: ticket 1 takes available to -4.00",
            "AAAALV22XXX: ticket 2 takes available to -4.00",
            "AAAALV22XXX: available adds up to -4.00, and the output closes it at 6.00",
        ],
    ),
    ("case-d", "T 2 0 2 0", "T 2 0 2 1", ["ticket 2 is no accepted order, and its line counts 1 route row"]),
    (
        "case-d",
        "T 3 0 1 0",
        "T 3 11 1 0",
        [
            "ticket 3: a report 2 comes from a ticket that doesn't bring it",
            "ticket 3 was turned back by 11, and has 1 report",
            "order 0 (TX1) stops waiting more than once: at tickets 2, 3",
        ],
    ),
    ("case-e", "T 2 18 2 0", "T 2 0 2 0", ["ticket 2 was accepted, and its report 2 is missing"]),
    (
        "busy",
        "R 0 11 65535 35950",
        "R 0 11 65535 35951",
        [
            "AAAALV22XXX: available adds up to 987.65, and the output closes it at 987.66",
            "AAAALV22XXX: held adds up to 0.01, and the output closes it at 0.00",
        ],
    ),
    ("busy", "R 0 11 65535 35950", "R 0 11 3 35950", ["ticket 37: a report 11 names order 3, and a cut's names none"]),
    ("busy", "T 44 0 0 0", "T 44 21 0 0", ["DDDDEE2XXXX: held adds up to 150.00, and the output closes it at 0.00"]),
    ("busy", "R 2 3 6 2000", "R 2 4 6 2000", ["ticket 17 lets order 6 (TO-FI-2) expire 149 seconds after it, and must not"]),
    (
        "part-return",
        "R 0 6 1 10000",
        "R 0 6 1 9999",
        ["ticket 11: a report 6 about order 1 (TX2) tells 99.99, and ticket 11 returns 100.00"],
    ),
    (
        "part-return",
        "T 6 18 0 0",
        "T 6 0 1 0\nR 0 6 0 100",
        [
            "order 0 (TX1) is returned more than once: at tickets 4, 6",
            "AAAALV22XXX: available adds up to 1,000.00, and the output closes it at 999.00",
            "BBBBLV22XXX: available adds up to 0.00, and the output closes it at 1.00",
        ],
    ),
    (
        "part-return",
        "T 10 19 0 0",
        "T 10 0 1 0\nR 0 6 1 10001",
        [
            "order 1 (TX2) is returned more than once: at tickets 10, 11",
            "ticket 10 was accepted, and returns 100.01 of order 1 (TX2), which is over 100.00: 19 turns that back",
            "BBBBLV22XXX: ticket 11 takes available to -99.01",
            "AAAALV22XXX: available adds up to 1,099.01, and the output closes it at 999.00",
            "BBBBLV22XXX: available adds up to -99.01, and the output closes it at 1.00",
        ],
    ),
    (
        "part-return",
        "C 1 100 0 0",
        "C 1 0 0 0",
        ["BBBBLV22XXX: available adds up to 1.00, and the output closes it at 0.00"],
    ),
]

# The same of the day with late recalls.
TAMPERED_LATE = [
    (
        "T 7 26 0 0",
        "T 7 0 1 0\nR 1 5 0 40000",
        ["ticket 7 was accepted, and recalls order 0 (TX1) 864,001 seconds after its settlement: 26 turns that back"],
    ),
    (
        "T 9 0 1 0",
        "T 9 26 1 0",
        [
            "ticket 9: a report 5 comes from a ticket that doesn't bring it",
            "ticket 9 was turned back by 26, and recalls order 1 (TX2) 863,999 seconds after its settlement: that is in time",
            "ticket 10 was accepted, and no recall of order 1 (TX2) was accepted before: 18 turns that back",
        ],
    ),
    (
        "T 8 0 1 0",
        "T 8 0 2 0\nR 1 8 0 40000",
        ["ticket 8 has a report 8, and no recall of order 0 (TX1) was accepted before"],
    ),
]


def tampered(name, line, other):
    return audit.problems(scenes.day(name, scenes.changed(scenes.output(name), line, other)))


def with_late_yes():
    """Case E as if the yes had still counted: the output of case D."""
    return audit.problems(history.read("case-e", scenes.day_file("case-e"), scenes.output("case-d")))


def numbers_changed(day, text):
    """A day's output with one number of one line one higher or one lower, for each of them. Before it what was changed: the
    kind of the line's ticket, the place in the line, the line, the new one."""
    lines, kind = text.split("\n"), 0
    kinds = [event.ticket["kind"] for event in day.events]
    for at, line in enumerate(lines):
        letter, *words = line.split(" ")
        kind = kinds[int(words[0])] if letter == "T" else kind
        for place, word in enumerate(words):
            for other in (int(word) + 1, int(word) - 1):
                if other >= 0:
                    new = " ".join([letter, *words[:place], str(other), *words[place + 1 :]])
                    yield (kind, place, line, new), "\n".join(lines[:at] + [new] + lines[at + 1 :])


def is_out_of_sight(kind, place, line, new):
    """What can't be told without the book's rules: which of 14, 15 and 18 to 22 it was, the rows of an order, the amount of an open
    debit, and that an inquiry was told of a declined recall where it should have been told of a return."""
    old, changed = line.split(" "), new.split(" ")
    if old[0] == "T":
        refused = place == 1 and all(int(words[2]) in (14, 15, *range(18, 23)) for words in (old, changed))
        return refused or (place == 3 and kind == 3 and old[2] == "0")
    told = (old[2], changed[2]) == ("6", "7") and kind == 8
    return old[0] == "R" and ((place == 3 and old[2] == "10") or (place == 1 and told))


class Audit(unittest.TestCase):
    def test_untouched(self):
        for name in scenes.RUNNING + scenes.REFUSED:
            self.assertEqual(audit.problems(scenes.day(name)), [], name)

    def test_tampered(self):
        for name, line, other, said in TAMPERED:
            with self.subTest(line=line, other=other):
                self.assertEqual(tampered(name, line, other), said)
        for line, other, said in TAMPERED_LATE:
            with self.subTest(line=line, other=other):
                self.assertEqual(audit.problems(scenes.late_day(scenes.changed(scenes.late()[1], line, other))), said)

    def test_a_late_yes_that_counts(self):
        self.assertIn("ticket 2 must let order 0 (TX1) expire, 20 seconds after it, and doesn't", with_late_yes())

    def test_each_number_of_the_busy_day(self):
        """What is not noticed is what is out of sight, and all of it."""
        tried = unseen = 0
        for change, text in numbers_changed(scenes.day("busy"), scenes.output("busy")):
            tried += 1
            is_unseen = not audit.problems(scenes.day("busy", text))
            unseen += is_unseen
            self.assertEqual(is_unseen, is_out_of_sight(*change), change)
        self.assertGreater(tried, 600)
        self.assertLess(unseen, 60)

    def test_each_number_of_a_day_with_a_part_returned(self):
        """Of its reports all is noticed, a 7 that an inquiry is told for the 6 too: it would carry the order's amount."""
        for change, text in numbers_changed(scenes.day("part-return"), scenes.output("part-return")):
            is_unseen = not audit.problems(scenes.day("part-return", text))
            self.assertEqual(is_unseen, is_out_of_sight(*change) and change[2].startswith("T "), change)

    def test_each_number_of_a_day_with_late_recalls(self):
        """All of a 26 is noticed."""
        tried = 0
        for change, text in numbers_changed(scenes.late_day(), scenes.late()[1]):
            tried += change[2].split(" ")[2] == "26"
            self.assertEqual(not audit.problems(scenes.late_day(text)), is_out_of_sight(*change), change)
        self.assertEqual(tried, 13)

    def test_each_line_taken_out_or_doubled(self):
        days = [(scenes.day_file(name), scenes.output(name)) for name in ("busy", "part-return")]
        for file, output in (*days, scenes.late()):
            lines = output.splitlines(keepends=True)
            for at, line in enumerate(lines):
                for text in (lines[:at] + lines[at + 1 :], lines[: at + 1] + lines[at:]):
                    self.assertTrue(audit.problems(history.read("changed", file, "".join(text))), line)


TX1 = "about order 0 (TX1)"


class Returns(unittest.TestCase):
    """An order of 400.00 that is recalled at ticket 3, asked about at 4, returned by some cents at 5, asked about at 6: what
    is said where the output is another."""

    def said(self, back, *changes, to=1):
        file, text = scenes.returned(back, to)
        for old, new in changes:
            self.assertEqual(text.count(old), 1, old)
            text = text.replace(old, new)
        return audit.problems(history.read("returned", file, text))

    def test_from_a_cent_to_the_order(self):
        for back in (1, 2, 39999, 40000):
            for to in (1, 0):
                self.assertEqual(self.said(back, to=to), [], (back, to))

    def test_the_orders_amount_is_told_at_the_return(self):
        for to in (1, 0):
            found = self.said(39900, ("R 0 6 0 39900\nT 6", "R 0 6 0 40000\nT 6"), to=to)
            self.assertEqual(found, [f"ticket 5: a report 6 {TX1} tells 400.00, and ticket 5 returns 399.00"])

    def test_the_orders_amount_is_repeated(self):
        for to in (1, 0):
            found = self.said(39900, ("R 0 6 0 39900\nC", "R 0 6 0 40000\nC"), to=to)
            self.assertEqual(found, [f"ticket 6: a report 6 {TX1} tells 400.00, and ticket 5 returns 399.00"])

    def test_the_charge_is_told(self):
        found = self.said(39900, ("R 0 6 0 39900\nT 6", "R 0 6 0 100\nT 6"))
        self.assertEqual(found, [f"ticket 5: a report 6 {TX1} tells 1.00, and ticket 5 returns 399.00"])

    def test_a_cent_off(self):
        for back, told in ((1, 2), (39999, 40000), (39999, 39998), (40000, 39999)):
            found = self.said(back, (f"R 0 6 0 {back}\nC", f"R 0 6 0 {told}\nC"))
            due = f"tells {euro(told)}, and ticket 5 returns {euro(back)}"
            self.assertEqual(found, [f"ticket 6: a report 6 {TX1} {due}"])

    def test_the_returned_amount_in_another_report(self):
        found = self.said(39900, ("R 0 6 0 39900\nC", "R 0 2 0 39900\nC"))
        self.assertEqual(found, [f"ticket 6: a report 2 {TX1} tells 399.00, and the order is over 400.00"])
        found = self.said(39900, ("R 1 5 0 40000", "R 1 5 0 39900"))
        self.assertEqual(found, [f"ticket 3: a report 5 {TX1} tells 399.00, and the order is over 400.00"])

    def test_a_return_is_told_before_there_is_one(self):
        for told in (39900, 40000):
            found = self.said(39900, ("T 4 0 2 0\nR 0 2 0 40000\nR 1 8 0 40000", f"T 4 0 1 0\nR 0 6 0 {told}"))
            self.assertEqual(found, [f"ticket 4: a report 6 {TX1}, and no return of it was accepted by then"])

    def test_a_return_is_told_that_was_turned_back(self):
        moved = ("C 0 99900 0 0\nC 1 100 0 0", "C 0 60000 0 0\nC 1 40000 0 0")
        found = self.said(39900, ("T 5 0 1 0\nR 0 6 0 39900", "T 5 18 0 0"), moved)
        self.assertEqual(found, [f"ticket 6: a report 6 {TX1}, and no return of it was accepted by then"])

    def test_a_return_is_told_of_an_order_whose_recall_is_declined(self):
        text = scenes.output("busy").replace("R 0 7 4 6000\nT 27", "R 0 6 4 6000\nT 27")
        found = audit.problems(scenes.day("busy", text))
        self.assertEqual(found, ["ticket 26: a report 6 about order 4 (IN-TIME), and no return of it was accepted by then"])

    def test_that_an_inquiry_is_not_told_of_the_return_is_out_of_sight(self):
        """Which report it should have been is for the rules. A 2 and a 7 carry the order's amount."""
        for code in (2, 7):
            self.assertEqual(self.said(39900, ("R 0 6 0 39900\nC", f"R 0 {code} 0 40000\nC")), [])

    def test_a_return_is_told_to_nobody(self):
        found = self.said(39900, ("T 5 0 1 0\nR 0 6 0 39900", "T 5 0 0 0"))
        self.assertIn("ticket 5 was accepted, and its report 6 is missing", found)

    def test_cover_moves_by_the_orders_amount(self):
        found = self.said(39900, ("C 0 99900 0 0", "C 0 100000 0 0"), ("C 1 100 0 0", "C 1 0 0 0"))
        due = ["AAAALV22XXX: available adds up to 999.00, and the output closes it at 1,000.00"]
        self.assertEqual(found, [*due, "BBBBLV22XXX: available adds up to 1.00, and the output closes it at 0.00"])

    def test_a_return_above_the_order(self):
        """By one who pays itself, so that there is cover for it."""
        told = "ticket 5 was accepted, and returns 400.01 of order 0 (TX1), which is over 400.00: 19 turns that back"
        self.assertEqual(self.said(40001, to=0), [told])

    def test_a_return_of_nothing(self):
        found = self.said(0)
        self.assertEqual(found, ["ticket 5 was accepted, and returns nothing of order 0 (TX1): 9 turns that back"])

    def test_an_order_returned_twice(self):
        """The rest is returned later: cover adds up, and the order doesn't."""
        text = scenes.changed(scenes.output("part-return"), "T 6 18 0 0", "T 6 0 1 0\nR 0 6 0 100")
        text = scenes.changed(scenes.changed(text, "C 0 99900 0 0", "C 0 100000 0 0"), "C 1 100 0 0", "C 1 0 0 0")
        found = audit.problems(scenes.day("part-return", text))
        self.assertEqual(found, ["order 0 (TX1) is returned more than once: at tickets 4, 6"])


OF_A, OF_B = "order 0 (1 of AAAALV22)", "order 1 (1 of BBBBLV22)"
NOT_HELD = "no order has its payer and TxId"


class Keys(unittest.TestCase):
    """Two payers number their orders from 1: 12, 13, 16 and 17 go by payer and TxId together, and so does what is told of an order."""

    def said(self, *changes):
        text = scenes.numbered()[1]
        for line, other in changes:
            text = scenes.changed(text, line, other)
        return audit.problems(scenes.numbered_day(text))

    def alone(self, *steps):
        """What is said of tickets behind those of the day, each with its refusal and its reports."""
        return audit.problems(history.read("numbered", *scenes.numbered(*steps)))

    def test_the_right_output(self):
        self.assertEqual(self.said(), [])

    def test_each_number(self):
        """What is not noticed is what is out of sight, and all of it: of this day nothing but the rows of an order."""
        tried = 0
        for change, text in numbers_changed(scenes.numbered_day(), scenes.numbered()[1]):
            tried += 1
            self.assertEqual(not audit.problems(scenes.numbered_day(text)), is_out_of_sight(*change), change)
        self.assertGreater(tried, 190)

    def test_each_line_taken_out_or_doubled(self):
        file, output = scenes.numbered()
        lines = output.splitlines(keepends=True)
        for at, line in enumerate(lines):
            for text in (lines[:at] + lines[at + 1 :], lines[: at + 1] + lines[at:]):
                self.assertTrue(audit.problems(history.read("changed", file, "".join(text))), line)

    def test_13_by_the_txid_alone(self):
        """The other order with that TxId is another payer's."""
        order = f"08:03:01 order {{}} from {{}} to CCCCLV22 EUR 1.00 {scenes.IBAN}"
        said = "ticket 16 was turned back by 13, and no order before has its payer and TxId"
        self.assertEqual(self.alone((order.format(2, "BBBBLV22"), 13)), [said])
        self.assertEqual(self.alone((order.format(1, "CCCCLV22"), 13)), [said])
        self.assertEqual(self.alone((order.format(1, "BBBBLV22"), 13)), [])
        self.assertEqual(self.alone((order.format(2, "AAAALV22"), 13)), [])

    def test_13_that_is_missing(self):
        """Of an order that is refused, of one that is returned, and behind another refusal that comes later."""
        order = f"08:03:01 order 1 from {{}} to CCCCLV22 EUR 1.00 {scenes.IBAN}"
        for payer, number, name in (("AAAALV22", 0, OF_A), ("BBBBLV22", 1, OF_B)):
            why = f"{name} has its payer and TxId: 13 turns that back"
            self.assertIn(f"ticket 16 was accepted, and {why}", self.alone((order.format(payer), 0, "2 1 3 100")))
            for other in (14, 15, 20):
                self.assertEqual(
                    self.alone((order.format(payer), other)), [f"ticket 16 was turned back by {other}, and {why}"]
                )
            self.assertEqual(self.alone((order.format(payer), 13)), [], number)

    def test_16_by_the_txid_alone(self):
        """The pair isn't held, though the TxId is another payer's: neither 17, 18 nor yes."""
        for ticket in (9, 11):
            for other in (17, 18):
                first = "comes first" if other == 17 else "turns that back"
                due = [f"ticket {ticket} was turned back by {other}, and {NOT_HELD}: 16 {first}"]
                self.assertEqual(self.said((f"T {ticket} 16 0 0", f"T {ticket} {other} 0 0")), due)
            self.assertEqual(
                self.said((f"T {ticket} 16 0 0", f"T {ticket} 0 0 0"))[0], f"ticket {ticket} was accepted, and {NOT_HELD}"
            )

    def test_16_that_is_not_due(self):
        for ticket, name, lines in ((7, OF_A, "R 0 2 0 40000"), (8, OF_B, "R 1 3 1 10000")):
            text = scenes.numbered()[1].replace(f"T {ticket} 0 1 0\n{lines}\n", f"T {ticket} 16 0 0\n")
            due = [f"ticket {ticket} was turned back by 16, and {name} has its payer and TxId"]
            self.assertEqual(audit.problems(scenes.numbered_day(text)), due)

    def test_an_unknown_payer_is_no_unknown_sender(self):
        due = [f"ticket 11 was turned back by 12, and {NOT_HELD}: 16 turns that back"]
        self.assertEqual(self.said(("T 11 16 0 0", "T 11 12 0 0")), due)
        due = ["ticket 16 was turned back by 12, and its sender is a participant"]
        self.assertEqual(self.alone(("08:03:01 cover-in from AAAALV22 EUR 1.00", 12))[:1], due)
        self.assertEqual(self.alone(("08:03:01 tick", 12)), ["ticket 16 was turned back by 12, and has no sender"])

    def test_12_comes_first(self):
        """Whatever payer and TxId are."""
        sender = "its sender is no participant: 12"
        for line in ("inquiry 1 of AAAALV22", "answer 1 of ZZZZLV22 yes", "recall 9 of BBBBLV22 TECH"):
            self.assertEqual(self.alone((f"08:03:01 {line} from ZZZZLV22", 12)), [])
            for other in (16, 17):
                due = [f"ticket 16 was turned back by {other}, and {sender} comes first"]
                self.assertEqual(self.alone((f"08:03:01 {line} from ZZZZLV22", other)), due)

    def test_the_payer_held_against_the_sender(self):
        """A recall and an inquiry about another's order: 17 where the pair is held, and not 16 or 7 to 12."""
        why = f"its sender is not the payer of {OF_B}: 17 turns that back"
        for other in (12, 16):
            self.assertEqual(
                self.said(("T 10 17 0 0", f"T 10 {other} 0 0")), [f"ticket 10 was turned back by {other}, and {why}"]
            )
        due = [f"ticket 16 was turned back by 17, and {NOT_HELD}: 16 comes first"]
        self.assertEqual(self.alone(("08:03:01 recall 2 of BBBBLV22 TECH from AAAALV22", 17)), due)
        self.assertEqual(self.alone(("08:03:01 recall 2 of BBBBLV22 TECH from AAAALV22", 16)), [])

    def test_17_that_is_not_due(self):
        for line, side, name in (
            ("inquiry 1 of BBBBLV22 from BBBBLV22", "payer", OF_B),
            ("answer 1 of AAAALV22 no from CCCCLV22", "payee", OF_A),
            ("answer 2 of AAAALV22 yes from AAAALV22", "payee", "order 2 (2)"),
        ):
            due = [f"ticket 16 was turned back by 17, and its sender is the {side} of {name}"]
            self.assertEqual(self.alone((f"08:03:01 {line}", 17)), due)

    def test_refusals_that_a_kind_never_gets(self):
        for line, refusal, why in (
            ("cover-out from AAAALV22 EUR 1.00", 13, "is no order"),
            ("inquiry 1 from AAAALV22", 13, "is no order"),
            ("cut", 16, "names no order"),
            (f"order 3 from BBBBLV22 to CCCCLV22 EUR 1.00 {scenes.IBAN}", 16, "names no order"),
            ("confirm from AAAALV22 EUR 0.00", 17, "names no order"),
        ):
            self.assertEqual(
                self.alone((f"08:03:01 {line}", refusal)), [f"ticket 16 was turned back by {refusal}, and {why}"]
            )

    def test_11_comes_first(self):
        for refusal in (12, 13, 16, 17):
            due = [f"ticket 16 was turned back by {refusal}, and its time is before the clock: 11 comes first"]
            self.assertEqual(self.alone(("08:00:00 inquiry 1 from CCCCLV22", refusal)), due)

    def test_an_inquiry_that_repeats_how_anothers_order_ended(self):
        """AAAALV22 asks about its order and is told of BBBBLV22's, or the other way round."""
        found = self.said(("T 7 0 1 0", "T 7 0 2 0\nR 0 3 1 10000"))
        self.assertIn("ticket 7: a report 3 is about order 1, and the ticket is about another", found)
        self.assertIn(f"ticket 7: a report 3 about {OF_B} goes to AAAALV22XXX, and must not", found)
        text = scenes.numbered()[1].replace("T 8 0 1 0\nR 1 3 1 10000", "T 8 0 1 0\nR 1 2 0 40000")
        found = audit.problems(scenes.numbered_day(text))
        self.assertIn("ticket 8: a report 2 is about order 0, and the ticket is about another", found)
        self.assertIn(f"{OF_A} stops waiting more than once: at tickets 5, 8", found)

    def test_an_inquiry_that_repeats_an_expiry_of_anothers_order(self):
        """Any ticket may bring a 4, so that it is a second end tells it."""
        first = (*scenes.NUMBERED[:4], ("08:00:26 tick", 0, "0 4 0 40000", "2 4 0 40000", "1 4 1 10000", "2 4 1 10000"))
        closed = ("0 100000 0 0", "1 50000 0 0", "2 0 0 0")
        said = lambda *steps: audit.problems(
            history.read("x", *scenes.stepped(*first, *steps, closed=closed, banks=scenes.THREE))
        )
        for bic, number, amount, other, name in (("AAAALV22", 0, 40000, 1, OF_B), ("BBBBLV22", 1, 10000, 0, OF_A)):
            self.assertEqual(said((f"08:00:27 inquiry 1 from {bic}", 0, f"{number} 4 {number} {amount}")), [])
            found = said((f"08:00:27 inquiry 1 from {bic}", 0, f"{other} 4 {other} {50000 - amount}"))
            self.assertEqual(found, [f"{name} stops waiting more than once: at tickets 4, 5"])

    def test_an_answer_that_settles_anothers_order(self):
        """The payee says yes to AAAALV22's, and BBBBLV22's is settled."""
        text = scenes.numbered()[1].replace("R 0 2 0 40000\nR 2 2 0 40000", "R 1 2 1 10000\nR 2 2 1 10000")
        found = audit.problems(scenes.numbered_day(text))
        self.assertIn("ticket 5: a report 2 is about order 1, and the ticket is about another", found)


TOP = 2**32 - 1
TX2 = f"order TX2 from AAAALV22 to BBBBLV22 EUR 50.00 {scenes.IBAN}"


def recall(time, refusal, *reports):
    """A recall of TX1 by its payer, with its refusal and its reports; its own if it has none."""
    told = reports or (() if refusal else ("1 5 0 40000",))
    return f"{time} recall TX1 FRAD from AAAALV22", refusal, *told


COVER = ("0 cover-in from AAAALV22 EUR 1000.00", 0)
ORDER = (f"5 order TX1 from AAAALV22 to BBBBLV22 EUR 400.00 {scenes.IBAN}", 0, "1 1 0 40000")
LINKED_YES = ("900000 answer TX1 yes from BBBBLV22", 0, "0 2 0 40000")
BACK = ("0 100000 0 0", "1 0 0 0")  # closing positions where the payer has its cover again


def problems(*steps, **how):
    """What is said of an order of 400.00 and what comes behind it."""
    return audit.problems(history.read("ordered", *scenes.stepped(COVER, ORDER, *steps, **how)))


def in_time(ticket, seconds):
    told = f"ticket {ticket} was turned back by 26, and recalls order 0 (TX1)"
    return [f"{told} {seconds:,} seconds after its settlement: that is in time"]


def too_late(became, seconds):
    return [f"{became}, and recalls order 0 (TX1) {seconds:,} seconds after its settlement: 26 turns that back"]


class Recalls(unittest.TestCase):
    """An order of 400.00 that ticket 2 settles, in second 24 unless said otherwise, and tickets from 3 on: what is said of the
    right output, and of others."""

    def said(self, *steps, **how):
        return audit.problems(history.read("settled", *scenes.settled(*steps, **how)))

    def test_the_last_moment(self):
        for seconds in (0, 1, 863_998, 863_999):
            self.assertEqual(self.said(recall(24 + seconds, 0)), [])
            self.assertEqual(self.said(recall(24 + seconds, 26)), in_time(3, seconds))

    def test_from_864_000_seconds_on(self):
        for seconds in (864_000, 864_001, 100_000_000):
            self.assertEqual(self.said(recall(24 + seconds, 26)), [])
            self.assertEqual(self.said(recall(24 + seconds, 0)), too_late("ticket 3 was accepted", seconds))
            for other in (12, 16, 17, 18, 19, 22):
                found = self.said(recall(24 + seconds, other))
                self.assertEqual(found, too_late(f"ticket 3 was turned back by {other}", seconds))

    def test_what_7_to_11_turn_back_is_not_looked_at(self):
        for refusal in range(7, 12):
            self.assertEqual(self.said(recall(864_024, refusal)), [])

    def test_before_the_clock(self):
        """A recall timed before the clock is for 11, though its own time is late."""
        tick = ("900000 tick", 0)
        self.assertEqual(self.said(tick, recall(890_000, 11)), [])
        for refusal in (0, 18):
            self.assertNotIn("26 turns that back", " ".join(self.said(tick, recall(890_000, refusal))))
        first = "ticket 4 was turned back by 26, and its time is before the clock: 11 comes first"
        self.assertIn(first, self.said(tick, recall(890_000, 26)))
        self.assertEqual(self.said(tick, recall(900_000, 26)), [])

    def test_counted_from_the_settlement(self):
        """The order waits for a linked system, longer than a recall may take."""
        waited = {"kind": "linked", "ordered": 5, "at": 2_000_000}
        self.assertEqual(self.said(recall(2_000_000, 26), **waited), in_time(3, 0))
        self.assertEqual(self.said(recall(2_863_999, 26), **waited), in_time(3, 863_999))
        self.assertEqual(self.said(recall(2_863_999, 0), **waited), [])
        self.assertEqual(self.said(recall(2_864_000, 26), **waited), [])
        self.assertEqual(self.said(recall(2_864_000, 0), **waited), too_late("ticket 3 was accepted", 864_000))

    def test_near_the_top_of_32_bits(self):
        """A settlement 864,000 seconds before the last second has one late moment, a later one has none."""
        self.assertEqual(self.said(recall(TOP, 26), at=4_294_103_295), [])
        self.assertEqual(self.said(recall(TOP, 0), at=4_294_103_295), too_late("ticket 3 was accepted", 864_000))
        self.assertEqual(self.said(recall(TOP - 1, 0), at=4_294_103_295), [])
        for at, seconds in ((4_294_103_296, 863_999), (4_294_103_297, 863_998), (TOP, 0)):
            self.assertEqual(self.said(recall(TOP, 0), at=at), [])
            self.assertEqual(self.said(recall(TOP, 26), at=at), in_time(3, seconds))
            self.assertEqual(self.said(recall(at, 26), at=at), in_time(3, 0))

    def test_18_comes_first(self):
        """Of an order that is asked, declined or returned."""
        asked = [recall(864_023, 0)]
        declined = [*asked, ("864023 decline TX1 CUST from BBBBLV22", 0, "0 7 0 40000")]
        returned = [*asked, ("864023 return TX1 from BBBBLV22 EUR 400.00", 0, "0 6 0 40000")]
        for before, closed in ((asked, scenes.PAID), (declined, scenes.PAID), (returned, BACK)):
            self.assertEqual(self.said(*before, recall(864_024, 18), closed=closed), [])
            due = f"ticket {3 + len(before)} was turned back by 26, and ticket 3 recalled order 0 (TX1): 18 comes first"
            self.assertEqual(self.said(*before, recall(864_024, 26), closed=closed), [due])

    def test_18_comes_first_of_an_order_that_is_not_settled(self):
        """It waits, is refused, has expired, or is settled later."""
        no = ("6 answer TX1 no from BBBBLV22", 0, "0 3 0 40000")
        expired = ("25 tick", 0, "0 4 0 40000", "1 4 0 40000")
        cases = (
            ("linked", (), (), ("0 60000 40000 0", "1 0 0 0")),
            ("bank", (no,), (), BACK),
            ("bank", (expired,), (), BACK),
            ("linked", (), (LINKED_YES,), scenes.PAID),
        )
        for kind, before, after, closed in cases:
            told = f"ticket {2 + len(before)} was turned back by 26, and order 0 (TX1) is not settled: 18 comes first"
            for refusal, due in ((18, []), (26, [told])):
                found = problems(*before, recall(900_000, refusal), *after, kind=kind, closed=closed)
                self.assertEqual(found, due, (kind, before, after))

    def test_12_16_and_17_come_first(self):
        cases = {
            "TX1 FRAD from ZZZZLV22": (12, "its sender is no participant: 12 comes first"),
            "TX9 FRAD from ZZZZLV22": (12, "its sender is no participant: 12 comes first"),
            "TX9 FRAD from AAAALV22": (16, "no order has its payer and TxId: 16 comes first"),
            "TX1 FRAD from BBBBLV22": (16, "no order has its payer and TxId: 16 comes first"),
            "TX1 of AAAALV22 FRAD from BBBBLV22": (17, "its sender is not the payer of order 0 (TX1): 17 comes first"),
        }
        for words, (first, why) in cases.items():
            self.assertEqual(self.said((f"864024 recall {words}", first)), [])
            found = self.said((f"864024 recall {words}", 26))
            self.assertEqual(found, [f"ticket 3 was turned back by 26, and {why}"])

    def test_nothing_but_a_recall_comes_too_late(self):
        """Neither a return nor a decline of an order that was recalled in time, nor any other ticket."""
        lines = ["return TX1 from BBBBLV22 EUR 400.00", "decline TX1 CUST from BBBBLV22", "inquiry TX1 from AAAALV22"]
        lines += ["answer TX1 yes from BBBBLV22", TX2, "cover-in from AAAALV22 EUR 1.00", "cut", "tick"]
        for line in lines:
            found = self.said(recall(864_023, 0), (f"864024 {line}", 26))
            self.assertEqual(found, ["ticket 4 was turned back by 26, and is no recall"])

    def test_the_answer_to_a_recall_has_no_limit(self):
        for time in (864_024, 1_728_023, TOP):
            asked = recall(864_023, 0)
            self.assertEqual(self.said(asked, (f"{time} decline TX1 CUST from BBBBLV22", 0, "0 7 0 40000")), [])
            back = (f"{time} return TX1 from BBBBLV22 EUR 400.00", 0, "0 6 0 40000")
            self.assertEqual(self.said(asked, back, closed=BACK), [])

    def test_a_late_recall_marks_nothing(self):
        """Another gets 26 again, an inquiry tells the payer alone, and neither a return nor a decline is accepted."""
        late = recall(864_024, 26)
        lines = ("decline TX1 CUST from BBBBLV22", "return TX1 from BBBBLV22 EUR 400.00")
        self.assertEqual(self.said(late, recall(864_024, 26), recall(864_025, 26)), [])
        self.assertEqual(self.said(late, ("864025 inquiry TX1 from AAAALV22", 0, "0 2 0 40000")), [])
        self.assertEqual(self.said(late, *((f"864025 {line}", 18) for line in lines)), [])

    def test_a_late_recall_that_marks(self):
        late, none = recall(864_024, 26), "no recall of order 0 (TX1) was accepted before"
        found = self.said(late, recall(864_025, 18))
        self.assertEqual(found, too_late("ticket 4 was turned back by 18", 864_001))
        for to, code in ((1, 8), (0, 7)):
            found = self.said(late, ("864025 inquiry TX1 from AAAALV22", 0, "0 2 0 40000", f"{to} {code} 0 40000"))
            self.assertEqual(found, [f"ticket 4 has a report {code}, and {none}"])
        found = self.said(late, ("864025 decline TX1 CUST from BBBBLV22", 0, "0 7 0 40000"))
        self.assertEqual(found, [f"ticket 4 was accepted, and {none}: 18 turns that back"])
        back = ("864025 return TX1 from BBBBLV22 EUR 400.00", 0, "0 6 0 40000")
        found = self.said(late, back, closed=BACK)
        self.assertEqual(found, [f"ticket 4 was accepted, and {none}: 18 turns that back"])

    def test_an_8_about_a_waiting_order_needs_no_recall(self):
        """It goes to a linked system, whose answer to the order itself is due; a 7 needs one."""
        asked = ("900000 inquiry TX1 from AAAALV22", 0, "1 8 0 40000")
        self.assertEqual(problems(asked, LINKED_YES, kind="linked"), [])
        told = ("900000 inquiry TX1 from AAAALV22", 0, "0 7 0 40000")
        due = "ticket 2 has a report 7, and no recall of order 0 (TX1) was accepted before"
        self.assertEqual(problems(told, LINKED_YES, kind="linked"), [due])

    def test_it_leaves_what_a_tick_leaves(self):
        """The clock moves: an order whose 20 seconds are over expires, and another doesn't."""
        ends, waits = ("0 4 1 5000", "1 4 1 5000"), ("0 55000 5000 0", "1 40000 0 0")
        ordered = lambda time: (f"{time} {TX2}", 0, "1 1 1 5000")
        self.assertEqual(self.said(ordered(864_004), recall(864_024, 26, *ends)), [])
        self.assertEqual(self.said(ordered(864_005), recall(864_024, 26), closed=waits), [])
        found = self.said(ordered(864_004), recall(864_024, 26), closed=waits)
        due = "ticket 4 must let order 1 (TX2) expire, 20 seconds after it, and doesn't"
        self.assertEqual(found, [due])
        found = self.said(ordered(864_004), recall(864_024, 26), ("864024 tick", 0, *ends))
        self.assertEqual(found, ["ticket 5 lets order 1 (TX2) expire 20 seconds after it, and must not"])
        found = self.said(ordered(864_005), recall(864_024, 26, *ends))
        self.assertEqual(found, ["ticket 4 lets order 1 (TX2) expire 19 seconds after it, and must not"])

    def test_it_tells_nothing_but_expiries(self):
        for code, to in ((2, 0), (5, 1), (7, 0), (8, 1)):
            found = self.said(recall(864_024, 26, f"{to} {code} 0 40000"))
            self.assertIn(f"ticket 3: a report {code} comes from a ticket that doesn't bring it", found)

    def test_one_who_pays_itself(self):
        order = (f"5 order TX1 from AAAALV22 to AAAALV22 EUR 400.00 {scenes.IBAN}", 0, "0 1 0 40000")
        yes = ("24 answer TX1 yes from AAAALV22", 0, "0 2 0 40000", "0 2 0 40000")
        said = lambda step: audit.problems(history.read("itself", *scenes.stepped(COVER, order, yes, step, closed=BACK)))
        self.assertEqual(said(recall(864_023, 0, "0 5 0 40000")), [])
        self.assertEqual(said(recall(864_024, 26)), [])
        self.assertEqual(said(recall(864_024, 0, "0 5 0 40000")), too_late("ticket 3 was accepted", 864_000))

    def test_a_messages_refusal_is_no_tickets(self):
        for refusal in (23, 24, 25, 27):
            found = self.said(recall(24, refusal))
            due = f"ticket 3 has refusal {refusal}, and the program gives a ticket 0, 7 to 22 or 26"
            self.assertEqual(found, [due])


if __name__ == "__main__":
    unittest.main()
