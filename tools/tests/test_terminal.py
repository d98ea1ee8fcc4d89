"""A day in columns."""

import unittest

from tests import scenes
from zolfigar import audit, terminal

PLAIN = terminal.Style(False)


def shown(name, text=None, **wanted):
    day = scenes.day(name, text)
    return list(terminal.lines(day, audit.problems(day), PLAIN, **wanted))


class Whole(unittest.TestCase):
    def test_case_d(self):
        self.assertEqual("\n".join(shown("case-d")), CASE_D)

    def test_columns_are_aligned(self):
        lines = shown("busy")
        head = next(i for i, line in enumerate(lines) if line.startswith("Cover of AAAALV22"))
        table = lines[head + 1 : head + 20]
        self.assertEqual(len({len(line) for line in table[:19]}), 1)

    def test_a_tampered_output_is_told_first(self):
        text = scenes.changed(scenes.output("case-d"), "C 0 600 0 0", "C 0 601 0 0")
        lines = shown("case-d", text)
        self.assertEqual(lines[1], "One thing doesn't add up:")
        self.assertIn(
            "  6.01 available + 0.00 reserved + 0.00 held = 6.01, the program's line C 0: it doesn't add up", lines
        )

    def test_a_refused_file(self):
        day = scenes.day("refused-4")
        due = "refused-4: the day file is refused by 4: a participant row is wrong: "
        due += "BIC, kind, wish, opening, spare, or an earlier row's BIC"
        self.assertEqual(list(terminal.refused(day, [], PLAIN)), [due, "No ticket was looked at, and there is no cover."])


class Followed(unittest.TestCase):
    def test_one_member(self):
        lines = shown("busy", member=3)
        numbers = [int(line.split()[0]) for line in lines[4 : lines.index("Orders") - 1] if not line.startswith(" " * 16)]
        self.assertEqual(numbers, [7, 8, 18, 19, 33, 34, 35, 37, 40, 44, 45, 46])
        covers = [line for line in lines if line.startswith("Cover of")]
        self.assertEqual(covers, ["Cover of DDDDEE2X (participant 3, bank, opening cover 0.00)"])

    def test_one_order(self):
        day = scenes.day("busy")
        lines = list(terminal.lines(day, [], PLAIN, order=day.orders[3]))
        self.assertIn("      3  LATE  AAAALV22  BBBBLV22   60.00  08:01:00  expired             10   20 s", lines)
        self.assertEqual(lines[-1], "  08:01:20      10  AAAALV22  order 3 LATE expired, freed             +60.00    -60.00")


class Returned(unittest.TestCase):
    def test_an_order_says_what_was_kept(self):
        orders = "\n".join(shown("part-return")).split("\nOrders\n")[1].split("\n\n")[0]
        self.assertEqual(orders, PART_ORDERS)

    def test_a_statement_says_what_was_kept(self):
        self.assertTrue("\n".join(shown("part-return")).endswith(PART_STATEMENT))

    def test_one_order(self):
        order = scenes.day("part-return").orders[0]
        lines = shown("part-return", order=order)
        self.assertIn(PART_ORDERS.split("\n")[1], lines)
        told = "                  to AAAALV22: the order is returned (6), order 0 TX1, EUR 399.00 of 400.00"
        self.assertEqual(lines.count(told), 2)
        self.assertEqual("\n".join(lines[-2:]), PART_MOVED)

    def test_a_whole_return_has_no_more_words(self):
        orders = [line for line in shown("busy") if line.startswith("      0  SALARY-1")]
        due = "      0  SALARY-1   AAAALV22  BBBBLV22   40.00  08:00:05  returned              4    4 s"
        self.assertEqual(orders, [due])
        self.assertFalse([line for line in shown("busy") if "charge" in line])


class LateRecalls(unittest.TestCase):
    def shown(self, member=None, order=None):
        day = scenes.late_day()
        return list(terminal.lines(day, audit.problems(day), PLAIN, member, order))

    def test_why_and_what_it_leaves(self):
        """In the whole day, of the payer, who sent it, and of the order: the reason below the ticket, and the order settled."""
        for member, order in ((None, None), (0, None), (None, scenes.late_day().orders[0])):
            lines = self.shown(member, order)
            self.assertEqual("\n".join(lines[lines.index(LATE[0]) :][: len(LATE)]), "\n".join(LATE))
            [found] = [line.split() for line in lines if line.startswith("      0  TX1 ")]
            self.assertEqual(" ".join(found[6:]), "settled, not recalled: too late 2 19 s")

    def test_the_payee_sees_its_order_settled(self):
        orders = [line.split()[6:11] for line in self.shown(member=1) if line.startswith("      0  TX1 ")]
        self.assertEqual(orders, [["settled,", "not", "recalled:", "too", "late"]])

    def test_it_adds_up(self):
        self.assertEqual(self.shown()[1], "Everything adds up: every cover, every wait, every ending.")


class Colour(unittest.TestCase):
    def test_only_where_it_is_wanted(self):
        day = scenes.day("case-e")
        self.assertNotIn("\x1b", "".join(terminal.lines(day, [], PLAIN)))
        self.assertIn("\x1b[33mturned back", "".join(terminal.lines(day, [], terminal.Style(True))))


CASE_D = """\
case-d: 4 tickets: 4 carried out, 0 turned back; 1 order: 1 settled
Everything adds up: every cover, every wait, every ending.

Tickets
    0  00:00:00  cover-in from AAAALV22 EUR 10.00
                carried out
    1  00:00:05  order TX1 from AAAALV22 to BBBBLV22 EUR 4.00 iban LV80BANK0000435195001
                carried out, 1 route row followed
                  to BBBBLV22: an order to answer (1), order 0 TX1, EUR 4.00
    2  00:00:24  answer TX1 of AAAALV22 yes from BBBBLV22
                carried out
                  to AAAALV22: the order is settled (2), order 0 TX1, EUR 4.00
                  to BBBBLV22: the order is settled (2), order 0 TX1, EUR 4.00
    3  00:00:30  inquiry TX1 of AAAALV22 from AAAALV22
                carried out
                  to AAAALV22: the order is settled (2), order 0 TX1, EUR 4.00

Orders
  order  TxId  payer     payee     amount        at  status   wait ended by  after
      0  TX1   AAAALV22  BBBBLV22    4.00  00:00:05  settled              2   19 s

Cover of AAAALV22 (participant 0, bank, no opening cover)
      time  ticket  what                                change  available  reserved  held
                    from zero                                        0.00      0.00  0.00
  00:00:00       0  cover in                            +10.00      10.00      0.00  0.00
  00:00:05       1  order 0 TX1 reserved, for BBBBLV22  (4.00)       6.00      4.00  0.00
  00:00:24       2  order 0 TX1 settled, to BBBBLV22     -4.00       6.00      0.00  0.00
  10.00 cover-ins - 4.00 orders settled from it = 6.00
  6.00 available + 0.00 reserved + 0.00 held = 6.00, the program's line C 0

Cover of BBBBLV22 (participant 1, bank, no opening cover)
      time  ticket  what                                change  available  reserved  held
                    from zero                                        0.00      0.00  0.00
  00:00:24       2  order 0 TX1 settled, from AAAALV22   +4.00       4.00      0.00  0.00
  4.00 orders settled to it = 4.00
  4.00 available + 0.00 reserved + 0.00 held = 4.00, the program's line C 1"""


PART_ORDERS = """\
  order  TxId  payer     payee     amount        at  status                                  wait ended by  after
      0  TX1   AAAALV22  BBBBLV22  400.00  08:00:05  returned 399.00 of 400.00, charge 1.00              2    4 s
      1  TX2   AAAALV22  BBBBLV22  100.00  10:00:00  returned                                            8    4 s"""


PART_STATEMENT = """
Cover of BBBBLV22 (participant 1, bank, no opening cover)
      time  ticket  what                                                               change  available  reserved  held
                    from zero                                                                       0.00      0.00  0.00
  08:00:09       2  order 0 TX1 settled, from AAAALV22                                +400.00     400.00      0.00  0.00
  09:10:00       4  order 0 TX1 returned, to AAAALV22: 399.00 of 400.00, charge 1.00  -399.00       1.00      0.00  0.00
  10:00:04       8  order 1 TX2 settled, from AAAALV22                                +100.00     101.00      0.00  0.00
  10:40:10      11  order 1 TX2 returned, to AAAALV22                                 -100.00       1.00      0.00  0.00
  500.00 orders settled to it - 499.00 returns by it = 1.00
  1.00 available + 0.00 reserved + 0.00 held = 1.00, the program's line C 1"""


PART_MOVED = """\
  09:10:00       4  BBBBLV22  order 0 TX1 returned, to AAAALV22: 399.00 of 400.00, charge 1.00      -399.00
  09:10:00       4  AAAALV22  order 0 TX1 returned, from BBBBLV22: 399.00 of 400.00, charge 1.00    +399.00"""


LATE = """\
    6 240:00:24  recall TX1 of AAAALV22 FRAD from AAAALV22
                turned back, 26 XT86: the recall is too late: settled at 00:00:24, the last moment was 240:00:23
                  to AAAALV22: the order has expired (4), order 2 TX3, EUR 50.00
                  to BBBBLV22: the order has expired (4), order 2 TX3, EUR 50.00
    7 240:00:25  recall TX1 of AAAALV22 TECH from AAAALV22
                turned back, 26 XT86: the recall is too late: settled at 00:00:24, the last moment was 240:00:23
    8 240:00:26  inquiry TX1 of AAAALV22 from AAAALV22
                carried out
                  to AAAALV22: the order is settled (2), order 0 TX1, EUR 400.00""".split(
    "\n"
)


if __name__ == "__main__":
    unittest.main()
