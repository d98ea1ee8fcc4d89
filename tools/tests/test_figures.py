"""Amounts and times as people read them."""

import unittest

from zolfigar.figures import clock, euro


class Figures(unittest.TestCase):
    def test_euro(self):
        cases = {0: "0.00", 5: "0.05", 400: "4.00", -5: "-0.05", 123456: "1,234.56", 10**18: "10,000,000,000,000,000.00"}
        self.assertEqual({cents: euro(cents) for cents in cases}, cases)

    def test_clock(self):
        cases = {0: "00:00:00", 86399: "23:59:59", 86400: "24:00:00", 2**32 - 1: "1193046:28:15"}
        self.assertEqual({seconds: clock(seconds) for seconds in cases}, cases)


if __name__ == "__main__":
    unittest.main()
