"""The paper's numbers and codes."""

import unittest

from zolfigar import audit, telling, words
from zolfigar.history import TERMS


class Words(unittest.TestCase):
    def test_kinds_flags_and_fields(self):
        self.assertEqual(sorted(words.KINDS), list(range(1, 12)))
        self.assertEqual(sorted(words.LISTED), sorted(words.KINDS))
        flags = {kind: sorted(found) for kind, found in words.FLAGS.items()}
        self.assertEqual(flags, {4: [1, 2], 5: [1, 2, 3, 4], 7: [*range(1, 8)]})
        self.assertEqual([kind for kind, listed in words.LISTED.items() if "flag" in listed], sorted(words.FLAGS))
        parties = {
            name: [kind for kind, listed in words.LISTED.items() if name in listed] for name in ("payee", "payer", "txid")
        }
        self.assertEqual(parties, {"payee": [3], "payer": [4, 5, 6, 7, 8], "txid": [3, 4, 5, 6, 7, 8]})

    def test_refusals(self):
        self.assertEqual(list(words.REFUSALS), [*range(1, 19), 26, *range(19, 26)])
        codes = {number: code for number, (code, _) in words.REFUSALS.items() if code}
        due = "7 XT33 8 XD19 9 AM01 10 AM02 11 DT01 13 AM05 14 PY01 15 TECH 16 AG09 17 XT87 18 XT75 26 XT86 19 XT77 20 AM04".split()
        self.assertEqual(codes, dict(zip(map(int, due[::2]), due[1::2])))

    def test_an_order_is_named_by_payer_and_txid(self):
        told = {number: words.REFUSALS[number][1] for number in (7, 13, 16)}
        for number, part in (
            (7, "payer's BIC"),
            (13, "this payer and TxId is already held"),
            (16, "this payer and TxId is held"),
        ):
            self.assertIn(part, told[number])

    def test_reports(self):
        self.assertEqual(sorted(words.REPORTS), list(range(1, 12)))
        self.assertEqual(sorted([*audit.CAUSES, 4]), sorted(words.REPORTS))

    def test_every_term_has_words(self):
        self.assertLessEqual(set(TERMS), set(telling.MOVES))


if __name__ == "__main__":
    unittest.main()
