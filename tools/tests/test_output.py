"""The program's output, read line by line."""

import unittest

from tests import scenes
from zolfigar import output


class Reading(unittest.TestCase):
    def test_case_d(self):
        out = output.read(scenes.output("case-d"))
        self.assertEqual(out.problems, [])
        answers = [(a.number, a.refusal, a.report_count, a.rows) for a in out.answers]
        self.assertEqual(answers, [(0, 0, 0, 0), (1, 0, 1, 1), (2, 0, 2, 0), (3, 0, 1, 0)])
        reports = [tuple(r)[:4] for a in out.answers for r in a.reports]
        self.assertEqual(reports, [(1, 1, 0, 400), (0, 2, 0, 400), (1, 2, 0, 400), (0, 2, 0, 400)])
        self.assertEqual([tuple(p)[:4] for p in out.positions], [(0, 600, 0, 0), (1, 400, 0, 0)])
        self.assertIsNone(out.refusal)

    def test_a_refused_file(self):
        self.assertEqual((output.read("F 3\n").refusal, output.read("F 3\n").problems), (3, []))

    def test_what_is_not_of_the_form(self):
        cases = {
            "": [],
            "T 0 0 0 0": ["the last line of the output has no end: the output was cut off"],
            "hello\n": ["line 1 of the output is none of the program's: 'hello'"],
            "T 0 0 0\n": ["line 1 of the output is none of the program's: 'T 0 0 0'"],
            "T 0 0 00 0\n": ["line 1 of the output is none of the program's: 'T 0 0 00 0'"],
            "T 0 0 -1 0\n": ["line 1 of the output is none of the program's: 'T 0 0 -1 0'"],
            "T 0  0 0 0\n": ["line 1 of the output is none of the program's: 'T 0  0 0 0'"],
            "T 0 0 0 0\r\n": ["line 1 of the output is none of the program's: 'T 0 0 0 0\\r'"],
            "T 0 0 0 \u0661\n": ["line 1 of the output is none of the program's: 'T 0 0 0 \u0661'"],
            "\nT 0 0 0 0\n": ["line 1 of the output is none of the program's: ''"],
            "R 0 1 0 400\n": ["line 1: a report before the first ticket's line"],
            "C 0 0 0 0\nT 0 0 0 0\n": ["line 2: T behind the C lines"],
            "T 1 0 0 0\n": ["line 1: T 1 where T 0 was due"],
            "C 1 0 0 0\n": ["line 1: C 1 where C 0 was due"],
            "T 0 0 2 0\nR 0 1 0 400\n": ["line 1: ticket 0 should have 2 reports, and has 1"],
            "F 3\nT 0 0 0 0\n": ["line 1: a refused file prints its F line alone"],
        }
        self.assertEqual({text: output.read(text).problems for text in cases}, cases)


if __name__ == "__main__":
    unittest.main()
