"""A progress line on a terminal, and none elsewhere."""

import io
import unittest

from zolfigar.progress import over, show


class Terminal(io.StringIO):
    def isatty(self):
        return True


class Progress(unittest.TestCase):
    def test_none_when_piped(self):
        stream = io.StringIO()
        self.assertEqual(list(over([1, 2, 3], "days", stream)), [1, 2, 3])
        self.assertEqual(stream.getvalue(), "")

    def test_a_line_that_is_taken_away(self):
        stream = Terminal()
        self.assertEqual(list(over([1, 2, 3], "days", stream)), [1, 2, 3])
        self.assertIn("days: 0 of 3", stream.getvalue())
        self.assertTrue(stream.getvalue().endswith("\r\x1b[K"))

    def test_what_can_not_be_printed_is_shown_by_its_number(self):
        stream = Terminal()
        list(over([1], "lines of \x1b[31m", stream))
        show("rt: \x1b[31m", stream)
        self.assertEqual(stream.getvalue(), "\rlines of \\x1b[31m: 0 of 1\x1b[K\r\x1b[K\rrt: \\x1b[31m\x1b[K")

    def test_items_as_they_come(self):
        stream = Terminal()
        first = next(over(iter(int, 1), "days", stream, total=5))
        self.assertEqual(first, 0)
        self.assertIn("days: 0 of 5", stream.getvalue())

    def test_taken_away_when_left_half_way(self):
        stream = Terminal()
        items = over([1, 2], "days", stream)
        next(items)
        items.close()
        self.assertTrue(stream.getvalue().endswith("\r\x1b[K"))


if __name__ == "__main__":
    unittest.main()
