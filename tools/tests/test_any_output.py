"""Whatever the day file and the output are, they are explained or called wrong, on the terminal, as a page and as a journal."""

import random
import unittest

from tests import scenes
from zolfigar import audit, history, journal, page, terminal


def any_line(rng):
    number = lambda: str(rng.choice((0, 0, 1, 1, 2, 3, 4, 5, 10, 11, 18, 26, 400, 65535, 2**64)))
    letter = rng.choice("TTTRRRC")
    return " ".join([letter] + [number() for _ in range(4)])


def any_output(rng, text):
    """Lines of the right form, in any order, or the text with some lines replaced, taken out or doubled."""
    lines = text.splitlines()
    if rng.random() < 0.3:
        lines = [any_line(rng) for _ in range(rng.randrange(30))]
    for _ in range(rng.randrange(1, 6)):
        at = rng.randrange(len(lines) + 1)
        lines[at : at + rng.randrange(2)] = rng.choice(([], [any_line(rng)], [any_line(rng)] * 2, ["F 3"], ["nonsense"]))
    return "\n".join(lines) + rng.choice(("\n", "\n", ""))


def any_file(rng, file):
    """The day file, or one with some bytes changed, or cut off."""
    if rng.random() < 0.5:
        return file
    changed = bytearray(file)
    for _ in range(rng.randrange(8)):
        changed[rng.randrange(len(changed))] = rng.randrange(256)
    return bytes(changed[: rng.randrange(len(changed) + 1)]) if rng.random() < 0.3 else bytes(changed)


class AnyOutput(unittest.TestCase):
    def test_no_output_is_too_much(self):
        rng = random.Random(8)
        told = 0
        for _ in range(150):
            name = rng.choice(("case-d", "case-e", "busy", "part-return"))
            day = history.read(name, any_file(rng, scenes.day_file(name)), any_output(rng, scenes.output(name)))
            problems = audit.problems(day)
            told += bool(problems)
            shown = terminal.refused if day.refusal is not None else terminal.lines
            self.assertTrue("\n".join(shown(day, problems, terminal.Style(False))))
            self.assertTrue(journal.journal(day).startswith("; "))
            self.assertTrue(page.page(day).startswith("<!DOCTYPE html>"))
        self.assertGreater(told, 120)


if __name__ == "__main__":
    unittest.main()
