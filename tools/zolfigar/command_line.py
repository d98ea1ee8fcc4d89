"""A command's line: its parser, and words that may not be empty."""

import argparse
from typing import NoReturn

from . import files


class Parser(argparse.ArgumentParser):
    """A parser whose errors show what can't be printed by its number."""

    def error(self, message: str) -> NoReturn:
        super().error(files.shown(message))


def given(word: str) -> str:
    """A word of the command line that names something."""
    if not word:
        raise argparse.ArgumentTypeError("expected a name, found none")
    return word
