"""The command tools/message."""

import argparse
import sys
from collections.abc import Sequence

from . import command_line, files, layout, messages, text, unpacking, version

WHAT = "What order a message is, pacs.008 text in a file, or what is wrong with it and where. The proved reader decides."
USES = """examples:
  tools/message examples/plain.xml
  tools/message examples/*.xml --time 08:00:05

An order is printed as a day's text has it, and can be put there; docs/DAYS.md says how a day's text names the file instead. Lines,
columns and bytes of a message that is refused are those of its file; bytes are counted from 0. The reader is the program messages:
`tools/build messages` proves and builds it. The exit status is 0 if all are orders, 1 if not, 2 for wrong usage."""


class Words(argparse.Namespace):
    """What the command line says."""

    file: list[str]
    time: int


class Several(files.Failed):
    """What is wrong with some of the messages: a line for each."""

    begins_with_place = True


def a_time(word: str) -> int:
    try:
        return text.time(word)
    except text.Wrong as wrong:
        raise argparse.ArgumentTypeError(str(wrong)) from None


def arguments(words: Sequence[str]) -> Words:
    form = argparse.RawDescriptionHelpFormatter
    parser = command_line.Parser("message", description=WHAT, epilog=USES, formatter_class=form)
    version.told(parser)
    parser.add_argument("file", nargs="+", metavar="FILE", help="a message; - is standard input")
    parser.add_argument("--time", type=a_time, default=0, help="the order's time, 08:00:05 or 28805; 0 if it isn't given")
    found = Words()
    parser.parse_intermixed_args(words, found)
    return found


def order_line(name: str, ticket: bytes) -> str:
    """An order, behind its file's name, as a line of a day's text."""
    return f"{files.shown(files.called(name))}: {unpacking.joined(*unpacking.ticket_line(layout.ticket_in(ticket)))}\n"


def error_line(error: files.Failed) -> str:
    return str(error) if error.begins_with_place else f"message: {error}"


def show(words: Words, reader: messages.Reader = messages.READER) -> int:
    found = messages.read([(name, words.time) for name in words.file], reader)
    orders = [order_line(name, ticket) for name, ticket in zip(words.file, found) if isinstance(ticket, bytes)]
    files.write("-", "".join(orders).encode())
    errors = [error_line(error) for error in found if isinstance(error, files.Failed)]
    if errors:
        raise Several("\n".join(errors))
    return 0


def main() -> int:
    return files.guarded("message", lambda: show(arguments(sys.argv[1:])))
