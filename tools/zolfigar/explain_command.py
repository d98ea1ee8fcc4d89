"""The command tools/explain: a day file and the program's output, in words, as a page, or as a journal."""

import argparse
import datetime
import os
import re
import sys
from collections.abc import Sequence
from typing import TextIO

from . import audit, command_line, files, history, journal, packing, page, terminal, text, version
from .history import Day, Order

DATE = re.compile("[0-9]{4}-[0-9]{2}-[0-9]{2}")
A_DAY = (
    "a day as text or packed: a file whose name ends in .day or that has no zero byte is text, and an empty one is packed"
)

USES = """examples:
  tools/explain day.bin day.out                      all of it, on the terminal
  tools/explain day.bin day.out --member AAAALV22    one participant
  tools/explain day.bin day.out --order TX1          one order
  tools/explain day.bin day.out --order TX1 --of AAAALV22    the one of that payer, where several have the TxId
  tools/explain day.bin day.out --page day.html      one page for a browser
  tools/explain day.bin day.out --journal day.journal --date 2026-11-15

The exit status is 0 if everything adds up, 1 if something doesn't or can't be read, 2 for wrong usage."""


class Followed(argparse.Namespace):
    """What is followed through a day."""

    day: str
    member: str | None
    order: str | None
    of: str | None


class Words(Followed):
    """What the command line says."""

    output: str
    page: str | None
    journal: str | None
    date: datetime.date | None


def followed(parser: argparse.ArgumentParser) -> None:
    """The two ways to follow one thing through a day."""
    shown = parser.add_mutually_exclusive_group()
    shown.add_argument("--member", type=command_line.given, metavar="BIC", help="follow one participant")
    shown.add_argument("--order", type=command_line.given, metavar="TXID", help="follow one order")
    what = "the payer of that order, where orders of several payers have its TxId"
    parser.add_argument("--of", type=command_line.given, metavar="BIC", help=what)


def followed_well(parser: argparse.ArgumentParser, found: Followed) -> None:
    """Ends with wrong usage where the words on what is followed don't go together."""
    if found.of and not found.order:
        parser.error("--of is the payer of an order, and there is no --order")


def a_date(word: str) -> datetime.date:
    try:
        if DATE.fullmatch(word):
            return datetime.date.fromisoformat(word)
    except ValueError:
        pass
    raise argparse.ArgumentTypeError(f"expected a date like 2026-11-15, found {text.quoted(word)}")


def dated(parser: argparse.ArgumentParser) -> None:
    """The date of a day, which its file doesn't have."""
    what = f"the date of second 0, for the journal; {journal.DATE} if it isn't given"
    parser.add_argument("--date", type=a_date, metavar="YYYY-MM-DD", help=what)


def arguments(words: Sequence[str]) -> Words:
    form = argparse.RawDescriptionHelpFormatter
    parser = command_line.Parser("explain", description=__doc__, epilog=USES, formatter_class=form)
    version.told(parser)
    parser.add_argument("day", help=A_DAY)
    parser.add_argument("output", help="what the clearing program printed of it; - is standard input")
    followed(parser)
    parser.add_argument("--page", type=command_line.given, metavar="FILE", help="write one self-contained HTML page")
    what = "write a journal for hledger; - is standard output"
    parser.add_argument("--journal", type=command_line.given, metavar="FILE", help=what)
    dated(parser)
    found = parser.parse_args(words, Words())
    followed_well(parser, found)
    if found.date and not found.journal:
        parser.error("--date is the journal's, and there is no --journal")
    return found


def coloured(stream: TextIO) -> bool:
    return stream.isatty() and "NO_COLOR" not in os.environ


def with_branch(bic: str) -> str:
    return bic + "XXX" if len(bic) == 8 else bic


def wanted(day: Day, words: Followed) -> tuple[int | None, Order | None]:
    """The participant's number and the order that are to be followed."""
    member = None
    if words.member:
        member = next((p.number for p in day.participants if p.bic == with_branch(words.member)), None)
        if member is None:
            known = ", ".join(p.bic for p in day.participants)
            raise files.Failed(f"{files.shown(words.member)} is no participant of this day: {known or 'it has none'}")
    return member, wanted_order(day, words.order, words.of) if words.order else None


def wanted_order(day: Day, txid: str, payer: str | None) -> Order:
    """The order with the TxId, of the payer if one is given."""
    with_txid = [order for order in day.orders if order.txid == txid]
    if not with_txid:
        raise files.Failed(f"no order with the TxId {files.shown(txid)} was accepted on this day")
    found = [o for o in with_txid if payer is None or history.text_of(o.event.ticket["sender"]) == with_branch(payer)]
    those = f"the TxId {files.shown(txid)} is of {', '.join(dict.fromkeys(o.payer_bic for o in with_txid))}"
    if not found:
        raise files.Failed(f"{those}, and no order with it was accepted of {files.shown(payer or '')}")
    if payer is None and found[0].shares:
        raise files.Failed(f"{those}: --of says which is meant")
    return found[0]


def show(day: Day, problems: Sequence[str], words: Followed) -> None:
    """The day on standard output."""
    style = terminal.Style(coloured(sys.stdout))
    if day.refusal is not None:
        found = terminal.refused(day, problems, style)
    else:
        found = terminal.lines(day, problems, style, *wanted(day, words))
    files.write("-", "".join(line + "\n" for line in found).encode())


def name_of(path: str) -> str:
    """A day's name: its file's, as it is shown."""
    return files.shown(os.path.splitext(os.path.basename(path))[0])


def explain(words: Words) -> int:
    file = packing.day_file(words.day, files.read(words.day))
    day = history.read(name_of(words.day), file, files.text(words.output))
    problems = audit.problems(day)
    entries = journal.journal(day, words.date or journal.DATE) if words.journal else ""
    if words.page:
        files.write(words.page, page.page(day).encode())
    if words.journal:
        files.write(words.journal, entries.encode())
    if not words.page and not words.journal:
        show(day, problems, words)
    elif problems:
        sys.stderr.write("".join(line + "\n" for line in terminal.verdict(problems, terminal.Style(coloured(sys.stderr)))))
    return 1 if problems else 0


def main() -> int:
    return files.guarded("explain", lambda: explain(arguments(sys.argv[1:])))
