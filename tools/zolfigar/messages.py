"""Messages, orders as pacs.008 text (02, slip 3): what the proved program messages says of them. Nothing here reads XML.

The program's input has for each message the lengths of its name and of its text and its time, 4 bytes each, then the name and the text.
It prints for each a line `# NAME` and a line with its answer: `M 0` and the ticket in hex, or `M`, the refusal, the place in the text,
counted from 0, and the number of what is wrong there."""

import os
import re
import subprocess
from collections.abc import Callable, Sequence
from typing import NamedTuple

from . import files, text
from .figures import counted
from .words import REFUSALS

ROOT = os.path.dirname(os.path.dirname(os.path.dirname(os.path.realpath(__file__))))
PROGRAM = os.path.join(ROOT, "target", "bin", "messages")
MOST_TEXT = 65520
MOST_READ = MOST_TEXT + 1  # the program ends at a longer text; one of this length is too long

ACCEPTED = re.compile(r"M 0 ([0-9a-f]{216})")
REFUSED = re.compile(r"M (23|24|25|7|8) (0|[1-9][0-9]{0,9}) (0|[1-9][0-9]{0,9})")

# The named elements: a path below FIToFICstmrCdtTrf, but for the first two.
ROWS = (
    "LBFastCdtTrf",
    "FIToFICstmrCdtTrf",
    "GrpHdr",
    "GrpHdr/InstgAgt",
    "GrpHdr/InstgAgt/FinInstnId",
    "GrpHdr/InstgAgt/FinInstnId/BIC",
    "CdtTrfTxInf",
    "CdtTrfTxInf/PmtId",
    "CdtTrfTxInf/PmtId/TxId",
    "CdtTrfTxInf/IntrBkSttlmAmt",
    "CdtTrfTxInf/CdtrAgt",
    "CdtTrfTxInf/CdtrAgt/FinInstnId",
    "CdtTrfTxInf/CdtrAgt/FinInstnId/BIC",
    "CdtTrfTxInf/CdtrAcct",
    "CdtTrfTxInf/CdtrAcct/Id",
    "CdtTrfTxInf/CdtrAcct/Id/IBAN",
)
TOO_LONG = 1
REPEATED = 7
WRONG_CURRENCY = 14
WRONG_TXID = 18
WRONG_IBAN = 19
WRONG_TEXTS = range(15, 20)
MISSING = range(32, 48)
ANOTHER_ROOT = MISSING[0]
MOST_TXID = 35

# What is expected at the place, by the number of what is wrong there.
EXPECTED = {
    TOO_LONG: f"expected a text of at most {MOST_TEXT:,} bytes",
    2: 'the declaration is wrong from here on: expected one like <?xml version="1.0" encoding="UTF-8"?>, or none',
    3: "expected the root's start tag",
    4: "expected text or a tag",
    5: "expected an element, with a letter or _ directly behind <",
    6: 'the tag is wrong from here on: expected attributes like name="value", white space before each, and then > or />',
    REPEATED: "expected each attribute's name once in a tag",
    8: "expected the end tag of the element that was begun last and is still open, like </Name>",
    9: "expected no element here: 16 are open around it, which is the most",
    10: "expected nothing but white space behind the root's end",
    WRONG_CURRENCY: f'expected the amount, {ROWS[9]}, with one attribute, Ccy="EUR"',
    15: f"expected the amount, {ROWS[9]}: 1 to 9 digits, a point and two digits, above zero",
    16: f"expected the sender's BIC, {ROWS[5]}: {text.A_BIC}",
    17: f"expected the payee's BIC, {ROWS[12]}: {text.A_BIC}",
    WRONG_TXID: f"expected the TxId, {ROWS[8]}: {text.A_TXID}",
    WRONG_IBAN: f"expected the payee's IBAN, {ROWS[15]}: {text.AN_IBAN}, with the right check digits",
    ANOTHER_ROOT: f"expected {ROWS[0]} as the root",
    **{32 + row: f"expected {path} before" for row, path in enumerate(ROWS) if row},  # this, or the root's end
    **{48 + row: f"{path} holds an element: expected text alone" for row, path in enumerate(ROWS)},
    **{64 + row: f"{path} stands here again: expected it once" for row, path in enumerate(ROWS)},
}

# What is said besides, by the number and by how that begins which stands at the place.
NOTES = (
    (3, b"\xef\xbb\xbf", "a byte order mark is not allowed"),
    (3, b"\xff\xfe", "UTF-16 is not allowed"),
    (3, b"\xfe\xff", "UTF-16 is not allowed"),
    (4, b"&", "& is not allowed, nor &amp; and the like"),
    (5, b"<!--", "a comment is not allowed"),
    (5, b"<![CDATA[", "CDATA is not allowed"),
    (5, b"<!DOCTYPE", "a DOCTYPE is not allowed"),
    (5, b"<?xml ", "a declaration is allowed as the text's first bytes alone"),
    (5, b"<?", "a processing instruction is not allowed"),
    (6, b"'", "a value stands in double quotes"),
    (6, b"&", "& is not allowed, nor &amp; and the like"),
    (6, b"<", "< is not allowed in a tag, nor in its values"),
)


class Message(NamedTuple):
    """A message: its text, as far as the program reads one, and its time."""

    text: bytes
    time: int


class Refused(NamedTuple):
    """The answer of a message that is refused."""

    number: int
    place: int
    what: int


Answer = bytes | Refused  # a ticket, or why there is none


class Reader(NamedTuple):
    """The proved program: its path, and what is done before it is run, to build it or to say that it isn't built."""

    path: str
    provide: Callable[[], object]


def looked_for() -> None:
    if not os.path.exists(PROGRAM):
        raise files.Failed(
            "the program messages, which reads messages, is not built: `tools/build messages` proves and builds it"
        )


READER = Reader(PROGRAM, looked_for)


class Wrong(files.Failed):
    """What is wrong with a message, behind its place."""

    begins_with_place = True


def join(named: Sequence[tuple[bytes, Message]]) -> bytes:
    """The program's input."""
    lengths = ((len(name), len(message.text), message.time) for name, message in named)
    heads = (b"".join(number.to_bytes(4, "big") for number in numbers) for numbers in lengths)
    return b"".join(head + name + message.text for head, (name, message) in zip(heads, named))


def printed(program: str, given: bytes) -> str:
    """What the program prints of an input."""
    try:
        ran = subprocess.run([program], input=given, capture_output=True, check=False)
    except OSError as error:
        raise files.Failed(f"can't run {files.shown(program)}: {files.reason(error)}") from error
    if ran.returncode:
        raise files.Failed(f"the program messages ended with status {ran.returncode}")
    return ran.stdout.decode("ascii", errors="backslashreplace")


def answer(line: str) -> Answer | None:
    """The answer that a line has; None where it has none."""
    if accepted := ACCEPTED.fullmatch(line):
        return bytes.fromhex(accepted[1])
    refused = REFUSED.fullmatch(line)
    return Refused(*map(int, refused.groups())) if refused else None


def answers(program: str, messages: Sequence[Message]) -> list[Answer]:
    """The answer of each message, from one run of the program. Their names are their numbers."""
    names = [str(number) for number in range(len(messages))]
    lines = printed(program, join([(name.encode(), message) for name, message in zip(names, messages)])).split("\n")
    if len(lines) != 2 * len(messages) + 1 or lines[-1]:
        given = counted(len(messages), "message")
        raise files.Failed(f"the program messages was given {given}, and printed {counted(len(lines) - 1, 'line')}")
    return [answered(name, *pair) for name, *pair in zip(names, lines[::2], lines[1::2])]


def answered(name: str, head: str, line: str) -> Answer:
    """The answer that the two lines of a message have."""
    found = answer(line) if head == f"# {name}" else None
    if found is None:
        said = text.quoted(line if head == f"# {name}" else head)
        raise files.Failed(f"the program messages printed {said} of message {name}, which is no answer")
    return found


def place_of(message: bytes, place: int) -> str:
    """The line and the column of a byte; a column is a character, which may be several bytes."""
    before = message[:place].decode(errors="surrogateescape")
    return f"{before.count(chr(10)) + 1}:{len(before) - before.rfind(chr(10))}"


def is_at_end(message: bytes, refused: Refused) -> bool:
    """Whether an element was missed at the root's end, and not at another one."""
    return refused.what in MISSING and message[refused.place : refused.place + 1] != b"<"


def told_place(message: bytes, refused: Refused) -> int:
    """Where people look: the program's place, but of a tag as a whole, and of the root's end, the <; no other can stand in a tag."""
    if refused.what == ANOTHER_ROOT:
        return max(message.find(b"<", message.startswith(b"<?")), 0)
    if refused.what in (REPEATED, WRONG_CURRENCY) or is_at_end(message, refused):
        return max(message.rfind(b"<", 0, refused.place), 0)
    return refused.place


def expected_at(message: bytes, refused: Refused) -> str:
    said = EXPECTED.get(refused.what, f"wrong by {refused.what}, a number that has no words here")
    if refused.what not in MISSING or refused.what == ANOTHER_ROOT:
        return said
    return f"{said} {'the end of the root' if is_at_end(message, refused) else 'this'}"


def noted(shown: str, note: str) -> str:
    return f"{shown}: {note}" if note else shown


def text_at(message: bytes, place: int) -> str:
    """The whole text of an element, from its place on. An element of one tag, which ends there, has none."""
    return "" if message[:place].endswith(b"/>") else message[place:].split(b"<")[0].decode(errors="surrogateescape")


def text_note(whole: str, what: int) -> str:
    """What there is to say of a wrong text: of a TxId that is too long its length, of an IBAN the small letters or the check digits."""
    if what == WRONG_TXID and len(whole) > MOST_TXID:
        return f"{len(whole)} characters"
    if what != WRONG_IBAN:
        return ""
    left = f"its check digits leave {text.remainder(whole)}, not 1" if text.IBAN.fullmatch(whole) else ""
    return left or text.small_letters(whole)


def found_at(message: bytes, place: int, what: int) -> str:
    """What stands at a place: an element's whole text where that is wrong, else all up to the line's end; and what is said of it."""
    if what == TOO_LONG:
        return "more"
    if what in WRONG_TEXTS:
        whole = text_at(message, place)
        return noted(text.quoted(whole), text_note(whole, what)) if whole else "no text"
    there = message[place:][: 4 * (text.MOST_QUOTED + 1)]
    if not there:
        return noted("the text's end", "an element is still open" if what == 4 else "")
    note = next((note for number, begins, note in NOTES if number == what and there.startswith(begins)), "")
    return noted(text.quoted(there.decode(errors="surrogateescape").split("\n")[0] or "\n"), note)


def told(name: str, message: bytes, refused: Refused) -> str:
    """What is wrong with a message: its file with line and column, the refusal, what was expected and what stands there."""
    at = told_place(message, refused)
    place = f"{files.shown(files.called(name))}:{place_of(message, at)}"
    code = " ".join(filter(None, (str(refused.number), REFUSALS[refused.number][0])))
    expected, found = expected_at(message, refused), found_at(message, at, refused.what)
    return f"{place}: refused by {code} at byte {at}: {expected}, found {found}"


def read(named: Sequence[tuple[str, int]], reader: Reader = READER) -> list[bytes | files.Failed]:
    """Of each file, with its time, the ticket of the order that it is, or what is wrong with it. The program is run once for all."""
    found = [message_in(name, time) for name, time in named]
    messages = [message for message in found if isinstance(message, Message)]
    if messages:
        reader.provide()
    found_of = iter(answers(reader.path, messages) if messages else ())
    return [
        outcome(name, message.text, next(found_of)) if isinstance(message, Message) else message
        for (name, _), message in zip(named, found)
    ]


def message_in(name: str, time: int) -> Message | files.Failed:
    try:
        return Message(files.read(name, MOST_READ), time)
    except files.Failed as failed:
        return failed


def outcome(name: str, message: bytes, found: Answer) -> bytes | files.Failed:
    return Wrong(told(name, message, found)) if isinstance(found, Refused) else found
