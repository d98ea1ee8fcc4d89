"""Lines of a day's text that name messages: `08:00:05 message plain.xml`. One run of the proved reader gives the orders of all of them."""

import os
from collections.abc import Callable, Sequence
from typing import NamedTuple

from . import files, messages, text

WORD = "message"  # stands where other tickets have their kind
A_FILE = "the name of a message's file"


class Asked(NamedTuple):
    """A message that a line names: where its name stands, its file, the time, and what takes the ticket."""

    line: int
    column: int
    file: bytes
    time: int
    take: Callable[[bytes], None]


def is_one(line: text.Line) -> bool:
    """Whether a ticket's line names a message."""
    return len(line.words) > 1 and line.words[1].text == WORD


def read(cursor: text.Cursor, take: Callable[[bytes], None]) -> Asked:
    time = cursor.take(text.A_TIME, text.time)
    cursor.skip()
    line, column = cursor.line.number, cursor.column()
    file = text.name_in(cursor, A_FILE)
    if b"\0" in file:
        raise text.Mistake(line, column, f"expected {A_FILE}, found one with a zero byte")
    return Asked(line, column, file, time, take)


def path(name: str, file: bytes) -> str:
    """Where a message is that a text of some name has a line of: beside the text. `-` is a file's name here."""
    found = os.path.join(os.path.dirname(name), os.fsdecode(file))
    return os.path.join(os.curdir, found) if found == files.STANDARD else found


def answer(name: str, asked: Sequence[Asked], others: Sequence[text.Mistake], reader: messages.Reader) -> list[text.Mistake]:
    """Hands out the tickets of the messages that a text asks for, and gives the mistakes of those that are refused or can't be read.
    Where the reader isn't built and the text has other mistakes, these are told first."""
    if not asked or (others and not os.path.exists(reader.path)):
        return []
    mistakes = []
    for message, found in zip(asked, messages.read([(path(name, one.file), one.time) for one in asked], reader)):
        if isinstance(found, bytes):
            message.take(found)
        else:
            mistakes.append(text.Mistake(message.line, message.column, str(found)))
    return mistakes
