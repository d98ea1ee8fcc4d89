"""Tickets of any length, each with a report buffer: the standard input of the program hands, from text. docs/DAYS.md has the text form.

Each case has the lengths of its name and of its day file and the number of its inputs, 4 bytes each, then these. An input has the
lengths of its ticket and of its buffer, 4 bytes each, the byte that the buffer is filled with, then the ticket."""

from functools import partial
from typing import NamedTuple

from . import layout, many, messages, packing, text
from .progress import over

MOST = 8192  # the program ends at a longer ticket or buffer
A_LENGTH = partial(text.number, most=MOST)


def number(value: int) -> bytes:
    return value.to_bytes(4, "big")


def read_buffer(cursor: text.Cursor) -> tuple[bytes, bytes]:
    length = cursor.take("a length", A_LENGTH)
    fill = cursor.take("the byte that it is filled with", partial(text.number, most=255))
    cursor.finish()
    return number(length), bytes([fill])


def read_length(cursor: text.Cursor) -> int:
    length = cursor.take("a length", A_LENGTH)
    cursor.finish()
    return length


class Input(NamedTuple):
    """A ticket with its length, and its buffer's length and fill."""

    row: packing.Row
    length: int
    buffer: tuple[bytes, bytes]

    def packed(self) -> bytes:
        ticket = layout.write(layout.TICKET, self.row)[: self.length].ljust(self.length, b"\0")
        return b"".join((number(self.length), *self.buffer, ticket))


class Case:
    """A day's line and the lines below it. Its tickets are inputs and no part of the day file."""

    def __init__(self, line: text.Line) -> None:
        self.named = many.Named(line)
        self.buffer, self.length = (number(6528), b"\0"), layout.length(layout.TICKET)
        self.inputs: list[Input] = []

    def add(self, line: text.Line) -> None:
        cursor, word = text.Cursor(line), line.words[0].text
        try:
            if word in ("buffer", "length"):
                cursor.skip()
                self.set(word, cursor)
            elif word == "raw" or word[0] in "0123456789":
                self.add_ticket(line)
            else:
                self.named.day.add(line)
        except text.Mistake as mistake:
            self.named.day.mistakes.append(mistake)

    def set(self, word: str, cursor: text.Cursor) -> None:
        if word == "buffer":
            self.buffer = read_buffer(cursor)
        else:
            self.length = read_length(cursor)

    def add_ticket(self, line: text.Line) -> None:
        alone = packing.Day()
        alone.add(line)
        self.named.day.mistakes += alone.mistakes
        self.named.day.asked += alone.asked
        self.named.day.tickets_known = self.named.day.tickets_known and alone.tickets_known
        self.inputs += [Input(row, self.length, self.buffer) for row in alone.rows["ticket"]]

    def packed(self) -> bytes:
        name, file = self.named.packed()
        self.named.day.fill([given.row for given in self.inputs])
        given = (given.packed() for given in self.inputs)
        return b"".join((number(len(name)), number(len(file)), number(len(self.inputs)), name, file, *given))


def pack(name: str, cases_text: str, reader: messages.Reader = messages.READER) -> bytes:
    """The bytes of the cases that the text has. TextError says what is wrong with it, with the name given."""
    cases: list[Case] = []
    mistakes: list[text.Mistake] = []
    for line in over(text.lines(cases_text), f"lines of {name}"):
        if line.words[0].text == "day":
            cases.append(Case(line))
        elif cases:
            cases[-1].add(line)
        elif not mistakes:
            mistakes.append(text.Cursor(line).expected("a line `day NAME` before all others"))
    mistakes += many.answered(name, [case.named.day for case in cases], reader)
    data = b"".join([case.packed() for case in cases])
    mistakes += [mistake for case in cases for mistake in case.named.day.mistakes]
    if mistakes:
        raise text.TextError(name, mistakes)
    return data
