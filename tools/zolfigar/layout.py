"""The bytes of a day file: header, participant rows, route rows, tickets (01 'The ticket, 108 bytes', 'Day file and program').

A row is a dict from field names to values: an int for a number, bytes for a text field, its trailing zero bytes left off."""

from collections.abc import Mapping, Sequence
from typing import NamedTuple, TypedDict, cast

Value = int | bytes


class Field(NamedTuple):
    """A field of a row: its place, its size in bytes, and whether it is a text or a number."""

    name: str
    at: int
    size: int
    is_text: bool = False

    def most(self) -> int:
        """The largest number that the field can hold."""
        return (1 << 8 * self.size) - 1


Fields = Sequence[Field]
Header = dict[str, int]


class ParticipantRow(TypedDict):
    """A participant's row."""

    bic: bytes
    kind: int
    opening: int
    wish: int
    spare: int


class RouteRow(TypedDict):
    """A route's row."""

    bic: bytes
    kind: int
    k: int
    spare: int


class TicketRow(TypedDict):
    """A ticket. Kinds 4 to 8 have the payer of the order that they name where an order has its payee."""

    kind: int
    flag: int
    spare: int
    time: int
    amount: int
    sender: bytes
    payee: bytes
    txid: bytes
    iban: bytes
    last: int


HEADER = (
    Field("participants", 0, 2),
    Field("routes", 2, 2),
    Field("tickets", 4, 2),
    Field("participants-at", 6, 2),
    Field("routes-at", 8, 2),
    Field("tickets-at", 10, 2),
)
PARTICIPANT = (
    Field("bic", 0, 11, is_text=True),
    Field("kind", 11, 1),
    Field("opening", 12, 8),
    Field("wish", 20, 1),
    Field("spare", 21, 3),
)
ROUTE = (
    Field("bic", 0, 11, is_text=True),
    Field("kind", 11, 1),
    Field("k", 12, 2),
    Field("spare", 14, 2),
)
TICKET = (
    Field("kind", 0, 1),
    Field("flag", 1, 1),
    Field("spare", 2, 2),
    Field("time", 4, 4),
    Field("amount", 8, 8),
    Field("sender", 16, 11, is_text=True),
    Field("payee", 27, 11, is_text=True),
    Field("txid", 38, 35, is_text=True),
    Field("iban", 73, 34, is_text=True),
    Field("last", 107, 1),
)
# A ticket of kinds 4 to 8: 02, slip 6.
ABOUT = tuple(field._replace(name="payer") if field.name == "payee" else field for field in TICKET)


# The largest counts of a header that 2 doesn't refuse.
MOST_ROWS = {"participants": 32, "routes": 64, "tickets": 512}


def length(fields: Fields) -> int:
    return sum(field.size for field in fields)


def read(fields: Fields, row: bytes) -> dict[str, Value]:
    """The values of a row's bytes."""
    parts = ((field, row[field.at : field.at + field.size]) for field in fields)
    return {f.name: part.rstrip(b"\0") if f.is_text else int.from_bytes(part, "big") for f, part in parts}


def write(fields: Fields, values: Mapping[str, object]) -> bytes:
    """The bytes of a row; a field that isn't named is zero. Every value has to fit its field."""
    row = b""
    for field in fields:
        row += encoded(field, values.get(field.name, b"" if field.is_text else 0))
        assert len(row) == field.at + field.size, field.name
    return row


def encoded(field: Field, value: object) -> bytes:
    if field.is_text:
        assert isinstance(value, bytes), field.name
        return value.ljust(field.size, b"\0")
    assert isinstance(value, int), field.name
    return value.to_bytes(field.size, "big")


def header_in(file: bytes) -> Header:
    """The header's numbers."""
    return {field.name: int.from_bytes(file[field.at : field.at + field.size], "big") for field in HEADER}


def ticket_in(row: bytes) -> TicketRow:
    return cast(TicketRow, read(TICKET, row))


def key_of(ticket: TicketRow) -> tuple[bytes, bytes]:
    """The payer's BIC and the TxId of the order that a ticket of kinds 3 to 8 makes or names: 02, slip 6."""
    return (ticket["sender"] if ticket["kind"] == 3 else ticket["payee"]), ticket["txid"]


class Sections(NamedTuple):
    """A file taken apart: as many whole rows as its header counts and its bytes hold, and the bytes behind them."""

    header: Header
    participants: list[ParticipantRow]
    routes: list[RouteRow]
    tickets: list[TicketRow]
    rest: bytes


def sections(file: bytes) -> Sections:
    """The sections of a file of 12 bytes or more, each behind the one before, whatever the header's offsets are."""
    header, rest = header_in(file), file[length(HEADER) :]
    participants, rest = rows_in(PARTICIPANT, header["participants"], rest)
    routes, rest = rows_in(ROUTE, header["routes"], rest)
    tickets, rest = rows_in(TICKET, header["tickets"], rest)
    return Sections(
        header,
        cast("list[ParticipantRow]", participants),
        cast("list[RouteRow]", routes),
        cast("list[TicketRow]", tickets),
        rest,
    )


def rows_in(fields: Fields, most: int, data: bytes) -> tuple[list[dict[str, Value]], bytes]:
    """The whole rows that the bytes begin with, at most so many, and the bytes behind them."""
    size = length(fields)
    count = min(most, len(data) // size)
    return [read(fields, data[i * size : (i + 1) * size]) for i in range(count)], data[count * size :]


def header_of(participants: int, routes: int, tickets: int) -> Header:
    """The header that the layout gives for so many rows: sections follow with no gap. An offset may not fit two bytes."""
    routes_at = length(HEADER) + participants * length(PARTICIPANT)
    return {
        "participants": participants,
        "routes": routes,
        "tickets": tickets,
        "participants-at": length(HEADER),
        "routes-at": routes_at,
        "tickets-at": routes_at + routes * length(ROUTE),
    }


def refusal(file: bytes) -> int | None:
    """The first of refusals 1, 2 and 3 that applies, which length and header tell; None if none does."""
    if len(file) < length(HEADER):
        return 1
    header = header_in(file)
    counts = {name: header[name] for name in MOST_ROWS}
    if header["participants"] == 0 or any(count > MOST_ROWS[name] for name, count in counts.items()):
        return 2
    ends = header_of(*counts.values())["tickets-at"] + counts["tickets"] * length(TICKET)
    return 3 if header != header_of(*counts.values()) or len(file) != ends else None
