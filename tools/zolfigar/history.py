"""A day as it is seen from outside: tickets with their answers and reports, the orders, and what moved each cover.

Nothing here is decided by a rule of the book: that a ticket was accepted, an order expired or cover was set aside is read
off answers and reports, in the terms of 01 'Demand 3, word by word'."""

from collections import defaultdict
from collections.abc import Iterator, Sequence
from dataclasses import dataclass, field
from typing import NamedTuple

from . import layout, output
from .figures import counted
from .layout import ParticipantRow, TicketRow
from .output import Answer, Parts, Position, Report
from .progress import over
from .text import bic_word
from .words import CUT_REPORTS, ENDINGS, REFUSALS


class Participant(NamedTuple):
    """A participant; `opening` is the opening cover that it wishes, if it does."""

    number: int
    bic: str
    is_bank: bool
    opening: int | None


class Event(NamedTuple):
    """A ticket with its answer. `order` is the number of the order that it makes or names, if there is one."""

    number: int
    ticket: TicketRow
    refusal: int
    rows: int
    reports: list[Report]
    sender: int | None
    order: int | None

    @property
    def time(self) -> int:
        return self.ticket["time"]

    def is_accepted(self, kind: int) -> bool:
        return self.refusal == 0 and self.ticket["kind"] == kind

    def is_yes(self) -> bool:
        return self.is_accepted(4) and self.ticket["flag"] == 1

    def sets_clock(self) -> bool:
        return not 6 <= self.refusal <= 11

    def first(self, code: int) -> Report | None:
        """The first report with the code, if there is one."""
        return next((report for report in self.reports if report.code == code), None)


@dataclass
class Order:
    """An accepted order. `ended` is the event with its first ending, `code` that ending's; `returns` are the accepted returns
    of it, of which there is one at most if all is right; `events` are all that touch it; `shares` is whether an order of another
    payer has its TxId."""

    number: int
    event: Event
    txid: str
    payer: int | None
    payee: int | None
    amount: int
    ended: Event | None = None
    code: int | None = None
    returns: list[Event] = field(default_factory=list)
    events: list[Event] = field(default_factory=list)
    shares: bool = False

    @property
    def time(self) -> int:
        return self.event.time

    @property
    def payer_bic(self) -> str:
        """The BIC of its payer as people write it: the sender's of its ticket; nobody where that is empty, of a wrong output."""
        sender = self.event.ticket["sender"]
        return bic_word(sender) or text_of(sender) or "nobody"

    @property
    def name(self) -> str:
        """What people call it: its TxId, and whose it is where orders of several payers have that TxId."""
        return f"{self.txid} of {self.payer_bic}" if self.shares else self.txid

    def settled_before(self, event: Event) -> Event | None:
        """The event that settled it, if that came before the event."""
        return self.ended if self.ended and self.code == 2 and self.ended.number < event.number else None

    @property
    def recalls(self) -> list[Event]:
        """The accepted recalls of it, of which there is one at most if all is right."""
        return [event for event in self.events if event.is_accepted(5) and event.order == self.number]

    @property
    def late_recalls(self) -> list[Event]:
        """The recalls of it that were turned back as too late."""
        named = [event for event in self.events if event.order == self.number]
        return [event for event in named if event.ticket["kind"] == 5 and event.refusal == 26]

    @property
    def returned(self) -> Event | None:
        """The accepted return of it, which has the returned amount; the first where there are several."""
        return self.returns[0] if self.returns else None


class Move(NamedTuple):
    """What an event did to a participant's cover: how each of the three changed, and under which term."""

    event: Event
    participant: int
    term: str
    amount: int
    available: int = 0
    reserved: int = 0
    held: int = 0
    order: int | None = None
    other: int | None = None

    def parts(self) -> Parts:
        return Parts(self.available, self.reserved, self.held)


# The terms of the cover equation, with their sign: what comes in and what goes out. Other moves are within the cover.
TERMS = {
    "cover-ins": 1,
    "confirmed debits": 1,
    "orders settled to it": 1,
    "returns to it": 1,
    "cover-outs": -1,
    "confirmed credits": -1,
    "orders settled from it": -1,
    "returns by it": -1,
}


@dataclass
class Day:
    """A day as it was seen, and what the reading of it found wrong."""

    name: str
    refusal: int | None
    participants: list[Participant]
    events: list[Event]
    orders: list[Order]
    moves: list[Move]
    positions: list[Position]
    problems: list[str]

    def statement(self, number: int) -> Iterator[tuple[Move, Parts]]:
        """The participant's moves, each with available, reserved and held after it."""
        available = reserved = held = 0
        for move in self.moves:
            if move.participant == number:
                available, reserved, held = available + move.available, reserved + move.reserved, held + move.held
                yield move, Parts(available, reserved, held)

    def sums(self, number: int) -> dict[str, int]:
        """For each term of the cover equation, the amounts of the participant's moves under it."""
        totals = dict.fromkeys(TERMS, 0)
        for move in self.moves:
            if move.participant == number and move.term in totals:
                totals[move.term] += move.amount
        return totals

    def waiting(self, number: int) -> list[Order]:
        """The waiting orders that the participant pays."""
        return [order for order in self.orders if order.payer == number and order.ended is None]

    def position(self, number: int) -> Position | None:
        return next((p for p in self.positions if p.number == number), None)

    def bic(self, number: int | None) -> str:
        """A participant's name, for one who is none too."""
        if number is not None and 0 <= number < len(self.participants):
            return self.participants[number].bic
        return f"participant {number}"


def text_of(value: bytes) -> str:
    """A text field as text; bytes that are no ASCII are shown as hex."""
    return value.decode("ascii") if value.isascii() and value.decode("ascii").isprintable() else "hex:" + value.hex()


def participant_of(number: int, row: ParticipantRow) -> Participant:
    return Participant(number, text_of(row["bic"]), row["kind"] == 0, row["opening"] if row["wish"] else None)


class Reader:
    """Takes a day's tickets and answers one after the other."""

    def __init__(self, participants: Sequence[Participant]) -> None:
        self.numbers = {p.bic: p.number for p in reversed(participants)}
        self.orders: list[Order] = []
        self.by_key: dict[tuple[bytes, bytes], int] = {}  # the first order with each payer and TxId
        self.moves: list[Move] = []
        self.events: list[Event] = []
        self.last_cut: dict[int, int] = {}  # the code of the last report of a cut to each participant

    def take(self, number: int, ticket: TicketRow, answer: Answer) -> None:
        sender = self.numbers.get(text_of(ticket["sender"]))
        named = self.by_key.get(layout.key_of(ticket)) if 3 <= ticket["kind"] <= 8 else None
        event = Event(number, ticket, answer.refusal, answer.rows, answer.reports, sender, named)
        if event.is_accepted(3):
            event = event._replace(order=len(self.orders))
        self.events.append(event)
        for order in self.touched(event):
            order.events.append(event)
        for report in event.reports:
            self.told(event, report)
        if event.refusal == 0:
            self.own_step(event)

    def touched(self, event: Event) -> list[Order]:
        """The orders that the ticket names or its reports are about, each once."""
        numbers = [event.order] + [report.order for report in event.reports if report.code not in CUT_REPORTS]
        return [self.orders[n] for n in dict.fromkeys(numbers) if n is not None and n < len(self.orders)]

    def move(
        self,
        event: Event,
        participant: int | None,
        term: str,
        amount: int,
        changes: Parts,
        order: int | None = None,
        other: int | None = None,
    ) -> None:
        if participant is not None:
            self.moves.append(Move(event, participant, term, amount, *changes, order, other))

    def told(self, event: Event, report: Report) -> None:
        """What a report tells of cover: an order's first ending, and the cut's."""
        if report.code in ENDINGS and report.order < len(self.orders):
            order = self.orders[report.order]
            if order.ended is None:
                order.ended, order.code = event, report.code
                self.ending(event, order)
        elif report.code == 11:
            self.move(event, report.to, "held", report.amount, Parts(available=-report.amount, held=report.amount))
        elif report.code == 10:
            self.move(event, report.to, "open debit", report.amount, Parts())
        if report.code in CUT_REPORTS:
            self.last_cut[report.to] = report.code

    def ending(self, event: Event, order: Order) -> None:
        """A wait that ended without a settlement frees the cover; a settlement is the accepted yes' own step."""
        if order.code in (3, 4):
            term, freed = "refused" if order.code == 3 else "expired", Parts(available=order.amount, reserved=-order.amount)
            self.move(event, order.payer, term, order.amount, freed, order.number, order.payee)

    def own_step(self, event: Event) -> None:
        kind, sender, amount = event.ticket["kind"], event.sender, event.ticket["amount"]
        if kind == 1:
            self.move(event, sender, "cover-ins", amount, Parts(available=amount))
        elif kind == 2:
            self.move(event, sender, "cover-outs", amount, Parts(available=-amount))
        elif kind == 3:
            self.ordered(event)
        elif event.is_yes():
            self.settled(event)
        elif kind == 6:
            self.returned(event)
        elif kind == 10:
            self.confirmed(event)

    def ordered(self, event: Event) -> None:
        told = event.first(1)
        txid, amount = text_of(event.ticket["txid"]), event.ticket["amount"]
        number, payee = len(self.orders), told.to if told else None
        self.orders.append(Order(number, event, txid, event.sender, payee, amount, events=[event]))
        self.by_key.setdefault(layout.key_of(event.ticket), number)
        self.move(event, event.sender, "reserved", amount, Parts(available=-amount, reserved=amount), number, payee)

    def settled(self, event: Event) -> None:
        """From the one to whom the first report 2 goes, to the ticket's sender."""
        told = event.first(2)
        if told:
            paid, got, sender = Parts(reserved=-told.amount), Parts(available=told.amount), event.sender
            self.move(event, told.to, "orders settled from it", told.amount, paid, told.order, sender)
            self.move(event, sender, "orders settled to it", told.amount, got, told.order, told.to)

    def returned(self, event: Event) -> None:
        """By its sender, to the one to whom its report 6 goes, with its own amount."""
        if event.order is not None:
            self.orders[event.order].returns.append(event)
        told, amount = event.first(6), event.ticket["amount"]
        payer, order = (told.to, told.order) if told else (None, None)
        self.move(event, event.sender, "returns by it", amount, Parts(available=-amount), order, payer)
        self.move(event, payer, "returns to it", amount, Parts(available=amount), order, event.sender)

    def confirmed(self, event: Event) -> None:
        """A debit if the last report 10 or 11 to the sender was 10, a credit if 11."""
        amount, cut = event.ticket["amount"], None if event.sender is None else self.last_cut.get(event.sender)
        if cut == 10:
            self.move(event, event.sender, "confirmed debits", amount, Parts(available=amount))
        elif cut == 11:
            self.move(event, event.sender, "confirmed credits", amount, Parts(held=-amount))


def tell_apart(orders: Sequence[Order]) -> None:
    """Marks the orders whose TxId an order of another payer has too."""
    payers: defaultdict[bytes, set[bytes]] = defaultdict(set)
    for payer, txid in (layout.key_of(order.event.ticket) for order in orders):
        payers[txid].add(payer)
    for order in orders:
        order.shares = len(payers[order.event.ticket["txid"]]) > 1


def read(name: str, file: bytes, text: str) -> Day:
    """The day of a file's bytes and the text that the program printed of it."""
    out = output.read(text)
    problems = list(out.problems) + list(refusal_problems(file, out.refusal))
    if out.refusal is not None or len(file) < layout.length(layout.HEADER):
        return Day(name, out.refusal, [], [], [], [], out.positions, problems)
    found = layout.sections(file)
    participants = [participant_of(n, row) for n, row in enumerate(found.participants)]
    reader = Reader(participants)
    for number, (ticket, answer) in enumerate(over(zip(found.tickets, out.answers), "tickets")):
        reader.take(number, ticket, answer)
    tell_apart(reader.orders)
    day = Day(name, None, participants, reader.events, reader.orders, reader.moves, out.positions, problems)
    answered(day, len(found.tickets), len(out.answers))
    return day


def refusal_problems(file: bytes, printed: int | None) -> Iterator[str]:
    """What is wrong with the refusal that was printed of a file, or with none. Length and header tell 1 to 3, and 4 and 5 come
    behind these; whether a row is wrong is not looked at."""
    due, told = layout.refusal(file), f"the output refuses the file by {printed}"
    if printed == due:
        return
    if printed is None:
        yield f"{meaning(due)}, and the output doesn't refuse it"
    elif not 1 <= printed <= 5:
        yield f"{told}, and a file is refused by 1 to 5"
    elif due is not None:
        yield f"{told}, and {due} comes first: {meaning(due)}"
    elif printed <= 3:
        yield f"{told}, and it isn't so that {meaning(printed)}"
    elif printed == 5 and layout.header_in(file)["routes"] == 0:
        yield f"{told}, and it has no route row"


def meaning(refusal: int | None) -> str:
    return "" if refusal is None else REFUSALS[refusal][1]


def answered(day: Day, tickets: int, answers: int) -> None:
    """Each ticket has an answer, each participant a closing position."""
    if answers != tickets:
        day.problems.append(f"the day file has {counted(tickets, 'ticket')}, and the output answers {answers}")
    if len(day.positions) != len(day.participants):
        there, found = counted(len(day.participants), "participant"), counted(len(day.positions), "position")
        day.problems.append(f"the day file has {there}, and the output closes {found}")
