"""A day in columns for a terminal: its tickets, its orders, each participant's statement, and whether it adds up."""

from collections.abc import Iterable, Iterator, Sequence

from . import telling
from .figures import clock, euro
from .history import Day, Event, Move, Order, Participant
from .progress import over
from .unpacking import ticket_words

COLOURS = {"good": "32", "bad": "31;1", "back": "33", "faint": "2", "head": "1"}
INDENT = " " * 16


class Style:
    """Colour where it is wanted, and none elsewhere."""

    def __init__(self, colour: bool) -> None:
        self.colour = colour

    def __call__(self, words: str, name: str) -> str:
        return f"\x1b[{COLOURS[name]}m{words}\x1b[0m" if self.colour else words


def lines(
    day: Day, problems: Sequence[str], style: Style, member: int | None = None, order: Order | None = None
) -> Iterator[str]:
    """The day as lines: all of it, or what one participant or one order has to do with."""
    yield style(f"{day.name}: ", "head") + telling.summary(day)
    if problems or order is None:
        yield from verdict(problems, style)
    events = followed(day, member, order)
    yield from section("Tickets", style)
    for event in over(events, "tickets"):
        yield from ticket(day, event, style)
    orders = [order] if order else day.orders if member is None else [o for o in day.orders if member in (o.payer, o.payee)]
    if orders:
        yield from section("Orders", style)
        yield from order_table(day, orders)
    if order is not None:
        yield from moved(day, order, style)
        return
    for participant in day.participants:
        if member in (None, participant.number):
            yield from statement(day, participant, style)


def followed(day: Day, member: int | None, order: Order | None) -> list[Event]:
    """The events that a participant or an order has to do with; all where none is asked for."""
    if order is not None:
        return order.events
    if member is None:
        return day.events
    moving = {move.event.number for move in day.moves if move.participant == member}
    return [e for e in day.events if e.sender == member or e.number in moving or any(r.to == member for r in e.reports)]


def section(title: str, style: Style) -> Iterator[str]:
    yield ""
    yield style(title, "head")


def verdict(problems: Sequence[str], style: Style) -> Iterator[str]:
    if not problems:
        yield style("Everything adds up: every cover, every wait, every ending.", "good")
        return
    count = "One thing doesn't" if len(problems) == 1 else f"{len(problems)} things don't"
    yield style(f"{count} add up:", "bad")
    for problem in problems:
        yield style(f"  {problem}", "bad")


def ticket(day: Day, event: Event, style: Style) -> Iterator[str]:
    yield f"{event.number:>5} {clock(event.time):>9}  {ticket_words(event.ticket)}"
    yield INDENT + style(telling.outcome(day, event), "back" if event.refusal else "good")
    for report in event.reports:
        yield f"{INDENT}  {telling.report(day, report)}"


def columns(rows: Sequence[Sequence[str]], align: str) -> Iterator[str]:
    """Rows of words as columns, each aligned to the left or to the right."""
    widths = [max(len(row[i]) for row in rows) for i in range(len(align))]
    for row in rows:
        yield "  ".join(f"{word:{side}{width}}" for word, side, width in zip(row, align, widths)).rstrip()


def order_table(day: Day, orders: Iterable[Order]) -> Iterator[str]:
    rows: list[Sequence[str]] = [("order", "TxId", "payer", "payee", "amount", "at", "status", "wait ended by", "after")]
    for order in orders:
        ended = (str(order.ended.number), f"{telling.ended_after(order)} s") if order.ended else ("", "")
        parties = (telling.member(day, order.payer), telling.member(day, order.payee))
        figures = (euro(order.amount), clock(order.time), telling.standing(order))
        rows.append((str(order.number), order.txid, *parties, *figures, *ended))
    yield from ("  " + line for line in columns(rows, "><<<>><>>"))


def moved(day: Day, order: Order, style: Style) -> Iterator[str]:
    """The cover that an order moved, of each party."""
    yield from section("Cover that it moved", style)
    rows: list[Sequence[str]] = [("time", "ticket", "member", "what", "available", "reserved")]
    for move in day.moves:
        if move.order == order.number:
            what = (telling.member(day, move.participant), telling.move(day, move))
            rows.append(
                (clock(move.event.time), str(move.event.number), *what, signed(move.available), signed(move.reserved))
            )
    yield from ("  " + line for line in columns(rows, ">><<>>"))


def signed(cents: int) -> str:
    """A change with its sign, and nothing for none."""
    return ("+" if cents > 0 else "") + euro(cents) if cents else ""


def change(move: Move) -> str:
    """What a move brings to or takes from the cover; a move within the cover in brackets."""
    whole = move.available + move.reserved + move.held
    return signed(whole) or (f"({euro(move.amount)})" if move.available else "")


def statement(day: Day, participant: Participant, style: Style) -> Iterator[str]:
    kind = "bank" if participant.is_bank else "linked system"
    wish = "no opening cover" if participant.opening is None else f"opening cover {euro(participant.opening)}"
    yield from section(
        f"Cover of {telling.short(participant.bic)} (participant {participant.number}, {kind}, {wish})", style
    )
    rows = [("time", "ticket", "what", "change", "available", "reserved", "held"), ("", "", "from zero", "", *["0.00"] * 3)]
    for move, after in day.statement(participant.number):
        figures = [euro(part) for part in after]
        rows.append((clock(move.event.time), str(move.event.number), telling.move(day, move), change(move), *figures))
    yield from ("  " + line for line in columns(rows, ">><>>>>"))
    yield from equation(day, participant.number, style)


def equation(day: Day, number: int, style: Style) -> Iterator[str]:
    """What came in less what went out, beside the program's closing position, and what its reserved cover waits for."""
    terms, total = telling.equation(day, number)
    sums = " ".join(f"{'-' if cents < 0 else '+'} {euro(abs(cents))} {term}" for term, cents in terms)
    yield f"  {sums.removeprefix('+ ') or 'nothing'} = {euro(total)}"
    position = day.position(number)
    if position is None:
        yield style("  the program printed no closing position", "bad")
        return
    parts = f"{euro(position.available)} available + {euro(position.reserved)} reserved + {euro(position.held)} held"
    closed = position.available + position.reserved + position.held
    line = f"  {parts} = {euro(closed)}, the program's line C {number}"
    yield style(line, "good") if closed == total else style(f"{line}: it doesn't add up", "bad")
    waiting = day.waiting(number)
    if waiting:
        yield "  reserved for " + ", ".join(f"{telling.order_name(day, o.number)}: {euro(o.amount)}" for o in waiting)


def refused(day: Day, problems: Sequence[str], style: Style) -> Iterator[str]:
    """A file that was turned back."""
    yield style(f"{day.name}: ", "head") + style(telling.refused(day), "back")
    yield telling.NOT_LOOKED_AT
    if problems:
        yield from verdict(problems, style)
