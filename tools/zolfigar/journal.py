"""A day as a plain-text accounting journal that hledger reads: one entry for each movement, balanced by itself.

    cover:BIC:available, :reserved, :held     what the book keeps for a member
    settlement:BIC                            the member's account outside the book, from which cover comes and to which it goes

The last entry moves nothing: it asserts the positions that the program closed with, so that hledger itself tells whether
the entries before it add up to them."""

import datetime
from collections.abc import Iterable, Iterator, Sequence

from . import files, telling
from .figures import clock
from .history import Day, Move
from .output import Parts
from .progress import over

DATE = datetime.date(2000, 1, 1)
SECONDS = 86400  # of a day
PARTS = Parts._fields


def name_of(day: Day, number: int) -> str:
    """A member's part of an account name: its BIC. A row that has none was refused by the program, and goes by its number."""
    bic = day.bic(number)
    return bic if bic.isalnum() else f"participant-{number}"


def account(day: Day, number: int, part: str) -> str:
    return f"cover:{name_of(day, number)}:{part}"


def outside(day: Day, number: int) -> str:
    return f"settlement:{name_of(day, number)}"


def amount(cents: int) -> str:
    sign = "-" if cents < 0 else ""
    return f"EUR {sign}{abs(cents) // 100}.{abs(cents) % 100:02d}"


def posting(name: str, cents: int, asserted: int | None = None) -> str:
    line = f"    {name:<36}  {amount(cents):>28}"
    return line if asserted is None else f"{line} = {amount(asserted)}"


def date_of(first: datetime.date, seconds: int) -> str:
    try:
        return (first + datetime.timedelta(days=seconds // SECONDS)).isoformat()
    except OverflowError:
        told = f"the journal has no date for {clock(seconds)} where second 0 is on {first}: no date is later"
        raise files.Failed(f"{told} than {datetime.date.max}") from None


def postings(day: Day, moves: Sequence[Move]) -> Iterator[tuple[str, int]]:
    """The postings of one movement: what each member's three parts change by, and what that leaves for the settlement side."""
    for move in moves:
        for part, change in zip(PARTS, move.parts()):
            if change:
                yield account(day, move.participant, part), change
    rest = sum(sum(move.parts()) for move in moves)
    if rest:
        yield outside(day, moves[0].participant), -rest


PAIRS = (("orders settled from it", "orders settled to it"), ("returns by it", "returns to it"))


def pairs(one: Move, other: Move) -> bool:
    """A settlement and a return are two moves, one of each party, and one movement."""
    return one.event is other.event and (one.term, other.term) in PAIRS


def movements(moves: Iterable[Move]) -> list[list[Move]]:
    """The moves, one list for each movement; an open debit moves nothing yet."""
    groups: list[list[Move]] = []
    for move in moves:
        if groups and pairs(groups[-1][0], move):
            groups[-1].append(move)
        elif any(move.parts()):
            groups.append([move])
    return groups


def entry(day: Day, first: datetime.date, moves: Sequence[Move]) -> str:
    """A dated entry: its ticket's number as the code, the member, what moved with the order's TxId, the time as a tag."""
    move = moves[0]
    what = f"{telling.member(day, move.participant)} | {telling.move(day, move)}".replace(";", ",")
    lines = [f"{date_of(first, move.event.time)} * ({move.event.number}) {what}  ; time: {clock(move.event.time % SECONDS)}"]
    return "\n".join(lines + [posting(*line) for line in postings(day, moves)])


def opening(day: Day) -> str:
    """The accounts, declared, so that `hledger check accounts` knows them all."""
    lines = ["commodity EUR 1000.00", ""]
    for participant in day.participants:
        lines += [f"account {account(day, participant.number, part)}" for part in PARTS]
        lines.append(f"account {outside(day, participant.number)}")
    return "\n".join(lines)


def closing(day: Day, first: datetime.date) -> str:
    """The program's closing positions, asserted."""
    seconds = max((move.event.time for move in day.moves), default=0)
    lines = [f"{date_of(first, seconds)} * closing positions, as the program printed them"]
    for position in day.positions:
        closed = zip(PARTS, position.parts())
        lines += [posting(account(day, position.number, part), 0, cents) for part, cents in closed]
    return "\n".join(lines)


def refused(day: Day, first: datetime.date) -> str:
    """The journal of a refused file, which is no day without tickets: an entry that moves nothing says so too."""
    told = telling.refused(day)
    return f"; {day.name}: {told}\n; {telling.NOT_LOOKED_AT}\n\n{first} ! {told}\n"


def journal(day: Day, first: datetime.date = DATE) -> str:
    """The whole journal. `first` is the date on which the day's second 0 falls."""
    if day.refusal is not None:
        return refused(day, first)
    head = f"; {day.name}: {telling.summary(day)}\n; The first date is {first}: a day file has seconds and no date."
    parts = [head, opening(day)] + [entry(day, first, moves) for moves in over(movements(day.moves), "journal")]
    return "\n\n".join(parts + ([closing(day, first)] if day.positions else [])) + "\n"
