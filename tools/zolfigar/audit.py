"""What doesn't add up in a day as it was seen: the clauses of 01 'Demand 3, word by word', what slip 2 of 02 says of returns,
slip 5 of recalls that come too late and slip 6 of the key of an order, held against tickets, answers, reports and closing
positions.

Of the book's rules three are recomputed: whether a ticket's sender and order are there and fit (12, 13, 16, 17), when a recall
comes too late (26), and that nothing answers a recall which was not accepted. Else which refusal a ticket should have had, how
many route rows it followed, how large an open debit is and what an inquiry should have told are not looked at. A problem is a
sentence that names the ticket, the order or the participant."""

from collections.abc import Iterator

from . import layout
from .figures import counted, euro
from .history import Day, Event, Order
from .output import Parts, Report
from .words import CUT_REPORTS, ENDINGS, LIMIT, NO_ORDER, RECALL_LIMIT, REFUSALS


def problems(day: Day) -> list[str]:
    """All of them, in the order of the paper's clauses. What the reading found stands first."""
    if day.refusal is not None:
        return list(day.problems)
    found = list(day.problems)
    for clause in CLAUSES:
        found += clause(day)
    return found


# To whom a report goes, by its code; 2 and 4 go to either party.
RECEIVERS = {1: "payee", 3: "payer", 5: "payee", 6: "payer", 7: "payer", 8: "payee", 9: "payer"}

# The kinds of accepted tickets that bring a report, by its code; any ticket may bring a 4.
CAUSES = {1: (3,), 2: (4, 8), 3: (4, 8), 5: (5,), 6: (6, 8), 7: (7, 8), 8: (8,), 9: (8,), 10: (9,), 11: (9,)}


def name_of(order: Order) -> str:
    return f"order {order.number} ({order.name})"


def each_report(day: Day) -> Iterator[tuple[Event, Report]]:
    return ((event, report) for event in day.events for report in event.reports)


def addressed(day: Day) -> Iterator[str]:
    """Each report goes to a participant, and each accepted ticket that has a sender comes from one."""
    for event, report in each_report(day):
        if report.to >= len(day.participants):
            yield f"ticket {event.number}: a report goes to participant {report.to}, and there is none"
    for event in day.events:
        if event.refusal == 0 and event.sender is None and event.ticket["kind"] not in (9, 11):
            yield f"ticket {event.number} was accepted, and its sender is no participant"


def about_orders(day: Day) -> Iterator[str]:
    """Reports 1 to 9 are about an order accepted by then, an ending about one accepted before its ticket; a cut's about none."""
    before = 0
    for event in day.events:
        by_then = before + event.is_accepted(3)
        for report in event.reports:
            accepted = before if report.code in ENDINGS else by_then
            if report.code in CUT_REPORTS and report.order != NO_ORDER:
                yield f"ticket {event.number}: a report {report.code} names order {report.order}, and a cut's names none"
            elif report.code not in CUT_REPORTS and report.order >= accepted:
                yield f"ticket {event.number}: a report {report.code} about order {report.order}, which was not accepted before"
            elif report.code not in CUT_REPORTS:
                yield from to_a_party(day, event, report)
        before = by_then


def to_a_party(day: Day, event: Event, report: Report) -> Iterator[str]:
    """A report about an order goes to the party that its code is for, and carries its amount; a 6 that of its return."""
    order = day.orders[report.order]
    told = f"ticket {event.number}: a report {report.code} about {name_of(order)}"
    receivers = {"payer": [order.payer], "payee": [order.payee]}
    if report.to not in receivers.get(RECEIVERS.get(report.code, ""), [order.payer, order.payee]):
        yield f"{told} goes to {day.bic(report.to)}, and must not"
    if report.code == 6:
        yield from of_a_return(order, event, report, told)
    elif report.amount != order.amount:
        yield f"{told} tells {euro(report.amount)}, and the order is over {euro(order.amount)}"


def of_a_return(order: Order, event: Event, report: Report, told: str) -> Iterator[str]:
    """A report 6 carries the amount of the order's return, at the return itself and whenever an inquiry repeats it."""
    by_then = [each for each in order.returns if each.number <= event.number]
    if not by_then:
        yield f"{told}, and no return of it was accepted by then"
    elif report.amount != by_then[-1].ticket["amount"]:
        returned = f"ticket {by_then[-1].number} returns {euro(by_then[-1].ticket['amount'])}"
        yield f"{told} tells {euro(report.amount)}, and {returned}"


def caused(day: Day) -> Iterator[str]:
    """A report comes from a ticket of a kind that brings it, about the order that the ticket makes or names; a 4 from any."""
    for event, report in each_report(day):
        kinds = CAUSES.get(report.code)
        told = f"ticket {event.number}: a report {report.code}"
        if kinds is None and report.code != 4:
            yield f"{told}, and there is no such code"
        elif kinds and not (event.refusal == 0 and event.ticket["kind"] in kinds):
            yield f"{told} comes from a ticket that doesn't bring it"
        elif kinds and report.code not in CUT_REPORTS and event.order != report.order:
            yield f"{told} is about order {report.order}, and the ticket is about another"


def refusals(day: Day) -> Iterator[str]:
    """A ticket of a file that is not refused has refusal 0, 7 to 22 or 26: 1 to 5 are a file's, 6 a short buffer's, 23 to 25 a
    message's."""
    for event in day.events:
        if event.refusal not in (0, *range(7, 23), 26):
            yield f"ticket {event.number} has refusal {event.refusal}, and the program gives a ticket 0, 7 to 22 or 26"


def named(day: Day, event: Event) -> Order | None:
    """The order that a ticket makes or names, if there is one."""
    return None if event.order is None else day.orders[event.order]


# Whose ticket a kind is.
SIDES = {4: "payee", 5: "payer", 6: "payee", 7: "payee", 8: "payer"}


def party(order: Order, side: str) -> int | None:
    return order.payer if side == "payer" else order.payee


def answered(day: Day) -> Iterator[str]:
    """An accepted recall and inquiry comes from the order's payer, an accepted answer, return and decline from its payee."""
    for event in day.events:
        side = SIDES.get(event.ticket["kind"])
        if event.refusal or side is None:
            continue
        order = named(day, event)
        if order is None:
            yield f"ticket {event.number} was accepted, and {NOT_HELD}"
        elif event.sender != party(order, side):
            yield f"ticket {event.number} was accepted, and its sender is not the {side} of {name_of(order)}"


def quiet(day: Day) -> Iterator[str]:
    """A ticket that 6 to 11 turn back tells nobody anything; rows are followed for accepted orders only."""
    for event in day.events:
        if not event.sets_clock() and event.reports:
            yield f"ticket {event.number} was turned back by {event.refusal}, and has {counted(len(event.reports), 'report')}"
        if event.rows and not event.is_accepted(3):
            yield f"ticket {event.number} is no accepted order, and its line counts {counted(event.rows, 'route row')}"


def parties(day: Day) -> Iterator[str]:
    """An accepted order has its report 1, a yes its report 2, a return its report 6; a confirm follows a cut's report."""
    needs = {3: 1, 6: 6}
    for event in day.events:
        code = 2 if event.is_yes() else needs.get(event.ticket["kind"]) if event.refusal == 0 else None
        if code and event.first(code) is None:
            yield f"ticket {event.number} was accepted, and its report {code} is missing"
    confirms = {move.event.number for move in day.moves if move.term.startswith("confirmed")}
    for event in day.events:
        if event.is_accepted(10) and event.number not in confirms:
            yield f"ticket {event.number} is an accepted confirm, and no cut told its sender of anything before"


def is_for_bank(day: Day, order: Order) -> bool:
    return order.payee is not None and order.payee < len(day.participants) and day.participants[order.payee].is_bank


def due(day: Day, order: Order) -> Event | None:
    """The first ticket that is not turned back by 6 to 11 and comes 20 seconds or more after an order for a bank."""
    after = day.events[order.event.number + 1 :] if is_for_bank(day, order) else []
    return next((event for event in after if event.sets_clock() and event.time - order.time >= LIMIT), None)


def expiry(day: Day) -> Iterator[str]:
    """A ticket lets an order expire exactly when it must: the order still waits, it is for a bank, and 20 seconds are over."""
    for order in day.orders:
        must, ended = due(day, order), order.ended
        if ended is not None and order.code == 4 and ended is not must:
            yield f"ticket {ended.number} lets {name_of(order)} expire {ended.time - order.time} seconds after it, and must not"
        if must and order.code != 4 and (ended is None or ended.number >= must.number):
            late = must.time - order.time
            yield f"ticket {must.number} must let {name_of(order)} expire, {late} seconds after it, and doesn't"


def own_endings(order: Order, event: Event) -> list[Report]:
    """The event's endings of the order, but for the repeat of an accepted inquiry about it, which is the last."""
    told = [report for report in event.reports if report.code in ENDINGS and report.order == order.number]
    return told[:-1] if event.is_accepted(8) and event.order == order.number else told


def repeated(day: Day) -> Iterator[str]:
    """An end tells each party once, and an inquiry's repeat goes to its sender."""
    for order in day.orders:
        for event in order.events:
            own = [report.to for report in own_endings(order, event)]
            if len(set(own)) < len(own) and order.payer != order.payee:
                yield f"ticket {event.number} tells the end of {name_of(order)} twice to one party"
        for event in (e for e in order.events if e.is_accepted(8) and e.order == order.number):
            told = [report for report in event.reports if report.code in ENDINGS and report.order == order.number]
            if told and told[-1].to != event.sender:
                yield f"ticket {event.number} asks about {name_of(order)}, and its answer goes to {day.bic(told[-1].to)}"


def once(day: Day) -> Iterator[str]:
    """All endings of an order but repeats come from one ticket."""
    for order in day.orders:
        tickets = [event.number for event in order.events if own_endings(order, event)]
        if len(tickets) > 1:
            yield f"{name_of(order)} stops waiting more than once: at tickets {', '.join(map(str, tickets))}"
        elif order.ended is not None and not tickets:
            yield f"{name_of(order)} is told to have ended by ticket {order.ended.number}, and no ticket ended it"


def alike(day: Day) -> Iterator[str]:
    """All endings of an order carry the same code. (That a report carries the order's amount is `to_a_party`.)"""
    for event, report in each_report(day):
        order = day.orders[report.order] if report.order < len(day.orders) else None
        if order and report.code in ENDINGS and report.code != order.code:
            yield f"ticket {event.number} tells ending {report.code} of {name_of(order)}, and it ended with {order.code}"


def returns(day: Day) -> Iterator[str]:
    """An order is returned once at most, by 1 cent to its amount: 18, 19 and 9 turn other returns back."""
    for order in day.orders:
        if len(order.returns) > 1:
            tickets = ", ".join(str(event.number) for event in order.returns)
            yield f"{name_of(order)} is returned more than once: at tickets {tickets}"
        for event in order.returns:
            told, amount = f"ticket {event.number} was accepted, and returns", event.ticket["amount"]
            if amount > order.amount:
                yield f"{told} {euro(amount)} of {name_of(order)}, which is over {euro(order.amount)}: 19 turns that back"
            elif amount == 0:
                yield f"{told} nothing of {name_of(order)}: 9 turns that back"


# The refusals that are recomputed; of an accepted ticket 12, 16 and 17 are `addressed` and `answered`.
RECOMPUTED = (12, 13, 16, 17, 26)
AS_LOOKED_AT = list(REFUSALS)
NOT_HELD = "no order has its payer and TxId"


def due_refusal(order: Order | None, event: Event, clock: int) -> tuple[int, str]:
    """Of 11 to 13, 16 to 18 and 26 the first that a ticket is due, 0 if none, and why: given the order with the payer and TxId
    that it makes or names, if there was one before, and the clock before it."""
    kind = event.ticket["kind"]
    if event.time < clock:
        return 11, "its time is before the clock"
    if event.sender is None and kind not in (9, 11):
        return 12, "its sender is no participant"
    if kind == 3 and order is not None:
        return 13, f"{name_of(order)} has its payer and TxId"
    return due_about_order(order, event) if kind in SIDES else (0, "")


def due_about_order(order: Order | None, event: Event) -> tuple[int, str]:
    """The same of kinds 4 to 8 from a participant: 16, 17 or 0; of a recall also 18 and 26."""
    side = SIDES[event.ticket["kind"]]
    if order is None:
        return 16, NOT_HELD
    if event.sender != party(order, side):
        return 17, f"its sender is not the {side} of {name_of(order)}"
    return due_of_recall(order, event) if event.ticket["kind"] == 5 else (0, "")


def due_of_recall(order: Order, event: Event) -> tuple[int, str]:
    """The same of a recall by the order's payer: 18, 26 or 0, and why not."""
    settled, recall = order.settled_before(event), next(iter(order.recalls), event)
    if settled is None:
        return 18, f"{name_of(order)} is not settled"
    if recall.number < event.number:
        return 18, f"ticket {recall.number} recalled {name_of(order)}"
    after = event.time - settled.time
    told = f"recalls {name_of(order)} {after:,} seconds after its settlement"
    return (26, told) if after >= RECALL_LIMIT else (0, f"{told}: that is in time")


def not_due(order: Order | None, event: Event, in_time: str) -> str:
    """Why a ticket to which none of these refusals is due should not have the one that it has."""
    kind = event.ticket["kind"]
    held = f"{name_of(order)} has its payer and TxId" if order and kind in SIDES else "names no order"
    fits = f"its sender is the {SIDES[kind]} of {name_of(order)}" if order and kind in SIDES else "names no order"
    why = {
        12: "has no sender" if kind in (9, 11) else "its sender is a participant",
        13: "no order before has its payer and TxId" if kind == 3 else "is no order",
        16: held,
        17: fits,
        26: in_time or "is no recall",
    }
    return why[event.refusal]


def recomputed(day: Day) -> Iterator[str]:
    """12, 13, 16, 17 and 26 turn back the tickets that they must and no others. What 6 to 11 turn back is not looked at, nor what
    7 to 10 should have."""
    clock = 0
    held: dict[tuple[bytes, bytes], Order] = {}
    for event in (event for event in day.events if event.sets_clock()):
        order = held.get(layout.key_of(event.ticket)) if 3 <= event.ticket["kind"] <= 8 else None
        number, why = due_refusal(order, event, clock)
        if event.refusal:
            became = f"ticket {event.number} was turned back by {event.refusal}"
            if number and number != event.refusal and {number, event.refusal} & set(RECOMPUTED):
                is_first = event.refusal in RECOMPUTED and AS_LOOKED_AT.index(number) < AS_LOOKED_AT.index(event.refusal)
                yield f"{became}, and {why}: {number} {'comes first' if is_first else 'turns that back'}"
            elif not number and event.refusal in RECOMPUTED:
                yield f"{became}, and {not_due(order, event, why)}"
        elif number in (13, 26):
            yield f"ticket {event.number} was accepted, and {why}: {number} turns that back"
        if event.is_accepted(3) and event.order is not None:
            held.setdefault(layout.key_of(event.ticket), day.orders[event.order])
        clock = max(clock, event.time)


def marked(day: Day) -> Iterator[str]:
    """Before a recall of an order is accepted, no return and no decline of it is, and no 7 is told of it, nor an 8 once it is
    settled: a recall that comes too late marks nothing."""
    for order in day.orders:
        first = order.recalls[0].number if order.recalls else len(day.events)
        for event in (event for event in order.events if event.number < first):
            marks = (7, 8) if order.settled_before(event) else (7,)
            told = [report.code for report in event.reports if report.order == order.number and report.code in marks]
            none = f"no recall of {name_of(order)} was accepted before"
            if event.order == order.number and (event.is_accepted(6) or event.is_accepted(7)):
                yield f"ticket {event.number} was accepted, and {none}: 18 turns that back"
            elif told:
                yield f"ticket {event.number} has a report {told[0]}, and {none}"


def never_below(day: Day) -> Iterator[str]:
    """No part of a participant's cover is ever below zero."""
    for participant in day.participants:
        for move, after in day.statement(participant.number):
            for part, amount in zip(Parts._fields, after):
                if amount < 0:
                    yield f"{participant.bic}: ticket {move.event.number} takes {part} to {euro(amount)}"


def positions(day: Day) -> Iterator[str]:
    """The cover equation, and each of available, reserved and held, against the program's closing position."""
    for participant in day.participants:
        position = day.position(participant.number)
        if position is None:
            continue
        after = Parts()
        for _, after in day.statement(participant.number):
            pass
        for part, added, printed in zip(Parts._fields, after, position.parts()):
            if added != printed:
                yield f"{participant.bic}: {part} adds up to {euro(added)}, and the output closes it at {euro(printed)}"
        waiting = sum(order.amount for order in day.waiting(participant.number))
        if waiting != position.reserved:
            yield f"{participant.bic}: its waiting orders are {euro(waiting)}, and the output reserves {euro(position.reserved)}"


CLAUSES = (
    refusals,
    addressed,
    about_orders,
    caused,
    answered,
    quiet,
    parties,
    expiry,
    once,
    repeated,
    alike,
    returns,
    recomputed,
    marked,
    never_below,
    positions,
)
