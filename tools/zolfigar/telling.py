"""A day in sentences: what became of a ticket, what a report tells, what moved a cover, how an order ended."""

from collections import Counter

from .figures import clock, counted, euro
from .history import TERMS, Day, Event, Move, Order
from .output import Report
from .text import MOST_TIME, small_letters
from .words import CUT_REPORTS, MEANING_BY_KIND, RECALL_LIMIT, REFUSALS, REPORTS

MOVES = {
    "cover-ins": "cover in",
    "cover-outs": "cover out",
    "reserved": "{order} reserved, for {other}",
    "refused": "{order} refused by {other}, freed",
    "expired": "{order} expired, freed",
    "orders settled from it": "{order} settled, to {other}",
    "orders settled to it": "{order} settled, from {other}",
    "returns by it": "{order} returned, to {other}",
    "returns to it": "{order} returned, from {other}",
    "held": "held at the cut",
    "open debit": "open debit at the cut, {amount} to be confirmed",
    "confirmed debits": "confirmed debit",
    "confirmed credits": "confirmed credit",
}
RETURNS = ("returns by it", "returns to it")

STATUSES = {2: "settled", 3: "refused", 4: "expired", None: "waiting"}


def short(bic: str) -> str:
    """A BIC as people write it: XXX, which names no branch, is left off."""
    return bic[:8] if len(bic) == 11 and bic.endswith("XXX") else bic


def member(day: Day, number: int | None) -> str:
    return short(day.bic(number))


def refusal(number: int, kind: int | None = None) -> str:
    """A refusal with its code and meaning: 18 XT75: the order's status .."""
    code, meaning = REFUSALS.get(number, ("", "a number that the paper doesn't have"))
    if kind is not None:
        meaning = MEANING_BY_KIND.get((number, kind), meaning)
    return f"{number} {code}: {meaning}" if code else f"{number}: {meaning}"


NOT_LOOKED_AT = "No ticket was looked at, and there is no cover."


def refused(day: Day) -> str:
    """That the file is refused, and by what."""
    assert day.refusal is not None
    return f"the day file is refused by {refusal(day.refusal)}"


def reason(event: Event, order: Order | None) -> str:
    """The refusal that a ticket got; of a wrong IBAN also which letters are small, as no IBAN has one, and of a recall that
    comes too late until when one would have been in time. The order is the one that the ticket names, if there is one."""
    more = ""
    if event.refusal == 8:
        more = small_letters(event.ticket["iban"].decode("latin-1"))
    elif event.refusal == 26 and event.ticket["kind"] == 5 and order is not None:
        more = last_moment(event, order)
    return ": ".join(filter(None, (refusal(event.refusal, event.ticket["kind"]), more)))


def last_moment(event: Event, order: Order) -> str:
    """When an order was settled, and the last moment to recall it; nothing where it wasn't settled before the event."""
    settled = order.settled_before(event)
    if settled is None:
        return ""
    last = settled.time + RECALL_LIMIT - 1
    until = f"the last moment was {clock(last)}" if last <= MOST_TIME else "and no recall of it can be late"
    return f"settled at {clock(settled.time)}, {until}"


def outcome(day: Day, event: Event) -> str:
    """What became of a ticket."""
    if event.refusal:
        why = reason(event, order_of(day, event.order)), others_with(day, event)
        return "turned back, " + ": ".join(filter(None, why))
    if event.rows:
        return f"carried out, {counted(event.rows, 'route row')} followed"
    return "carried out"


def others_with(day: Day, event: Event) -> str:
    """Of a ticket that 16 turns back, whose orders have its TxId; nothing where none has it, and of another ticket."""
    if event.refusal != 16:
        return ""
    before = (order for order in day.orders if order.event.number < event.number)
    payers = dict.fromkeys(order.payer_bic for order in before if order.event.ticket["txid"] == event.ticket["txid"])
    return f"this TxId is of {', '.join(payers)}" if payers else ""


def order_of(day: Day, number: int | None) -> Order | None:
    """The order with the number, if there is one."""
    return day.orders[number] if number is not None and number < len(day.orders) else None


def order_name(day: Day, number: int | None) -> str:
    """An order's number and name, in brackets where two figures or more words would stand behind each other."""
    order = order_of(day, number)
    if order is None:
        return f"order {number}"
    is_apart = not order.shares and not order.txid[:1].isdigit()
    return f"order {number} {order.name}" if is_apart else f"order {number} ({order.name})"


def of_order(amount: int, order: Order | None) -> str:
    """A returned amount, beside the order's where it is another: 399.00 of 400.00."""
    return euro(amount) if order is None or amount == order.amount else f"{euro(amount)} of {euro(order.amount)}"


def part(amount: int, order: Order | None) -> str:
    """What came back of an order and what the payee kept, 399.00 of 400.00, charge 1.00; nothing where all came back."""
    if order is None or amount == order.amount:
        return ""
    kept = order.amount - amount
    return of_order(amount, order) + (f", charge {euro(kept)}" if kept > 0 else "")


def report(day: Day, told: Report) -> str:
    """What a report tells, and to whom. A 6 carries the returned amount."""
    meaning = REPORTS.get(told.code, "a code that the paper doesn't have")
    about = "" if told.code in CUT_REPORTS else f"{order_name(day, told.order)}, "
    amount = of_order(told.amount, order_of(day, told.order)) if told.code == 6 else euro(told.amount)
    return f"to {member(day, told.to)}: {meaning} ({told.code}), {about}EUR {amount}"


def move(day: Day, entry: Move) -> str:
    """What moved a cover: the order, what became of it, the other party, and of a return what was kept."""
    order = "" if entry.order is None else order_name(day, entry.order)
    words = MOVES[entry.term].format(order=order, other=member(day, entry.other), amount=euro(entry.amount))
    kept = part(entry.amount, order_of(day, entry.order)) if entry.term in RETURNS else ""
    return f"{words}: {kept}" if kept else words


def status(order: Order) -> str:
    """How an order stands at the end of the day, in a word."""
    return "returned" if order.returned else STATUSES.get(order.code, "waiting")


def part_returned(order: Order) -> str:
    """What came back of an order that is returned in part, and what the payee kept; nothing of another."""
    return part(order.returned.ticket["amount"], order) if order.returned else ""


def not_recalled(order: Order) -> str:
    """That an order stays settled as if no recall of it had come, since all that came were too late; nothing of another."""
    return "not recalled: too late" if order.late_recalls and not order.recalls and status(order) == "settled" else ""


def standing(order: Order) -> str:
    """How an order stands, and what was kept: returned 399.00 of 400.00, charge 1.00; or: settled, not recalled: too late."""
    words = " ".join(filter(None, (status(order), part_returned(order))))
    return ", ".join(filter(None, (words, not_recalled(order))))


def ended_after(order: Order) -> int | None:
    """The seconds from the order to its end, if it ended."""
    return None if order.ended is None else order.ended.time - order.time


def summary(day: Day) -> str:
    """The day in one line."""
    turned = sum(event.refusal != 0 for event in day.events)
    counts = Counter(status(order) for order in day.orders)
    ways = ", ".join(
        f"{counts[way]} {way}" for way in ("settled", "returned", "refused", "expired", "waiting") if way in counts
    )
    tickets = f"{counted(len(day.events), 'ticket')}: {len(day.events) - turned} carried out, {turned} turned back"
    return f"{tickets}; {counted(len(day.orders), 'order')}{': ' + ways if ways else ''}"


def equation(day: Day, number: int) -> tuple[list[tuple[str, int]], int]:
    """The cover equation of a participant: (term, amount with its sign) for each term that occurs, and the sum."""
    sums = day.sums(number)
    terms = [(term, sign * sums[term]) for term, sign in TERMS.items() if sums[term]]
    return terms, sum(amount for _, amount in terms)
