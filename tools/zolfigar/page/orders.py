"""The section of the orders: a table, and in each row the order's life."""

from xml.etree.ElementTree import Element

from .. import audit, telling
from ..figures import counted, euro
from ..history import Day, Order, text_of
from ..words import LIMIT
from . import lives
from .markup import Child, comma_separated, head_row, link, member_link, node, section, ticket_link
from .view import View


def payee_words(day: Day, order: Order) -> list[Child]:
    """The payee, and the BIC that the order names where its route leads on from it."""
    named = telling.short(text_of(order.event.ticket["payee"]))
    reached = member_link(day, order.payee) if order.payee is not None else "nobody"
    return [reached] if named == telling.member(day, order.payee) else [reached, " ", node("small", f"for {named}")]


def status_word(status: str) -> Element:
    return node("span", status, class_=f"status {status}")


def standing_words(order: Order) -> list[Child]:
    """How the order stands; of a return in part also what came back and what was kept, which leads to the return."""
    word, part = status_word(telling.status(order)), telling.part_returned(order)
    return [word, " ", ticket_link(order.returned.number, part)] if order.returned and part else [word]


def late_words(order: Order) -> list[Child]:
    """That recalls of the order came too late, which leads to the first of them."""
    words = telling.not_recalled(order)
    return [", ", ticket_link(order.late_recalls[0].number, words)] if words else []


def ended_words(order: Order) -> list[Child]:
    """How the order stands, and after how long its wait ended: settled after 4 s, returned."""
    after = telling.ended_after(order)
    if after is None:
        return standing_words(order)
    end = telling.STATUSES[order.code]
    words: list[Child] = [status_word(end), " ", node("span", f"after {after:,} s", class_="after")]
    return words if telling.status(order) == end else [*words, ", ", *standing_words(order)]


def status_words(day: Day, order: Order) -> list[Child]:
    """How the order stands, that recalls of it came too late, and that a linked system has no limit of 20 seconds."""
    words = [*ended_words(order), *late_words(order)]
    return words if audit.is_for_bank(day, order) else [*words, " ", node("small", f"no {LIMIT} s limit: linked system")]


def life_cell(view: View, order: Order) -> Element:
    drawing, left_out = lives.life_chart(view.life, order, audit.is_for_bank(view.day, order))
    if not left_out:
        return node("td", drawing, class_="lived")
    links = comma_separated([ticket_link(event.number) for event in order.events])
    summary = node("summary", f"{counted(left_out, 'mark')} more; all {counted(len(order.events), 'ticket')}")
    return node("td", drawing, node("details", summary, node("p", *links)), class_="lived")


def order_row(view: View, order: Order) -> Element:
    cells = [
        node("th", link(f"o{order.number}", str(order.number)), scope="row"),
        node("td", ticket_link(order.event.number, order.txid), class_="txid"),
        node("td", member_link(view.day, order.payer)),
        node("td", *payee_words(view.day, order)),
        node("td", ticket_link(order.event.number, euro(order.amount)), class_="figure"),
        node("td", *status_words(view.day, order)),
        life_cell(view, order),
    ]
    return node("tr", *cells, id=f"o{order.number}")


def signs_legend() -> Element:
    """The signs that stand on the lives of a day's orders."""
    entries = [node("span", sign_alone(name), words) for name, words in lives.SIGNS.items() if name != "told"]
    waiting = node("span", node("i", class_="swatch waiting"), "still waiting")
    return node("p", *entries, waiting, class_="legend")


def sign_alone(name: str) -> Element:
    return node("svg", lives.sign(name, 9, 9), width=18, height=18, aria_hidden="true", class_="life")


def orders(view: View) -> Element:
    if not view.day.orders:
        return section("orders", "Orders", node("p", "None was accepted."))
    header = head_row("Order", "TxId", "Payer", "Payee", "Amount#", "Status", "")
    header[0][-1].set("class", "lived")
    header[0][-1].append(lives.life_axis(view.life))
    rows = [order_row(view, order) for order in view.day.orders]
    note = "From the order, at the left, to what came of it. Time is linear up to the limit of 20 seconds, and then logarithmic."
    table = node("table", header, node("tbody", *rows), class_="orders", aria_labelledby="orders-title")
    grids = lives.life_grids(view.life)
    return section("orders", "Orders", node("p", note, class_="soft"), signs_legend(), grids, table)
