"""The section of the tickets: the list with its filter, and the help on the keys."""

from collections.abc import Iterable
from xml.etree.ElementTree import Element

from .. import telling
from ..figures import clock, euro
from ..history import Day, Event, Move
from ..output import Report
from ..unpacking import ticket_words
from ..words import CUT_REPORTS, KINDS
from .markup import (
    Attribute,
    Child,
    changes,
    folded,
    head_row,
    is_member,
    link,
    node,
    section,
    signed,
    ticket_link,
    with_order,
)
from .view import View

FEW = 4  # reports or movements that a ticket shows at once; more are folded


def report_item(day: Day, told: Report) -> list[Child]:
    return with_order(day, telling.report(day, told), None if told.code in CUT_REPORTS else told.order)


def moved_item(view: View, move: Move) -> list[Child]:
    """Whose cover moved and how; it leads to the line of the statement."""
    changed = ", ".join(f"{part} {signed(cents)}" for part, cents in changes(move)) or f"{move.term} {euro(move.amount)}"
    return [link(f"m{view.move_number[id(move)]}", f"{telling.member(view.day, move.participant)}: {changed}")]


def members_of(view: View, event: Event) -> list[int]:
    """The participants that a ticket concerns: its sender, those told, those whose cover it moved."""
    told = [report.to for report in event.reports]
    moved = [move.participant for move in view.moves_of[event.number]]
    order = view.day.orders[event.order] if event.order is not None else None
    parties = [order.payer, order.payee] if order else []
    concerned = {event.sender, *told, *moved, *parties}
    return sorted(number for number in concerned if number is not None and is_member(view.day, number))


def ticket_cell(event: Event) -> Element:
    words: list[Child] = [node("code", ticket_words(event.ticket))]
    if event.order is not None:
        words += [" ", node("small", link(f"o{event.order}", f"order {event.order}"))]
    return node("td", *words, class_="words")


def ticket_row(view: View, event: Event) -> Element:
    moves = [moved_item(view, move) for move in view.moves_of[event.number] if is_member(view.day, move.participant)]
    reports = [report_item(view.day, told) for told in event.reports]
    cells = [
        node("th", ticket_link(event.number), scope="row"),
        node("td", clock(event.time), class_="time"),
        ticket_cell(event),
        node("td", telling.outcome(view.day, event), class_="outcome"),
        node("td", folded(reports, FEW, "report"), class_="reports"),
        node("td", folded(moves, FEW, "movement"), class_="moved"),
    ]
    facts: dict[str, Attribute] = {
        "data_kind": kind_word(event),
        "data_members": " ".join(map(str, members_of(view, event))),
        "data_reports": len(reports),
    }
    return node("tr", *cells, id=f"t{event.number}", class_="turned" if event.refusal else None, **facts)


def kind_word(event: Event) -> str:
    return KINDS.get(event.ticket["kind"], "other")


def chosen(name: str, label: str, entries: Iterable[tuple[str, str]]) -> Element:
    """A list to choose one of, the first of which stands for all."""
    options = [node("option", words, value=value) for value, words in entries]
    return node("label", label, " ", node("select", *options, id=name))


def filter_form(view: View) -> Element:
    day = view.day
    kinds = dict.fromkeys(
        kind for kind in (*KINDS.values(), "other") if any(kind_word(event) == kind for event in day.events)
    )
    members = [(str(p.number), telling.short(p.bic)) for p in day.participants]
    shows = []
    for value, label in (("all", "all"), ("turned", "turned back"), ("told", "with reports")):
        shows.append(node("label", node("input", type="radio", name="show", value=value, checked=value == "all"), label))
    text = node(
        "input", type="search", id="text", autocomplete="off", spellcheck="false", placeholder="any part of a ticket"
    )
    parts = [
        node("label", "Filter ", text),
        node("fieldset", node("legend", "Show", class_="unseen"), *shows),
        chosen("kind", "Kind", [("", "any"), *((kind, kind) for kind in kinds)]),
        chosen("member", "Member", [("", "any"), *members]),
        node("output", f"{len(day.events)} of {len(day.events)} shown", id="count", for_="text kind member"),
    ]
    return node("form", *parts, id="filter", role="search", aria_label="Tickets", autocomplete="off", hidden=True)


def tickets(view: View) -> Element:
    if not view.day.events:
        return section("tickets", "Tickets", node("p", "There are none."))
    header = head_row("Ticket", "Time", "What it says", "What became of it", "Reports", "Cover moved")
    rows = [ticket_row(view, event) for event in view.day.events]
    table = node("table", header, node("tbody", *rows), class_="tickets", aria_labelledby="tickets-title")
    return section("tickets", "Tickets", filter_form(view), table)


KEYS = (
    ("/", "to the filter"),
    ("Esc", "show all tickets again"),
    ("j, k", "to the next, the previous ticket shown"),
    ("Tab", "through the page: of a table it takes the links of one row, of a chart one step"),
    ("\u2193, \u2191", "in a table: to the next, the previous row"),
    ("\u2192, \u2190", "in a chart: to the next, the previous step"),
    ("Enter", "follows a link, and the browser's back returns; on a ticket: unfold or fold its reports and movements"),
    ("?", "this help"),
)


def help_box() -> Element:
    entries = [part for key, words in KEYS for part in (node("dt", node("kbd", key)), node("dd", words))]
    parts = node("h2", "Keys", id="help-title"), node("dl", *entries), node("button", "Close", type="button", id="close")
    return node("dialog", *parts, id="help", aria_labelledby="help-title")
