"""The section of the participants: the closing positions of all, and of each the chart, the equation and the statement."""

from collections.abc import Iterator, Mapping
from xml.etree.ElementTree import Element

from .. import telling
from ..figures import clock, counted, euro
from ..history import Day, Move, Participant
from ..output import Parts
from . import covers
from .markup import (
    PARTS,
    Attribute,
    Child,
    changes,
    comma_separated,
    figure,
    head_row,
    link,
    node,
    section,
    signed,
    ticket_link,
    with_order,
)
from .view import View

OPEN_LINES = 80  # statements are open at first on a day with at most so many lines in all


def last_changes(day: Day, number: int) -> dict[str, int]:
    """For available, reserved and held the ticket that changed it last."""
    last: dict[str, int] = {}
    for move, _ in day.statement(number):
        last |= {part: move.event.number for part, _ in changes(move)}
    return last


def closing(day: Day) -> Element:
    """The closing positions of all, as the C lines have them, with their sums."""
    rows = [closing_row(day, participant) for participant in day.participants]
    sums = [sum(part) for part in zip(Parts(), *(position.parts() for position in day.positions))]
    cells = (node("td", euro(cents), class_="figure") for cents in (*sums, sum(sums)))
    total = node("tr", node("th", "All together", scope="row"), node("td"), node("td"), *cells)
    header = head_row("Participant", "Kind", "Opening cover#", "Available#", "Reserved#", "Held#", "Cover#")
    caption = node("caption", "Closing positions, in euro")
    table = node("table", caption, header, node("tbody", *rows), node("tfoot", total), class_="closing")
    return node("div", table, class_="wide")


def closing_row(day: Day, participant: Participant) -> Element:
    position = day.position(participant.number)
    name = node("th", link(f"p{participant.number}", telling.short(participant.bic), class_="bic"), scope="row")
    opening = "none" if participant.opening is None else euro(participant.opening)
    cells = [node("td", kind_of(participant)), node("td", opening, class_="figure")]
    if position is None:
        return node("tr", name, *cells, node("td", "not in the output", colspan=4))
    last = last_changes(day, participant.number)
    figures = [figure(cents, last.get(part)) for part, cents in zip(PARTS, position.parts())]
    cover = euro(sum(position.parts()))
    return node("tr", name, *cells, *(node("td", cell, class_="figure") for cell in (*figures, cover)))


def kind_of(participant: Participant) -> str:
    return "bank" if participant.is_bank else "linked system"


def sum_row(name: str, amount: Child, *more: Child, **attributes: Attribute) -> Element:
    cells = node("td", *more), node("td", amount, class_="figure")
    return node("tr", node("th", name, scope="row"), *cells, **attributes)


def equation(view: View, participant: Participant) -> Element:
    """The cover equation added up, and beside it what the program's C line says."""
    day, number = view.day, participant.number
    terms, total = telling.equation(day, number)
    rows = [term_row(day, number, term, amount) for term, amount in terms]
    added = sum_row("Cover, added up", euro(total), class_="sum")
    table = node("tbody", *rows, added)
    parts = node("caption", "The cover equation"), table, closed(day, number, total)
    return node("table", *parts, class_="equation", aria_label=f"Cover equation of {telling.member(day, number)}")


def term_row(day: Day, number: int, term: str, amount: int) -> Element:
    tickets = [move.event.number for move in day.moves if move.participant == number and move.term == term]
    links = comma_separated([ticket_link(ticket) for ticket in tickets])
    if len(tickets) <= 6:
        behind = ["ticket " if len(tickets) == 1 else "tickets ", *links]
    else:
        behind = [node("details", node("summary", counted(len(tickets), "ticket")), node("p", *links))]
    shown: Child = ticket_link(tickets[0], signed(amount)) if len(tickets) == 1 else signed(amount)
    return sum_row(term.capitalize(), shown, *behind)


def closed(day: Day, number: int, total: int) -> Element:
    """The C line's figures, each with the ticket behind it, and whether they are what was added up."""
    position = day.position(number)
    if position is None:
        return node("tbody", sum_row("The output has no closing position", ""))
    last = last_changes(day, number)
    line = node("code", f"C {' '.join(map(str, (position.number, *position.parts())))}")
    heading = node("tr", node("th", "As the output closes it: ", line, scope="rowgroup", colspan=3))
    parts = zip(PARTS, position.parts())
    rows = [sum_row(part.capitalize(), figure(cents, last.get(part)), class_=part) for part, cents in parts]
    cover = sum(position.parts())
    same = "the same" if cover == total else f"differs by {euro(cover - total)}"
    together = sum_row("Together", euro(cover), same, class_="sum" if cover == total else "sum differs")
    return node("tbody", heading, *rows, together, class_="closed")


def statement_rows(view: View, number: int) -> Iterator[Element]:
    last: dict[str, int] = {}
    for move, after in view.day.statement(number):
        last |= {part: move.event.number for part, _ in changes(move)}
        yield statement_row(view, move, after, last)


def statement_row(view: View, move: Move, after: Parts, last: Mapping[str, int]) -> Element:
    event = move.event
    cells = [
        node("td", clock(event.time), class_="time"),
        node("th", ticket_link(event.number), scope="row"),
        node("td", *with_order(view.day, telling.move(view.day, move), move.order)),
        node("td", *change_lines(move), class_="change"),
    ]
    for part, amount, moved in zip(PARTS, after, move.parts()):
        cells.append(node("td", figure(amount, last.get(part)), class_="figure" if moved else "figure same"))
    return node("tr", *cells, id=f"m{view.move_number[id(move)]}")


def change_lines(move: Move) -> list[Element]:
    number = move.event.number
    lines = [node("div", node("span", part), ticket_link(number, signed(cents))) for part, cents in changes(move)]
    return lines or [node("div", node("span", "none"))]


def statement(view: View, number: int) -> Element:
    rows = list(statement_rows(view, number))
    if not rows:
        return node("p", "No ticket moved its cover.", class_="soft")
    header = head_row("Time", "Ticket", "What", "Change#", "Available#", "Reserved#", "Held#")
    name = f"Statement of {telling.member(view.day, number)}"
    table = node("table", header, node("tbody", *rows), class_="statement", aria_label=name)
    summary = node("summary", f"{name}, {counted(len(rows), 'line')}")
    return node("details", summary, table, open=len(view.day.moves) <= OPEN_LINES)


def drawn(view: View, number: int) -> Element:
    """The chart by time and by ticket, of which the page shows one."""
    if not any(move.participant == number for move in view.day.moves):
        return node("div")
    drawings = [covers.cover_chart(view.day, number, axis) for axis in covers.AXES]
    return node("div", link(f"p{number}-figures", "Skip the chart", class_="skip"), *drawings)


def participant_part(view: View, participant: Participant) -> Element:
    number = participant.number
    opening = "no opening cover" if participant.opening is None else f"opening cover {euro(participant.opening)}"
    name = node("h3", link(f"p{number}", telling.short(participant.bic), class_="bic"), id=f"p{number}-name")
    about = node("p", f"{kind_of(participant)}, number {number}, {opening}", class_="soft")
    figures = node("div", equation(view, participant), id=f"p{number}-figures")
    sides = node("div", drawn(view, number), figures, class_="sides")
    parts = node("div", name, about, class_="name"), sides, statement(view, number)
    return node("article", *parts, id=f"p{number}", aria_labelledby=f"p{number}-name", class_="participant")


def axis_choice() -> list[Element]:
    """Which of the two charts is shown. The style looks at these buttons, which is why they stand beside the list."""
    parts = [node("span", "Charts by", class_="choice-name")]
    for axis in covers.AXES:
        is_first = axis == "ticket"
        parts.append(
            node("input", type="radio", name="axis", id=f"by-{axis}", checked=is_first, aria_label=f"Charts by {axis}")
        )
        parts.append(node("label", axis, for_=f"by-{axis}"))
    return parts


def areas_legend() -> Element:
    entries = [node("span", node("i", class_=f"swatch {part}"), part) for part in PARTS]
    line = node("span", node("i", class_="swatch cover"), "top line: the cover, all three together")
    return node("p", *entries, line, class_="legend")


def participants(view: View) -> Element:
    if not view.day.participants:
        return section("participants", "Participants", node("p", "There are none."))
    parts = [participant_part(view, participant) for participant in view.day.participants]
    note = node(
        "p",
        "Each underlined figure leads to the ticket behind it, and on a wide screen each step of a chart.",
        class_="soft",
    )
    choice = [*axis_choice(), areas_legend()]
    return section("participants", "Participants", closing(view.day), note, *choice, node("div", *parts, class_="list"))
