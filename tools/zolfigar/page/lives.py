"""An order's life as a drawing: how long it waited, how it ended and what came later.

It takes the width that it is given: positions are percentages."""

import math
from collections.abc import Iterator, Sequence
from typing import NamedTuple
from xml.etree.ElementTree import Element

from .. import telling
from ..figures import clock
from ..history import Day, Event, Order
from ..words import FLAGS, KINDS, LIMIT
from .markup import node, percent

LIMIT_AT = 0.45  # where the 20 second limit lies; to the left time is linear, to the right logarithmic
CLOSE = 0.081  # marks nearer to each other than this part of the width lie below each other: 24 pixels on a phone
MOST_LANES = 4
LANE, TOP = 24, 12  # pixels from lane to lane, and above the first
LATER = (
    (60, "1 min"),
    (600, "10 min"),
    (3600, "1 h"),
    (36000, "10 h"),
    (86400, "1 day"),
    (864000, "10 days"),
    (8640000, "100 days"),
    (86400000, "1,000 days"),
    (864000000, "10,000 days"),
)


class Life(NamedTuple):
    """The scale of the orders' lives: how far it goes, and when the book's clock stopped."""

    far: int
    clock: int

    def part(self, age: int) -> float:
        """Where so many seconds after the order lie, from 0 to 1."""
        if age <= LIMIT:
            return LIMIT_AT * max(age, 0) / LIMIT
        return LIMIT_AT + (1 - LIMIT_AT) * math.log(age / LIMIT) / math.log(self.far / LIMIT)

    def marks(self) -> list[tuple[int, str]]:
        """The ages that are labelled, with their labels; those too near to one before are left out."""
        found = [(age, f"{age} s") for age in (0, 5, 10, 15, 20)]
        for age, label in LATER:
            if age <= self.far and self.part(age) - self.part(found[-1][0]) >= 0.07:
                found.append((age, label))
        return found


def life_scale(day: Day) -> Life:
    stopped = max((event.time for event in day.events if event.sets_clock()), default=0)
    ages = [stopped - order.time for order in day.orders if order.ended is None]
    ages += [event.time - order.time for order in day.orders for event in order.events]
    return Life(max([60, *ages]), stopped)


class Mark(NamedTuple):
    """A ticket in an order's life. The sign is one of SIGNS."""

    event: Event
    age: int
    sign: str
    words: str


SIGNS = {
    "settled": "settled",
    "refused": "refused by the payee",
    "expired": "expired",
    "recall": "recalled",
    "return": "returned",
    "decline": "recall declined",
    "inquiry": "inquiry",
    "turned": "a ticket turned back",
    "told": "a report of it",
}
ENDS = {2: "settled", 3: "refused", 4: "expired"}
# How a sign is drawn around (0, 0), or the letter that it is.
SHAPES = {
    "settled": "M-3.5 0.5L-1 3L4 -3",
    "refused": "M-3 -3L3 3M3 -3L-3 3",
    "expired": "M-3 -4H3L-3 4H3Z",
    "return": "M4 0H-4M-1 -3L-4 0L-1 3",
}
LETTERS = {"recall": "R", "decline": "D", "inquiry": "?", "turned": "!", "told": "i"}


def kind_words(event: Event) -> str:
    """A ticket's kind with its flag: answer yes."""
    kind = event.ticket["kind"]
    name = KINDS.get(kind, f"kind {kind}")
    return " ".join(filter(None, (name, FLAGS.get(kind, {}).get(event.ticket["flag"]))))


def signs_of(order: Order, event: Event) -> Iterator[str]:
    """What an event is in the order's life: its end, a ticket that names it, or one that was only told of it."""
    if event is order.ended and order.code is not None:
        yield ENDS[order.code]
    if event.order == order.number and event is not order.event:
        name = "turned" if event.refusal else KINDS.get(event.ticket["kind"])
        if name in SIGNS:
            yield name
    elif event is not order.ended and event is not order.event:
        yield "told"


def sign_words(order: Order, event: Event, name: str) -> str:
    """What a sign says of an event; of a settlement also its time, of a return in part what came back and what was kept."""
    more = ""
    if name == "settled":
        more = f"at {clock(event.time)}"
    elif name == "return":
        more = telling.part(event.ticket["amount"], order)
    return " ".join(filter(None, (SIGNS[name], more)))


def marks_of(order: Order) -> list[Mark]:
    marks = []
    for event in order.events:
        for name in signs_of(order, event):
            age, said = event.time - order.time, sign_words(order, event, name)
            why = f": {telling.reason(event, order)}" if name == "turned" else ""
            marks.append(Mark(event, age, name, f"{age:,} s: {said}, ticket {event.number} ({kind_words(event)}){why}"))
    return marks


def lanes_of(life: Life, marks: Sequence[Mark]) -> list[tuple[Mark, int | None]]:
    """The marks with a lane each: the first in which none lies too near, and None where there is no lane left. The order's
    end is placed first, and so lies at its bar."""
    lanes: list[list[float]] = [[] for _ in range(MOST_LANES)]
    placed: dict[int, int | None] = {}
    for at in sorted(range(len(marks)), key=lambda at: marks[at].sign not in ENDS.values()):
        part = life.part(marks[at].age)
        free = (n for n, lane in enumerate(lanes) if all(abs(part - other) >= CLOSE for other in lane))
        chosen = placed[at] = next(free, None)
        if chosen is not None:
            lanes[chosen].append(part)
    return [(mark, placed[at]) for at, mark in enumerate(marks)]


def sign(name: str, x: str | int, y: int) -> Element:
    """A sign in its circle, at a place."""
    inside = node("path", d=SHAPES[name]) if name in SHAPES else node("text", LETTERS[name], y=4, text_anchor="middle")
    return node("svg", node("circle", r=8), inside, class_=f"sign {name}", x=x, y=y, overflow="visible")


def mark_link(life: Life, mark: Mark, lane: int) -> Element:
    drawn = sign(mark.sign, percent(life.part(mark.age)), TOP + LANE * lane)
    return node("a", node("title", mark.words), drawn, href=f"#t{mark.event.number}")


def waited(life: Life, order: Order) -> Element:
    """The bar from the order to its end, or to the end of the day where it still waits."""
    end = life.clock if order.ended is None else order.ended.time
    kind = ENDS[order.code] if order.code else "waiting"
    return node("rect", class_=f"wait {kind}", x=0, y=TOP - 4, width=percent(life.part(end - order.time)), height=8)


def begun(order: Order) -> Element:
    """The order's own ticket, at the left end of the bar."""
    words = node("title", f"0 s: the order, ticket {order.event.number}")
    return node(
        "a", words, node("rect", class_="begin", x=-3, y=TOP - 9, width=6, height=18), href=f"#t{order.event.number}"
    )


def life_chart(life: Life, order: Order, has_limit: bool) -> tuple[Element, int]:
    """An order's wait, how it ended and what came later, and how many marks had no room."""
    placed = lanes_of(life, marks_of(order))
    shown = [(mark, lane) for mark, lane in placed if lane is not None]
    height = TOP * 2 + LANE * max((lane for _, lane in shown), default=0)
    grid = node("use", href="#limited" if has_limit else "#unlimited", width="100%", height="100%")
    links = [mark_link(life, mark, lane) for mark, lane in shown]
    drawing = [grid, waited(life, order), begun(order), *links]
    label = f"Life of order {order.number}"
    svg = node("svg", *drawing, class_="life", role="group", aria_label=label, width="100%", height=height)
    return svg, len(placed) - len(shown)


def life_lines(life: Life, has_limit: bool) -> Iterator[Element]:
    for age, _ in life.marks():
        place = percent(life.part(age))
        kind = "ruler" if age != LIMIT else "limit" if has_limit else None
        if kind:
            yield node("line", class_=kind, x1=place, x2=place, y1=0, y2="100%")


def life_grids(life: Life) -> Element:
    """The lines behind the lives, drawn once: with the limit, and without it for linked systems."""
    grids = ((name, life_lines(life, name == "limited")) for name in ("limited", "unlimited"))
    symbols = [node("symbol", *lines, id=name, overflow="visible") for name, lines in grids]
    return node("svg", *symbols, class_="defs", width=0, height=0, aria_hidden="true")


def always_shown(life: Life) -> list[int]:
    """The ages whose labels are shown even where there is little room, a fifth of the width or more from each other: the
    limit, and then from the last backwards."""
    shown: list[int] = []
    for age, _ in sorted(life.marks(), key=lambda mark: (mark[0] != LIMIT, -mark[0])):
        if all(abs(life.part(age) - life.part(other)) >= 0.2 for other in shown):
            shown.append(age)
    return shown


def life_axis(life: Life) -> Element:
    """The labels above the lives."""
    labels, always = [], always_shown(life)
    for age, label in life.marks():
        part = life.part(age)
        anchor = "start" if part < 0.02 else "end" if part > 0.94 else "middle"
        kind = "limit" if age == LIMIT else None if age in always else "second"
        labels.append(node("text", label, class_=kind, x=percent(part), y=12, text_anchor=anchor))
    return node("svg", *labels, class_="axis", width="100%", height=16, role="img", aria_label="Time since the order")
