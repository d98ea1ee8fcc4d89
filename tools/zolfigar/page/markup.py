"""What the page is built of: the builder of elements, and the small parts: links, figures, folds, table heads, sections."""

from collections.abc import Iterable, Sequence
from xml.etree.ElementTree import Element

from .. import telling
from ..figures import counted, euro
from ..history import Day, Move
from ..output import Parts

PARTS = Parts._fields
Child = Element | str | None
Attribute = str | int | bool | None


# Elements


def node(tag: str, *children: Child, **attributes: Attribute) -> Element:
    """An element with its attributes and its children, texts or elements. Python's class_ and aria_label are class and
    aria-label; an attribute that is None or False is left out, and one that is True is empty."""
    named = {name.rstrip("_").replace("_", "-"): value for name, value in attributes.items()}
    given = {name: value for name, value in named.items() if value is not None and value is not False}
    element = Element(tag, {name: "" if value is True else str(value) for name, value in given.items()})
    for child in children:
        append(element, child)
    return element


def append(element: Element, child: Child) -> None:
    """Adds a text or an element behind what the element has; None adds nothing."""
    if isinstance(child, Element):
        element.append(child)
    elif child is not None and len(element):
        element[-1].tail = (element[-1].tail or "") + child
    elif child is not None:
        element.text = (element.text or "") + child


def short(number: float) -> str:
    """A position with at most two decimals."""
    return f"{number:.2f}".rstrip("0").rstrip(".")


def percent(part: float) -> str:
    return f"{short(100 * part)}%"


# Small parts


def link(where: str, *words: Child, **attributes: Attribute) -> Element:
    return node("a", *words, href=f"#{where}", **attributes)


def ticket_link(number: int, *words: Child) -> Element:
    return link(f"t{number}", *(words or [str(number)]))


def figure(cents: int, ticket: int | None = None) -> Element | str:
    """An amount, which leads to the ticket behind it if there is one."""
    return euro(cents) if ticket is None else ticket_link(ticket, euro(cents))


def signed(cents: int) -> str:
    return f"+{euro(cents)}" if cents > 0 else euro(cents)


def folded(items: Sequence[Sequence[Child]], most: int, what: str) -> Element | None:
    """A list of the items; behind a line that counts them where there are more than `most`."""
    entries = node("ul", *(node("li", *item) for item in items))
    if len(items) <= most:
        return entries if items else None
    return node("details", node("summary", counted(len(items), what)), entries)


def comma_separated(nodes: Iterable[Child]) -> list[Child]:
    parts: list[Child] = []
    for n, entry in enumerate(nodes):
        parts += [", ", entry] if n else [entry]
    return parts


def head_row(*names: str) -> Element:
    """A row of column headings; a name that ends in # heads figures."""
    cells = (node("th", name.rstrip("#"), scope="col", class_="figure" if name.endswith("#") else None) for name in names)
    return node("thead", node("tr", *cells))


def section(name: str, title: str, *parts: Child) -> Element:
    return node("section", node("h2", title, id=f"{name}-title"), *parts, id=name, aria_labelledby=f"{name}-title")


def with_order(day: Day, sentence: str, number: int | None) -> list[Child]:
    """A sentence in which the order's name, where it stands there, leads to the order."""
    if number is None or not 0 <= number < len(day.orders):
        return [sentence]
    name = telling.order_name(day, number)
    before, found, after = sentence.partition(name)
    return [before, link(f"o{number}", name), after] if found else [sentence]


def is_member(day: Day, number: int | None) -> bool:
    return number is not None and 0 <= number < len(day.participants)


def member_link(day: Day, number: int | None) -> Element | str:
    name = telling.member(day, number)
    return link(f"p{number}", name, class_="bic") if is_member(day, number) else name


def changes(move: Move) -> list[tuple[str, int]]:
    """The parts that changed, and how; an open debit changes none."""
    return [(part, cents) for part, cents in zip(PARTS, move.parts()) if cents]
