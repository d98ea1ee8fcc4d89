"""The head of the page: whether the day adds up, that a file is refused, and the bar that stays in sight."""

import re
from collections.abc import Mapping, Sequence
from xml.etree.ElementTree import Element

from .. import audit, telling
from ..history import Day
from .markup import Child, folded, link, node, ticket_link

ADDS_UP = (
    "each participant's cover is the sum of what moved it and closes as the program says, nothing is ever below zero, "
    "no order stops waiting twice, each time-out comes when it must and only then, and all are told the same."
)
NOT_LOOKED_AT = (
    "Held against each other: tickets, answers, reports and closing positions. Which refusal a ticket should have had is not "
    "looked at here, but for those that go by its sender and its order (12, 13, 16, 17), and for late recalls."
)


def targets(day: Day) -> dict[str, str]:
    """What a problem's sentence may name, longest first, with the place that it leads to."""
    names = {f"{p.bic}": f"p{p.number}" for p in reversed(day.participants)}
    names |= {audit.name_of(order): f"o{order.number}" for order in day.orders}
    return dict(sorted(names.items(), key=lambda entry: -len(entry[0])))


def linked(day: Day, names: Mapping[str, str], sentence: str) -> list[Child]:
    """A problem's sentence, in which tickets, orders and participants lead to their places."""
    known = "|".join(re.escape(name) for name in names) or "(?!)"
    parts: list[Child] = []
    for part in re.split(rf"({known}|\btickets? \d+(?:, \d+)*)", sentence):
        if part in names:
            parts.append(link(names[part], part))
        elif re.fullmatch(r"tickets? \d+(?:, \d+)*", part):
            parts += [numbered(day, word) for word in re.split(r"(\d+)", part)]
        else:
            parts.append(part)
    return parts


def numbered(day: Day, word: str) -> Child:
    return ticket_link(int(word), word) if word.isdigit() and int(word) < len(day.events) else word


def verdict(day: Day, problems: Sequence[str]) -> Element:
    if not problems:
        told = node("p", node("strong", "Everything adds up:"), " ", ADDS_UP)
        return node("div", told, node("p", NOT_LOOKED_AT, class_="soft"), class_="verdict good")
    count = "One thing doesn't add up." if len(problems) == 1 else f"{len(problems)} things don't add up."
    names = targets(day)
    found = folded([linked(day, names, problem) for problem in problems], 20, "problem")
    if found is not None and found.tag == "details":
        found.set("open", "")
    return node("div", node("p", node("strong", count)), found, class_="verdict bad", role="group", aria_label="Problems")


def refused(day: Day, problems: Sequence[str]) -> list[Element]:
    """The page of a refused file."""
    assert day.refusal is not None
    told = node("p", node("strong", "The file is refused."), f" Refusal {telling.refusal(day.refusal)}.")
    rest = node("p", "The book is empty: it has no participants, and no ticket was looked at.")
    boxes = [node("div", told, rest, class_="verdict bad")] + ([verdict(day, problems)] if problems else [])
    header = node("header", title(day), class_="head", aria_labelledby="day")
    return [header, node("main", *boxes, id="top", aria_labelledby="day")]


def shown_name(day: Day) -> str:
    """The day's name. What can't be written as UTF-8 is replaced."""
    return day.name.encode("utf-8", "replace").decode()


def title(day: Day) -> Element:
    """The day's name, which names the page's landmarks too."""
    return node("h1", shown_name(day), id="day")


def skips(day: Day) -> Element:
    """The first tab stops, unseen until they have the focus. Without the script there is no filter to lead to."""
    links = [link("participants", "Skip to the participants", class_="skip")]
    if day.events:
        links.append(link("text", "Skip to the filter", class_="skip", id="to-filter", hidden=True))
    return node("div", *links, class_="skips")


def bar(day: Day) -> Element:
    """The line that stays in sight: the day, the sections, and the keys."""
    top = link("top", shown_name(day), class_="top")
    names = (link(name.lower(), name) for name in ("Participants", "Orders", "Tickets"))
    keys = node("button", "Keys ", node("kbd", "?"), type="button", id="keys", hidden=True)
    return node("nav", top, *names, keys, class_="bar", aria_label="Sections")


def head(day: Day, problems: Sequence[str]) -> Element:
    summary = node("p", telling.summary(day) + ".", class_="summary")
    parts = title(day), summary, verdict(day, problems)
    return node("header", *parts, class_="head", id="top", aria_labelledby="day")
