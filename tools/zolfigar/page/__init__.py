"""A day as one HTML page: whether it adds up, the participants' cover, the orders' lives, the tickets.

The page stands alone: its style and its script are in it, and it forbids itself to load anything. It can be read without
the script, which serves the filter and the keys. All text goes through `node`, and is escaped when the page is written."""

import base64
import hashlib
from collections.abc import Sequence
from pathlib import Path
from xml.etree.ElementTree import Element, tostring

from .. import audit
from ..history import Day
from . import head, orders, participants, tickets
from .markup import node
from .view import View


def beside(name: str) -> str:
    return (Path(__file__).parent / name).read_text(encoding="utf-8")


def source(text: str) -> str:
    """A text as the policy names it: by its hash."""
    return f"'sha256-{base64.b64encode(hashlib.sha256(text.encode()).digest()).decode()}'"


def page_head(title: str, style: str, script: str) -> Element:
    policy = f"default-src 'none'; style-src {source(style)}; script-src {source(script)}; img-src data:"
    policy += "; base-uri 'none'; form-action 'none'"
    return node(
        "head",
        node("meta", charset="utf-8"),
        node("meta", http_equiv="Content-Security-Policy", content=policy),
        node("meta", name="viewport", content="width=device-width, initial-scale=1"),
        node("meta", name="color-scheme", content="light dark"),
        node("link", rel="icon", href="data:,"),
        node("title", title),
        node("style", style),
    )


def title_of(day: Day, problems: Sequence[str]) -> str:
    if day.refusal is not None:
        return f"{head.shown_name(day)}: refused"
    return f"{head.shown_name(day)}: {'does not add up' if problems else 'everything adds up'}"


def whole(day: Day, problems: Sequence[str]) -> list[Element]:
    view = View(day)
    sections = participants.participants(view), orders.orders(view), tickets.tickets(view)
    main = node("main", *sections, aria_labelledby="day")
    return [head.skips(day), head.head(day, problems), head.bar(day), main, tickets.help_box()]


def page(day: Day) -> str:
    """The page of a day, as text."""
    problems = audit.problems(day)
    parts = head.refused(day, problems) if day.refusal is not None else whole(day, problems)
    style, script = beside("page.css"), beside("page.js")
    body = node("body", *parts, node("script", script))
    html = node("html", page_head(title_of(day, problems), style, script), body, lang="en")
    return "<!DOCTYPE html>\n" + tostring(html, encoding="unicode", method="html") + "\n"
