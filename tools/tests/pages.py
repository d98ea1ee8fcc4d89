"""The days whose pages the tests look at, those pages as text and in a browser, and their outputs read for themselves."""

import atexit
import functools
import json
import re
import unittest
from html.parser import HTMLParser

from tests import scenes
from tests.browser import Browser
from zolfigar import history, layout, page

ROWS = "[...document.querySelectorAll('.tickets tbody tr')]"
SHOWN = f"{ROWS}.filter(row => row.checkVisibility()).map(row => row.id)"
COUNT = "document.getElementById('count').textContent"
FOCUS = "document.activeElement.id"
UNFOLD = "document.querySelectorAll('details').forEach(fold => fold.open = true)"


# Days: each is a name, a day file and an output


def example(name):
    return name, scenes.day_file(name), scenes.output(name)


def big():
    """The largest of the days that the program's own check runs, with what it printed."""
    data, at = scenes.content("crates", "days", "stdin"), 0
    while at < len(data):
        name_size, size = (int.from_bytes(data[at + n : at + n + 4], "big") for n in (0, 4))
        name, file = data[at + 8 : at + 8 + name_size].decode(), data[at + 8 + name_size : at + 8 + name_size + size]
        if name == "big day of 512 tickets 32 members":
            return name, file, scenes.content("crates", "days", "stdout").decode().split(f"# {name}\n")[1].split("# ")[0]
        at += 8 + name_size + size
    raise AssertionError("crates/days/stdin has no such day")


def packed(participants, routes, tickets):
    rows = ((layout.PARTICIPANT, participants), (layout.ROUTE, routes), (layout.TICKET, tickets))
    body = b"".join(layout.write(fields, row) for fields, found in rows for row in found)
    return layout.write(layout.HEADER, layout.header_of(len(participants), len(routes), len(tickets))) + body


class Full:
    """A day at all limits: 32 banks, 512 tickets, 256 orders with TxIds of full length, 224 of them settled. Its output is
    written down line by line, with no help of the clearing program."""

    def __init__(self):
        self.bics = [f"BANK{chr(65 + n // 26)}{chr(65 + n % 26)}22XXX".encode() for n in range(32)]
        self.tickets: list[dict[str, object]] = []
        self.lines: list[str] = []
        self.orders: list[tuple[int, int, int, object]] = []
        self.settled = 0
        self.covers = [[10**15, 0] for _ in self.bics]
        for bic in self.bics:
            self.add({"kind": 1, "sender": bic, "amount": 10**15}, [], 0)
        while len(self.tickets) < 512:
            if len(self.orders) < min(256, self.settled + 33):
                self.order(len(self.orders))
            else:
                self.yes(*self.orders[self.settled])

    def add(self, ticket, reports, rows):
        number = len(self.tickets)
        self.tickets.append(ticket | {"time": 28800 + number // 8})
        self.lines += [f"T {number} 0 {len(reports)} {rows}", *reports]

    def order(self, number):
        payer, payee, amount = number % 32, (number * 7 + 1) % 32, 99_000_000_000 - 1000 * number
        ticket = {"kind": 3, "sender": self.bics[payer], "payee": self.bics[payee], "amount": amount}
        ticket |= {"txid": f"PAYMENT-{number:03d}".encode().ljust(35, b"-"), "iban": b"LV80BANK0000435195001"}
        self.add(ticket, [f"R {payee} 1 {number} {amount}"], 1)
        self.orders.append((payer, payee, amount, ticket["txid"]))
        self.covers[payer][0] -= amount
        self.covers[payer][1] += amount

    def yes(self, payer, payee, amount, txid):
        reports = [f"R {to} 2 {self.settled} {amount}" for to in (payer, payee)]
        self.add({"kind": 4, "flag": 1, "sender": self.bics[payee], "payee": self.bics[payer], "txid": txid}, reports, 0)
        self.covers[payer][1] -= amount
        self.covers[payee][0] += amount
        self.settled += 1

    def day(self):
        participants = [{"bic": bic} for bic in self.bics]
        routes = [{"bic": bic, "k": n} for n, bic in enumerate(self.bics)]
        closing = [f"C {n} {available} {reserved} 0" for n, (available, reserved) in enumerate(self.covers)]
        return "full", packed(participants, routes, self.tickets), "\n".join([*self.lines, *closing, ""])


HOSTILE = "<img src=http://x.y onerror=alert(1)"


def hostile():
    """Names that would do something if they were not escaped, in an output that takes them all for good."""
    bics = [b"<b>x</b>\"'&", b"</script><!"]
    tickets = [
        {"kind": 1, "sender": bics[0], "amount": 1000},
        {
            "kind": 3,
            "sender": bics[0],
            "payee": bics[1],
            "amount": 400,
            "txid": HOSTILE[:35].encode(),
            "iban": b"<svg onload=x>",
        },
        {"kind": 8, "sender": b"javascript:", "payee": b"<i>\"'&</i>", "txid": b"</title><script>fetch('http://x.y')"},
        {"kind": 4, "flag": 1, "sender": bics[1], "txid": b"]]>--><style>*{color:red}"},
    ]
    lines = [
        "T 0 0 0 0",
        "T 1 0 1 1",
        "R 1 1 0 400",
        "T 2 16 0 0",
        "T 3 0 1 0",
        "R 7 2 0 401",
        "C 0 600 400 0",
        "C 1 0 0 0",
        "",
    ]
    name = "</title><script>document.body.remove()</script>"
    return name, packed([{"bic": bic} for bic in bics], [], tickets), "\n".join(lines)


def long():
    """Case D with its inquiry at the last second that a ticket can have."""
    _, file, text = example("case-d")
    at = len(file) - layout.length(layout.TICKET) + 4
    return "long", file[:at] + b"\xff" * 4 + file[at + 4 :], text


def tampered():
    """A busy day whose output closes the first bank with a euro too much and tells an order's payer a wrong amount."""
    name, file, text = example("busy")
    text = scenes.changed(text, "C 0 98766 1234 0", "C 0 98866 1234 0")
    return name, file, scenes.changed(text, "R 0 4 2 1000", "R 0 4 2 1001")


def html_of(day):
    return page.page(history.read(*day))


# The page as text


class Parts(HTMLParser):
    """The tags with their attributes, the ids, and what the links lead to."""

    def __init__(self, html):
        super().__init__()
        self.tags, self.ids, self.leads, self.text = [], [], [], ""
        self.feed(html)

    def handle_starttag(self, tag, attrs):
        self.tags.append((tag, dict(attrs)))
        self.ids += [value for name, value in attrs if name == "id"]
        self.leads += [value for name, value in attrs if name == "href"]

    def handle_data(self, data):
        self.text += data

    def named(self, name):
        return [attributes for tag, attributes in self.tags if tag == name]


def words_of(*parts):
    """The text of some elements and texts, in a row."""
    return "".join(part if isinstance(part, str) else "".join(part.itertext()) for part in parts)


def rows_of(table):
    """The texts of a table's cells, row by row."""
    return [[words_of(cell) for cell in row] for row in table.iter("tr")]


def leads_of(*parts):
    """The texts of all links, and where they lead."""
    elements = [part for part in parts if not isinstance(part, str)]
    return [(words_of(each), each.get("href")) for element in elements for each in element.iter("a")]


DAYS = {"case D": example("case-d"), "busy": example("busy"), "big": big(), "full": Full().day()}
DAYS |= {"hostile": hostile(), "tampered": tampered(), "refused": example("refused-3"), "long": long()}
DAYS |= {"part": example("part-return"), "late": ("late", *scenes.late()), "numbered": ("numbered", *scenes.numbered())}
PAGES = {name: html_of(day) for name, day in DAYS.items()}
READ = {name: Parts(html) for name, html in PAGES.items()}


# The output


def printed(output):
    """The output's lines, read here for themselves: refusals, reports by ticket, closing positions."""
    refusals: list[int] = []
    reports: list[list[tuple[int, ...]]] = []
    positions: list[tuple[int, ...]] = []
    for line in output.splitlines():
        letter, *words = line.split()
        numbers = tuple(map(int, words))
        if letter == "T":
            refusals.append(numbers[1])
            reports.append([])
        elif letter == "R":
            reports[-1].append(numbers)
        else:
            positions.append(numbers[1:])
    return refusals, reports, positions


def cents(text):
    assert re.fullmatch(r"-?\d{1,3}(,\d{3})*\.\d\d", text), text
    return int(text.replace(",", "").replace(".", ""))


def members(file):
    """The participants' names as the page shows them, by number."""
    count = int.from_bytes(file[:2], "big")
    bics = [file[12 + 24 * n : 23 + 24 * n].decode() for n in range(count)]
    return {bic.removesuffix("XXX"): n for n, bic in enumerate(bics)}


# The page in the browser


@functools.cache
def browser():
    """The one browser of all the tests."""
    started = Browser()
    atexit.register(started.close)
    return started


class InBrowser(unittest.TestCase):
    browser: Browser

    @classmethod
    def setUpClass(cls):
        cls.browser = browser()

    def setUp(self):
        self.browser.size(1280, 900)
        self.browser.scheme("light")

    def open(self, name, where=""):
        self.browser.show(PAGES[name], where)

    def js(self, script):
        return self.browser.run(script)

    def texts(self, selector):
        return self.js(f"[...document.querySelectorAll({json.dumps(selector)})].map(each => each.textContent)")
