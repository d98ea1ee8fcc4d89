"""Text to a day file. docs/DAYS.md has the text form."""

from collections.abc import Callable, Iterable, Mapping, Sequence
from functools import partial
from typing import NamedTuple, TypeVar

from . import layout, message_lines, messages, text, words
from .progress import over

ORDER = ("header", "participant", "route", "ticket", "bytes")
FIELD_WORDS = ("of", "from", "to", "EUR", "cents", "iban", "but")
KIND_NUMBERS = {word: number for number, word in words.KINDS.items()}
MOST_PAYERS = 4  # that a message names
AMOUNT_READERS = {"EUR": ("euros like 4.00", text.euros), "cents": ("cents like 400", text.cents)}


class Reference(NamedTuple):
    """The row with a BIC, a participant's or a route's."""

    place: str
    bic: bytes
    mistake: text.Mistake


class LeftOut(NamedTuple):
    """The payer that a line of a kind doesn't name; the place is where `of` would stand."""

    kind: int
    place: text.Cursor


T = TypeVar("T")
Given = int | bytes | Reference | LeftOut  # a field's value; one of the last two until all rows are read
Row = dict[str, Given]
Reader = Callable[[text.Cursor], Row]


class Item(NamedTuple):
    """A part of a line that a word begins: the fields that it gives, its name in a message, how the words behind it are read."""

    fields: tuple[str, ...]
    phrase: str
    read: Reader


class Form(NamedTuple):
    """A line's parts: the field that comes first, if any, its name and reader, then items by their words, in any order. What isn't
    needed may be left out."""

    fields: dict[str, layout.Field]
    first: str
    phrase: str
    read: Callable[[str], bytes]
    items: dict[str, Item]
    needed: tuple[str, ...]
    never_first: frozenset[str]


def one_of(choices: Sequence[str]) -> str:
    """How one of some words is asked for."""
    return " or ".join(filter(None, (", ".join(choices[:-1]), choices[-1])))


def chosen(table: Mapping[str, T], what: str) -> Callable[[str], T]:
    """A reader for one of the table's words."""

    def read(word: str) -> T:
        if word not in table:
            raise text.expected(what, word)
        return table[word]

    return read


def by_name(fields: layout.Fields) -> dict[str, layout.Field]:
    return {field.name: field for field in fields}


def fixed(**values: Given) -> Reader:
    return lambda cursor: values


def valued(field: str, what: str, read: Callable[[str], Given]) -> Reader:
    return lambda cursor: {field: cursor.take(what, read)}


def opening(cursor: text.Cursor) -> Row:
    word = cursor.next()
    if word not in AMOUNT_READERS:
        raise cursor.expected(text.AN_AMOUNT)
    what, read = AMOUNT_READERS[word]
    cursor.skip()
    return {"opening": cursor.take(what, read), "wish": 1}


def leading(kind: int, place: str, a_row: str) -> Reader:
    """A reader for where a route leads: a row's number or its BIC."""

    def row(word: str) -> int | bytes:
        if text.DIGITS.fullmatch(word):
            return text.number(word, 65535)
        bic = text.filled(word)
        if bic is None:
            raise text.Wrong(f"expected a BIC or the number of a {a_row}, found {text.quoted(word)}; a BIC is {text.A_BIC}")
        return bic

    def read(cursor: text.Cursor) -> Row:
        missing = cursor.mistake(f"no {a_row} has the BIC {text.quoted(cursor.next())}; a number may stand here instead")
        k = cursor.take(f"a BIC or the number of a {a_row}", row)
        return {"kind": kind, "k": k if isinstance(k, int) else Reference(place, k, missing)}

    return read


def bic_form(fields: layout.Fields, items: dict[str, Item], needed: tuple[str, ...]) -> Form:
    read = partial(text.bic, field="bic")
    return Form(by_name(fields), "bic", "a BIC", read, items, needed, frozenset((*items, "but")))


PARTICIPANT = bic_form(
    layout.PARTICIPANT,
    {
        **{word: Item(("kind",), "bank or linked", fixed(kind=kind)) for kind, word in words.PARTICIPANT_KINDS.items()},
        "opening": Item(("opening", "wish"), "opening", opening),
    },
    ("bic", "kind"),
)
ROUTE = bic_form(
    layout.ROUTE,
    {
        "to": Item(("k", "kind"), "to or via", leading(0, "participant", "participant")),
        "via": Item(("k", "kind"), "to or via", leading(1, "route", "route row")),
    },
    ("bic", "k", "kind"),
)
TICKET_ITEMS = {
    "of": Item(("payer",), "of", valued("payer", "a BIC", partial(text.bic, field="payer"))),
    "from": Item(("sender",), "from", valued("sender", "a BIC", partial(text.bic, field="sender"))),
    "to": Item(("payee",), "to", valued("payee", "a BIC", partial(text.bic, field="payee"))),
    **{word: Item(("amount",), text.AN_AMOUNT, valued("amount", *how)) for word, how in AMOUNT_READERS.items()},
    "iban": Item(("iban",), "iban", valued("iban", "an IBAN", text.iban)),
}


def ticket_fields(kind: int) -> layout.Fields:
    return layout.ABOUT if "payer" in words.LISTED[kind] else layout.TICKET


def ticket_form(kind: int) -> Form:
    listed, flags = words.LISTED[kind], words.FLAGS.get(kind, {})
    phrase = one_of(list(flags.values())) if flags else ""
    items = {word: Item(("flag",), phrase, fixed(flag=flag)) for flag, word in flags.items()}
    items |= {word: item for word, item in TICKET_ITEMS.items() if item.fields[0] in listed}
    first = "txid" if "txid" in listed else ""
    fields, needed = by_name(ticket_fields(kind)), tuple(field for field in listed if field != "payer")
    return Form(fields, first, "a TxId", text.txid, items, needed, frozenset((*FIELD_WORDS, *flags.values())))


TICKETS = {kind: ticket_form(kind) for kind in words.KINDS}


def asked_for(form: Form, row: Row) -> str:
    """What may come next in a line that has given the row so far."""
    phrases = list(dict.fromkeys(item.phrase for item in form.items.values() if not set(item.fields) <= set(row)))
    if all(field in row for field in form.needed if field != form.first):
        phrases += ["but", "the line's end"]
    return ", or ".join(filter(None, (", ".join(phrases[:-1]), phrases[-1])))


def read_row(cursor: text.Cursor, form: Form) -> Row:
    """The fields of a row, those behind `but` in place of the others."""
    row: Row = {}
    first = cursor.at
    if form.first and cursor.next() is not None and cursor.next() not in form.never_first:
        row[form.first] = cursor.take(form.phrase, form.read)
    while (word := cursor.next()) is not None and word != "but":
        item = form.items.get(word)
        if item is None or item.fields[0] in row:
            raise cursor.expected(asked_for(form, row), f": {item.fields[0]} is given already" if item else "")
        cursor.skip()
        row |= item.read(cursor)
    last = cursor.at
    overridden = overrides(cursor, form.fields)
    missing = [field for field in form.needed if field not in row and field not in overridden]
    if missing:
        cursor.at = first if form.first in missing else last
        raise lacking(cursor, form, missing, row | overridden)
    cursor.at = last
    return row | overridden


def lacking(cursor: text.Cursor, form: Form, missing: Sequence[str], row: Row) -> text.Mistake:
    """The mistake of a line that doesn't give all that it has to."""
    if form.first not in missing:
        return cursor.expected(asked_for(form, row))
    spelled = form.first == "txid" and cursor.next() is not None
    return cursor.expected(
        form.phrase, f"; a TxId of these letters is written `but txid {cursor.next()}`" if spelled else ""
    )


def overrides(cursor: text.Cursor, fields: Mapping[str, layout.Field]) -> Row:
    """The fields behind `but`."""
    values: Row = {}
    if cursor.next() is None:
        return values
    cursor.skip()
    what = one_of(list(fields))
    while not values or cursor.next() is not None:
        if cursor.next() in values:
            raise cursor.mistake(f"{cursor.next()} is given twice behind `but`")
        field = cursor.take(what, chosen(fields, what))
        values[field.name] = cursor.take(f"a value for {field.name}", literal_of(field))
    return values


def literal_of(field: layout.Field) -> Callable[[str], Given]:
    """How a field's value behind `but` is read."""
    if field.is_text:
        return partial(text.literal, size=field.size)
    return partial(text.number, most=field.most())


def read_header(cursor: text.Cursor) -> tuple[str, int]:
    fields = by_name(layout.HEADER)
    what = one_of(list(fields))
    field = cursor.take(what, chosen(fields, what))
    value = cursor.take("a number", partial(text.number, most=field.most()))
    cursor.finish()
    return field.name, value


def read_raw(cursor: text.Cursor) -> Row:
    value, size = text.hex_bytes(cursor), layout.length(layout.TICKET)
    if len(value) != size:
        raise cursor.mistake(f"expected {2 * size} hex digits, found {2 * len(value)}")
    return {**layout.read(layout.TICKET, value)}


def read_ticket(cursor: text.Cursor) -> Row:
    time = cursor.take(text.A_TIME, text.time)
    what = "a kind of ticket: " + one_of([*KIND_NUMBERS, message_lines.WORD])
    kind = cursor.take(what, chosen(KIND_NUMBERS, what))
    row: Row = {"time": time, "kind": kind, **read_row(cursor, TICKETS[kind])}
    if "payer" in words.LISTED[kind]:
        row["payee"] = row.pop("payer", LeftOut(kind, cursor))
    return row


def text_in(row: Row, name: str) -> bytes:
    """A text field's value as it is packed."""
    value = row.get(name, b"")
    assert isinstance(value, bytes)
    return value.rstrip(b"\0")


def fill_payers(rows: Sequence[Row]) -> list[text.Mistake]:
    """Puts in the payers that are left out. The mistakes are of those that can't be told."""
    senders: dict[bytes, dict[bytes, None]] = {}  # of the orders with each TxId
    for row in rows:
        if row.get("kind") == KIND_NUMBERS["order"]:
            senders.setdefault(text_in(row, "txid"), {})[text_in(row, "sender")] = None
    mistakes = []
    for row in rows:
        if isinstance(left_out := row.get("payee"), LeftOut):
            of_sender = words.KINDS[left_out.kind] in ("recall", "inquiry")
            found = [text_in(row, "sender")] if of_sender else list(senders.get(text_in(row, "txid"), {}))
            row["payee"] = found[0] if found else b""
            if len(found) != 1 or not text.bic_word(found[0]):
                why = "the sender is no BIC" if of_sender else why_unknown([text.bic_word(sender) for sender in found])
                mistakes.append(left_out.place.expected("of BIC", f": {why}"))
    return mistakes


def why_unknown(payers: Sequence[str]) -> str:
    """Why the payers of the orders with a TxId, empty where one is no BIC, don't tell which is meant."""
    if not payers:
        return "no order of the day has this TxId"
    if not all(payers):
        return "an order of the day with this TxId has a sender that is no BIC"
    more = f" and {len(payers) - MOST_PAYERS} more" if len(payers) > MOST_PAYERS else ""
    return f"orders of the day with this TxId are of {', '.join(payers[:MOST_PAYERS])}{more}"


# The first word of a line and its place in the order; any other line is a ticket, and begins with its time.
BEGINNINGS = {"header": "header", "participant": "participant", "route": "route", "raw": "ticket", "bytes": "bytes"}
# How the words of a row's line are read, behind the first word.
ROW_READERS: dict[str, Reader] = {
    "participant": partial(read_row, form=PARTICIPANT),
    "route": partial(read_row, form=ROUTE),
    "raw": read_raw,
}


class Day:
    """The lines of a text, read one after the other."""

    def __init__(self, line: int = 1, column: int = 1) -> None:
        self.given: layout.Header = {}  # what header lines give
        self.rows: dict[str, list[Row]] = {"participant": [], "route": [], "ticket": []}
        self.asked: list[message_lines.Asked] = []  # messages, whose rows are empty until they are read
        self.rest = b""  # the bytes behind the rows
        self.begun: dict[str, int] = {}  # the number of the first line of each place
        self.last = (line, column)  # behind the last line read
        self.rows_known = True  # no line before the tickets is wrong
        self.tickets_known = True  # nor a ticket's
        self.mistakes: list[text.Mistake] = []

    def add(self, line: text.Line) -> None:
        try:
            self.line(text.Cursor(line))
        except text.Mistake as mistake:
            self.mistakes.append(mistake)
            self.rows_known = self.rows_known and "ticket" in self.begun
            self.tickets_known = self.tickets_known and BEGINNINGS.get(line.words[0].text, "ticket") != "ticket"
        self.last = (line.number, line.end())

    def line(self, cursor: text.Cursor) -> None:
        word = cursor.line.words[0].text
        if word not in BEGINNINGS and word[0] not in "0123456789":
            note = "; many days in one text need --many" if word == "day" else ""
            raise cursor.expected(f"{', '.join(BEGINNINGS)}, or {text.A_TIME}", note)
        place = BEGINNINGS.get(word, "ticket")
        self.in_order(cursor, place)
        if word in BEGINNINGS:
            cursor.skip()
        if place == "header":
            self.header_line(cursor)
        elif place == "bytes":
            self.rest += text.hex_bytes(cursor)
        elif word not in BEGINNINGS and message_lines.is_one(cursor.line):
            self.message_line(cursor)
        else:
            self.rows[place].append(ROW_READERS.get(word, read_ticket)(cursor))

    def header_line(self, cursor: text.Cursor) -> None:
        if cursor.next() in self.given:
            raise cursor.mistake(f"header {cursor.next()} is given twice")
        name, value = read_header(cursor)
        self.given[name] = value

    def message_line(self, cursor: text.Cursor) -> None:
        row: Row = {}
        self.asked.append(message_lines.read(cursor, lambda ticket: row.update(layout.read(layout.TICKET, ticket))))
        self.rows["ticket"].append(row)

    def in_order(self, cursor: text.Cursor, place: str) -> None:
        self.begun.setdefault(place, cursor.line.number)
        before = [p for p in ORDER[ORDER.index(place) + 1 :] if p in self.begun]
        if before:
            found = f"a {before[0]} line came before, line {self.begun[before[0]]}"
            raise cursor.mistake(f"this {place} line comes too late: {found}; the order is {', '.join(ORDER)}")

    def packed(self) -> bytes:
        """The file's bytes; none where there is a mistake."""
        if not self.begun and not self.mistakes:
            self.wrong("expected a line of a day, found none; `bytes` alone is an empty file")
        if self.rows_known:
            self.refer()
        self.fill(self.rows["ticket"])
        head = b"" if set(self.begun) <= {"bytes"} else self.header()
        if self.mistakes:
            return b""
        written = ((layout.PARTICIPANT, "participant"), (layout.ROUTE, "route"), (layout.TICKET, "ticket"))
        rows = [layout.write(fields, row) for fields, place in written for row in self.rows[place]]
        return b"".join([head, *rows, self.rest])

    def wrong(self, message: str) -> None:
        """A mistake that only the text as a whole shows."""
        self.mistakes.append(text.Mistake(*self.last, message))

    def refer(self) -> None:
        """Puts numbers for the BICs that routes lead to."""
        numbers = {place: first_with([row["bic"] for row in self.rows[place]]) for place in ("participant", "route")}
        for row in self.rows["route"]:
            if isinstance(reference := row["k"], Reference):
                number = numbers[reference.place].get(reference.bic)
                if number is None:
                    self.mistakes.append(reference.mistake)
                else:
                    row["k"] = number

    def fill(self, tickets: Sequence[Row]) -> None:
        """Puts in the payers that are left out. Where a ticket or a message is wrong, those that can't be told are no mistakes."""
        mistakes = fill_payers(tickets)
        if self.tickets_known and all(tickets):
            self.mistakes += mistakes

    def header(self) -> bytes:
        values = layout.header_of(*(len(rows) for rows in self.rows.values())) | self.given
        above = [field for field in layout.HEADER if values[field.name] > field.most()]
        if above:
            found = f"{above[0].name} would be {values[above[0].name]}, above {above[0].most()}"
            self.wrong(f"{found}; a line `header {above[0].name} ..` gives another number")
            return b""
        return layout.write(layout.HEADER, values)


def first_with(bics: Iterable[T]) -> dict[T, int]:
    """The number of the first row with each BIC, from the BICs of all rows."""
    numbers: dict[T, int] = {}
    for number, bic in enumerate(bics):
        numbers.setdefault(bic, number)
    return numbers


def decoded(name: str, data: bytes) -> str:
    """A file's text; TextError says where it isn't UTF-8."""
    try:
        return data.decode()
    except UnicodeDecodeError as error:
        before = data[: error.start].decode().removeprefix("\ufeff")
        line, column = before.count("\n") + 1, len(before) - before.rfind("\n")
        raise text.TextError(name, [text.Mistake(line, column, f"not UTF-8: byte {data[error.start]:02x}")]) from None


def pack(name: str, day_text: str, reader: messages.Reader = messages.READER) -> bytes:
    """The day file that the text stands for. TextError says what is wrong with it, with the name given. Messages are looked for from
    the name's folder."""
    day = Day()
    for line in over(text.lines(day_text), f"lines of {name}"):
        day.add(line)
    day.mistakes += message_lines.answer(name, day.asked, day.mistakes, reader)
    file = day.packed()
    if day.mistakes:
        raise text.TextError(name, day.mistakes)
    return file


def is_text(name: str, data: bytes) -> bool:
    """Whether a file is a day's text. One whose name ends in .day is. Any other is if it has no zero byte, with which every packed
    day that can be accepted begins; UTF-16 has zero bytes and begins with a mark. An empty file is packed."""
    if name.lower().endswith(".day") or data.startswith((b"\xff\xfe", b"\xfe\xff")):
        return True
    return bool(data) and b"\0" not in data


def day_file(name: str, data: bytes, reader: messages.Reader = messages.READER) -> bytes:
    """The day file of a file that is a day's text or packed. TextError says what is wrong with a text."""
    return pack(name, decoded(name, data), reader) if is_text(name, data) else data
