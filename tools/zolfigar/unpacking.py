"""A day file to text: of any bytes at all, and packing the text gives the same bytes. docs/DAYS.md has the text form."""

from collections.abc import Iterable, Mapping, Sequence

from . import layout, packing, text, words
from .layout import ParticipantRow, RouteRow, TicketRow
from .progress import over

MOST_OVERRIDES = 4  # of a ticket; one with more is written raw
DAY = 24 * 60 * 60  # a time from here on is written in seconds
PER_LINE, PER_GROUP = 32, 8  # bytes of a `bytes` line

Pair = tuple[str, str]  # the two parts of a line, the second aligned with those of other lines


def euro_words(cents: int) -> str:
    return f"EUR {cents // 100}.{cents % 100:02d}"


def time_word(seconds: int) -> str:
    if seconds >= DAY:
        return str(seconds)
    return f"{seconds // 3600:02d}:{seconds // 60 % 60:02d}:{seconds % 60:02d}"


def iban_word(value: bytes) -> str:
    word = text.ascii_of(value)
    return word if text.IBAN.fullmatch(word) and text.remainder(word) == 1 else ""


def txid_word(value: bytes, kind: int) -> str:
    word = text.ascii_of(value)
    return word if text.TXID.fullmatch(word) and word not in packing.TICKETS[kind].never_first else ""


def value_word(value: object) -> str:
    """A field's value behind `but`."""
    if isinstance(value, int):
        return str(value)
    assert isinstance(value, bytes)
    word = text.ascii_of(value)
    if text.PLAIN.fullmatch(word) and not word.startswith("hex:") and word != "empty":
        return word
    return f"hex:{value.hex()}" if value else "empty"


def but_words(
    fields: layout.Fields, row: Mapping[str, object], given: Mapping[str, object], needed: Sequence[str]
) -> tuple[str, int]:
    """The fields that the words before don't give as the row has them, and how many they are."""
    expressed = {field.name: b"" if field.is_text else 0 for field in fields} | dict(given)
    off = [f.name for f in fields if row[f.name] != expressed[f.name] or (f.name in needed and f.name not in given)]
    written = " ".join(f"{name} {value_word(row[name])}" for name in off)
    return (f"but {written}" if off else ""), len(off)


def joined(*parts: str) -> str:
    return " ".join(filter(None, parts))


def ticket_parts(row: TicketRow, kind: int) -> tuple[str, int]:
    """A ticket as a line of a kind: the words behind the kind's, and how many overrides they have."""
    fields: Mapping[str, object] = {**row, "payer": row["payee"]}
    written = {
        "txid": txid_word(row["txid"], kind),
        "payer": joined("of", text.bic_word(row["payee"])),
        "flag": words.FLAGS.get(kind, {}).get(row["flag"], ""),
        "sender": joined("from", text.bic_word(row["sender"])),
        "payee": joined("to", text.bic_word(row["payee"])),
        "amount": euro_words(row["amount"]),
        "iban": joined("iban", iban_word(row["iban"])),
    }
    listed = words.LISTED[kind]
    good = [name for name, word in written.items() if name in listed and word not in ("", "of", "from", "to", "iban")]
    given = {name: fields[name] for name in (*good, "time")} | {"kind": kind}
    but, count = but_words(packing.ticket_fields(kind), fields, given, listed)
    return joined(*(written[name] for name in good), but), count


def raw_words(row: TicketRow) -> str:
    """A ticket's bytes in hex, its fields apart."""
    file = layout.write(layout.TICKET, row)
    return " ".join(file[field.at : field.at + field.size].hex() for field in layout.TICKET)


def ticket_pair(row: TicketRow) -> Pair:
    """The kind's word of a ticket and the words behind it, or `raw` and its bytes."""
    kinds = [row["kind"]] if row["kind"] in words.KINDS else [11, *range(1, 11)]
    parts = [(kind, *ticket_parts(row, kind)) for kind in kinds]
    kind, behind, count = min(parts, key=lambda part: part[2])
    return ("raw", raw_words(row)) if count > MOST_OVERRIDES else (words.KINDS[kind], behind)


def ticket_words(ticket_row: TicketRow) -> str:
    """A ticket as its line of text, without the time; a raw one has its time in its bytes."""
    return joined(*ticket_pair(ticket_row))


def ticket_line(row: TicketRow) -> Pair:
    head, behind = ticket_pair(row)
    return (head if head == "raw" else f"{time_word(row['time'])} {head}"), behind


def participant_line(row: ParticipantRow) -> Pair:
    bic, kind = text.bic_word(row["bic"]), words.PARTICIPANT_KINDS.get(row["kind"], "")
    given: dict[str, object] = {"bic": row["bic"]} if bic else {}
    given |= {"kind": row["kind"]} if kind else {}
    wish = ""
    if row["wish"] == 1:
        wish = f"opening {euro_words(row['opening'])}"
        given |= {"opening": row["opening"], "wish": 1}
    but, _ = but_words(layout.PARTICIPANT, row, given, packing.PARTICIPANT.needed)
    return joined("participant", bic), joined(kind, wish, but)


def route_line(row: RouteRow, named: Mapping[int, Mapping[int, str]]) -> Pair:
    """A route; a row that it leads to is named by its BIC if it is the first with it."""
    bic, leads = text.bic_word(row["bic"]), {0: "to", 1: "via"}.get(row["kind"], "")
    given: dict[str, object] = {"bic": row["bic"]} if bic else {}
    if leads:
        given |= {"kind": row["kind"], "k": row["k"]}
        leads += " " + named[row["kind"]].get(row["k"], str(row["k"]))
    but, _ = but_words(layout.ROUTE, row, given, packing.ROUTE.needed)
    return joined("route", bic), joined(leads, but)


def names_of(bics: Iterable[bytes]) -> dict[int, str]:
    """The BICs by which packing finds these rows, by the rows' numbers."""
    found = {number: text.bic_word(bic) for bic, number in packing.first_with(bics).items()}
    return {number: word for number, word in found.items() if word}


def aligned(pairs: Sequence[Pair]) -> list[str]:
    """Lines of two parts, the second parts below each other."""
    width = max(len(head) for head, _ in pairs)
    return [f"{head:<{width}} {behind}".rstrip() for head, behind in pairs]


def bytes_lines(data: bytes) -> list[str]:
    rows = [data[at : at + PER_LINE] for at in range(0, len(data), PER_LINE)]
    return ["bytes " + row.hex(" ", -PER_GROUP) for row in rows]


def header_lines(found: layout.Sections) -> list[str]:
    """What differs from the header that the layout gives; one line where nothing else tells that there is a header."""
    usual = layout.header_of(len(found.participants), len(found.routes), len(found.tickets))
    differing = [name for name, value in found.header.items() if value != usual[name]]
    if not differing and not (found.participants or found.routes or found.tickets):
        differing = ["participants"]
    return [f"header {name} {found.header[name]}" for name in differing]


def blocks(file: bytes) -> dict[str, list[str]]:
    """The parts of the text, each with its comment: lines by comment."""
    if len(file) < layout.length(layout.HEADER):
        comment = "fewer bytes than a header has" if file else "an empty file"
        return {comment: bytes_lines(file) or ["bytes"]}
    found = layout.sections(file)
    named = {0: names_of(row["bic"] for row in found.participants), 1: names_of(row["bic"] for row in found.routes)}
    pairs = {
        "participants": [participant_line(row) for row in over(found.participants, "participants")],
        "routes": [route_line(row, named) for row in over(found.routes, "routes")],
        "tickets": [ticket_line(row) for row in over(found.tickets, "tickets")],
    }
    lines = {"header": header_lines(found)}
    lines |= {comment: aligned(part) for comment, part in pairs.items() if part}
    return lines | {"bytes behind the rows": bytes_lines(found.rest)}


def text_of(file: bytes) -> str:
    parts = ("\n".join([f"# {comment}", *lines]) + "\n" for comment, lines in blocks(file).items() if lines)
    return "\n".join(parts)


def unpack(file_bytes: bytes) -> str:
    """The text of a file. It is packed again and compared before it is handed out."""
    unpacked = text_of(file_bytes)
    if packing.pack("the text", unpacked) != file_bytes:
        raise RuntimeError("internal error: packing the text doesn't give the file")
    return unpacked
