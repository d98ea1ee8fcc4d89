import os
import unittest

from tests import scenes
from tests.reader import READER
from zolfigar import layout, packing, text

A, B = "AAAALV22", "BBBBLV22"
IBAN = "LV80BANK0000435195001"
A_BIC = "six A-Z, one of A-Z or 2-9, one of A-Z but O or of 0-9, then three of A-Z or 0-9, or none and XXX is filled in"
AMOUNT = "an amount like EUR 4.00 or cents 400"
KINDS = "cover-in, cover-out, order, answer, recall, return, decline, inquiry, cut, confirm, tick or message"
ABOUT = "kind, flag, spare, time, amount, sender, payer, txid, iban or last"
PLACES = "header, participant, route, ticket, bytes"

CASE_D = """
participant AAAALV22 bank
participant BBBBLV22 bank
route AAAALV22 to AAAALV22
route BBBBLV22 to 1
00:00:00 cover-in from AAAALV22 EUR 10.00
5        order TX1 from AAAALV22 to BBBBLV22 EUR 4.00 iban LV80BANK0000435195001
00:00:24 answer TX1 yes from BBBBLV22
0:00:30  inquiry TX1 from AAAALV22
"""

# Written from the paper's layout: counts, offsets, rows of 24, rows of 16, tickets of 108.
A11, B11, TX1 = "414141414c563232585858", "424242424c563232585858", "545831"
CASE_D_BYTES = bytes.fromhex(
    "0002 0002 0004 000c 003c 005c"
    + f"{A11} 00 0000000000000000 00 000000"
    + f"{B11} 00 0000000000000000 00 000000"
    + f"{A11} 00 0000 0000"
    + f"{B11} 00 0001 0000"
    + f"01 00 0000 00000000 00000000000003e8 {A11}"
    + "00" * (11 + 35 + 34 + 1)
    + f"03 00 0000 00000005 0000000000000190 {A11} {B11} {TX1}"
    + "00" * 32
    + "4c56383042414e4b30303030343335313935303031"
    + "00" * (13 + 1)
    + f"04 01 0000 00000018 0000000000000000 {B11} {A11}"
    + TX1
    + "00" * (32 + 34 + 1)
    + f"08 00 0000 0000001e 0000000000000000 {A11} {A11}"
    + TX1
    + "00" * (32 + 34 + 1)
)

# A line, the column of its mistake, and what is said.
MALFORMED = (
    ("participant", 12, "expected a BIC, found the line's end"),
    (
        "participant AAAALV2 bank",
        13,
        f'expected a BIC, found "AAAALV2"; a BIC is {A_BIC}; `but bic ..` writes one that is wrong',
    ),
    ("participant AAAALV22", 21, "expected bank or linked, or opening, found the line's end"),
    ("participant AAAALV22 Bank", 22, 'expected bank or linked, or opening, found "Bank"'),
    (
        "participant AAAALV22 bank linked",
        27,
        'expected opening, but, or the line\'s end, found "linked": kind is given already',
    ),
    ("participant AAAALV22 bank opening", 34, f"expected {AMOUNT}, found the line's end"),
    ("participant AAAALV22 bank opening 5.00", 35, f'expected {AMOUNT}, found "5.00"'),
    ("participant AAAALV22 bank opening EUR 5", 39, 'expected euros with two decimals like 4.00, found "5"'),
    ("participant bank", 13, 'expected a BIC, found "bank"'),
    ("participant AAAALV22 bank but", 30, "expected bic, kind, opening, wish or spare, found the line's end"),
    ("participant AAAALV22 bank but k 1", 31, 'expected bic, kind, opening, wish or spare, found "k"'),
    ("participant AAAALV22 bank but kind", 35, "expected a value for kind, found the line's end"),
    ("participant AAAALV22 bank but kind 256", 36, 'expected a number from 0 to 255, found "256"'),
    ("participant AAAALV22 bank but wish 1 wish 2", 38, "wish is given twice behind `but`"),
    ("participant bank but bic AAAALV22XXXX", 26, 'expected at most 11 bytes, found "AAAALV22XXXX"'),
    ("participant bank but bic hex:4", 26, 'expected hex: and two hex digits for each byte, found "hex:4"'),
    ("participant bank but bic A#", 26, 'expected printable ASCII without " and #, or hex:.., or empty, found "A#"'),
    ("route AAAALV22", 15, "expected to or via, found the line's end"),
    ("route AAAALV22 to", 18, "expected a BIC or the number of a participant, found the line's end"),
    ("route AAAALV22 to x", 19, f'expected a BIC or the number of a participant, found "x"; a BIC is {A_BIC}'),
    ("route AAAALV22 to 65536", 19, 'expected a number from 0 to 65535, found "65536"'),
    ("route AAAALV22 to BBBBLV22", 19, 'no participant has the BIC "BBBBLV22"; a number may stand here instead'),
    ("route AAAALV22 via BBBBLV22", 20, 'no route row has the BIC "BBBBLV22"; a number may stand here instead'),
    ("route AAAALV22 to 0 via 0", 21, 'expected but, or the line\'s end, found "via": k is given already'),
    ("route AAAALV22 but k 5", 16, 'expected to or via, found "but"'),
    ("route AAAALV22 but kind 5", 16, 'expected to or via, found "but"'),
    ("08:00:00", 9, f"expected a kind of ticket: {KINDS}, found the line's end"),
    ("08:00:00 oder", 10, f'expected a kind of ticket: {KINDS}, found "oder"'),
    ("8:0:0 tick", 1, 'expected a time like 08:00:05 or 28805, found "8:0:0"'),
    ("  4294967296 tick", 3, 'expected a time of at most 4294967295 seconds, found "4294967296"'),
    ("1 tick tock", 8, 'expected but, or the line\'s end, found "tock"'),
    ("1 cut from AAAALV22", 7, 'expected but, or the line\'s end, found "from"'),
    ("1 confirm from AAAALV22 4.00", 25, f'expected {AMOUNT}, found "4.00"'),
    ("1 confirm EUR 4.00", 19, "expected from, found the line's end"),
    ("1 confirm from AAAALV22 EUR", 28, "expected euros like 4.00, found the line's end"),
    ("1 confirm from AAAALV22 cents 4.00", 31, 'expected whole cents like 400, found "4.00"'),
    (
        "1 confirm from AAAALV22 cents 18446744073709551616",
        31,
        'expected at most 18446744073709551615 cents, found "18446744073709551616"',
    ),
    ("1 order", 8, "expected a TxId, found the line's end"),
    ("1 order TX1", 12, f"expected from, to, {AMOUNT}, or iban, found the line's end"),
    ("1 order TX1 by AAAALV22", 13, f'expected from, to, {AMOUNT}, or iban, found "by"'),
    (
        "1 order TX1 from AAAALV22 from AAAALV22",
        27,
        f'expected to, {AMOUNT}, or iban, found "from": sender is given already',
    ),
    ("1 order TX1 EUR 4.00 cents 400", 22, 'expected from, to, or iban, found "cents": amount is given already'),
    (
        "1 order TX1 from AAAALV12",
        18,
        f'expected a BIC, found "AAAALV12"; a BIC is {A_BIC}; `but sender ..` writes one that is wrong',
    ),
    ("1 order TX1 to A", 16, f'expected a BIC, found "A"; a BIC is {A_BIC}; `but payee ..` writes one that is wrong'),
    (
        "1 order T_1 from AAAALV22",
        9,
        'expected a TxId, found "T_1"; a TxId is 1 to 35 of A-Z a-z 0-9 / - ? : ( ) . , \' +; '
        "`but txid ..` writes one that is wrong",
    ),
    (
        "1 order from AAAALV22 to BBBBLV22 EUR 4.00 iban LV80BANK0000435195001",
        9,
        'expected a TxId, found "from"; a TxId of these letters is written `but txid from`',
    ),
    (
        "1 order TX1 iban LV81BANK0000435195001",
        18,
        "not an IBAN: its check digits leave 2, not 1; `but iban ..` writes it all the same",
    ),
    (
        "1 order TX1 iban LV8",
        18,
        'expected an IBAN, found "LV8"; an IBAN is two A-Z, two digits, 1 to 30 of A-Z or 0-9; '
        "`but iban ..` writes one that is wrong",
    ),
    (
        "1 order TX1 iban LV80bank0000435195001",
        18,
        'expected an IBAN, found "LV80bank0000435195001": character 5, b, and 3 more are small letters; '
        "an IBAN is two A-Z, two digits, 1 to 30 of A-Z or 0-9; `but iban ..` writes one that is wrong",
    ),
    ("1 order TX1 from AAAALV22 to BBBBLV22 EUR 4.00 but flag 1", 48, 'expected iban, found "but"'),
    ("1 answer TX1 from AAAALV22", 27, "expected yes or no, or of, found the line's end"),
    ("1 answer TX1 maybe from AAAALV22", 14, 'expected yes or no, of, or from, found "maybe"'),
    ("1 answer TX1 yes no from AAAALV22", 18, 'expected of, or from, found "no": flag is given already'),
    ("1 answer TX1 of", 16, "expected a BIC, found the line's end"),
    (
        "1 answer TX1 of aaaalv22 yes from AAAALV22",
        17,
        f'expected a BIC, found "aaaalv22"; a BIC is {A_BIC}; `but payer ..` writes one that is wrong',
    ),
    (
        "1 answer TX1 of AAAALV22 of AAAALV22 yes from AAAALV22",
        26,
        'expected yes or no, or from, found "of": payer is given already',
    ),
    ("1 answer TX1 of AAAALV22 yes from AAAALV22 tock", 44, 'expected but, or the line\'s end, found "tock"'),
    (
        "1 inquiry of AAAALV22 from AAAALV22",
        11,
        'expected a TxId, found "of"; a TxId of these letters is written `but txid of`',
    ),
    ("1 order TX1 of AAAALV22", 13, f'expected from, to, {AMOUNT}, or iban, found "of"'),
    ("1 confirm of AAAALV22", 11, f'expected from, or {AMOUNT}, found "of"'),
    ("1 tick of AAAALV22", 8, 'expected but, or the line\'s end, found "of"'),
    ("1 inquiry TX1 from AAAALV22 but payee empty", 33, f'expected {ABOUT}, found "payee"'),
    ("1 tick but payer empty", 12, f'expected {ABOUT.replace("payer", "payee")}, found "payer"'),
    ("1 inquiry TX1 from AAAALV22 but payer empty payer A", 45, "payer is given twice behind `but`"),
    ("1 inquiry TX1 from AAAALV22 but payer AAAALV22XXXX", 39, 'expected at most 11 bytes, found "AAAALV22XXXX"'),
    ("1 answer yes from AAAALV22", 10, 'expected a TxId, found "yes"; a TxId of these letters is written `but txid yes`'),
    ("1 recall TX1 CUST from AAAALV22", 14, 'expected TECH, FRAD, AC03 or AM09, of, or from, found "CUST"'),
    ("raw 00", 7, "expected 216 hex digits, found 2"),
    ("raw 0x00", 6, 'expected a hex digit, found "x"'),
    ("bytes 0 11", 11, "expected two hex digits for each byte, found 3 digits"),
    ("header", 7, "expected participants, routes, tickets, participants-at, routes-at or tickets-at, found the line's end"),
    ("header tickets", 15, "expected a number, found the line's end"),
    ("header tickets 65536", 16, 'expected a number from 0 to 65535, found "65536"'),
    ("header tickets 1 2", 18, 'expected the line\'s end, found "2"'),
    (
        "Route AAAALV22",
        1,
        'expected header, participant, route, raw, bytes, or a time like 08:00:05 or 28805, found "Route"',
    ),
    (
        "day one",
        1,
        'expected header, participant, route, raw, bytes, or a time like 08:00:05 or 28805, found "day"; '
        "many days in one text need --many",
    ),
)


def pack(*lines):
    return packing.pack("x.day", "\n".join(lines))


def ticket(line):
    """The fields of the one ticket that a text has."""
    file = pack(line)
    assert file[:12] == bytes.fromhex("0000 0000 0001 000c 000c 000c") and len(file) == 120
    return layout.read(layout.TICKET, file[12:])


def first_row(fields, line):
    return layout.read(fields, pack(line)[12:])


class Packing(unittest.TestCase):
    def wrong(self, message, *lines):
        with self.assertRaises(text.TextError) as caught:
            pack(*lines)
        self.assertEqual(str(caught.exception), message)

    def test_case_d_to_the_byte(self):
        self.assertEqual(packing.pack("case D", CASE_D), CASE_D_BYTES)

    def test_white_space_and_comments_are_of_no_account(self):
        spread = "\ufeff# head\r\n" + CASE_D.replace("\n", "\t # note\r\n").replace(" ", "  \t")
        self.assertEqual(packing.pack("case D", spread), CASE_D_BYTES)

    def test_malformed_lines(self):
        for line, column, message in MALFORMED:
            with self.subTest(line):
                self.wrong(f"x.day:2:{column}: {message}", "# a comment", line)

    def test_each_kind(self):
        about = {"txid": b"T", "payee": b"BBBBLV22XXX"}
        listed = {
            f"1 cover-in from {A} EUR 0.10": {"kind": 1, "amount": 10},
            f"1 cover-out cents 0 from {A}": {"kind": 2},
            f"1 order T to {B} iban {IBAN} from {A} EUR 0.10": {
                "kind": 3,
                "amount": 10,
                "txid": b"T",
                "payee": b"BBBBLV22XXX",
                "iban": IBAN.encode(),
            },
            f"1 answer T of {B} no from {A}": {"kind": 4, "flag": 2} | about,
            f"1 answer T from {A} yes of {B}XXX": {"kind": 4, "flag": 1} | about,
            f"1 recall T AM09 of {B} from {A}": {"kind": 5, "flag": 4} | about,
            f"1 return T from {A} of {B} cents 7": {"kind": 6, "amount": 7} | about,
            f"1 decline T of {B} ARDT from {A}": {"kind": 7, "flag": 7} | about,
            f"1 inquiry T from {A} of {B}ABC": {"kind": 8} | about | {"payee": b"BBBBLV22ABC"},
            "1 cut": {"kind": 9, "sender": b""},
            f"1 confirm from {A} EUR 0.00": {"kind": 10},
            "1 tick": {"kind": 11, "sender": b""},
        }
        zero = layout.read(layout.TICKET, bytes(108))
        for line, fields in listed.items():
            with self.subTest(line):
                self.assertEqual(ticket(line), zero | {"time": 1, "sender": b"AAAALV22XXX"} | fields)

    def test_flags_of_each_kind(self):
        flags_of = {"answer": "yes no", "recall": "TECH FRAD AC03 AM09", "decline": "CUST LEGL AC04 AM04 NOAS NOOR ARDT"}
        for kind, flags in flags_of.items():
            for number, flag in enumerate(flags.split(), 1):
                self.assertEqual(ticket(f"1 {kind} T of {B} {flag} from {A}")["flag"], number)

    def test_participants(self):
        row = {"bic": b"AAAALV22XXX", "kind": 0, "opening": 0, "wish": 0, "spare": 0}
        for line, fields in {
            "AAAALV22 bank": {},
            "AAAALV22XXX linked": {"kind": 1},
            "AAAALV22ABC bank opening EUR 0.00": {"bic": b"AAAALV22ABC", "wish": 1},
            "AAAALV22 opening cents 5 linked": {"kind": 1, "wish": 1, "opening": 5},
            "AAAALV22 bank opening EUR 1.00 but wish 0": {"opening": 100},
            "but bic empty kind 255": {"bic": b"", "kind": 255},
            "bank but bic AAAALV22": {"bic": b"AAAALV22"},
            "AAAALV22 bank but spare 16777215 opening 18446744073709551615": {"spare": 2**24 - 1, "opening": 2**64 - 1},
        }.items():
            with self.subTest(line):
                self.assertEqual(first_row(layout.PARTICIPANT, f"participant {line}"), row | fields)

    def test_routes(self):
        row = {"bic": b"AAAALV22XXX", "kind": 0, "k": 0, "spare": 0}
        for line, fields in {
            "AAAALV22 to 65535": {"k": 65535},
            "AAAALV22 via 7": {"kind": 1, "k": 7},
            "AAAALV22 via AAAALV22XXX": {"kind": 1},
            "AAAALV22 but kind 9 k 3": {"kind": 9, "k": 3},
            "to 1 but bic hex:0041": {"bic": b"\0A", "k": 1},
            "AAAALV22 to 1 but spare 65535 k 4": {"k": 4, "spare": 65535},
        }.items():
            with self.subTest(line):
                self.assertEqual(first_row(layout.ROUTE, f"route {line}"), row | fields)

    def test_a_route_leads_to_the_first_row_with_the_bic(self):
        rows = [f"participant {A} bank", f"participant {B} bank", "participant bank but bic BBBBLV22XXX"]
        routes = [f"route {A} via {B}", f"route {B} to {B}", f"route {B} via {B}", f"route CCCCLV22 to {A}"]
        sections = layout.sections(pack(*rows, *routes))
        self.assertEqual([(row["kind"], row["k"]) for row in sections.routes], [(1, 1), (0, 1), (1, 1), (0, 0)])

    def test_each_ticket_field_behind_but(self):
        fields = {
            "kind 12": 12,
            "flag 255": 255,
            "spare 65535": 65535,
            "time 4294967295": 2**32 - 1,
            "amount 18446744073709551615": 2**64 - 1,
            "sender AAAALV22": b"AAAALV22",
            "payee hex:ff00ff": b"\xff\0\xff",
            "txid from": b"from",
            "iban " + "x" * 34: b"x" * 34,
            "last 1": 1,
        }
        self.assertEqual([words.split()[0] for words in fields], [field.name for field in layout.TICKET])
        usual = ticket("1 tick")
        for words, value in fields.items():
            with self.subTest(words):
                self.assertEqual(ticket(f"1 tick but {words}"), usual | {words.split()[0]: value})
        every = {words.split()[0]: value for words, value in fields.items()}
        self.assertEqual(ticket("1 tick but " + " ".join(fields)), every)

    def test_but_replaces_a_field_or_stands_for_it(self):
        given = ticket(f"1 order T from {A} to {B} EUR 1.00 iban {IBAN} but txid empty")
        self.assertEqual(given["txid"], b"")
        self.assertEqual(ticket(f"1 order from {A} to {B} EUR 1.00 iban {IBAN} but txid empty"), given)
        self.assertEqual(
            ticket("1 order but txid empty sender AAAALV22XXX payee BBBBLV22XXX amount 100 iban " + IBAN), given
        )
        given = ticket(f"1 answer X of {A} no from {B} but txid but")
        self.assertEqual(ticket(f"1 answer of {A} from {B} but txid but flag 2"), given)
        self.assertEqual(ticket(f"1 answer of {B} from {B} but txid but flag 2 payer AAAALV22XXX"), given)

    def test_words_that_are_never_a_txid(self):
        for word in ("of", "from", "to", "EUR", "cents", "iban", "but"):
            self.assertEqual(ticket(f"1 inquiry from {A} but txid {word}")["txid"], word.encode())
            with self.assertRaises(text.TextError):
                ticket(f"1 inquiry {word} from {A}")
        self.assertEqual(ticket(f"1 recall yes TECH from {A}")["txid"], b"yes")
        self.assertEqual(ticket(f"1 answer TECH of {B} yes from {A}")["txid"], b"TECH")
        self.assertEqual(ticket(f"1 answer yes of {B} from {A} but txid yes")["txid"], b"yes")

    def test_raw(self):
        row = bytes(range(108))
        digits = row.hex()
        self.assertEqual(pack(f"raw {digits}")[12:], row)
        self.assertEqual(pack("raw " + " ".join(digits.upper()))[12:], row)

    def test_header_lines(self):
        names = ("participants", "routes", "tickets", "participants-at", "routes-at", "tickets-at")
        for at, name in enumerate(names):
            usual = bytearray.fromhex("0000 0000 0001 000c 000c 000c")
            usual[2 * at : 2 * at + 2] = b"\xab\xcd"
            self.assertEqual(pack(f"header {name} 43981", "1 tick")[:12], bytes(usual))
        self.assertEqual(pack("header tickets 0"), bytes.fromhex("0000 0000 0000 000c 000c 000c"))
        self.wrong("x.day:2:8: header tickets is given twice", "header tickets 0", "header tickets 1")

    def test_bytes_lines(self):
        self.assertEqual(pack("bytes"), b"")
        self.assertEqual(pack("bytes 0 1 aBcd", "bytes", "bytes 00"), b"\x01\xab\xcd\x00")
        self.assertEqual(pack("1 tick", "bytes ff")[120:], b"\xff")
        self.assertEqual(pack("header tickets 7", "bytes ff"), bytes.fromhex("0000 0000 0007 000c 000c 000c ff"))

    def test_no_line_at_all(self):
        for empty in ("", "\n\n", "# nothing\n", "\ufeff"):
            with self.subTest(empty):
                self.wrong("x.day:1:1: expected a line of a day, found none; `bytes` alone is an empty file", empty)

    def test_lines_that_come_too_late(self):
        lines = ("header tickets 1", f"participant {A} bank", "route BBBBLV22 to 0", "1 tick", "bytes 00")
        places = ("header", "participant", "route", "ticket", "bytes")
        for late in range(5):
            for before in range(late + 1, 5):
                said = f"x.day:2:1: this {places[late]} line comes too late: a {places[before]} line came before, line 1"
                self.wrong(f"{said}; the order is {PLACES}", lines[before], lines[late])
        said = "x.day:3:1: this header line comes too late: a ticket line came before, line 1"
        self.wrong(f"{said}; the order is {PLACES}", "1 tick", "1 tick", "header tickets 2")

    def test_counts_and_offsets_that_fit_no_two_bytes(self):
        # 2730 participants end at byte 65532, the next at 65556.
        rows = [f"participant {A} bank"] * 2731
        self.assertEqual(pack(*rows[1:], "1 tick")[6:12], bytes.fromhex("000c fffc fffc"))
        said = "routes-at would be 65556, above 65535; a line `header routes-at ..` gives another number"
        self.wrong(f"x.day:2731:26: {said}", *rows)
        said = "tickets-at would be 65556, above 65535; a line `header tickets-at ..` gives another number"
        self.wrong(f"x.day:2732:26: {said}", "header routes-at 1", *rows)
        self.assertEqual(len(pack("header routes-at 1", "header tickets-at 2", *rows)), 65556)
        self.wrong(
            "x.day:65536:7: tickets would be 65536, above 65535; a line `header tickets ..` gives another number",
            *["1 tick"] * 65536,
        )

    def test_all_lines_with_mistakes_up_to_ten(self):
        with self.assertRaises(text.TextError) as caught:
            pack(*["participant x bank", "1 tick", "1 tock"] * 6)
        shown = str(caught.exception).split("\n")
        self.assertEqual(len(shown), 11)
        self.assertEqual([line.split(": ")[0] for line in shown[:4]], ["x.day:1:13", "x.day:3:3", "x.day:4:1", "x.day:6:3"])
        self.assertEqual(shown[10], "x.day: errors that are not shown: 2")

    def test_a_name_is_not_missed_where_its_line_is_wrong(self):
        self.wrong(
            'x.day:1:22: expected bank or linked, or opening, found "bnk"',
            f"participant {A} bnk",
            f"route {A} to {A}",
            "1 tick",
        )
        with self.assertRaises(text.TextError) as caught:
            pack(f"route {A} to {B}", "1 tock")
        self.assertEqual(len(str(caught.exception).split("\n")), 2)

    def test_the_lines_of_the_guide(self):
        root = os.path.dirname(os.path.dirname(os.path.dirname(os.path.abspath(__file__))))
        with open(os.path.join(root, "docs", "DAYS.md"), encoding="utf-8") as guide:
            shown = [line.strip() for line in guide if line.startswith("    ")]
        rows = [[line for line in shown if line.startswith(word)] for word in ("participant ", "route ")]
        tickets = [line for line in shown if line[:1].isdigit()]
        self.assertEqual(len([line for line in tickets if line.split()[1] == "message"]), 1)
        file = packing.pack(os.path.join(root, "examples", "x.day"), "\n".join([*rows[0], *rows[1], *tickets]), READER)
        self.assertEqual(file[:6], bytes([0, len(rows[0]), 0, len(rows[1]), 0, len(tickets)]))
        self.assertLessEqual(set(range(1, 12)), {row["kind"] for row in layout.sections(file).tickets})

    def test_text_that_is_not_utf8(self):
        marked = b"\xef\xbb\xbfa\xc3\xa4\xc3("
        for data, place, byte in ((b"\xff", "1:1", "ff"), (marked, "1:3", "c3"), (b"a\n\n b\x80", "3:3", "80")):
            with self.assertRaises(text.TextError) as caught:
                packing.decoded("x.day", data)
            self.assertEqual(str(caught.exception), f"x.day:{place}: not UTF-8: byte {byte}")


ORDERS = {
    "T": f"1 order T from {A} to {B} EUR 1.00 iban {IBAN}",
    "T of B": f"1 order T from {B} to {A} EUR 1.00 iban {IBAN}",
}
NO_ORDER = "no order of the day has this TxId"
SEVERAL = f"orders of the day with this TxId are of {A}, {B}"
NO_BIC = "an order of the day with this TxId has a sender that is no BIC"


class PayersLeftOut(unittest.TestCase):
    """What is filled in where a line doesn't say whose order it is about: 02, slip 6."""

    ABOUT_ORDERS = (f"2 answer T yes from {B}", f"2 return T from {B} EUR 1.00", f"2 decline T CUST from {B}")

    def payers(self, *lines):
        """The payers of the tickets of kinds 4 to 8."""
        return [row["payee"].decode() for row in layout.sections(pack(*lines)).tickets if 4 <= row["kind"] <= 8]

    def said(self, *lines):
        with self.assertRaises(text.TextError) as caught:
            pack(*lines)
        return str(caught.exception).split("\n")

    def test_the_payer_of_the_orders_of_the_day(self):
        for line in self.ABOUT_ORDERS:
            self.assertEqual(self.payers(ORDERS["T"], line), [f"{A}XXX"])
            self.assertEqual(self.payers(line, ORDERS["T of B"]), [f"{B}XXX"])
            self.assertEqual(self.payers(ORDERS["T"], ORDERS["T"], line, line), [f"{A}XXX"] * 2)

    def test_the_sender_of_a_recall_and_of_an_inquiry(self):
        """Whoever's orders the day has."""
        for line in (f"2 recall T TECH from {B}", f"2 inquiry T from {B}"):
            for orders in ("", ORDERS["T"], "\n".join(ORDERS.values())):
                self.assertEqual(self.payers(orders, line), [f"{B}XXX"])
            self.assertEqual(self.payers(line + " but sender CCCCLV22ABC"), ["CCCCLV22ABC"])
            said = f'x.day:1:{len(line) + 2}: expected of BIC, found "but": the sender is no BIC'
            for sender in ("empty", "BBBBLV22", "bbbblv22xxx", "hex:00"):
                self.assertEqual(self.said(f"{line} but sender {sender}"), [said])

    def test_a_raw_order(self):
        raw = "raw " + pack(ORDERS["T of B"])[12:].hex()
        self.assertEqual(self.payers(raw, self.ABOUT_ORDERS[0]), [f"{B}XXX"])
        self.assertEqual(len(self.said(raw, ORDERS["T"], self.ABOUT_ORDERS[0])), 1)

    def test_what_is_no_order_does_not_count(self):
        """A ticket is an order by its packed kind, whatever its line's word is."""
        for other in (
            ORDERS["T of B"] + " but kind 12",
            f"1 recall T TECH from {B}",
            ORDERS["T of B"].replace("T", "T2", 1),
        ):
            self.assertEqual(self.payers(ORDERS["T"], other, self.ABOUT_ORDERS[0])[-1], f"{A}XXX")
        made = f"1 tick but kind 3 sender {B}XXX txid hex:5400"
        self.assertEqual(self.payers(made, self.ABOUT_ORDERS[0]), [f"{B}XXX"])
        self.assertEqual(
            self.payers(ORDERS["T"] + f" but sender {B}ABC txid U", f"2 answer yes from {B} but txid U"), [f"{B}ABC"]
        )

    def test_where_it_can_not_be_told(self):
        no_bic = ORDERS["T"] + " but sender empty"
        cases = (((), NO_ORDER), (tuple(ORDERS.values()), SEVERAL), ((no_bic,), NO_BIC), ((no_bic, ORDERS["T"]), NO_BIC))
        for orders, why in cases:
            for line in self.ABOUT_ORDERS:
                place = f"x.day:{len(orders) + 1}:{len(line) + 1}"
                self.assertEqual(self.said(*orders, line), [f"{place}: expected of BIC, found the line's end: {why}"])
                place = f"x.day:{len(orders) + 1}:{len(line) + 2}"
                self.assertEqual(self.said(*orders, f"{line} but last 1"), [f'{place}: expected of BIC, found "but": {why}'])
                self.assertEqual(self.payers(*orders, f"{line} of CCCCLV22"), ["CCCCLV22XXX"])

    def test_each_is_told(self):
        said = self.said(self.ABOUT_ORDERS[0], "1 tick", *self.ABOUT_ORDERS[1:])
        self.assertEqual([line.split(": ")[0] for line in said], ["x.day:1:29", "x.day:3:34", "x.day:4:31"])

    def test_many_payers(self):
        orders = [ORDERS["T"].replace(A, f"AAAALV2{n}") for n in range(2, 8)]
        due = "orders of the day with this TxId are of AAAALV22, AAAALV23, AAAALV24, AAAALV25 and 2 more"
        self.assertTrue(self.said(*orders, self.ABOUT_ORDERS[0])[0].endswith(f": {due}"))

    def test_but_gives_it(self):
        """Nothing is filled then, and nothing is missed."""
        for line in (*self.ABOUT_ORDERS, f"2 recall T TECH from {A}", f"2 inquiry T from {A}"):
            for words, payer in (
                ("empty", b""),
                ("AAAALV22", b"AAAALV22"),
                ("hex:ff", b"\xff"),
                ("aaaalv22xxx", b"aaaalv22xxx"),
            ):
                self.assertEqual(ticket(f"{line} but payer {words}")["payee"], payer)

    def test_not_missed_where_a_ticket_is_wrong(self):
        """The order may be the ticket that is wrong. A line before the tickets is told beside it."""
        wrong = ORDERS["T"].replace("order", "oder")
        self.assertEqual(self.said(wrong, self.ABOUT_ORDERS[0])[0].split(": ")[0], "x.day:1:3")
        self.assertEqual(len(self.said(wrong, self.ABOUT_ORDERS[0])), 1)
        self.assertEqual(len(self.said("header tickets x", self.ABOUT_ORDERS[0])), 2)

    def test_a_message_is_an_order(self):
        name = os.path.join(scenes.EXAMPLES, "x.day")
        messages = [f"1 message {file}" for file in scenes.MESSAGES]
        txids = ("SALARY-41", "RENT-7/11'A'")
        answers = [f"2 answer {txid} yes from {B}" for txid in txids]
        file = packing.pack(name, "\n".join([*answers, *messages]), READER)
        rows = layout.sections(file).tickets
        self.assertEqual([row["payee"] for row in rows[:2]], [row["sender"] for row in rows[2:]])
        self.assertEqual([row["txid"].decode() for row in rows[2:]], list(txids))

    def test_not_missed_where_a_message_is_wrong(self):
        with self.assertRaises(text.TextError) as caught:
            packing.pack(os.path.join(scenes.EXAMPLES, "x.day"), f"1 message none.xml\n{self.ABOUT_ORDERS[0]}", READER)
        self.assertEqual(str(caught.exception).count("\n"), 0)
        self.assertIn("none.xml", str(caught.exception))


class AnyFile(unittest.TestCase):
    """A file of any name is a day's text or packed."""

    def test_text(self):
        for name in ("mine.day", "mine.txt", "MINE.DAY", "mine.bin", "mine"):
            for mark in (b"", b"\xef\xbb\xbf", b"\r\n\t"):
                self.assertEqual(packing.day_file(name, mark + CASE_D.encode()), CASE_D_BYTES, name)

    def test_packed(self):
        """What begins with a zero byte or has one, and an empty file."""
        for data in (CASE_D_BYTES, b"", b"\0", b"\x01" + CASE_D_BYTES[1:], b"text\0"):
            self.assertEqual(packing.day_file("mine.bin", data), data)

    def test_mistakes_are_told_with_their_place(self):
        cases = {
            ("mine.txt", b"1 tick\n1 tick tock\n"): 'mine.txt:2:8: expected but, or the line\'s end, found "tock"',
            ("mine.txt", b"# f\xfcr 1 \n"): "mine.txt:1:4: not UTF-8: byte fc",
            ("mine.txt", "1 tick\n".encode("utf-16")): "mine.txt:1:1: not UTF-8: byte ff",
            ("mine.txt", b"\xfe\xff\0001"): "mine.txt:1:1: not UTF-8: byte fe",
            ("mine.txt", b"\x1b[31m"): "mine.txt:1:1: expected ",
            ("mine.DAY", b""): "mine.DAY:1:1: expected a line of a day, found none",
            ("mine.day", b"\0\x01"): "mine.day:1:1: expected ",
        }
        for (name, data), said in cases.items():
            with self.assertRaises(text.TextError) as failed:
                packing.day_file(name, data)
            self.assertTrue(str(failed.exception).startswith(said), (said, str(failed.exception)))


if __name__ == "__main__":
    unittest.main()
