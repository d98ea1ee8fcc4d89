import random
import time
import unittest
from unittest import mock

from tests.test_packing import CASE_D_BYTES
from zolfigar import layout, packing, unpacking

CASE_D = """\
# participants
participant AAAALV22 bank
participant BBBBLV22 bank

# routes
route AAAALV22 to AAAALV22
route BBBBLV22 to BBBBLV22

# tickets
00:00:00 cover-in from AAAALV22 EUR 10.00
00:00:05 order    TX1 from AAAALV22 to BBBBLV22 EUR 4.00 iban LV80BANK0000435195001
00:00:24 answer   TX1 of AAAALV22 yes from BBBBLV22
00:00:30 inquiry  TX1 of AAAALV22 from AAAALV22
"""

BICS = b"AAAALV22XXX BBBBLV22XXX BBBBLV22ABC AAAALV22 aAAALV22XXX AAAALV22XX\xff \0AAALV22XXX but".split() + [b""]
TXIDS = b'TX1 from but yes CUST TECH empty hex:00 a"b # a#b \0a \xff'.split() + [b"", b"a b", b"T" * 35]
IBANS = (b"", b"LV80BANK0000435195001", b"LV81BANK0000435195001", b"iban", b"LV80bank0000435195001", b"x" * 34, b"\n")
NUMBERS = (0, 0, 0, 0, 1, 1, 2, 3, 7, 11, 12, 100, 255)
TEXTS = {"bic": BICS, "sender": BICS, "payee": BICS, "txid": TXIDS, "iban": IBANS}


def some_value(chance, field):
    if field.is_text:
        return chance.choice(TEXTS[field.name])
    if chance.random() < 0.8:
        return min(chance.choice(NUMBERS), field.most())
    return chance.randrange(field.most() + 1)


def some_row(chance, fields):
    return layout.write(fields, {field.name: some_value(chance, field) for field in fields})


def some_ticket(chance):
    """A ticket of a kind, with one or two of its fields in doubt."""
    row = layout.read(layout.TICKET, chance.choice(WELL_FORMED))
    for field in chance.sample(layout.TICKET, chance.randrange(3)):
        row[field.name] = some_value(chance, field)
    return layout.write(layout.TICKET, row)


def some_file(chance):
    participants = [some_row(chance, layout.PARTICIPANT) for _ in range(chance.randrange(4))]
    routes = [some_row(chance, layout.ROUTE) for _ in range(chance.randrange(5))]
    tickets = [
        chance.choice((some_ticket, lambda c: some_row(c, layout.TICKET)))(chance) for _ in range(chance.randrange(4))
    ]
    header = layout.header_of(len(participants), len(routes), len(tickets))
    return b"".join([layout.write(layout.HEADER, header), *participants, *routes, *tickets])


def damaged(chance, file):
    """A file with bytes flipped, cut off, added, or with a header field changed."""
    harmed = bytearray(file)
    way = chance.randrange(5)
    if way == 0 and harmed:
        for _ in range(chance.randrange(1, 6)):
            harmed[chance.randrange(len(harmed))] ^= 1 << chance.randrange(8)
    elif way == 1:
        del harmed[chance.randrange(len(harmed) + 1) :]
    elif way == 2:
        harmed += chance.randbytes(chance.randrange(1, 130))
    elif way == 3 and len(harmed) >= 12:
        at = 2 * chance.randrange(6)
        harmed[at : at + 2] = chance.choice((b"\0\0", b"\0\1", b"\0\2", b"\1\0", b"\xff\xff", chance.randbytes(2)))
    elif way == 4 and len(harmed) >= 12:
        harmed[0:2], harmed[2:4], harmed[4:6] = harmed[2:4], harmed[4:6], harmed[0:2]
    return bytes(harmed)


WELL_FORMED_LINES = """
08:00:00 cover-in from AAAALV22 EUR 10.00
08:00:00 cover-out from AAAALV22ABC EUR 0.01
08:00:05 order TX1 from AAAALV22 to BBBBLV22 EUR 4.00 iban LV80BANK0000435195001
08:00:24 answer TX1 of AAAALV22 yes from BBBBLV22
08:01:00 recall TX1 of AAAALV22 FRAD from AAAALV22
08:02:00 return TX1 of AAAALV22 from BBBBLV22 EUR 4.00
08:02:00 decline TX1 of AAAALV22ABC CUST from BBBBLV22
08:00:30 inquiry TX1 of BBBBLV22 from AAAALV22
18:00:00 cut
86399 confirm from AAAALV22 EUR 0.50
86400 tick
"""
WELL_FORMED_FILE = packing.pack("well-formed", WELL_FORMED_LINES)
WELL_FORMED = [WELL_FORMED_FILE[at : at + 108] for at in range(12, len(WELL_FORMED_FILE), 108)]


class RoundTrips(unittest.TestCase):
    def holds(self, file):
        unpacked = unpacking.text_of(file)
        packed = packing.pack("again", unpacked)
        self.assertEqual(packed, file)
        self.assertEqual(unpacking.text_of(packed), unpacked)

    def test_every_length_to_200(self):
        chance = random.Random(1)
        for length in range(201):
            self.holds(chance.randbytes(length))
            self.holds(bytes(length))
            self.holds(b"\xff" * length)

    def test_random_rows(self):
        chance = random.Random(2)
        for _ in range(700):
            self.holds(some_file(chance))

    def test_damaged_files(self):
        chance = random.Random(3)
        for _ in range(600):
            self.holds(damaged(chance, chance.choice((CASE_D_BYTES, WELL_FORMED_FILE, some_file(chance)))))

    def test_single_bits_of_case_d(self):
        chance = random.Random(4)
        for bit in chance.sample(range(8 * len(CASE_D_BYTES)), 400):
            harmed = bytearray(CASE_D_BYTES)
            harmed[bit // 8] ^= 1 << bit % 8
            self.holds(bytes(harmed))

    def test_random_bytes_below_a_small_header(self):
        chance = random.Random(5)
        for _ in range(300):
            counts = b"".join(chance.choice((0, 1, 3, 65535)).to_bytes(2, "big") for _ in range(3))
            self.holds(counts + chance.randbytes(chance.randrange(700)))

    def test_long_files_with_great_counts(self):
        chance = random.Random(6)
        for counts in ("ffff00000000", "0000ffff0000", "00000000ffff", "000000000000"):
            self.holds(bytes.fromhex(counts) + chance.randbytes(57101))

    def test_a_million_bytes_take_some_seconds(self):
        begun = time.monotonic()
        unpacking.unpack(b"\x10\0\x10\0\x10\0" + random.Random(7).randbytes(1_000_000))
        self.assertLess(time.monotonic() - begun, 30)

    def test_a_text_that_packs_to_other_bytes_is_not_handed_out(self):
        with mock.patch.object(unpacking, "text_of", return_value=CASE_D):
            self.assertEqual(unpacking.unpack(CASE_D_BYTES), CASE_D)
            with self.assertRaises(RuntimeError):
                unpacking.unpack(CASE_D_BYTES + b"\0")


class Texts(unittest.TestCase):
    def test_case_d(self):
        self.assertEqual(unpacking.unpack(CASE_D_BYTES), CASE_D)

    def unpacked(self, *lines):
        """The lines of the unpacked text without comments and blank ones."""
        found = unpacking.unpack(packing.pack("x", "\n".join(lines))).split("\n")
        return [" ".join(line.split()) for line in found if line and not line.startswith("#")]

    def same(self, *lines):
        self.assertEqual(self.unpacked(*lines), list(lines))

    def test_well_formed_tickets(self):
        lines = WELL_FORMED_LINES.strip().replace("86399", "23:59:59").split("\n")
        self.same(*lines)

    def test_rows(self):
        self.same(
            "participant AAAALV22 bank",
            "participant AAAALV22ABC linked opening EUR 0.05",
            "participant AAAALV22 bank but opening 5",
            "participant AAAALV22 but kind 2",
            "participant bank but bic AAAALV22",
            "participant AAAALV22 bank but opening 7 wish 2 spare 1",
            "participant AAAALV22 bank opening EUR 0.00 but spare 16777215",
            "route AAAALV22 to AAAALV22",
            "route AAAALV22 to AAAALV22ABC",
            "route AAAALV22 to 2",
            "route AAAALV22 to 4",
            "route AAAALV22 to 65535",
            "route AAAALV22 via AAAALV22",
            "route CCCCLV22 via CCCCLV22",
            "route AAAALV22 via AAAALV22 but spare 1",
            "route AAAALV22 via 1",
            "route AAAALV22 but kind 2 k 0",
            "route to AAAALV22 but bic empty",
        )

    def test_what_is_off_stands_behind_but(self):
        self.same(
            "00:00:01 order TX1 from AAAALV22 to BBBBLV22 EUR 1.00 but iban LV81BANK0000435195001",
            "00:00:01 order TX1 from AAAALV22 to BBBBLV22 EUR 1.00 but iban LV80bank0000435195001",
            "00:00:01 order TX1 from AAAALV22 to BBBBLV22 EUR 1.00 but iban LV31BANK000043519500a",
            "00:00:01 order TX1 from AAAALV22 to BBBBLV22 EUR 1.00 iban LV31BANK000043519500A",
            "00:00:01 order from AAAALV22 to BBBBLV22 EUR 1.00 iban LV80BANK0000435195001 but txid empty",
            "00:00:01 order from AAAALV22 to BBBBLV22 EUR 1.00 iban LV80BANK0000435195001 but txid from",
            "00:00:01 order TX1 from AAAALV22 to BBBBLV22 EUR 1.00 iban LV80BANK0000435195001 but kind 12",
            "00:00:01 order TX1 to BBBBLV22 EUR 1.00 iban LV80BANK0000435195001 but kind 0 sender AAAALV22",
            "00:00:01 order from AAAALV22 to BBBBLV22 EUR 1.00 iban LV80BANK0000435195001 but txid of",
            "00:00:01 answer TX1 of BBBBLV22 from AAAALV22 but flag 3",
            "00:00:01 answer of BBBBLV22 yes from AAAALV22 but txid yes",
            "00:00:01 answer of BBBBLV22 yes from AAAALV22 but txid of",
            "00:00:01 answer empty of BBBBLV22 yes from AAAALV22",
            "00:00:01 answer hex:41 of BBBBLV22 yes from AAAALV22",
            "00:00:01 answer TX1 yes from AAAALV22 but payer empty",
            "00:00:01 answer TX1 yes from AAAALV22 but payer BBBBLV22",
            "00:00:01 return TX1 from AAAALV22 EUR 1.00 but payer bbbblv22xxx",
            "00:00:01 decline TX1 CUST from AAAALV22 but payer hex:ff",
            "00:00:01 inquiry TX1 from AAAALV22 but payer empty",
            "00:00:01 recall TX1 TECH from AAAALV22 but payer hex:656d707479",
            "00:00:01 cover-in from AAAALV22 EUR 1.00 but payee AAAALV22XXX",
            "00:00:01 tick but txid hex:656d707479",
            "00:00:01 tick but txid hex:6865783a3431",
            "00:00:01 recall yes of BBBBLV22 TECH from AAAALV22",
            "00:00:01 tick but kind 255",
            "00:00:01 tick but flag 1 amount 5 sender hex:ff payee AAAALV22XXX",
            "00:00:01 cut but spare 65535 last 255",
        )

    def test_five_overrides_are_raw(self):
        (line,) = self.unpacked("00:00:01 tick but flag 1 spare 2 amount 5 sender A payee B")
        names = "4100000000000000000000 4200000000000000000000"
        self.assertTrue(line.startswith(f"raw 0b 01 0002 00000001 0000000000000005 {names} 00"), line)

    def test_files_that_are_no_day_files(self):
        self.assertEqual(unpacking.unpack(b""), "# an empty file\nbytes\n")
        self.assertEqual(unpacking.unpack(b"\x01\xff"), "# fewer bytes than a header has\nbytes 01ff\n")
        nothing = bytes.fromhex("0000 0000 0000 000c 000c 000c")
        header = "# header\nheader participants 0\n"
        self.assertEqual(unpacking.unpack(nothing), header)
        self.assertEqual(unpacking.unpack(nothing + b"\n"), f"{header}\n# bytes behind the rows\nbytes 0a\n")
        names = ("participants-at", "routes-at", "tickets-at")
        self.assertEqual(unpacking.unpack(bytes(12)), "# header\n" + "".join(f"header {name} 0\n" for name in names))

    def test_a_file_cut_off(self):
        found = unpacking.unpack(CASE_D_BYTES[:-100])
        self.assertTrue(found.startswith("# header\nheader tickets 4\n\n# participants\n"))
        self.assertTrue(found.endswith("# bytes behind the rows\nbytes 080000000000001e\n"))

    def test_bytes_lines_are_short(self):
        found = unpacking.unpack(CASE_D_BYTES + bytes(range(40))).split("\n")[-3:]
        row = "bytes 0001020304050607 08090a0b0c0d0e0f 1011121314151617 18191a1b1c1d1e1f"
        self.assertEqual(found, [row, "bytes 2021222324252627", ""])

    def test_ticket_words(self):
        rows = layout.sections(CASE_D_BYTES).tickets
        self.assertEqual(unpacking.ticket_words(rows[0]), "cover-in from AAAALV22 EUR 10.00")
        self.assertEqual(unpacking.ticket_words(rows[2]), "answer TX1 of AAAALV22 yes from BBBBLV22")
        self.assertEqual(unpacking.ticket_words(layout.ticket_in(bytes(108))), "tick but kind 0")
        self.assertEqual(unpacking.ticket_words(layout.ticket_in(b"\xff" * 108))[:18], "raw ff ff ffff fff")


if __name__ == "__main__":
    unittest.main()
