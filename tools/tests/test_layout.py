"""The bytes of a day file, taken apart and put together."""

import unittest

from zolfigar import layout


class Fields(unittest.TestCase):
    def test_fields_follow_each_other(self):
        for fields, size in ((layout.HEADER, 12), (layout.PARTICIPANT, 24), (layout.ROUTE, 16), (layout.TICKET, 108)):
            at = 0
            for field in fields:
                self.assertEqual(field.at, at, field.name)
                at += field.size
            self.assertEqual(at, size)

    def test_places_of_a_ticket(self):
        """01 'The ticket, 108 bytes'."""
        places = {field.name: (field.at, field.at + field.size - 1) for field in layout.TICKET}
        due = {"kind": (0, 0), "flag": (1, 1), "spare": (2, 3), "time": (4, 7), "amount": (8, 15), "sender": (16, 26)}
        due |= {"payee": (27, 37), "txid": (38, 72), "iban": (73, 106), "last": (107, 107)}
        self.assertEqual(places, due)

    def test_kinds_4_to_8_have_the_payer_where_an_order_has_its_payee(self):
        """02, slip 6."""
        places = [(field.at, field.size, field.is_text) for field in layout.TICKET]
        self.assertEqual([(field.at, field.size, field.is_text) for field in layout.ABOUT], places)
        names = {one.name: other.name for one, other in zip(layout.TICKET, layout.ABOUT) if one.name != other.name}
        self.assertEqual(names, {"payee": "payer"})

    def test_the_key_of_an_order(self):
        """Sender and TxId of an order's ticket, bytes 27 to 37 and TxId of one that names it."""
        row = bytearray(range(108))
        for kind in range(3, 9):
            row[0] = kind
            payer = bytes(range(16, 27)) if kind == 3 else bytes(range(27, 38))
            self.assertEqual(layout.key_of(layout.ticket_in(bytes(row))), (payer, bytes(range(38, 73))))

    def test_a_row_reads_back(self):
        row = bytes(range(1, 109))
        self.assertEqual(layout.write(layout.TICKET, layout.read(layout.TICKET, row)), row)

    def test_a_value_that_does_not_fit(self):
        with self.assertRaises(AssertionError):
            layout.write(layout.ROUTE, {"bic": b"A" * 12})
        with self.assertRaises(OverflowError):
            layout.write(layout.ROUTE, {"k": 65536})


class Sections(unittest.TestCase):
    def test_rows_that_are_there(self):
        header = layout.write(layout.HEADER, layout.header_of(2, 1, 3))
        file = header + bytes(24) * 2 + bytes(16) + bytes(108) * 2 + b"rest"
        found = layout.sections(file)
        self.assertEqual([len(found.participants), len(found.routes), len(found.tickets), found.rest], [2, 1, 2, b"rest"])

    def test_header_of_the_layout(self):
        self.assertEqual(list(layout.header_of(2, 2, 4).values()), [2, 2, 4, 12, 60, 92])


def file_of(participants, routes, tickets, **other):
    """A file with as many rows of zero bytes, whose header has what the layout gives, or another number."""
    header = layout.header_of(participants, routes, tickets) | {name.replace("_", "-"): n for name, n in other.items()}
    return layout.write(layout.HEADER, header) + bytes(24 * participants + 16 * routes + 108 * tickets)


class Refusal(unittest.TestCase):
    """Refusals 1 to 3, on both sides of each edge."""

    def test_below_12_bytes(self):
        self.assertEqual([layout.refusal(bytes(size)) for size in (0, 11, 12)], [1, 1, 2])

    def test_counts(self):
        counts = ((1, 0, 0), (32, 64, 512), (0, 0, 0), (33, 0, 0), (1, 65, 0), (1, 0, 513))
        self.assertEqual([layout.refusal(file_of(*count)) for count in counts], [None, None, 2, 2, 2, 2])

    def test_offsets_and_length(self):
        for name in ("participants_at", "routes_at", "tickets_at"):
            self.assertEqual(layout.refusal(file_of(1, 1, 1, **{name: 13})), 3, name)
        file = file_of(1, 1, 1)
        self.assertEqual([layout.refusal(other) for other in (file, file[:-1], file + b"0")], [None, 3, 3])


if __name__ == "__main__":
    unittest.main()
