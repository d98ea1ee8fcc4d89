"""The examples: what each is there to show, and that the gate runs the proved program on every one."""

import os
import unittest
from xml.parsers import expat

from tests import scenes
from zolfigar import many, text

ADVICE = "; `tools/day pack --many` makes the input of crates/days"


def outputs_of_days():
    """The expected outputs of the program `days`, by the days' names."""
    found, name = {}, None
    for line in scenes.content("crates", "days", "stdout").decode().splitlines(keepends=True):
        if line.startswith("# "):
            name = line[2:-1]
            found[name] = ""
        else:
            found[name] += line
    return found


class Gate(unittest.TestCase):
    """`rt ci` runs `days` and holds what it prints to its stdout, so these outputs are the proved program's."""

    def test_every_example_is_run_by_the_gate(self):
        days = dict(many.split(scenes.content("crates", "days", "stdin")))
        outputs = outputs_of_days()
        for name in scenes.RUNNING + scenes.REFUSED:
            with self.subTest(name):
                self.assertEqual(days.get(f"example {name}".encode()), scenes.day_file(name), ADVICE)
                self.assertEqual(outputs.get(f"example {name}"), scenes.output(name))

    def test_no_example_is_forgotten(self):
        names = sorted(name for name in os.listdir(scenes.EXAMPLES))
        days = [name + ending for name in scenes.RUNNING + scenes.REFUSED for ending in (".day", ".out")]
        self.assertEqual(names, sorted([*days, *scenes.MESSAGES]))


def texts_of(message):
    """The texts that an XML parser which isn't ours finds in a message, by their paths, and how deep its elements are."""
    parser, depth = expat.ParserCreate(), 0
    path: list[str] = []
    texts: dict[str, list[str]] = {}

    def begun(name, _):
        nonlocal depth
        path.append(name)
        depth = max(depth, len(path))
        texts.setdefault("/".join(path), []).append("")

    def met(characters):
        texts["/".join(path)][-1] += characters

    parser.StartElementHandler, parser.CharacterDataHandler = begun, met
    parser.EndElementHandler = lambda name: path.pop()
    parser.Parse(message, True)
    return texts, depth


class Messages(unittest.TestCase):
    NAMED = (
        "GrpHdr/InstgAgt/FinInstnId/BIC",
        "CdtTrfTxInf/CdtrAgt/FinInstnId/BIC",
        "CdtTrfTxInf/IntrBkSttlmAmt",
        "CdtTrfTxInf/PmtId/TxId",
        "CdtTrfTxInf/CdtrAcct/Id/IBAN",
    )

    def named(self, name):
        """The five texts that make the order."""
        texts, _ = texts_of(scenes.content("examples", name))
        return [texts[f"LBFastCdtTrf/FIToFICstmrCdtTrf/{path}"] for path in self.NAMED]

    def test_their_orders(self):
        plain = [["AAAALV22"], ["BBBBLV22"], ["400.00"], ["SALARY-41"], ["LV80BANK0000435195001"]]
        free = [["BBBBLV22"], ["CCCCLT2XXXX"], ["000025.50"], ["RENT-7/11'A'"], ["LT121000011101001000"]]
        self.assertEqual([self.named(name) for name in scenes.MESSAGES], [plain, free])

    def test_the_plain_one_has_all_that_is_obligatory(self):
        """By the source document 002, section 7.3, and section 8 of a signature."""
        texts, _ = texts_of(scenes.content("examples", "plain.xml"))
        head, order = "LBFastCdtTrf/FIToFICstmrCdtTrf/GrpHdr/", "LBFastCdtTrf/FIToFICstmrCdtTrf/CdtTrfTxInf/"
        due = "MsgId CreDtTm NbOfTxs TtlIntrBkSttlmAmt IntrBkSttlmDt SttlmInf/SttlmMtd SttlmInf/ClrSys/Prtry PmtTpInf/SvcLvl/Cd"
        due += " PmtTpInf/LclInstrm/Cd InstgAgt/FinInstnId/BIC InstdAgt/FinInstnId/BIC"
        self.assertLessEqual({head + path for path in due.split()}, set(texts))
        due = (
            "PmtId/EndToEndId PmtId/TxId IntrBkSttlmAmt AcceptncDtTm ChrgBr Dbtr/Nm DbtrAcct/Id/IBAN DbtrAgt/FinInstnId/BIC"
        )
        due += " CdtrAgt/FinInstnId/BIC Cdtr/Nm CdtrAcct/Id/IBAN"
        self.assertLessEqual({order + path for path in due.split()}, set(texts))
        due = "SignedInfo/Reference/DigestValue SignatureValue KeyInfo/X509Data/X509Certificate"
        signed = "LBFastCdtTrf/FIToFICstmrCdtTrf/Signature/"
        self.assertLessEqual({signed + path for path in due.split()}, set(texts))

    def test_the_free_one_has_what_a_reader_may_stumble_over(self):
        message = scenes.content("examples", "free.xml")
        texts, depth = texts_of(message)
        self.assertEqual(depth, 16)
        for name in ("BIC", "IBAN", "TxId", "PmtId", "CdtrAgt"):
            self.assertGreater(len([path for path in texts if path.split("/")[-1] == name]), 1, name)
        for part in (
            b"<MsgId/>",
            b"<CreDtTm />",
            b"</InstgAgt >",
            b'Ccy = "EUR"',
            b"</BIC\n",
            b"\t>",
            b"<b:BIC>",
            b"<_4><e5.x>",
        ):
            self.assertIn(part, message)

    def test_ibans_and_bics_are_right(self):
        for name in scenes.MESSAGES:
            for path, found in texts_of(scenes.content("examples", name))[0].items():
                for word in found:
                    if word and path.endswith("/IBAN"):
                        self.assertEqual(text.iban(word), word.encode())
                    elif word and path.endswith("BIC"):
                        self.assertIsNotNone(text.filled(word), word)


class Shown(unittest.TestCase):
    def test_the_papers_cases(self):
        first = "T 0 0 0 0\nT 1 0 1 1\nR 1 1 0 400\n"
        in_time = "T 2 0 2 0\nR 0 2 0 400\nR 1 2 0 400\nT 3 0 1 0\nR 0 2 0 400\nC 0 600 0 0\nC 1 400 0 0\n"
        too_late = "T 2 18 2 0\nR 0 4 0 400\nR 1 4 0 400\nT 3 0 1 0\nR 0 4 0 400\nC 0 1000 0 0\nC 1 0 0 0\n"
        self.assertEqual((scenes.output("case-d"), scenes.output("case-e")), (first + in_time, first + too_late))

    def test_each_refusal_once(self):
        refusals = [event.refusal for event in scenes.day("turned-back").events if event.refusal]
        self.assertEqual(sorted(refusals), list(range(7, 23)))

    def test_small_letters(self):
        day = scenes.day("small-letters")
        self.assertEqual([event.refusal for event in day.events], [0, 0, 8, 0, 0, 8, 0, 0, 0])
        for small, capital in ((2, 4), (5, 6)):
            first, second = day.events[small].ticket, day.events[capital].ticket
            self.assertEqual({**first, "iban": first["iban"].upper()}, second)
        in_time = day.orders[0].ended
        self.assertGreater(day.events[2].time - day.orders[0].time, 20)
        self.assertEqual((in_time.number, in_time.refusal), (3, 0))

    def test_part_return(self):
        """A part, and the rest of it; a cent above the order, and all of it. The payee closes with what it kept."""
        day = scenes.day("part-return")
        returns = [event for event in day.events if event.ticket["kind"] == 6]
        found = [(event.number, event.ticket["amount"], day.orders[event.order].amount, event.refusal) for event in returns]
        due = [(4, 39900, 40000, 0), (6, 100, 40000, 18), (10, 10001, 10000, 19), (11, 10000, 10000, 0)]
        self.assertEqual(found, due)
        told = [(event.number, report.amount) for event in day.events for report in event.reports if report.code == 6]
        self.assertEqual(told, [(4, 39900), (5, 39900), (11, 10000)])
        self.assertEqual([position.available for position in day.positions], [99900, 100])

    def test_late_recall(self):
        """In the last second, in the one behind it, and of an order that waited; return and decline more than ten days later."""
        day = scenes.day("late-recall")
        recalls = [event for event in day.events if event.ticket["kind"] == 5]
        found = [(event.number, event.time - day.orders[event.order].ended.time, event.refusal) for event in recalls]
        self.assertEqual(found, [(6, 863999, 0), (7, 864000, 26), (10, 259200, 0)])
        self.assertGreater(recalls[2].time - day.orders[2].time, 864000)
        self.assertEqual([(report.to, report.code) for report in day.events[8].reports], [(0, 2)])
        answers = [(day.events[11], recalls[0]), (day.events[12], recalls[2])]
        self.assertEqual([(event.ticket["kind"], event.refusal) for event, _ in answers], [(6, 0), (7, 0)])
        for event, recall in answers:
            self.assertEqual(event.order, recall.order)
            self.assertGreater(event.time - recall.time, 864000)

    def test_messages(self):
        """Two orders that settle, and the first once more."""
        day = scenes.day("messages")
        self.assertEqual([event.refusal for event in day.events], [0, 0, 0, 0, 0, 0, 13, 0])
        orders = [(order.txid, order.amount, order.code) for order in day.orders]
        self.assertEqual(orders, [("SALARY-41", 40000, 2), ("RENT-7/11'A'", 2550, 2)])
        first, second = (event.ticket for event in (day.events[2], day.events[6]))
        self.assertEqual({**first, "time": second["time"]}, second)
        lines = scenes.content("examples", "messages.day").decode().splitlines()
        named = [line.split()[2] for line in lines if line.split()[1:2] == ["message"]]
        self.assertEqual(named, ["plain.xml", "free.xml", "plain.xml"])

    def test_refused_files(self):
        self.assertEqual([scenes.output(name) for name in scenes.REFUSED], [f"F {n}\n" for n in range(1, 6)])

    def test_the_busy_day_has_it_all(self):
        day = scenes.day("busy")
        self.assertEqual({e.ticket["kind"] for e in day.events if e.refusal == 0}, set(range(1, 12)))
        codes = {report.code for event in day.events for report in event.reports}
        self.assertEqual(codes, {1, 2, 3, 4, 5, 6, 7, 8, 10, 11})
        self.assertTrue(any(not p.is_bank for p in day.participants))
        self.assertEqual({event.rows for event in day.events}, {0, 1, 2})
        late = next(o for o in day.orders if o.txid == "LATE")
        self.assertEqual((late.ended.refusal, late.ended.ticket["flag"], late.ended.time - late.time), (18, 1, 20))


if __name__ == "__main__":
    unittest.main()
