#!/usr/bin/env python3
"""Stands in for the proved program messages where the tools are tested: it knows the answers of the texts below, and reads none.

The texts are runs of the proved program, whose answers are so held to these: `reader.py --input` prints them as its input, which is
crates/messages/stdin, and `reader.py --output` what it has to print of it, which is crates/messages/stdout."""

import os
import sys

TOOLS = os.path.dirname(os.path.dirname(os.path.realpath(__file__)))
sys.path.insert(0, TOOLS)

from zolfigar import files, layout, messages

READER = messages.Reader(os.path.realpath(__file__), lambda: None)
TIME = 32401  # of the texts, where they are printed
MOST = 65520
LONG = MOST + 1


def example(name):
    return files.read(os.path.join(os.path.dirname(TOOLS), "examples", name))


PLAIN = example("plain.xml")
FIELDS = {
    "sender": b"AAAALV22XXX",
    "payee": b"BBBBLV22XXX",
    "amount": 40000,
    "txid": b"SALARY-41",
    "iban": b"LV80BANK0000435195001",
}
FREE_FIELDS = {
    "sender": b"BBBBLV22XXX",
    "payee": b"CCCCLT2XXXX",
    "amount": 2550,
    "txid": b"RENT-7/11'A'",
    "iban": b"LT121000011101001000",
}

# Parts of the plain text.
DECLARATION = b'<?xml version="1.0" encoding="UTF-8"?>'
HEADER = PLAIN[PLAIN.index(b"<GrpHdr>") : PLAIN.index(b"<CdtTrfTxInf>")]
TRANSFER = PLAIN[PLAIN.index(b"<CdtTrfTxInf>") : PLAIN.index(b"<Signature ")]
SENDER = b"<InstgAgt>\n        <FinInstnId>\n          <BIC>AAAALV22</BIC>"
PAYEE = b"<BIC>BBBBLV22</BIC>"
TXID = b"<TxId>SALARY-41</TxId>"
AMOUNT = b'<IntrBkSttlmAmt Ccy="EUR">400.00</IntrBkSttlmAmt>'
IBAN = b"<IBAN>LV80BANK0000435195001</IBAN>"
ROOT_END = b"</LBFastCdtTrf>"


def added(part):
    """An edit: a part more in a place that is skipped."""
    return b"<ChrgBr>", part + b"<ChrgBr>"


def doubled(part):
    """An edit: a part twice, the second time at the place that is told."""
    return part, part + b"|" + part


def amount(text):
    return AMOUNT, b'<IntrBkSttlmAmt Ccy="EUR">' + text + b"</IntrBkSttlmAmt>"


def sender(text):
    return SENDER, SENDER.replace(b"AAAALV22", text)


def payee(text):
    return PAYEE, b"<BIC>" + text + b"</BIC>"


def txid(text):
    return TXID, b"<TxId>" + text + b"</TxId>"


def iban(text):
    return IBAN, b"<IBAN>" + text + b"</IBAN>"


def nested(count, inner):
    """An edit: elements in each other, the first of them the fifth from outside, with others in the last."""
    return b"<Nm>Juris Ozols</Nm>", b"<n>" * count + inner + b"</n>" * count


MANY = b" ".join(b'a%d="%d"' % (n, n) for n in range(16))  # attributes

# Texts that are orders: the fields that are others than those of the plain text, and edits of it, each a part and what stands in its place.
ORDERS_BY_EDITS = {
    "no declaration": ({}, (DECLARATION, b"")),
    "a declaration of a version alone, and white space behind it": ({}, (DECLARATION, b'<?xml version="1.0" ?>')),
    "white space at the end of tags": ({}, added(b"<x ></x >")),
    "17 attributes, all others": ({}, added(b"<x " + MANY + b' a16=""/>')),
    "a TxId of the payer's": ({}, (b"<Nm>Anna Liepa</Nm>", b"<PmtId><TxId>OTHER</TxId></PmtId>")),
    "an IBAN of the payer's that is none": ({}, (b"LV14AAAA0000123456789", b"x")),
    "a BIC of the payer's bank that is none": (
        {},
        (b"<DbtrAgt>\n        <FinInstnId>\n          <BIC>AAAALV22", b"<DbtrAgt>\n        <FinInstnId>\n          <BIC>x"),
    ),
    "a BIC of the instructed bank that is none, before the sender's": (
        {},
        (b"<InstgAgt>", b"<InstdAgt><FinInstnId><BIC>x</BIC></FinInstnId></InstdAgt><InstgAgt>"),
    ),
    "16 elements, the last of one tag": ({}, nested(11, b"<n/>")),
    "the greatest amount": ({"amount": 99999999999}, amount(b"999999999.99")),
    "the least amount": ({"amount": 1}, amount(b"0.01")),
    "bytes 00 and FF and ]]>": ({}, added(b'<x y="\0\xff]]>">\0\xff]]></x>')),
    "loose text beside the named elements": ({}, (b"<CdtTrfTxInf>", b"<CdtTrfTxInf>loose text")),
    "a quote in the TxId": ({"txid": b"a'b"}, txid(b"a'b")),
    "attributes of BIC, TxId and root": (
        {},
        (PAYEE, PAYEE.replace(b"<BIC", b'<BIC a="1"')),
        (TXID, TXID.replace(b"<TxId", b'<TxId a="1"')),
        (b"<LBFastCdtTrf>", b'<LBFastCdtTrf a="1">'),
    ),
    "a BIC of 11 bytes": ({"payee": b"BBBBLV22ABC"}, payee(b"BBBBLV22ABC")),
    "two empty elements of a name that is named elsewhere": ({}, added(b"<BIC/><BIC></BIC>")),
}

# Texts that are refused: the refusal and what is wrong; then edits. A | marks the program's place; without it that is the root's end.
REFUSED_BY_EDITS = {
    # 23: the declaration
    "version 1.1": (23, 2, (b'version="1.0"', b'|version="1.1"')),
    "no white space before version": (23, 2, (b"<?xml version", b"<?xml|version")),
    "no white space before encoding": (23, 2, (b'"1.0" encoding', b'"1.0"|encoding')),
    "an encoding with a colon": (23, 2, (b'encoding="UTF-8"', b'|encoding="a:b"')),
    "a declaration without its second ?": (23, 2, (b'"UTF-8"?>', b'"UTF-8"|>')),
    "white space before the declaration": (23, 5, (b"<?xml", b" |<?xml")),
    "a byte order mark": (23, 3, (b"<?xml", b"|\xef\xbb\xbf<?xml")),
    # 23: around the root
    "text before the root": (23, 3, (b"<LBFastCdtTrf>", b"|x <LBFastCdtTrf>")),
    "a DOCTYPE": (23, 5, (b"<LBFastCdtTrf>", b"|<!DOCTYPE LBFastCdtTrf>\n<LBFastCdtTrf>")),
    "text behind the root": (23, 10, (ROOT_END, ROOT_END + b"\n|x")),
    "a second root": (23, 10, (ROOT_END, ROOT_END + b"\n|<LBFastCdtTrf/>")),
    "cut off": (23, 4, (b"    </Signature>\n  </FIToFICstmrCdtTrf>\n</LBFastCdtTrf>\n", b"|")),
    # 23: what no message has
    "an entity": (23, 4, (b"Juris Ozols", b"Juris |&amp; Ozols")),
    "an entity in a value": (23, 6, added(b'<x y="1 |&amp; 2"/>')),
    "a comment": (23, 5, added(b"|<!-- who pays -->")),
    "CDATA": (23, 5, (b"Juris Ozols", b"|<![CDATA[Juris Ozols]]>")),
    "a processing instruction": (23, 5, added(b"|<?print now?>")),
    # 23: tags
    "a name that begins with a colon": (23, 5, added(b"|<:a/>")),
    "white space behind <": (23, 5, added(b"|< x/>")),
    "white space behind </": (23, 8, added(b"<x>|</ x>")),
    "white space between / and >": (23, 6, added(b"<x|/ >")),
    "single quotes": (23, 6, (b'<TtlIntrBkSttlmAmt Ccy="EUR">', b"<TtlIntrBkSttlmAmt Ccy=|'EUR'>")),
    "single quotes in an empty element": (23, 6, added(b"<x y=|'1'/>")),
    "a < in a value": (23, 6, added(b'<x y="|<"/>')),
    "no white space between attributes": (23, 6, added(b'<x a="1"|b="2"/>')),
    "a letter that isn't ASCII": (23, 6, added("<gr|\u00f6\u00dfe/>".encode())),
    "an attribute twice": (23, 7, (b'<Reference URI="">', b'<Reference URI="" URI=""|>')),
    "17 attributes, the last again": (23, 7, added(b"<x " + MANY + b' a0=""|/>')),
    "the currency twice": (23, 7, (AMOUNT, b'<IntrBkSttlmAmt Ccy="EUR" Ccy="EUR"|>400.00</IntrBkSttlmAmt>')),
    # 23: elements
    "another end tag": (23, 8, (b"</TxId>", b"|</TxID>")),
    "an end tag that is longer": (23, 8, added(b"<a>|</ab>")),
    "an end tag that is shorter": (23, 8, added(b"<ab>|</a>")),
    "an element that isn't closed": (23, 8, (TXID + b"\n      ", b"<TxId>SALARY-41\n      |")),
    "17 elements": (23, 9, nested(12, b"|<n/>")),
    "17 elements, the last of two tags": (23, 9, nested(12, b"|<n></n>")),
    # 24: missing, or not in order
    "another root": (24, 32, (b"<LBFastCdtTrf>", b"<Document>"), (ROOT_END, b"</Document>|")),
    "no GrpHdr": (24, 32 + 2, (HEADER + b"<CdtTrfTxInf>", b"|<CdtTrfTxInf>")),
    "CdtTrfTxInf before GrpHdr": (24, 32 + 2, (HEADER + TRANSFER, b"|" + TRANSFER + HEADER)),
    "another BIC": (24, 32 + 5, (SENDER, SENDER.replace(b"BIC>", b"a:BIC>")), (b"<CdtTrfTxInf>", b"|<CdtTrfTxInf>")),
    "no BIC of the payee's bank": (24, 32 + 12, (PAYEE, b""), (b"<CdtrAcct>", b"|<CdtrAcct>")),
    "no TxId": (24, 32 + 8, (TXID, b""), (AMOUNT, b"|" + AMOUNT)),
    "no TxId, and two empty CdtrAgt before the third": (
        (24, 32 + 8, (TXID, b""), (AMOUNT, b"|" + AMOUNT), (b"<CdtrAgt>", b"<CdtrAgt/><CdtrAgt></CdtrAgt><CdtrAgt>"))
    ),
    "the TxId behind the amount": (24, 32 + 8, (TXID, b""), (AMOUNT, b"|" + AMOUNT + b"<PmtId>" + TXID + b"</PmtId>")),
    "no IBAN": (24, 32 + 15, (IBAN, b"")),
    # 24: twice
    "a second GrpHdr": (24, 64 + 2, (b"<CdtTrfTxInf>", b"|<GrpHdr/><CdtTrfTxInf>")),
    "a second GrpHdr with all that the first has": (24, 64 + 2, doubled(HEADER)),
    "a second CdtTrfTxInf": (24, 64 + 6, doubled(TRANSFER)),
    "a second amount": (24, 64 + 9, doubled(AMOUNT)),
    "a second IBAN": (24, 64 + 15, doubled(IBAN)),
    # 24: an element in a text
    "an element in the TxId": (24, 48 + 8, (TXID, b"|<TxId><b>SALARY-41</b></TxId>")),
    "an element behind the amount": (24, 48 + 9, (AMOUNT, b"|" + AMOUNT.replace(b"</", b"<b/></"))),
    # 25
    "dollars": (25, 14, (AMOUNT, b'<IntrBkSttlmAmt Ccy="USD">|400.00</IntrBkSttlmAmt>')),
    "no currency": (25, 14, (AMOUNT, b"<IntrBkSttlmAmt>|400.00</IntrBkSttlmAmt>")),
    "an attribute behind the currency": (25, 14, (AMOUNT, b'<IntrBkSttlmAmt Ccy="EUR" x="">|400.00</IntrBkSttlmAmt>')),
    "an attribute before the currency": (25, 14, (AMOUNT, b'<IntrBkSttlmAmt x="" Ccy="EUR">|400.00</IntrBkSttlmAmt>')),
    "a namespace of the amount": (25, 14, (AMOUNT, b'<IntrBkSttlmAmt xmlns="" Ccy="EUR">|400.00</IntrBkSttlmAmt>')),
    "an amount of zero": (25, 15, amount(b"|0.00")),
    "no digit before the point": (25, 15, amount(b"|.50")),
    "one decimal": (25, 15, amount(b"|1.5")),
    "ten digits, nine of them zeros": (25, 15, amount(b"|0000000001.00")),
    "ten digits": (25, 15, amount(b"|1000000000.00")),
    "a sign": (25, 15, amount(b"|+1.00")),
    "an amount in white space": (25, 15, amount(b"|\n        400.00\n      ")),
    "an amount of one tag": (25, 15, (AMOUNT, b'<IntrBkSttlmAmt Ccy="EUR"/>|')),
    # 7
    "a short BIC of the sender": (7, 16, sender(b"|AAAALV2")),
    "a BIC of the sender of 9 bytes": (7, 16, sender(b"|AAAALV22X")),
    "a BIC of the payee of 9 bytes": (7, 17, payee(b"|BBBBLV22X")),
    "an empty BIC of the payee": (7, 17, payee(b"|")),
    "a BIC of the payee of one tag": (7, 17, (PAYEE, b"<BIC/>|")),
    "a TxId with a space": (7, 18, txid(b"|SALARY 41")),
    "a TxId and a zero byte": (7, 18, txid(b"|1\0")),
    "a TxId of 36 bytes": (7, 18, txid(b"|" + b"SALARY-41" * 4)),
    # 8
    "small letters": (8, 19, iban(b"|LV80bank0000435195001")),
    "other check digits": (8, 19, iban(b"|LV81BANK0000435195001")),
    "an IBAN and a zero byte": (8, 19, iban(b"|LV80BANK0000435195001\0")),
    # several: the first that applies
    "a second GrpHdr and & behind it": (23, 4, (HEADER, HEADER * 2), (b"Juris", b"|&")),
    "a wrong amount and a second GrpHdr": (24, 64 + 2, doubled(HEADER), amount(b"1.5")),
    "a wrong amount and an empty BIC": (25, 15, amount(b"|1.5"), payee(b"")),
    "an empty BIC and an empty IBAN": (7, 17, payee(b"|"), iban(b"")),
}


def edited(edits):
    """The plain text with other parts, and the place that is marked in it, else the root's end."""
    text = PLAIN
    for old, new in edits:
        assert text.count(old) == 1, (text.count(old), old)
        text = text.replace(old, new)
    assert text.count(b"|") <= 1
    mark = text.find(b"|")
    return text.replace(b"|", b""), text.index(ROOT_END) + len(ROOT_END) if mark < 0 else mark


def orders():
    """The texts that are orders, by their names, with the fields of their tickets."""
    found = {"plain": (PLAIN, FIELDS), "free": (example("free.xml"), FREE_FIELDS)}
    found |= {name: (edited(edits)[0], FIELDS | others) for name, (others, *edits) in ORDERS_BY_EDITS.items()}
    return found | {"65,520 bytes": (PLAIN.ljust(MOST), FIELDS)}


def refused():
    """The texts that are refused, by their names, with their answers."""
    found = {
        "nothing": (b"", messages.Refused(23, 0, 3)),
        "an empty root": (b"<LBFastCdtTrf/>", messages.Refused(24, 15, 33)),
    }
    for name, (number, what, *edits) in REFUSED_BY_EDITS.items():
        text, place = edited(edits)
        found[name] = text, messages.Refused(number, place, what)
    return found | {"65,521 bytes": (PLAIN.ljust(LONG), messages.Refused(23, MOST, 1))}


ORDERS = orders()
REFUSED = refused()


def ticket(fields, time):
    return layout.write(layout.TICKET, {"kind": 3, "time": time, **fields})


def line(text, time):
    """The line of a text's answer."""
    for known, fields in ORDERS.values():
        if text == known:
            return f"M 0 {ticket(fields, time).hex()}\n"
    answers = [answer for known, answer in REFUSED.values() if text == known]
    assert answers, f"no text of the tests: {text[:60]!r}"
    return f"M {answers[0].number} {answers[0].place} {answers[0].what}\n"


def split(data):
    """The names and the messages of an input."""
    found = []
    while data:
        named, size, time = (int.from_bytes(data[at : at + 4], "big") for at in (0, 4, 8))
        name, text = data[12 : 12 + named], data[12 + named : 12 + named + size]
        assert named <= 256 and size <= LONG and len(name + text) == named + size
        found.append((name, messages.Message(text, time)))
        data = data[12 + named + size :]
    return found


def texts():
    """The texts, as the program's input has them."""
    known = {name: text for name, (text, _) in (ORDERS | REFUSED).items()}
    return messages.join([(name.encode(), messages.Message(text, TIME)) for name, text in known.items()])


def printed(given):
    return b"".join(b"# " + name + b"\n" + line(message.text, message.time).encode() for name, message in split(given))


def main():
    if sys.argv[1:] == ["--input"]:
        files.write("-", texts())
    else:
        files.write("-", printed(texts() if sys.argv[1:] == ["--output"] else files.read("-")))


if __name__ == "__main__":
    main()
