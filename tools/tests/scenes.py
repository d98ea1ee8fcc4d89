"""The examples, as day files and outputs, for the tests."""

import functools
import os

from tests import reader
from zolfigar import history, packing

ROOT = os.path.dirname(os.path.dirname(os.path.dirname(os.path.realpath(__file__))))
EXAMPLES = os.path.join(ROOT, "examples")
RUNNING = ("case-d", "case-e", "busy", "turned-back", "small-letters", "part-return", "messages", "late-recall", "same-txid")
MESSAGES = ("plain.xml", "free.xml")
REFUSED = ("refused-1", "refused-2", "refused-3", "refused-4", "refused-5")


def content(*path):
    with open(os.path.join(ROOT, *path), "rb") as file:
        return file.read()


def exists(path):
    return os.path.exists(os.path.join(ROOT, path))


@functools.cache
def day_file(name):
    path = os.path.join(EXAMPLES, name + ".day")
    return packing.pack(path, content(path).decode(), reader.READER)


def output(name):
    return content("examples", name + ".out").decode()


def day(name, text=None):
    """An example as it is seen, with its own output or another."""
    return history.read(name, day_file(name), output(name) if text is None else text)


RETURNING = """\
participant AAAALV22 bank
participant BBBBLV22 bank
route AAAALV22 to AAAALV22
route BBBBLV22 to BBBBLV22
00:00:00 cover-in from AAAALV22 EUR 1000.00
00:00:05 order TX1 from AAAALV22 to {payee} EUR 400.00 iban LV80BANK0000435195001
00:00:09 answer TX1 yes from {payee}
00:01:00 recall TX1 FRAD from AAAALV22
00:01:30 inquiry TX1 from AAAALV22
00:02:00 return TX1 from {payee} cents {back}
00:02:05 inquiry TX1 from AAAALV22
"""
RETURNED = """\
T 0 0 0 0
T 1 0 1 1
R {to} 1 0 40000
T 2 0 2 0
R 0 2 0 40000
R {to} 2 0 40000
T 3 0 1 0
R {to} 5 0 40000
T 4 0 2 0
R 0 2 0 40000
R {to} 8 0 40000
T 5 0 1 0
R 0 6 0 {back}
T 6 0 1 0
R 0 6 0 {back}
C 0 {payer} 0 0
C 1 {kept} 0 0
"""


def returned(back, to=1):
    """A day file and its output: an order of 400.00, settled, recalled, returned by so many cents, and asked about; from
    participant 0 to 1, or to itself."""
    file = packing.pack("returned.day", RETURNING.format(payee=("AAAALV22", "BBBBLV22")[to], back=back))
    kept = 40000 - back if to else 0
    return file, RETURNED.format(to=to, back=back, payer=100000 - kept, kept=kept)


def returned_day(back, to=1):
    return history.read("returned", *returned(back, to))


BANKS = """\
participant AAAALV22 bank
participant BBBBLV22 {kind}
route AAAALV22 to AAAALV22
route BBBBLV22 to BBBBLV22
"""
IBAN = "iban LV80BANK0000435195001"
PAID = ("0 60000 0 0", "1 40000 0 0")  # closing positions: 400.00 of 1,000.00 went from participant 0 to 1


def stepped(*steps, kind="bank", closed=PAID, banks=BANKS):
    """A day file and its output: of a bank and another participant tickets, each with its refusal and its reports; or of others."""
    told = []
    for number, (line, refusal, *reports) in enumerate(steps):
        rows = int(refusal == 0 and " order " in line)
        told += [f"T {number} {refusal} {len(reports)} {rows}", *(f"R {report}" for report in reports)]
    file = packing.pack("stepped.day", banks.format(kind=kind) + "\n".join(line for line, *_ in steps))
    return file, "\n".join([*told, *(f"C {position}" for position in closed), ""])


def settled(*steps, at=24, ordered=None, kind="bank", closed=PAID):
    """A day file and its output: an order of 400.00 from participant 0 to 1, which ticket 2 settles, and what comes later."""
    ordered = at - 19 if ordered is None else ordered
    told = ("0 2 0 40000", "1 2 0 40000") if kind == "bank" else ("0 2 0 40000",)
    first = (
        ("0 cover-in from AAAALV22 EUR 1000.00", 0),
        (f"{ordered} order TX1 from AAAALV22 to BBBBLV22 EUR 400.00 {IBAN}", 0, "1 1 0 40000"),
        (f"{at} answer TX1 yes from BBBBLV22", 0, *told),
    )
    return stepped(*first, *steps, kind=kind, closed=closed)


def late():
    """A day file and its output: TX1 is recalled too late, twice, first in the second in which TX3 expires; TX2 is recalled at
    the last moment, and returned ten days after that."""
    return settled(
        (f"00:00:26 order TX2 from AAAALV22 to BBBBLV22 EUR 100.00 {IBAN}", 0, "1 1 1 10000"),
        ("00:00:30 answer TX2 yes from BBBBLV22", 0, "0 2 1 10000", "1 2 1 10000"),
        (f"240:00:04 order TX3 from AAAALV22 to BBBBLV22 EUR 50.00 {IBAN}", 0, "1 1 2 5000"),
        ("240:00:24 recall TX1 FRAD from AAAALV22", 26, "0 4 2 5000", "1 4 2 5000"),
        ("240:00:25 recall TX1 TECH from AAAALV22", 26),
        ("240:00:26 inquiry TX1 from AAAALV22", 0, "0 2 0 40000"),
        ("240:00:29 recall TX2 AM09 from AAAALV22", 0, "1 5 1 10000"),
        ("480:00:29 return TX2 from BBBBLV22 EUR 99.00", 0, "0 6 1 9900"),
        closed=("0 59900 0 0", "1 40100 0 0"),
    )


def late_day(text=None):
    file, printed = late()
    return history.read("late", file, printed if text is None else text)


THREE = BANKS + "route CCCCLV22 to 2\n"
THREE = THREE.replace("route", "participant CCCCLV22 bank\nroute", 1)
NUMBERED = (
    ("08:00:00 cover-in from AAAALV22 EUR 1000.00", 0),
    ("08:00:00 cover-in from BBBBLV22 EUR 500.00", 0),
    (f"08:00:05 order 1 from AAAALV22 to CCCCLV22 EUR 400.00 {IBAN}", 0, "2 1 0 40000"),
    (f"08:00:06 order 1 from BBBBLV22 to CCCCLV22 EUR 100.00 {IBAN}", 0, "2 1 1 10000"),
    (f"08:00:07 order 1 from AAAALV22 to BBBBLV22 EUR 7.00 {IBAN}", 13),
    ("08:00:10 answer 1 of AAAALV22 yes from CCCCLV22", 0, "0 2 0 40000", "2 2 0 40000"),
    ("08:00:11 answer 1 of BBBBLV22 no from CCCCLV22", 0, "1 3 1 10000"),
    ("08:00:12 inquiry 1 from AAAALV22", 0, "0 2 0 40000"),
    ("08:00:13 inquiry 1 from BBBBLV22", 0, "1 3 1 10000"),
    ("08:00:14 inquiry 1 from CCCCLV22", 16),
    ("08:00:15 inquiry 1 of BBBBLV22 from AAAALV22", 17),
    ("08:00:16 answer 1 of ZZZZLV22 yes from CCCCLV22", 16),
    ("08:01:00 recall 1 of AAAALV22 FRAD from AAAALV22", 0, "2 5 0 40000"),
    ("08:02:00 return 1 of AAAALV22 from CCCCLV22 EUR 399.00", 0, "0 6 0 39900"),
    (f"08:03:00 order 2 from AAAALV22 to AAAALV22 EUR 50.00 {IBAN}", 0, "0 1 2 5000"),
    ("08:03:01 answer 2 of AAAALV22 yes from AAAALV22", 0, "0 2 2 5000", "0 2 2 5000"),
)


def numbered(*steps, closed=("0 99900 0 0", "1 50000 0 0", "2 100 0 0")):
    """A day file and its output: two payers number their orders from 1. Order 0 is AAAALV22's 1, settled and returned less a charge;
    order 1 is BBBBLV22's 1, refused; order 2 is AAAALV22's 2, to itself, settled."""
    return stepped(*NUMBERED, *steps, closed=closed, banks=THREE)


def numbered_day(text=None):
    file, printed = numbered()
    return history.read("numbered", file, printed if text is None else text)


def changed(text, line, other):
    """The text with its one line replaced; None takes it out."""
    lines = text.split("\n")
    assert lines.count(line) == 1, f"{lines.count(line)} lines {line!r}"
    at = lines.index(line)
    return "\n".join(lines[:at] + ([] if other is None else [other]) + lines[at + 1 :])
