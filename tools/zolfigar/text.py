"""A day's text: its lines, their words with columns, the values that words stand for, and what is wrong with them."""

import re
from collections.abc import Callable, Iterable, Iterator
from typing import NamedTuple, TypeVar

from . import files

T = TypeVar("T")

MOST_SHOWN = 10  # mistakes in one message
MOST_QUOTED = 40  # characters of a word in a message
MOST_TIME = 2**32 - 1
MOST_CENTS = 2**64 - 1

A_TIME = "a time like 08:00:05 or 28805"
AN_AMOUNT = "an amount like EUR 4.00 or cents 400"
A_BIC = "six A-Z, one of A-Z or 2-9, one of A-Z but O or of 0-9, then three of A-Z or 0-9, or none and XXX is filled in"
A_TXID = "1 to 35 of A-Z a-z 0-9 / - ? : ( ) . , ' +"
AN_IBAN = "two A-Z, two digits, 1 to 30 of A-Z or 0-9"

WORD = re.compile(r"[^ \t]+")
DIGITS = re.compile(r"[0-9]+")
CLOCK = re.compile(r"([0-9]+):([0-5][0-9]):([0-5][0-9])")
EUROS = re.compile(r"([0-9]+)\.([0-9]{2})")
BIC = re.compile(r"[A-Z]{6}[A-Z2-9][A-NP-Z0-9](?:[A-Z0-9]{3})?")
TXID = re.compile(r"[A-Za-z0-9/\-?:().,'+]{1,35}")
IBAN = re.compile(r"[A-Z]{2}[0-9]{2}[A-Z0-9]{1,30}")
SMALL = re.compile(r"[a-z]")
NO_HEX = re.compile(r"[^0-9A-Fa-f]")
PLAIN = re.compile(r"[!$-~]+")  # printable ASCII without white space, quote and #


class Wrong(Exception):
    """What is wrong with a value, wherever it stands."""


class Mistake(Exception):
    """What is wrong in a line, and in which column."""

    def __init__(self, line: int, column: int, message: str) -> None:
        super().__init__(message)
        self.line, self.column, self.message = line, column, message


class TextError(files.Failed):
    """All that is wrong in a text: a line for each mistake."""

    begins_with_place = True

    def __init__(self, name: str, mistakes: Iterable[Mistake]) -> None:
        name, ordered = files.shown(name), sorted(mistakes, key=lambda m: (m.line, m.column))
        shown = [f"{name}:{m.line}:{m.column}: {m.message}" for m in ordered[:MOST_SHOWN]]
        if len(ordered) > MOST_SHOWN:
            shown.append(f"{name}: errors that are not shown: {len(ordered) - MOST_SHOWN}")
        super().__init__("\n".join(shown))


class Word(NamedTuple):
    """A word, and the column that it begins in."""

    text: str
    column: int


class Line(NamedTuple):
    """The words of a line, counted from 1."""

    number: int
    words: list[Word]

    def end(self) -> int:
        """The column behind the last word."""
        return self.words[-1].column + len(self.words[-1].text)


def words_of(line: str) -> Iterator[Word]:
    for match in WORD.finditer(line.removesuffix("\r")):
        if match.group().startswith("#"):
            return
        yield Word(match.group(), match.start() + 1)


def lines(text: str) -> list[Line]:
    """The lines that have words, counted from 1."""
    numbered = enumerate(text.removeprefix("\ufeff").split("\n"), 1)
    parted = (Line(number, list(words_of(line))) for number, line in numbered)
    return [line for line in parted if line.words]


class Cursor:
    """The words of a line, read from left to right."""

    def __init__(self, line: Line) -> None:
        self.line, self.at = line, 0

    def next(self) -> str | None:
        """The next word, None at the line's end."""
        return self.line.words[self.at].text if self.at < len(self.line.words) else None

    def column(self) -> int:
        return self.line.words[self.at].column if self.at < len(self.line.words) else self.line.end()

    def skip(self) -> None:
        self.at += 1

    def mistake(self, message: str) -> Mistake:
        return Mistake(self.line.number, self.column(), message)

    def expected(self, what: str, note: str = "") -> Mistake:
        return self.mistake(f"expected {what}, found {quoted(self.next())}{note}")

    def take(self, what: str, read: Callable[[str], T]) -> T:
        """The value of the next word; what it should be is said if there is none."""
        word = self.next()
        if word is None:
            raise self.expected(what)
        try:
            value = read(word)
        except Wrong as wrong:
            raise self.mistake(str(wrong)) from None
        self.skip()
        return value

    def finish(self) -> None:
        if self.next() is not None:
            raise self.expected("the line's end")

    def rest(self) -> list[Word]:
        """All words that are left."""
        words, self.at = self.line.words[self.at :], len(self.line.words)
        return words


def quoted(word: str | None) -> str:
    if word is None:
        return "the line's end"
    cut = word if len(word) <= MOST_QUOTED else word[:MOST_QUOTED] + ".."
    return f'"{files.shown(cut)}"'


def expected(what: str, word: str) -> Wrong:
    return Wrong(f"expected {what}, found {quoted(word)}")


def whole(digits: str, most: int) -> int | None:
    """The number that the digits are, None above the most."""
    digits = digits.lstrip("0") or "0"
    return int(digits) if len(digits) <= len(str(most)) and int(digits) <= most else None


def number(word: str, most: int) -> int:
    value = whole(word, most) if DIGITS.fullmatch(word) else None
    if value is None:
        raise expected(f"a number from 0 to {most}", word)
    return value


def time(word: str) -> int:
    clock = CLOCK.fullmatch(word)
    if clock:
        hours = whole(clock[1], MOST_TIME)
        value = None if hours is None else hours * 3600 + int(clock[2]) * 60 + int(clock[3])
    elif DIGITS.fullmatch(word):
        value = whole(word, MOST_TIME)
    else:
        raise expected(A_TIME, word)
    if value is None or value > MOST_TIME:
        raise expected(f"a time of at most {MOST_TIME} seconds", word)
    return value


def cents(word: str) -> int:
    if not DIGITS.fullmatch(word):
        raise expected("whole cents like 400", word)
    return fitting(whole(word, MOST_CENTS), word)


def euros(word: str) -> int:
    parts = EUROS.fullmatch(word)
    if not parts:
        raise expected("euros with two decimals like 4.00", word)
    return fitting(whole("".join(parts.groups()), MOST_CENTS), word)


def fitting(value: int | None, word: str) -> int:
    if value is None:
        raise expected(f"at most {MOST_CENTS} cents", word)
    return value


def filled(word: str) -> bytes | None:
    """The eleven bytes of a BIC, None if it isn't one."""
    return word.ljust(11, "X").encode() if BIC.fullmatch(word) else None


def ascii_of(value: bytes) -> str:
    """The value as text, empty where it isn't ASCII."""
    return value.decode() if value.isascii() else ""


def bic_word(value: bytes) -> str:
    """A BIC as it is written, empty where the value isn't one."""
    word = ascii_of(value)
    return word.removesuffix("XXX") if len(word) == 11 and filled(word) else ""


def bic(word: str, field: str) -> bytes:
    value = filled(word)
    if value is None:
        raise Wrong(f"expected a BIC, found {quoted(word)}; a BIC is {A_BIC}; `but {field} ..` writes one that is wrong")
    return value


def txid(word: str) -> bytes:
    if not TXID.fullmatch(word):
        raise Wrong(f"expected a TxId, found {quoted(word)}; a TxId is {A_TXID}; `but txid ..` writes one that is wrong")
    return word.encode()


def remainder(word: str) -> int:
    """What the number of an IBAN leaves on division by 97."""
    return int("".join(str(int(c, 36)) for c in word[4:] + word[:4])) % 97


def small_letters(word: str) -> str:
    """Which small letter comes first, counted from 1, and how many more there are; empty where there is none."""
    found = list(SMALL.finditer(word))
    if not found:
        return ""
    first = f"character {found[0].start() + 1}, {found[0].group()},"
    return f"{first} is a small letter" if len(found) == 1 else f"{first} and {len(found) - 1} more are small letters"


def iban(word: str) -> bytes:
    if not IBAN.fullmatch(word):
        found = ": ".join(filter(None, (quoted(word), small_letters(word))))
        raise Wrong(f"expected an IBAN, found {found}; an IBAN is {AN_IBAN}; `but iban ..` writes one that is wrong")
    if remainder(word) != 1:
        left = remainder(word)
        raise Wrong(f"not an IBAN: its check digits leave {left}, not 1; `but iban ..` writes it all the same")
    return word.encode()


def literal(word: str, size: int) -> bytes:
    """The bytes of a text field: as they are, in hex, or none."""
    if word == "empty":
        return b""
    if word.startswith("hex:"):
        value = hex_literal(word)
    elif PLAIN.fullmatch(word):
        value = word.encode()
    else:
        raise expected('printable ASCII without " and #, or hex:.., or empty', word)
    if len(value) > size:
        raise expected(f"at most {size} bytes", word)
    return value


def hex_literal(word: str) -> bytes:
    digits = word.removeprefix("hex:")
    if len(digits) % 2 or NO_HEX.search(digits):
        raise expected("hex: and two hex digits for each byte", word)
    return bytes.fromhex(digits)


def name_in(cursor: Cursor, what: str) -> bytes:
    """A name: the words that are left of the line with one space between them, or any bytes as one word `hex:..`."""
    word = cursor.next()
    if word is None:
        raise cursor.expected(what)
    if not word.startswith("hex:"):
        return " ".join(word.text for word in cursor.rest()).encode()
    value = cursor.take(what, hex_literal)
    cursor.finish()
    return value


def hex_bytes(cursor: Cursor) -> bytes:
    """The bytes that all words left of the line give in hex, white space anywhere between the digits."""
    words = cursor.rest()
    for word in words:
        bad = NO_HEX.search(word.text)
        if bad:
            found = quoted(bad.group())
            raise Mistake(cursor.line.number, word.column + bad.start(), f"expected a hex digit, found {found}")
    digits = "".join(word.text for word in words)
    if len(digits) % 2:
        raise cursor.mistake(f"expected two hex digits for each byte, found {len(digits)} digits")
    return bytes.fromhex(digits)
