"""Many days in one file, the standard input of the program days, and as text, where a line `day NAME` begins each.

Each day has the lengths of its name and of its bytes, 4 bytes each, then the name, then the bytes."""

from collections.abc import Iterable, Sequence

from . import message_lines, messages, packing, text, unpacking
from .progress import over

MOST_NAME = 256
MOST_DAY = 57101  # the program ends at a longer name or day

NamedDay = tuple[bytes, bytes]  # a name, and the bytes of the day file


class NotMany(Exception):
    """The bytes aren't those of many days."""


def part(data: bytes, at: int, size: int, what: str) -> bytes:
    if at + size > len(data):
        raise NotMany(f"cut off: {what} at byte {at} has {len(data) - at} bytes of {size}")
    return data[at : at + size]


def length(data: bytes, at: int, most: int, what: str) -> int:
    value = int.from_bytes(part(data, at, 4, f"the length of {what}"), "big")
    if value > most:
        raise NotMany(f"not many days: the length at byte {at} gives {what} {value} bytes, above {most}")
    return value


def split(data: bytes) -> list[NamedDay]:
    """The names and bytes of the days."""
    days: list[NamedDay] = []
    at = 0
    while at < len(data):
        count = len(days)
        named = length(data, at, MOST_NAME, f"the name of day {count}")
        size = length(data, at + 4, MOST_DAY, f"day {count}")
        name = part(data, at + 8, named, f"the name of day {count}")
        days.append((name, part(data, at + 8 + named, size, f"day {count}")))
        at += 8 + named + size
    return days


def join(days: Iterable[NamedDay]) -> bytes:
    return b"".join(len(name).to_bytes(4, "big") + len(day).to_bytes(4, "big") + name + day for name, day in days)


def name_words(name: bytes) -> str:
    """A name as its line has it: in hex unless it is printable words with one space between, none of them beginning with #."""
    try:
        written = name.decode()
    except UnicodeDecodeError:
        written = ""
    words = written.split(" ")
    plain = written.isprintable() and all(word and not word.startswith("#") for word in words)
    return written if plain and not written.startswith("hex:") else f"hex:{name.hex()}"


def read_name(cursor: text.Cursor) -> bytes:
    begins = cursor.at
    name = text.name_in(cursor, "a name")
    if len(name) > MOST_NAME:
        cursor.at = begins
        raise cursor.mistake(f"expected a name of at most {MOST_NAME} bytes, found {len(name)}")
    return name


class Named:
    """A day's line and the lines below it."""

    def __init__(self, line: text.Line) -> None:
        self.line, self.name = line, b""
        self.day = packing.Day(line.number, line.end())
        cursor = text.Cursor(line)
        cursor.skip()
        try:
            self.name = read_name(cursor)
        except text.Mistake as mistake:
            self.day.mistakes.append(mistake)

    def packed(self) -> NamedDay:
        file = self.day.packed()
        if len(file) > MOST_DAY:
            message = f"the day has {len(file)} bytes, and the program days reads at most {MOST_DAY}"
            self.day.mistakes.append(text.Mistake(self.line.number, self.line.words[0].column, message))
        return self.name, file


def answered(name: str, days: Sequence[packing.Day], reader: messages.Reader) -> list[text.Mistake]:
    """The messages of all days, read by one run; the mistakes of those that are refused or can't be read."""
    asked = [message for day in days for message in day.asked]
    return message_lines.answer(name, asked, [mistake for day in days for mistake in day.mistakes], reader)


def pack(name: str, days_text: str, reader: messages.Reader = messages.READER) -> bytes:
    """The bytes of the days that the text has. TextError says what is wrong with it, with the name given."""
    days: list[Named] = []
    mistakes: list[text.Mistake] = []
    for line in over(text.lines(days_text), f"lines of {name}"):
        if line.words[0].text == "day":
            days.append(Named(line))
        elif days:
            days[-1].day.add(line)
        elif not mistakes:
            mistakes.append(text.Cursor(line).expected("a line `day NAME` before all others"))
    mistakes += answered(name, [day.day for day in days], reader)
    data = join([day.packed() for day in days])
    mistakes += [mistake for day in days for mistake in day.day.mistakes]
    if mistakes:
        raise text.TextError(name, mistakes)
    return data


def unpack(data: bytes) -> str:
    """The text of the days. It is packed again and compared before it is handed out."""
    unpacked = "\n".join(f"day {name_words(name)}\n{unpacking.text_of(day)}" for name, day in over(split(data), "days"))
    if pack("the text", unpacked) != data:
        raise RuntimeError("internal error: packing the text doesn't give the days")
    return unpacked
