"""The command tools/day."""

import argparse
import sys
from collections.abc import Sequence

from . import command_line, files, inputs, many, packing, unpacking, version

WHAT = "A day file from text, and text from a day file. docs/DAYS.md has the text form."
USES = """example:
  printf 'participant AAAALV22 bank\\n00:00:01 cover-in from AAAALV22 EUR 4.00\\n' > small.day
  tools/day pack small.day -o small.bin
  tools/day unpack small.bin

Nothing is written if there is an error. The exit status is 1 for an error, 2 for wrong usage."""


class Words(argparse.Namespace):
    """What the command line says."""

    command: str
    file: str
    out: str
    many: bool
    inputs: bool


def arguments(words: Sequence[str]) -> Words:
    form = argparse.RawDescriptionHelpFormatter
    parser = command_line.Parser("day", description=WHAT, epilog=USES, formatter_class=form)
    version.told(parser)
    commands = parser.add_subparsers(dest="command", required=True, metavar="pack|unpack")
    for command, what in (("pack", "text to a day file"), ("unpack", "a day file, of any bytes, to text")):
        added = commands.add_parser(command, help=what, description=what, epilog=USES, formatter_class=form)
        added.add_argument("file", metavar="FILE", help="what is read; - is standard input")
        added.add_argument("-o", dest="out", metavar="OUT", default="-", help="where it is written; else to standard output")
        forms = added.add_mutually_exclusive_group()
        forms.add_argument("--many", action="store_true", help="many named days, as the program days reads them")
        if command == "pack":
            forms.add_argument("--inputs", action="store_true", help="tickets with buffers, as the program hands reads them")
    return parser.parse_args(words, Words())


def packed(name: str, data: bytes, words: Words) -> bytes:
    pack = inputs.pack if words.inputs else many.pack if words.many else packing.pack
    return pack(name, packing.decoded(name, data))


def unpacked(name: str, data: bytes, words: Words) -> bytes:
    try:
        return (many.unpack(data) if words.many else unpacking.unpack(data)).encode()
    except many.NotMany as error:
        raise files.Failed(f"{name}: {error}") from None


def carry_out(words: Words) -> int:
    if words.command == "pack" and words.out == "-" and sys.stdout.isatty():
        raise files.Failed("a day file isn't written to a terminal: use -o OUT, or a pipe")
    work = packed if words.command == "pack" else unpacked
    files.write(words.out, work(files.called(words.file), files.read(words.file), words))
    return 0


def main() -> int:
    return files.guarded("day", lambda: carry_out(arguments(sys.argv[1:])))
