"""The command tools/run: one day from its text to its explanation. It builds what is missing, packs, clears and explains."""

import argparse
import datetime
import os
import shlex
import shutil
import subprocess
import sys
from collections.abc import Iterable, Iterator, Sequence
from itertools import zip_longest

from . import (
    audit,
    command_line,
    explain_command,
    files,
    history,
    journal,
    messages,
    packing,
    page,
    progress,
    results,
    version,
)
from .explain_command import Followed
from .history import Day

USES = """examples:
  tools/run examples/busy.day
  tools/run examples/busy.day --member AAAALV22
  tools/run mine.day --order TX1
  tools/run mine.day --order TX1 --of AAAALV22
  tools/run mine.day --expect due.out --into results --date 2026-11-15

Beside what it prints, it writes the day file, the program's output, the page and the journal to target/run/, or to the
folder that --into names: mine.bin, .out, .html and .journal. Files of that name that aren't this day's, as mine.from tells,
stay, and this day's are mine-2 then. A day of examples/ is held to the output beside it, and any day to the one that
--expect names. The exit status is 0 if all adds up and is as expected, 1 if not or if something can't be read, 2 for wrong
usage."""

ROOT = os.path.dirname(os.path.dirname(os.path.dirname(os.path.realpath(__file__))))


class Words(Followed):
    """What the command line says."""

    expect: str | None
    into: str | None
    date: datetime.date | None


def arguments(words: Sequence[str]) -> Words:
    form = argparse.RawDescriptionHelpFormatter
    parser = command_line.Parser("run", description=__doc__, epilog=USES, formatter_class=form)
    version.told(parser)
    parser.add_argument("day", help=explain_command.A_DAY)
    explain_command.followed(parser)
    explain_command.dated(parser)
    parser.add_argument("--into", metavar="DIR", help="the folder that is written to; target/run if it isn't given")
    parser.add_argument("--expect", metavar="FILE", help="the output that the program has to print")
    found = parser.parse_args(words, Words())
    explain_command.followed_well(parser, found)
    return found


def program(root: str, name: str, what: str) -> str:
    """A program, proved and built: tools/build does what is not done yet."""
    built = os.path.join(root, "target", "bin", name)
    if not os.path.exists(built):
        sys.stderr.write(f"run: {what} is not built yet: proving and building it, which takes some minutes\n")
    if shutil.which("rt") is None:
        raise files.Failed("can't run rt, the Rattle kit's command: No such file or directory")
    command = [os.path.join(root, "tools", "build"), "--told", name]
    with subprocess.Popen(command, stdout=subprocess.PIPE, stderr=subprocess.STDOUT, text=True) as build:
        said = followed(build.stdout or ())
    if build.returncode:
        raise files.Failed(f"tools/build {name} failed:\n{said[-4000:]}")
    return built


def reader(root: str) -> messages.Reader:
    """The reader of messages, which is built for a day that names some."""
    path = os.path.join(root, "target", "bin", "messages")
    return messages.Reader(path, lambda: program(root, "messages", "the reader of messages"))


def followed(stream: Iterable[str]) -> str:
    """All that rt says; on a terminal its last line on how far it is is shown meanwhile."""
    said = []
    for line in stream:
        said.append(line)
        if line.startswith(("rt: ", "checked ")):
            progress.show(line.strip())
    progress.show("")
    return "".join(said)


def cleared(built: str, file: bytes) -> bytes:
    """What the program prints of a day file."""
    ran = subprocess.run([built], input=file, capture_output=True, check=False)
    if ran.returncode:
        raise files.Failed(f"the clearing program ended with status {ran.returncode}")
    return ran.stdout


def expected(words: Words, root: str) -> str | None:
    """The name of the output that is expected: the one that is asked for, else an example's."""
    if words.expect is not None:
        return words.expect
    beside = os.path.splitext(words.day)[0] + ".out"
    is_example = os.path.dirname(os.path.realpath(words.day)) == os.path.join(os.path.realpath(root), "examples")
    return beside if is_example and os.path.exists(beside) else None


def difference(name: str, due: bytes, output: bytes) -> str | None:
    """A sentence on the first line in which the output differs from the one expected, if it does."""
    for at, (one, other) in enumerate(zip_longest(due.splitlines(True), output.splitlines(True)), 1):
        if one != other:
            return f"{files.shown(name)}:{at}: expected {quoted(one)}, found {quoted(other)}"
    return None


def quoted(found: bytes | None) -> str:
    if found is None:
        return "no line"
    ended = "" if found.endswith(b"\n") else " without a line end"
    return repr(found.removesuffix(b"\n").decode("ascii", "replace")) + ended


def kept(words: Words, folder: str, day: Day, file: bytes, output: bytes) -> Iterator[str]:
    """Writes the day file, the output, the page and the journal, and says where they are."""
    dated = journal.journal(day, words.date or journal.DATE)
    found = {".bin": file, ".out": output, ".html": page.page(day).encode(), ".journal": dated.encode()}
    number = results.keep(folder, words.day, found)
    base = os.path.relpath(results.base_of(folder, words.day, number))
    balance = f"hledger -f {shlex.quote(base + '.journal')} balance"
    yield f"Written: {base}.bin, .out, .html (open it in a browser), .journal ({balance})"
    for other in range(1, number):
        yield f"{os.path.relpath(results.base_of(folder, words.day, other))} is not of this day, and stays as it is."


def run(words: Words, root: str = ROOT) -> int:
    expects = expected(words, root)
    due = b"" if expects is None else files.read(expects)
    file = packing.day_file(words.day, files.read(words.day), reader(root))
    output = cleared(program(root, "clearing", "the clearing program"), file)
    day = history.read(explain_command.name_of(words.day), file, output.decode("ascii", errors="backslashreplace"))
    problems = audit.problems(day)
    explain_command.show(day, problems, words)
    folder = os.path.join(root, "target", "run") if words.into is None else words.into
    told = "\n".join(["", *map(files.shown, kept(words, folder, day, file, output)), ""])
    files.write("-", told.encode())
    differs = None if expects is None else difference(expects, due, output)
    if differs:
        raise files.Failed(differs)
    return 1 if problems else 0


def main() -> int:
    return files.guarded("run", lambda: run(arguments(sys.argv[1:])))
