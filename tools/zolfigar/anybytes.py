"""The clearing program on inputs of any bytes: it ends, and prints 'F n' or a whole day, whatever it is given."""

import argparse
import os
import random
import signal
import subprocess
import sys
import time
from collections.abc import Iterator, Sequence
from concurrent.futures import ThreadPoolExecutor

from . import command_line, files, layout, many, output, version
from .figures import counted
from .progress import over

WHAT = "Runs the clearing program on inputs that are no day files, nearly day files, or day files with flipped bits."
LIMIT = 10  # seconds for one run
MOST = 57101
ROOT = os.path.dirname(os.path.dirname(os.path.dirname(os.path.realpath(__file__))))


class Words(argparse.Namespace):
    """What the command line says."""

    count: int
    seed: int


def rows(rng: random.Random, fields: layout.Fields, count: int) -> bytes:
    """Rows of random fields: numbers mostly small, texts mostly letters."""
    made = b""
    for _ in range(count):
        for field in fields:
            if field.is_text and rng.random() < 0.8:
                made += bytes(rng.choices(b"ABLVX2", k=field.size))
            elif rng.random() < 0.8:
                made += rng.choice((0, 0, 1, 2, 3)).to_bytes(field.size, "big")
            else:
                made += rng.randbytes(field.size)
    return made


def no_day(rng: random.Random) -> bytes:
    """Bytes without any form, mostly few."""
    return rng.randbytes(rng.choice((rng.randrange(16), rng.randrange(200), rng.randrange(3000), rng.randrange(2 * MOST))))


def nearly_a_day(rng: random.Random) -> bytes:
    """A header with the offsets of its counts, and rows of random fields; sometimes cut off or too long."""
    participants, routes, tickets = rng.randrange(1, 5), rng.randrange(4), rng.randrange(6)
    header = layout.write(layout.HEADER, layout.header_of(participants, routes, tickets))
    sections = ((layout.PARTICIPANT, participants), (layout.ROUTE, routes), (layout.TICKET, tickets))
    day = header + b"".join(rows(rng, fields, count) for fields, count in sections)
    return rng.choice((day, day, day[: rng.randrange(len(day))], day + rng.randbytes(3)))


def damaged(rng: random.Random, days: Sequence[bytes]) -> bytes:
    """A day file with some bits flipped, mostly in its tickets."""
    day = bytearray(rng.choice(days))
    for _ in range(rng.randrange(1, 9)):
        at = rng.randrange(len(day)) if rng.random() < 0.3 else max(0, len(day) - 1 - rng.randrange(len(day)))
        day[at] ^= 1 << rng.randrange(8)
    return bytes(day)


def inputs(seed: int, count: int, days: Sequence[bytes]) -> Iterator[bytes]:
    rng = random.Random(seed)
    for _ in range(count):
        kind = rng.random()
        yield no_day(rng) if kind < 0.3 else nearly_a_day(rng) if kind < 0.6 else damaged(rng, days)


def fault(file: bytes, status: int, printed: bytes, errors: bytes) -> str | None:
    """What is wrong with a run, None if nothing is."""
    if status:
        return f"it ended with status {status}"
    if errors:
        return f"it wrote to standard error: {errors[:60]!r}"
    out = output.read(printed.decode("ascii", errors="backslashreplace"))
    if out.problems:
        return out.problems[0]
    if out.refusal is not None:
        return None if 1 <= out.refusal <= 5 else f"it printed F {out.refusal}"
    header = layout.header_in(file)
    if (len(out.answers), len(out.positions)) != (header["tickets"], header["participants"]):
        return f"{counted(len(out.answers), 'ticket')} and {counted(len(out.positions), 'participant')} of another number"
    return None


def run(program: str, file: bytes) -> str | None:
    """Runs the program on a file; what is wrong with it, None if nothing is."""
    try:
        ran = subprocess.run([program], input=file, capture_output=True, timeout=LIMIT, check=False)
    except subprocess.TimeoutExpired:
        return f"it didn't end in {LIMIT} seconds"
    return fault(file, ran.returncode, ran.stdout, ran.stderr)


def slowly(program: str, file: bytes) -> str | None:
    """The input a byte at a time."""
    with subprocess.Popen([program], stdin=subprocess.PIPE, stdout=subprocess.PIPE, stderr=subprocess.PIPE) as ran:
        assert ran.stdin is not None
        for byte in file:
            ran.stdin.write(bytes((byte,)))
            ran.stdin.flush()
        printed, errors = ran.communicate(timeout=LIMIT)
    return fault(file, ran.returncode, printed, errors)


def without_input(program: str) -> str | None:
    """Standard input that isn't there is a file below 12 bytes."""
    ran = subprocess.run(["sh", "-c", 'exec "$0" <&-', program], capture_output=True, timeout=LIMIT, check=False)
    return None if (ran.returncode, ran.stdout, ran.stderr) == (0, b"F 1\n", b"") else f"it printed {ran.stdout[:60]!r}"


def ends(program: str, file: bytes, redirected: str) -> str | None:
    """An output that can't be written: the program ends, by itself or by the signal of a closed pipe."""
    ran = subprocess.run(
        ["sh", "-c", f'exec "$0" {redirected}', program], input=file, stderr=subprocess.PIPE, timeout=LIMIT, check=False
    )
    return None if ran.returncode in (0, -signal.SIGPIPE) and not ran.stderr else f"it ended with status {ran.returncode}"


def into_a_closed_pipe(program: str, file: bytes) -> str | None:
    shell = 'trap "" PIPE; "$0" < "$1" | true; exec "$0" < "$1" | head -c 1'
    name = os.path.join(ROOT, "target", "anybytes.bin")
    files.write(name, file)
    ran = subprocess.run(["sh", "-c", shell, program, name], capture_output=True, timeout=LIMIT, check=False)
    return None if ran.stdout == b"T" and not ran.stderr else f"it printed {ran.stdout[:60]!r} and {ran.stderr[:60]!r}"


def more_than_any_day(program: str, file: bytes) -> str | None:
    """A megabyte behind a day file: it is refused as its first bytes are, and the program reads no further."""
    long = file + bytes(2**20)
    began = time.monotonic()
    return run(program, long) or ("it took seconds" if time.monotonic() - began > 2 else None)


def edges(program: str, day: bytes) -> Iterator[tuple[str, str | None]]:
    """Runs at the edges of a stream, each with its name."""
    yield "a byte at a time", slowly(program, day)
    yield "an input that ends early", slowly(program, day[: len(day) // 2])
    yield "standard input that isn't there", without_input(program)
    yield "standard output that isn't there", ends(program, day, ">&-")
    yield "a full device", ends(program, day, ">/dev/full")
    yield "a closed pipe", into_a_closed_pipe(program, day)
    yield "more bytes than any day has", more_than_any_day(program, day)


def arguments(words: Sequence[str]) -> Words:
    parser = command_line.Parser("anybytes", description=WHAT)
    version.told(parser)
    parser.add_argument("--count", type=int, default=100_000, help="how many inputs (100,000)")
    parser.add_argument("--seed", type=int, default=1, help="of the inputs (1)")
    return parser.parse_args(words, Words())


def check(words: Words) -> int:
    program = os.path.join(ROOT, "target", "bin", "clearing")
    days = [day for _, day in many.split(files.read(os.path.join(ROOT, "crates", "days", "stdin"))) if day]
    made = list(inputs(words.seed, words.count, days))
    with ThreadPoolExecutor(os.cpu_count()) as pool:
        found = list(over(pool.map(lambda file: run(program, file), made), "inputs", total=len(made)))
    wrong = [(file, what) for file, what in zip(made, found) if what]
    for number, (file, what) in enumerate(wrong[:10]):
        name = os.path.join(ROOT, "target", f"anybytes-{number}.bin")
        files.write(name, file)
        sys.stdout.write(f"anybytes: {what}: {os.path.relpath(name)}\n")
    faults = [(name, what) for name, what in edges(program, days[0]) if what]
    for name, what in faults:
        sys.stdout.write(f"anybytes: {name}: {what}\n")
    sys.stdout.write(f"anybytes: {len(made)} inputs and 7 edges of a stream, {len(wrong) + len(faults)} faults\n")
    return 1 if wrong or faults else 0


def main() -> int:
    return files.guarded("anybytes", lambda: check(arguments(sys.argv[1:])))
