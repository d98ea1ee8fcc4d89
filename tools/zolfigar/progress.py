"""A progress line for long work: on a terminal, and none when standard error is piped."""

import sys
import time
from collections.abc import Generator, Iterable
from typing import TextIO, TypeVar

from . import files

T = TypeVar("T")


def over(items: Iterable[T], what: str, stream: TextIO | None = None, total: int | None = None) -> Generator[T, None, None]:
    """The items one after the other, with a line that tells how many are done. The line is gone when they are. Where a total
    is given, the items are taken as they come."""
    stream, what = stream or sys.stderr, files.shown(what)
    if total is None:
        items = list(items)
        total = len(items)
    if not stream.isatty():
        yield from items
        return
    shown = 0.0
    try:
        for done, item in enumerate(items):
            now = time.monotonic()
            if now - shown >= 0.1:
                stream.write(f"\r{what}: {done} of {total}\x1b[K")
                stream.flush()
                shown = now
            yield item
    finally:
        stream.write("\r\x1b[K")
        stream.flush()


def show(words: str, stream: TextIO | None = None) -> None:
    """A line that the next one takes the place of; without words, none."""
    stream = stream or sys.stderr
    if stream.isatty():
        stream.write(f"\r{files.shown(words)}\x1b[K")
        stream.flush()
