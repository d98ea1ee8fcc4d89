"""Where the results of a day are kept: files of one name, each with its own ending. NAME.from has the path of the day that they are
of, so that no other day and no other file of that name is overwritten."""

import os
from collections.abc import Mapping
from itertools import count

from . import files

FROM = ".from"


def base_of(folder: str, path: str, number: int) -> str:
    """The path of a day's results without their ending: NAME, NAME-2, NAME-3 .."""
    name = os.path.splitext(os.path.basename(path))[0]
    return os.path.join(folder, name if number == 1 else f"{name}-{number}")


def source(path: str) -> bytes:
    """What NAME.from has of a day."""
    return os.fsencode(os.path.realpath(path)) + b"\n"


def is_free(base: str, path: str, results: Mapping[str, bytes]) -> bool:
    """Whether nothing is there, or results of that day."""
    if os.path.exists(base + FROM):
        return files.read(base + FROM) == source(path)
    return not any(os.path.lexists(base + ending) for ending in results)


def keep(folder: str, path: str, results: Mapping[str, bytes]) -> int:
    """Writes the results, by their endings, under the first name that is free for the day; gives the name's number."""
    files.make_folder(folder)
    number = next(number for number in count(1) if is_free(base_of(folder, path, number), path, results))
    base = base_of(folder, path, number)
    files.write(base + FROM, source(path))
    for ending, data in results.items():
        files.write(base + ending, data)
    return number
