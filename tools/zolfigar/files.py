"""Reading and writing files for the commands: whole files, errors in one line, nothing half written."""

import io
import os
import sys
import tempfile
from collections.abc import Callable

STANDARD = "-"


class Failed(Exception):
    """What the user is told, behind the command's name unless it begins with a place."""

    begins_with_place = False


def shown(name: str) -> str:
    """A name as it is shown: what can't be printed, and what an escape sequence is made of, by its number."""
    return "".join(c if c.isprintable() else escaped(c) for c in name)


def escaped(c: str) -> str:
    """A character's number; of a byte that is no UTF-8, which Python has in 0xdc80 to 0xdcff, that byte's."""
    return f"\\x{ord(c) - 0xDC00:02x}" if "\udc80" <= c <= "\udcff" else c.encode("unicode_escape").decode()


def called(name: str) -> str:
    """What a file that is read is called."""
    return "standard input" if name == STANDARD else name


def reason(error: OSError) -> str:
    return error.strerror or str(error)


def read(name: str, most: int = -1) -> bytes:
    """A file's bytes, or the first of them; - is standard input."""
    try:
        if name == STANDARD:
            return sys.stdin.buffer.read(most)
        with open(name, "rb") as file:
            return file.read(most)
    except OSError as error:
        raise Failed(f"can't read {shown(name)}: {reason(error)}") from error


def text(name: str) -> str:
    """The program's output as text. It is ASCII; any other byte is shown by its number, and no line of the program has one."""
    return read(name).decode("ascii", errors="backslashreplace")


def write(name: str, data: bytes) -> None:
    """Writes a file whole or not at all; - is standard output. A device or a pipe can't be replaced, and is written through."""
    try:
        if name == STANDARD:
            sys.stdout.buffer.write(data)
            sys.stdout.buffer.flush()
        elif os.path.exists(name) and not os.path.isfile(name):
            with open(name, "wb") as file:
                file.write(data)
        else:
            replace(os.path.realpath(name), data)
    except BrokenPipeError:
        raise
    except OSError as error:
        raise Failed(f"can't write {'to standard output' if name == STANDARD else shown(name)}: {reason(error)}") from error


def replace(name: str, data: bytes) -> None:
    """Puts a file with the data where the name is, with the rights of the one before it."""
    handle, beside = tempfile.mkstemp(dir=os.path.dirname(name), prefix=".part-")
    try:
        with os.fdopen(handle, "wb") as file:
            file.write(data)
        os.chmod(beside, os.stat(name).st_mode & 0o777 if os.path.exists(name) else 0o666 & ~mask())
        os.replace(beside, name)
    except BaseException:
        os.unlink(beside)
        raise


def make_folder(name: str) -> None:
    """Makes a folder where there is none."""
    try:
        os.makedirs(name, exist_ok=True)
    except OSError as error:
        raise Failed(f"can't make the folder {shown(name)}: {reason(error)}") from error


def mask() -> int:
    """The rights that a new file doesn't get."""
    found = os.umask(0)
    os.umask(found)
    return found


class Closed(io.BytesIO):
    """Stands for a stream that the caller has closed, which Python has as None: whoever reads or writes it is told."""

    def __init__(self, name: str) -> None:
        super().__init__()
        self.name = name

    def read(self, *_: object) -> bytes:
        raise Failed(f"{self.name} is closed")

    def write(self, *_: object) -> int:
        raise Failed(f"{self.name} is closed")


def closed(name: str) -> io.TextIOWrapper:
    return io.TextIOWrapper(Closed(name), write_through=True)


def guarded(command: str, work: Callable[[], int]) -> int:
    """Runs a command's work and gives its exit status. A closed pipe ends it without a word."""
    sys.stdin = sys.stdin or closed("standard input")
    sys.stdout = sys.stdout or closed("standard output")
    sys.stderr = sys.stderr or io.StringIO()
    try:
        return work()
    except Failed as error:
        said = "\n".join(map(shown, str(error).split("\n")))
        sys.stderr.write(f"{said}\n" if error.begins_with_place else f"{command}: {said}\n")
        return 1
    except BrokenPipeError:
        os.dup2(os.open(os.devnull, os.O_WRONLY), sys.stdout.fileno())
        return 1
    except KeyboardInterrupt:
        return 130
