"""Texts for people: printable, on streams that may be closed, full or of any encoding, and cut to the window."""
import io
import os
import shutil
import sys
import traceback
from collections import deque
from contextlib import suppress
from typing import BinaryIO, Iterator

from .session import BenchError

LONGEST = 65_536  # bytes of a line that the program takes
RED, BLUE = "31", "34"


def printable(text: str, most: int = 0) -> str:
    """A text without control characters and without bytes that are not text, cut to `most` characters."""
    cut = text[:most] if most else text
    return "".join(letter if letter.isprintable() else repr(letter)[1:-1] for letter in cut) + ".." * (len(cut) < len(text))


def say(text: str) -> None:
    """Writes to standard error, if possible."""
    with suppress(OSError, ValueError):
        print(text, file=sys.stderr, flush=True)


def defect(fault: Exception) -> str:
    """What is said of an exception that nothing else has caught."""
    last = traceback.extract_tb(fault.__traceback__)[-1:]
    place = "".join(f" in {os.path.basename(frame.filename)}, line {frame.lineno}" for frame in last)
    return f"{type(fault).__name__}{place}: {fault}; this is a defect of bench-tool: please report it with this line"


def open_streams() -> None:
    """Replaces a closed standard stream by one that cannot be read or written, or by the null device for messages; no encoding
    refuses a text. Output is written only when it is flushed, also with PYTHONUNBUFFERED, since argparse ignores write errors."""
    for number, flags in enumerate((os.O_WRONLY, os.O_RDONLY, os.O_RDWR)):
        try:
            os.fstat(number)
        except OSError:
            os.open(os.devnull, flags)  # takes the lowest number that is free, which is this one
    for number, name in enumerate(("stdin", "stdout", "stderr")):
        if getattr(sys, name) is None:
            setattr(sys, name, open(number, "w" if number else "r", closefd=False))
    for stream, errors in ((sys.stdin, "surrogateescape"), (sys.stdout, "backslashreplace"), (sys.stderr, "backslashreplace")):
        if isinstance(stream, io.TextIOWrapper):
            stream.reconfigure(errors=errors)
    if isinstance(sys.stdout, io.TextIOWrapper):
        sys.stdout.reconfigure(write_through=False, line_buffering=sys.stdout.isatty())


def drop_unwritten() -> None:
    """Drops what standard error refused, since Python would try it again when it ends, and end with status 120."""
    try:
        sys.stderr.flush()
    except (OSError, ValueError):
        with suppress(OSError):
            os.dup2(os.open(os.devnull, os.O_WRONLY), 2)


def lines_of(script: BinaryIO) -> Iterator[bytes]:
    """The lines of a script without their newlines. A line that is too long is cut to a length that is still too long."""
    def read(most: int) -> bytes:
        try:
            return script.readline(most)
        except OSError as fault:
            raise BenchError(f"read fault: {fault.strerror}") from None

    while line := read(LONGEST + 3):
        rest = line
        while not rest.endswith(b"\n") and (rest := read(1 << 20)):
            pass
        yield line.removesuffix(b"\n")


def painted(text: str, colour: str) -> str:
    """A text in a colour, if the terminal has colours and the user wants them."""
    plain = not colour or not sys.stdout.isatty() or os.environ.get("TERM", "dumb") == "dumb" or os.environ.get("NO_COLOR")
    return text if plain else f"\x1b[{colour}m{text}\x1b[0m"


def room() -> tuple[int, int]:
    """The lines and columns of the window, or the usual ones if they are unknown."""
    size = shutil.get_terminal_size()
    return size.lines or 24, size.columns or 80


class Window:
    """The part of a printed array that fits the window, as it arrives: its first and last lines, each cut in the middle."""

    def __init__(self, rows: int, columns: int):
        self.rows, self.columns = max(3, rows), max(20, columns)
        self.is_cut, self._count = False, 0
        self._first: list[str] = []
        self._last: deque[str] = deque(maxlen=self.rows - self.rows // 2 - 1)
        self._begin, self._end, self._length = b"", b"", 0  # of the line that is coming

    def take(self, part: bytes) -> None:
        *ended, rest = part.split(b"\n")
        if len(ended) > 4 * self.rows:  # those in between are only counted
            skipped = len(ended) - 4 * self.rows
            self._count += skipped
            del ended[2 * self.rows:2 * self.rows + skipped]
        for piece in ended:
            self._more(piece)
            self._line()
        self._more(rest)

    def _more(self, piece: bytes) -> None:
        self._begin += piece[:max(0, self.columns + 1 - len(self._begin))]
        self._end = (self._end[-self.columns:] + piece)[-self.columns:]
        self._length += len(piece)

    def _line(self) -> None:
        text = self._begin.decode("ascii", "replace")
        if self._length > self.columns:
            half = (self.columns - 5) // 2
            begin, end = text[:half], self._end.decode("ascii", "replace")[-half:]
            text = f"{begin.rpartition(' ')[0] or begin} ... {end.partition(' ')[2] or end}"
            self.is_cut = True
        self._count += 1
        (self._first if len(self._first) < self.rows else self._last).append(text)
        self._begin, self._end, self._length = b"", b"", 0

    def lines(self) -> list[str]:
        """The lines that are shown."""
        if self._count <= self.rows:
            return self._first
        self.is_cut = True
        begin, end = self.rows // 2, self.rows - self.rows // 2 - 1
        return [*self._first[:begin], f"... {self._count - self.rows + 1} lines ...", *[*self._first, *self._last][-end:]]
