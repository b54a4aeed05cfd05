"""A session with the program, over pipes. It sends one line at a time, and reads the reply before it sends the next.

    with Session() as bench:
        bench.send("a = arange <i4 0 5 1")
        print(bench.array("a").items)
"""
from __future__ import annotations

import io
import os
import re
import shutil
import signal
import subprocess
from ast import literal_eval
from contextlib import AbstractContextManager, suppress
from dataclasses import dataclass
from math import prod
from pathlib import Path
from typing import Any, Callable, Iterator, Optional, Union

Line = Union[str, bytes]
Named = Union[str, "os.PathLike[str]"]

# A reply may have several lines or none. So each line is followed by two that are always refused and change nothing: the reply
# ends where these two refusals begin. They differ, so a reply that equals one of them is not mistaken for the end. The second line
# needs no memory to be refused; the first one may find none.
MARKER = b"\n~\n\x7f\n"
ENDS = tuple(first + b"\nno E02 byte not allowed\n" for first in (b"no E03 syntax", b"no E40 out of memory"))
LONGEST = max(map(len, ENDS))
REFUSAL = re.compile(r"no (E\d\d) (.*)")
INFO = re.compile(r"info \w+ (.*) (\([\d, ]*\)) strides (\([-\d, ]*\)) at (\d+) order ([CF]+|-) write (yes|no)")
FIELD = re.compile(r":([^:]*):|([{}])")
TOKEN = re.compile(r"b'(?:[^'\\]|\\.)*'|[()]|[-\w]+")


class BenchError(Exception):
    """An error of a session."""


class ProgramMissing(BenchError):
    """The program was not found, or cannot be started."""


class ProgramEnded(BenchError):
    """The program has ended. `status` is its exit status, or minus the number of the signal that killed it."""

    def __init__(self, program: str, status: int):
        how = f"was killed: {signal.strsignal(-status) or -status}" if status < 0 else f"has ended, with status {status}"
        super().__init__(f"{program} {how}")
        self.status = status


class Refused(BenchError):
    """A line was refused where it had to be accepted. It has the line, and the code and the text of the reply."""

    def __init__(self, line: str, reply: Reply):
        super().__init__(f"{reply.text}: {line}")
        self.line, self.code, self.text, self.reply = line, reply.code, reply.text, reply


@dataclass(frozen=True)
class Reply:
    """The reply to a line: its text, without a newline at the end. A blank line or a comment has an empty one. If the line was refused,
    `code` and `meaning` are the two parts of the refusal, as in `no E06 unknown name`."""

    accepted: bool
    code: str
    meaning: str
    text: str


@dataclass(frozen=True)
class Array:
    """An array, as `info` and `print` show it: strides and `at` in bytes; items in C order, each record as a tuple."""

    name: str
    type: str
    shape: tuple[int, ...]
    strides: tuple[int, ...]
    at: int
    order: str
    writable: bool
    items: tuple[Any, ...]

    def tolist(self) -> Any:
        """The items as nested lists, one level for each axis. For an array without axes, the item itself."""
        made: list[Any] = list(self.items)
        for axis in reversed(range(len(self.shape))):
            length = self.shape[axis]
            made = [made[k * length:(k + 1) * length] for k in range(prod(self.shape[:axis]))]
        return made[0]


def items_of(text: str) -> tuple[Any, ...]:
    """The items of a printed array in C order: integers, bools, bytes, and tuples for records."""
    if "'" not in text and "(" not in text and "e" not in text:
        return tuple(map(int, text.replace("[", " ").replace("]", " ").split()))
    found: tuple[Any, ...] = literal_eval(f"({''.join(token + ',' * (token != '(') for token in TOKEN.findall(text))})")
    return found


def _integers(text: str) -> tuple[int, ...]:
    """The integers of a printed tuple."""
    return tuple(map(int, text.strip("()").replace(",", " ").split()))


def literal(item: Any) -> str:
    """An item as the program prints it; `?` for one that is not known."""
    if isinstance(item, tuple):
        return f"({', '.join(map(literal, item))}{',' * (len(item) == 1)})"
    if isinstance(item, bytes):
        return "b'" + "".join(chr(b) if 32 <= b < 127 and b not in b"'\\" else f"\\x{b:02x}" for b in item) + "'"
    return "?" if item is None else str(item)


def sent_of(line: Line) -> bytes:
    """A line as it is sent."""
    sent = line.encode("utf-8", "surrogateescape") if isinstance(line, str) else bytes(memoryview(line))
    if b"\n" in sent:
        raise ValueError("send one line at a time: this one contains a newline")
    return sent


def reply_of(told: Union[bytes, bytearray]) -> Reply:
    text = told.decode("ascii", "replace").removesuffix("\n")
    refused = REFUSAL.fullmatch(text) if text.startswith("no ") else None
    return Reply(False, refused[1], refused[2], text) if refused else Reply(True, "", "", text)


def find_program() -> str:
    """The command that starts the program: BENCH if it is set, else the launcher of the wheel, of the repository or the installed one."""
    here = Path(__file__).resolve()
    top = here.parents[2]
    places = map(str, (here.with_name("bench"), top / "bench", top.parent / "bin/bench", "bench"))
    found = os.environ.get("BENCH") or next(filter(None, map(shutil.which, places)), None)
    if not found:
        raise ProgramMissing("there is no program: BENCH is not set, and none is installed or built")
    return found


class Session(AbstractContextManager["Session"]):
    """One run of the program, from its start to `close`.

    An exception in the middle of a reply kills the program, because the rest of the reply would be mistaken for the next one.
    Ctrl-C in the terminal does not reach the program, nor does the signal that reports a file that may not grow.
    """

    def __init__(self, program: Optional[Named] = None, undo: int = 16, dir: Named = ".", wait: bool = True):
        self.program, self.dir = find_program() if program is None else os.fspath(program), os.fspath(dir)
        words, pipe = [self.program, "--undo", str(undo), f"--dir={os.fspath(dir)}"], subprocess.PIPE
        self._status: Optional[int] = None
        try:
            self._process = subprocess.Popen(words, stdin=pipe, stdout=pipe, start_new_session=True, restore_signals=False)
        except OSError as fault:
            raise ProgramMissing(f"{self.program} cannot be started: {fault.strerror}") from None
        assert self._process.stdin is not None and isinstance(self._process.stdout, io.BufferedReader)
        self._to, self._from = self._process.stdin, self._process.stdout
        if wait:
            self.send("")

    def send(self, line: Line, take: Optional[Callable[[bytes], Any]] = None) -> Reply:
        """The reply to one line. With `take`, the reply is passed to it in parts as they arrive, each line with its newline, and the
        text that is returned is only the beginning."""
        sent = sent_of(line)
        if self._status is not None:
            raise ProgramEnded(self.program, self._status)
        begin = bytearray()
        try:
            with suppress(BrokenPipeError):  # reading the reply will show that the program has ended
                self._to.write(sent + MARKER)
                self._to.flush()
            for part in self._parts():
                begin += part if take is None else part[:max(0, 256 - len(begin))]
                if take is not None:
                    take(part)
        except BaseException:
            self.kill()
            self.close()
            raise
        return reply_of(begin)

    def ask(self, line: str) -> str:
        """The text of the reply. `Refused` is raised if the line is refused."""
        reply = self.send(line)
        if not reply.accepted:
            raise Refused(line, reply)
        return reply.text

    def names(self) -> list[str]:
        """The names that are bound, in the order in which they were first bound."""
        return self.ask("names").split()[1:]

    def array(self, name: str, items: bool = True) -> Array:
        """The array behind a name, with `items=False` without its items. `Refused` is raised if the name is not bound."""
        found = INFO.fullmatch(self.ask(f"info {name}"))
        if found is None:
            raise BenchError(f"cannot read the reply to info {name}")
        type_, shape, strides, at, order, write = found.groups()
        values = items_of(self.ask(f"print {name}")) if items else ()
        return Array(name, type_, _integers(shape), _integers(strides), int(at), order, write == "yes", values)

    def fields(self, name: str) -> list[str]:
        """The names of the fields of an array of records."""
        depth, found = 0, []
        for field, brace in FIELD.findall(self.ask(f"format {name}")):
            depth += {"{": 1, "}": -1}.get(brace, 0)
            if not brace and depth == 1:
                found.append(field)
        return found

    def kill(self) -> None:
        """Kills the program at once. Another thread may do it; a thread that waits for a reply then gets `ProgramEnded`."""
        self._process.kill()

    def close(self) -> int:
        """Ends the program and returns its exit status. A second call returns the same."""
        if self._status is None:
            with suppress(BrokenPipeError):
                self._to.close()
            self._from.close()
            self._status = self._process.wait()
        return self._status

    def __exit__(self, kind: object, *_: object) -> None:
        if kind is not None:
            self.kill()
        self.close()

    def _parts(self) -> Iterator[bytes]:
        """The reply as it arrives, without the two refusals at its end."""
        held = b""
        while not held.endswith(ENDS):
            part = self._from.read1(1 << 16)
            if not part:
                raise ProgramEnded(self.program, self.close())
            if len(held) > LONGEST:
                yield held[:-LONGEST]
            held = held[-LONGEST:] + part
        yield held[:-next(len(end) for end in ENDS if held.endswith(end))]
