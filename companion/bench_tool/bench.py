"""`Session`: the bench in this process if its library can be loaded, and otherwise the program behind a pipe.

    >>> with Session() as bench:
    ...     bench.ask("a = arange <i4 0 6 1")
    ...     bench.ask("m = reshape a (2,3)")
    ...     bench.array("m").tolist()
    'ok a <i4 (6,) new'
    'ok m <i4 (2, 3) view'
    [[0, 1, 2], [3, 4, 5]]
"""
from __future__ import annotations

import operator
import os
import re
import tempfile
import threading
from contextlib import suppress
from pathlib import Path
from typing import TYPE_CHECKING, Any, Callable, Iterable, Iterator, Mapping, NamedTuple, Optional, Union

from . import library, session
from .drawing import Drawing, Log
from .session import ENDS, MARKER, BenchError, Line, Named, ProgramEnded, Refused, Reply, reply_of, sent_of

if TYPE_CHECKING:
    import numpy

# The names that a script can give a file.
FILE_NAME = re.compile(r"[A-Za-z0-9_][A-Za-z0-9_.-]{0,63}")
# The file by which arrays go in and out. It is not among `files`.
EXCHANGE = "_bench_tool_exchange.npy"
ANSWERED = re.compile(b"|".join(map(re.escape, ENDS)))


class Info(NamedTuple):
    """What `info` reports about an array: its type, its shape, its strides and the place of its first item in bytes, its order in
    memory (C, F, CF or -), and whether it is writable."""

    name: str
    type: str
    shape: tuple[int, ...]
    strides: tuple[int, ...]
    at: int
    order: str
    writable: bool


def _split(lines: Union[str, Iterable[Line]]) -> Iterable[Line]:
    """The lines of a text, or the given lines."""
    return lines.removesuffix("\n").split("\n") if isinstance(lines, str) else lines


class Files(Mapping[str, bytes]):
    """The files that `load` reads and `save` writes, by name.

    >>> with Session() as bench:
    ...     bench.ask("a = zeros |u1 (4)")
    ...     bench.ask('save a "a.npy"')
    ...     list(bench.files), len(bench.files["a.npy"])
    'ok a |u1 (4,) new'
    'ok save 132'
    (['a.npy'], 132)
    """

    def __init__(self, place: Union[library.Handle, Path], check: Callable[[], None] = lambda: None):
        self._place, self._check = place, check

    def __getitem__(self, name: str) -> bytes:
        self._check()
        if not FILE_NAME.fullmatch(name):
            raise KeyError(name)
        if isinstance(self._place, Path):
            try:
                return (self._place / name).read_bytes()
            except FileNotFoundError:
                raise KeyError(name) from None
        size = self._place.size(name.encode())
        if size is None:
            raise KeyError(name)
        held = bytearray(size)
        self._place.get(name.encode(), library.address(held), size)
        return bytes(held)

    def __setitem__(self, name: str, data: bytes) -> None:
        """Stores a file under a name that a script can give."""
        self._check()
        if not FILE_NAME.fullmatch(name):
            raise ValueError(f"a script cannot name this file: {name!r}")
        held = bytes(memoryview(data))  # TypeError for a text
        if isinstance(self._place, Path):
            (self._place / name).write_bytes(held)
        elif self._place.put(name.encode(), held) == library.TOO_LONG:
            raise ValueError("a file has at most 2^29 bytes")

    def __iter__(self) -> Iterator[str]:
        """The names in order."""
        self._check()
        if isinstance(self._place, Path):
            found = sorted(entry.name for entry in os.scandir(self._place) if entry.is_file())
        else:
            found = [name.decode("ascii", "replace") for name in self._place.files()]
        return (name for name in found if FILE_NAME.fullmatch(name) and name != EXCHANGE)

    def __len__(self) -> int:
        return sum(1 for _ in self)

    def size(self, name: str) -> int:
        """The length of a file in bytes, 0 if there is no such file."""
        if isinstance(self._place, Path):
            return (self._place / name).stat().st_size if (self._place / name).is_file() else 0
        return self._place.size(name.encode()) or 0


class Session(session.Session):
    """A bench, open until `close`. It runs in this process if libbench can be loaded, and otherwise, or if a program or a folder is
    given, as the program behind a pipe. The calls are the same.

    In the process, files are in memory. Behind a pipe, they are in the folder `dir`, or by default in a temporary one, which is
    removed at the end. `undo` says how many changes `undo` can take back, 0 to 64. Only one thread at a time may use a session.

    >>> with Session(undo=1) as bench:
    ...     bench.send("a = zeros <i4 (2)").text
    ...     bench.send("b = a[5]").code
    'ok a <i4 (2,) new'
    'E11'
    """

    def __init__(self, program: Optional[Named] = None, undo: int = 16, dir: Optional[Named] = None):
        undo = operator.index(undo)
        if not 0 <= undo <= 64:
            raise ValueError("undo must be from 0 to 64")
        held = library.loaded() if program is None and dir is None else None
        self._log, self._undo = Log(), undo
        self._inside: Optional[library.Handle] = None
        self._folder: Optional[tempfile.TemporaryDirectory[str]] = None
        if held is not None:
            self._inside, self.program, self.dir = library.Handle(held, undo), "the bench", "."
            self._status = None
            self.files = Files(self._inside)
            return
        if dir is None:
            self._folder = tempfile.TemporaryDirectory(prefix="bench-")
            dir = self._folder.name
        try:
            super().__init__(program, undo, dir)
        except BaseException:
            self._removed()
            raise
        self.files = Files(Path(dir), self._check_open)

    def send(self, line: Line, take: Optional[Callable[[bytes], Any]] = None) -> Reply:
        """The reply to one line. With `take`, the reply is passed to it in parts, each line with its newline, and the text that is
        returned is only the beginning.

        >>> Session().send("print nowhere")
        Reply(accepted=False, code='E06', meaning='unknown name', text='no E06 unknown name')
        """
        if self._inside is None:
            reply = super().send(line, take)
            self._note(line, reply.text)
            return reply
        reply = reply_of(self._answered(sent_of(line)))
        self._note(line, reply.text)
        if take is None or not reply.text:
            return reply
        take(reply.text.encode() + b"\n")
        return Reply(reply.accepted, reply.code, reply.meaning, reply.text[:256])

    def run(self, lines: Union[str, Iterable[Line]], check: bool = False) -> list[Reply]:
        """The replies to several lines, one for each. With `check`, `Refused` is raised at the first line that is refused: it has the
        line, the code and the text, and no further line is sent.

        >>> with Session() as bench:
        ...     bench.run("a = zeros <i4 (2)\\nb = a[5]\\ndel a", check=True)
        Traceback (most recent call last):
        bench_tool.session.Refused: no E11 index out of range: b = a[5]
        """
        replies = []
        for line in _split(lines):
            reply = self.send(line)
            if check and not reply.accepted:
                raise Refused(line if isinstance(line, str) else line.decode("utf-8", "replace"), reply)
            replies.append(reply)
        return replies

    def batch(self, lines: Union[str, Iterable[Line]]) -> list[str]:
        """The texts of the replies to many lines, one for each. This is the fastest way to send them.

        >>> Session().batch(["a = zeros <i4 (2)", "", "print a", "print b"])
        ['ok a <i4 (2,) new', '', '[0 0]', 'no E06 unknown name']
        """
        sent = list(map(sent_of, _split(lines)))
        if self._inside is None:
            replies = self._batch(sent)
            if any(text.startswith("ok save") for text in replies):
                self._log.drop("files were saved in a batch")
            for line, text in zip(sent, replies):
                self._note(line, text)
            return replies
        return [self._note(line, self._answered(line).decode("ascii", "replace")) for line in sent]

    def names(self) -> list[str]:
        """The names that are bound, in the order in which they were first bound.

        >>> with Session() as bench:
        ...     bench.batch(["b = zeros <i4 (2)", "a = b[0]"]) and bench.names()
        ['b', 'a']
        """
        return super().names()

    def info(self, name: str) -> Info:
        """What `info` reports about a name. `Refused` is raised if it is not bound.

        >>> with Session() as bench:
        ...     bench.batch(["a = arange <i4 0 6 1", "b = a[::-2]"]) and bench.info("b")
        Info(name='b', type='<i4', shape=(3,), strides=(-8,), at=20, order='-', writable=True)
        """
        found = self.array(name, items=False)
        return Info(found.name, found.type, found.shape, found.strides, found.at, found.order, found.writable)

    def put(self, name: str, array: Any) -> None:
        """Binds a name to a new array with the type, the shape and the items of a NumPy array, or of anything that `numpy.asarray` takes.
        `Refused` where the bench has no such type.

        >>> import numpy
        >>> with Session() as bench:
        ...     bench.put("a", numpy.arange(6, dtype=">i2").reshape(2, 3)[:, ::-1])
        ...     bench.ask("print a")
        '[[2 1 0]\\n [5 4 3]]'
        """
        import numpy

        from .npy import lacking, laid_out
        self._check_open()
        front, items = laid_out(numpy.asarray(array))
        if self._inside is None:
            assert isinstance(self.files._place, Path)
            with open(self.files._place / EXCHANGE, "wb") as file:
                file.write(front)
                file.write(items.ravel("K").view(numpy.uint8).data)
        elif self._inside.put(EXCHANGE.encode(), front, items.ctypes.data, items.nbytes) == library.TOO_LONG:
            raise ValueError("an array has at most 2^28 bytes")
        try:
            self.ask(f'{name} = load "{EXCHANGE}"')
        except Refused as refused:
            raise Refused(f"put({name!r}, ..) of dtype {items.dtype}{lacking(items.dtype)}", refused.reply) from None
        finally:
            self._clear()

    def get(self, name: str) -> "numpy.ndarray[Any, Any]":
        """A copy of a name's array as a NumPy array. `Refused` is raised if the name is not bound.

        >>> with Session() as bench:
        ...     bench.ask("a = array T{<i:n:2s:s:} (2) (1,b'a') (2,b'b')")
        ...     bench.get("a")["n"].tolist()
        'ok a T{<i:n:<2s:s:} (2,) new'
        [1, 2]
        """
        import numpy

        from .npy import over
        try:
            size = int(self.ask(f'save {name} "{EXCHANGE}"').split()[2])
        except Refused as refused:
            raise Refused(f"get({name!r})", refused.reply) from None
        try:
            if self._inside is None:
                assert isinstance(self.files._place, Path)
                return over(numpy.fromfile(self.files._place / EXCHANGE, numpy.uint8))
            file = numpy.empty(size, numpy.uint8)
            self._inside.get(EXCHANGE.encode(), file.ctypes.data, size)
            return over(file)
        finally:
            self._clear()

    def __getitem__(self, name: str) -> "numpy.ndarray[Any, Any]":
        """As `get`, with `KeyError` if the name is not bound."""
        try:
            return self.get(name)
        except Refused as refused:
            if refused.code == "E06":
                raise KeyError(name) from None
            raise

    def __setitem__(self, name: str, array: Any) -> None:
        """As `put`."""
        self.put(name, array)

    def __contains__(self, name: object) -> bool:
        return name in self.names()

    def __iter__(self) -> Iterator[str]:
        return iter(self.names())

    def draw(self, line: str = "") -> Drawing:
        """The picture of the last line that has changed something, which notebooks show; with `line`, of what that line shows or would
        do. The lines of the session are run again for it, by the page's program.

        >>> with Session() as bench:
        ...     bench.run("a = arange <i4 0 6 1\\nset a[1:] = a[:-1]") and bench.draw()
        <picture of `set a[1:] = a[:-1]`>
        """
        return Drawing(self._log, line, self._undo)

    def kill(self) -> None:
        """Kills the program. Another thread may call it. In the process there is nothing to kill."""
        if self._inside is None:
            super().kill()

    def close(self) -> int:
        """Ends the session and returns the exit status of the program, or 0 in the process. A second call returns the same."""
        if self._inside is None:
            try:
                return super().close()
            finally:
                self._removed()
        if self._status is None:
            self._inside.close()
            self._status = 0
        return self._status

    def __enter__(self) -> Session:
        return self

    def _check_open(self) -> None:
        if self._status is not None:
            raise ProgramEnded(self.program, self._status)

    def _note(self, line: Line, text: str) -> str:
        """Keeps a line for pictures if it has changed something, and returns its reply."""
        if text.startswith("ok ") and not text.startswith("ok save"):
            self._log.note(line if isinstance(line, str) else bytes(line).decode(), self.files, EXCHANGE)
        return text

    def _answered(self, line: bytes) -> bytes:
        """The reply of the library."""
        self._check_open()
        assert self._inside is not None
        try:
            return self._inside.answer(line.removesuffix(b"\r"))[1]
        except MemoryError:
            raise BenchError("out of memory") from None

    def _batch(self, lines: list[bytes]) -> list[str]:
        """The replies of the program, which are read while the lines are still written."""
        self._check_open()
        told = bytearray()

        def write() -> None:
            with suppress(BrokenPipeError):
                self._to.write(b"".join(line + MARKER for line in lines))
                self._to.flush()

        writer = threading.Thread(target=write, daemon=True)
        writer.start()
        count, seen = 0, 0
        read: Any = self._from.read1
        try:
            while count < len(lines):
                part = read(1 << 20)
                if not part:
                    raise ProgramEnded(self.program, self.close())
                told += part
                for found in ANSWERED.finditer(told, seen):
                    count, seen = count + 1, found.end()
        except BaseException:
            self.close()
            raise
        writer.join()
        return [reply.decode("ascii", "replace").removesuffix("\n") for reply in ANSWERED.split(bytes(told))[:-1]]

    def _clear(self) -> None:
        """Removes the file through which an array went in or out."""
        if self._inside is not None:
            with suppress(MemoryError):
                self._inside.put(EXCHANGE.encode(), b"")
        elif isinstance(self.files._place, Path):
            (self.files._place / EXCHANGE).unlink(missing_ok=True)

    def _removed(self) -> None:
        if self._folder is not None:
            self._folder.cleanup()
            self._folder = None
