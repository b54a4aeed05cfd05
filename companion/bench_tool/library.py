"""libbench, the bench as a library, through ctypes. A `Handle` is one bench in this process; its files are kept in memory."""
from __future__ import annotations

import ctypes
import os
from contextlib import suppress
from ctypes import byref, c_char_p, c_int, c_size_t, c_void_p
from functools import lru_cache
from pathlib import Path
from typing import Any, Iterator, Optional

from .session import ProgramEnded

NAME = "libbench.so.1"
HERE = Path(__file__).resolve()
# In a wheel; in the repository; installed by `make install`.
FOLDERS = (HERE.with_name("dist"), HERE.parents[2] / "out/library", HERE.parents[2] / "dist", HERE.parents[2])
# What a processor of x86-64-v3 has, in the words of Linux.
V3 = {"abm", "avx2", "bmi1", "bmi2", "f16c", "fma", "movbe"}
# The statuses and the calls of bench.h.
OK, REFUSED, NOTHING, NO_MEMORY, TOO_LONG, NO_FILE, NO_ROOM, INVALID, CLOSED = range(9)
CALLS = {
    "open": (c_size_t, c_void_p),
    "answer": (c_void_p, c_char_p, c_size_t),
    "reply": (c_void_p, c_void_p, c_size_t, c_void_p),
    "put": (c_void_p, c_char_p, c_size_t, c_char_p, c_size_t, c_void_p, c_size_t),
    "get": (c_void_p, c_char_p, c_size_t, c_void_p, c_size_t, c_void_p),
    "file": (c_void_p, c_char_p, c_size_t, c_void_p, c_size_t, c_void_p),
    "close": (c_void_p,),
}


@lru_cache(None)
def names() -> tuple[str, ...]:
    """The names of the library in a folder, for this machine, the best one first."""
    if os.uname().machine == "aarch64":
        return ("libbench-aarch64.so.1", NAME)
    with suppress(OSError), open("/proc/cpuinfo", "rb", 0) as told:
        flags = told.read(1 << 13).decode(errors="replace").partition("\nflags")[2].partition("\n")[0]
        if V3.issubset(flags.split()):
            return (f"glibc-hwcaps/x86-64-v3/{NAME}", NAME)
    return (NAME,)


def places() -> tuple[Path, ...]:
    """Where the library is looked for: at BENCH_LIBRARY if that is set (nowhere if it is empty), nowhere if BENCH names a program, and
    else in FOLDERS."""
    named = os.environ.get("BENCH_LIBRARY")
    if named is not None:
        return (Path(named),) if named else ()
    return () if os.environ.get("BENCH") else tuple(folder / name for folder in FOLDERS for name in names())


@lru_cache(None)
def load(path: Path) -> Optional[ctypes.CDLL]:
    """The library in a file, or None if there is no such file or it cannot be loaded."""
    try:
        library = ctypes.CDLL(os.fspath(path)) if path.is_file() else None
    except OSError:
        return None
    for name, arguments in CALLS.items() if library else ():
        call = getattr(library, f"bench_{name}")
        call.restype, call.argtypes = c_int, arguments
    return library


def loaded() -> Optional[ctypes.CDLL]:
    """The first library that can be loaded, or None."""
    return next(filter(None, map(load, places())), None)


class Handle:
    """A bench of the library. Each method is one call. `MemoryError` means that the call was out of memory and changed nothing;
    `ProgramEnded` that the bench is closed."""

    def __init__(self, library: ctypes.CDLL, undo: int):
        self._at, self._length = c_void_p(), c_size_t()
        self._library, self._handle, self._written = library, byref(self._at), byref(self._length)
        self._answer, self._reply = library.bench_answer, library.bench_reply
        self._room = ctypes.create_string_buffer(1 << 16)
        status = library.bench_open(undo, self._handle)
        if status == INVALID:
            raise ValueError("undo must be from 0 to 64")
        _check(status)

    def answer(self, line: bytes) -> tuple[int, bytes]:
        """The status and the reply to a line."""
        status = self._answer(self._handle, line, len(line))
        if status > REFUSED:
            return status, b""
        if self._reply(self._handle, self._room, len(self._room), self._written) == NO_ROOM:
            self._room = ctypes.create_string_buffer(self._length.value)
            self._reply(self._handle, self._room, len(self._room), self._written)
        return status, ctypes.string_at(self._room, self._length.value)

    def put(self, name: bytes, front: bytes, items: Any = None, size: int = 0) -> int:
        """Stores a file: the bytes of `front`, followed by `size` bytes from the address `items`."""
        return _check(self._library.bench_put(self._handle, name, len(name), front, len(front), items, size))

    def size(self, name: bytes) -> Optional[int]:
        """The length of a file in bytes, or None if there is no such file."""
        status = _check(self._library.bench_get(self._handle, name, len(name), None, 0, self._written))
        return None if status == NO_FILE else self._length.value

    def get(self, name: bytes, address: Any, room: int) -> bool:
        """Copies a file to an address with room for so many bytes, and returns whether the file is there and fits."""
        return _check(self._library.bench_get(self._handle, name, len(name), address, room, self._written)) == OK

    def files(self) -> Iterator[bytes]:
        """The names of the files, in order."""
        room, name = ctypes.create_string_buffer(256), b""
        while True:
            status = _check(self._library.bench_file(self._handle, name, len(name), room, len(room), self._written))
            if status == NO_FILE:
                return
            if status == NO_ROOM:
                room = ctypes.create_string_buffer(self._length.value)
            else:
                name = room.raw[:self._length.value]
                yield name

    def close(self) -> None:
        """Frees the bench. A second call does nothing."""
        self._library.bench_close(self._handle)


def _check(status: int) -> int:
    """The status of a call that was carried out."""
    if status == NO_MEMORY:
        raise MemoryError("the bench is out of memory")
    if status == CLOSED:
        raise ProgramEnded("the bench", 0)
    return status


def address(held: bytearray) -> Any:
    """The address of the bytes, as an argument of a call."""
    return (ctypes.c_char * len(held)).from_buffer(held) if held else None
