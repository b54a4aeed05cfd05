"""The header of an NPY file, read strictly and without NumPy; what is wrong with it, in words."""
from __future__ import annotations

import ast
import os
from math import prod
from typing import Any, BinaryIO, NamedTuple, Optional

from . import item_types
from .numpy_rules import NO_KIND
from .terminal import printable

MAGIC = b"\x93NUMPY"
MOST = 1 << 20  # bytes of a header that is looked at
MOST_ITEMS, MOST_AXES = 1 << 24, 64
KEYS = ("descr", "fortran_order", "shape")


def quoted(value: Any, most: int) -> str:
    """A value as Python writes it, cut to so many letters. Python writes no number of more than some thousand digits."""
    try:
        return printable(repr(value), most)
    except ValueError:
        return "a number of thousands of digits"


class Wrong(Exception):
    """What is wrong with a file."""


class Header(NamedTuple):
    """What a header says: the version, the first byte of the items, the type as NumPy describes it, the shape and the order."""

    version: str
    first: int
    descr: Any
    shape: tuple[int, ...]
    is_fortran: bool

    def size(self) -> int:
        """The bytes of an item."""
        return size_of(self.descr)

    def facts(self) -> list[str]:
        order = "Fortran" if self.is_fortran else "C"
        kind = printable(self.descr, 200) if isinstance(self.descr, str) else quoted(self.descr, 200)
        return [f"NPY version {self.version}, header of {self.first} bytes",
                f"{kind} {quoted(self.shape, 200)}, {order} order, {quoted(prod(self.shape) * self.size(), 40)} bytes of items"]


def counted(count: int, word: str) -> str:
    return f"{count} {word}{'s' * (count != 1)}"


def size_of(descr: Any) -> int:
    """The bytes of an item, by NumPy's description of its type."""
    if isinstance(descr, list):
        return sum(size_of(field[1]) * prod(field[2] if len(field) > 2 else ()) for field in descr)
    if isinstance(descr, tuple):
        return size_of(descr[0]) * prod(descr[1])
    kind, digits = descr.lstrip("<>|=")[:1], "".join(filter(str.isdigit, descr.partition("[")[0]))
    return int(digits[:9] or 1) * (4 if kind == "U" else 1)


def check_type(descr: Any, name: str = "") -> None:
    """Raises `Wrong` with the cause where bench does not have a type."""
    where = f"field {name}" if name else "the type"
    if isinstance(descr, list):
        for field in descr:
            check_field(field)
    elif isinstance(descr, tuple):
        raise Wrong(f"{where} is a subarray, which bench does not have: it has one field for each item")
    elif not isinstance(descr, str):
        raise Wrong(f"{where} is {quoted(descr, 60)}, and not a type string or a list of fields")
    else:
        kind = descr.lstrip("<>|=")[:1]
        if kind in NO_KIND:
            raise Wrong(f"bench has no {NO_KIND[kind]}: {where} is {printable(descr, 60)}")
        try:
            item_types.read(descr)
        except item_types.BadType:
            raise Wrong(f"{where} is {quoted(descr, 60)}, which is no type of bench") from None


def check_field(field: Any) -> None:
    if not isinstance(field, tuple) or len(field) not in (2, 3):
        raise Wrong(f"a field is {quoted(field, 60)}, and not a name with a type")
    if isinstance(field[0], tuple):
        raise Wrong(f"field {printable(str(field[0][-1]), 60)} has a title, which bench does not have")
    if not isinstance(field[0], str):
        raise Wrong(f"the name of a field is {quoted(field[0], 60)}")
    name = printable(field[0], 60)
    if len(field) == 3:
        raise Wrong(f"field {name} has the shape {quoted(field[2], 60)}, which bench does not have: it has one field for each item")
    if not (field[0] == "" and isinstance(field[1], str) and field[1].lstrip("<>|=")[:1] == "V"):  # padding
        check_type(field[1], name)


def check_shape(shape: Any) -> None:
    if not isinstance(shape, tuple):
        raise Wrong(f"the shape is a {type(shape).__name__}, {quoted(shape, 60)}, and not a tuple")
    for length in shape:
        if isinstance(length, bool) or not isinstance(length, int):
            raise Wrong(f"a length of the shape is {quoted(length, 60)}, and not an integer")
        if length < 0:
            raise Wrong(f"a length of the shape is negative: {quoted(shape, 200)}")
    if len(shape) > MOST_AXES:
        raise Wrong(f"the shape has {len(shape)} axes, and bench has at most {MOST_AXES}")
    if any(length > MOST_ITEMS for length in shape) or prod(shape) > MOST_ITEMS:
        raise Wrong("the shape has more than 16777216 items, or an axis of that length")


def dictionary(text: str) -> dict[str, Any]:
    """The keys and the values of the text of a header."""
    shown = printable(text.strip(), 200)
    try:
        tree = ast.parse(text.strip(), mode="eval").body
        pairs = [(ast.literal_eval(key), value) for key, value in zip(tree.keys, tree.values) if key] if isinstance(tree, ast.Dict) else None
    except (ValueError, SyntaxError, TypeError, MemoryError, RecursionError):
        pairs = None
    if pairs is None:
        raise Wrong(f"the header is not a dictionary of Python: {shown}")
    keys = [key for key, _ in pairs]
    for key in keys:
        if keys.count(key) > 1:
            raise Wrong(f"the header has the key {quoted(key, 60)} {keys.count(key)} times")
        if key not in KEYS:
            raise Wrong(f"the header has the key {quoted(key, 60)}, and may have only 'descr', 'fortran_order' and 'shape'")
    for key in KEYS:
        if key not in keys:
            raise Wrong(f"the header has no key {key!r}")
    try:
        return {key: ast.literal_eval(value) for key, value in pairs}
    except (ValueError, SyntaxError, TypeError, MemoryError, RecursionError):
        raise Wrong(f"a value of the header is not a literal: {shown}") from None


def begin_of(file: BinaryIO) -> tuple[str, int, str]:
    """The version, the first byte of the items, and the text of the header."""
    begin = file.read(12)
    if begin.startswith(b"PK"):
        raise Wrong("a ZIP file, like every NPZ file: unpack it to get an NPY file for each array")
    if not begin.startswith(MAGIC):
        raise Wrong(f"not an NPY file: it begins with {begin[:6]!r}" if begin else "an empty file")
    if len(begin) < 10:
        raise Wrong("it ends within its first 10 bytes")
    version = f"{begin[6]}.{begin[7]}"
    if version not in ("1.0", "2.0"):
        why = ", which NumPy writes for names of fields that are not ASCII" * (version == "3.0")
        raise Wrong(f"version {version}{why}: bench reads 1.0 and 2.0")
    first = 12 if begin[6] > 1 else 10
    count = int.from_bytes(begin[8:first], "little")
    file.seek(first)
    text = file.read(min(count, MOST))
    if len(text) < min(count, MOST):
        raise Wrong(f"the header has {count} bytes, of which {len(text)} are there")
    if count > MOST:
        raise Wrong(f"the header has {count} bytes, and bench reads at most {MOST}")
    return version, first + count, text.decode("latin-1")


def read(file: BinaryIO) -> Header:
    """The header of a file. `Wrong` if it is none that NumPy writes; whether bench has the type is not asked."""
    version, first, text = begin_of(file)
    found = dictionary(text)
    if not isinstance(found["fortran_order"], bool):
        raise Wrong(f"fortran_order is {quoted(found['fortran_order'], 60)}, and not True or False")
    check_shape(found["shape"])
    try:
        header = Header(version, first, found["descr"], found["shape"], found["fortran_order"])
        header.size()
    except (ValueError, TypeError, AttributeError, IndexError, RecursionError, OverflowError):
        raise Wrong(f"the type is {quoted(found['descr'], 100)}") from None
    return header


def missing(header: Header, length: int) -> int:
    """How many bytes of items are missing in a file of a length; negative if some follow the last item."""
    return header.first + prod(header.shape) * header.size() - length


def explained(path: str) -> list[str]:
    """What is wrong with a file that bench refuses: the cause first, then what the header says."""
    if os.path.isdir(path):
        return ["a folder"]
    if not os.path.isfile(path):
        return ["not a regular file"] * os.path.exists(path)
    header: Optional[Header] = None
    try:
        with open(path, "rb") as file:
            header = read(file)
            check_type(header.descr)
            lack = missing(header, os.fstat(file.fileno()).st_size)
    except Wrong as wrong:
        return [str(wrong), *(header.facts() if header else [])]
    except OSError as fault:
        return [str(fault.strerror)]
    return [f"{counted(lack, 'byte')} of items {'is' if lack == 1 else 'are'} missing"] * (lack > 0) + header.facts()
