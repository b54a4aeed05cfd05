"""`pack` and `unpack`: raw bytes as an NPY file, and the items of an NPY file as raw bytes, a part at a time."""
import argparse
import os
import re
from math import prod
from typing import BinaryIO

from . import header, item_types, whole
from .bench import Session
from .header import Wrong, counted
from .terminal import printable, say

PART = 1 << 20  # bytes that are copied at a time


def header_of(kind: str, shape: tuple[int, ...], is_fortran: bool) -> bytes:
    """The header that bench writes for a type, with another shape and order."""
    with Session() as bench:
        bench.ask(f"x = zeros {kind} (0)")
        bench.ask('save x "x.npy"')
        text = bench.files["x.npy"]
    first = 10 if text[6] == 1 else 12
    told = text[first:].rstrip(b" \n").replace(b"'shape': (0,)", f"'shape': {shape}".encode()).replace(b"'fortran_order': False", f"'fortran_order': {is_fortran}".encode())
    for version, width in ((1, 2), (2, 4)):
        length = -(-(8 + width + len(told) + 1) // 64) * 64 - 8 - width
        if length < 1 << 8 * width:
            break
    return header.MAGIC + bytes([version, 0]) + length.to_bytes(width, "little") + told.ljust(length - 1) + b"\n"


def shape_of(text: str, items: int) -> tuple[int, ...]:
    """A shape, as `(2,3)`, `2,3` or `40`; one length may be -1, for what is left of so many items."""
    if not re.fullmatch(r"\(?\s*(-?\d+\s*(,\s*-?\d+\s*)*,?)?\s*\)?", text):
        raise Wrong(f"a shape is written as (2,3) or 40, not as {printable(text, 60)}")
    shape = tuple(map(int, re.findall(r"-?\d+", text)))
    if shape.count(-1) > 1 or any(length < -1 for length in shape):
        raise Wrong("a length is 0 or more; one may be -1, for what is left")
    if -1 not in shape:
        return shape
    others = prod(length for length in shape if length != -1)
    if not others or items % others:
        raise Wrong(f"{counted(items, 'item')} cannot be divided into {text}")
    return tuple(items // others if length == -1 else length for length in shape)


def copied(source: BinaryIO, to: BinaryIO, count: int) -> None:
    """Copies so many bytes, a part at a time."""
    while count:
        part = source.read(min(PART, count))
        if not part:
            raise Wrong("the file became shorter while it was read")
        to.write(part)
        count -= len(part)


def packed(words: argparse.Namespace) -> str:
    try:
        kind = item_types.read(words.type)
    except item_types.BadType:
        header.check_type(words.type)
        raise Wrong(f"{printable(words.type, 60)} is no type of bench") from None
    with open(words.file, "rb") as source:
        length = os.fstat(source.fileno()).st_size
        there = length - words.offset
        if there < 0:
            raise Wrong(f"it has {counted(length, 'byte')}, and --offset is {words.offset}")
        shape = shape_of(words.shape, there // kind.size)
        wanted = prod(shape) * kind.size
        if wanted != there:
            begin = f" from byte {words.offset} on" if words.offset else ""
            found = f"{counted(wanted - there, 'byte')} missing" if wanted > there else f"{counted(there - wanted, 'byte')} left over"
            raise Wrong(f"it has {counted(there, 'byte')}{begin}, and {shape} items of {counted(kind.size, 'byte')} are {wanted}: {found}")
        source.seek(words.offset)
        with whole.replaced(words.output) as file:
            file.write(header_of(str(kind), shape, words.order == "F"))
            copied(source, file, wanted)
    return f"{kind} {shape}, {'Fortran' if words.order == 'F' else 'C'} order, {counted(wanted, 'byte')} of items"


def unpacked(words: argparse.Namespace) -> str:
    with open(words.file, "rb") as source:
        found = header.read(source)
        lack = header.missing(found, os.fstat(source.fileno()).st_size)
        if lack > 0:
            raise Wrong(f"{counted(lack, 'byte')} of items missing")
        source.seek(found.first)
        size = prod(found.shape) * found.size()
        with whole.replaced(words.output) as file:
            copied(source, file, size)
    return f"{printable(str(found.descr), 200)} {found.shape}, {'Fortran' if found.is_fortran else 'C'} order, {counted(size, 'byte')}"


def told(words: argparse.Namespace, call: str) -> int:
    """Carries out a command, and says what was written, or why nothing was."""
    name = printable(words.file)
    try:
        if not os.path.isfile(words.file) and os.path.exists(words.file):
            raise Wrong("not a regular file")
        said = packed(words) if call == "pack" else unpacked(words)
    except Wrong as wrong:
        say(f"{name}: {wrong}")
        return 1
    print(f"{printable(words.output)}: {said}")
    return 0


def pack(words: argparse.Namespace) -> int:
    return told(words, "pack")


def unpack(words: argparse.Namespace) -> int:
    return told(words, "unpack")
