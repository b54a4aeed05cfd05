"""What the program replies to the load of a file, worked out from the bytes of the file by the rules of NPY files; and damaged files."""
from __future__ import annotations

import ast
import collections
import math
import re
from random import Random
from typing import Any

from .rules import LETTERS, MOST_AXES, MOST_BYTES, MOST_ITEMS, Refused

# What a header is made of: literals, of whose numbers an `L` is part, and brackets, colons and commas, with blanks between.
LITERAL = r"""'[ -&(-\[\]-~]*'|"[ !#-\[\]-~]*"|(?:0|[1-9][0-9]*)L?(?![0-9])|(?:True|False|None)(?![A-Za-z])"""
TOKEN, BLANKS = re.compile(rf"{LITERAL}|[](){{}}[:,]"), " \t\n\r"
HEADER_BYTES = b" '\",:()[]{}LTFN0123456789<>|=biuSVfx\\\n\x00\x7f"
KEYS = ["descr", "fortran_order", "shape"]
MOST_DEPTH, MOST_HEADER, MOST_ITEM = 16, 2**20, 65536
MOST_FIELDS, MOST_LEAVES, MOST_RECORDS = 64, 2048, 4
NAME = re.compile(r"[ !#-&(-9;-\[\]-~]{1,64}")
BAD_HEADER, BAD_TYPE, LEFT_OUT, TOO_LARGE, TRUNCATED = map(Refused, ("E30", "E04", "E05", "E09", "E31"))


def parsed(header: str) -> ast.expr:
    """A header as Python parses it. Each of its literals stands alone, and each pair of parentheses is a tuple's."""
    tokens = TOKEN.findall(header)
    if TOKEN.sub("", header).strip(BLANKS):
        raise BAD_HEADER
    try:
        whole = ast.parse(" ".join(token[:40].rstrip("L") if token[0].isdigit() else token for token in tokens), mode="eval").body
    except SyntaxError:
        raise BAD_HEADER from None
    kinds = collections.Counter(map(type, ast.walk(whole)))
    if kinds[ast.Constant] != sum(token not in "()[]{}:," for token in tokens) or kinds[ast.Tuple] != tokens.count("("):
        raise BAD_HEADER
    return whole


def value(node: ast.AST, depth: int = 1) -> Any:
    """What a literal means; of a dictionary all pairs, by their numbers."""
    if isinstance(node, ast.Constant):
        return node.value
    if depth > MOST_DEPTH or not isinstance(node, (ast.Dict, ast.List, ast.Tuple)):
        raise BAD_HEADER
    inner = [value(each, depth + 1) for each in ast.iter_child_nodes(node) if not isinstance(each, ast.Load)]
    if isinstance(node, ast.Dict):
        return dict(enumerate(zip(inner[:len(node.keys)], inner[len(node.keys):])))
    return tuple(inner) if isinstance(node, ast.Tuple) else inner


def header_values(text: str) -> tuple[Any, bool, tuple[int, ...]]:
    """The three values of a header."""
    whole = value(parsed(text))
    pairs = list(whole.values()) if isinstance(whole, dict) else []
    if not all(isinstance(key, str) for key, _ in pairs) or sorted(key for key, _ in pairs) != KEYS:
        raise BAD_HEADER
    descr, fortran, shape = (dict(pairs)[key] for key in KEYS)
    if not isinstance(fortran, bool) or not isinstance(shape, tuple) or not all(type(length) is int for length in shape):
        raise BAD_HEADER
    return descr, fortran, shape


def number(digits: str) -> int:
    """The number that digits stand for; those above the bytes of an item are all one more than that."""
    bare = digits.lstrip("0")
    return min(int(bare[:6] or 0), MOST_ITEM + 1)


def scalar(text: str) -> tuple[str, int]:
    """The written type string and the size of a type string."""
    mark, rest = (text[0], text[1:]) if text[:1] in tuple("<>|=") else ("", text)
    if rest[:1] in tuple("fcmMOUV"):
        raise LEFT_OUT
    if rest[:1] == "S" and re.fullmatch("[0-9]*", rest[1:]):
        size = number(rest[1:])
        if size == 0:
            raise LEFT_OUT
        if size > MOST_ITEM:
            raise TOO_LARGE
        return f"|S{size}", size
    if rest not in LETTERS:
        raise BAD_TYPE
    size = int(rest[1])
    return ("|" if size == 1 else ">" if mark == ">" else "<") + rest, size


def scalar_format(text: str) -> str:
    mark = ">" if text[0] == ">" else "<"
    return mark + (f"{text[2:]}s" if text[1] == "S" else LETTERS[text[1:]])


def padding(type_: object) -> int:
    """The bytes of an entry without a name."""
    found = isinstance(type_, str) and re.fullmatch("[<>|=]?V([0-9]+)", type_)
    if not found:
        raise LEFT_OUT
    return number(found[1])


class Records:
    """Reads the records of a `descr`, whose leaves are counted over all of it."""

    def __init__(self) -> None:
        self.leaves = 0

    def record(self, entries: list[Any], depth: int) -> tuple[str, int]:
        """The format text and the size of a record."""
        if depth > MOST_RECORDS:
            raise LEFT_OUT
        names, text, gap, size = [], "", 0, 0
        for entry in entries:
            if not isinstance(entry, tuple) or len(entry) != 2 or not isinstance(entry[0], str) or not isinstance(entry[1], (str, list)):
                raise LEFT_OUT
            name, type_ = entry
            if name and not NAME.fullmatch(name):
                raise LEFT_OUT
            inner, more = self.field(type_, depth) if name else ("", padding(type_))
            if name and name in names:
                raise BAD_TYPE
            if name:
                names.append(name)
                text += f"{gap}x" * (gap > 0) + f"{inner}:{name}:"
            gap = 0 if name else gap + more
            size += more
            if len(names) > MOST_FIELDS or self.leaves > MOST_LEAVES or size > MOST_ITEM:
                raise TOO_LARGE
        if not names:
            raise LEFT_OUT
        return "T{" + text + f"{gap}x" * (gap > 0) + "}", size

    def field(self, type_: Any, depth: int) -> tuple[str, int]:
        """The format text and the size of a field."""
        if isinstance(type_, list):
            return self.record(type_, depth + 1)
        text, size = scalar(type_)
        self.leaves += 1
        return scalar_format(text), size


def descriptor(descr: object) -> tuple[str, int]:
    """How a descriptor is shown, and the size of an item."""
    if isinstance(descr, str):
        return scalar(descr)
    if not isinstance(descr, list):
        raise BAD_TYPE
    return Records().record(descr, 1)


def checked_shape(shape: tuple[int, ...]) -> int:
    if len(shape) > MOST_AXES:
        raise Refused("E08")
    if max(shape, default=0) > MOST_ITEMS or math.prod(shape) > MOST_ITEMS:
        raise TOO_LARGE
    return math.prod(shape)


def header(file: bytes) -> tuple[str, int]:
    """The text of the header and where the items begin."""
    if len(file) < 6 or file[:6] != b"\x93NUMPY":
        raise Refused("E28")
    if len(file) < 8:
        raise TRUNCATED
    wide = {b"\x01\x00": 2, b"\x02\x00": 4}.get(file[6:8])
    if wide is None:
        raise Refused("E29")
    if len(file) < 8 + wide:
        raise TRUNCATED
    length = int.from_bytes(file[8 : 8 + wide], "little")
    if length > MOST_HEADER:
        raise TOO_LARGE
    if len(file) < 8 + wide + length:
        raise TRUNCATED
    return file[8 + wide : 8 + wide + length].decode("latin-1"), 8 + wide + length


def loaded(file: bytes, more: int) -> tuple[str, int]:
    """What follows `ok x ` in the reply to a load of a file with more bytes behind it, and the bytes of the items."""
    text, start = header(file)
    descr, _, shape = header_values(text)
    shown, size = descriptor(descr)
    total = checked_shape(shape) * size
    if total > MOST_BYTES:
        raise TOO_LARGE
    rest = len(file) + more - start - total
    if rest < 0:
        raise TRUNCATED
    return f"{shown} {shape} new rest {rest}", total


def reply(file: bytes, more: int = 0) -> tuple[str, int]:
    """The reply to `x = load` of a file with more bytes behind it, and the bytes of the array's items."""
    try:
        text, items = loaded(file, more)
        return f"ok x {text}", items
    except Refused as refused:
        return f"no {refused}", 0


def cut(rng: Random, file: bytes) -> bytes:
    """A front of a file."""
    return file[:rng.choice([rng.randrange(12), rng.randrange(len(file))])]


def altered(rng: Random, file: bytes) -> bytes:
    """A file with some bytes of its header, or of what stands before it, put in, left out or changed."""
    changed = bytearray(file)
    for _ in range(rng.choice([1, 1, 2, 3])):
        at = rng.randrange(min(len(changed), 128) + 1)
        changed[at:at + rng.choice([0, 1, 1])] = bytes(rng.choice(HEADER_BYTES) for _ in range(rng.choice([0, 1, 1])))
    return bytes(changed)
