"""The type of an item, read from a type string of NumPy or a format text of PEP 3118 as the program reads it.

>>> kind = read("T{b:x:i:y:}")
>>> str(kind), kind.kind, kind.size, [(field.name, field.offset, str(field.type)) for field in kind.fields]
('T{<b:x:3x<i:y:}', 'V', 8, [('x', 0, '|i1'), ('y', 4, '<i4')])
>>> read("<f4")
Traceback (most recent call last):
bench_tool.item_types.BadType: E05: <f4
"""
from __future__ import annotations

import re
from dataclasses import dataclass, field
from functools import lru_cache
from typing import TYPE_CHECKING, Any, Optional

if TYPE_CHECKING:
    import numpy

MOST_BYTES, MOST_FIELDS, MOST_VALUES, MOST_RECORDS = 65536, 64, 2048, 4
BAD, LEFT_OUT, TOO_LARGE = "E04", "E05", "E09"
LETTERS = {"?": "b1", "b": "i1", "B": "u1", "h": "i2", "H": "u2", "i": "i4", "I": "u4", "q": "i8", "Q": "u8"}
TYPE_STRING = re.compile(r"([<>|=]?)([biuSfcmMOUV](?=[0-9])|S\Z)(.*)", re.S)
PIECE = re.compile(r"([0-9]*)(?:(T\{)|([^:{])(:[^:]*:?)?)|[{:][^:]*:?", re.S)
FIELD_NAME = re.compile(r"[ !#-&(-9;-\[\]-~]{1,64}")
MARKS = {"@": "@", "^": "^", "<": "<", "=": "<", ">": ">", "!": ">"}
NOT_SUPPORTED = "cnNPpefdgOZuwt&X("


class BadType(ValueError):
    """A text that is not a type (E04), or a type that is not supported (E05) or too large (E09)."""

    def __init__(self, code: str, text: str):
        super().__init__(f"{code}: {text[:200]}")
        self.code, self.text = code, text


@dataclass(frozen=True)
class Field:
    """A field of a record."""

    name: str
    offset: int
    type: ItemType


@dataclass(frozen=True)
class ItemType:
    """`kind` is NumPy's letter: b for bools, i and u for signed and unsigned integers, S for byte strings, V for records. `order` is `<`,
    `>`, or `|` where there is none. `str` gives the text that the program writes."""

    kind: str
    size: int
    order: str = "|"
    fields: tuple[Field, ...] = ()

    def __str__(self) -> str:
        return f"{self.order}{self.kind}{self.size}" if self.kind != "V" else self.format()

    def format(self) -> str:
        """The format text, as `format` replies it."""
        if self.kind == "S":
            return f"<{self.size}s"
        if self.kind != "V":
            return ("<" if self.order == "|" else self.order) + next(letter for letter, code in LETTERS.items() if code == f"{self.kind}{self.size}")
        text, end = "", 0
        for each in self.fields:
            text += f"{each.offset - end}x" * (each.offset > end) + f"{each.type.format()}:{each.name}:"
            end = each.offset + each.type.size
        return "T{" + text + f"{self.size - end}x" * (self.size > end) + "}"

    def values(self) -> tuple[ItemType, ...]:
        """The types of an item's values: its own, or those of its fields."""
        return tuple(value for each in self.fields for value in each.type.values()) if self.kind == "V" else (self,)

    def pattern(self) -> str:
        """n for each number, s for each byte string, and parentheses around the fields of a record."""
        return f"({''.join(each.type.pattern() for each in self.fields)})" if self.kind == "V" else "s" if self.kind == "S" else "n"

    def bounds(self) -> tuple[int, int]:
        """The least and the greatest value of a bool or an integer."""
        if self.kind == "b":
            return 0, 1
        bits = 8 * self.size
        return (0, 2**bits - 1) if self.kind == "u" else (-(2 ** (bits - 1)), 2 ** (bits - 1) - 1)

    def numpy(self) -> numpy.dtype[Any]:
        """NumPy's dtype."""
        import numpy
        if self.kind != "V":
            return numpy.dtype(str(self))
        names, offsets = [each.name for each in self.fields], [each.offset for each in self.fields]
        return numpy.dtype({"names": names, "formats": [each.type.numpy() for each in self.fields], "offsets": offsets, "itemsize": self.size})


@lru_cache(4096)
def read(text: str) -> ItemType:
    """The type that a text means. `BadType` where the program refuses it."""
    found = TYPE_STRING.fullmatch(text)
    return _type_string(text, *found.groups()) if found else _Format(text).read()


def _scalar(code: str, order: str) -> ItemType:
    return ItemType(code[0], int(code[1:]), "|" if code[1:] == "1" else order)


def _count(digits: str) -> int:
    """The number of some digits; those that are far too large become a smaller one, which is too large too."""
    return int(digits.lstrip("0")[:7] or "0")


def _type_string(text: str, mark: str, kind: str, digits: str) -> ItemType:
    if kind + digits in LETTERS.values():
        return _scalar(kind + digits, ">" if mark == ">" else "<")
    if kind != "S":
        raise BadType(BAD if kind in "biu" else LEFT_OUT, text)
    if not re.fullmatch("[0-9]*", digits):
        raise BadType(BAD, text)
    size = _count(digits)
    if not 0 < size <= MOST_BYTES:
        raise BadType(TOO_LARGE if size else LEFT_OUT, text)
    return ItemType("S", size)


@dataclass
class _Record:
    """A record whose end is not read yet. `mark` is the one at its T; `values` counts those of the whole type so far."""

    mark: str
    values: int
    size: int = 0
    alignment: int = 1
    fields: list[Field] = field(default_factory=list)


class _Format:
    """A format text, read piece by piece from the left; the first error is the one that counts."""

    def __init__(self, text: str):
        self.text, self.mark = text, "@"
        self.open: list[_Record] = []
        self.whole: Optional[ItemType] = None
        self.is_marked = False  # a mark after the whole type

    def check(self, is_right: bool, code: str) -> None:
        if not is_right:
            raise BadType(code, self.text)

    def read(self) -> ItemType:
        for found in PIECE.finditer(self.text):
            digits, opening, letter, behind = found.groups()
            self.check(bool(opening or letter), BAD)
            if opening:
                self.check(not digits, LEFT_OUT)
                self.begin()
            elif letter == "}" and not digits:
                self.end(behind)
            elif letter in MARKS and not digits and not behind:
                self.is_marked = self.whole is not None
                self.mark = MARKS[letter]
            elif letter != " " or digits or behind:
                self.member(digits, letter, behind)
        if self.whole is None or self.is_marked:
            raise BadType(BAD, self.text)
        return self.whole

    def begin(self) -> None:
        """`T{`"""
        self.check(self.whole is None and len(self.open) < MOST_RECORDS, LEFT_OUT)
        self.open.append(_Record(self.mark, self.open[-1].values if self.open else 0))

    def end(self, behind: Optional[str]) -> None:
        """The brace that ends a record."""
        self.check(bool(self.open), BAD)
        ended = self.open.pop()
        self.check(bool(ended.fields), LEFT_OUT)
        size = -(-ended.size // ended.alignment) * ended.alignment if self.mark == "@" else ended.size
        self.check(size <= MOST_BYTES, TOO_LARGE)
        self.add(ItemType("V", size, "|", tuple(ended.fields)), ended.alignment, ended.mark, behind)

    def member(self, digits: str, letter: str, behind: Optional[str]) -> None:
        """A scalar, or padding."""
        order = ">" if self.mark == ">" else "<"
        code = {"l": "i8", "L": "u8"}[letter] if letter in "lL" and self.mark in "@^" else LETTERS.get({"l": "i", "L": "I"}.get(letter, letter), "")
        if code:
            self.check(not digits, LEFT_OUT)
            made = _scalar(code, order)
            self.add(made, made.size, self.mark, behind)
        elif letter == "s":
            size = _count(digits or "1")
            self.check(size > 0, LEFT_OUT)
            self.add(ItemType("S", size), 1, self.mark, behind)
        else:
            self.check(letter == "x", LEFT_OUT if letter in NOT_SUPPORTED else BAD)
            self.check(bool(self.open), LEFT_OUT)
            self.open[-1].size += _count(digits or "1")
            self.check(self.open[-1].size <= MOST_BYTES, TOO_LARGE)
            self.check(behind is None, LEFT_OUT)

    def add(self, made: ItemType, alignment: int, mark: str, behind: Optional[str]) -> None:
        """A type that is complete: the next field of the record around it, or the whole."""
        if not self.open:
            self.check(self.whole is None and behind is None, LEFT_OUT)
            self.check(made.size <= MOST_BYTES, TOO_LARGE)
            self.whole = made
            return
        around, aligned = self.open[-1], alignment if mark == "@" else 1
        name = self.name(around, behind)
        around.values += len(made.values())
        self.check(around.values <= MOST_VALUES, TOO_LARGE)
        at = -(-around.size // aligned) * aligned
        around.size, around.alignment = at + made.size, max(around.alignment, aligned)
        self.check(around.size <= MOST_BYTES, TOO_LARGE)
        around.fields.append(Field(name, at, made))

    def name(self, around: _Record, behind: Optional[str]) -> str:
        """The name of the next field: the one between colons, or `f` and its number."""
        self.check(behind != ":" and (behind is None or behind.endswith(":")), BAD)
        name = f"f{len(around.fields)}" if behind is None else behind[1:-1]
        self.check(bool(FIELD_NAME.fullmatch(name)), LEFT_OUT)
        self.check(name not in [each.name for each in around.fields], BAD)
        self.check(len(around.fields) < MOST_FIELDS, TOO_LARGE)
        return name
