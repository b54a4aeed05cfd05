"""Element types: their text, their values, and which casts there are, by their rule; what NumPy does is held against it.

A number goes to every number, an integer modulo 2 to the power of its bits and to a bool by whether it is not 0. A byte string goes
to every byte string, cut to its length. Records go field by field where they have as many at every level, and a scalar goes to every
leaf of a record. There are no others.
"""
from __future__ import annotations

import ast
import re
from typing import Any, Sequence

import numpy as np
from numpy.core._internal import _dtype_from_pep3118  # type: ignore[attr-defined]

from bench_tool import scripts

from .rules import LETTERS, Refused

Array = np.ndarray[Any, Any]
Dtype = np.dtype[Any]

TYPE_STRING = re.compile(r"[<>=|]?(?:[biu][1248]|S\d+)")
REFUSED = {"<i3": "E04", "<f4": "E05", "|S65537": "E09"}


def read(text: str) -> Dtype:
    """The type that a text means: a type string of NumPy, or a format text, as NumPy reads it."""
    if text in REFUSED:
        raise Refused(REFUSED[text])
    return np.dtype(text if TYPE_STRING.fullmatch(text) else _dtype_from_pep3118(text))


def fields(dtype: Dtype) -> list[tuple[str, Dtype, int]]:
    """The fields of a record: their names, types and offsets, in order of offset."""
    known: Any = dtype.fields
    return sorted(((name, known[name][0], known[name][1]) for name in dtype.names or ()), key=lambda field: field[2])


def leaves(dtype: Dtype) -> list[Dtype]:
    """The types of an item's values: its own, or those of its fields."""
    return [dtype] if dtype.names is None else [leaf for _, inner, _ in fields(dtype) for leaf in leaves(inner)]


def format_text(dtype: Dtype) -> str:
    """The format text of a type, as the program writes it."""
    if dtype.names is None:
        return (">" if dtype.str[0] == ">" else "<") + (f"{dtype.itemsize}s" if dtype.kind == "S" else LETTERS[dtype.str[1:]])
    text, end = "", 0
    for name, inner, at in fields(dtype):
        text += f"{at - end}x" * (at > end) + f"{format_text(inner)}:{name}:"
        end = at + inner.itemsize
    return "T{" + text + f"{dtype.itemsize - end}x" * (dtype.itemsize > end) + "}"


def type_text(dtype: Dtype) -> str:
    return dtype.str if dtype.names is None else format_text(dtype)


def literal(text: str) -> Any:
    """What a literal of the language means."""
    return ast.literal_eval(text)


def stands_for(value: Any, dtype: Dtype) -> bool:
    """Whether a tuple has a value for each field of a record, and for no scalar; byte strings stand for such alone."""
    if isinstance(value, tuple) != (dtype.names is not None):
        return False
    if dtype.names is None:
        return isinstance(value, bytes) == (dtype.kind == "S")
    inner = [each for _, each, _ in fields(dtype)]
    return len(value) == len(inner) and all(map(stands_for, value, inner))


def numbers(value: Any) -> list[Any]:
    return [n for v in value for n in numbers(v)] if isinstance(value, tuple) else [value]


def filled(value: Any, dtype: Dtype) -> Any:
    """A value in the place of each scalar of a record."""
    return value if dtype.names is None else tuple(filled(value, inner) for _, inner, _ in fields(dtype))


def is_value(value: Any, dtype: Dtype) -> bool:
    return dtype.kind in "bS" or bool(np.iinfo(dtype).min <= value <= np.iinfo(dtype).max)


def item(value: Any, dtype: Dtype) -> Any:
    """What a literal means as an item of a type."""
    whole = value if isinstance(value, tuple) else filled(value, dtype)
    if not stands_for(whole, dtype):
        raise Refused("E33")
    if not all(map(is_value, numbers(whole), leaves(dtype))):
        raise Refused("E23")
    return whole


def full(shape: Sequence[int], value: str, dtype: Dtype) -> Array:
    """An array whose items are all what a literal means."""
    return np.full(shape, np.array(item(literal(value), dtype), dtype), dtype)


def can_cast(source: Dtype, target: Dtype) -> bool:
    """Whether there is a cast of one type to another."""
    return scripts.can_cast(type_text(source), type_text(target))


def fill(target: Array, source: Array) -> None:
    """Casts the items of an array to those of another one of the same shape."""
    if target.dtype.names is None:
        target[...] = source.astype(target.dtype)
    else:
        old = [name for name, _, _ in fields(source.dtype)]
        for number, (name, _, _) in enumerate(fields(target.dtype)):
            fill(target[name], source[old[number]] if old else source)


def cast(array: Array, dtype: Dtype) -> Array:
    """The items of an array as those of another type, in a fresh array in C order."""
    fresh = np.zeros(array.shape, dtype)
    fill(fresh, array)
    return fresh
