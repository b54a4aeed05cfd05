"""What a library must have for a command: words that cases say they need (`vectors/*.jsonl`), and that adapters say they have (`HAS`).

    >>> from bench_tool import parse
    >>> sorted(of(parse("x = a[::-1,None]"), {"a": ("<i4", (3,)), "x": ("<i4", (3, 1))}))
    ['i4', 'negative_steps', 'new_axes']
"""
from __future__ import annotations

import math
import re
from typing import Any, Iterable, Iterator, Mapping, Tuple

from .commands import Operand

TYPES = ("b1", "i1", "i2", "i4", "i8", "u1", "u2", "u4", "u8")
WORDS = {
    **{word: f"items of type {word}" for word in TYPES},
    "big_endian": "numbers in big-endian order, such as >i4",
    "byte_strings": "byte strings, such as |S3",
    "records": "records, such as T{<i:x:<h:y:}",
    "mixed_types": "operations and assignments between items of two types",
    "rank_0": "arrays without axes",
    "size_0": "arrays without items",
    "steps": "slices with steps above 1",
    "negative_steps": "slices with steps below 0",
    "new_axes": "None in an index list",
    "index_arrays": "an array of integers in an index list",
    "several_index_arrays": "two or more of them, or one beside an integer or a mask",
    "masks": "an array of bools in an index list",
    "masks_of_axes": "a mask of two or more axes",
    "views": "writes through one name that show through another",
    "repeated": "views that repeat items (the method broadcast)",
    "far": "integers that the type of the array cannot hold, in a comparison",
}
ALL = frozenset(WORDS)
MOST_AXES = 64  # of an array in bench
SIDES = ("left", "right", "operand", "value")  # the operands of commands
# A type and a shape, as a name shows them.
Known = Tuple[str, Tuple[int, ...]]


def of_type(type_: str) -> Iterator[str]:
    """The words for a type as the program writes it."""
    if type_.startswith("T{"):
        yield "records"
    elif "S" in type_:
        yield "byte_strings"
    else:
        yield type_[1:]
        if type_[0] == ">":
            yield "big_endian"


def of_array(known: Known) -> Iterator[str]:
    """The words for an array."""
    type_, shape = known
    yield from of_type(type_)
    if not shape:
        yield "rank_0"
    if math.prod(shape) == 0:
        yield "size_0"


def _steps(step: int) -> Iterator[str]:
    if step < 0:
        yield "negative_steps"
    elif step > 1:
        yield "steps"


def of_index(index: Iterable[Any], arrays: Mapping[str, Known]) -> Iterator[str]:
    """The words for an index list in parsed form."""
    entries = list(index or ())
    named = [arrays[entry] for entry in entries if isinstance(entry, str) and entry in arrays]
    if len(named) + any(type(entry) is int for entry in entries) > 1 and named:
        yield "several_index_arrays"
    for type_, shape in named:
        if type_ != "|b1":
            yield "index_arrays"
        else:
            yield "masks"
            if len(shape) > 1:
                yield "masks_of_axes"
    if None in entries:
        yield "new_axes"
    for entry in entries:
        yield from _steps(getattr(entry, "step", None) or 1)


def index_lists(command: Any) -> Iterator[tuple[Any, ...]]:
    """The index lists of a command: its own, and those of its operands."""
    operands = [each for each in (getattr(command, side, None) for side in SIDES) if isinstance(each, Operand)]
    return (part.index for part in (command, *operands) if getattr(part, "index", None) is not None)


def of_types(command: Any, arrays: Mapping[str, Known]) -> Iterator[str]:
    """The words for items of two types in one operation or assignment."""
    index_names = {entry for index in index_lists(command) for entry in index if isinstance(entry, str)}
    operands = [getattr(part, "name", "") for part in (getattr(command, side, None) for side in ("left", "right", "value"))]
    written = [command.target] if hasattr(command, "value") and hasattr(command, "index") else []
    types = {arrays[name][0] for name in (*operands, *written) if name in arrays and name not in index_names - set(operands)}
    if len(types) > 1:
        yield "mixed_types"
    literal = getattr(command, "right", None)
    if type(literal) is int and types and not _holds(min(types), literal):
        yield "far"


def _holds(type_: str, number: int) -> bool:
    """Whether an integer is one of a type."""
    found = re.fullmatch(r".([biu])(\d)", type_)
    if not found:
        return True
    bits = 8 * int(found[2])
    low, high = {"b": (-(2**63), 2**63), "u": (0, 2**bits), "i": (-(2 ** (bits - 1)), 2 ** (bits - 1))}[found[1]]
    return bool(low <= number < high)


def of(command: Any, arrays: Mapping[str, Known]) -> frozenset[str]:
    """What a parsed command needs, given the types and shapes of the names that it reads and of the one that it binds. Whether it needs
    `views` depends on what comes after."""
    words = {word for name in (*command.reads, command.binds) if name in arrays for word in of_array(arrays[name])}
    for index in index_lists(command):
        words.update(of_index(index, arrays))
    words.update(of_types(command, arrays))
    if type(command).__name__ == "Broadcast":
        words.add("repeated")
    return frozenset(words)
