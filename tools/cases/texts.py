"""Pieces of lines."""
from __future__ import annotations

import itertools
from typing import Any, Iterable, Iterator, Optional, Sequence

Bound = Optional[int]
INTEGERS = ("|i1", "|u1", "<i2", "<u2", "<i4", "<u4", "<i8", "<u8")
TYPES = ("|b1", *INTEGERS)


def shape(lengths: Iterable[int]) -> str:
    return f"({','.join(map(str, lengths))})"


def size(lengths: Iterable[int]) -> int:
    made = 1
    for length in lengths:
        made *= length
    return made


def array(name: str, lengths: Sequence[int], values: Optional[Iterable[Any]] = None, type_: str = "<i4") -> str:
    """An array, by default of the integers 0, 1, .."""
    items = range(size(lengths)) if values is None else values
    return f"{name} = array {type_} {shape(lengths)} {' '.join(map(str, items))}".rstrip()


def cut(start: Bound, stop: Bound, step: Bound = None) -> str:
    """A slice."""
    text = f"{'' if start is None else start}:{'' if stop is None else stop}"
    return text if step is None else f"{text}:{step}"


def bounds(length: int, beyond: int = 2) -> list[Bound]:
    return [None, *range(-length - beyond, length + beyond + 1)]


def named_slices(length: int, steps: Sequence[int] = (1, 2, 3, -1, -2, -3)) -> dict[tuple[int, ...], str]:
    """A slice for each list of places that a slice can select, in order."""
    found: dict[tuple[int, ...], str] = {}
    inner = [*range(length + 1), *range(-length, 0), None]
    for start, stop, step in itertools.product(inner, inner, steps):
        found.setdefault(tuple(range(length))[slice(start, stop, step)], cut(start, stop, step))
    return found


def pairs(length: int) -> Iterator[tuple[tuple[int, ...], str, tuple[int, ...], str]]:
    """The pairs of slices that select the same number of items, at least one: the places and the slice of each."""
    found = named_slices(length)
    for one, other in itertools.product(found, found):
        if one and len(one) == len(other):
            yield one, found[one], other, found[other]


def limits(type_: str) -> tuple[int, int]:
    """The least and the greatest number of a type."""
    if type_[1] == "b":
        return 0, 1
    bits = 8 * int(type_[2:])
    return (0, 2**bits - 1) if type_[1] == "u" else (-(2 ** (bits - 1)), 2 ** (bits - 1) - 1)


def edges(type_: str) -> list[Any]:
    """Fifteen integers of a type: the ends of its range, those beside them, small ones, and its number of bits."""
    low, high = limits(type_)
    if type_[1] == "b":
        return ["False", "True"]
    bits = 8 * int(type_[2:])
    signed = [low, low + 1, -bits, -7, -2, -1, 0, 1, 2, 3, 7, bits - 1, bits, high - 1, high]
    unsigned = [0, 1, 2, 3, 7, bits - 1, bits, bits + 1, high // 2 - 1, high // 2, high // 2 + 1, high // 2 + 2, high - 2, high - 1, high]
    return signed if low else unsigned


def shapes(most_rank: int, lengths: Sequence[int]) -> list[tuple[int, ...]]:
    """All shapes of at most so many axes of these lengths."""
    return [each for rank in range(most_rank + 1) for each in itertools.product(lengths, repeat=rank)]
