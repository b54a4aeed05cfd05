"""The items of an array that an index list names; its refusals come in the program's order. Comments `FROM-NUMPY:` name rows of
docs/FROM-NUMPY.md where NumPy itself does something else."""
from __future__ import annotations

from typing import Any, Callable, Iterator

import numpy as np

from .dtypes import Array
from .rules import Refused

SCALARS = {"...": Ellipsis, "None": None}


def read(text: str, array: Callable[[str], Array]) -> list[Any]:
    """The items of an index list: integers, slices, `...`, None and arrays."""
    def item(word: str) -> Any:
        if ":" in word:
            return slice(*(int(part) if part else None for part in word.split(":")))
        return SCALARS[word] if word in SCALARS else array(word) if word[0].isalpha() else int(word)

    return [item(word) for word in text.split(",")]


def is_mask(item: Any) -> bool:
    return isinstance(item, np.ndarray) and item.dtype.kind == "b"


def width(item: Any) -> int:
    """For how many axes an item of a list stands."""
    return int(item.ndim) if is_mask(item) else int(item is not None and item is not Ellipsis)


def lined_up(array: Array, items: list[Any]) -> Iterator[tuple[Any, tuple[int, ...]]]:
    """The integers and arrays of a list, each with the lengths of the axes that it stands for."""
    axis = 0
    for item in items:
        if isinstance(item, (int, np.ndarray)):
            yield item, array.shape[axis:axis + width(item)]
        axis += array.ndim - sum(map(width, items)) if item is Ellipsis else width(item)


def is_outside(item: Any, lengths: tuple[int, ...]) -> bool:
    """Whether an integer or an index array has a number that is outside its axis."""
    numbers = [] if is_mask(item) else [item] if isinstance(item, int) else item.ravel().tolist()
    return any(not -lengths[0] <= number < lengths[0] for number in numbers)


def check(array: Array, items: list[Any]) -> None:
    """Refuses an index list by what is known before its arrays are stretched to one another."""
    if any(isinstance(item, np.ndarray) and not (item.dtype.kind in "iu" or is_mask(item) and item.ndim) for item in items):
        raise Refused("E14")
    if sum(map(width, items)) > array.ndim:
        raise Refused("E10")
    pairs = list(lined_up(array, items))
    # FROM-NUMPY: a mask of no items on an axis that has some
    if any(is_mask(item) and item.shape != lengths for item, lengths in pairs):
        raise Refused("E13")
    if any(isinstance(item, slice) and item.step == 0 for item in items):
        raise Refused("E12")
    # FROM-NUMPY: an index out of range where nothing is selected
    if any(is_outside(item, lengths) for item, lengths in pairs):
        raise Refused("E11")


class Part:
    """The items that a list names. Of arrays in the list, and of integers beside them, `places` has the numbers of the items, in the
    order in which they are taken."""

    def __init__(self, array: Array, items: list[Any]):
        check(array, items)
        self.array, self.places = array, None
        # FROM-NUMPY: an integer for every axis is a view
        self.items = tuple(items) + (() if any(item is Ellipsis for item in items) else (Ellipsis,))
        if any(isinstance(item, np.ndarray) for item in items):
            self.items = tuple(np.asarray(item) if isinstance(item, int) else item for item in self.items)
            try:
                self.places = np.arange(array.size).reshape(array.shape)[self.items]
            except IndexError:
                raise Refused("E15") from None

    def read(self) -> Array:
        """A view of the items, or where the list has arrays a copy."""
        taken: Array = self.array[self.items]
        return taken if self.places is None else taken.copy("C")

    def write(self, made: Array) -> None:
        """Writes items of the array's own type; of a place that is named twice the last one stands."""
        # FROM-NUMPY: an index array or a mask, and a source in the same array; the target is the index array or the mask
        if self.places is None:
            self.array[self.items] = made
        else:
            for place, value in zip(self.places.ravel(), made.ravel()):
                self.array.flat[int(place)] = value
