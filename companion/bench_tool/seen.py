"""Which names see what `set` and `upd` wrote: those that have one of the written items, or a part of one.

The written items and those of a name are rows of bytes at equal steps along each axis. Two of them meet where the difference of two
places is less than an item, which is looked for axis by axis, the widest steps first.
"""
from __future__ import annotations

import re
from itertools import product
from typing import Iterable, Iterator, NamedTuple, Optional

from . import commands, item_types
from .commands import Set, Slice, Update
from .parsing import ParseError, parse
from .session import Array, BenchError, Session

ONE_ITEM = re.compile(r"\s*(\w+)\s*=\s*\w+\[[-+\d,\s]+\]\s*")
MOST_NAMES = 100  # that are looked at
MOST_SHOWN = 8
MOST_PLACES = 4096  # items that an index array selects
MOST_STEPS = 20_000  # of a search


class Places(NamedTuple):
    """Items at equal steps: the first byte, the lengths and the steps of the axes, and the bytes of an item."""

    at: int
    shape: tuple[int, ...]
    strides: tuple[int, ...]
    size: int


def places_of(array: Array) -> Places:
    return Places(array.at, array.shape, array.strides, item_types.read(array.type).size)


def selected(places: Places, index: commands.Index) -> Places:
    """The items of an index without arrays."""
    at, shape, strides, axis = places.at, list[int](), list[int](), 0
    takes = sum(item is not None and item is not ... for item in index)
    rest = len(places.shape) - takes
    for item in [*index, *([] if ... in index else [...])]:
        if item is None:
            shape.append(1)
            strides.append(0)
        elif item is ...:
            shape += places.shape[axis:axis + rest]
            strides += places.strides[axis:axis + rest]
            axis += rest
        elif isinstance(item, Slice):
            found = range(*item.python().indices(places.shape[axis]))
            at += (found.start if found else 0) * places.strides[axis]
            shape.append(len(found))
            strides.append(found.step * places.strides[axis])
            axis += 1
        else:
            at += item % places.shape[axis] * places.strides[axis]
            axis += 1
    return Places(at, tuple(shape), tuple(strides), places.size)


def meet(one: Places, other: Places) -> Optional[bool]:
    """Whether two have a byte in common; None if it takes too long to find out."""
    if 0 in one.shape or 0 in other.shape:
        return False
    axes = [*zip(one.shape, one.strides), *((length, -stride) for length, stride in zip(other.shape, other.strides))]
    axes = sorted(((length, stride) for length, stride in axes if length > 1 and stride), key=lambda axis: -abs(axis[1]))
    low, high = [0], [0]  # how far the axes after each one reach
    for length, stride in reversed(axes):
        reach = (length - 1) * stride
        low.insert(0, low[0] + min(0, reach))
        high.insert(0, high[0] + max(0, reach))
    open_, steps = [(0, one.at - other.at)], 0
    while open_:
        k, at = open_.pop()
        steps += 1
        if steps > MOST_STEPS:
            return None
        if at + low[k] >= other.size or at + high[k] <= -one.size:
            continue
        if k == len(axes):
            return True
        length, stride = axes[k]
        bounds = sorted(((-one.size - high[k + 1] - at) / stride, (other.size - low[k + 1] - at) / stride))
        open_ += [(k + 1, at + step * stride) for step in range(max(0, int(bounds[0]) - 1), min(length, int(bounds[1]) + 2))]
    return False


def numbered(trial: Session, shape: Iterable[int], target: str, index: commands.Index) -> list[int]:
    """The numbers of the items that an index selects, counted in C order, in a session with the index arrays."""
    lengths = list(shape)
    count = 1
    for length in lengths:
        count *= length
    lines = [f"{target} = arange <i8 0 {count} 1", f"{target} = reshape {target} ({','.join(map(str, lengths))})", f"{target} = {target}{commands.index_text(index)}"]
    for line in lines:
        if not trial.send(line).accepted:
            raise BenchError("an index that cannot be tried")
    return list(trial.array(target).items)


def written(array: Array, index: commands.Index, trial: Optional[Session]) -> Iterator[Places]:
    """The items of an array that an index selects; with index arrays one by one, as a trial numbers them. `BenchError` if they are many."""
    places = places_of(array)
    if not any(isinstance(item, str) for item in index):
        yield selected(places, index)
        return
    found = numbered(trial, array.shape, array.name, index) if trial else []
    if not trial or len(found) > MOST_PLACES:
        raise BenchError("too many places")
    offsets = [sum(step * at for step, at in zip(array.strides, place)) for place in product(*map(range, array.shape))] if found else []
    for number in set(found):
        yield Places(places.at + offsets[number], (), (), places.size)


def seen_by(session: Session, line: str, trial: Optional[Session] = None) -> str:
    """Who sees what an accepted line wrote, in words; nothing if it is no write."""
    try:
        command = parse(line)
    except ParseError:
        return ""
    if not isinstance(command, (Set, Update)):
        return ""
    array = session.array(command.target, items=False)
    names = [name for name in session.names()[:MOST_NAMES] if name == array.name or session.ask(f"shares {array.name} {name}") == "shares yes"]
    try:
        items = list(written(array, command.index, trial))
    except BenchError:
        return f"may be seen by {listed(names)}" if len(names) > 1 else f"seen by {array.name} only"
    others = {name: places_of(session.array(name, items=False)) for name in names}
    found = [name for name in names if any(meet(each, others[name]) is not False for each in items)]
    return f"seen by {listed(found)}{' only' * (found == [array.name])}" if found else ""


def one_item(session: Session, line: str) -> str:
    """What differs from NumPy after a line that binds a name to one item: there it is a copy, except of a record."""
    found = ONE_ITEM.fullmatch(line)
    array = session.array(found[1], items=False) if found else None
    return f"a view of one item; in NumPy it is a copy (`copy {array.name} C`)" if array and not array.shape and not array.type.startswith("T") else ""


def listed(names: list[str]) -> str:
    """Names as they are said: `s, head and temp`."""
    shown = names if len(names) <= MOST_SHOWN + 1 else [*names[:MOST_SHOWN], f"{len(names) - MOST_SHOWN} others"]
    return " and ".join(filter(None, [", ".join(shown[:-1]), *shown[-1:]]))
