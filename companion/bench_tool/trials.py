"""Lines that bind a name to an array like another one: with its type, its shape and its strides, and with its items if these are given."""
from __future__ import annotations

import os
import re
from contextlib import suppress
from itertools import product
from math import prod
from typing import Any, Callable, Optional, Sequence

from . import item_types
from .session import Array, Line, Named, Reply, Session, literal

LOADS = re.compile(r'= load "([\w.-]+)"')
MOST_ITEMS = 1 << 24
LONGEST = 65_536  # bytes of a line


class Trial(Session):
    """A session in which lines are tried. Its folder gets links to the files that they load, of the folder `of`."""

    def __init__(self, program: Named, dir: Named, of: Named):
        super().__init__(program, 0, dir, wait=False)
        self.of = os.path.abspath(of)

    def send(self, line: Line, take: Optional[Callable[[bytes], Any]] = None) -> Reply:
        found = LOADS.search(line) if isinstance(line, str) else None
        path = os.path.join(self.of, found[1]) if found else ""
        with suppress(FileExistsError):
            if found and os.path.lexists(path):
                os.symlink(path, os.path.join(self.dir, found[1]))
        return super().send(line, take)

    def clear(self) -> None:
        """Forgets all names, and the files that were loaded and saved."""
        for name in self.names():
            self.send(f"del {name}")
        for name in os.listdir(self.dir):
            os.unlink(os.path.join(self.dir, name))


def shaped(shape: Sequence[int]) -> str:
    return f"({','.join(map(str, shape))})"


def strided(shape: Sequence[int], steps: Sequence[int]) -> Optional[tuple[list[int], list[str], list[int]]]:
    """The shape of an array in C order, an index into it and an order of axes that give a shape with these steps from item to item,
    or None if it is not so simple. Axes of less than two items come first."""
    short = [axis for axis, length in enumerate(shape) if length < 2]
    long = sorted((axis for axis, length in enumerate(shape) if length > 1), key=lambda axis: -abs(steps[axis]))
    base, entries = [shape[axis] for axis in short], [":"] * len(short)
    for k, axis in enumerate(long):
        length, step, before = shape[axis], abs(steps[axis]), abs(steps[long[k - 1]]) if k else 0
        if not step or k and (before % step or before // step < length):
            return None
        base.append(before // step if k else length)
        entries.append(f":{length}" if steps[axis] > 0 else f"{length - 1}::-1")
    last = abs(steps[long[-1]]) if long else 1
    order = [(short + long).index(axis) for axis in range(len(shape))]
    return (base + [last], entries + ["0"], order) if prod(base) * last <= MOST_ITEMS and len(base) < 64 else None


def like(array: Array, values: Optional[Sequence[Any]]) -> list[str]:
    """The lines that bind the name of an array to one like it. With items they are those."""
    name, shape = array.name, array.shape
    reduced = tuple(1 if step == 0 and length > 1 else length for length, step in zip(shape, array.strides))
    if reduced != shape:  # it repeats its items
        places = product(*(range(length) for length in shape))
        kept = None if values is None else [value for place, value in zip(places, values) if not any(at for at, length in zip(place, reduced) if length == 1)]
        inner = Array(name, array.type, reduced, array.strides, 0, "-" if "C" not in array.order else "C", True, ())
        return [*like(inner, kept), f"{name} = broadcast {name} {shaped(shape)}"]
    made = " ".join([f"{name} = array {array.type} {shaped(shape)}", *map(literal, values)]) if values is not None else ""
    if not made or len(made) > LONGEST:
        made = f"{name} = zeros {array.type} {shaped(shape)}"
    lines = [made]
    if "C" not in array.order:
        lines += [f"{name} = copy {name} F"] if "F" in array.order else laid_out(array)
    return lines + [f"{name} = broadcast {name} {shaped(shape)}"] * (not array.writable)


def laid_out(array: Array) -> list[str]:
    """The lines that give a name the strides of an array, and keep its items. Steps that are no whole items become twice as long."""
    name, size = array.name, item_types.read(array.type).size
    steps = [stride // size for stride in array.strides] if not any(stride % size for stride in array.strides) else []
    found = strided(array.shape, steps) if steps else None
    base, entries, order = found or ([*array.shape[:-1], 2 * max(1, array.shape[-1])], [":"] * (len(array.shape) - 1) + [f":{2 * array.shape[-1]}:2"], [])
    other = "_" if name != "_" else "__"
    lines = [f"{other} = {name}", f"{name} = zeros {array.type} {shaped(base)}", f"{name} = {name}[{','.join(entries)}]"]
    lines += [f"{name} = transpose {name} {shaped(order)}"] * (order != sorted(order))
    return [*lines, f"set {name}[...] = {other}", f"del {other}"]
