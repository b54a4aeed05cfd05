"""Random scripts for a library: short, of what it has and can, with what each step should give. Half of the writes read what they write."""
from __future__ import annotations

import math
from random import Random
from typing import Any, Callable, Collection, Optional, Sequence

from . import needs
from .cases import Question
from .commands import (Binary, Broadcast, Cast, Command, Copy, NewArray, Operand, Reduce, Reshape, Select, Set, Slice, Transpose, Unary, Update)
from .judge_oracle import OWN_REFUSALS, Oracle, Step, question_of

NAMES, LISTS = "abcdef", "ijkl"
MOST_STEPS, MOST_ITEMS = 6, 48
OPERATIONS = ("add", "sub", "mul", "fdiv", "mod", "and", "or", "xor", "shl", "shr")
COMPARISONS = ("eq", "ne", "lt", "le", "gt", "ge")
REDUCTIONS = ("sum", "prod", "min", "max", "any", "all", "argmin", "argmax")
# How often each kind of step comes, the method that it calls and the way it is made.
WEIGHTS = {"make": 3, "take": 8, "put": 12, "update": 6, "op": 6, "compare": 3, "unary": 1, "reduce": 6, "reshape": 5, "transpose": 3, "broadcast": 2, "copy": 2, "cast": 3}
FAR = (128, 255, 256, -129, 2**31, -(2**31) - 1, 2**32, 2**63, -(2**63), 2**64, 10**20)


def limits(type_: str) -> tuple[int, int]:
    """The least and the greatest number of a type."""
    if type_[1] == "b":
        return 0, 1
    bits = 8 * int(type_[2:])
    return (0, 2**bits - 1) if type_[1] == "u" else (-(2 ** (bits - 1)), 2 ** (bits - 1) - 1)


class Scripts:
    """Makes scripts of what a library has and can."""

    def __init__(self, rng: Random, has: Collection[str], can: Collection[str], most_axes: int = needs.MOST_AXES):
        self.rng, self.has, self.can, self.most_axes = rng, frozenset(has), set(can), most_axes
        self.oracle = Oracle(undo=1)
        self.types = [f"{'|' if word[1] == '1' else '<'}{word}" for word in needs.TYPES if word in self.has]
        self.types += [type_.replace("<", ">") for type_ in self.types if type_[0] == "<" and "big_endian" in self.has]
        self.numbers = [type_ for type_ in self.types if type_[1] != "b"] or self.types
        self.lists = [type_ for type_ in ("<i8", "<i4") if type_ in self.types]
        self.ways = [way for way, weight in WEIGHTS.items() if way in self.can for _ in range(weight)]
        self.steps: list[Step] = []

    def question(self, id_: str) -> Question:
        """A script and what it should give."""
        return question_of(id_, "random scripts", self.script())

    def script(self) -> list[Step]:
        """The steps of a script. Only the last may be refused."""
        self.oracle.restart()
        self.steps = []
        self.make()
        for _ in range(self.rng.choice((1, 2, 3, 3, 4, 5, 8))):
            if self.steps[-1].code or len(self.steps) >= 2 * MOST_STEPS:
                break
            made: Callable[[], None] = getattr(self, self.rng.choice(self.ways or ["make"]))
            made()
        return self.steps

    def send(self, command: Command) -> bool:
        """Carries out a step, unless the library lacks something for it, or the bench refuses it for reasons of its own."""
        kept = dict(self.oracle.shown), dict(self.oracle.buffers)
        step = self.oracle.step(command)
        if step.code in OWN_REFUSALS or step.code and self.chance(0.3):
            return False
        shape = step.shown[command.binds].shape if command.binds and not step.code else ()
        if not step.needs <= self.has or math.prod(shape) > MOST_ITEMS or len(shape) > self.most_axes:
            if not step.code:
                self.oracle.back(*kept)
            return False
        self.steps.append(step)
        return not step.code

    # ---- choices

    def chance(self, share: float) -> bool:
        return self.rng.random() < share

    def array(self) -> str:
        """A name that is bound."""
        return self.rng.choice([name for name in self.oracle.shown if name in NAMES])

    def free(self) -> str:
        """A name that is not bound, mostly."""
        found = [name for name in NAMES if name not in self.oracle.shown]
        return found[0] if found and self.chance(0.9) else self.rng.choice(NAMES)

    def shape(self, name: str) -> tuple[int, ...]:
        return self.oracle.shown[name].shape

    def lengths(self) -> tuple[int, ...]:
        """A shape."""
        rank = min(self.most_axes, self.rng.choice((0, 1, 1, 1, 2, 2, 2, 3)))
        return tuple(self.rng.choice((0, 1, 1, 2, 2, 3, 3, 4) if self.chance(0.5) else (2, 3, 4, 5)) for _ in range(rank))

    def number(self, type_: str) -> int:
        low, high = limits(type_)
        if self.chance(0.5):
            return self.rng.randint(max(low, -3), min(high, 9))
        return min(high, max(low, self.rng.choice((low, low + 1, high, high - 1, -1, 0, 1, 2, 7, 31, 32, 63, 64, high // 2 + 1))))

    def values(self, type_: str, count: int) -> tuple[int, ...]:
        if self.chance(0.55) and type_[1] != "b":
            return tuple(number % (limits(type_)[1] + 1) for number in range(count))
        if self.chance(0.3):
            return tuple(self.rng.choice((0, 1)) for _ in range(count))
        if self.chance(0.3):
            low, high = limits(type_)
            return tuple(self.rng.choice((low, high, low + 1, high - 1)) for _ in range(count))
        return tuple(self.number(type_) for _ in range(count))

    # ---- index lists

    def slice(self, length: int) -> Slice:
        def bound() -> Optional[int]:
            return None if self.chance(0.4) else self.rng.randint(-length - 2, length + 2)

        return Slice(bound(), bound(), self.rng.choice((None, None, None, 1, 2, 3, -1, -1, -2, -3, 7, -7)))

    def entry(self, length: int) -> Any:
        if self.chance(0.2):
            return self.rng.randint(-length - self.chance(0.05), max(0, length - 1) + self.chance(0.05))
        return self.slice(length)

    def index(self, shape: Sequence[int], arrays: bool = True) -> tuple[Any, ...]:
        """An index list, a third of which have arrays."""
        if arrays and shape and self.chance(0.35):
            found = self.listed(shape)
            if found:
                return found
        entries: list[Any] = [self.entry(length) for length in shape[:self.rng.randint(min(1, len(shape)), len(shape))]]
        if self.chance(0.15):
            entries.insert(self.rng.randint(0, len(entries)), None)
        if self.chance(0.15) or not entries:
            entries.insert(self.rng.randint(0, len(entries)), ...)
        return tuple(entries)

    def listed(self, shape: Sequence[int]) -> tuple[Any, ...]:
        """An index list with one array or two, or nothing if the library has no such."""
        entries: list[Any] = []
        axis, count, arrays = 0, self.rng.choice((0, 1, 2, 2, 3)), 0
        while axis < len(shape):
            if arrays < 2 and self.chance(0.6):
                made = self.mask(shape[axis:]) if self.chance(0.4) else self.list(shape[axis], count)
                if not made:
                    return ()
                entries.append(made[0])
                axis, arrays = axis + made[1], arrays + 1
            else:
                is_one = shape[axis] and self.chance(0.3)
                entries.append(self.rng.randrange(-shape[axis], shape[axis]) if is_one else self.entry(shape[axis]) if self.chance(0.4) else Slice())
                axis += 1
        if self.chance(0.1):
            entries.insert(self.rng.randint(0, len(entries)), None)
        return tuple(entries) if arrays else ()

    def list(self, length: int, count: int) -> Optional[tuple[str, int]]:
        """A new index array for an axis."""
        if "index_arrays" not in self.has or not self.lists:
            return None
        lengths = self.rng.choice(((count,), (count,), (count,), (), (count, 1), (1, count), (2, count)))
        far = self.chance(0.05)
        numbers = tuple(self.rng.randint(-length - far, max(0, length - 1) + far) for _ in range(math.prod(lengths)))
        return self.index_array(NewArray(self.unused(), self.lists[0], lengths, numbers), 1)

    def mask(self, shape: Sequence[int]) -> Optional[tuple[str, int]]:
        """A new mask for an axis, or for two."""
        if "masks" not in self.has:
            return None
        axes = 2 if len(shape) > 1 and "masks_of_axes" in self.has and self.chance(0.5) else 1
        lengths = tuple(length + self.chance(0.03) for length in shape[:axes])
        return self.index_array(NewArray(self.unused(), "|b1", lengths, tuple(self.rng.choice((False, True)) for _ in range(math.prod(lengths)))), axes)

    def unused(self) -> str:
        return next((name for name in LISTS if name not in self.oracle.shown), self.rng.choice(LISTS))

    def index_array(self, command: NewArray, axes: int) -> Optional[tuple[str, int]]:
        return (command.target, axes) if self.send(command) else None

    def places(self, length: int, count: int) -> Slice:
        """A slice that selects so many of the places of an axis."""
        if count == 0:
            return Slice(self.rng.randint(0, length), 0)
        step = self.rng.randint(1, max(1, (length - 1) // max(1, count - 1)))
        first = self.rng.randint(0, length - 1 - step * (count - 1))
        last = first + step * (count - 1)
        if self.chance(0.35):
            return Slice(last, first - 1 if first else None, -step)
        return Slice(first, last + 1, step if step > 1 else None)

    def pair(self, target: str) -> tuple[tuple[Any, ...], Operand]:
        """The items of a target to write, and items of an array of the same buffer that fit."""
        shape = self.shape(target)
        same = [name for name, buffer in self.oracle.buffers.items() if name in NAMES and buffer == self.oracle.buffers[target]]
        source = self.rng.choice(same)
        if len(self.shape(source)) != len(shape):
            source = target
        index: list[Any] = []
        given: list[Any] = []
        for length, other in zip(shape, self.shape(source)):
            count = self.rng.randint(min(1, length, other), min(length, other))
            is_one = self.chance(0.12) and other > 0
            made = None
            if self.chance(0.25) and count and length:
                made = self.written(length, count)
            index.append(made or self.places(length, count))
            given.append(self.places(other, 1 if is_one else count))
        return tuple(index) or (...,), Operand(source, tuple(given) or (...,))

    def written(self, length: int, count: int) -> Optional[str]:
        """A new list or mask for so many places of an axis."""
        chosen = self.rng.sample(range(length), count)
        if "masks" in self.has and self.chance(0.5):
            made = self.index_array(NewArray(self.unused(), "|b1", (length,), tuple(place in chosen for place in range(length))), 1)
        elif "index_arrays" in self.has and self.lists:
            made = self.index_array(NewArray(self.unused(), self.lists[0], (count,), tuple(chosen)), 1)
        else:
            made = None
        return made[0] if made else None

    # ---- steps, by the methods of an adapter

    def make(self) -> None:
        type_, shape = self.rng.choice(self.numbers if self.chance(0.85) else self.types), self.lengths()
        if math.prod(shape) > MOST_ITEMS:
            shape = shape[:2]
        self.send(NewArray(self.free(), type_, shape, self.values(type_, math.prod(shape))))
        if not self.steps:
            self.send(NewArray("a", self.numbers[0], (3,), (0, 1, 2)))

    def take(self) -> None:
        name = self.array()
        self.send(Select(self.free(), name, self.index(self.shape(name))))

    def argument(self, name: str, index: tuple[Any, ...]) -> Any:
        """A literal, or an array that mostly fits the items of an index list."""
        type_ = self.oracle.shown[name].type
        if self.chance(0.35):
            return self.number(type_)
        found = self.oracle.session.send(f"t_ = {Operand(name, index)}")
        if not found.accepted:
            return self.number(type_)
        shape = list(self.oracle.look("t_").shape)
        self.oracle.session.send("undo")
        if shape and self.chance(0.5):
            at = self.rng.randrange(len(shape))
            shape[at] = self.rng.choice((0, 1, 1, 1, shape[at] + 1))
        if self.chance(0.2):
            shape = shape[1:] if self.chance(0.5) else [1, *shape]
        other, own = self.free(), self.rng.choice(self.types) if self.chance(0.3) else type_
        if math.prod(shape) <= MOST_ITEMS and other != name and self.send(NewArray(other, own, tuple(shape), self.values(own, math.prod(shape)))):
            return Operand(other)
        return self.number(type_)

    def put(self) -> None:
        name = self.array()
        if self.chance(0.55):
            index, value = self.pair(name)
            self.done(Set(name, index, value))
        else:
            index = self.index(self.shape(name))
            self.done(Set(name, index, self.argument(name, index)))

    def update(self) -> None:
        name, word = self.array(), self.rng.choice(OPERATIONS)
        if self.chance(0.55):
            index, value = self.pair(name)
            self.done(Update(name, index, word, value))
        else:
            index = self.index(self.shape(name))
            self.done(Update(name, index, word, self.argument(name, index)))

    def done(self, command: Command) -> None:
        """A step, unless an index array that was made for it is missing."""
        if not self.steps[-1].code:
            self.send(command)

    def operand(self, name: str) -> Operand:
        return Operand(name, self.index(self.shape(name), False)) if self.chance(0.25) else Operand(name)

    def op(self) -> None:
        name = self.array()
        left, word = self.operand(name), self.rng.choice(OPERATIONS)
        right = self.argument(name, left.index or (...,)) if self.chance(0.7) else self.operand(self.array())
        if self.chance(0.2):
            right = self.rng.choice((-1, -1, 0, 2))
        self.done(Binary(self.free(), word, left, right))

    def compare(self) -> None:
        name = self.array()
        left, word = self.operand(name), self.rng.choice(COMPARISONS)
        right = self.rng.choice(FAR) if self.chance(0.3) else self.argument(name, left.index or (...,))
        self.done(Binary(self.free(), word, left, right))

    def unary(self) -> None:
        self.send(Unary(self.free(), self.rng.choice(("neg", "not")), self.operand(self.array())))

    def reduce(self) -> None:
        name = self.array()
        rank = len(self.shape(name))
        axis = None if self.chance(0.35) else self.rng.randint(-rank - self.chance(0.05), max(0, rank - 1) + self.chance(0.05))
        self.send(Reduce(self.free(), self.rng.choice(REDUCTIONS), name, axis, self.chance(0.3)))

    def reshape(self) -> None:
        name = self.array()
        count = math.prod(self.shape(name))
        shape: list[int] = []
        while count > 1 and len(shape) < 4 and self.chance(0.85):
            factor = self.rng.choice([each for each in range(1, count + 1) if count % each == 0])
            shape.append(factor)
            count //= factor
        shape.append(count)
        if self.chance(0.3):
            shape[self.rng.randrange(len(shape))] = -1
        if self.chance(0.05):
            shape.append(self.rng.choice((2, 0, -1)))
        self.send(Reshape(self.free(), name, tuple(shape)))

    def transpose(self) -> None:
        name = self.array()
        rank = len(self.shape(name))
        order = self.rng.sample(range(rank), rank)
        axes = tuple(axis - rank * self.chance(0.2) for axis in order)
        self.send(Transpose(self.free(), name, None if self.chance(0.4) else axes))

    def broadcast(self) -> None:
        name = self.array()
        shape = [self.rng.choice((1, 2, 3)) if length == 1 else length for length in self.shape(name)]
        self.send(Broadcast(self.free(), name, tuple([self.rng.choice((1, 2))] * self.chance(0.5) + shape)))

    def copy(self) -> None:
        self.send(Copy(self.free(), self.array(), self.rng.choice("CF")))

    def cast(self) -> None:
        self.send(Cast(self.free(), self.array(), self.rng.choice(self.types)))
