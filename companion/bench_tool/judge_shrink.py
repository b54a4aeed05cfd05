"""The smallest script that still shows a finding: fewer steps, smaller arrays, plainer values and index lists."""
from __future__ import annotations

import math
import time
from dataclasses import replace
from typing import Any, Callable, Iterator, Optional, Sequence

from .cases import Question
from .commands import Broadcast, Command, NewArray, Operand, Reshape, Slice, Transpose
from .judge_oracle import OWN_REFUSALS, Oracle, Step, question_of
from .judge_verdicts import DIES, Verdict
from .needs import SIDES

MOST_STEPS, MOST_ITEMS = 6, 12  # of a finding that is small
SECONDS, MOST_SECONDS = 8.0, 24.0  # for a finding that is small, and for one that is not yet
PLAIN_TYPES = ("<i4", "<i8", "|b1")
Asked = Callable[[Question], Verdict]
Commands = Sequence[Command]


def size_of(commands: Commands) -> tuple[int, int]:
    """The steps of a script, and the items of the arrays that it makes."""
    return len(commands), sum(len(command.values) for command in commands if isinstance(command, NewArray))


def is_small(commands: Commands) -> bool:
    steps, items = size_of(commands)
    return steps <= MOST_STEPS and items <= MOST_ITEMS


def without(items: Sequence[Any], at: int) -> tuple[Any, ...]:
    return (*items[:at], *items[at + 1:])


def shorter(command: NewArray, axis: int, place: int) -> NewArray:
    """The array without a place of an axis."""
    length, inner = command.shape[axis], math.prod(command.shape[axis + 1:])
    kept = tuple(value for at, value in enumerate(command.values) if at // inner % length != place)
    return replace(command, shape=(*command.shape[:axis], length - 1, *command.shape[axis + 1:]), values=kept)


def smaller_arrays(command: NewArray) -> Iterator[Command]:
    """The array with an axis one shorter, without an axis of length 1, and with a plainer type and plainer values."""
    for axis, length in enumerate(command.shape):
        yield from (shorter(command, axis, place) for place in reversed(range(length)))
        if length == 1:
            yield replace(command, shape=without(command.shape, axis))
    yield from (replace(command, type=type_) for type_ in PLAIN_TYPES[:2] if command.type not in PLAIN_TYPES)
    if command.type[1] in "iu" and command.values:
        plain = tuple(range(min(len(command.values), 128))) + (0,) * (len(command.values) - 128)
        if command.values not in (plain, (0,) * len(plain)):
            yield replace(command, values=(0,) * len(plain))
            yield replace(command, values=plain)
    for at, value in enumerate(command.values):
        if command.type[1] in "iu" and len(command.values) < 13 and value not in (0, 1):
            yield replace(command, values=(*command.values[:at], 0, *command.values[at + 1:]))


def shorter_together(commands: Commands) -> Iterator[Commands]:
    """Scripts in which several arrays are shorter: all lack the last place of their first axis, or of their last, or all that have an axis of
    some length lack a place of it."""
    arrays = [command for command in commands if isinstance(command, NewArray) and command.values and command.shape]
    found = [{array: (axis, array.shape[axis] - 1) for array in arrays for axis in [at % len(array.shape)]} for at in (0, -1)]
    lengths = sorted({length for array in arrays for length in array.shape if length > 1}, reverse=True)
    found += [{array: (array.shape.index(length), place) for array in arrays if length in array.shape} for length in lengths for place in reversed(range(length))]
    for cut in found:
        yield tuple(shorter(each, *cut[each]) if isinstance(each, NewArray) and each in cut else each for each in commands)


def plainer_shapes(command: Command) -> Iterator[Command]:
    """A transpose that reverses the axes, a reshape to a length that follows from the others, a broadcast to a smaller shape."""
    if isinstance(command, Transpose) and command.axes is not None:
        yield replace(command, axes=None)
    elif isinstance(command, Reshape) and -1 not in command.shape:
        yield from (replace(command, shape=(*command.shape[:axis], -1, *command.shape[axis + 1:])) for axis in range(len(command.shape)))
    elif isinstance(command, Broadcast) and command.shape:
        yield replace(command, shape=command.shape[1:])
        yield from (replace(command, shape=(*command.shape[:axis], length - 1, *command.shape[axis + 1:]))
                    for axis, length in enumerate(command.shape) if length > 1)


def plainer_entries(entry: Any) -> Iterator[Any]:
    """Plainer entries in the place of one of an index list."""
    if isinstance(entry, Slice):
        for part in ("start", "stop", "step"):
            if getattr(entry, part) is not None:
                yield replace(entry, **{part: None})
        if entry.step is not None and abs(entry.step) > 2:
            yield replace(entry, step=2 if entry.step > 0 else -2)
        for part in ("start", "stop"):
            value = getattr(entry, part)
            if value is not None and abs(value) > 1:
                yield replace(entry, **{part: value - 1 if value > 0 else value + 1})
    elif type(entry) is int and entry not in (0, -1):
        yield 0 if entry > 0 else -1


def plainer_indexes(index: tuple[Any, ...]) -> Iterator[tuple[Any, ...]]:
    for at, entry in enumerate(index):
        if len(index) > 1:
            yield without(index, at)
        for other in plainer_entries(entry):
            yield (*index[:at], other, *index[at + 1:])


def plainer(command: Command) -> Iterator[Command]:
    """Plainer commands in the place of one."""
    if isinstance(command, NewArray):
        yield from smaller_arrays(command)
    yield from plainer_shapes(command)
    index = getattr(command, "index", None)
    if index:
        for other in plainer_indexes(index):
            yield replace(command, index=other)  # type: ignore[call-arg]
    for side in SIDES:
        part = getattr(command, side, None)
        if isinstance(part, Operand) and part.index:
            for found in (None, *plainer_indexes(part.index)):
                yield replace(command, **{side: Operand(part.name, found)})
        elif type(part) is int and part not in (0, 1):
            yield replace(command, **{side: 1})
    if getattr(command, "keep", False):
        yield replace(command, keep=False)  # type: ignore[call-arg]


def renamed(command: Command, old: str, new: str) -> Command:
    """The command with another name in the place of one that it reads."""
    def of_index(index: Any) -> Any:
        return index and tuple(new if type(entry) is str and entry == old else entry for entry in index)

    found: dict[str, Any] = {}
    for field in ("source", "name", "target"):
        if getattr(command, field, None) == old and not (field == "target" and command.binds):
            found[field] = new
    if getattr(command, "index", None):
        found["index"] = of_index(getattr(command, "index"))
    for side in SIDES:
        part = getattr(command, side, None)
        if isinstance(part, Operand):
            found[side] = Operand(new if part.name == old else part.name, of_index(part.index))
    return replace(command, **found)  # type: ignore[type-var]


def candidates(steps: Sequence[Step], may_end_earlier: bool) -> Iterator[Commands]:
    """Scripts that are a little smaller, those with fewer steps first."""
    commands = tuple(step.command for step in steps)
    if may_end_earlier:
        yield commands[:-1]
    for at in reversed(range(len(commands) - 1)):
        yield without(commands, at)
        yield from simpler_steps(steps, at)
    yield from shorter_together(commands)
    for at, command in enumerate(commands):
        for other in plainer(command):
            yield (*commands[:at], other, *commands[at + 1:])


def simpler_steps(steps: Sequence[Step], at: int) -> Iterator[Commands]:
    """Scripts in which what a step makes is its source, or is made as a new array."""
    commands = tuple(step.command for step in steps)
    command = commands[at]
    source = getattr(command, "source", "") or getattr(getattr(command, "left", getattr(command, "operand", None)), "name", "")
    if command.binds and source and source != command.binds:
        yield (*commands[:at], *(renamed(each, command.binds, source) for each in commands[at + 1:]))
    if command.binds and not isinstance(command, NewArray):
        shown = steps[at].shown[command.binds]
        yield (*commands[:at], NewArray(command.binds, shown.type, shown.shape, tuple(shown.items)), *commands[at + 1:])


class Shrinker:
    """Asks about smaller and smaller scripts of a finding."""

    def __init__(self, ask: Asked, has: frozenset[str], oracle: Oracle):
        self.ask, self.has, self.oracle = ask, has, oracle
        self.seen: set[Commands] = set()
        self.until = self.last = 0.0

    def asked(self, commands: Commands, found: Verdict) -> Optional[Verdict]:
        """The verdict on other steps, if the bench carries them out, the library has what they need, and they show the same kind of finding."""
        if not commands or tuple(commands) in self.seen:
            return None
        self.seen.add(tuple(commands))
        steps = self.oracle.steps(commands)
        if len(steps) < len(commands) or steps[-1].code in OWN_REFUSALS or not all(step.needs <= self.has for step in steps):
            return None
        verdict = self.ask(question_of(found.question.id, "random scripts", steps))
        is_same = verdict.verdict == found.verdict and (verdict.verdict == DIES or verdict.command.word == found.command.word)
        return verdict if is_same else None

    def smaller(self, found: Verdict) -> Optional[Verdict]:
        """A smaller finding of the same kind, if there is one and there is time."""
        for commands in candidates(self.oracle.steps(found.question.commands), found.verdict == DIES):
            if time.monotonic() > (self.until if is_small(found.question.commands) else self.last):
                return None
            if verdict := self.asked(commands, found):
                return verdict
        return None

    def least(self, found: Verdict) -> Verdict:
        """The smallest finding that is met."""
        self.until, self.last = time.monotonic() + SECONDS, time.monotonic() + MOST_SECONDS
        found = self.asked(found.question.commands[:found.step + 1], found) or found
        while other := self.smaller(found):
            found = other
        return found


def shrunk(found: Verdict, ask: Asked, has: frozenset[str], oracle: Oracle) -> Verdict:
    """The smallest finding of the same kind that is met in time."""
    return Shrinker(ask, has, oracle).least(found)
