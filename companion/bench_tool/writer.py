"""Writes a random script, command by command, as `scripts.write` and `testing.scripts` do."""
from __future__ import annotations

import itertools
import math
import re
from functools import lru_cache
from random import Random
from typing import Any, Callable, Collection, Iterable, Iterator, NamedTuple, Optional, Sequence

from . import commands, item_types, language, needs
from .commands import Argument, Command, Operand, Slice
from .item_types import ItemType
from .parsing import ParseError, parse
from .profiles import INTEGERS, NUMBERS, RECORDS, SHORT_TYPES, STRINGS, WORDS, WRONG_LINES, WRONG_TYPES, Profile
from .session import REFUSAL

MOST_AXES, MOST_ITEMS, FAR = 64, 2**24, 10**29
NAMES = "abcdefg"
LITERALS: list[commands.Literal] = [
    0, 1, -1, 2, 3, 7, 8, 31, 63, 64, 127, 128, 255, 256, 2**31, 2**63, -(2**63), 2**64, FAR, -FAR, True, False, b"a", b"",
]
BYTES = b"abzQ09 \x00\x80\xff"
FILES = ["a.npy", "b.npy", "_", "9-.x"]
BOUND = re.compile(r"ok (\w+) (.+) \(([\d, ]*)\) (new|view|copy)")
DRAWN = 61  # values of an array that are drawn; the others repeat them
KEPT = 8  # changes that `undo` takes back, where the script is for a library

# What comes of a library's commands where they are not named.
USUAL = [word for word in commands.KINDS if word not in ("load", "save", "del", "undo", "names", "print", "info", "format", "shares")]
Items = list[Any]  # of an index list


class Step(NamedTuple):
    """A line of a script, its command (None for a line that is none) and its reply."""

    command: Optional[Command]
    line: str
    reply: str

    @property
    def code(self) -> str:
        """The code of a refusal, or nothing."""
        refused = REFUSAL.fullmatch(self.reply)
        return refused[1] if refused else ""


class Known(NamedTuple):
    """What a name is bound to: the type, the shape, the number of the buffer, and whether it is a view."""

    type: str
    shape: tuple[int, ...]
    buffer: int
    is_view: bool

    def kind(self) -> ItemType:
        return item_types.read(self.type)


def can_cast(old: str, new: str) -> bool:
    """Whether the cast exists: between equal patterns, and from a scalar to every value of a record of its kind."""
    was, becomes = item_types.read(old).pattern(), item_types.read(new).pattern()
    return was == becomes or len(was) == 1 and set(becomes) <= {was, "(", ")"}


@lru_cache(None)
def edges_of(low: int, high: int) -> list[int]:
    """The numbers near the ends of the ranges of types, and small ones, as far as they are within a range; the smallest come first."""
    ends = {sign * (2**bits + more) for bits in (0, 1, 3, 7, 8, 15, 16, 31, 32, 63, 64) for sign in (1, -1) for more in (-1, 0, 1)}
    return sorted((end for end in ends if low <= end <= high), key=lambda end: (abs(end), end < 0))


def literal(rng: Random, type_: str, edges: bool = False) -> commands.Literal:
    """A literal for an item of a type; with edges, one that is often near the ends of a number's range, or of a narrower type's."""
    kind = item_types.read(type_)
    if kind.fields:
        return tuple(literal(rng, str(each.type), edges) for each in kind.fields)
    if kind.kind == "S":
        return bytes(rng.choice(BYTES) for _ in range(rng.randint(0, kind.size + 1)))
    low, high = kind.bounds()
    return rng.choice(edges_of(low, high)) if edges else rng.randint(max(low, -20), min(high, 99))


def _known(words: Iterable[str], among: Collection[str]) -> set[str]:
    """Some words. `ValueError` if there is one that is not known."""
    for word in words:
        if word not in among:
            raise ValueError(f"{word!r} is none of {' '.join(sorted(among))}")
    return set(words)


class Library:
    """What a library has, by a profile: the types that may come, and whether a command and its result may."""

    def __init__(self, profile: Profile):
        self.is_any = profile.types is None and profile.commands is None and profile.needs is None
        self.words = None if profile.needs is None else _known(profile.needs, needs.ALL)
        self.commands, self.operations = self.named_commands(commands.KINDS if self.is_any else profile.commands or USUAL)
        given = [*NUMBERS, *STRINGS, *RECORDS] if profile.types is None else [str(item_types.read(text)) for text in profile.types]
        self.named = None if profile.types is None else frozenset(given)
        types = [text for text in given if self.holds(text, (1,))]
        patterns = {text: item_types.read(text).pattern() for text in types}
        self.numbers = [text for text in types if patterns[text] == "n"]
        self.strings = [text for text in types if patterns[text] == "s"]
        self.records = [text for text in types if patterns[text].startswith("(")]
        self.integers = [text for text in INTEGERS if self.holds(text, (1,))]
        self.short = SHORT_TYPES if self.is_any else []

    def named_commands(self, words: Iterable[str]) -> tuple[set[str], dict[str, list[str]]]:
        """The kinds of commands, and the words that OP, UN and RED stand for: all of them, or those that are named."""
        operations = language.operations()
        named = _known(words, {*commands.KINDS, *(word for each in operations.values() for word in each)})
        kinds = named & commands.KINDS.keys()
        for key, kind, others in (("OP", "binary", {"binary", "upd"}), ("UN", "unary", {"unary"}), ("RED", "reduce", {"reduce"})):
            if chosen := named.intersection(operations[key]):
                operations = {**operations, key: [word for word in operations[key] if word in chosen]}
                kinds |= set() if kinds & others else {kind}
        return kinds, operations

    def has(self, *words: str) -> bool:
        return self.words is None or self.words.issuperset(words)

    def emits(self, *words: str) -> bool:
        """Whether the library has one of these commands."""
        return not self.commands.isdisjoint(words)

    def offers(self, name: str) -> bool:
        """Whether a weight of the profile is of use."""
        is_lacking = name == "broadcast" and not self.has("repeated") or name in ("field", "text") and not self.records
        return self.is_any or self.emits(*WORDS.get(name, (name,))) and not is_lacking

    def holds(self, type_: str, shape: tuple[int, ...]) -> bool:
        return (self.named is None or type_ in self.named) and (self.words is None or self.has(*needs.of_array((type_, shape))))

    def takes(self, command: Command, bound: dict[str, Known]) -> bool:
        """Whether a command may be sent, as far as can be told before its reply."""
        if self.is_any:
            return True
        if not self.emits(command.word) or any(name not in bound for name in command.reads):
            return False
        if isinstance(command, (commands.Set, commands.Update)) and not self.has("views"):
            buffer = bound[command.target].buffer
            if sum(known.buffer == buffer for known in bound.values()) > 1:
                return False
        arrays = {name: (known.type, known.shape) for name, known in bound.items() if name != command.binds or name in command.reads}
        return self.words is None or self.has(*needs.of(command, arrays))


class Writer:
    """Writes one script. Each command is a method, which sends one line or more."""

    def __init__(self, rng: Random, ask: Callable[[str], str], profile: Profile, files: Sequence[str] = ()):
        self.rng, self.ask, self.profile, self.library = rng, ask, profile, Library(profile)
        self.steps: list[Step] = []
        self.bound: dict[str, Known] = {}
        self.states: list[dict[str, Known]] = []
        self.buffers, self.own = itertools.count(), itertools.cycle("ijklmn")
        self.new_files, self.files = list(files), list(files)
        self.deck = [name for name, weight in profile.weights.items() for _ in range(weight) if self.library.offers(name)]
        if not self.deck:
            raise ValueError("the profile and the library have no command in common")
        self.far = self.library.has("far")
        self.roomy = self.chance(profile.roomy)

    def write(self, size: int) -> list[Step]:
        """This many commands, followed by questions that show what every name is bound to."""
        for _ in range(20 * size):
            if len(self.steps) < size:
                self.step()
        return self.end()

    def step(self) -> None:
        """One command, with the arrays that it wants."""
        chosen = self.rng.choice(self.deck)
        getattr(self, chosen if self.bound or "make" not in self.deck else "make")()

    def end(self) -> list[Step]:
        """All lines; the last ones ask what every name is bound to."""
        for name in list(self.bound):
            self.send(commands.Info(name))
            self.send(commands.Print(name))
        return self.steps

    def chance(self, share: float) -> bool:
        """Whether something less simple comes: Hypothesis shrinks to False."""
        return share > 0 and self.rng.randint(0, 99) >= 100 - 100 * share

    def send(self, command: Command, source: str = "") -> bool:
        """Sends a command if the library has what it needs, and takes in the reply: whether it was accepted. A view is of the buffer of its
        source. What comes out as an array that the library cannot hold is taken back."""
        return self.library.takes(command, self.bound) and self.say(command, str(command), source)

    def say(self, command: Optional[Command], line: str, source: str = "") -> bool:
        step = Step(command, line, self.ask(line))
        is_accepted, before = step.reply.startswith("ok"), dict(self.bound)
        if step.code and not self.profile.refused:
            return False
        is_change = self.take(step, source)
        bound = self.bound[command.binds] if command and command.binds and is_change else None
        if bound and not self.library.is_any and not self.library.holds(bound.type, bound.shape):
            self.ask("undo")
            self.bound = before
            return False
        if is_change:
            self.states.append(before)
            self.states = self.states if self.library.is_any else self.states[-KEPT:]
        self.steps.append(step)
        return is_accepted

    def take(self, step: Step, source: str) -> bool:
        """Takes in a reply: whether `undo` can take the line back."""
        if found := BOUND.match(step.reply):
            is_view = found[4] == "view"
            buffer = self.bound[source].buffer if is_view and source in self.bound else next(self.buffers)
            self.bound[found[1]] = Known(found[2], tuple(map(int, re.findall(r"\d+", found[3]))), buffer, is_view)
        elif step.reply == "ok undo":
            self.bound = self.states.pop() if self.states else {}
        elif step.reply.startswith("ok del"):
            del self.bound[step.line.split()[1]]
        return bool(found) or step.reply.startswith(("ok set", "ok upd", "ok del"))

    def some(self, names: Sequence[str]) -> str:
        wide = [name for name in names if name in NAMES and len(self.bound[name].shape) > 1] if self.chance(self.profile.wide) else []
        return self.rng.choice(wide or list(names))

    def source(self) -> str:
        """A name, nearly always one that is bound."""
        return self.rng.choice("xyz") if not self.bound or self.chance(0.03 * self.library.is_any) else self.some(list(self.bound))

    def name(self) -> str:
        return self.rng.choice(NAMES)

    def known(self, name: str) -> Known:
        return self.bound.get(name, Known("<i4", (3,), -1, False))

    def number(self) -> str:
        """A name, mostly of an array of numbers."""
        found = [name for name, known in self.bound.items() if known.kind().pattern() == "n"]
        return self.source() if not found or self.chance(0.1) else self.some(found)

    def scattered(self) -> str:
        """A name, mostly of a view of several items, if there is one."""
        several = [name for name, known in self.bound.items() if math.prod(known.shape) > 3]
        found = [name for name in several if self.bound[name].is_view] or several
        return self.source() if not found or self.chance(0.2) else self.rng.choice(found)

    def related(self, name: str) -> str:
        """A name, mostly of an array in the same buffer."""
        if name not in self.bound or self.chance(0.2):
            return self.source()
        return self.rng.choice([other for other, known in self.bound.items() if known.buffer == self.bound[name].buffer])

    def array(self, name: str, type_: str, shape: Sequence[int], edges: bool = False) -> bool:
        """Binds a name to an array of random values."""
        count = math.prod(shape)
        drawn = [literal(self.rng, type_, edges) for _ in range(min(count, DRAWN))]
        return self.send(commands.NewArray(name, type_, tuple(shape), tuple(itertools.islice(itertools.cycle(drawn), count))))

    def type(self) -> str:
        """A type that the library has."""
        scalars, records = self.library.numbers + self.library.strings, self.library.records
        return self.rng.choice(records if not scalars or records and self.chance(self.profile.records) else scalars)

    def shape(self) -> tuple[int, ...]:
        lengths, ranks = (self.profile.lengths, self.profile.ranks) if self.roomy else ((1, 2, 3, 0, 4), (0, 1, 1, 2, 2, 3, 4))
        lengths = lengths if self.library.has("size_0") else [length for length in lengths if length]
        ranks = ranks if self.library.has("rank_0") else [rank for rank in ranks if rank]
        return tuple(self.rng.choice(lengths) for _ in range(self.rng.choice(ranks)))

    def make(self) -> None:
        name, type_, way = self.name(), self.type(), self.rng.randint(0, 9)
        if way == 9:
            self.send(commands.Zeros(name, self.rng.choice([type_, *self.library.short]), self.shape()))
        elif way == 8:
            self.send(commands.Full(name, type_, self.shape(), literal(self.rng, type_)))
        elif way == 7 and self.library.numbers:
            begin, end, step = (self.rng.randint(-3, 12) for _ in range(3))
            self.send(commands.Arange(name, self.rng.choice(self.library.numbers), begin, end, step))
        else:
            self.array(name, type_, self.shape(), self.chance(0.4))

    def integer(self, length: int) -> int:
        if not length or self.chance(0.1):
            return self.rng.choice([0, length, -length - 1, *([FAR, -FAR] if self.far else [])])
        return self.rng.randint(-length, length - 1)

    def bound_of(self, length: int) -> Optional[int]:
        """The start or the stop of a slice, often omitted."""
        if not self.chance(0.2 if self.roomy else 0.6):
            return None
        return self.rng.choice([FAR, -FAR]) if self.far and self.chance(0.05) else self.rng.randint(-length - 2, length + 2)

    def steps_of(self) -> list[Optional[int]]:
        """The steps of slices that the library has, each as often as it comes."""
        steps: list[Optional[int]] = [None, None, None, 1, 1, 0]
        steps += [2, 3, 7, FAR] if self.library.has("steps") else []
        steps += [-1, -2, -3, -5, -FAR] if self.library.has("negative_steps") else []
        return [step for step in steps if self.far or step not in (FAR, -FAR)]

    def slice(self, length: int) -> Slice:
        return Slice(self.bound_of(length), self.bound_of(length), self.rng.choice(self.steps_of()))

    def items(self, name: str) -> Items:
        """An index list: at least one item, `...` at most once, rarely one axis too many, and sometimes names of arrays."""
        shape = self.known(name).shape
        shape = (*shape, 3)[:len(shape) + self.chance(0.05)]
        axes = self.rng.randint(min(self.profile.fewest, len(shape)), len(shape))
        arrays = self.profile.arrays if self.chance(self.profile.lists) else 0
        common = [self.rng.choice([2, 0, 1, 2, 3, 3, 4]) for _ in range(self.rng.choice([1, 0, 1, 1, 2, 3]))]
        cut = self.rng.randint(0, axes) if self.chance(0.3) else axes
        found = list(self.items_of(shape[:cut], arrays, common))
        if cut < axes or self.chance(0.1):
            found += [..., *self.items_of(shape[len(shape) - axes + cut:], arrays, common)]
        for _ in range(self.rng.choice([0, 0, 1, 2]) if self.library.has("new_axes") else 0):
            found.insert(self.rng.randint(0, len(found)), None)
        return found or [...]

    def items_of(self, shape: Sequence[int], arrays: float, common: list[int]) -> Iterator[Any]:
        """The items for some axes; a share of them are arrays, which have a common shape."""
        while shape:
            name, taken = self.index_array(shape, common) if self.chance(arrays) else ("", 1)
            yield name or (self.integer if self.chance(0.15 if self.roomy else 0.45) else self.slice)(shape[0])
            shape = shape[taken if name else 1:]

    def index_array(self, shape: Sequence[int], common: list[int]) -> tuple[str, int]:
        """Binds a mask or an index array for the first of some axes, mostly of a common shape: its name, and for how many axes it is. The
        name is empty if the library has no such array."""
        if self.chance(0.04) and self.library.is_any:
            return self.source(), 1
        name, fits = next(self.own), not self.chance(0.2)
        has_arrays = self.library.integers and self.library.has("index_arrays")
        has_masks = self.library.has("masks") and self.library.holds("|b1", (1,))
        if has_masks and (not has_arrays or self.chance(self.profile.masks)):
            axes = self.rng.choice(self.profile.mask_axes if self.library.has("masks_of_axes") else [1])
            own, taken = [length + self.chance(0.02) for length in shape[:axes]], min(axes, len(shape))
            size = math.prod(own)
            trues = self.places(size, min(size, common[-1]) if fits and common else self.rng.randint(0, size))
            return (name if self.bind(name, "|b1", own, [int(place in trues) for place in range(size)]) else ""), taken
        if not has_arrays:
            return "", 1
        type_ = self.rng.choice(self.library.integers)
        own = [length if fits and not self.chance(0.2) else self.rng.randint(1, 3) for length in common[self.rng.choice([0, 0, 0, 1]):]]
        low, high = (0 if type_[1] == "u" else -shape[0]), max(0, shape[0] - 1) + self.chance(0.03)
        return (name if self.bind(name, type_, own, [self.rng.randint(low, high) for _ in range(math.prod(own))]) else ""), 1

    def places(self, size: int, count: int) -> set[int]:
        """So many places of an array of some size."""
        free = list(range(size))
        return {free.pop(self.rng.randrange(len(free))) for _ in range(count)}

    def bind(self, name: str, type_: str, shape: list[int], values: list[int]) -> bool:
        """Binds a name to an array, sometimes in another order of memory."""
        turned: list[Command] = [commands.Transpose(name, name)]
        turned += [commands.Select(name, name, (Slice(None, None, -1),))] if shape and self.library.has("negative_steps") else []
        turn = self.rng.choice(turned) if shape and self.chance(0.3) else None
        made = shape[::-1] if isinstance(turn, commands.Transpose) else shape
        is_bound = self.send(commands.NewArray(name, type_, tuple(made), tuple(values)))
        return is_bound and (turn is None or self.send(turn, name))

    def index(self) -> None:
        source = self.source()
        items = self.items(source)
        self.send(commands.Select(self.name(), source, tuple(items)), source)

    def alias(self) -> None:
        source, name = self.source(), self.name()
        if name != source:
            self.send(commands.Select(name, source), source)

    def transpose(self) -> None:
        source = self.source()
        rank = len(self.known(source).shape)
        order = list(range(rank))
        if rank > 1:
            self.rng.shuffle(order)
        axes = [axis - self.rng.choice([0, 0, rank]) for axis in order]
        if self.chance(0.1):
            axes = axes[:-1] + [self.rng.choice([0, rank, -rank - 1])]
        self.send(commands.Transpose(self.name(), source, tuple(axes) if self.chance(0.6) else None), source)

    def field(self) -> None:
        source = self.source()
        inner = [each.name for each in self.known(source).kind().fields]
        chosen = self.rng.choice("zX") if not inner or self.chance(0.1) else self.rng.choice(inner)
        self.send(commands.Field(self.name(), source, chosen), source)

    def broadcast(self) -> None:
        """A shape that mostly fits."""
        source = self.source()
        lengths = [self.rng.randint(0, 4) if length == 1 else length for length in self.known(source).shape]
        if len(lengths) < 5:
            lengths = [self.rng.randint(0, 3) for _ in range(self.rng.choice([0, 0, 0, 1, 1, 2]))] + lengths
        if lengths and self.chance(0.15):
            lengths[self.rng.randrange(len(lengths))] = self.rng.choice([0, 1, 2, 5, *([MOST_ITEMS + 1, FAR] if self.far else [])])
        if self.chance(0.05):
            lengths = self.rng.choice([lengths[1:], [1] * (MOST_AXES + 1)])
        self.send(commands.Broadcast(self.name(), source, tuple(lengths)), source)

    def factored(self, count: int) -> list[int]:
        """Lengths above 1 with this product."""
        lengths: list[int] = []
        for factor in range(2, count + 1):
            while count % factor == 0:
                count //= factor
                if lengths and (len(lengths) > 6 or self.chance(0.6)):
                    lengths[self.rng.randrange(len(lengths))] *= factor
                else:
                    lengths.insert(self.rng.randint(0, len(lengths)), factor)
        return lengths

    def regrouped(self, shape: Sequence[int]) -> list[int]:
        """Lengths with the product of a shape: neighbours among its axes are joined, and split."""
        lengths, joined = [], 1
        for length in shape:
            joined *= length
            if self.chance(0.6):
                lengths += [joined] if self.chance(0.4) else self.factored(joined)
                joined = 1
        return lengths + self.factored(joined)

    def spoiled(self, numbers: list[int]) -> list[int]:
        """The numbers of an invalid reshape."""
        at, low = self.rng.randint(0, len(numbers)), self.rng.choice([-2, -7, *([-FAR] if self.far else [])])
        before, rest, far = numbers[:at], numbers[at:], [MOST_ITEMS + 1, FAR] if self.far else []
        faults = [[-1, *numbers, -1], [*before, low, *rest], [*before, 0, *rest], [*before, 0, -1, *rest], [*before, *rest[1:]],
                  [*before, self.rng.choice([2, 3, 7, *far]), *rest[1:]], [self.rng.choice([1, -1, 2])] * (MOST_AXES + 2) + numbers]
        return self.rng.choice(faults)

    def reshape(self) -> None:
        """By numbers of which one is often -1, and which sometimes fit no array of that shape."""
        source = self.scattered()
        shape = self.known(source).shape
        if math.prod(shape) == 0:
            numbers = [self.rng.choice([0, 1, 2, 3, 5]) for _ in range(self.rng.randint(0, 3))]
            numbers.insert(self.rng.randint(0, len(numbers)), 0)
        else:
            numbers = self.factored(math.prod(shape)) if self.chance(0.3) else self.regrouped(shape)
            for _ in range(self.rng.choice([0, 0, 1, 2])):
                numbers.insert(self.rng.randint(0, len(numbers)), 1)
        if numbers and self.chance(0.35):
            numbers[self.rng.randrange(len(numbers))] = -1
        if self.chance(0.2):
            numbers = self.spoiled(numbers)
        self.send(commands.Reshape(self.name(), source, tuple(numbers)), source)

    def copy(self) -> None:
        self.send(commands.Copy(self.name(), self.scattered(), self.rng.choice("CF")))

    def value(self, known: Known) -> commands.Literal:
        """A literal for an item of an array: for a record often a single number, and rarely one that does not fit."""
        if self.chance(0.08) and self.library.is_any:
            return literal(self.rng, self.rng.choice([*RECORDS, "|S3", "<i8"]))
        pattern = known.kind().pattern()
        if pattern != "n" and "s" not in pattern and self.chance(0.3) or self.library.is_any and self.chance(0.05):
            return self.rng.randint(-3, 120)
        return literal(self.rng, known.type, self.chance(0.2))

    def set(self) -> None:
        source = self.source()
        items = self.items(source)
        self.send(commands.Set(source, tuple(items), self.value(self.known(source))))

    def steps_with(self, length: int, count: int) -> Slice:
        """A slice with `count` items of an axis that has at least as many."""
        turned = self.library.has("negative_steps")
        if count == 0:
            at = self.rng.randint(0, length)
            return Slice(at, at, self.rng.choice([None, 1, *([-1] if turned else [])]))
        if count == 1:
            at = self.rng.randrange(length)
            return Slice(at, at + 1, self.rng.choice([None, 1, *([2] if self.library.has("steps") else [])]))
        step = self.rng.randint(1, (length - 1) // (count - 1)) if self.library.has("steps") else 1
        first = self.rng.randint(0, length - 1 - step * (count - 1))
        last = first + step * (count - 1)
        if turned and self.chance(0.4):
            return Slice(last, first - 1 if first else None, -step)
        return Slice(first or self.rng.choice([None, 0]), last + 1, step)

    def axis_pair(self, target: Optional[int], source: Optional[int]) -> tuple[Items, Items]:
        """The items of one axis of a target and of a source, shifted, reversed, spread or repeated against one another; a length of
        None is no axis."""
        turned: list[Any] = [Slice(None, None, -1)] if self.library.has("negative_steps") else []
        if target is None:
            last = [Slice(None, -source, -source) if turned else Slice(source - 1)] if source else [Slice()]
            return [], [self.rng.choice([0, Slice(0, 1), *last]) if source else Slice()]
        if source is None:
            return [self.rng.choice([Slice(), *turned, self.rng.randrange(target) if target else Slice()])], []
        most = min(target, source)
        count = self.rng.randint(int(most > 0 and not self.chance(0.1)), most) if self.chance(0.6) else most
        if source and self.chance(0.15):
            return [self.steps_with(target, self.rng.randint(int(target > 0), target))], [self.steps_with(source, 1)]
        return [self.steps_with(target, count)], [self.steps_with(source, count)]

    def pair(self, target: str) -> tuple[Items, Argument]:
        """The items of a target to write, and a source that mostly broadcasts to them."""
        if self.chance(self.profile.fitted):
            items = self.items(target)
            return items, Operand(self.fitting(target, items))
        source = self.related(target)
        if self.chance(0.1):
            items = self.items(target)
            return items, Operand(source, tuple(self.items(source)))
        if self.known(source).shape == self.known(target).shape and self.chance(0.2):
            return [...], Operand(source)
        shapes = reversed(self.known(target).shape), reversed(self.known(source).shape)
        pairs = [self.axis_pair(one, other) for one, other in itertools.zip_longest(*shapes)]
        taken, given = ([item for pair in reversed(pairs) for item in pair[side]] or [...] for side in (0, 1))
        return taken, Operand(source, tuple(given))

    def fitting(self, target: str, items: Items) -> str:
        """The name of an array that broadcasts to some items of a target, mostly a new one of their type."""
        if not self.send(commands.Select("v", target, tuple(items)), target):
            return self.source()
        known = self.bound["v"]
        if self.chance(0.4):
            return self.rng.choice([name for name, other in self.bound.items() if other.shape == known.shape])
        shape = [self.rng.choice([length, length, length, 1]) for length in known.shape[self.rng.choice([0, 0, 0, 1]):]]
        while math.prod(shape) > 300:
            shape.pop(0)
        self.array("v", known.type, shape)
        return "v"

    def assign(self) -> None:
        target = self.source()
        items, source = self.pair(target)
        self.send(commands.Set(target, tuple(items), source))

    def operand(self) -> Operand:
        source = self.number()
        return Operand(source, tuple(self.items(source)) if self.chance(0.5) else None)

    def operator(self, key: str) -> str:
        return self.rng.choice(self.library.operations[key])

    def literal(self, left: str) -> commands.Literal:
        """A literal beside an operand."""
        kind = self.known(left).kind()
        if self.library.is_any or kind.pattern() != "n":
            return self.rng.choice(LITERALS)
        low, high = kind.bounds()
        fits = [value for value in LITERALS if isinstance(value, int) and (self.far or low <= value <= high)]
        return self.rng.choice(fits if self.library.holds("|b1", (1,)) else [value for value in fits if not isinstance(value, bool)])

    def argument(self, left: str) -> Argument:
        """The second operand: often one that has the shape of the first or broadcasts to it."""
        if self.chance(0.35):
            return self.literal(left)
        shape = self.known(left).shape
        alike = [name for name, known in self.bound.items() if known.shape == shape[len(shape) - len(known.shape):] and known.kind().pattern() == "n"]
        return Operand(self.some(alike)) if alike and self.chance(0.5) else self.operand()

    def operation(self) -> None:
        word, left = self.operator("OP"), self.operand()
        self.send(commands.Binary(self.name(), word, left, self.argument(left.name)))

    def unary(self) -> None:
        self.send(commands.Unary(self.name(), self.operator("UN"), self.operand()))

    def reduction(self) -> None:
        source = self.number()
        axis = self.rng.choice([None, 0, 1, -1, 2, -2, 3])
        self.send(commands.Reduce(self.name(), self.operator("RED"), source, axis, self.chance(0.34)))

    def update(self) -> None:
        target = self.number()
        if self.chance(max(0.4, 0.6 * self.profile.fitted)):
            items, value = self.pair(target)
        else:
            items, value = self.items(target), self.argument(target)
        self.send(commands.Update(target, tuple(items), self.operator("OP"), value))

    def cast(self) -> None:
        source = self.source()
        fits = [new for new in self.library.numbers + self.library.strings + self.library.records if can_cast(self.known(source).type, new)]
        type_ = self.type() if self.chance(0.2) else self.rng.choice([self.known(source).type, *fits])
        self.send(commands.Cast(self.name(), source, self.rng.choice(WRONG_TYPES) if self.library.is_any and self.chance(0.05) else type_))

    def save(self) -> None:
        file = self.rng.choice(FILES)
        if self.send(commands.Save(self.source(), file)):
            self.files.append(file)

    def load(self) -> None:
        """Mostly a file that existed from the start, or that was saved."""
        others = [*FILES, "none.npy"] if self.library.is_any else []
        if self.files or others:
            file = self.new_files.pop() if self.new_files and self.chance(0.6) else self.rng.choice([*self.files, *others])
            self.send(commands.Load(self.name(), file))

    def shares(self) -> None:
        name = self.source()
        self.send(commands.Shares(name, self.related(name)))

    def twins(self) -> None:
        """Two views with the same steps and different starts, and whether they share bytes."""
        source, names = self.scattered(), self.rng.sample(NAMES, 2)
        steps = [step for step in [1, 2, 3, 4, -2, -3] if step == 1 or self.library.has("steps" if step > 0 else "negative_steps")]
        chosen = [self.rng.choice(steps) if length > 2 else 1 for length in self.known(source).shape]
        for name in names:
            items = [Slice(self.rng.choice([0, 0, 1, 2] if step > 0 else [-1, -2, -3]), None, step) for step in chosen]
            self.send(commands.Select(name, source, tuple(items) or (...,)), source)
        self.send(commands.Shares(*names))

    def print(self) -> None:
        self.send(commands.Print(self.source()))

    def info(self) -> None:
        self.send(commands.Info(self.source()))

    def format(self) -> None:
        self.send(commands.Format(self.source()))

    def delete(self) -> None:
        self.send(commands.Delete(self.source()))

    def undo(self) -> None:
        if self.states or self.library.is_any:
            self.send(commands.Undo())

    def names(self) -> None:
        self.send(commands.Names())

    def wrong(self) -> None:
        line = self.rng.choice(WRONG_LINES)
        try:
            self.say(parse(line), line)
        except ParseError:
            self.say(None, line)

    def text(self) -> None:
        """A record's format text, with marks, padding and records within it."""
        mark = self.rng.choice(["", "@", "^", "<", ">", "=", "!", "?"])
        self.send(commands.Zeros(self.name(), mark.strip("?") + self.record(mark == "?", 4), ()))

    def record(self, is_marked: bool, levels: int) -> str:
        """The text of a record, with marks other than `@` within it or none."""
        inner = "".join(self.member(is_marked, levels - 1, k) for k in range(self.rng.randint(1, 4)))
        return ("^" if is_marked else "") + f"T{{{inner}}}"

    def member(self, is_marked: bool, levels: int, number: int) -> str:
        padding = self.rng.choice(["", "", "", "x", "3x"])
        if levels and self.chance(0.3):
            return f"{padding}{self.record(is_marked, levels)}:n{number}:"
        letter = self.rng.choice(["s", "5s"]) if self.chance(0.1) else self.rng.choice("?bBhHiIlLqQ")
        return f"{padding}{self.rng.choice('^<>=!') if is_marked else ''}{letter}:n{number}:"
