"""Commands as values: a frozen dataclass for each kind of command. `bench_tool.parse` makes them of lines.

`str` gives the line in its canonical form, `to_json` plain values with the key "command", and `from_json` reads these.

>>> command = Set("a", (Slice(1), "i"), Operand("b", (..., -1)))
>>> str(command)
'set a[1:,i] = b[...,-1]'
>>> command.to_json()["index"], command.to_json()["value"]
([[1, None, None], 'i'], {'name': 'b', 'index': ['...', -1]})
>>> from_json(command.to_json()) == command
True
"""
from __future__ import annotations

from dataclasses import dataclass, fields
from typing import Any, Callable, ClassVar, Iterable, Iterator, Mapping, Optional, Union

from .session import literal

Literal = Union[int, bool, bytes, tuple[Any, ...]]  # a tuple is a record, of literals


@dataclass(frozen=True)
class Slice:
    """A slice of an index list; a part that is not written is None."""

    start: Optional[int] = None
    stop: Optional[int] = None
    step: Optional[int] = None

    def __str__(self) -> str:
        begin, end, step = ("" if part is None else str(part) for part in (self.start, self.stop, self.step))
        return f"{begin}:{end}:{step}" if step else f"{begin}:{end}"

    def python(self) -> slice:
        return slice(self.start, self.stop, self.step)


# Each item is an integer, a slice, `...`, None for a new axis, or the name of an array.
Index = tuple[Any, ...]


def index_text(index: Optional[Index]) -> str:
    """An index list in brackets; nothing for None."""
    return "" if index is None else f"[{','.join('...' if item is ... else str(item) for item in index)}]"


def python_index(index: Optional[Index], arrays: Mapping[str, Any]) -> tuple[Any, ...]:
    """An index list for a library that indexes as NumPy does: `x[python_index(index, arrays)]`.

    >>> python_index((0, Slice(None, None, 2), ..., None, "i"), {"i": [4, 5]})
    (0, slice(None, None, 2), Ellipsis, None, [4, 5])
    """
    found = (...,) if index is None else index
    return tuple(arrays[item] if isinstance(item, str) else item.python() if isinstance(item, Slice) else item for item in found)


@dataclass(frozen=True)
class Operand:
    """An array of an operation or an assignment: a name, with an index list or without."""

    name: str
    index: Optional[Index] = None

    def __str__(self) -> str:
        return self.name + index_text(self.index)


Argument = Union[Operand, Literal]


def argument_text(value: Argument) -> str:
    return str(value) if isinstance(value, Operand) else literal(value)


def shape_text(lengths: Iterable[int]) -> str:
    return f"({','.join(map(str, lengths))})"


def plain(value: Any) -> Any:
    """A part of a command as JSON has it: byte strings as latin-1, `...` as a string, slices and tuples as lists, operands as objects."""
    if isinstance(value, bytes):
        return value.decode("latin-1")
    if isinstance(value, Slice):
        return [value.start, value.stop, value.step]
    if isinstance(value, Operand):
        return {"name": value.name, "index": plain(value.index)}
    if isinstance(value, tuple):
        return list(map(plain, value))
    return "..." if value is ... else value


def _literal_of(value: Any) -> Literal:
    if isinstance(value, str):
        return value.encode("latin-1")
    return tuple(map(_literal_of, value)) if isinstance(value, list) else value


def _index_of(items: Any) -> Optional[Index]:
    if items is None:
        return None
    return tuple(Slice(*item) if isinstance(item, list) else ... if item == "..." else item for item in items)


def _argument_of(value: Any) -> Argument:
    return Operand(value["name"], _index_of(value["index"])) if isinstance(value, dict) else _literal_of(value)


def _lengths_of(values: Any) -> Optional[tuple[int, ...]]:
    return None if values is None else tuple(values)


# How a field is read from JSON, by its name. The others are as they are.
READERS: dict[str, Callable[[Any], Any]] = {
    "shape": _lengths_of, "axes": _lengths_of, "index": _index_of, "value": _argument_of, "left": _argument_of, "right": _argument_of,
    "operand": _argument_of, "values": _literal_of,
}


def names_of(value: Any) -> Iterator[str]:
    """The names in an operand or in an index list."""
    if isinstance(value, Operand):
        yield value.name
        yield from names_of(value.index)
    elif isinstance(value, tuple):
        yield from (item for item in value if isinstance(item, str))


class Command:
    """A command. `word` is its kind, the "command" of its JSON."""

    word: ClassVar[str] = ""
    # The fields with names that the command reads: those of an array, of an operand or of an index list.
    reading: ClassVar[tuple[str, ...]] = ()

    def to_json(self) -> dict[str, Any]:
        return {"command": self.word, **{field.name: plain(getattr(self, field.name)) for field in fields(self)}}  # type: ignore[arg-type]

    @property
    def binds(self) -> str:
        """The name that the command binds, or nothing."""
        return ""

    @property
    def reads(self) -> tuple[str, ...]:
        """The names that have to be bound, each once."""
        given = (getattr(self, field) for field in self.reading)
        found = (name for value in given for name in ([value] if isinstance(value, str) else names_of(value)))
        return tuple(dict.fromkeys(found))


@dataclass(frozen=True)
class Bind(Command):
    """`X = ..`"""

    target: str

    @property
    def binds(self) -> str:
        return self.target

    def __str__(self) -> str:
        return f"{self.target} = {self.value_text()}"

    def value_text(self) -> str:
        raise NotImplementedError


@dataclass(frozen=True)
class Zeros(Bind):
    """`X = zeros D S`"""

    type: str
    shape: tuple[int, ...]
    word = "zeros"

    def value_text(self) -> str:
        return f"zeros {self.type} {shape_text(self.shape)}"


@dataclass(frozen=True)
class Full(Bind):
    """`X = full D S L`"""

    type: str
    shape: tuple[int, ...]
    value: Literal
    word = "full"

    def value_text(self) -> str:
        return f"full {self.type} {shape_text(self.shape)} {literal(self.value)}"


@dataclass(frozen=True)
class Arange(Bind):
    """`X = arange D a b s`"""

    type: str
    start: int
    stop: int
    step: int
    word = "arange"

    def value_text(self) -> str:
        return f"arange {self.type} {self.start} {self.stop} {self.step}"


@dataclass(frozen=True)
class NewArray(Bind):
    """`X = array D S L..`"""

    type: str
    shape: tuple[int, ...]
    values: tuple[Literal, ...]
    word = "array"

    def value_text(self) -> str:
        return " ".join([f"array {self.type} {shape_text(self.shape)}", *map(literal, self.values)])


@dataclass(frozen=True)
class Select(Bind):
    """`X = Y` or `X = Y[ix]`"""

    source: str
    index: Optional[Index] = None
    word = "select"
    reading = ("source", "index")

    def value_text(self) -> str:
        return self.source + index_text(self.index)


@dataclass(frozen=True)
class Field(Bind):
    """`X = field Y "f"`"""

    source: str
    field: str
    word = "field"
    reading = ("source",)

    def value_text(self) -> str:
        return f'field {self.source} "{self.field}"'


@dataclass(frozen=True)
class Transpose(Bind):
    """`X = transpose Y` or `X = transpose Y (axes)`"""

    source: str
    axes: Optional[tuple[int, ...]] = None
    word = "transpose"
    reading = ("source",)

    def value_text(self) -> str:
        return f"transpose {self.source}" if self.axes is None else f"transpose {self.source} {shape_text(self.axes)}"


@dataclass(frozen=True)
class Reshape(Bind):
    """`X = reshape Y S`"""

    source: str
    shape: tuple[int, ...]
    word = "reshape"
    reading = ("source",)

    def value_text(self) -> str:
        return f"reshape {self.source} {shape_text(self.shape)}"


@dataclass(frozen=True)
class Broadcast(Bind):
    """`X = broadcast Y S`"""

    source: str
    shape: tuple[int, ...]
    word = "broadcast"
    reading = ("source",)

    def value_text(self) -> str:
        return f"broadcast {self.source} {shape_text(self.shape)}"


@dataclass(frozen=True)
class Copy(Bind):
    """`X = copy Y C` or `X = copy Y F`"""

    source: str
    order: str
    word = "copy"
    reading = ("source",)

    def value_text(self) -> str:
        return f"copy {self.source} {self.order}"


@dataclass(frozen=True)
class Cast(Bind):
    """`X = cast Y D`"""

    source: str
    type: str
    word = "cast"
    reading = ("source",)

    def value_text(self) -> str:
        return f"cast {self.source} {self.type}"


@dataclass(frozen=True)
class Binary(Bind):
    """`X = OP Y Z`"""

    operation: str
    left: Operand
    right: Argument
    word = "binary"
    reading = ("left", "right")

    def value_text(self) -> str:
        return f"{self.operation} {self.left} {argument_text(self.right)}"


@dataclass(frozen=True)
class Unary(Bind):
    """`X = UN Y`"""

    operation: str
    operand: Operand
    word = "unary"
    reading = ("operand",)

    def value_text(self) -> str:
        return f"{self.operation} {self.operand}"


@dataclass(frozen=True)
class Reduce(Bind):
    """`X = RED Y [axis] [keep]`"""

    operation: str
    source: str
    axis: Optional[int] = None
    keep: bool = False
    word = "reduce"
    reading = ("source",)

    def value_text(self) -> str:
        return f"{self.operation} {self.source}{'' if self.axis is None else f' {self.axis}'}{' keep' * self.keep}"


@dataclass(frozen=True)
class Load(Bind):
    """`X = load "f"`"""

    file: str
    word = "load"

    def value_text(self) -> str:
        return f'load "{self.file}"'


@dataclass(frozen=True)
class Set(Command):
    """`set X[ix] = Z`"""

    target: str
    index: Index
    value: Argument
    word = "set"
    reading = ("target", "index", "value")

    def __str__(self) -> str:
        return f"set {self.target}{index_text(self.index)} = {argument_text(self.value)}"


@dataclass(frozen=True)
class Update(Command):
    """`upd X[ix] OP Z`"""

    target: str
    index: Index
    operation: str
    value: Argument
    word = "upd"
    reading = ("target", "index", "value")

    def __str__(self) -> str:
        return f"upd {self.target}{index_text(self.index)} {self.operation} {argument_text(self.value)}"


@dataclass(frozen=True)
class Save(Command):
    """`save X "f"`"""

    source: str
    file: str
    word = "save"
    reading = ("source",)

    def __str__(self) -> str:
        return f'save {self.source} "{self.file}"'


@dataclass(frozen=True)
class Named(Command):
    """A word and a name."""

    name: str
    reading = ("name",)

    def __str__(self) -> str:
        return f"{self.word} {self.name}"


class Delete(Named):
    """`del X`"""

    word = "del"


class Print(Named):
    """`print X`"""

    word = "print"


class Info(Named):
    """`info X`"""

    word = "info"


class Format(Named):
    """`format X`"""

    word = "format"


@dataclass(frozen=True)
class Shares(Command):
    """`shares X Y`"""

    name: str
    other: str
    word = "shares"
    reading = ("name", "other")

    def __str__(self) -> str:
        return f"shares {self.name} {self.other}"


@dataclass(frozen=True)
class Bare(Command):
    """A word alone."""

    def __str__(self) -> str:
        return self.word


class Undo(Bare):
    """`undo`"""

    word = "undo"


class Names(Bare):
    """`names`"""

    word = "names"


ALL: tuple[type[Command], ...] = (
    Zeros, Full, Arange, NewArray, Select, Field, Transpose, Reshape, Broadcast, Copy, Cast, Binary, Unary, Reduce, Load, Set, Update, Save,
    Delete, Undo, Names, Print, Info, Format, Shares,
)
KINDS = {kind.word: kind for kind in ALL}


def from_json(plain: Mapping[str, Any]) -> Command:
    """The command of what `to_json` gives. `ValueError` where it is none."""
    try:
        given = dict(plain)
        kind = KINDS[given.pop("command")]
        return kind(**{name: READERS.get(name, lambda value: value)(value) for name, value in given.items()})
    except (AttributeError, LookupError, TypeError, ValueError) as fault:
        raise ValueError(f"not a command: {plain!r} ({fault})") from None
