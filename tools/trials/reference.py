"""What the program should reply, as NumPy has it: arrays by name, the files, and the states to go back to. `Reference.ask` takes a line.

What NumPy leaves open is taken as the program's documents say it: the stride of an axis shorter than 2, and each stride of an empty
array, is 0; an integer for every axis gives an array of no axes; an index array of no axes is one all the same. A format text that sets
`@` has it to its end: of a record within that ends under another mark than it begins under, NumPy takes the later one for its
alignment. An array that is assigned is copied first.
"""
from __future__ import annotations

import collections
import math
import re
import sys
from typing import Any, Optional

import numpy as np

from . import computations, dtypes, indexing, npy_files, npy_rule
from .dtypes import Array, type_text
from .rules import MOST_AXES, MOST_ITEMS, Refused, refusing

NAME, TYPE, SHAPE, PART = "([a-z])", r"(\S+)", r"\(([^)]*)\)", r"([a-z])(?:\[(.+?)\])?"
WORDS = {"OP": computations.OPERATIONS + computations.COMPARISONS, "UN": computations.UNARY, "RED": computations.REDUCTIONS}
# The forms of commands, by the name of the method that answers them.
FORMS = {
    name: re.compile(re.sub(r"OP|UN|RED", lambda word: f"({'|'.join(WORDS[str(word[0])])})", form))
    for name, form in {
        "set_items": rf"set {NAME}\[(.+?)\] = {PART}", "set_literal": rf"set {NAME}\[(.+?)\] = (.+)",
        "update": rf"upd {NAME}\[(.+?)\] OP (.+)",
        "save": rf'save {NAME} "(.+)"', "delete": f"del {NAME}", "undo": "undo", "names": "names", "print": f"print {NAME}",
        "info": f"info {NAME}", "format": f"format {NAME}", "shares": f"shares {NAME} {NAME}", "zeros": f"{NAME} = zeros {TYPE} {SHAPE}",
        "full": f"{NAME} = full {TYPE} {SHAPE} (.+)", "arange": rf"{NAME} = arange {TYPE} (\S+) (\S+) (\S+)",
        "array_of": f"{NAME} = array {TYPE} {SHAPE}(.*)", "field": f'{NAME} = field {NAME} "(.*)"',
        "transpose": f"{NAME} = transpose {NAME}(?: {SHAPE})?", "reshape": f"{NAME} = reshape {NAME} {SHAPE}",
        "broadcast": f"{NAME} = broadcast {NAME} {SHAPE}", "copy": f"{NAME} = copy {NAME} ([CF])", "cast": f"{NAME} = cast {NAME} {TYPE}",
        "load": f'{NAME} = load "(.+)"', "operation": f"{NAME} = OP {PART} (.+)", "unary": f"{NAME} = UN {PART}",
        "reduction": rf"{NAME} = RED {NAME}(?: (-?\d+))?( keep)?", "take": f"{NAME} = {PART}",
    }.items()
}
CHANGES = re.compile(r"\w+ =|set |upd |del ")
# What is no name: byte strings, record types, and what stands between quotes. A name is one letter.
NOT_NAMES = re.compile(r"""b'[^']*'|T\{\S*|"[^"]*"|^[a-z] = """)
State = tuple[dict[str, Array], dict[str, int], list[tuple[Array, Array]]]

np.set_printoptions(threshold=sys.maxsize, linewidth=sys.maxsize)


def numbers(text: str) -> list[int]:
    return [int(number) for number in text.split(",") if number]


def buffer_of(array: Array) -> Array:
    """The array whose memory an array shares."""
    while isinstance(array.base, np.ndarray):
        array = array.base
    return array


def sized(text: str) -> list[int]:
    """The lengths of a shape within the limits."""
    lengths = numbers(text)
    if len(lengths) > MOST_AXES:
        raise Refused("E08")
    if max([0, *lengths]) > MOST_ITEMS or math.prod(lengths) > MOST_ITEMS:
        raise Refused("E09")
    return lengths


def reshaped(array: Array, lengths: list[int]) -> tuple[Array, str]:
    """The array in a shape, of which a length may be left open, and whether that is a view or a copy: NumPy sets the shape of a view, or
    cannot."""
    given, left_open = math.prod(length for length in lengths if length >= 0), sum(length < 0 for length in lengths)
    if len(lengths) > MOST_AXES:
        raise Refused("E08")
    # FROM-NUMPY: a length below -1 in a reshape
    if min([0, *lengths]) < -1 or left_open > 1 or (given == 0 or array.size % given if left_open else given != array.size):
        raise Refused("E18")
    if max([0, *lengths]) > MOST_ITEMS:
        raise Refused("E09")
    shape, view = tuple(array.size // given if length < 0 else length for length in lengths), array.view()
    try:
        view.shape = shape
    except AttributeError:
        return array.copy().reshape(shape), "copy"
    return view, "view"


class Reference:
    """What the program should hold, in at most so many earlier states too, over a folder with these files."""

    def __init__(self, depth: int = 16, files: Optional[dict[str, bytes]] = None):
        self.arrays: dict[str, Array] = {}
        self.starts: dict[str, int] = {}
        self.files = dict(files or {})
        self.depth = depth
        self.states: list[State] = []
        self.replies: list[str] = []
        self.counts: collections.Counter[str] = collections.Counter()

    def ask(self, line: str) -> str:
        """The reply to a line, which is kept."""
        reply = self.answered(line)
        if reply:
            self.replies.append(reply)
            self.counts["refused"] += reply.startswith("no E")
        self.counts["commands"] += bool(reply)
        return reply

    def answered(self, line: str) -> str:
        words = line.removesuffix("\r").strip(" \t")
        words = words if "'" in words else " ".join(words.split())
        if not words:
            return ""
        before = self.whole() if CHANGES.match(words) else None
        try:
            reply: str = self.carried_out(words)
        except Refused as refused:
            return f"no {refused}"
        if before is not None:
            self.states = [*self.states, before][-self.depth:] if self.depth else []
            self.count_lists(words)
        return reply

    def carried_out(self, line: str) -> Any:
        if not all(32 <= ord(letter) < 127 for letter in line):
            raise Refused("E02")
        for name, form in FORMS.items():
            if found := form.fullmatch(line):
                self.known(line)
                return getattr(self, name)(*found.groups())
        raise Refused("E03")

    def known(self, line: str) -> None:
        """Refuses a line with a name that is not bound."""
        for name in re.findall(r"\b[a-z]\b", NOT_NAMES.sub("", line)):
            self.array(name)

    def array(self, name: str) -> Array:
        if name not in self.arrays:
            raise Refused("E06")
        return self.arrays[name]

    def part(self, name: str, items: Optional[str]) -> indexing.Part:
        """The items that an index list names, or all."""
        return indexing.Part(self.array(name), indexing.read(items or "...", self.array))

    def target(self, name: str, items: str) -> indexing.Part:
        """The same to be written."""
        part = self.part(name, items)
        if not part.array.flags.writeable:
            raise Refused("E20")
        return part

    def operand(self, text: str) -> computations.Operand:
        """A name, some items of its array, or a literal."""
        found = re.fullmatch(PART, text)
        return self.part(*found.groups()).read() if found else dtypes.literal(text)

    def count_lists(self, line: str) -> None:
        """Counts the lists with arrays in an accepted line, their masks, and the sets across shared items."""
        for text in re.findall(r"\[(.*?)\]", line):
            arrays = [self.arrays[name] for name in re.findall(r"\b[a-z]\b", text)]
            if arrays:
                self.counts[f"lists with {len(arrays)} array{'s' * (len(arrays) > 1)}"] += 1
            for axes in [array.ndim for array in arrays if array.dtype.kind == "b"]:
                self.counts[f"masks of {axes} ax{'e' if axes > 1 else 'i'}s"] += 1

    def bind(self, name: str, array: Array, kind: str, source: str = "") -> str:
        self.starts[name] = self.starts[source] if kind == "view" else array.ctypes.data
        self.arrays[name] = array
        return f"ok {name} {type_text(array.dtype)} {array.shape} {kind}"

    def zeros(self, name: str, type_: str, shape: str) -> str:
        dtype = dtypes.read(type_)
        return self.bind(name, np.zeros(sized(shape), dtype), "new")

    def full(self, name: str, type_: str, shape: str, value: str) -> str:
        dtype = dtypes.read(type_)
        return self.bind(name, dtypes.full(sized(shape), value, dtype), "new")

    def arange(self, name: str, type_: str, begin: str, end: str, step: str) -> str:
        dtype = dtypes.read(type_)
        if dtype.kind not in "iu":
            raise Refused("E22")
        if int(step) == 0:
            raise Refused("E12")
        values = range(int(begin), int(end), int(step))
        if not all(dtypes.is_value(value, dtype) for value in values):
            raise Refused("E23")
        return self.bind(name, np.array(values, dtype), "new")

    def array_of(self, name: str, type_: str, shape: str, values: str) -> str:
        dtype = dtypes.read(type_)
        items = [dtypes.item(dtypes.literal(value), dtype) for value in re.findall(r"b'[^']*'|\((?:[^']|b'[^']*')*?\)(?= |$)|\S+", values)]
        return self.bind(name, np.array(items, dtype).reshape(sized(shape)), "new")

    def take(self, name: str, source: str, items: Optional[str]) -> str:
        part = self.part(source, items)
        return self.bind(name, part.read(), "view" if part.places is None else "copy", source)

    def field(self, name: str, source: str, field: str) -> str:
        array = self.array(source)
        if field not in (array.dtype.names or ()):
            raise Refused("E19")
        return self.bind(name, array[field], "view", source)

    def transpose(self, name: str, source: str, axes: Optional[str]) -> str:
        array, order = self.array(source), None if axes is None else numbers(axes)
        if order is not None and len(order) != array.ndim:
            raise Refused("E17")
        with refusing("E17"):
            return self.bind(name, array.transpose(order), "view", source)

    def reshape(self, name: str, source: str, shape: str) -> str:
        return self.bind(name, *reshaped(self.array(source), numbers(shape)), source)

    def broadcast(self, name: str, source: str, shape: str) -> str:
        array = self.array(source)
        lengths = sized(shape)
        with refusing("E16"):
            return self.bind(name, np.broadcast_to(array, lengths), "view", source)

    def copy(self, name: str, source: str, order: Any) -> str:
        return self.bind(name, self.array(source).copy(order), "copy")

    def cast(self, name: str, source: str, type_: str) -> str:
        array, dtype = self.array(source), dtypes.read(type_)
        if not dtypes.can_cast(array.dtype, dtype):
            raise Refused("E33")
        return self.bind(name, dtypes.cast(array, dtype), "new")

    def operation(self, name: str, word: str, left: str, items: Optional[str], right: str) -> str:
        one, other = self.part(left, items).read(), self.operand(right)
        return self.bind(name, computations.worked(word, one, other), "new")

    def unary(self, name: str, word: str, source: str, items: Optional[str]) -> str:
        return self.bind(name, computations.transformed(word, self.part(source, items).read()), "new")

    def reduction(self, name: str, word: str, source: str, axis: Optional[str], keep: Optional[str]) -> str:
        along = None if axis is None else int(axis)
        return self.bind(name, computations.reduced(word, self.array(source), along, keep is not None), "new")

    def set_literal(self, name: str, items: str, value: str) -> str:
        target = self.target(name, items)
        made = dtypes.full(target.read().shape, value, target.array.dtype)
        target.write(made)
        return f"ok set {made.size}"

    def set_items(self, name: str, items: str, source: str, taken: Optional[str]) -> str:
        target = self.target(name, items)
        given = self.part(source, taken).read()
        shown = np.zeros(target.read().shape, given.dtype)
        # FROM-NUMPY: a slice that is assigned to a slice of the same array; a mask, and a source with an axis in front
        with refusing("E16"):
            shown[...] = given
        # FROM-NUMPY: numbers to and from byte strings
        if not dtypes.can_cast(given.dtype, target.array.dtype):
            raise Refused("E33")
        made = dtypes.cast(shown, target.array.dtype)
        if made.size and target.places is None:
            self.counts["sets across shared items"] += np.shares_memory(target.read(), given)
        target.write(made)
        return f"ok set {shown.size}"

    def update(self, name: str, items: str, word: str, right: str) -> str:
        target = self.target(name, items)
        values = computations.updated(word, target.read(), self.operand(right))
        target.write(values)
        return f"ok upd {values.size}"

    def save(self, name: str, file: str) -> str:
        array = self.array(name)
        self.files[file] = npy_files.saved(array)
        self.counts["files saved"] += 1
        self.counts["saved files that NumPy loads otherwise"] += not npy_files.is_loaded_as(self.files[file], array)
        return f"ok save {len(self.files[file])}"

    def load(self, name: str, file: str) -> str:
        if file not in self.files:
            raise Refused("E34")
        reply, _ = npy_rule.reply(self.files[file])
        if reply.startswith("no "):
            raise Refused(reply.split()[1])
        array = npy_files.loaded(self.files[file])
        self.counts["files loaded"] += 1
        return self.bind(name, array.copy("F" if npy_files.is_fortran(array) else "C"), "new") + reply[reply.rindex(" rest "):]

    def print(self, name: str) -> str:
        array = self.array(name)
        if array.size == 0:
            return "[]"
        return str(array[()]) if array.ndim == 0 else np.array2string(array)

    def info(self, name: str) -> str:
        array = self.array(name)
        steps = tuple(0 if array.size == 0 or length < 2 else stride for length, stride in zip(array.shape, array.strides))
        at = 0 if array.size == 0 else array.ctypes.data - self.starts[name]
        order = "C" * array.flags.c_contiguous + "F" * array.flags.f_contiguous
        begin = f"info {name} {type_text(array.dtype)} {array.shape} strides {steps}"
        return f"{begin} at {at} order {order or '-'} write {'yes' if array.flags.writeable else 'no'}"

    def format(self, name: str) -> str:
        return f"format {dtypes.format_text(self.array(name).dtype)}"

    def shares(self, one: str, other: str) -> str:
        pair = self.array(one), self.array(other)
        shared = "yes" if np.shares_memory(*pair) else "no"
        self.counts[f"shares {shared}{' over ranges that overlap' * np.may_share_memory(*pair)}"] += 1
        return f"shares {shared}"

    def delete(self, name: str) -> str:
        del self.arrays[name]
        return f"ok del {name}"

    def names(self) -> str:
        return " ".join(["names", *self.arrays])

    def whole(self) -> State:
        """A copy of the state: what the names are bound to, and all items of their buffers."""
        buffers = {id(buffer): buffer for buffer in map(buffer_of, self.arrays.values())}
        return dict(self.arrays), dict(self.starts), [(buffer, buffer.copy()) for buffer in buffers.values()]

    def undo(self) -> str:
        if not self.states:
            raise Refused("E26")
        self.counts["undone"] += 1
        self.arrays, self.starts, buffers = self.states.pop()
        for buffer, items in buffers:
            buffer[...] = items
        return "ok undo"
