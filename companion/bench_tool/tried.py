"""Lines that are tried as they are written, and what the types and shapes of literals and arrays are together, as NumPy has it."""
import ast
import re
from typing import Any, Collection, NoReturn, Optional, Sequence

from . import item_types
from .numpy_rules import NO_FLOATS, NO_TEXT, REASONS, TYPES
from .session import Array, Reply, Session, literal

STRING = re.compile(r"([<>|=]?)([biu])([1248])$|[|<>=]?S(\d+)$|\?$")
FLOATS = re.compile(r"(np\.)?(float|complex|double|single|half)\d*$|[<>|=]?[fc](2|4|8|16)$|-?\d*\.\d+$|\d+\.$|\d+e-?\d+$")
NAME = r"[A-Za-z_]\w*"
QUESTIONS = ("shape", "dtype", "strides", "ndim", "size", "flags", "nbytes", "itemsize", "base")
BUILTINS = ("sum", "max", "min", "any", "all")
WHY = {word: why for why, words in REASONS.items() for word in words.split()}
MOST_LINES = 40


class Unknown(Exception):
    """There is no translation; the reason, if it is known."""


class Stopped(Exception):
    """A line of the translation is refused."""

    def __init__(self, reply: Reply):
        super().__init__()
        self.reply = reply


def member(kind: str) -> str:
    """A type string as it is written in a record."""
    if kind[1] in "bS":
        return "?" if kind[1] == "b" else f"{kind[2:]}s"
    letter = {"1": "b", "2": "h", "4": "i", "8": "q"}[kind[2]]
    return kind[0].strip("|") + (letter.upper() if kind[1] == "u" else letter)


def flat(node: Any) -> list[Any]:
    """The items of nested lists."""
    inner = node.elts if isinstance(node, ast.List) else node
    return [item for each in inner for item in flat(each)] if isinstance(inner, list) else [node]


def shape_of(lists: Any) -> tuple[int, ...]:
    """The shape of nested lists. `Unknown` if they are ragged."""
    if not isinstance(lists, list):
        return ()
    shapes = {shape_of(each) for each in lists} or {()}
    if len(shapes) > 1:
        raise Unknown("the lists have different lengths")
    return (len(lists), *shapes.pop())


def kind_of(items: Sequence[Any]) -> str:
    """The type that NumPy gives literals."""
    if items and all(isinstance(item, bytes) for item in items):
        return f"|S{max(1, *map(len, items))}"
    if any(isinstance(item, str) for item in items):
        raise Unknown(NO_TEXT)
    is_wide = any(isinstance(item, int) and item >= 1 << 63 for item in items)
    return "|b1" if items and all(isinstance(item, bool) for item in items) else "<u8" if is_wide else "<i8"


def is_type(node: Optional[ast.AST]) -> bool:
    """Whether a node is a dtype: a string, a name such as np.int16, the dtype of an array, or a list of fields."""
    if isinstance(node, ast.List):
        return bool(node.elts) and all(isinstance(field, ast.Tuple) and field.elts and isinstance(field.elts[0], ast.Constant)
                                       and isinstance(field.elts[0].value, str) for field in node.elts)
    if isinstance(node, ast.Attribute) and node.attr == "dtype":
        return True
    word = node.attr if isinstance(node, ast.Attribute) else getattr(node, "id", getattr(node, "value", None))
    return isinstance(word, str) and (word in TYPES or bool(STRING.match(word) or FLOATS.match(word)) or word.startswith("T{"))


def promoted(types: Collection[str]) -> str:
    """The type that NumPy gives to items of these types together."""
    kinds = [item_types.read(text) for text in types]
    letters = {kind.kind for kind in kinds}
    if len(set(types)) == 1 and not any(kind.order == ">" for kind in kinds):
        return next(iter(types))
    if letters == {"S"}:
        return f"|S{max(kind.size for kind in kinds)}"
    if not letters <= set("biu") or any(kind.order == ">" for kind in kinds):
        raise Unknown
    size = {letter: max((kind.size for kind in kinds if kind.kind == letter), default=0) for letter in "iu"}
    if size["i"] and size["u"] >= size["i"]:
        size["i"] = 2 * size["u"]
    if size["i"] > 8:
        raise Unknown("<i8 and <u8 together are floats in NumPy, and there are no floats")
    letter = "i" if size["i"] else "u"
    return f"{'|' if size[letter] == 1 else '<'}{letter}{size[letter]}"


def stretched(shapes: Collection[tuple[int, ...]]) -> tuple[int, ...]:
    """The shape to which these are broadcast."""
    count = max(map(len, shapes), default=0)
    lengths = [{length for shape in shapes if len(shape) >= k for length in shape[-k:][:1]} - {1} or {1} for k in range(count, 0, -1)]
    if any(len(each) > 1 for each in lengths):
        raise Unknown
    return tuple(each.pop() for each in lengths)


def shaped(shape: Sequence[int]) -> str:
    return f"({','.join(map(str, shape))})"


def along(axis: int, entry: str) -> str:
    """An index with one entry, along an axis."""
    return f"[{':,' * axis}{entry}]"


class Lines:
    """Lines that are tried in a session as they are written. `names` are all those that are taken."""

    def __init__(self, trial: Session, names: Collection[str]):
        self.trial, self.lines = trial, list[str]()
        self.reasons: list[str] = []
        self.reply = Reply(True, "", "", "")  # to the last line
        self.goal = self._word = ""  # the name that is assigned to; the word of the command that is made
        self._taken = set(names)

    def refuse(self, said: str = "") -> NoReturn:
        raise Unknown(said)

    def write(self, line: str) -> None:
        """Adds a line, and tries it."""
        if len(self.lines) >= MOST_LINES:
            self.refuse()
        self.lines.append(line)
        self.reply = self.trial.send(line)
        if not self.reply.accepted:
            raise Stopped(self.reply)

    def free(self) -> str:
        names = ("t", "u", "v", "w", *(f"t{k}" for k in range(99)))
        name = next(filter(lambda name: name not in self._taken, names), "") or self.refuse()
        self._taken.add(name)
        return name

    def bound(self, text: str) -> str:
        """A text as a name: the text itself if it is a name, otherwise a free name that is bound to it."""
        if re.fullmatch(NAME, text) and text not in ("True", "False", "None"):
            return text
        name = self.free()
        self.write(f"{name} = {text}")
        return name

    def info(self, text: str) -> Array:
        """The array of an operand, without its items."""
        if re.fullmatch(NAME, text) and text in self.trial.names():
            return self.trial.array(text, items=False)
        name = next(name for name in ("_", "__", "___") if name not in self._taken)
        if not self.trial.send(f"{name} = {text}").accepted:
            self.write(f"{self.goal or self.free()} = {text}")  # which is refused
        found = self.trial.array(name, items=False)
        self.trial.send(f"del {name}")
        return found

    # Constants.

    def constant(self, node: ast.AST) -> Any:
        """The value of a constant."""
        try:
            found = ast.literal_eval(node)
        except (ValueError, TypeError, SyntaxError, MemoryError, RecursionError):
            return self.refuse()
        if any(isinstance(value, (float, complex)) for value in flat(found)):
            self.refuse(NO_FLOATS)
        return found

    def number(self, node: Optional[ast.AST]) -> int:
        """The value of an integer."""
        found = self.constant(node) if node is not None else None
        return found if isinstance(found, int) else self.refuse()

    def literal(self, node: ast.AST) -> str:
        found = self.constant(node)
        return literal(found) if not isinstance(found, str) else self.refuse(NO_TEXT)

    def is_constant(self, node: Optional[ast.AST]) -> bool:
        inner = node.operand if isinstance(node, ast.UnaryOp) and isinstance(node.op, (ast.USub, ast.UAdd)) else node
        return isinstance(inner, ast.Constant) and inner.value not in (None, ...) or isinstance(inner, ast.Tuple) and all(map(self.is_constant, inner.elts))
