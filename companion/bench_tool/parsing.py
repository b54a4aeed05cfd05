"""Lines as commands. The values of a command are made of the trees that `grammar.Reading` finds.

>>> parse("x = a[1:]")
Select(target='x', source='a', index=(Slice(start=1, stop=None, step=None),))
>>> parse("x = a[1:")
Traceback (most recent call last):
bench_tool.parsing.ParseError: column 9: `,` or `]` expected: x = a[1:
"""
import re
from typing import Any, Callable, Iterator, Optional

from . import commands
from .commands import Command, Operand, Slice
from .grammar import Reading
from .session import Line, sent_of

LONGEST = 65536  # bytes of a line
SILENT, FORBIDDEN, ESCAPE = re.compile("[ \t]*(#|$)"), re.compile("[^\t -~]"), re.compile(r"\\x(..)")
CONSTANTS = {"True": True, "False": False, "None": None, "...": ...}


class ParseError(ValueError):
    """A line that is not a command: the column where it stops being one, from 1, what could come there, and the code of its refusal."""

    def __init__(self, line: str, column: int, expected: str, code: str = "E03"):
        super().__init__(f"column {column}: {expected} expected: {line[:200]}")
        self.line, self.column, self.expected, self.code = line, column, expected, code


def values_of(tree: Any) -> list[Any]:
    """The trees of what is listed: the first, and those after a comma."""
    return [tree[0], *(pair[1] for pair in tree[1])]


def literal_of(tree: Any) -> commands.Literal:
    if not isinstance(tree, str):
        return tuple(map(literal_of, values_of(tree[1])))
    if tree.startswith("b'"):
        return ESCAPE.sub(lambda found: chr(int(found[1], 16)), tree[2:-1]).encode("latin-1")
    return bool(CONSTANTS[tree]) if tree in CONSTANTS else int(tree)


def lengths_of(tree: Any) -> tuple[int, ...]:
    return tuple(map(int, values_of(tree[1]))) if tree[1] else ()


def entries_of(tree: Any) -> Iterator[Any]:
    """The entries of an index: the first, the others, and perhaps `...` with what comes after it."""
    yield from values_of(tree)
    if tree[2:] and tree[2]:
        yield from entries_of(tree[2][1:])


def item_of(tree: Any) -> Any:
    """An item of an index list."""
    if isinstance(tree, list):
        start, _, stop, behind = tree
        return Slice(optional_of(start), optional_of(stop), optional_of(behind and behind[1]))
    if tree in CONSTANTS:
        return CONSTANTS[tree]
    return tree if tree.isidentifier() else int(tree)


def index_of(tree: Any) -> Optional[commands.Index]:
    return tuple(map(item_of, entries_of(tree[1]))) if tree else None


def operand_of(tree: Any) -> Operand:
    return Operand(tree[0], index_of(tree[1]))


def argument_of(tree: Any) -> commands.Argument:
    return operand_of(tree) if isinstance(tree, list) and tree[0] != "(" else literal_of(tree)


def optional_of(tree: Any) -> Optional[int]:
    return int(tree) if tree else None


def quoted_of(tree: str) -> str:
    return tree[1:-1]


# How the value of a piece is made of its tree. That of a name, a type, a word of OP, UN or RED, or an order is its text.
VALUES: dict[str, Callable[[Any], Any]] = {
    "S": lengths_of, "S-": lengths_of, "(axes)": lengths_of, "L": literal_of, "L..": lambda trees: tuple(map(literal_of, trees)),
    "a": int, "b": int, "s": int, "[axis]": optional_of, "[keep]": bool, "Y[?]": operand_of, "Y[iy]": operand_of, "Z": argument_of,
    '"f"': quoted_of, '"field"': quoted_of,
}
# The kind of a command by the first word of its form. What has none is `X = Y` or `X = Y[ix]`.
KINDS: dict[str, Callable[..., Command]] = {**commands.KINDS, "OP": commands.Binary, "UN": commands.Unary, "RED": commands.Reduce}


def command_of(reading: Reading) -> Command:
    """The command of a line that matches a form."""
    words = [part.piece for part in reading.found if part.piece not in ("X", "=")]
    values: list[Any] = []
    for piece, _, tree in reading.found:
        if piece.endswith("[ix]"):
            values += [tree[0], index_of(tree[1])]
        elif piece in VALUES:
            values.append(VALUES[piece](tree))
        elif piece.isupper():
            values.append(tree)
    if words[0] == "set" and isinstance(values[-1], str):
        values[-1] = Operand(values[-1])
    return KINDS.get(words[0], commands.Select)(*values)


def parse(line: Line) -> Optional[Command]:
    """The command of a line, or None for a blank line or a comment. `ParseError` where the program refuses the line as E01, E02 or E03.

    >>> parse("x = sum m 0 keep")
    Reduce(target='x', operation='sum', source='m', axis=0, keep=True)
    >>> parse("# nothing") is None
    True
    """
    sent = sent_of(line).removesuffix(b"\r")
    text = line.removesuffix("\r") if isinstance(line, str) else sent.decode("latin-1")
    if len(sent) > LONGEST:
        raise ParseError(text, LONGEST + 1, "at most 65,536 bytes", "E01")
    if SILENT.match(text):
        return None
    if forbidden := FORBIDDEN.search(text):
        raise ParseError(text, forbidden.start() + 1, "a tab, or a letter, digit or sign of ASCII", "E02")
    reading = Reading(text)
    if not reading.parts:
        far, expected = reading.stop()
        raise ParseError(text, far + 1, expected)
    return command_of(reading)
