"""Lines of NumPy beside the lines that are offered for them, run from the same arrays: types, shapes and items of all names, and which
names share items."""
from __future__ import annotations

import ast
import contextlib
import io
import itertools
import re
import warnings
from typing import Any, NamedTuple, Optional, Sequence

from bench_tool.session import Session

from . import TOP
from .companion_trials import numpy_or_none

np = numpy_or_none()

ROWS = TOP / "tools/rows/numpy_lines.txt"
# The arrays that all rows begin with. m is a view of a, and w repeats it.
PYTHON = """a = np.arange(6, dtype="<i4")
m = a.reshape(2, 3)
r = np.array([(1, b"ab"), (2, b"c")], [("x", "<i4"), ("s", "S3")])
k = np.array([True, False, True, False, True, False])
i = np.array([0, 5], "<i4")
j = np.array([0, 1, 2], "<i8")
w = np.broadcast_to(a, (2, 6))
u = np.array([250, 5, 0, 7], "u1")
s = np.array([b"ab", b"c", b"abc"], "S3")
b = np.array([3, 1, 2, 9, 8, 7], "<i4")
n = np.array([[5, -1, 3], [0, 4, 2]], "<i8")
z = np.full((), 4, "<i4")
"""
BENCH = """a = arange <i4 0 6 1
m = reshape a (2,3)
r = array T{<i:x:3s:s:} (2) (1,b'ab') (2,b'c')
k = array ? (6) True False True False True False
i = array <i4 (2) 0 5
j = array <i8 (3) 0 1 2
w = broadcast a (2,6)
u = array |u1 (4) 250 5 0 7
s = array |S3 (3) b'ab' b'c' b'abc'
b = array <i4 (6) 3 1 2 9 8 7
n = array <i8 (2,3) 5 -1 3 0 4 2
z = full <i4 () 4"""


class Row(NamedTuple):
    """A typed line, what it means in NumPy, the lines that are offered for it, and what else is said."""

    typed: str
    meaning: str
    offered: list[str]
    said: list[str]


def rows() -> list[Row]:
    """The rows of the file."""
    found = []
    for part in re.split("^> ", ROWS.read_text(), flags=re.M)[1:]:
        typed, *lines = part.splitlines()
        of = {mark: [line[2:] for line in lines if line.startswith(mark)] for mark in "=:!"}
        found.append(Row(typed, (of["="] or [typed])[0], of[":"], of["!"]))
    return found


def meaning_of(code: str) -> tuple[dict[str, Any], Any]:
    """The names that NumPy's code leaves, and the value of its last expression. Any exception of the code is raised."""
    names: dict[str, Any] = {"np": np}
    value = None
    with warnings.catch_warnings(), contextlib.redirect_stdout(io.StringIO()):
        warnings.simplefilter("ignore")
        exec(PYTHON, names)
        for statement in ast.parse(code).body:
            if isinstance(statement, ast.Expr):
                value = eval(compile(ast.Expression(statement.value), "", "eval"), names)
            else:
                exec(compile(ast.Module([statement], []), "", "exec"), names)
    return {name: held for name, held in names.items() if name != "np" and not name.startswith("__")}, value


def is_array(value: Any) -> bool:
    """Whether a value has items in memory that others can share."""
    return isinstance(value, (np.ndarray, np.void))


def told(type_: str, shape: Sequence[int], items: Any) -> tuple[str, tuple[int, ...], Any]:
    return "record" if type_.startswith(("T", "|V")) else type_, tuple(shape), items


def differences(bench: Session, names: dict[str, Any], value: Any, offered: Sequence[str]) -> list[str]:
    """What differs after the lines of a row: of the names, of a value that was printed, and of what shares items."""
    wrong = [name for name in bench.names() if name not in names and not any(line.startswith(f"{name} = ") for line in offered)]
    wrong += [f"{name} is missing" for name in names if name not in bench.names()]
    if wrong:
        return wrong
    for name, held in names.items():
        wanted, array = np.asarray(held), bench.array(name)
        if told(array.type, array.shape, array.tolist()) != told(wanted.dtype.str, wanted.shape, wanted.tolist()):
            wrong.append(f"{name} is {array.type} {array.shape} {array.tolist()}, in NumPy {wanted.dtype} {wanted.shape} {wanted.tolist()}")
    if value is not None and offered[-1].startswith("print "):
        wanted, array = np.asarray(value), bench.array(offered[-1].split()[1])
        if told(array.type, array.shape, array.tolist()) != told(wanted.dtype.str, wanted.shape, wanted.tolist()):
            wrong.append(f"printed is {array.type} {array.tolist()}, in NumPy {wanted.dtype} {wanted.tolist()}")
    for one, other in itertools.combinations(names, 2):
        is_shared = is_array(names[one]) and is_array(names[other]) and np.shares_memory(np.asarray(names[one]), np.asarray(names[other]))
        if (bench.ask(f"shares {one} {other}") == "shares yes") != is_shared:
            wrong.append(f"{one} and {other} {'share items only in NumPy' if is_shared else 'share items only here'}")
    return wrong


def judged(bench: Session, meaning: str, offered: Sequence[str]) -> list[str]:
    """What differs between a line in NumPy and the lines that are offered, in a session of these arrays."""
    begin(bench)
    try:
        names, value = meaning_of(meaning)
    except Exception as fault:
        return [f"NumPy raises {type(fault).__name__}: {fault}"]
    refused = [f"{line}: {reply.text}" for line in offered if not (reply := bench.send(line)).accepted]
    return refused or differences(bench, names, value, offered)


def begin(bench: Session) -> Session:
    """Binds the arrays of the rows in a session, and no other names."""
    for name in bench.names():
        bench.ask(f"del {name}")
    for line in BENCH.splitlines():
        bench.ask(line)
    return bench


def first_reasons(said: Sequence[str], typed: str) -> list[str]:
    """What is said of a line, without the place where it stops being a command."""
    place: Optional[int] = next((k for k, text in enumerate(said) if k + 1 < len(said) and said[k + 1].lstrip().startswith("^ ")), None)
    return [text for text in said[:place] if not text.startswith("write: ")]
