"""The process in which an adapter runs: it reads questions as JSON lines from standard input, has the library carry out their steps, and
writes what each name shows as JSON lines (docs/JUDGE.md has the form). `python3 -m bench_tool.judge_adapter ADAPTER.py`."""
from __future__ import annotations

import importlib.util
import json
import math
import operator
import os
import sys
import tempfile
import warnings
from pathlib import Path
from typing import Any, Callable, Iterable, Iterator, Mapping, Optional

from . import commands, needs
from .commands import Command, Operand

METHODS = ("make", "items", "take", "put", "update", "op", "unary", "compare", "reduce", "reshape", "transpose", "broadcast", "copy", "cast",
           "field", "load", "save")
COMPARISONS = ("eq", "ne", "lt", "le", "gt", "ge")
MOST_TEXT = 300


class Unsupported(Exception):
    """The adapter has no method for a step."""


def adapter_of(path: str) -> Any:
    """The adapter in a Python file: an object of its class that has `make` and `items`, or the module itself if it has these."""
    file = Path(path).resolve()
    sys.path.insert(0, str(file.parent))
    found = importlib.util.spec_from_file_location(file.stem, file)
    if found is None or found.loader is None:
        raise ImportError(f"{path} is not a Python file")
    module = importlib.util.module_from_spec(found)
    sys.modules[file.stem] = module
    found.loader.exec_module(module)
    kinds = [each for each in vars(module).values() if isinstance(each, type) and each.__module__ == file.stem and hasattr(each, "make")]
    if not kinds and not hasattr(module, "make"):
        raise ImportError(f"{path} has no class with the methods make and items")
    return kinds[-1]() if kinds else module


def hello(adapter: Any) -> dict[str, Any]:
    """What an adapter has and can."""
    has: Any = getattr(adapter, "HAS", needs.ALL)
    words = has.split() if isinstance(has, str) else list(has)
    unknown = sorted(set(words) - needs.ALL)
    told = {"has": sorted(set(words) & needs.ALL), "can": [name for name in METHODS if hasattr(adapter, name)], "unknown": unknown}
    return {**told, "most_axes": getattr(adapter, "MOST_AXES", None)}


def plain(value: Any) -> Any:
    """An item as JSON has it."""
    if isinstance(value, bytes):
        return value.decode("latin-1")
    if isinstance(value, (list, tuple)):
        return list(map(plain, value))
    if isinstance(value, (bool, int, str)) or value is None:
        return value
    if hasattr(value, "item") or hasattr(value, "tolist"):
        return plain(value.item() if hasattr(value, "item") else value.tolist())
    try:
        return operator.index(value)
    except TypeError:
        return int(value) if isinstance(value, float) and value.is_integer() else repr(value)


def flat(items: Any) -> Iterator[Any]:
    """Nested lists as one list. A tuple in it is a record."""
    for item in items:
        if isinstance(item, list):
            yield from flat(item)
        else:
            yield plain(item)


def shown(answer: Any) -> list[Any]:
    """What `items` returned, as type, shape and a flat list."""
    type_, shape, items = answer if len(answer) == 3 else (None, *answer)
    if hasattr(items, "tolist"):
        items = items.tolist()
    items = items if isinstance(items, list) else list(items) if isinstance(items, (tuple, range)) and len(tuple(shape)) else [items]
    return [None if type_ is None else str(type_), [int(length) for length in shape], list(flat(items))]


class Run:
    """The names of one question. Each call of the adapter is written down as Python."""

    def __init__(self, adapter: Any, folder: str):
        self.adapter, self.folder = adapter, folder
        self.names: dict[str, Any] = {}
        self.calls: list[str] = []

    def call(self, name: str, target: str, *arguments: Any) -> Any:
        """A call of the adapter. `arguments` are pairs of a value and its text."""
        method: Optional[Callable[..., Any]] = getattr(self.adapter, name, None)
        if method is None:
            raise Unsupported(f"no method {name}")
        self.calls.append(f"{target}{' = ' * bool(target)}{name}({', '.join(text for _, text in arguments)})")
        return method(*(value for value, _ in arguments))

    def array(self, name: str) -> tuple[Any, str]:
        return self.names[name], name

    def index(self, index: Iterable[Any]) -> tuple[Any, str]:
        """An index list as a tuple of Python, and its text."""
        entries = tuple(index)
        texts = [entry if isinstance(entry, str) else repr(entry.python()) if isinstance(entry, commands.Slice) else "..." if entry is ... else
                 repr(entry) for entry in entries]
        return commands.python_index(entries, self.names), f"({', '.join(texts)}{',' * (len(texts) == 1)})"

    def argument(self, value: Any) -> tuple[Any, str]:
        """An operand or a literal; the items that an index list selects are taken first."""
        if not isinstance(value, Operand):
            return value, repr(value)
        if value.index is None:
            return self.array(value.name)
        target = f"part{len(self.calls)}"
        return self.call("take", target, self.array(value.name), self.index(value.index)), target

    def bind(self, name: str, made: Any) -> None:
        self.names[name] = made

    def rebind(self, name: str, made: Any) -> None:
        """An adapter of a library that changes no array returns another one."""
        if made is not None:
            self.names[name] = made

    def made(self, command: Any, values: list[Any]) -> None:
        shape = tuple(command.shape) if hasattr(command, "shape") else (len(values),)
        words = [(each, repr(each)) for each in (command.type, shape, values)]
        self.bind(command.target, self.call("make", command.target, *words))

    def step(self, command: Command) -> None:
        """Carries out a command."""
        method = getattr(self, f"_{type(command).__name__.lower()}", None)
        if method is None:
            raise Unsupported(f"no way to {command}")
        method(command)

    def _zeros(self, c: Any) -> None:
        self.made(c, [b"" if "S" in c.type else False if "b1" in c.type else 0] * math.prod(c.shape))

    def _full(self, c: Any) -> None:
        self.made(c, [c.value] * math.prod(c.shape))

    def _arange(self, c: Any) -> None:
        self.made(c, list(range(c.start, c.stop, c.step)))

    def _newarray(self, c: Any) -> None:
        self.made(c, list(c.values))

    def _select(self, c: Any) -> None:
        if c.index is None:
            self.calls.append(f"{c.target} = {c.source}")
            self.bind(c.target, self.names[c.source])
        else:
            self.bind(c.target, self.call("take", c.target, self.array(c.source), self.index(c.index)))

    def _from_source(self, c: Any, name: str, *values: Any) -> None:
        """A call with the source and some values."""
        self.bind(c.target, self.call(name, c.target, self.array(c.source), *((value, repr(value)) for value in values)))

    def _field(self, c: Any) -> None:
        self._from_source(c, "field", c.field)

    def _transpose(self, c: Any) -> None:
        rank = len(shown(self.adapter.items(self.names[c.source]))[1]) if c.axes is None else 0
        self._from_source(c, "transpose", tuple(reversed(range(rank))) if c.axes is None else c.axes)

    def _reshape(self, c: Any) -> None:
        self._from_source(c, "reshape", c.shape)

    def _broadcast(self, c: Any) -> None:
        self._from_source(c, "broadcast", c.shape)

    def _copy(self, c: Any) -> None:
        self._from_source(c, "copy", c.order)

    def _cast(self, c: Any) -> None:
        self._from_source(c, "cast", c.type)

    def _reduce(self, c: Any) -> None:
        word = repr(c.operation)
        self.bind(c.target, self.call("reduce", c.target, (c.operation, word), self.array(c.source), (c.axis, repr(c.axis)), (c.keep, repr(c.keep))))

    def _binary(self, c: Any) -> None:
        left, right = self.argument(c.left), self.argument(c.right)
        name = "compare" if c.operation in COMPARISONS else "op"
        self.bind(c.target, self.call(name, c.target, (c.operation, repr(c.operation)), left, right))

    def _unary(self, c: Any) -> None:
        self.bind(c.target, self.call("unary", c.target, (c.operation, repr(c.operation)), self.argument(c.operand)))

    def _set(self, c: Any) -> None:
        value = self.argument(c.value)
        self.rebind(c.target, self.call("put", "", self.array(c.target), self.index(c.index), value))

    def _update(self, c: Any) -> None:
        value = self.argument(c.value)
        word = (c.operation, repr(c.operation))
        self.rebind(c.target, self.call("update", "", word, self.array(c.target), self.index(c.index), value))

    def _load(self, c: Any) -> None:
        path = os.path.join(self.folder, c.file)
        self.bind(c.target, self.call("load", c.target, (path, repr(c.file))))

    def _save(self, c: Any) -> None:
        path = os.path.join(self.folder, c.file)
        self.call("save", "", self.array(c.source), (path, repr(c.file)))

    def _delete(self, c: Any) -> None:
        self.calls.append(f"del {c.name}")
        del self.names[c.name]

    def state(self) -> dict[str, Any]:
        """What each name shows."""
        return {name: shown(self.adapter.items(array)) for name, array in self.names.items()}


def answer(adapter: Any, question: Mapping[str, Any], folder: str) -> dict[str, Any]:
    """The answer to a question: `states`, what each name shows after the last step, or after each; and how a step was refused."""
    for name, data in question.get("files", {}).items():
        Path(folder, name).write_bytes(bytes.fromhex(data))
    run, states = Run(adapter, folder), []
    told: dict[str, Any] = {"id": question["id"]}
    steps = list(map(commands.from_json, question["steps"]))
    for number, command in enumerate(steps):
        try:
            run.step(command)
            if question.get("each") or number == len(steps) - 1:
                states.append(run.state())
        except (NotImplementedError, Unsupported) as fault:
            told["unsupported"] = {"step": number, "text": str(fault)[:MOST_TEXT] or type(fault).__name__}
            break
        except Exception as fault:
            told["refused"] = {"step": number, "text": f"{type(fault).__name__}: {fault}"[:MOST_TEXT]}
            states.append(_after(run))
            break
    told["states"] = states
    if question.get("calls"):
        told["calls"] = run.calls
    saved = [step.file for step in steps if isinstance(step, commands.Save)]
    if saved:
        told["files"] = {name: Path(folder, name).read_bytes().hex() for name in saved if Path(folder, name).is_file()}
    return told


def _after(run: Run) -> Any:
    """The state after a refusal, or None if it cannot be shown."""
    try:
        return run.state()
    except Exception:
        return None


def main() -> None:
    """Serves until standard input ends. What the library prints goes to standard error."""
    out = os.fdopen(os.dup(1), "w", encoding="utf-8")
    os.dup2(2, 1)
    warnings.simplefilter("ignore")
    adapter = adapter_of(sys.argv[1])
    out.write(json.dumps(hello(adapter)) + "\n")
    out.flush()
    with tempfile.TemporaryDirectory() as folder:
        for line in sys.stdin:
            out.write(json.dumps(answer(adapter, json.loads(line), folder)) + "\n")
            out.flush()


if __name__ == "__main__":
    main()
