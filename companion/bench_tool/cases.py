"""The cases of vectors/*.jsonl: few steps, and what they should give (docs/VECTORS.md has the schema).

A case with `rows` is a table: `{"row": k}` in its steps or in what is wanted stands for value k of a row. `questions` gives one question for
each row, and one for a case without rows.

    >>> case = Case("slices/0001", "slices", frozenset({"i4"}), ("a = array <i4 (2) 5 6", "x = a[{0}]"),
    ...             ({"command": "array", "target": "a", "type": "<i4", "shape": [2], "values": [5, 6]},
    ...              {"command": "select", "target": "x", "source": "a", "index": [{"row": 0}]}),
    ...             {"x": {"type": "<i4", "shape": [1], "items": {"row": 1}}}, rows=(([0, 1, None], [5]), ([1, None, None], [6])))
    >>> [(question.id, question.lines[1], question.want["x"].items) for question in case.questions()]
    [('slices/0001:0', 'x = a[0:1]', (5,)), ('slices/0001:1', 'x = a[1:]', (6,))]
"""
from __future__ import annotations

import json
from dataclasses import dataclass, field, replace
from pathlib import Path
from typing import Any, Collection, Iterator, Mapping, NamedTuple, Optional, Sequence

from . import commands
from .commands import Command
from .session import BenchError

HERE = Path(__file__).resolve()
# Beside this file in a wheel; installed by `make install`; in the repository.
PLACES = (HERE.with_name("vectors"), HERE.parents[1] / "vectors", HERE.parents[2] / "vectors")
ITEMS, INDEXES = "<i4", "<i8"  # the types of arrays and of index arrays where the type does not matter


class Shown(NamedTuple):
    """What a name shows: type, shape, and items in C order. Byte strings are written as latin-1, records as lists."""

    type: str
    shape: tuple[int, ...]
    items: tuple[Any, ...]


@dataclass(frozen=True)
class Question:
    """Steps for a library, and what they should give: what each name shows in the end, or the code of the refusal of step `step`."""

    id: str
    feature: str
    commands: tuple[Command, ...]
    want: Mapping[str, Shown]
    refuse: str = ""
    step: int = 0
    files: Mapping[str, bytes] = field(default_factory=dict)

    @property
    def lines(self) -> tuple[str, ...]:
        """The steps as lines of bench."""
        return tuple(map(str, self.commands))

    @property
    def axes(self) -> int:
        """The most axes of an array that a step makes, or that a name shows in the end."""
        made = [getattr(command, "shape", ()) for command in self.commands]
        return max(map(len, [*made, *(shown.shape for shown in self.want.values())]), default=0)

    def plain(self, **more: Any) -> dict[str, Any]:
        """The question as it is sent to an adapter."""
        files = {name: data.hex() for name, data in self.files.items()}
        return {"id": self.id, "steps": [command.to_json() for command in self.commands], **({"files": files} if files else {}), **more}

    def retyped(self, types: Mapping[str, str]) -> Question:
        """The same question about other types, if there are any. Those of the results are not compared then."""
        if not types:
            return self

        def changed(command: Command) -> Command:
            type_ = types.get(getattr(command, "type", ""))
            return replace(command, type=type_) if type_ else command  # type: ignore[type-var]

        want = {name: shown._replace(type="") for name, shown in self.want.items()}
        return replace(self, commands=tuple(map(changed, self.commands)), want=want)


def _filled(plain: Any, row: Sequence[Any]) -> Any:
    """A plain value with the values of a row in it."""
    if isinstance(plain, dict):
        return row[plain["row"]] if "row" in plain else {key: _filled(value, row) for key, value in plain.items()}
    return [_filled(value, row) for value in plain] if isinstance(plain, list) else plain


@dataclass(frozen=True)
class Case:
    """A line of vectors/*.jsonl. `steps`, `want` and `rows` are plain values, as they are in the file."""

    id: str
    feature: str
    needs: frozenset[str]
    lines: tuple[str, ...]
    steps: tuple[Any, ...]
    want: Mapping[str, Any]
    refuse: Optional[Mapping[str, Any]] = None
    rows: tuple[Any, ...] = ()
    any_type: bool = False
    files: Mapping[str, str] = field(default_factory=dict)
    shares: tuple[Any, ...] = ()
    numpy: Any = "same"

    def questions(self) -> Iterator[Question]:
        """One question for each row, or one."""
        for number, row in enumerate(self.rows or [()]):
            yield self._question(f"{self.id}:{number}" if self.rows else self.id, row)

    def _question(self, id_: str, row: Sequence[Any]) -> Question:
        steps, want, refuse = (_filled(part, row) for part in (list(self.steps), dict(self.want), self.refuse))
        code = refuse["code"] if refuse else None
        shown = {name: Shown(each["type"], tuple(each["shape"]), tuple(each["items"])) for name, each in want.items() if each}
        files = {name: bytes.fromhex(data) for name, data in self.files.items()}
        found = tuple(map(commands.from_json, steps))
        return Question(id_, self.feature, found, shown, code or "", refuse["step"] if refuse and code else 0, files)

    def to_json(self) -> dict[str, Any]:
        """The case as it stands in the file."""
        made = {"id": self.id, "feature": self.feature, "needs": sorted(self.needs), "lines": list(self.lines), "steps": list(self.steps),
                "want": dict(self.want)}
        for name in ("refuse", "rows", "any_type", "files", "shares"):
            value = getattr(self, name)
            if value:
                made[name] = list(value) if isinstance(value, tuple) else value
        return {**made, "numpy": self.numpy}


def from_json(plain: Mapping[str, Any]) -> Case:
    """The case of a line of a file."""
    given = dict(plain)
    given["needs"] = frozenset(given["needs"])
    for name in ("lines", "steps", "rows", "shares"):
        given[name] = tuple(given.get(name, ()))
    return Case(**given)


def folder() -> Path:
    """The folder with the cases."""
    found = next(filter(Path.is_dir, PLACES), None)
    if found is None:
        raise BenchError("there is no folder of cases, vectors/")
    return found


def read(needs: Optional[Collection[str]] = None, only: str = "", place: Optional[Path] = None) -> list[Case]:
    """All cases; with `needs`, only those that need nothing else; with `only`, those whose id or feature has this text."""
    found = (from_json(json.loads(line)) for path in sorted((place or folder()).glob("*.jsonl")) for line in path.read_text(encoding="utf-8").splitlines())
    return [case for case in found if (needs is None or fits(case, needs)) and (only in case.id or only in case.feature)]


def fits(case: Case, has: Collection[str]) -> bool:
    """Whether a library with these capabilities has what the case needs, with other types where the type does not matter."""
    return types_for(case, has) is not None


def types_for(case: Case, has: Collection[str]) -> Optional[dict[str, str]]:
    """The types to put in the place of others so that a library with these capabilities can answer; None if it cannot."""
    missing, types = case.needs - set(has), {}
    if case.any_type:
        for type_, others in ((ITEMS, ("i8", "i2", "u1", "i1", "u4", "u8", "u2")), (INDEXES, ("i4", "i2"))):
            other = next((each for each in others if each in has), None)
            if type_[1:] in missing and other:
                types[type_] = f"{'|' if other[1] == '1' else '<'}{other}"
                missing -= {type_[1:]}
    return None if missing else types
