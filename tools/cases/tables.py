"""Questions of one form as one case: what differs between them becomes the rows of a table."""
from __future__ import annotations

from typing import Any, Mapping, Optional, Sequence

from bench_tool import commands
from bench_tool.cases import Case, Question

SENTINEL = 9_000_000  # stands for a value of a row where the line of a table is made
# Lists whose elements are compared one by one; others differ as a whole.
ENTERED = ("steps", "index")


class Columns:
    """The values that differ between some plain values, as columns of a table."""

    def __init__(self, count: int):
        self.count = count
        self.values: list[Sequence[Any]] = []

    def merged(self, plains: Sequence[Any], key: str = "") -> Any:
        """A plain value with `{"row": k}` where the given ones differ."""
        first = plains[0]
        if all(each == first and type(each) is type(first) for each in plains):
            return first
        if all(isinstance(each, dict) and each.keys() == first.keys() for each in plains):
            return {name: self.merged([each[name] for each in plains], name) for name in first}
        if key in ENTERED and all(isinstance(each, list) and len(each) == len(first) for each in plains):
            return [self.merged([each[k] for each in plains]) for k in range(len(first))]
        return {"row": self.column(plains)}

    def column(self, values: Sequence[Any]) -> int:
        for number, column in enumerate(self.values):
            if list(column) == list(values) and list(map(type, column)) == list(map(type, values)):
                return number
        self.values.append(values)
        return len(self.values) - 1

    def rows(self) -> list[list[Any]]:
        return [list(row) for row in zip(*self.values)]


def marked(plain: Any, samples: Sequence[Any], is_entry: bool = False) -> Any:
    """A plain value with a sentinel in the place of each value of a row."""
    if isinstance(plain, dict) and "row" in plain:
        number, sample = SENTINEL + plain["row"], samples[plain["row"]]
        if isinstance(sample, list):
            return [number, None, None] if is_entry else [number]
        return str(number) if isinstance(sample, str) else number
    if isinstance(plain, dict):
        return {key: [marked(each, samples, True) for each in value] if key == "index" and isinstance(value, list) else bool(value) if key == "keep"
                else marked(value, samples) for key, value in plain.items()}
    return plain


def line_of(step: Any, samples: Sequence[Any]) -> str:
    """The line of a step, with `{k}` for value k of a row."""
    text = str(commands.from_json(marked(step, samples)))
    if isinstance(step.get("keep"), dict):
        text = text.replace(" keep", f" {{{step['keep']['row']}}}")
    for number in range(len(samples)):
        sentinel = str(SENTINEL + number)
        text = text.replace(f"b'{sentinel}'", f"{{{number}}}").replace(f"{sentinel}:", f"{{{number}}}").replace(sentinel, f"{{{number}}}")
    return text


def plain_want(question: Question, named: Optional[Sequence[str]]) -> dict[str, Any]:
    """What is wanted, of all names or of some."""
    return {name: {"type": shown.type, "shape": list(shown.shape), "items": [int(item) if isinstance(item, bool) else item for item in shown.items]} for name, shown in question.want.items()
            if named is None or name in named}


def case_of(id_: str, questions: Sequence[Question], needs: frozenset[str], any_type: bool, named: Optional[Sequence[str]] = None,
            shares: Sequence[Any] = ()) -> Case:
    """The case for some questions: a table if there are several."""
    columns = Columns(len(questions))
    steps = columns.merged([[command.to_json() for command in question.commands] for question in questions], "steps")
    want = columns.merged([plain_want(question, named) for question in questions])
    refuse: Optional[Mapping[str, Any]] = None
    if any(question.refuse for question in questions):
        refuse = columns.merged([{"code": question.refuse or None, "step": question.step or len(question.commands) - 1} for question in questions])
    rows = columns.rows()
    samples = rows[0] if rows else []
    files = {name: data.hex() for name, data in questions[0].files.items()}
    lines = tuple(line_of(step, samples) for step in steps)
    return Case(id_, questions[0].feature, needs, lines, tuple(steps), want, refuse, tuple(rows), any_type, files, tuple(shares))
