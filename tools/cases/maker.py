"""Collects cases: lines are carried out by the bench, which says what is wanted; rows of the same needs become tables."""
from __future__ import annotations

import collections
import json
from functools import lru_cache
from pathlib import Path
from typing import Any, Iterable, Mapping, Optional, Sequence

from bench_tool import parse
from bench_tool.cases import ITEMS, Case, Question, from_json
from bench_tool.judge_oracle import Oracle, groups, question_of

from .features import feature_of
from .tables import case_of

MOST_ROWS = 250
parsed = lru_cache(1 << 16)(parse)
MOST_STEPS = 6


class Maker:
    """The cases of all families."""

    def __init__(self) -> None:
        self.oracle = Oracle()
        self.cases: dict[str, list[Case]] = collections.defaultdict(list)
        self.seen: set[Any] = set()

    def tried(self, feature: str, lines: Sequence[str], files: Mapping[str, bytes] = {}) -> tuple[Question, frozenset[str], list[list[str]]]:
        """The question of some lines, what it needs, and which names share."""
        steps = self.oracle.steps([command for command in map(parsed, lines) if command], files)
        if len(steps) < len(lines) or len(lines) > MOST_STEPS:
            raise ValueError(f"refused at {len(steps)} of {len(lines)}: {lines} {steps[-1].code}")
        needs = frozenset().union(*(step.needs for step in steps))
        return question_of("", feature_of(feature), steps, files), needs, groups(self.oracle)

    def add(self, family: str, feature: str, *lines: str, any_type: bool = False, files: Mapping[str, bytes] = {},
            named: Optional[Sequence[str]] = None) -> None:
        """One case."""
        question, needs, shares = self.tried(feature, lines, files)
        self._keep(family, [question], needs, any_type, named, shares)

    def table(self, family: str, feature: str, scripts: Iterable[Sequence[str]], any_type: bool = False, refusals: bool = True,
              named: Optional[Sequence[str]] = None, most: int = MOST_ROWS) -> None:
        """Scripts of one form: those with the same needs are the rows of one case. `refusals`: those that are refused are among them."""
        found: dict[Any, list[Question]] = collections.defaultdict(list)
        sharing: dict[Any, Any] = {}
        for lines in dict.fromkeys(tuple(script) for script in scripts):
            question, needs, shares = self.tried(feature, lines)
            if question.refuse and not refusals:
                continue
            form = tuple(tuple(sorted(command.to_json())) for command in question.commands), tuple(question.want)
            key = needs, form, tuple(type(getattr(command, "value", None)) for command in question.commands), bool(question.refuse)
            found[key].append(question)
            sharing[key] = shares
        for key, questions in found.items():
            for first in range(0, len(questions), most):
                self._keep(family, questions[first:first + most], key[0], any_type, named, sharing[key])

    def _keep(self, family: str, questions: Sequence[Question], needs: frozenset[str], any_type: bool, named: Optional[Sequence[str]],
              shares: Sequence[Any]) -> None:
        key = tuple(question.lines for question in questions), tuple(tuple(question.files.values()) for question in questions)
        if key in self.seen:
            return
        self.seen.add(key)
        any_type = any_type and all(0 <= item <= 127 for question in questions for shown in question.want.values() if shown.type == ITEMS for item in shown.items)
        case = case_of(f"{family}/{len(self.cases[family]) + 1:04}", questions, needs, any_type, named, shares)
        again = list(from_json(json.loads(json.dumps(case.to_json()))).questions())
        assert [(each.lines, each.refuse, each.step) for each in again] == [(each.lines, each.refuse, each.step) for each in questions], case.lines
        self.cases[family].append(case)

    def write(self, folder: Path) -> None:
        """Writes each family to a file."""
        folder.mkdir(exist_ok=True)
        for family, cases in self.cases.items():
            lines = (json.dumps(case.to_json(), separators=(",", ":")) for case in cases)
            (folder / f"{family}.jsonl").write_text("".join(f"{line}\n" for line in lines))
