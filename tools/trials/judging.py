"""The judge in this process: an adapter that answers the questions of cases, and whether a fault that is planted is found."""
from __future__ import annotations

import sys
import tempfile
from random import Random
from types import SimpleNamespace
from typing import Any, Iterable, Iterator, Optional, Sequence
from unittest import mock

from bench_tool import cases, judge_adapter, needs
from bench_tool.cases import Case, Question
from bench_tool.judge_asking import methods_of
from bench_tool.judge_oracle import Oracle
from bench_tool.judge_random import Scripts
from bench_tool.judge_shrink import shrunk
from bench_tool.judge_verdicts import Verdict, judged

from . import TOP

PLANTED = TOP / "tools/trials/planted_adapter.py"
FINDINGS = ("wrong", "dies", "accepts", "refuses")


# Libraries that lack much: what they have, the methods beside make and items, and the most axes of an array.
SMALL: dict[str, tuple[set[str], str, int]] = {
    "bytes of one axis": ({"u1", "steps", "negative_steps", "views", "size_0"}, "take put", 1),
    "int of two axes": ({"i4", "steps"}, "take put op reduce transpose reshape", 2),
    "int64, index arrays and masks": ({"i8", "b1", "index_arrays", "masks", "size_0", "rank_0"}, "take put update", 3),
    "no writes": (set(needs.ALL) - {"views", "byte_strings", "records", "big_endian"}, "take op compare unary reduce reshape transpose broadcast cast", 64),
    "no steps below 0, no rank 0": (set(needs.ALL) - {"negative_steps", "rank_0", "byte_strings", "records", "big_endian"}, "take put update op compare reduce reshape transpose", 64),
}


def small(adapter: Any, name: str) -> Any:
    """An adapter with a part of another."""
    has, methods, most_axes = SMALL[name]
    return SimpleNamespace(HAS=has, MOST_AXES=most_axes, **{method: getattr(adapter, method) for method in ["make", "items", *methods.split()]})


class Died(BaseException):
    """What a planted fault does in the place of ending the process."""


def questions(adapter: Any, chosen: Sequence[Case], share: int = 1) -> Iterator[Question]:
    """The questions of cases that an adapter can answer, or every so manieth of each table."""
    told = judge_adapter.hello(adapter)
    has, can, most_axes = frozenset(told["has"]), set(told["can"]), told["most_axes"] or needs.MOST_AXES
    for case in chosen:
        if case.feature.endswith("100,000 items"):
            continue  # a second for each in Python
        types = cases.types_for(case, has)
        found = list(case.questions())[::share] if types is not None else []
        if found and methods_of(found[0]) <= can:
            yield from (question.retyped(types) if types else question for question in found if question.axes <= most_axes)


def verdicts(adapter: Any, asked: Iterable[Question]) -> Iterator[Verdict]:
    """The verdict on each question."""
    with tempfile.TemporaryDirectory() as folder:
        for question in asked:
            try:
                yield judged(question, judge_adapter.answer(adapter, question.plain(), folder))
            except Died:
                yield Verdict("dies", question)


def planted(fault: str) -> Any:
    """The library with a fault, as a context. One that ends the process raises `Died` instead."""
    def die(*_: Any) -> None:
        raise Died

    return mock.patch.multiple(sys.modules["planted_library"], PLANTED=fault, os=mock.Mock(kill=die, getpid=lambda: 0))


def found_by(adapter: Any, asked: Sequence[Question], fault: str) -> Optional[Verdict]:
    """The first finding of some questions for a fault."""
    with planted(fault):
        return next((verdict for verdict in verdicts(adapter, asked) if verdict.verdict in FINDINGS), None)


def found_at_random(adapter: Any, fault: str, scripts: int, rng: Random) -> Optional[Verdict]:
    """The first finding of so many random scripts for a fault, or for the right library if it is empty."""
    told = judge_adapter.hello(adapter)
    made = Scripts(rng, told["has"], told["can"])
    with planted(fault), tempfile.TemporaryDirectory() as folder:
        for number in range(scripts):
            question = made.question(f"random/{number}")
            wants = [step.shown for step in made.steps]
            try:
                verdict = judged(question, judge_adapter.answer(adapter, question.plain(each=True), folder), wants)
            except Died:
                return Verdict("dies", question)
            if verdict.verdict in FINDINGS:
                return verdict
    return None


def least_of(adapter: Any, found: Verdict, fault: str) -> Verdict:
    """The smallest script that shows a finding of random scripts."""
    def ask(question: Question) -> Verdict:
        return next(verdicts(adapter, [question]))

    with planted(fault):
        return shrunk(found, ask, frozenset(judge_adapter.hello(adapter)["has"]), Oracle())
