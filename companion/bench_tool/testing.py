"""For test suites: `scripts()`, a Hypothesis strategy for scripts, and `cases()`, parameters of pytest. Each needs its package.

    from bench_tool.testing import cases, scripts

    @hypothesis.given(scripts(types=["<i4"], commands=["array", "select", "set"]))
    def test_of_mine(steps):
        for step in steps: ..  # step.command, step.line, step.reply

    @pytest.mark.parametrize("case", cases(needs={"i4", "negative_steps"}))
    def test_of_another(case): ..  # case.commands, case.lines, case.want, case.refuse

The fixture `bench`, an empty session, is there for every test where `bench_tool` is installed (`bench_tool.plugin`).
"""
from __future__ import annotations

from random import Random
from typing import TYPE_CHECKING, Any, Callable, Collection, Optional, Union

from .bench import Session
from .profiles import Profile
from .scripts import profile_of
from .writer import Step, Writer

if TYPE_CHECKING:
    from hypothesis.strategies import SearchStrategy

FEW = 6


class _Choices(Random):
    """Choices that Hypothesis makes, and shrinks to the first of a sequence, or to the number nearest to 0. A choice takes as many bytes
    whatever there is to choose from, so what comes after it stays the same while it shrinks."""

    def __init__(self, draw: Callable[[Any], Any]):
        super().__init__(0)
        from hypothesis import strategies
        self._draw, self._byte, self._word = draw, strategies.integers(0, 255), strategies.integers(0, 65535)

    def _index(self, count: int) -> int:
        drawn: int = self._draw(self._byte if count <= 256 else self._word)
        return drawn % count

    def choice(self, seq: Any) -> Any:
        return seq[self._index(len(seq))]

    def randint(self, a: int, b: int) -> int:
        """First the numbers from 0 up, or from the one nearest to it, then those on the other side."""
        first = min(max(a, 0), b)
        index = self._index(b - a + 1)
        return first + index if first + index <= b else b - index

    def randrange(self, start: int, *_: Any) -> int:
        return self._index(start)

    def sample(self, population: Any, k: int, **_: Any) -> list[Any]:
        pool = list(population)
        return [pool.pop(self._index(len(pool))) for _ in range(k)]

    def shuffle(self, x: Any) -> None:
        x[:] = self.sample(x, len(x))


def scripts(
    size: int = 30, profile: Union[str, Profile] = "small", *, types: Optional[Collection[str]] = None,
    commands: Optional[Collection[str]] = None, needs: Optional[Collection[str]] = None, refused: bool = True,
) -> SearchStrategy[list[Step]]:
    """Scripts of at most `size` commands, for a library that has these types, commands and words of `bench_tool.needs`. Each step has the
    command, its line and its reply. Every choice is Hypothesis's, values of arrays too, so it shrinks what fails."""
    from hypothesis import strategies
    chosen = profile_of(profile, types, commands, needs, refused)

    @strategies.composite
    def step(draw: Callable[[Any], Any], writer: Writer) -> None:
        writer.rng = _Choices(draw)
        if len(writer.steps) < size:
            writer.step()

    @strategies.composite
    def script(draw: Callable[[Any], Any]) -> list[Step]:
        with Session() as session:
            writer = Writer(_Choices(draw), lambda line: session.send(line).text, chosen)
            some = strategies.lists(step(writer), min_size=1, max_size=FEW)  # lists of lists are longer than lists
            draw(strategies.lists(some, min_size=1, max_size=-(-size // FEW)))
            return writer.end()

    return script()


def cases(needs: Optional[Collection[str]] = None, only: str = "") -> list[Any]:
    """The questions of the cases in vectors/, for a library that has these words of `bench_tool.needs`, as parameters of pytest with their
    ids. With `only`, those whose id or feature has this text. Where the type does not matter it is one that the library has."""
    import pytest

    from . import cases as held
    found = []
    for case in held.read(needs, only):
        types = {} if needs is None else held.types_for(case, needs) or {}
        found += [pytest.param(question.retyped(types), id=question.id) for question in case.questions()]
    return found
