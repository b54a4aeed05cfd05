"""How long the calls of a session take behind a pipe and in the process, beside `array.copy()`: the best of several runs."""
from __future__ import annotations

import timeit
from argparse import Namespace
from pathlib import Path
from typing import Callable, Iterator

import numpy as np

from bench_tool import Session, library

from .dtypes import Array
from .runs import Part


def best(call: Callable[[], object], runs: int = 7, calls: int = 1) -> float:
    """The least time of a call, in seconds."""
    return min(timeit.repeat(call, repeat=runs, number=calls)) / calls


def times(session: Session, array: Array) -> Iterator[tuple[str, str, float]]:
    session.batch(["a = arange <i4 0 6 1", "m = reshape a (2,3)"])
    session.put("x", array)
    for line in ("info a", "print m", "b = a[::-1]"):
        yield line, "us", 1e6 * best(lambda: session.send(line), calls=2000)
    lines = ["info a", "print m", "b = a[::-1]"] * 20_000
    yield "batch of 60,000 of these", "s", best(lambda: session.batch(lines), 3)
    yield "put of 10^6 <i4", "x copy", best(lambda: session.put("x", array), 15) / best(array.copy, 15)
    yield "get of 10^6 <i4", "x copy", best(lambda: session.get("x"), 15) / best(array.copy, 15)


def all_trials(given: Namespace, _folder: Path) -> Part:
    """The times of each kind of session."""
    part, array = Part(), np.arange(1_000_000, dtype="<i4")
    kinds = {"pipe": Session(given.program)}
    if library.loaded():
        kinds["in the process"] = Session()
    found = [list(times(session, array)) for session in kinds.values()]
    print(f"{'':26}{'':8}" + "".join(f"{kind:>16}" for kind in kinds))
    for row in zip(*found):
        print(f"{row[0][0]:26}{row[0][1]:8}" + "".join(f"{value:16.2f}" for _, _, value in row))
        part.figures.append({"call": row[0][0], "unit": row[0][1], **{kind: value for kind, (_, _, value) in zip(kinds, row)}})
    return part
