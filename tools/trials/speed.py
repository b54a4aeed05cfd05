"""Times commands of the program and the same work in NumPy, told as ratios.

A script has the set-up of a row and then its line again and again. The time of the line is the difference between a run
with many repeats of it and a run with fewer, divided by the repeats between, so that neither the start of the program nor
the set-up counts. Also the shorter run has more repeats than the depth of undo, so that what a line replaces is let go as
fast as it is kept. NumPy's time is that of `timeit`. Both are processor time, the least of several runs that take turns.

Each row of speed.txt is timed for arrays of each size, at each depth of undo: the geometric mean of the ratios is told for
each. A ratio above 1 says that the program takes longer than NumPy. Beside a high one stands the floor: the ratio of a plain
C loop that does the same, with what undo keeps (floors.c, which needs a compiler). With --page the figures go into a page.
"""
from __future__ import annotations

import functools
import itertools
import math
import os
import platform
import subprocess
import sys
import time
import timeit
from argparse import Namespace
from pathlib import Path
from typing import Callable, Iterator

import numpy as np

from . import TOP, speed_page
from .runs import Part
from .timed import ENVIRONMENT, FOLDER, Row, rows, run

MOST_REPEATS = 2**18
BEFORE = 24
LONG_ENOUGH = 0.06
LEAST_COPIED = 2**14
ROWS = rows(TOP / "tools/trials/speed.txt")
WORDS = {
    "record": "T{<i:x:<h:y:2x}",
    "np_record": "np.dtype({'names': ['x', 'y'], 'formats': ['<i4', '<i2'], 'offsets': [0, 4], 'itemsize': 8})",
    "wide": "T{<q:x:<q:y:}", "np_wide": "[('x', '<i8'), ('y', '<i8')]", "folder": FOLDER.name,
}
SCRIPT = "x = a; print('ok x <i4 (100,) new', file=nowhere)\n" * 1000


def of_size(row: Row, size: int) -> Row:
    """The row for arrays of so many items."""
    cube = next(k for k in itertools.count(1) if (k + 1) ** 3 > size)
    sizes = {"n": size, "side": math.isqrt(size), "cube": cube, "half": size // 2, "fourth": size // 4, "third": size // 3,
             "even": size // 2 * 2, "few": min(size, 2**16)}
    return row.with_words({**sizes, **WORDS})._replace(moved=row.moved * size)


def enough(seconds: Callable[[int], float], repeats: int) -> int:
    """How many repeats take so long that they can be timed, from so many on."""
    while seconds(repeats) < LONG_ENOUGH and repeats < MOST_REPEATS:
        repeats *= 4
    return repeats


def bench_times(program: Path, row: Row, depth: int) -> Iterator[float]:
    """The seconds that one line of the program takes: the least so far, at each turn."""
    def repeated(times: int) -> float:
        return run(program, f"{row.setup}\n" + f"{row.line}\n" * (BEFORE + times), depth).seconds

    short, long = repeated(0), math.inf
    repeats = enough(lambda times: repeated(times) - short, 16)
    while True:
        short, long = min(short, repeated(0)), min(long, repeated(repeats))
        yield (long - short) / repeats


def numpy_times(statement: str, setup: str) -> Iterator[float]:
    """The seconds that a statement for NumPy takes: the least so far, at each turn."""
    timer = timeit.Timer(statement, setup or "pass", time.process_time, {"np": np, "os": os, "itertools": itertools})
    repeats, least = enough(timer.timeit, 1), math.inf
    while True:
        least = min(least, timer.timeit(repeats))
        yield least / repeats


@functools.lru_cache(maxsize=None)
def floors(march: str) -> Path:
    """The compiled floors.c."""
    made = Path(FOLDER.name, "floors")
    subprocess.run(["cc", "-O3", *([f"-march={march}"] if march else []), "-o", made, TOP / "tools/trials/floors.c"], check=True)
    return made


def floor_time(program: Path, row: Row, size: int) -> float:
    """The seconds of a plain C loop that does the same or moves as many bytes, compiled for the processors that the program is for."""
    march = ("x86-64-v3" if "v3" in program.name else "x86-64-v2") * (platform.machine() == "x86_64")
    words = [str(floors(march)), row.name, str(size), str(round(row.moved))]
    return float(subprocess.run(words, check=True, capture_output=True, text=True, env=ENVIRONMENT).stdout)


def in_turns(runs: int, *those: Iterator[float]) -> list[float]:
    """What each has after so many turns."""
    return [[next(each) for each in those] for _ in range(runs)][-1]


def script_time(runs: int) -> float:
    """The seconds that a line of a Python script takes that only prints a reply. Most of it is Python's compiler."""
    return in_turns(runs, numpy_times(f"exec({SCRIPT!r})", f"a = np.ones(100); nowhere = open({os.devnull!r}, 'w')"))[0] / 1000


def report(part: Part, size: int, given: Namespace) -> None:
    """Prints the rows for a size, and their geometric means."""
    chosen = [of_size(row, size) for row in ROWS if given.only in row.name]
    width = max([14, *(len(row.name) for row in chosen)])
    heads = ["NumPy us", *(head for depth in given.undo for head in (f"undo {depth} us", "ratio")), "floor"]
    print(f"\n{f'{size:,} items':{width}}  " + "  ".join(f"{head:>10}" for head in heads))
    for row in chosen:
        replies = run(given.program, f"{row.setup}\n{row.line}\n", 16, is_kept=True).replies
        if refused := [reply for reply in replies if reply.startswith("no E")]:
            part.fault(f"{row.name}: {row.line}", refused[0], "accepted")
            continue
        timed = [bench_times(given.program, row, depth) for depth in given.undo]
        theirs, *ours = in_turns(given.runs, numpy_times(row.numpy, row.numpy_setup), *timed)
        figures = {"NumPy us": theirs * 1e6}
        for depth, seconds in zip(given.undo, ours):
            figures.update({f"undo {depth} us": seconds * 1e6, f"ratio {depth}": seconds / theirs})
        if row.moved > LEAST_COPIED and max(ours) > speed_page.HIGH * theirs:
            figures["floor"] = floor_time(given.program, row, size) / theirs
        print(f"{row.name:{width}}  " + "  ".join(f"{value:10.2f}" for value in figures.values()), flush=True)
        part.figures.append({"row": row.name, "items": size, **figures})
    for depth in given.undo:
        print(f"undo {depth}: {speed_page.summary(part.figures, size, depth)}", flush=True)


def all_trials(given: Namespace, _folder: Path) -> Part:
    """Each row, for arrays of each size."""
    part = Part()
    np.set_printoptions(threshold=sys.maxsize, linewidth=sys.maxsize)
    for size in given.sizes:
        report(part, size, given)
    if given.page:
        speed_page.write(given.page, part.figures, given, script_time(given.runs) * 1e6)
    return part
