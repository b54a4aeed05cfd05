"""Random scripts by the program and by NumPy: each reply, the status, and each file that is left.

Each script has a depth of undo and a folder of its own, with files that NumPy writes of random arrays, some of them cut. What is saved
is compared byte for byte with what `npy_files.py` says of the array, and NumPy loads it. A script that the two answer differently
is told with the fewest lines that still show it.
"""
from __future__ import annotations

import itertools
import math
import time
from argparse import Namespace
from pathlib import Path
from random import Random
from typing import NamedTuple, Optional

import numpy as np

from bench_tool import scripts

from . import npy_files, npy_rule
from .reference import Reference
from .runs import Part, Runner, in_processes

DEPTHS = [0, 1, 3, 16, 64]
BATCH = 25


def first_files(rng: Random) -> dict[str, bytes]:
    """Files that NumPy writes, one in ten of them cut."""
    made = {f"p{number}.npy": npy_files.numpys(rng) for number in range(rng.randint(0, 4))}
    return {name: npy_rule.cut(rng, file) if rng.random() < 0.1 else file for name, file in made.items()}


class Script(NamedTuple):
    """A script, carried out by NumPy, and the files that are there first."""

    reference: Reference
    lines: list[str]
    files: dict[str, bytes]

    def shorter(self, lines: list[str]) -> Script:
        """Other lines, carried out anew."""
        reference = Reference(self.reference.depth, self.files)
        for line in lines:
            reference.ask(line)
        return Script(reference, lines, self.files)


def script(seed: str, profile: Optional[str], size: Optional[int] = None) -> Script:
    """A random script, carried out by NumPy: that, its lines, and the files that were there first. Of five, one is of computations alone
    and one of format texts."""
    rng = Random(seed)
    chosen = profile or rng.choice(["mixed", "mixed", "mixed", "computing", "formats"])
    files = first_files(rng) if chosen == "mixed" else {}
    reference = Reference(rng.choice(DEPTHS), files)
    steps = scripts.write(rng, reference.ask, chosen, size or rng.randint(5, 40), list(files))
    return Script(reference, [step.line for step in steps], files)


def difference(runner: Runner, script: Script) -> Optional[tuple[object, object]]:
    """What the program does and what NumPy does, where they differ first."""
    reference, lines, files = script
    done, left = runner.over(files, "".join(f"{line}\n" for line in lines).encode(), ["--undo", str(reference.depth)])
    replies, wanted = done.out.decode("latin-1"), "".join(f"{reply}\n" for reply in reference.replies)
    pairs = itertools.zip_longest(replies.split("\n"), wanted.split("\n"), fillvalue="nothing")
    if replies != wanted:
        return next(pair for pair in pairs if pair[0] != pair[1])
    status = int(reference.counts["refused"] > 0)
    if (done.status, done.err) != (status, b""):
        return (done.status, done.err), (status, b"")
    return None if left == reference.files else ("other files are left", "those that NumPy would leave")


def fewest(runner: Runner, script: Script) -> Script:
    """The script without all lines that can be left out while a difference stays."""
    size = len(script.lines)
    while size:
        for at in range(len(script.lines) - size, -1, -size):
            fewer = script.shorter(script.lines[:at] + script.lines[at + size:])
            if difference(runner, fewer):
                script = fewer
        size = min(size // 2, len(script.lines))
    return script


def trial(task: tuple[Path, int, Optional[str], int]) -> Part:
    """Some scripts, by both."""
    program, seed, profile, first = task
    part = Part()
    with Runner(program) as runner:
        for number in range(first, first + BATCH):
            tried = script(f"{seed} {number}", profile)
            if difference(runner, tried):
                few = fewest(runner, tried)
                happened, should = difference(runner, few) or ("no difference when run again", "")
                part.fault(f"script {number} of seed {seed}, --undo {few.reference.depth}:\n" + "\n".join(few.lines), happened, should)
            part.counts.update(tried.reference.counts)
            part.count("scripts")
    return part


def all_trials(given: Namespace, _folder: Path) -> Part:
    """So many scripts of a seed, some at a time, with a line for each thousand; where there is a limit of time, as many as it allows."""
    part, began = Part(), time.monotonic()
    tasks = ((given.program, given.seed, given.only, number * BATCH) for number in range(math.ceil(given.scripts / BATCH)))
    for found in in_processes(given, trial, tasks):
        part.add(found)
        if part.counts["scripts"] % 1000 == 0:
            print(f"   {part.counts['scripts']:,} scripts, {len(part.faults)} wrong, {time.monotonic() - began:.0f} s", flush=True)
        if given.seconds and time.monotonic() - began > given.seconds:
            break
    part.note("NumPy", np.__version__)
    return part
