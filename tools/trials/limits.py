"""Limits of the address space and of the stack, which hold from a run's first moment on, in steps of a page.

Under a limit the program may not be loaded, or end while it takes its stack; nothing ends it after its first reply."""
from __future__ import annotations

import collections
import dataclasses
from argparse import Namespace
from pathlib import Path
from random import Random
from typing import Sequence

from .lacking import Lacking
from .lines import Script, own_scripts, scripts_of
from .runs import Part, Runner, in_processes, with_launcher

PAGE = 4096
RANDOM_SCRIPTS = 40
BEFORE, BEHIND = 100 * PAGE, 16 * PAGE
MOST_STEPS = 400
FILLS, FILLED_LIMITS = b"fills", 20
FULL = [(22, 24), (18, 16), (14, 16), (12, 32), (8, 32), (4, 16)]
STACKS = range(PAGE, 2**20 + 1, PAGE)
ENDS_SHELL, ENDS_PROGRAM = 2**16, 2**19
BEFORE_START = ("not started", "ended at the start")


def filling(script: Script) -> Script:
    """A script after others that take memory in ever smaller pieces, until there is none."""
    lines = [FILLS + b"%d_%d = zeros |u1 (%d)" % (size, k, 2**size) for size, count in FULL for k in range(count)]
    return dataclasses.replace(script, lines=script.lines[:1] + lines + script.lines)


class Limited(Lacking):
    """A script under limits."""

    def under(self, kind: str, most: int) -> str:
        """A run under a limit: a word for what it comes to."""
        self.part.count(f"runs under a limit of {'the stack' if kind == 'stack' else 'memory'}")
        return self.trial(f"{most} bytes for {kind}", BEFORE_START, limits=[(kind, most)])

    def least(self, words: Sequence[str], low: int, high: int) -> int:
        """The smallest limit of memory, by pages, from which on a run does not come to one of these words."""
        while high - low > PAGE:
            middle = (low + high) // 2 // PAGE * PAGE
            low, high = (middle, high) if self.judged(*self.run(self.lines, limits=[("as", middle)]))[0] in words else (low, middle)
        return high


def at_each_page(trial: Limited, rng: Random) -> dict[str, list[int]]:
    """Every page from where the program begins to run to where its memory suffices; of many, those at both ends and some between."""
    first = trial.least(BEFORE_START, PAGE, 2**31)
    last = max(first, trial.least((*BEFORE_START, "stopped at the start", "with E40"), first - PAGE, 2**31))
    pages = range(first - BEFORE, last + BEHIND, PAGE)
    some = {*pages[:MOST_STEPS // 2], *pages[-BEHIND // PAGE * 2:], *rng.sample(pages, min(len(pages), MOST_STEPS // 3))}
    chosen = pages if len(pages) <= MOST_STEPS else sorted(some)
    words = collections.defaultdict(list)
    for most in chosen:
        words[trial.under("as", most)].append(most)
    return words


def trials_of(task: tuple[Path, int, Script, str]) -> tuple[Part, int]:
    """All runs over one script."""
    program, number, script, seed = task
    part, rng = Part(), Random(seed)
    with Runner(program) as runner:
        part.count("scripts")
        asked = script.asking()
        words = at_each_page(Limited(runner, part, script.name, asked), rng)
        ended = words["ended at the start"]
        running = [most for word in words for most in words[word] if word not in BEFORE_START]
        above = max(ended) - min(running) if ended and running else 0
        if number % 5 == 0:
            full = Limited(runner, part, f"{script.name} in full memory", filling(asked))
            for most in rng.sample(range(2**23, 2**27, PAGE), FILLED_LIMITS):
                full.under("as", most)
    return part, above


def stacks(program: Path, folder: Path) -> Part:
    """Every limit of the stack, of the program alone and of the launcher, which answers where there is too little."""
    part = Part()
    scripts = {script.name: script for script in own_scripts()}
    for name, started in (("the program", program), ("the launcher", with_launcher(program, folder))):
        with Runner(started) as runner:
            for script in ("every_command.bench", "many_axes.bench", "saved_records.bench", "long lists"):
                asked = scripts[script].asking()
                trial = Limited(runner, part, f"{name}, {script}", asked)
                ended = [most for most in STACKS if trial.under("stack", most) == "ended at the start"]
                part.note(f"{name}, {script}: ended at the start under a stack of", f"up to {max(ended, default=0):,} bytes")
                most = ENDS_SHELL if name == "the launcher" else ENDS_PROGRAM
                part.expect(f"{name}, {script}: ended at its start", max(ended, default=0) < most, True)
    return part


def all_trials(given: Namespace, folder: Path) -> Part:
    """All limits over all scripts."""
    part = stacks(given.program, folder)
    tasks = [(given.program, number, script, f"{given.seed} {number}") for number, script in enumerate(scripts_of(given, RANDOM_SCRIPTS))]
    most = 0
    for runs, above in in_processes(given, trials_of, tasks):
        part.add(runs)
        most = max(most, above)
    part.note("limits that end a run at its start, above the least under which it runs", f"up to {most:,} bytes")
    return part
