"""The judge's random scripts: which faults of the planted library they find, each in so many seconds, and that they find none in the right one. The
first faults of the list are those of other libraries, of which two may be missed for each ten."""
from __future__ import annotations

import itertools
import sys
import time
from argparse import Namespace
from pathlib import Path
from random import Random
from typing import Any, Optional

from bench_tool import judge_adapter
from bench_tool.judge_verdicts import Verdict

from . import judging
from .runs import Part

OTHERS, WANTED = 24, 19  # the faults of other libraries, and how many of these must be found
SCRIPTS = 500


def found_in(adapter: Any, fault: str, seconds: float, seed: int) -> tuple[Optional[Verdict], int]:
    """The first finding for a fault, and how many scripts were made."""
    until = time.monotonic() + seconds
    for part in itertools.count():
        verdict = judging.found_at_random(adapter, fault, SCRIPTS, Random(f"{seed} {part}"))
        if verdict or time.monotonic() > until:
            return verdict, (part + 1) * SCRIPTS
    raise AssertionError("there is no last part")


def all_trials(given: Namespace, _folder: Path) -> Part:
    part = Part()
    adapter = judge_adapter.adapter_of(str(judging.PLANTED))
    faults = sys.modules["planted_library"].FAULTS
    verdict, scripts = found_in(adapter, "", 10 * given.seconds, given.seed)
    part.expect("the right library", verdict, None)
    part.count("scripts", scripts)
    found = []
    for fault in faults:
        verdict, scripts = found_in(adapter, fault, given.seconds, given.seed)
        part.count("scripts", scripts)
        part.count("faults")
        found.append(verdict is not None)
        part.note(fault, f"found in {scripts} scripts" if verdict else f"not found in {scripts} scripts")
    part.expect(f"{WANTED} of {OTHERS} faults of other libraries are found", sum(found[:OTHERS]) >= WANTED, True)
    return part
