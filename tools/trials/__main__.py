"""What is tried on the built program beside its proofs; the gate runs none of this whole. Each trial reports its counts and what was wrong:
where, what happened, and what should have. The status is 1 where something was.

The scripts of `hostile` are those of examples/ and tools/trials/scripts/, and random ones. It needs a C compiler and `prlimit`; trials
with another user or a full disk need root, and are skipped otherwise. The others need NumPy."""
from __future__ import annotations

import argparse
import importlib
import json
import os
import sys
import time
from pathlib import Path
from typing import Optional, Sequence

from . import TOP
from .companion_trials import PROGRAM
from .runs import Part, shown, temporary_folder

HOSTILE = {"memory": "memory", "limits": "limits", "files": "files", "numbers": "numbers", "devices": "devices", "errors": "errors",
           "crashes": "crashes", "kills": "kills", "long": "long_runs"}
MOST_TOLD = 20


def arguments(words: Optional[Sequence[str]]) -> argparse.Namespace:
    """What the command line asks for; `modules` are those of its parts."""
    common = argparse.ArgumentParser(add_help=False)
    common.add_argument("--program", type=Path, default=Path(PROGRAM), help="the program, if not the built one")
    common.add_argument("--seed", type=int, default=1, help="the seed of what is random (1)")
    common.add_argument("--processes", type=int, default=min(2, os.cpu_count() or 1), metavar="N", help="processes at a time (2)")
    common.add_argument("--json", type=Path, metavar="FILE", help="write a summary there")
    parser = argparse.ArgumentParser(prog="tools/try", description=__doc__, formatter_class=argparse.RawDescriptionHelpFormatter)
    trials = parser.add_subparsers(dest="trial", required=True)

    def trial(name: str, about: str) -> argparse.ArgumentParser:
        return trials.add_parser(name, parents=[common], help=about, description=about)

    numpy = trial("numpy", "random scripts, by the program and by NumPy")
    numpy.add_argument("--scripts", type=int, default=1000, metavar="N", help="how many scripts (1000; for a night 20000)")
    numpy.add_argument("--seconds", type=float, metavar="N", help="begin no more after so many seconds")
    numpy.add_argument("--only", choices=["mixed", "indexes", "masks", "shares", "computing", "formats"], help="scripts of one kind alone")
    hostile = trial("hostile", "how the program bears what goes wrong: all parts, or those that are named")
    hostile.add_argument("parts", nargs="*", metavar="PART", choices=[*HOSTILE, []], help=", ".join(HOSTILE))
    hostile.add_argument("--every", action="store_true", help="refuse every request for memory, also of long runs")
    speed = trial("speed", "how long commands take beside NumPy's")
    speed.add_argument("--sizes", type=int, nargs="+", default=[100, 10_000, 1_000_000], metavar="N", help="items of the arrays, 100 or more")
    speed.add_argument("--undo", type=int, nargs="+", default=[16], metavar="N", help="depths of undo, 0 to 20 (16)")
    speed.add_argument("--page", type=Path, metavar="FILE", help="write the figures into this page, docs/SPEED.md")
    worst = trial("worst", "the time and the memory of the worst line of each command")
    worst.add_argument("--seconds", type=float, default=120, metavar="N", help="the most that a run may take (120)")
    worst.add_argument("--first", type=int, default=0, metavar="K", help="begin behind so many rows")
    search = trial("search", "lines of more than 10 s or 1.5 GB, over axes, orders, types and stores")
    search.add_argument("--seconds", type=float, default=600, metavar="N", help="begin no more after so many seconds (600)")
    search.add_argument("--most", type=float, default=120, metavar="N", help="the most that a run may take (120)")
    search.add_argument("--only", default="", metavar="WORD", help="the commands with this in their names")
    for timed, runs in ((speed, 5), (worst, 3)):
        timed.add_argument("--only", default="", metavar="WORD", help="the rows with this in their names")
        timed.add_argument("--runs", type=int, default=runs, metavar="K", help=f"runs of which the least time counts ({runs})")
    companion = trial("companion", "the companion with odd lines, headers, environments and keys")
    companion.add_argument("--seconds", type=float, default=60, metavar="N", help="for so many seconds (60; for a night 3600)")
    faults = trial("faults", "whether the judge finds the faults of a planted library at random, and none in the right one")
    faults.add_argument("--seconds", type=float, default=60, metavar="N", help="for each fault (60); ten times that for the right library")
    trial("planted", "whether each trial finds its kind of fault, planted in the program's replies and files")
    judge = trial("judge", "what bench finds in the array programs that are installed: all adapters, and docs/FINDINGS.md")
    judge.add_argument("--only", default="", metavar="WORD", help="the programs with this in their names")
    trial("sessions", "how long the calls of a session take, behind a pipe and in the process")
    given = parser.parse_args(words)
    given.program = given.program.resolve()
    parts = [HOSTILE[part] for part in getattr(given, "parts", []) or HOSTILE]
    given.modules = parts if given.trial == "hostile" else [{"numpy": "beside_numpy", "companion": "companion_faults"}.get(given.trial, given.trial)]
    return given


def report(name: str, part: Part, seconds: float) -> None:
    """Prints what a part came to."""
    counts = ", ".join(f"{count:,} {what}" for what, count in sorted(part.counts.items()) if count)
    print(f"{name}: {counts or 'nothing tried'}; {len(part.faults)} wrong; {seconds:.0f} s", flush=True)
    for note in part.notes:
        print(f"   {note}")
    for where, happened, should in part.faults[:MOST_TOLD]:
        print(f"-- {where}\n   what happened: {shown(happened, 4000)}\n   what should have: {shown(should)}", flush=True)
    if len(part.faults) > MOST_TOLD:
        print(f"-- and {len(part.faults) - MOST_TOLD} more")


def main(words: Optional[Sequence[str]] = None) -> int:
    given, found = arguments(words), []
    print(f"{given.program}, seed {given.seed}", flush=True)
    with temporary_folder() as folder:
        for name in given.modules:
            began = time.monotonic()
            part: Part = importlib.import_module(f"trials.{name}").all_trials(given, Path(folder))
            seconds = time.monotonic() - began
            report(name, part, seconds)
            found.append({"part": name, "seconds": round(seconds, 1), **part.summary()})
    if given.json:
        given.json.write_text(json.dumps({"program": str(given.program), "seed": given.seed, "parts": found}, indent=1) + "\n")
    return int(any(part["wrong"] for part in found))


if __name__ == "__main__":
    sys.exit(main())
