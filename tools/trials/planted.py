"""Whether each trial finds its kind of fault: it tries the program with one thing in its replies or its saves wrong."""
from __future__ import annotations

import importlib
import re
import shutil
from argparse import Namespace
from pathlib import Path
from typing import Any, NamedTuple
from unittest import mock

from . import TOP, errors
from .lines import own_scripts
from .runs import Part, compiled

SCRIPTS = 200  # beside NumPy
OTHERS = {"FILES": "the last bit of a saved file is another", "TORN": "a save writes over the old file"}


class Fault(NamedTuple):
    """A trial as `tools/try` names it, what the program says, and what it says instead; or one of OTHERS."""

    trial: str
    said: str
    instead: str = ""

    def what(self) -> str:
        return OTHERS.get(self.said) or f"`{self.said}` becomes `{self.instead}`"


LINES = (TOP / "tools/trials/planted.txt").read_text().splitlines()
FAULTS = [Fault(*re.split(": | \\| ", line, maxsplit=2)) for line in LINES if line and not line.startswith("#")]
# The trials in small.
SMALL: dict[str, dict[str, Any]] = {
    "beside_numpy": {}, "numbers": {}, "devices": {}, "files": {"ALTERED": 1000}, "kills": {},
    "errors": {"SCENARIOS": errors.SCENARIOS[:1]}, "limits": {"RANDOM_SCRIPTS": 0, "STACKS": [2**20], "MOST_STEPS": 40, "FILLED_LIMITS": 5},
    "memory": {"MOST_REQUESTS": 60, "scripts_of": lambda *_: own_scripts()[:3]},
    "long_runs": {"COMMANDS": 40_000, "SCRIPT_BYTES": 5 * 10**6, "LINES": 40, "ROUNDS": 4},
}


def stand_in(fault: Fault, program: Path, folder: Path) -> Path:
    """The program with that fault, in a folder of its own."""
    words = [f"-D{fault.said}"] if fault.said in OTHERS else [f'-DSAID="{fault.said}"', f'-DINSTEAD="{fault.instead}"']
    library = compiled("change_replies.c", folder / "planted.so", "-shared", "-fPIC", *words)
    return compiled("change_replies.c", folder / "bench", "-static", f'-DPROGRAM="{program}"', f'-DLIBRARY="{library}"')


def found(fault: Fault, given: Namespace, folder: Path) -> Part:
    """What the trial says of a program with that fault."""
    kind, _, part = fault.trial.partition(" ")
    name = "beside_numpy" if kind == "numpy" else {"long": "long_runs"}.get(part, part)
    module = importlib.import_module(f"trials.{name}")
    own = folder / "planted"
    shutil.rmtree(own, ignore_errors=True)
    own.mkdir(mode=0o755)
    words = {"program": stand_in(fault, given.program, own), "only": part, "scripts": SCRIPTS, "seconds": None, "every": False}
    with mock.patch.dict(vars(module), SMALL[name]):
        told: Part = module.all_trials(Namespace(**{**vars(given), **words}), own)
    return told


def all_trials(given: Namespace, folder: Path) -> Part:
    """Each planted fault, and after how many trials it was found; the same program without one has none."""
    part = Part()
    folder.chmod(0o755)
    for trial in dict.fromkeys(fault.trial for fault in FAULTS):
        part.expect(f"{trial}, without a fault", found(Fault(trial, "said by nobody"), given, folder).faults, [])
        print(f"   {trial}, without a fault: {len(part.faults)} wrong so far", flush=True)
    for fault in FAULTS:
        told = found(fault, given, folder)
        part.expect(f"{fault.trial}: {fault.what()}", bool(told.faults), True)
        part.note(f"{fault.trial}: {fault.what()}", f"found in trial {told.first + 1} of {told.tried()}, {len(told.faults)} times")
        print(f"   {part.notes[-1]}", flush=True)
    return part
