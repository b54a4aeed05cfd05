"""The program killed at random moments of a save over an old file.

After each kill the file is the old one or the new one, whole. A save in peace then removes what the kill left, and of no other name."""
from __future__ import annotations

import contextlib
import subprocess
import time
from argparse import Namespace
from pathlib import Path
from random import Random

from .runs import Part, Runner, contents

KILLS = 200
SIZE = 2**24 - 2**12
SCRIPT = "x = full |u1 ({}) {}\nsave x \"a.npy\"\n"
OLD, NEW = SCRIPT.format(SIZE, 7).encode(), SCRIPT.format(SIZE, 9).encode()


def all_trials(given: Namespace, _folder: Path) -> Part:
    """So many kills, each over the old file."""
    part, rng = Part(), Random(given.seed)
    files: dict[object, object] = {}
    with Runner(given.program) as runner:
        words = ["--dir", str(runner.dir)]
        for name, text in (("new", NEW), ("old", OLD)):
            began = time.monotonic()
            runner.run(text, words)
            whole_run = time.monotonic() - began
            files[contents(runner.dir)["a.npy"]] = name
        (runner.dir / ".b.npy.part").write_bytes(b"left of another name")
        for turn in range(KILLS):
            runner.run(OLD, words)
            with contextlib.suppress(subprocess.TimeoutExpired):
                subprocess.run([runner.program, *words], input=NEW, stdout=subprocess.DEVNULL, timeout=rng.uniform(0.1, 1.1) * whole_run)
            found = contents(runner.dir)
            left = files.get(found["a.npy"], "neither")
            part.count("kills")
            part.count(f"of them left the {left} file")
            part.count("with a hidden part", ".a.npy.part" in found)
            if left == "neither":
                part.fault(f"kill {turn}", "a file that is neither", "the old file or the new one")
        runner.run(OLD, words)
        after = {name: files.get(file, file) for name, file in contents(runner.dir).items()}
        part.expect("after a save in peace", after, {"a.npy": "old", ".b.npy.part": b"left of another name"})
    return part
