"""What `tools/try speed --page` writes into docs/SPEED.md below its line `## Figures`: the machine, the means, and a table of all rows."""
from __future__ import annotations

import hashlib
import os
import platform
import re
import statistics
import time
from argparse import Namespace
from pathlib import Path
from typing import Any, Mapping, Sequence

import numpy as np

HIGH = 1.5
HEAD = "## Figures\n"
Figures = Mapping[str, Any]


def mean(ratios: Sequence[float]) -> float:
    """The geometric mean. A row too short to be timed counts as a thousandth."""
    return statistics.geometric_mean(max(ratio, 0.001) for ratio in ratios or [1])


def ratios(figures: Sequence[Figures], size: int, depth: int) -> list[float]:
    """Those of the rows for a size."""
    return [row[f"ratio {depth}"] for row in figures if row["items"] == size]


def summary(figures: Sequence[Figures], size: int, depth: int) -> str:
    """Their geometric mean, in a line."""
    found = ratios(figures, size, depth)
    return f"geometric mean {mean(found):.2f} of {len(found)} rows; {sum(ratio > HIGH for ratio in found)} above {HIGH}"


def beside_script(figures: Sequence[Figures], size: int, depth: int, script_us: float) -> float:
    """The geometric mean if NumPy's statement is a line of a script, which takes so many microseconds more."""
    rows = [row for row in figures if row["items"] == size]
    return mean([row[f"undo {depth} us"] / (row["NumPy us"] + script_us) for row in rows])


def machine(program: Path) -> str:
    """What was measured, and on what."""
    model = re.search(r"(?m)^model name\s*: (.*)$", Path("/proc/cpuinfo").read_text())
    checksum = hashlib.sha256(program.read_bytes()).hexdigest()[:12]
    return (f"{time.strftime('%-d %B %Y')}: `{program.name}` (SHA-256 {checksum}..), NumPy {np.__version__} with Python {platform.python_version()}, "
            f"one of {os.cpu_count()} cores of {model[1] if model else platform.machine()}, under a load of {os.getloadavg()[2]:.0f}.")


def means(figures: Sequence[Figures], given: Namespace) -> list[str]:
    """The table of sizes and depths of undo."""
    lines = ["| Items | Undo | Geometric mean | Median | Above 1.5 | Below 1 |", "|--:|--:|--:|--:|--:|--:|"]
    for size in given.sizes:
        for depth in given.undo:
            found = ratios(figures, size, depth)
            high, ahead = (sum(holds) for holds in zip(*((ratio > HIGH, ratio < 1) for ratio in found)))
            lines.append(f"| {size:,} | {depth} | {mean(found):.2f} | {statistics.median(found):.2f} | {high} | {ahead} |")
    return lines


def cell(row: Figures, depth: int) -> str:
    """NumPy's time and the ratio, with the floor behind it."""
    floor = f" / {row['floor']:.2f}" if "floor" in row and row[f"ratio {depth}"] > HIGH else ""
    return f"{row['NumPy us']:,.{0 if row['NumPy us'] > 99 else 2}f} | {row[f'ratio {depth}']:.2f}{floor}"


def table(figures: Sequence[Figures], given: Namespace) -> list[str]:
    """A line for each row."""
    lines = ["| Row |" + "".join(f" {size:,}: NumPy us | ratio |" for size in given.sizes), "|---|" + "--:|--:|" * len(given.sizes)]
    for name in dict.fromkeys(row["row"] for row in figures):
        cells = {row["items"]: cell(row, given.undo[0]) for row in figures if row["row"] == name}
        shown = name.replace("|", r"\|")
        lines.append(f"| `{shown}` | " + " | ".join(cells.get(size, " | ") for size in given.sizes) + " |")
    return lines


def write(page: Path, figures: Sequence[Figures], given: Namespace, script_us: float) -> None:
    """Writes them below the page's own words."""
    depth, smallest = given.undo[0], min(given.sizes)
    script = (f"A line of a Python script that only prints a reply took {script_us:.0f} us. Beside a script of such lines, the geometric mean at {smallest:,} items "
              f"is {beside_script(figures, smallest, depth, script_us):.2f}.")
    text = "\n".join([machine(given.program), "", *means(figures, given), "", script, "", *table(figures, given)])
    page.write_text(page.read_text().partition(HEAD)[0] + f"{HEAD}\n{text}\n")
