"""The worst line that is known for each command, with sizes at the language's limits, as worst.txt has it: its processor time, and the
memory that it takes beside its arrays and its result. Each row is also measured with its broadcast arrays stored, and with the axes of its
arrays reversed, where that is another line that is accepted.

The time of a line is the difference between a run with it and one without it, the least of several runs. Its memory is the most that the
run with it held, without what an idle run holds and the bytes of the arrays that the run made. docs/DECISIONS.md has the table; a line that
takes more than 10 seconds or 1.5 GB is named there with its floor.
"""
from __future__ import annotations

import itertools
import math
import re
from argparse import Namespace
from pathlib import Path

from . import TOP, dtypes
from .runs import Part
from .timed import MOST_MEMORY, MOST_SECONDS, Row, record, rows, run

MADE = re.compile(r"ok \w+ (.+) \(([\d, ]*)\) (?:new|copy)")
BROADCAST = re.compile(r"(?m)^(\w+) = broadcast .*")
AXES, MOST_ITEMS = ",".join("2" * 24), str(2**24)


WORDS = {"record": record(64), "leaves": record(2048), "leaves_h": record(2048, "h"), "leaves_b": record(2048, "b?B"),
         "leaves_mixed": record(2048, "qhI").replace("q:", ">q:")}
ROWS = [row.with_words(WORDS) for row in rows(TOP / "tools/trials/worst.txt")]


def stored(row: Row) -> Row:
    """The row with each broadcast array copied."""
    return row._replace(name=f"{row.name}, stored", setup=BROADCAST.sub(r"\g<0>\n\1 = copy \1 C", row.setup))


def reversed_axes(row: Row) -> Row:
    """The row with the axes of its arrays reversed, or with those of its index arrays; a single axis of 2^24 becomes 24 axes first."""
    listed = "".join(re.findall(r"\[(.*?)\]", row.line))
    names = dict.fromkeys(name for name in re.findall(r"\w+", listed or row.line) if re.search(rf"(?m)^{name} = ", row.setup))
    lines = [row.setup]
    for name in names:
        lines += [f"{name} = reshape {name} ({AXES})"] * (MOST_ITEMS in re.findall(rf"(?m)^{name} = .*", row.setup)[-1])
        lines.append(f"{name} = transpose {name}")
    return row._replace(name=f"{row.name}, reversed", setup="\n".join(lines))


def variants(program: Path, row: Row) -> list[Row]:
    """The row, and what other lines it becomes if its arrays are stored in other ways."""
    others = [other for other in (stored(row), reversed_axes(row), reversed_axes(stored(row))) if other.setup != row.setup]
    distinct = {other.setup: other for other in others}.values()
    return [row, *(other for other in distinct if is_accepted(program, other.setup))]


def is_accepted(program: Path, lines: str) -> bool:
    """Whether all these lines are accepted."""
    return not any(reply.startswith("no ") for reply in run(program, f"{lines}\n", 1, is_kept=True).replies)


def held(told: list[str]) -> tuple[int, str]:
    """The bytes of the arrays that a script makes, and its last reply where that is a refusal."""
    made = [found for found in map(MADE.match, told) if found]
    sizes = [dtypes.read(found[1]).itemsize * math.prod(map(int, re.findall(r"\d+", found[2]))) for found in made]
    last = next((reply for reply in reversed(told) if reply), "")
    return sum(sizes), last if last.startswith("no ") else ""


def measured(program: Path, row: Row, runs: int, limit: float) -> tuple[float, int, str]:
    """The seconds of a line, the bytes that it takes beside its arrays and its result, and what is to be said of it."""
    before = f"{row.setup}\n"
    whole, is_printed = f"{before}{row.line}\n", row.line.startswith(("print", "names"))
    used = [run(program, whole, 1, limit, not is_printed)]
    size, reply = held(run(program, before, 1, is_kept=True).replies if is_printed else used[0].replies)
    if not used[0].ended:
        return used[0].seconds, used[0].memory, f"stopped after {limit:.0f} s"
    if used[0].seconds < 5:
        used += [run(program, whole, 1) for _ in range(runs - 1)]
    begun = min(run(program, before, 1).seconds for _ in range(runs if used[0].seconds < 5 else 1))
    idle = run(program, "names\n", 1).memory
    return max(0.0, min(each.seconds for each in used) - begun), max(0, used[0].memory - idle - size), reply


def all_trials(given: Namespace, _folder: Path) -> Part:
    """Each row, as a table."""
    part = Part()
    print("| Command | Its worst line | Seconds | MB beside arrays and result | |\n|---|---|---|---|---|")
    for row in itertools.chain.from_iterable(variants(given.program, row) for row in ROWS[given.first:] if given.only in row.name):
        seconds, memory, told = measured(given.program, row, given.runs, given.seconds)
        command, _, name = row.name.partition(": ")
        is_over = seconds > MOST_SECONDS or memory > MOST_MEMORY
        print(f"| {command} | {name} | {seconds:.3f} | {memory / 1e6:.0f} | {'**over** ' * is_over}{told} |", flush=True)
        part.count("lines")
        part.count("over 10 s or 1.5 GB", is_over)
        part.figures.append({"command": command, "line": name, "seconds": seconds, "bytes": memory, "told": told})
    return part
