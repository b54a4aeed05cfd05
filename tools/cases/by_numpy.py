"""What NumPy makes of the cases, called as its users call it: each case says `same`, or where and why NumPy differs. Each reason is a row of
docs/FROM-NUMPY.md, in the table "Where NumPy does something else"."""
from __future__ import annotations

import json
import re
from pathlib import Path
from typing import Any, Iterator, Optional, Sequence

from bench_tool.cases import Case, from_json
from bench_tool.judge_asking import Asker
from bench_tool.judge_runs import adapter
from bench_tool.judge_verdicts import PASS, UNSUPPORTED, Verdict

from . import TOP

ADAPTER = TOP / "examples/judge/numpy_adapter.py"
OPEN = "open"
# The feature and the verdict, as a pattern, whether NumPy leaves the result open, and the reason.
REASONS = [(re.compile(pattern), kind, why) for pattern, kind, why in (
    ("overlap: (slices|100,000 items) wrong", "differs", "a slice that is assigned to a slice of the same array"),
    ("overlap: (index arrays|masks|within views, between names|rows and columns by index arrays and masks) wrong", OPEN, "an index array or a mask, and a source in the same array"),
    ("overlap: the target is the index (wrong|dies|refuses)", OPEN, "the target is the index array or the mask"),
    ("comparisons (of two types|with a number out of range) wrong", "differs", "`<i8` beside `<u8`, or beside a number that it cannot hold"),
    ("operations of two types wrong", "differs", "an operand without axes"),
    ("index arrays out of range, nothing selected accepts", "differs", "an index out of range where nothing is selected"),
    ("reductions along a wrong axis, of no axes accepts", "differs", "a reduction of an array without axes along an axis"),
    ("reductions of no items refuses", "differs", "the least of no items where the result has no items"),
    ("reshape to a wrong shape accepts", "differs", "a length below -1 in a reshape"),
    ("views and copies wrong", "differs", "an integer for every axis"),
    ("broadcasting: index arrays and masks refuses", "differs", "a mask, and a source with an axis in front"),
    ("masks of other lengths accepts", "differs", "a mask of no items"),
    ("NPY: (forged shapes|damaged headers|forms of headers) (accepts|refuses|wrong)", OPEN, "headers that only one of the two reads"),
)]

def reason(verdict: Verdict) -> Optional[tuple[str, str]]:
    """Whether NumPy leaves a result open, and why it differs."""
    told = f"{verdict.question.feature} {verdict.verdict}"
    return next(((kind, why) for pattern, kind, why in REASONS if pattern.fullmatch(told)), None)

def labelled(case: Case, verdicts: Sequence[Verdict], version: str) -> dict[str, Any]:
    """The case with what NumPy makes of it."""
    others = [verdict for verdict in verdicts if verdict.verdict not in (PASS, UNSUPPORTED)]
    numpy: Any = "same"
    if others:
        found = reason(others[0])
        if found is None:
            raise ValueError(f"no reason for {others[0].verdict} of {case.id}, {case.feature}: {others[0].question.lines} {others[0].got}")
        numpy = {found[0]: found[1], "version": version}
    elif all(verdict.verdict == UNSUPPORTED for verdict in verdicts):
        raise ValueError(f"the adapter of NumPy lacks {case.needs}")
    return {**case.to_json(), "numpy": numpy}

def asked(chosen: Sequence[Case]) -> Iterator[tuple[Case, list[Verdict]]]:
    """Each case and the verdicts on its questions."""
    asker = Asker(adapter(str(ADAPTER)))
    try:
        for case in chosen:
            yield case, asker.case(case, list(case.questions()))
    finally:
        asker.close()

def label(folder: Path) -> None:
    """Writes what NumPy makes of the cases into their files."""
    import numpy
    for path in sorted(folder.glob("*.jsonl")):
        lines = [from_json(json.loads(line)) for line in path.read_text().splitlines()]
        made = (json.dumps(labelled(case, verdicts, numpy.__version__), separators=(",", ":")) for case, verdicts in asked(lines))
        path.write_text("".join(f"{line}\n" for line in made))

