"""Lines that take more than 10 seconds or 1.5 GB, searched for: commands over arrays of 2^24 items with all kinds of axes, orders, types and
ways in which the items are stored.

A line is first measured with fewer items, and with fewer arrays in an index list. Where that, times what was left out, comes near a limit,
the whole line is measured. What is over a limit is printed as a row of worst.txt; docs/DECISIONS.md names each of them with its floor.
"""
from __future__ import annotations

import itertools
import math
import random
import time
from argparse import Namespace
from pathlib import Path
from typing import Iterator, NamedTuple, Sequence

from .runs import Part
from .timed import MOST_MEMORY, MOST_SECONDS, record, run

WHOLE, SOME = 2**24, 2**19
MOST_AXES, FEW_ARRAYS, NEAR = 64, 16, 0.4
SHAPES = [(2,) * 24, (4,) * 12, (8,) * 8, (64,) * 4, (256,) * 3, (4096, 4096), (8388608, 2), (2, 8388608), (16777216,)]
ORDERS = ["as it is", "reversed", "backwards", "half transposed"]
STORES = ["stored", "at a step of 16 bytes", "shown"]
ONES = ["", "before", "behind"]


class Kind(NamedTuple):
    """How an array is made."""

    shape: tuple[int, ...]
    order: str
    store: str
    type: str
    ones: str


class Form(NamedTuple):
    """A command: the types of its arrays; what it needs besides an array n; its line, where `$list` is a list of many of that array; and
    how many may be in the list, or 0 where the line has none."""

    name: str
    types: Sequence[str]
    setup: str
    line: str
    arrays: int = 0


NUMBERS, ITEMS = ["|u1", "<i8", ">i4"], ["|u1", "<i8", "|S16", record(16)]
INDEXED, MASKED = "b = zeros |u1 ($ones)", "b = zeros |u1 (0,$axes)"
FORMS = [
    Form("index", NUMBERS, INDEXED, "x = b[$list]", 64),
    Form("upd by index arrays", NUMBERS, INDEXED, "upd b[$list] add b[$list]", 64),
    Form("masks", ["|b1"], MASKED, "x = b[:,$list]", 63),
    Form("add by masks", ["|b1"], MASKED, "x = add b[:,$list] b[:,$list]", 63),
    Form("print", ITEMS, "", "print n"),
    Form("copy", ITEMS, "", "x = copy n C"),
    Form("cast", NUMBERS, "", "x = cast n <i2"),
    Form("add", NUMBERS, "", "x = add n n"),
    Form("eq", ["<i8", "|S16"], "", "x = eq n n"),
    Form("sum", NUMBERS, "", "x = sum n"),
    Form("max", NUMBERS, "", "x = max n 0"),
    Form("set", ITEMS, "m = copy n C", "set m[...] = n"),
]


def kinds(form: Form) -> Iterator[Kind]:
    """All kinds of arrays that a form takes. Axes of length 1 are added where no mask has to have them."""
    ones = [""] if form.setup == MASKED else ONES
    return itertools.starmap(Kind, itertools.product(SHAPES, ORDERS, STORES, form.types, ones))


def smaller(shape: Sequence[int], items: int) -> tuple[int, ...]:
    """A shape with the same last axes, and no more than so many items."""
    lengths = list(shape)
    while math.prod(lengths) > items:
        first = next(k for k, n in enumerate(lengths) if n > 1)
        lengths[first] = max(1, lengths[first] // 2)
    return tuple(lengths)


def listed(numbers: Sequence[object]) -> str:
    return ",".join(map(str, numbers))


def made(kind: Kind, items: int) -> list[str]:
    """The lines that make the array n of a kind, with so many items at most."""
    shape = smaller(kind.shape, items)
    count, axes = math.prod(shape), len(shape)
    stepped = {"|u1": "B:a:15x", "|b1": "?:a:15x", "<i8": "<q:a:8x", ">i4": ">i:a:12x"}.get(kind.type)
    if kind.store == "shown":
        lines = [f"w = zeros {kind.type} (1)", f"w = broadcast w ({count})"]
    elif kind.store == "stored" or not stepped:
        lines = [f"w = zeros {kind.type} ({count})"]
    else:
        lines = [f"w = zeros T{{{stepped}}} ({count})", 'w = field w "a"']
    if kind.type == "|b1":
        lines.append("w = full |b1 (1) True" if kind.store == "shown" else "set w[:] = True")
        lines += [f"w = broadcast w ({count})"] if kind.store == "shown" else []
    more = (1,) * min(40, MOST_AXES - axes) if kind.ones else ()
    lengths = (*more, *shape) if kind.ones == "before" else (*shape, *more)
    lines.append(f"n = reshape w ({listed(lengths)})")
    half = (len(lengths) + 1) // 2
    order = {"reversed": "n = transpose n", "backwards": f"n = n[{listed(['::-1'] * len(lengths))}]",
             "half transposed": f"n = transpose n ({listed([*range(half, len(lengths)), *range(half)])})"}
    return lines + ([order[kind.order]] if kind.order in order else [])


def in_order(shape: tuple[int, ...], order: str) -> tuple[int, ...]:
    """The lengths of an array's axes after they are put in an order."""
    half = (len(shape) + 1) // 2
    return shape[::-1] if order == "reversed" else shape[half:] + shape[:half] if order == "half transposed" else shape


def many(form: Form, kind: Kind) -> int:
    """How many arrays of a kind fit into the list of a form."""
    return form.arrays // len(kind.shape) if form.setup == MASKED else form.arrays


def script(form: Form, kind: Kind, items: int, arrays: int) -> tuple[str, str]:
    """The lines before a line of a form, and the line."""
    shape = in_order(smaller(kind.shape, items), kind.order)
    words = {"$list": listed(["n"] * arrays), "$ones": listed([1] * arrays), "$axes": listed(shape * arrays)}
    texts = [form.setup, form.line]
    for word, text in words.items():
        texts = [each.replace(word, text) for each in texts]
    return "\n".join([*made(kind, items), *filter(None, texts[:1])]) + "\n", texts[1]


def taken(program: Path, form: Form, kind: Kind, items: int, arrays: int, seconds: float) -> tuple[float, int]:
    """The seconds and the bytes that a line takes beside the lines before it."""
    before, line = script(form, kind, items, arrays)
    begun, whole = run(program, before, 1), run(program, f"{before}{line}\n", 1, seconds)
    return whole.seconds - begun.seconds, whole.memory - begun.memory


def is_near(program: Path, form: Form, kind: Kind, seconds: float) -> bool:
    """Whether a line, measured in small, comes near a limit."""
    arrays = many(form, kind)
    few = min(arrays, FEW_ARRAYS)
    left_out = math.prod(kind.shape) / math.prod(smaller(kind.shape, SOME))
    used, memory = taken(program, form, kind, SOME, few, seconds)
    times = left_out * (arrays / few if arrays else 1)
    return used * times > NEAR * MOST_SECONDS or memory * times > NEAR * MOST_MEMORY


def named(form: Form, kind: Kind) -> str:
    """What a row of worst.txt is called."""
    arrays = f"{many(form, kind)} of " if form.arrays else ""
    ones = f", 40 axes of length 1 {kind.ones}" if kind.ones else ""
    return f"{form.name}: {arrays}{kind.type}, {len(kind.shape)} axes of {kind.shape[-1]}, {kind.order}, {kind.store}{ones}"


def lines(forms: Sequence[Form], rng: random.Random) -> Iterator[tuple[Form, Kind]]:
    """Each form in turn, with its kinds of arrays in a random order."""
    left = [(form, list(kinds(form))) for form in forms]
    for _, found in left:
        rng.shuffle(found)
    while left:
        left = [(form, found) for form, found in left if found]
        for form, found in left:
            yield form, found.pop()


def all_trials(given: Namespace, _folder: Path) -> Part:
    """Lines in a random order, until the time is over."""
    part, begun = Part(), time.monotonic()
    for form, kind in lines([form for form in FORMS if given.only in form.name], random.Random(given.seed)):
        if time.monotonic() - begun > given.seconds:
            break
        if form.arrays and not many(form, kind):
            continue
        part.count("lines in small")
        if is_near(given.program, form, kind, given.most):
            part.count("whole lines")
            seconds, memory = taken(given.program, form, kind, WHOLE, many(form, kind), given.most)
            if seconds > MOST_SECONDS or memory > MOST_MEMORY:
                part.count("over 10 s or 1.5 GB")
                print(f"== {named(form, kind)}\n# {seconds:.1f} s, {memory / 1e6:.0f} MB", flush=True)
                part.figures.append({"line": named(form, kind), "seconds": seconds, "bytes": memory})
    return part
