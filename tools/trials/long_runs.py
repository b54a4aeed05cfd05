"""Long runs: their memory stays flat."""
from __future__ import annotations

import itertools
import time
from argparse import Namespace
from pathlib import Path
from random import Random
from typing import Iterable, Iterator, Optional, Sequence

from .lines import as_bytes, entries, parts
from .runs import Part, Talk, Word

COMMANDS, FIRST = 1_000_000, 20_000
SCRIPT_BYTES = 10**9
NAMES, ROUNDS = 1024, 40
LINES = 4000
FULL = 65536
SPARE = 2**20
DEPTH = 64
SYNC = (b"print sync", b"314159265358979")


def memory(talk: Talk) -> int:
    """The most memory of a run so far, once all that was said is answered."""
    talk.answered(*SYNC)
    return talk.memory()


def long_run(part: Part, program: Path, what: str, blocks: Iterable[tuple[bytes, Optional[int]]], status: int,
             warm: int = 1, words: Sequence[Word] = ()) -> None:
    """A long run over blocks, each a text and the bytes of its replies, or none. Behind some of them it should take no more memory."""
    talk, began, first = Talk(program, words), time.monotonic(), 0
    replies: Optional[int] = 0
    talk.say(b"sync = full <i8 () %b\n" % SYNC[1])
    for number, (text, told) in enumerate(blocks):
        if number == warm:
            first = memory(talk)
        talk.say(text)
        replies = None if told is None or replies is None else replies + told
    last, replied = memory(talk), talk.length()
    ended, seconds = talk.end(), time.monotonic() - began
    part.note(what, f"{seconds:.1f} s, {first / 2**20:.1f} MB and then {last / 2**20:.1f} MB")
    part.expect(f"{what}: status", ended, status)
    part.expect(f"{what}: memory stays within {SPARE:,} bytes", last - first <= SPARE, True)
    if replies is not None:
        part.expect(f"{what}: bytes of all replies", replied, replies + len("ok sync <i8 () new\n") + 2 * (len(SYNC[1]) + 1))


def cycles() -> Iterator[tuple[bytes, None]]:
    """Blocks of ten commands each that bind, write, unbind and go back; the arrays are as many after them as before."""
    yield b"b = zeros <i4 (8)\n", None
    for start in range(0, COMMANDS // 10, FIRST // 10):
        yield "".join(
            f"a = full <i4 (8) {k % 1000}\nset a[1:] = {k % 7}\nupd a[::2] add a[1::2]\nb = a[::-1]\nc = cast b <i8\n"
            "del c\nundo\nundo\nundo\nd = sum a\n"
            for k in range(start, start + FIRST // 10)
        ).encode(), None


def script_block() -> tuple[bytes, int]:
    """A block of a script with comments and empty lines."""
    short = b"a = zeros <i4 (2)\n" + b"set a[0] = 1\n\n  # a comment\n" * 400 + b"del a\n"
    text = short + (b"#" * 1000 + b"\n") * 200 + (b"# ".ljust(FULL, b"x") + b"\n") * 12 + b"\n" * 4000
    return text, len(b"ok a <i4 (2,) new\n" + b"ok set 1\n" * 400 + b"ok del a\n")


def many_names(rng: Random) -> Iterator[tuple[bytes, int]]:
    """Blocks that bind the greatest number of names, and unbind them in another order."""
    names = [f"n{k:04}" for k in range(NAMES - 1)]
    replies = (len("ok n0000 |u1 (3,) new\n") + 6 + len("ok del n0000\n")) * len(names)
    replies += len("no E07 too many names\n") + 2 * len("names sync\n")
    for _ in range(ROUNDS):
        lines = [f"{name} = zeros |u1 (3)" for name in names] + ["more = zeros |u1 (3)", "names"]
        rng.shuffle(names)
        yield "".join(f"{line}\n" for line in [*lines, *(f"del {name}" for name in names), "names"]).encode(), replies


def all_trials(given: Namespace, _folder: Path) -> Part:
    """All long runs."""
    part, program, depth = Part(), given.program, ["--undo", str(DEPTH)]
    long_run(part, program, f"{COMMANDS:,} commands at depth {DEPTH}", cycles(), 0, 2, depth)
    block = script_block()
    long_run(part, program, f"a script of {SCRIPT_BYTES:,} bytes", itertools.repeat(block, -(-SCRIPT_BYTES // len(block[0]))), 0)
    lines = entries(parts("full_lines.txt")["lines"])
    text, told = as_bytes("".join(f"{line}\n" for line, _ in lines)), sum(len(reply) + 1 for _, reply in lines)
    long_run(part, program, f"{LINES:,} lines of {FULL:,} bytes", itertools.repeat((text, told), LINES // text.count(b"\n")), 1)
    names = many_names(Random(given.seed))
    long_run(part, program, f"{NAMES} names bound and unbound {ROUNDS} times", names, 1, 2, depth)
    return part
