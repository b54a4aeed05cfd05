"""What docs/LANGUAGE.md says of any reply: limits, refusals, letters of types, shapes."""
from __future__ import annotations

import contextlib
from typing import Iterator

from bench_tool import language

MOST_AXES, MOST_ITEMS, MOST_BYTES = 64, 2**24, 2**28
LETTERS = {"b1": "?", "i1": "b", "u1": "B", "i2": "h", "u2": "H", "i4": "i", "u4": "I", "i8": "q", "u8": "Q"}
CODES = {code: words for code, (words, _) in language.codes().items()}


class Refused(Exception):
    """A refusal by its code."""

    def __str__(self) -> str:
        return f"{self.args[0]} {CODES[self.args[0]]}"


@contextlib.contextmanager
def refusing(code: str) -> Iterator[None]:
    """Refuses by this code what NumPy refuses."""
    try:
        yield
    except ValueError:
        raise Refused(code) from None
