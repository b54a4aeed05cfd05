"""What random scripts are made of: how often each command comes, how large arrays are, and what a library has."""
from __future__ import annotations

from dataclasses import dataclass, field, replace
from typing import Collection, Mapping, Optional, Sequence

NUMBERS = ["<i4", ">i2", "|u1", "|i1", "<u8", ">i8", "|b1", "<i8", ">u4", "<u2"]
INTEGERS = ["|i1", "|u1", *(f"{mark}{kind}{size}" for mark in "<>" for kind in "iu" for size in (2, 4, 8))]
STRINGS = ["|S1", "|S2", "|S5"]
PAIR = "T{1x>H:n:<b:s:1x}"
RECORDS = [
    "T{<h:x:>i:y:}", "T{<?:on:2x<B:n:<q:big:1x}", "T{3x>H:x:}", "T{<b:x:3xT{<i:y:}:s:}", "T{T{<i:y:}:s:}", f"T{{{PAIR}:p:<?:x:{PAIR}:q:}}",
    f"T{{<B:x:T{{{PAIR}:p:T{{T{{>q:y:<?:z:}}:u:<H:y:}}:t:}}:s:}}", "T{<3s:t:>i:x:}", "T{<b:n:T{<2s:t:<4s:u:}:s:}",
]
SHORT_TYPES = ["i4", "?", "4s", "S3", ">H", "T{b:x:i:y:}"]
WRONG_TYPES = ["<i3", "<f4", "|S65537"]
WRONG_LINES = ["print", "a =", "x = frob a", "print a b", "set a = 1", "a [0]", "names a", "a = é", "undo 1", "= 1", "print \ta\r", "~"]


@dataclass(frozen=True)
class Profile:
    """What a script is made of.

    `weights` says how often each command comes. Then, as shares of 1: `lists`, index lists that may have arrays; `arrays`, items of these
    that are arrays; `masks`, arrays that are masks, over so many `mask_axes`; `wide`, names that are arrays of several axes, at least
    `fewest` of which are indexed; `fitted`, values that are made to fit what they are written to; `records`, new arrays of records;
    `roomy`, scripts whose arrays seldom become small, with these `lengths` and numbers of axes, `ranks`.

    The others say what a library has, and None in all three that it has what bench has: `types` that may occur, `commands` by their words
    (`commands.KINDS`, or an operation such as add; by default those that make, read and write arrays), and `needs`, words of `needs.WORDS`.
    Without `refused`, only commands that are accepted are in the script."""

    weights: Mapping[str, int] = field(default_factory=dict)
    lists: float = 0.25
    arrays: float = 0.5
    masks: float = 0.35
    mask_axes: Sequence[int] = (1, 2, 3)
    fewest: int = 0
    wide: float = 0
    fitted: float = 0
    records: float = 0.5
    roomy: float = 0.5
    lengths: Sequence[int] = (1, 2, 3, 4, 6)
    ranks: Sequence[int] = (2, 2, 3, 4)
    types: Optional[Collection[str]] = None
    commands: Optional[Collection[str]] = None
    needs: Optional[Collection[str]] = None
    refused: bool = True


MIXED = Profile({
    "make": 14, "index": 28, "alias": 5, "transpose": 9, "set": 16, "print": 12, "info": 8, "shares": 5, "delete": 2, "names": 1, "field": 10,
    "broadcast": 9, "copy": 7, "reshape": 24, "assign": 30, "cast": 14, "save": 8, "load": 10, "undo": 24, "operation": 24, "unary": 5,
    "reduction": 12, "update": 20, "format": 2, "wrong": 2, "text": 2,
})
LISTED = {"make": 16, "index": 30, "set": 18, "assign": 24, "update": 24, "transpose": 6, "broadcast": 3, "field": 5, "undo": 8}
SHARED = {"make": 8, "index": 20, "transpose": 8, "field": 14, "reshape": 14, "broadcast": 4, "alias": 1, "copy": 1, "shares": 40, "twins": 60}
COMPUTED = {"make": 20, "operation": 40, "reduction": 20, "update": 30, "unary": 5, "cast": 15, "index": 6, "alias": 2, "undo": 8}
INDEXES = Profile(LISTED, lists=0.9, arrays=0.8, masks=0.05, fewest=2, wide=0.8, fitted=0.9, roomy=0.8, ranks=(2, 3, 3, 4))
PROFILES = {
    "mixed": MIXED,
    "indexes": INDEXES,
    "masks": replace(INDEXES, masks=0.7, mask_axes=(1, 2, 2, 3, 3), fewest=3),
    "shares": Profile(SHARED, lists=0, roomy=1, lengths=(3, 5, 8, 12, 20), ranks=(1, 1, 2, 2)),
    "computing": replace(MIXED, weights=COMPUTED, records=0.1, lists=0.1),
    "formats": Profile({"text": 1}),
    "small": replace(MIXED, roomy=0, weights={**MIXED.weights, "wrong": 12}),
}
# The words of the commands that a weight is for, where they are not its own name.
WORDS = {
    "make": ("array", "full", "zeros", "arange"), "index": ("select",), "alias": ("select",), "assign": ("set",), "update": ("upd",),
    "operation": ("binary",), "reduction": ("reduce",), "delete": ("del",), "twins": ("shares",), "text": ("zeros",), "wrong": (),
}
