"""The words of operations as Python's operators, for adapters of libraries that have these."""
import operator
from typing import Any, Callable, Dict

_NAMES = {"sub": "sub", "mul": "mul", "fdiv": "floordiv", "shl": "lshift", "shr": "rshift", "and": "and_", "or": "or_", "neg": "neg",
          "not": "invert"}
_WORDS = "add sub mul fdiv mod and or xor shl shr eq ne lt le gt ge neg not".split()
OPERATORS: Dict[str, Callable[..., Any]] = {word: getattr(operator, _NAMES.get(word, word)) for word in _WORDS}
# `IN_PLACE["add"](x, y)` does `x += y` and returns x. Comparisons have no such form.
IN_PLACE: Dict[str, Callable[..., Any]] = {
    word: getattr(operator, f"i{_NAMES.get(word, word).rstrip('_')}", OPERATORS[word]) for word in _WORDS[:16]}
