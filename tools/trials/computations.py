"""What operations, comparisons, updates and reductions give, by NumPy on operands of the type that the result is to have. Comparisons are
Python's, of integers and byte strings, since NumPy 1 compares signed with unsigned numbers as floats; and a literal has the type that the
language gives it, whatever its value. Where several refusals hold, the first of the documented order is raised.

Where a rule of the bench is another one than NumPy's by intent, a comment `FROM-NUMPY:` names the row of docs/FROM-NUMPY.md."""
from __future__ import annotations

import math
import operator
from typing import Any, Optional, Union

import numpy as np

from bench_tool import language

from .dtypes import Array, Dtype, is_value
from .rules import Refused, refusing

Operand = Union[Array, int, bool, bytes]

OPERATIONS, COMPARISONS, UNARY, REDUCTIONS = language.lists()
# Words that Python's operators and NumPy have under other names.
OTHER_NAMES = {"fdiv": "floordiv", "and": "and_", "or": "or_", "shl": "lshift", "shr": "rshift", "neg": "negative", "not": "invert"}
NOT_OF_BOOLS = {"sub", "fdiv", "mod", "shl", "shr"}
KINDS = {"S": -1, "b": 0, "u": 1, "i": 2}


def named(module: Any, word: str) -> Any:
    return getattr(module, OTHER_NAMES.get(word, word))


def little(dtype: Dtype) -> Dtype:
    return dtype.newbyteorder("<")


def result_type(word: str, left: Dtype, right: Dtype) -> Dtype:
    """The type of what a word gives on two types, as for two arrays."""
    if word in COMPARISONS and is_number(left) == is_number(right) and left.names is None and right.names is None:
        return np.dtype(bool)
    # FROM-NUMPY: shifts of bools
    if not is_number(left) or not is_number(right) or left.kind == right.kind == "b" and word in NOT_OF_BOOLS:
        raise Refused("E22")
    if word == "div" or np.promote_types(left, right).kind == "f":
        raise Refused("E21")
    return little(np.promote_types(left, right))


def is_number(dtype: Dtype) -> bool:
    return dtype.kind in "biu"


def literal_type(value: Operand, beside: Dtype) -> Dtype:
    """The type of a literal beside an array."""
    if isinstance(value, bytes):
        return np.dtype("|S1")
    if isinstance(value, bool):
        return np.dtype(bool)
    return beside if beside.kind in "iu" else np.dtype("<i8")


def type_beside(word: str, left: Array, right: Operand) -> Dtype:
    """The type of what a word gives on an array and an array or a literal."""
    if isinstance(right, np.ndarray):
        return result_type(word, left.dtype, right.dtype)
    beside = literal_type(right, left.dtype)
    dtype = result_type(word, left.dtype, beside)
    # FROM-NUMPY: a literal out of range takes a wider type
    if word not in COMPARISONS and not is_value(int(right), beside):
        raise Refused("E23")
    return dtype


def worked(word: str, left: Array, right: Operand) -> Array:
    """What a word gives on an array and an array or a literal."""
    # FROM-NUMPY: an operand without axes; `<i8` beside `<u8`, or beside a number that it cannot hold; results in the order of their operands
    dtype = type_beside(word, left, right)
    other = right if isinstance(right, np.ndarray) else np.array(right, object)
    operands: Any = object if word in COMPARISONS else dtype
    with refusing("E16"):
        one, other = np.broadcast_arrays(left.astype(operands), other.astype(operands))
    with np.errstate(all="ignore"):
        return np.array(named(operator, word)(one, other), dtype, order="C")


def updated(word: str, target: Array, right: Operand) -> Array:
    """The values that an update writes."""
    if KINDS[type_beside(word, target, right).kind] > KINDS[target.dtype.kind]:
        raise Refused("E24")
    with refusing("E16"):
        values = worked(word, target, np.broadcast_to(right, target.shape) if isinstance(right, np.ndarray) else right)
    return values.astype(target.dtype)


def reduced(word: str, array: Array, axis: Optional[int], keep: bool) -> Array:
    """What a reduction gives. NumPy also refuses to find the least of no items where there is none to be found."""
    if not is_number(array.dtype):
        raise Refused("E22")
    # FROM-NUMPY: a reduction of an array without axes along an axis
    if axis is not None and not -array.ndim <= axis < array.ndim:
        raise Refused("E17")
    reduce, shape = named(np, word), np.any(array, axis=axis, keepdims=keep).shape
    dtype = little(reduce(np.zeros(1, array.dtype)).dtype)
    try:
        return np.array(reduce(array, axis=axis, keepdims=keep), dtype, order="C")
    except ValueError:
        if math.prod(shape):
            raise Refused("E25") from None
        # FROM-NUMPY: the least of no items where the result has no items
        return np.zeros(shape, dtype)


def transformed(word: str, array: Array) -> Array:
    """What an operation gives on each item of an array."""
    if not is_number(array.dtype):
        raise Refused("E22")
    try:
        result = np.asarray(named(np, word)(array))
    except TypeError:
        raise Refused("E22") from None
    return np.array(result, little(result.dtype), order="C")
