"""NPY files: as the program should write them, as NumPy writes them."""
from __future__ import annotations

import io
from random import Random
from typing import Any

import numpy as np
from numpy.lib import format as untyped

from bench_tool import profiles, scripts

from . import dtypes
from .dtypes import Array
from .files import padded, with_header

npy: Any = untyped
LONGEST_SHORT_TEXT = 65525


def is_fortran(array: Array) -> bool:
    return bool(array.flags.f_contiguous and not array.flags.c_contiguous)


def saved(array: Array) -> bytes:
    """The bytes of the file that the program should write: the fewest spaces before the items, and padding of zeros."""
    text = f"{{'descr': {npy.dtype_to_descr(array.dtype)!r}, 'fortran_order': {is_fortran(array)}, 'shape': {array.shape!r}, }}"
    version, items = 1 if len(text) <= LONGEST_SHORT_TEXT else 2, dtypes.cast(array, array.dtype)
    return with_header(padded(text.encode(), version), items.tobytes("F" if is_fortran(array) else "C"), version)


def loaded(file: bytes) -> Array:
    """What NumPy loads from a file."""
    found: Array = np.load(io.BytesIO(file), allow_pickle=False)
    return found


def is_loaded_as(file: bytes, array: Array) -> bool:
    """Whether NumPy loads an array of this type, shape and order with these items from the file."""
    found = loaded(file)
    return (found.dtype, found.shape, is_fortran(found), found.tolist()) == (array.dtype, array.shape, is_fortran(array), array.tolist())


def with_marked_padding(array: Array, order: Any) -> Array:
    """The items of an array in an order, with other bytes than zero for padding."""
    items: Array = np.ndarray(array.shape, array.dtype, bytearray(b"\xee" * array.nbytes), order=order)
    dtypes.fill(items, array)
    return items


def random_array(rng: Random, most: int = 4) -> Array:
    """An array of some type and shape."""
    text = rng.choice(profiles.NUMBERS + profiles.STRINGS + profiles.RECORDS)
    shape = [rng.randint(0, most) for _ in range(rng.choice([0, 1, 1, 2, 2, 3]))]
    values = [scripts.literal(rng, text, True) for _ in range(int(np.prod(shape, dtype=int)))]
    return np.array(values, dtype=dtypes.read(text)).reshape(shape)


def numpys(rng: Random) -> bytes:
    """A file that NumPy writes of a random array, in some order and version, with some bytes behind the items."""
    file = io.BytesIO()
    items = with_marked_padding(random_array(rng), rng.choice("CCF"))
    npy.write_array(file, items, version=rng.choice([(1, 0), (2, 0)]), allow_pickle=False)
    return file.getvalue() + b"\xff" * rng.choice([0, 0, 1, 5])
