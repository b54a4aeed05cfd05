"""NPY files of NumPy arrays: the header as bytes, with the items in place, and an array over the bytes of a file."""
from __future__ import annotations

import io
from ast import literal_eval
from functools import lru_cache
from typing import Any

import numpy as np

from .header import Wrong, check_type

npy: Any = np.lib.format  # its functions have no types


def laid_out(array: "np.ndarray[Any, Any]") -> "tuple[bytes, np.ndarray[Any, Any]]":
    """The bytes before the items of an NPY file of this array, and an array whose memory is the rest of the file."""
    if array.dtype.hasobject:
        raise TypeError(f"an array of Python objects has no bytes: {array.dtype}")
    fortran = array.flags.f_contiguous and not array.flags.c_contiguous
    items = array if fortran or array.flags.c_contiguous else np.ascontiguousarray(array)
    head = io.BytesIO()
    fields = {"descr": npy.dtype_to_descr(array.dtype), "fortran_order": bool(fortran), "shape": array.shape}
    try:
        npy.write_array_header_1_0(head, fields)
    except ValueError:  # too long for that version
        npy.write_array_header_2_0(head, fields)
    return head.getvalue(), items


def lacking(dtype: "np.dtype[Any]") -> str:
    """What bench does not have of a dtype, in words; nothing if it has all of it."""
    try:
        check_type(npy.dtype_to_descr(dtype))
    except Wrong as wrong:
        return f": {wrong}"
    return ""


@lru_cache(maxsize=64)
def _fields(text: bytes) -> "tuple[tuple[int, ...], bool, np.dtype[Any]]":
    """The shape, whether the order is Fortran order, and the type in the text of a header. NumPy's own reader refuses a text of more than
    10,000 bytes."""
    header = literal_eval(text.decode("latin-1"))
    return header["shape"], header["fortran_order"], npy.descr_to_dtype(header["descr"])


def over(file: "np.ndarray[Any, Any]") -> "np.ndarray[Any, Any]":
    """The array of an NPY file, without a copy of the file's bytes."""
    behind = 10 if file[6] == 1 else 12  # the length of the text, in two bytes or four
    start = behind + int.from_bytes(file[8:behind].tobytes(), "little")
    shape, fortran, dtype = _fields(file[behind:start].tobytes())
    return np.ndarray(shape, dtype, file.data, start, order="F" if fortran else "C")
