"""NumPy: an overlapping copyto, a buffer export that NumPy itself reads at other offsets, and padding that ctypes leaves out."""
import ctypes
import warnings

import numpy as np
from finding import Session, finding, report, version

warnings.simplefilter("ignore")
PADDED = np.dtype({"names": ["q", "r"], "formats": [[("a", "<i2"), ("c", "u1")], "<i2"], "offsets": [0, 4], "itemsize": 8})


class Pair(ctypes.Structure):
    _fields_ = [("x", ctypes.c_byte), ("y", ctypes.c_int)]


def size_by_text():
    """The bytes of an item by the text that ctypes exports, as `bench` and NumPy read it."""
    with Session() as bench:
        bench.ask(f"a = zeros {memoryview(Pair()).format} (2)")
        return bench.info("a").strides[0]


def exported():
    x = np.zeros(1, PADDED)
    x["r"] = 7
    return np.asarray(memoryview(x))["r"].tolist()


def copied(where):
    a = np.arange(5)
    np.copyto(a[::2], a[:3], where=where)
    return a.tolist()


def put(index):
    a = np.arange(4)
    a[index] = a[::-1]
    return a.tolist()


finding("copyto(a[::2], a[:3])", "a = arange <i8 0 5 1; set a[::2] = a[:3]; print a", lambda: copied(True))
finding("copyto(a[::2], a[:3], where=[True] * 3)", "a = arange <i8 0 5 1; set a[::2] = a[:3]; print a", lambda: copied([True] * 3))
finding("a[i] = a[::-1]", "a = arange <i8 0 4 1; i = arange <i8 0 4 1; set a[i] = a[::-1]; print a", lambda: put(np.arange(4)), "undefined in NumPy")
finding("m.reshape(-2, 3)", "a = arange <i8 0 6 1; x = reshape a (-2,3)", lambda: np.arange(6).reshape(-2, 3).tolist())
finding("int64 2**63-1 == uint64 2**63", "a = full <i8 (1) 9223372036854775807; b = full <u8 (1) 9223372036854775808; x = eq a b; print x",
        lambda: (np.array([2**63 - 1]) == np.array([2**63], "u8")).tolist(), "both become floats")
finding("a record read from NumPy's own buffer export", "x = zeros T{T{<h:a:B:c:}:q:x<h:r:xx} (1); set x[0] = ((0,0),7); r = field x \"r\"; print r",
        exported, "the text leaves out the padding of the inner record")
finding("struct {char x; int y}, two of them, as ctypes exports them: bytes an item", "x = full |u1 (1) 8; print x", lambda: [size_by_text()],
        "CPython: the text leaves out the padding")
report(version("numpy"))
