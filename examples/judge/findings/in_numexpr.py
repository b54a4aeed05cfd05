"""numexpr: INT_MIN % -1, results written over their operands, and min and max of int32 along an axis."""
import numexpr
import numpy as np
from finding import finding, report, version

numexpr.set_num_threads(1)


def remainder(kind):
    return numexpr.evaluate("x % y", {"x": np.array([np.iinfo(kind).min], kind), "y": np.array([-1], kind)}).tolist()


def reversed_onto(a):
    numexpr.evaluate("x + 0", {"x": a[::-1]}, out=a)
    return a.tolist()


def added_onto(count):
    a = np.arange(count)
    numexpr.evaluate("x + y", {"x": a[:-1], "y": a[1:]}, out=a[1:])
    return a[1022:1028].tolist()


def reduced(function, rows):
    return numexpr.evaluate(f"{function}(a, axis=0)", {"a": np.array(rows, "i4")}).tolist()


finding("INT_MIN % -1 of int32", "a = full <i4 (1) -2147483648; x = mod a -1; print x", lambda: remainder("i4"))
finding("INT_MIN % -1 of int64", "a = full <i8 (1) -9223372036854775808; x = mod a -1; print x", lambda: remainder("i8"))
finding("a[::-1] + 0, out=a", "a = arange <i8 0 6 1; set a[:] = a[::-1]; print a", lambda: reversed_onto(np.arange(6)),
        "`out` is documented to take any array of the right shape and type")
finding("a[:-1] + a[1:], out=a[1:] of 5,000 items, at 1022", "a = arange <i8 0 5000 1; upd a[1:] add a[:-1]; x = a[1022:1028]; print x", lambda: added_onto(5000))
finding("min(a, axis=0) of int32", "a = array <i4 (2,2) 5 6 7 8; x = min a 0; print x", lambda: reduced("min", [[5, 6], [7, 8]]))
finding("max(a, axis=0) of int32", "a = array <i4 (2,2) -5 -6 -7 -8; x = max a 0; print x", lambda: reduced("max", [[-5, -6], [-7, -8]]))
report(version("numexpr"))
