"""Byte strings, and records with their fields."""
from __future__ import annotations

from .maker import Maker

PAIRS = "T{<i:x:<h:y:}"


def strings(maker: Maker) -> None:
    a = "a = array |S3 (4) b'ab' b'' b'abc' b'b'"
    for word in ("eq", "ne", "lt", "le", "gt", "ge"):
        maker.add("strings", "comparisons of byte strings", a, "b = array |S2 (4) b'ab' b'a' b'ab' b'\\xff'", f"x = {word} a b", named=["x"])
        maker.add("strings", "comparisons of byte strings with a literal", a, f"x = {word} a b'ab'", named=["x"])
    maker.add("strings", "byte strings cut to the type", "a = array |S2 (2) b'ab' b'c'", "set a[1] = b'xyz'")
    maker.add("strings", "byte strings cut to the type", "a = array |S5 (3) b'abcde' b'' b'xy'", "x = cast a |S2", "y = cast x |S4")
    maker.add("strings", "byte strings cut to the type", "a = array |S2 (2) b'ab' b'c'", "b = array |S4 (2) b'wxyz' b'q'", "set a[:] = b")
    maker.add("strings", "bytes of zero in byte strings", "a = array |S3 (3) b'a\\x00b' b'a\\x00' b'\\x00a'", "x = eq a a", "y = copy a C")
    for one, other in (("1:", ":-1"), (":-1", "1:"), (":", "::-1"), ("::2", ":2")):
        maker.add("strings", "overlapping byte strings", a, f"set a[{one}] = a[{other}]")
    maker.add("strings", "byte strings by an index array", a, "i = array <i8 (3) 2 0 2", "x = a[i]", "y = reshape a (2,2)", "z = transpose y")


def fields(maker: Maker) -> None:
    r = f"r = array {PAIRS} (3) (1,10) (2,20) (3,30)"
    maker.add("records", "fields", r, 'x = field r "x"', 'y = field r "y"')
    maker.add("records", "a write through a field", r, 'x = field r "x"', "set x[1:] = 99")
    maker.add("records", "a write through a field", r, 'y = field r "y"', "set y[::-1] = y")
    maker.add("records", "a field that is not there", r, 'x = field r "z"')
    maker.add("records", "a record is written", r, "set r[1] = (7,8)")
    for one, other in (("1:", ":-1"), (":-1", "1:"), (":", "::-1")):
        maker.add("records", "overlapping records", r, f"set r[{one}] = r[{other}]")
        maker.add("records", "overlapping fields", "r = array T{<i:x:<i:y:} (3) (1,10) (2,20) (3,30)", 'x = field r "x"', 'y = field r "y"', f"set x[{one}] = y[{other}]")
    maker.add("records", "an in-place operation on a field", r, 'y = field r "y"', "upd y[1:] add y[:-1]")
    maker.add("records", "slices of records", r, "x = r[::-2]", 'y = field x "y"')
    maker.add("records", "records by an index array", r, "i = array <i8 (2) 2 0", "x = r[i]", 'y = field x "y"')
    maker.add("records", "a sum of a field", r, 'y = field r "y"', "x = sum y")
    maker.add("records", "records with padding", "r = array T{<b:x:3x<i:y:} (2) (1,10) (2,20)", 'y = field r "y"', "set y[0] = 99")
    maker.add("records", "records in big-endian order", "r = array T{>h:x:<h:y:} (2) (1,10) (2,20)", 'x = field r "x"', "set x[1] = -2", 'y = field r "y"')
    maker.add("records", "records of records", "r = array T{<b:x:T{<h:y:<i:z:}:s:} (2) (1,(2,3)) (4,(5,6))", 's = field r "s"', 'z = field s "z"', "set z[0] = 99")
    maker.add("records", "records with byte strings", "r = array T{<3s:t:<i:x:} (2) (b'ab',1) (b'xyz',2)", 't = field r "t"', "set t[0] = b'q'")


def all_cases(maker: Maker) -> None:
    strings(maker)
    fields(maker)
