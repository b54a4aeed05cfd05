"""Integers at the ends of their ranges: operations, comparisons, updates, casts, of all types and pairs of types."""
from __future__ import annotations

import itertools

from .maker import Maker
from .texts import INTEGERS, TYPES, array, edges, limits

ARITHMETIC = ("add", "sub", "mul", "fdiv", "mod", "and", "or", "xor", "shl", "shr")
COMPARED = ("eq", "ne", "lt", "le", "gt", "ge")
OF_BOOLS = ("add", "mul", "and", "or", "xor")
SAID = {"add": "sums", "sub": "differences", "mul": "products", "fdiv": "quotients", "mod": "remainders", "and": "and", "or": "or", "xor": "xor", "shl": "shifts to the left",
        "shr": "shifts to the right"}


def same_type(maker: Maker) -> None:
    """All pairs of edges: a row has one of them beside all."""
    for type_ in TYPES:
        values = edges(type_)
        words = OF_BOOLS if type_ == "|b1" else ARITHMETIC
        for what, chosen in (*((SAID[word], (word,)) for word in words), ("comparisons", COMPARED)):
            some = values[::2] if what in ("and", "or", "xor") else values
            made = ([f"a = full {type_} ({len(values)}) {each}", array("b", (len(values),), values, type_), f"x = {word} a b"] for word in chosen for each in some)
            maker.table("numbers", what, made, named=["x"])
        count = len(values)
        for shift in (0, 5, 9):
            made = ([array("a", (count,), values, type_), array("b", (count,), values[shift:] + values[:shift], type_), f"upd a[:] {word} b"] for word in words)
            maker.table("numbers", "updates", made, named=["a"])
        for word in ("neg", "not") if type_ != "|b1" else ("not",):
            maker.add("numbers", "negations and complements", array("a", (len(values),), values, type_), f"x = {word} a")


def literals(maker: Maker) -> None:
    """An array and a number; comparisons also with numbers that the type cannot hold."""
    for type_ in INTEGERS:
        values = edges(type_)
        maker.table("numbers", "operations with a number", ([array("a", (len(values),), values, type_), f"x = {word} a {each}"] for word in ARITHMETIC for each in values[::3]), named=["x"])
        maker.table("numbers", "updates with a number", ([array("a", (len(values),), values, type_), f"upd a[:] {word} {each}"] for word in ARITHMETIC for each in values[1::5]), named=["a"])
        low, high = limits(type_)
        far = sorted({sign * 2**bits + more for sign in (-1, 1) for bits in (7, 8, 15, 16, 31, 32, 63, 64) for more in (-1, 0)} | {10**29, -(10**29), 1})
        for what, chosen in (("", [each for each in far if low <= each <= high]), (" out of range", [each for each in far if not low <= each <= high])):
            made = ([array("a", (len(values),), values, type_), f"x = {word} a {each}"] for word in COMPARED for each in chosen)
            some = itertools.islice(made, 0, None, 2 if what else 1)
            maker.table("numbers", f"comparisons with a number{what}", some, named=["x"])


def two_types(maker: Maker) -> None:
    """Operands of two types; assignments and casts from each type to each."""
    for one, other in itertools.permutations(TYPES, 2):
        left, right = (edges(each)[::2] if each != "|b1" else edges(each) for each in (one, other))
        count = 8
        left, right = (list(itertools.islice(itertools.cycle(each), count)) for each in (left, right))
        begin = [array("a", (count,), left, one), array("b", (count,), right[3:] + right[:3], other)]
        is_float = "<u8" in (one, other) and ("i" in one or "i" in other)
        is_first = one < other
        if not is_float and is_first:
            maker.table("numbers", "operations of two types", ([*begin, f"x = {word} a b"] for word in (ARITHMETIC if "|b1" not in (one, other) else ARITHMETIC[:8])), named=["x"])
        if is_first or "<u8" in (one, other):
            maker.table("numbers", "comparisons of two types", ([*begin, f"x = {word} a b"] for word in COMPARED), named=["x"])
        maker.add("numbers", "casts", array("a", (len(edges(one)),), edges(one), one), f"x = cast a {other}", named=["x"])
        if (one > other) == (len(one) + len(other)) % 2 or "|b1" in (one, other):
            continue
        maker.add("numbers", "assignments of another type", f"a = zeros {other} ({len(edges(one))})", array("b", (len(edges(one)),), edges(one), one), "set a[:] = b", named=["a"])
    for one, other in (("|i1", "<i4"), ("<i4", "|i1"), ("|u1", "<u4"), ("<u4", "|u1"), ("<i8", "<i2"), ("|b1", "<i4")):
        begin = [array("a", (4,), edges(one)[:4] if one != "|b1" else edges(one) * 2, one), array("b", (4,), edges(other)[-4:], other)]
        if one != "|b1":
            maker.table("numbers", "updates of another type", ([*begin, f"upd a[:] {word} b"] for word in ("add", "mul", "xor")), named=["a"])
        maker.add("numbers", "assignments of another type, by a list", *begin, "i = array <i8 (2) 3 0", "set a[i] = b[:2]", named=["a"])
        maker.add("numbers", "assignments of another type, by a mask", *begin, "k = array |b1 (4) True False False True", "set a[k] = b[:2]", named=["a"])


def no_axes(maker: Maker) -> None:
    """An operand without axes beside one with axes, of another type: its type counts, not its value."""
    for one, other in (("<i8", "|i1"), ("|i1", "<i8"), ("<i4", "|u1"), ("|u1", "<i2"), ("<u4", "<u2")):
        begin = [array("z", (), (33,), one), array("a", (2,), (127, 1), other)]
        for names in ("z a", "a z"):
            maker.add("numbers", "operations of two types, one of no axes", *begin, f"x = add {names}")


def bools(maker: Maker) -> None:
    for value in (2, -1, 256, 2**32, 0):
        maker.add("numbers", "numbers set into bools", "a = array |b1 (3) False True False", f"set a[0:2] = {value}")
    for type_ in INTEGERS:
        maker.add("numbers", "bools set into numbers", f"a = array {type_} (3) 5 6 7", "set a[0] = True", "set a[1] = False")


def far_apart(maker: Maker) -> None:
    """Operands with steps, reversed, transposed and repeated, of a wider range of lengths, so that fast loops are met."""
    for type_ in ("<i4", "|u1"):
        for count in (9, 33, 65):
            begin = [f"a = arange {type_} 0 {count} 1", f"b = full {type_} ({count}) 3"]
            for word in ("add", "mul", "lt", "fdiv"):
                maker.add("numbers", "operations of longer arrays", *begin, f"x = {word} a b", named=["x"])
            maker.add("numbers", "operations of longer reversed arrays", *begin, "x = sub a[::-1] a", named=["x"])
    for parts in (("a[::2]", "b[1::2]"), ("a[::-1]", "b"), ("a[::-2]", "b[:3]"), ("a[1:4]", "b[2:5]")):
        for word in ("add", "sub", "lt"):
            maker.add("numbers", "operations of slices", array("a", (6,)), array("b", (6,), (9, 8, 7, 6, 5, 4)), f"x = {word} {parts[0]} {parts[1]}", any_type=word != "sub")
    for word in ("add", "mul", "eq"):
        maker.add("numbers", "operations of a transposed array", array("a", (3, 3)), "t = transpose a", f"x = {word} a t", any_type=word != "mul")
        maker.add("numbers", "operations of a transposed array", array("a", (2, 3)), "t = transpose a", f"x = {word} t t", any_type=word != "mul")
        maker.add("numbers", "operations of two operands of no axes", array("a", (), (5,)), array("b", (), (7,)), f"x = {word} a b", any_type=True)


def byte_orders(maker: Maker) -> None:
    """Big-endian numbers beside little-endian ones."""
    for big in (">i2", ">i4", ">u4", ">i8"):
        little = "<" + big[1:]
        values = edges(little)
        count = len(values)
        begin = [array("a", (count,), values, big), array("b", (count,), values[4:] + values[:4], little)]
        maker.table("numbers", "operations of two byte orders", ([*begin, f"x = {word} {names}"] for word in ("add", "sub", "mod", "lt") for names in ("a b", "b a", "a a")), named=["x"])
        maker.add("numbers", "casts of byte orders", begin[0], f"x = cast a {little}", f"y = cast x {big}")
        maker.add("numbers", "assignments of byte orders", *begin, "set a[::2] = b[::2]")
        maker.add("numbers", "updates of byte orders", *begin, "upd a[1:] add b[:-1]")
        maker.table("numbers", "reductions of byte orders", ([begin[0], f"x = {word} a"] for word in ("sum", "min", "max", "argmin", "argmax", "prod")), named=["x"])


def all_cases(maker: Maker) -> None:
    for make in (same_type, literals, two_types, no_axes, bools, far_apart, byte_orders):
        make(maker)
