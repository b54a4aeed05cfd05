"""Which names share items: reshapes, transposes, broadcasts, copies, and writes through each."""
from __future__ import annotations

import itertools

from .maker import Maker
from .texts import array, shape, shapes, size

FACTORS = {0: [(0,), (0, 3), (2, 0), (1, 0, 2)], 1: [(), (1,), (1, 1), (1, 1, 1)], 4: [(4,), (2, 2), (1, 4), (4, 1), (2, 1, 2)],
           6: [(6,), (2, 3), (3, 2), (1, 6), (6, 1), (3, 1, 2), (2, 3, 1)], 8: [(8,), (2, 4), (4, 2), (2, 2, 2)],
           12: [(12,), (3, 4), (4, 3), (2, 6), (2, 2, 3), (2, 3, 2), (3, 2, 2)]}
# Arrays of 4, 6, 8 and 12 items that do not lie one after another.
VIEWS = [
    (4, ["b = array <i4 (8) 0 1 2 3 4 5 6 7", "a = b[::2]"]), (4, ["b = array <i4 (4) 0 1 2 3", "a = b[::-1]"]),
    (4, ["b = array <i4 (2,2) 0 1 2 3", "a = transpose b"]), (4, ["b = array <i4 (2,4) 0 1 2 3 4 5 6 7", "a = b[:,1:3]"]),
    (4, ["b = array <i4 (2,2,2) 0 1 2 3 4 5 6 7", "a = b[:,1]"]), (4, ["b = array <i4 (2,1) 5 6", "a = broadcast b (2,2)"]),
    (4, ["b = array <i4 (4,2) 0 1 2 3 4 5 6 7", "a = b[:,0]"]), (4, ["b = array <i4 (2,2) 0 1 2 3", "a = b[::-1,::-1]"]),
    (6, ["b = array <i4 (2,3) 0 1 2 3 4 5", "a = transpose b"]), (6, ["b = array <i4 (2,3) 0 1 2 3 4 5", "a = b[::-1]"]),
    (6, ["b = array <i4 (2,3) 0 1 2 3 4 5", "a = b[:,::-1]"]), (6, ["b = array <i4 (3) 0 1 2", "a = broadcast b (2,3)"]),
    (6, ["b = array <i4 (4,3) 0 1 2 3 4 5 6 7 8 9 10 11", "a = b[::2]"]), (6, ["b = array <i4 (3,2,1) 0 1 2 3 4 5", "a = transpose b (2,0,1)"]),
    (8, ["b = array <i4 (2,2,2) 0 1 2 3 4 5 6 7", "a = transpose b (1,0,2)"]), (8, ["b = array <i4 (2,2,2) 0 1 2 3 4 5 6 7", "a = transpose b (0,2,1)"]),
    (8, ["b = array <i4 (2,2,4) 0 1 2 3 4 5 6 7 8 9 10 11 12 13 14 15", "a = b[...,::2]"]),
    (12, ["b = array <i4 (3,4) 0 1 2 3 4 5 6 7 8 9 10 11", "a = transpose b"]),
    (12, ["b = array <i4 (2,2,3) 0 1 2 3 4 5 6 7 8 9 10 11", "a = transpose b (2,0,1)"]),
    (12, ["b = array <i4 (2,3,2) 0 1 2 3 4 5 6 7 8 9 10 11", "a = transpose b (1,0,2)"]),
]


def reshapes(maker: Maker) -> None:
    """Reshapes of arrays in C order and of others: the items, then whether a write shows."""
    for count, kinds in FACTORS.items():
        maker.table("reshape", "reshape", ([array("a", one), f"x = reshape a {shape(other)}"] for one in kinds for other in kinds), any_type=True)
        for one in kinds[:3]:
            opened = [(*each[:k], -1, *each[k + 1:]) for each in kinds for k in range(len(each)) if count or 0 not in each[:k] + each[k + 1:]]
            maker.table("reshape", "reshape with a length of -1", ([array("a", one), f"x = reshape a {shape(each)}"] for each in opened), any_type=True)
    wrong = [(4,), (5,), (7,), (2, 2), (3, 3), (-1, 4), (-1, -1), (-1, 0), (0, -1), (0,), (), (2, -1, 2), (6, 0), (2, 3, 2)]
    maker.table("reshape", "reshape to another number of items", ([array("a", (2, 3)), f"x = reshape a {shape(each)}"] for each in wrong), any_type=True)
    maker.table("reshape", "reshape to another number of items", ([array("a", (0, 3)), f"x = reshape a {shape(each)}"] for each in [(1,), (), (0, -1), (-1, 0), (3,)]), any_type=True)
    maker.table("reshape", "reshape with a length below -1", ([array("a", (2, 3)), f"x = reshape a {shape(each)}"] for each in [(-2, 3), (2, -3), (-6,)]), any_type=True)
    for count, begin in VIEWS:
        made = [[*begin, f"x = reshape a {shape(other)}"] for other in (*FACTORS[count], (-1,))]
        maker.table("reshape", "reshape of a view", made, any_type=True)
        if "broadcast" not in begin[1]:
            maker.table("reshape", "reshape of a view, then a write to the source", ([*each, "set a[...] = 99"] for each in made), any_type=True)
        maker.table("reshape", "reshape of a view, then a write to the result", ([*each, "set x[...] = 99"] for each in made), any_type=True)


def turns(maker: Maker) -> None:
    """Transposes, with axes from the end too."""
    for lengths in ((3,), (2, 3), (1, 3), (2, 0), (2, 3, 4), (2, 1, 3)):
        rank = len(lengths)
        maker.add("views", "transpose", array("a", lengths), "x = transpose a", any_type=True)
        orders = list(itertools.permutations(range(rank)))
        maker.table("views", "transpose", ([array("a", lengths), f"x = transpose a {shape(each)}"] for each in orders), any_type=True)
        maker.table("views", "transpose by axes from the end", ([array("a", lengths), f"x = transpose a {shape(k - rank for k in each)}"] for each in orders), any_type=True)
        maker.table("views", "a write through a transpose", ([array("a", lengths), f"x = transpose a {shape(each)}", f"set x[{'::2' if size(lengths) else '...'}] = 99"] for each in orders), any_type=True)
    wrong = [(0,), (0, 0), (0, 2), (1, 1), (0, 1, 2), (0, -3), (-1, 1), ()]
    maker.table("views", "transpose by wrong axes", ([array("a", (2, 3)), f"x = transpose a {shape(each)}"] for each in wrong), any_type=True)
    twice = [("(1,2,0)", "(1,2,0)"), ("(2,0,1)", "(1,2,0)"), ("(0,2,1)", "(2,1,0)"), ("(1,0,2)", "(1,0,2)")]
    maker.table("views", "transpose", ([array("a", (2, 3, 4)), f"t = transpose a {one}", f"x = transpose t {other}"] for one, other in twice), any_type=True)


def broadcasts(maker: Maker) -> None:
    """Broadcasts to shapes of one, two and three axes, with lengths of 0 and 1; what shows after a write to the source."""
    targets = shapes(2, (0, 1, 2, 3)) + [(2, 1, 3), (1, 1, 1), (0, 2, 3), (2, 2, 2)]
    sources = shapes(2, (0, 1, 2, 3)) + [(2, 1, 3)]
    maker.table("views", "broadcast", ([array("a", source), f"x = broadcast a {shape(each)}"] for source in sources for each in targets), any_type=True)
    for source, target in (((), (3,)), ((1,), (3,)), ((3,), (2, 3)), ((2, 1), (2, 3)), ((1, 3), (2, 3)), ((2, 3), (2, 3)), ((2, 1), (2, 2, 2))):
        begin = [array("a", source), f"x = broadcast a {shape(target)}"]
        maker.add("views", "a write to the source of a broadcast", *begin, "set a[...] = 99", any_type=True)
        maker.add("views", "a copy of a broadcast, then a write", *begin, "y = copy x C", "set y[...] = 99", any_type=True)
        if size(source) < size(target):
            maker.add("views", "a write to a broadcast", *begin, "set x[...] = 99", any_type=True)
            maker.add("views", "a write to a broadcast", *begin, "v = x[...]", "set v[...] = 99", any_type=True)
        maker.add("views", "a view of a broadcast", *begin, "x = transpose x", "y = x[::-1]", any_type=True)


SHARING = {
    "a slice": "x = a[1:]", "a slice with a step": "x = a[::2]", "a slice, step below 0": "x = a[::-1]", "a whole slice": "x = a[:]", "an ellipsis": "x = a[...]",
    "a new axis": "x = a[None]", "another name": "x = a", "a row": "x = a[1]", "a column": "x = a[:,1]", "an empty slice": "x = a[1:1]",
    "a transpose": "x = transpose a", "a reshape": "x = reshape a (6)", "a reshape to the same": "x = reshape a (2,3)", "a reshape of more axes": "x = reshape a (1,2,3,1)",
}
OWN = {
    "a copy": "x = copy a C", "a copy in Fortran order": "x = copy a F", "a cast to the same type": "x = cast a <i4", "a cast to another type": "x = cast a <i8",
    "an operation": "x = add a 0", "an operation of arrays": "x = mul a a", "a negation": "x = neg a", "a comparison": "x = eq a 1",
    "a reduction": "x = max a 0", "a reduction that keeps": "x = sum a 1 keep", "a reduction of an axis of length 1": "x = max a[None] 0",
}


def sharing(maker: Maker) -> None:
    """After each way to make an array of another: a write to the source, and a write to the result."""
    base = array("a", (2, 3))
    one_axis = {"a slice of one axis": "x = a[1:4]", "a stepped slice of one axis": "x = a[::3]", "a reversed array": "x = a[::-1]", "a reshape of one axis": "x = reshape a (6)",
                "a reshape to two axes": "x = reshape a (2,3)", "a transpose of one axis": "x = transpose a", "a copy of one axis": "x = copy a C",
                "an operation of one axis": "x = add a 0", "a cast of one axis": "x = cast a <i4", "a shift of one axis": "x = shl a 0"}
    for begin, ways in ((base, {**SHARING, **OWN}), (array("a", (6,)), one_axis)):
        for what, line in ways.items():
            if "[None] 0" in line:
                continue
            any_type = "<i8" not in line and "sum" not in line
            maker.add("views", f"{what}, then a write to the source", begin, line, "set a[...] = 99", any_type=any_type)
            maker.add("views", f"{what}, then a write to the result", begin, line, f"set x[...] = {'True' if ' eq ' in line else 99}", any_type=any_type)
    for line in ("x = copy a C", "x = copy a F"):
        for viewed in (["b = array <i4 (3,2) 0 1 2 3 4 5", "a = transpose b"], ["b = array <i4 (2,6) 0 1 2 3 4 5 6 7 8 9 10 11", "a = b[:,::2]"], ["b = array <i4 (3) 0 1 2", "a = broadcast b (2,3)"]):
            maker.add("views", "a copy of a view, then a write", *viewed, line, "set x[0] = 99", "set b[...] = 50", any_type=True)
    lists = ["i = array <i8 (2) 0 1", "i = array <i8 (1) 1", "i = array |b1 (2) True True", "i = array |b1 (2) False True", "i = array |b1 (2,3) True True True True True True"]
    for line in lists:
        maker.add("views", "items by an index array, then a write to the source", base, line, "x = a[i]", "set a[...] = 99", any_type=True)
        maker.add("views", "items by an index array, then a write to the result", base, line, "x = a[i]", "set x[...] = 99", any_type=True)
    maker.add("views", "items by a list of one axis, then a write to the result", array("a", (4,)), "i = array <i8 (4) 0 1 2 3", "x = a[i]", "set x[...] = 99", any_type=True)
    for line in ("x = a[1,2]", "x = a[-1,...,0]"):
        maker.add("views", "one item, then a write to the source", base, line, "set a[...] = 99", any_type=True)
    maker.add("views", "an item as an array, then a write to it", base, "x = a[1,2,...]", "set x[...] = 99", any_type=True)
    maker.add("views", "an array of a write is not shared", base, array("b", (3,), (7, 8, 9)), "set a[0] = b", "set b[...] = 50", any_type=True)
    maker.add("views", "an updated view shows", base, "x = a[:,::2]", "upd x[...] add 50", any_type=True)
    maker.add("views", "an updated array shows in its views", base, "x = a[:,::2]", "y = transpose a", "upd a[1] mul 3", any_type=True)
    maker.add("views", "a name that is bound again leaves its views", base, "x = a[0]", array("a", (2,), (7, 8)), "set x[0] = 99", any_type=True)


def all_cases(maker: Maker) -> None:
    for make in (reshapes, turns, broadcasts, sharing):
        make(maker)
