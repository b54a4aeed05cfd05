"""Broadcasting in assignments, updates and operations: lengths 0 and 1 on each side, missing and superfluous axes."""
from __future__ import annotations

from .maker import Maker
from .texts import array, shapes, size

SMALL = shapes(2, (0, 1, 2, 3))
MORE = [(1, 1, 1), (1, 2, 3), (2, 1, 3), (2, 2, 1), (1, 1, 3), (0, 1, 2)]


def all_cases(maker: Maker) -> None:
    targets, sources = SMALL + [(2, 1, 3), (2, 2, 2)], SMALL + MORE
    begin = [(array("a", target), array("b", source, range(50, 50 + size(source)))) for target in targets for source in sources]
    maker.table("broadcasting", "set from other shapes", ([*each, "set a[...] = b"] for each in begin), any_type=True)
    maker.table("broadcasting", "upd from other shapes", ([*each, "upd a[...] add b"] for each in begin[::2]), any_type=True)
    maker.table("broadcasting", "operations of other shapes", ([*each, "x = add a b"] for each in begin), any_type=True)
    compared = ([array("a", one), array("b", other, [1] * size(other)), "x = lt a b"] for one in SMALL[::2] for other in SMALL[::3])
    maker.table("broadcasting", "comparisons of other shapes", compared, any_type=True)
    parts(maker)
    maker.table("broadcasting", "set of a literal", ([array("a", target), "set a[...] = 99"] for target in targets), any_type=True)
    some = (((3, 1), (2,)), ((3, 1), (1, 2)), ((2, 1, 1), (3, 1)), ((1,), (2, 3)), ((2, 3), ()))
    maker.table("broadcasting", "operations of a column and a row", ([array("a", one), array("b", other, range(50, 50 + size(other))), f"x = {word} a b"]
                for word in ("add", "sub", "mul") for one, other in some))


def parts(maker: Maker) -> None:
    """Slices, lists and masks of one axis, rows and columns, from arrays of other shapes."""
    sources = [(1,), (2,), (3,), (4,), (0,), (), (1, 2), (1, 1), (2, 1), (1, 4), (2, 2), (1, 1, 2)]
    given = [array("b", each, range(50, 50 + size(each))) for each in sources]
    for word, sign in (("set", "="), ("upd", "add")):
        slices = ("0:2", "1:", "::2", "0:0", "3:1", "::-1", "5:")
        maker.table("broadcasting", f"{word} of a slice from other shapes", ([array("a", (4,)), each, f"{word} a[{part}] {sign} b"] for part in slices for each in given), any_type=True)
        lists = ("i = array <i8 (2) 3 1", "i = array <i8 (0)", "i = array <i8 (2,2) 0 1 2 3")
        maker.table("broadcasting", f"{word} of a list from other shapes", ([array("a", (4,)), part, each, f"{word} a[i] {sign} b"] for part in lists for each in given), any_type=True)
        masks = ("k = array |b1 (4) 1 0 1 0", "k = array |b1 (4) 0 0 0 0")
        maker.table("broadcasting", f"{word} of a mask from other shapes", ([array("a", (4,)), part, each, f"{word} a[k] {sign} b"] for part in masks for each in given), any_type=True)
    for target in ((2, 3), (3, 2)):
        for index, found in ((":,0", [(2,), (3,), (1,), (2, 1), (1, 2)]), ("0", [(2,), (3,), (1,), (1, 3), (3, 1)]), (":,1:", [(2, 2), (2,), (1, 1), (2, 1), (3,)]),
                             ("None", [target, (1, *target), (2, *target)])):
            made = ([array("a", target), array("b", each, range(50, 50 + size(each))), f"set a[{index}] = b"] for each in found)
            maker.table("broadcasting", "set of rows and columns from other shapes", made, any_type=True)
