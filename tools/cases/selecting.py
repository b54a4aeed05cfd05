"""Index arrays and masks: what they select and write, and what is refused."""
from __future__ import annotations

import itertools
from typing import Any, Sequence

from .maker import Maker
from .texts import array, size


def list_(name: str, lengths: Sequence[int], values: Sequence[int]) -> str:
    return array(name, lengths, values, "<i8")


def mask(name: str, lengths: Sequence[int], bits: Sequence[Any]) -> str:
    return array(name, lengths, [int(bit) for bit in bits], "|b1")


def one_list(maker: Maker) -> None:
    """A single index array, of any number of axes, on arrays of one, two and three axes."""
    some: list[tuple[tuple[int, ...], list[int]]] = [((3,), [2, 0, 1]), ((2,), [-1, -3]), ((4,), [0, 0, 2, 0]), ((1,), [1]), ((2, 2), [0, 1, 2, 0]), ((1, 3), [-1, 1, 0]), ((2, 1), [1, -2]), ((), [2]), ((), [-1])]
    none: list[tuple[tuple[int, ...], list[int]]] = [((0,), []), ((0, 3), []), ((2, 0), []), ((0, 0), [])]
    for target in ((3,), (3, 2), (3, 2, 2), (3, 0)):
        made = [(array("a", target), list_("i", lengths, values)) for lengths, values in some]
        maker.table("selecting", "a list", ([*each, "x = a[i]"] for each in made), any_type=True)
        maker.table("selecting", "set by a list", ([*each, "set a[i] = 99"] for each in made), any_type=True)
        empty = [(array("a", target), list_("i", lengths, values)) for lengths, values in none]
        maker.table("selecting", "an empty list", ([*each, "x = a[i]"] for each in empty), any_type=True)
        maker.table("selecting", "set by an empty list", ([*each, "set a[i] = 99"] for each in empty), any_type=True)
    pairs = list(itertools.product(range(-4, 4), repeat=2))
    maker.table("selecting", "all lists of two places", ([array("a", (3,)), list_("i", (2,), each), "x = a[i]"] for each in pairs), any_type=True)
    maker.table("selecting", "set by all lists of two places", ([array("a", (3,)), list_("i", (2,), each), array("b", (2,), (50, 60)), "set a[i] = b"] for each in pairs), any_type=True)
    for view in ("::-1", "::2", "1:"):
        maker.table("selecting", "a list that is a view", ([array("a", (4,)), list_("j", (4,), (3, 0, 2, 1)), f"i = j[{view}]", line] for line in ("x = a[i]", "set a[i] = 99")), any_type=True)
        maker.table("selecting", "a list on a view", ([array("b", (6,)), f"a = b[{view}]", list_("i", (3,), (2, 0, 1)), line] for line in ("x = a[i]",)), any_type=True)
        maker.table("selecting", "set by a list on a view", ([array("b", (6,)), f"a = b[{view}]", list_("i", (3,), (2, 0, 1)), line] for line in ("set a[i] = 99", "upd a[i] add 50")), any_type=True)
    for type_ in ("|i1", "|u1", "<i2", "<u2", "<i4", "<u4", "<u8"):
        maker.add("selecting", "a list of another type", array("a", (3,)), array("i", (3,), (2, 0, 1), type_), "x = a[i]", any_type=True)
    for value in (-1, -128):
        maker.add("selecting", "a list of another type", array("a", (130,)), array("i", (2,), (value, 127), "|i1"), "x = a[i]", any_type=True)


def out_of_range(maker: Maker) -> None:
    """Numbers outside the axis, also where nothing is selected."""
    far = [3, -4, 4, 127, 2**31, -(2**31) - 1, 2**62, -(2**63), 2**63 - 1]
    maker.table("selecting", "a list out of range", ([array("a", (3,)), list_("i", (2,), (0, each)), "x = a[i]"] for each in far), any_type=True)
    maker.table("selecting", "set by a list out of range", ([array("a", (3,)), list_("i", (2,), (0, each)), "set a[i] = 99"] for each in far), any_type=True)
    maker.table("selecting", "upd by a list out of range", ([array("a", (3,)), list_("i", (2,), (0, each)), "upd a[i] add 1"] for each in far), any_type=True)
    maker.table("selecting", "a list out of range", ([array("a", (2, 3)), list_("i", (2,), (0, each)), f"x = a[{index}]"] for index, each in ((":,i", 3), (":,i", -4), ("i", 2), ("i", -3), ("i,0", 2), ("0,i", 3), ("...,i", 3))), any_type=True)
    maker.table("selecting", "a list of an axis without items", ([array("a", (0,)), list_("i", (1,), (each,)), "x = a[i]"] for each in (0, -1, 1)), any_type=True)
    nothing = [("1:1,i", 7), ("1:1,i", -8), ("i,0:0", 2), ("0:0,i", 3), ("i,2:1", -3)]
    maker.table("selecting", "a list out of range, where nothing is selected", ([array("a", (2, 3)), list_("i", (1,), (each,)), f"x = a[{index}]"] for index, each in nothing), any_type=True)
    maker.table("selecting", "set by a list out of range, where nothing is selected", ([array("a", (2, 3)), list_("i", (1,), (each,)), f"set a[{index}] = 99"] for index, each in nothing), any_type=True)
    both: list[tuple[tuple[int], list[int], tuple[int], list[int]]] = [((0,), [], (1,), [9]), ((1,), [9], (0,), [])]
    maker.table("selecting", "two lists out of range, where nothing is selected", ([array("a", (2, 3)), list_("i", one, first), list_("j", other, second), line] for one, first, other, second in both for line in ("x = a[i,j]",)), any_type=True)
    maker.table("selecting", "set by two lists out of range, where nothing is selected", ([array("a", (2, 3)), list_("i", one, first), list_("j", other, second), "set a[i,j] = 99"] for one, first, other, second in both), any_type=True)


def beside(maker: Maker) -> None:
    """Lists beside slices, integers, None and other lists: where their axes go."""
    i, j = list_("i", (2,), (1, 0)), list_("j", (2,), (-1, 1))
    with_slices = [":,i", "i,:", "i,1:", "::-1,i", "i,::-1", ":,i,:", ":,:,i", "...,i", "i,...", "i,:,1:", "1:,i,::2", "...,i,:", ":,i,...", "0:0,i", "i,0:0", "i,::2,::-1"]
    for lengths in ((2, 3), (2, 3, 4)):
        found = [each for each in with_slices if each.count(",") + 1 - each.count("...") <= len(lengths)]
        maker.table("selecting", "a list beside slices", ([array("a", lengths), i, f"x = a[{each}]"] for each in found), any_type=True)
        maker.table("selecting", "set by a list beside slices", ([array("a", lengths), i, f"set a[{each}] = 99"] for each in found), any_type=True)
    news = ["None,i", "i,None", ":,None,i", "i,None,:", "None,:,i", "...,None,i", "i,:,None"]
    maker.table("selecting", "a list beside None", ([array("a", (2, 3)), i, f"x = a[{each}]"] for each in news), any_type=True)
    two = ["i,j", "i,j,:", ":,i,j", "i,:,j", "i,...,j", "j,i", "i,j,1:", "::-1,i,j", "i,::2,j", "i,None,j"]
    maker.table("selecting", "two lists", ([array("a", (2, 3, 4)), i, j, f"x = a[{each}]"] for each in two), any_type=True)
    maker.table("selecting", "set by two lists", ([array("a", (2, 3, 4)), i, j, f"set a[{each}] = 99"] for each in two), any_type=True)
    maker.table("selecting", "two lists", ([array("a", (2, 3)), i, j, f"x = a[{each}]"] for each in ("i,j", "j,j", "i,i", "i,...,j", "i,j,None", "None,i,j")), any_type=True)
    apart = [":,i,:,j", "1:,i,::2,j", ":,0,:,i", ":,i,:,0", "::-1,i,None,j", "...,i,:,j", ":,i,...,j", "None,:,i,:,j", ":,i,1:,-1", "i,:,j,:"]
    maker.table("selecting", "two lists", ([array("a", (2, 2, 3, 2)), i, j, f"x = a[{each}]"] for each in apart), any_type=True)
    maker.table("selecting", "set by two lists", ([array("a", (2, 2, 3, 2)), i, j, f"set a[{each}] = 99"] for each in apart[:6]), any_type=True)
    integers = ["0,i", "i,0", "0,:,i", "i,:,0", "i,0,:", ":,0,i", ":,i,0", "-1,i,1", "0,i,:", "i,1,1", "1,::-1,i", "1,...,i", "i,None,0"]
    maker.table("selecting", "a list and an integer", ([array("a", (2, 3, 4)), i, f"x = a[{each}]"] for each in integers), any_type=True)
    maker.table("selecting", "set by a list and an integer", ([array("a", (2, 3, 4)), i, array("b", (4,), (50, 60, 70, 80)), f"set a[{each}] = 99"] for each in integers), any_type=True)
    maker.table("selecting", "a list and an integer", ([array("a", (2, 3)), i, f"x = a[{each}]"] for each in ("0,i", "i,0", "-1,i", "i,-1", "i,1")), any_type=True)
    wide = [((2, 1), (2,)), ((2, 1), (3,)), ((1,), (3,)), ((), (2,)), ((2, 2), (2,)), ((1, 2), (2, 1)), ((0,), (1,)), ((3,), (2,)), ((2, 2), (3,)), ((0,), (2,))]
    for index in ("i,j", "i,:,j"):
        made = ([array("a", (2, 3, 3)), list_("i", one, [k % 2 for k in range(size(one))]), list_("j", other, [k % 3 for k in range(size(other))]), f"x = a[{index}]"] for one, other in wide)
        maker.table("selecting", "lists of two shapes", made, any_type=True)
    made = ([array("a", (2, 3)), list_("i", one, [k % 2 for k in range(size(one))]), list_("j", other, [k % 3 for k in range(size(other))]), "set a[i,j] = 99"] for one, other in wide)
    maker.table("selecting", "set by lists of two shapes", made, any_type=True)


def repeats(maker: Maker) -> None:
    """Places that are written twice: the last item stays, and `upd` counts once."""
    lists = [(0, 0), (1, 1, 1), (0, 1, 0), (2, 0, 2, 0), (-1, 2), (0, -3), (1, 1, 0, 0)]
    for each in lists:
        values = [50 + 10 * k for k in range(len(each))]
        maker.add("selecting", "set of a place twice", array("a", (3,)), list_("i", (len(each),), each), array("b", (len(each),), values), "set a[i] = b", any_type=True)
        maker.add("selecting", "upd of a place twice", array("a", (3,)), list_("i", (len(each),), each), "upd a[i] add 1", any_type=True)
        maker.add("selecting", "upd of a place twice", array("a", (3,)), list_("i", (len(each),), each), array("b", (len(each),), values), "upd a[i] add b", any_type=True)
    maker.add("selecting", "set of a place twice", array("a", (2, 2)), list_("i", (2,), (1, 1)), array("b", (2, 2), (50, 60, 70, 80)), "set a[i] = b", any_type=True)
    maker.add("selecting", "set of a place twice", array("a", (2, 2)), list_("i", (2,), (1, 1)), array("b", (2, 2), (50, 60, 70, 80)), "set a[:,i] = b", any_type=True)
    maker.add("selecting", "set of a place twice", array("a", (2, 2)), list_("i", (3,), (1, 0, 1)), list_("j", (3,), (0, 0, 0)), array("b", (3,), (50, 60, 70)), "set a[i,j] = b", any_type=True)
    into = [((3, 2), "i", (2, 2)), ((3, 2), "i,:", (2, 2)), ((2, 3), ":,i", (2, 2)), ((2, 3, 2), ":,i", (2, 2, 2)), ((3, 3), "i,j", (2,)), ((2, 3, 2), "i,:,j", (2, 3)), ((2, 2, 3), "0,:,i", (2, 2))]
    for target, index, source in into:
        lines = [array("a", target), list_("i", (2,), (1, 0)), *([list_("j", (2,), (0, 1))] if "j" in index else []), array("b", source, range(50, 50 + size(source)))]
        maker.add("selecting", "set by a list from an array", *lines, f"set a[{index}] = b", any_type=True)
        maker.add("selecting", "upd by a list from an array", *lines, f"upd a[{index}] add b", any_type=True)


def masks(maker: Maker) -> None:
    """All masks of 0 to 3 items and of 2x3; masks of two and three axes beside other entries; masks of other lengths."""
    for length in range(4):
        bits = list(itertools.product((0, 1), repeat=length))
        maker.table("masks", "a mask", ([array("a", (length,)), mask("k", (length,), each), "x = a[k]"] for each in bits), any_type=True)
        maker.table("masks", "set by a mask", ([array("a", (length,)), mask("k", (length,), each), "set a[k] = 99"] for each in bits), any_type=True)
    every = list(itertools.product((0, 1), repeat=6))
    maker.table("masks", "a mask of two axes", ([array("a", (2, 3)), mask("k", (2, 3), each), "x = a[k]"] for each in every), any_type=True)
    maker.table("masks", "set by a mask of two axes", ([array("a", (2, 3)), mask("k", (2, 3), each), "set a[k] = 99"] for each in every), any_type=True)
    maker.table("masks", "a mask of rows", ([array("a", (2, 3)), mask("k", (2,), each), f"x = a[{index}]"] for each in itertools.product((0, 1), repeat=2) for index in ("k", "k,:", "k,...", "k,1:", "k,::-1", "k,None")), any_type=True)
    maker.table("masks", "a mask of columns", ([array("a", (2, 3)), mask("k", (3,), each), f"x = a[{index}]"] for each in itertools.product((0, 1), repeat=3) for index in (":,k", "...,k", "1:,k", "::-1,k", "None,:,k")), any_type=True)
    maker.table("masks", "set by a mask of columns", ([array("a", (2, 3)), mask("k", (3,), each), f"set a[{index}] = 99"] for each in itertools.product((0, 1), repeat=3) for index in (":,k", "1:,k")), any_type=True)
    for number in (1, 3, 6):
        from_ = [each for each in every if sum(each) == number][:6]
        maker.table("masks", "set by a mask from an array", ([array("a", (2, 3)), mask("k", (2, 3), each), array("b", (number,), range(50, 50 + number)), "set a[k] = b"] for each in from_), any_type=True)
        maker.table("masks", "upd by a mask from an array", ([array("a", (2, 3)), mask("k", (2, 3), each), array("b", (number,), range(50, 50 + number)), "upd a[k] add b"] for each in from_), any_type=True)
    two = [(1, 0, 0, 1), (1, 1, 0, 1), (0, 0, 0, 0), (1, 1, 1, 1), (0, 1, 0, 0)]
    after = ["k", "k,:", "k,:2", "k,1:", "k,::-1", "k,::2", "k,...", "k,None", "k,None,:"]
    plans: list[tuple[tuple[int, ...], list[str]]] = [
        ((2, 2, 3), after), ((3, 2, 2), [":,k", "1:,k", "::-1,k", "...,k", "None,:,k", "::2,k", "0:0,k"]), ((2, 2, 2), ["k,:", ":,k", "k,1:", "1:,k"])]
    for lengths, index_lists in plans:
        maker.table("masks", "a mask of two axes beside slices", ([array("a", lengths), mask("k", (2, 2), each), f"x = a[{index}]"] for index in index_lists for each in two), any_type=True)
        maker.table("masks", "set by a mask of two axes beside slices", ([array("a", lengths), mask("k", (2, 2), each), f"set a[{index}] = 99"] for index in index_lists for each in two[:3]), any_type=True)
    plans = [((2, 2, 3), ["k,0", "k,-1"]), ((3, 2, 2), ["0,k", "-1,k"]), ((2, 2, 3, 2), ["k,:,0", "k,0,:", "k,1", "k,0,1"]), ((2, 3, 2, 2), ["0,:,k", ":,0,k", "0,1,k"])]
    for lengths, index_lists in plans:
        maker.table("masks", "a mask of two axes and an integer", ([array("a", lengths), mask("k", (2, 2), each), f"x = a[{index}]"] for index in index_lists for each in two), any_type=True)
        maker.table("masks", "set by a mask of two axes and an integer", ([array("a", lengths), mask("k", (2, 2), each), f"set a[{index}] = 99"] for index in index_lists for each in two[:2]), any_type=True)
    three = [(1, 0, 1, 1, 0, 0, 1, 0), (0, 1, 0, 0, 1, 1, 0, 1), (0,) * 8]
    maker.table("masks", "a mask of three axes", ([array("a", (2, 2, 2)), mask("k", (2, 2, 2), each), f"x = a[{index}]"] for each in three for index in ("k", "k,...", "k,None")), any_type=True)
    lines = [[list_("i", (2,), (0, 2)), "x = a[k,i]"], [list_("i", (3,), (0, 2, 1)), "x = a[k,i]"], [list_("i", (1,), (1,)), "x = a[k,i]"], [list_("i", (2,), (0, 2)), "set a[k,i] = 99"]]
    maker.table("masks", "a mask of two axes and a list", ([array("a", (2, 2, 3)), mask("k", (2, 2), (1, 0, 0, 1)), *each] for each in lines), any_type=True)
    maker.table("masks", "a mask and a list", ([array("a", (3, 3)), mask("k", (3,), (1, 0, 1)), list_("i", (2,), (2, 0)), line] for line in ("x = a[k,i]", "x = a[i,k]")), any_type=True)
    maker.table("masks", "set by a mask and a list", ([array("a", (3, 3)), mask("k", (3,), (1, 0, 1)), list_("i", (2,), (2, 0)), line] for line in ("set a[k,i] = 99", "set a[i,k] = 99")), any_type=True)
    maker.table("masks", "two masks", ([array("a", (3, 3)), mask("k", (3,), one), mask("l", (3,), other), "x = a[k,l]"] for one, other in (((1, 0, 1), (0, 1, 1)), ((1, 1, 1), (0, 0, 1)), ((1, 0, 1), (1, 1, 1)), ((0, 0, 0), (1, 0, 0)))), any_type=True)
    maker.table("masks", "a mask on a transposed array", ([array("b", (3, 2)), "a = transpose b", mask("k", (2, 3), each), "x = a[k]"] for each in every[5::9]), any_type=True)
    maker.table("masks", "a transposed mask", ([array("a", (2, 3)), mask("l", (3, 2), each), "k = transpose l", "x = a[k]"] for each in every[5::9]), any_type=True)
    maker.table("masks", "set by a transposed mask", ([array("a", (2, 3)), mask("l", (3, 2), each), "k = transpose l", "set a[k] = 99"] for each in every[5::9]), any_type=True)


def wrong_masks(maker: Maker) -> None:
    """Masks of other lengths than the axes."""
    plans: list[tuple[tuple[int, ...], str, list[tuple[int, ...]]]] = [((3,), "k", [(2,), (4,), (0,), (1,), (3, 3), (1, 3)]), ((2, 3), "k", [(3,), (1,), (2, 2), (3, 2), (1, 3), (2, 1), (2, 4), (6,), (0,)]),
                                  ((2, 3), ":,k", [(2,), (4,), (1,), (0,)]), ((2, 2, 3), "k,0", [(2, 3), (2, 1), (3, 2)])]
    for lengths, index, found in plans:
        for value in (True, False):
            made = [(array("a", lengths), mask("k", each, [value] * size(each))) for each in found]
            kind = "a mask of other lengths"
            maker.table("masks", kind, ([*each, f"x = a[{index}]"] for each in made), any_type=True)
            maker.table("masks", f"set by {kind}", ([*each, f"set a[{index}] = 99"] for each in made), any_type=True)
    maker.table("masks", "set by a mask from an array of another length", ([array("a", (3,)), mask("k", (3,), bits), array("b", (n,), range(50, 50 + n)), f"{word} b"] for bits in ((1, 0, 1), (1, 1, 1), (0, 0, 0))
                for n in (0, 2, 3, 4) for word in ("set a[k] =", "upd a[k] add")), any_type=True)
    maker.table("masks", "a mask of (1, 3)", ([array("a", (1, 3)), mask("k", (1, 3), bits), "x = a[k]"] for bits in itertools.product((0, 1), repeat=3)), any_type=True)
    maker.table("masks", "a mask of (1, 3) on three axes", ([array("a", (1, 3, 4)), mask("k", (1, 3), bits), "x = a[k]"] for bits in itertools.product((0, 1), repeat=3)), any_type=True)
    maker.table("masks", "a mask of (1, 1)", ([array("a", (1, 1)), mask("k", (1, 1), (bit,)), line] for bit in (0, 1) for line in ("x = a[k]",)), any_type=True)
    maker.table("masks", "a mask of (1, 1) on three axes", ([array("a", (1, 1, 3)), mask("k", (1, 1), [bit]), "x = a[k]"] for bit in (0, 1)), any_type=True)


def all_cases(maker: Maker) -> None:
    for make in (one_list, out_of_range, beside, repeats, masks, wrong_masks):
        make(maker)

