"""Reductions: ties, empty axes, with and without `keep`, wrapped sums, views, wrong axes."""
from __future__ import annotations

import itertools

from .maker import Maker
from .texts import INTEGERS, array, edges, shapes, size

WORDS = ("sum", "prod", "min", "max", "any", "all", "argmin", "argmax")
MIXED = (3, 7, 0, 5, 5, 2, 7, 0, 1, 4, 6, 6)


def values(count: int, start: int = 0) -> list[int]:
    return list(itertools.islice(itertools.cycle(MIXED[start:] + MIXED[:start]), count))


def plain(maker: Maker) -> None:
    """Each reduction of arrays of up to three axes, over all items and each axis."""
    every = [(lengths, axis) for lengths in ((5,), (1,), (2, 3), (3, 1), (2, 3, 2)) for axis in range(len(lengths))]
    all_ = [(lengths, "") for lengths, axis in every if not axis] + [(lengths, f" {axis}") for lengths, axis in every]
    for word in WORDS:
        maker.table("reductions", f"{word}", ([array("a", lengths, values(size(lengths), 3)), f"x = {word} a{axis}"] for lengths, axis in all_), any_type=True)
    every_word = list(itertools.product(WORDS, all_))
    maker.table("reductions", "reductions with keep", ([array("a", lengths, values(size(lengths), 3)), f"x = {word} a{axis} keep"] for word, (lengths, axis) in every_word), any_type=True)
    from_end = list(itertools.product(WORDS, every))
    maker.table("reductions", "reductions, axes from the end", ([array("a", lengths, values(size(lengths), 1)), f"x = {word} a {-1 - axis}"] for word, (lengths, axis) in from_end), any_type=True)
    wrong = itertools.product(WORDS, ((3,), (2, 3), (0, 3)), (2, -3, 3, 64))
    maker.table("reductions", "reductions along a wrong axis", ([array("a", lengths), f"x = {word} a {axis}"] for word, lengths, axis in wrong), any_type=True)
    maker.table("reductions", "reductions of no axes", ([array("a", (), (5,)), f"x = {word} a"] for word in WORDS), any_type=True)
    maker.table("reductions", "reductions of no axes along an axis", ([array("a", (), (5,)), f"x = {word} a {axis}"] for word in WORDS for axis in (0, -1, 1)), any_type=True)


def ties(maker: Maker) -> None:
    """Least and greatest items that come several times: all arrays of four items out of two, and rows of three."""
    for word in ("argmin", "argmax", "min", "max"):
        maker.table("reductions", f"{word} of ties", ([array("a", (4,), each), f"x = {word} a"] for each in itertools.product((4, 9), repeat=4)), any_type=True)
        maker.table("reductions", f"{word} of ties", ([array("a", (2, 3), each), f"x = {word} a {axis}"] for each in list(itertools.product((4, 9), repeat=6))[3::7] for axis in (0, 1)), any_type=True)
        maker.table("reductions", f"{word}", ([array("a", (3,), each), f"x = {word} a 0"] for each in itertools.permutations((1, 5, 8))), any_type=True)
        maker.table("reductions", f"{word}", ([array("a", (4,), each), f"x = {word} a"] for each in itertools.permutations((-3, 0, 2, -1))))
        maker.table("reductions", f"{word}", ([array("a", (3,), each, "|b1"), f"x = {word} a"] for each in itertools.product((0, 1), repeat=3)))


def empty(maker: Maker) -> None:
    """Arrays without items: what has no least item is refused, the others keep their shape."""
    for word in WORDS:
        found = [each for each in shapes(3, (0, 1, 2)) if 0 in each] + [(2, 3, 0, 4), (0, 2, 3, 4)]
        made = ([array("a", lengths), f"x = {word} a{axis}{keep}"] for lengths in found for axis in ["", *(f" {axis}" for axis in range(len(lengths)))] for keep in ("", " keep"))
        maker.table("reductions", f"{word} of no items", made, any_type=True)


def wide(maker: Maker) -> None:
    """Results wider than the items, and results that wrap."""
    for type_ in ("|b1", *INTEGERS):
        all_ = edges(type_)
        given = (all_, all_[::-1], all_[-3:], [all_[-1]] * 4, [all_[0]] * 3)
        maker.table("reductions", "reductions at the ends of the range", ([array("a", (len(each),), each, type_), f"x = {word} a"] for word in WORDS for each in given))
        maker.table("reductions", "reductions at the ends of the range", ([array("a", (2, 2), [all_[-1], all_[-1], all_[0], all_[-1]], type_), f"x = {word} a {axis}"] for word in ("sum", "prod", "max", "argmin") for axis in (0, 1)))
    for type_ in ("|u1", "|i1", "<i2"):
        maker.add("reductions", "sums of many small numbers", f"a = full {type_} (300) {edges(type_)[-1]}", "x = sum a", named=["x"])
        maker.add("reductions", "sums of many small numbers", f"a = full {type_} (300) {edges(type_)[0]}", "x = sum a", named=["x"])


def of_views(maker: Maker) -> None:
    """Reductions of transposed, reversed, stepped and repeated arrays."""
    begin = array("b", (3, 4), values(12, 2))
    views = ["a = transpose b", "a = b[::-1]", "a = b[:,::-1]", "a = b[::2,1:]", "a = b[::-1,::-2]", "a = b[1]", "a = b[:,2]"]
    places = (("", ""), (" 0", ""), (" -1", " keep"))
    maker.table("reductions", "reductions of a view", ([begin, view, f"x = {word} a{axis}{keep}"] for word in WORDS for view in views for axis, keep in places), any_type=True)
    orders = ("(2,0,1)", "(1,2,0)", "(1,0,2)")
    maker.table("reductions", "reductions of a transposed array", ([array("b", (2, 3, 2), values(12, 5)), f"a = transpose b {order}", f"x = {word} a{axis}"]
                for word in WORDS for order in orders for axis in ("", " 0", " 1", " 2")), any_type=True)
    maker.table("reductions", "reductions of a repeated array", ([array("b", (3,), (4, 1, 4)), "a = broadcast b (2,3)", f"x = {word} a{axis}"] for word in WORDS for axis in ("", " 0", " 1")), any_type=True)
    for count in (9, 17, 33, 65):
        made = ([array("a", (count,), (k % number for k in range(count))), f"x = {word} a"] for word in ("argmax", "argmin", "max", "sum") for number in (7, count))
        maker.table("reductions", "reductions of longer arrays", made, any_type=True, named=["x"])


def all_cases(maker: Maker) -> None:
    for make in (plain, ties, empty, wide, of_views):
        make(maker)
