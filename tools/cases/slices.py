"""Slices, integers, `...` and None: what they select, and what is written through them."""
from __future__ import annotations

import itertools

from .maker import Maker
from .texts import array, bounds, cut, named_slices, size

STEPS = (None, 1, 2, 3, 7, -1, -2, -3, -7)
FAR = (2**31, 2**63 - 1, 10**20)


def beyond(length: int, start: object, stop: object) -> bool:
    return any(isinstance(each, int) and not -length <= each <= length for each in (start, stop))


def one_axis(maker: Maker) -> None:
    """All slices of 0 to 5 items, read and written."""
    for length, step in itertools.product(range(6), STEPS):
        if step == 1 and length != 2 or step in (7, -7) and length not in (1, 4):
            continue
        for far in (False, True)[:1 + (length < 5)]:
            found = [cut(start, stop, step) for start in bounds(length, 1 + (length < 2)) for stop in bounds(length, 1 + (length < 2)) if beyond(length, start, stop) == far]
            kind = f"slices{', step below 0' if (step or 1) < 0 else ''}{', beyond the ends' * far}"
            maker.table("slices", kind, ([array("a", [length]), f"x = a[{each}]"] for each in found), any_type=True)
            if length in (2, 4) and step != 1 and not (far and length == 2):
                maker.table("slices", kind.replace("slices", "writes by slices"),
                            ([array("a", [length]), f"set a[{each}] = 99"] for each in found), any_type=True)
    for length, step in itertools.product((0, 3), (1, -1, -3, *FAR, *(-each for each in FAR))):
        sides = [None, 1, FAR[0], -FAR[1] - 1, -FAR[2]]
        found = [cut(start, stop, step) for start in sides for stop in sides if abs(step) in FAR or abs(start or 0) > 9 or abs(stop or 0) > 9]
        maker.table("slices", "slices far beyond the ends", ([array("a", [length]), f"x = a[{each}]"] for each in found), any_type=True)
    maker.table("slices", "slices, step 0", ([array("a", [n]), f"x = a[{each}]"] for n in (0, 3) for each in ("::0", "2:0:0", "5:9:0")), any_type=True)
    maker.table("slices", "writes by slices, step 0", ([array("a", [3]), f"set a[{each}] = 99"] for each in ("::0", "0:0:0")), any_type=True)


def of_slices(maker: Maker) -> None:
    """Slices of slices; writes through them."""
    first = [each for places, each in named_slices(6).items() if len(places) > 1]
    second = ["1:", ":-1", "::2", "::-1", "1::2", "-2::-2", "2:0:-1", ":1", "3:", "-9:9", "9::-2", "0:0"]
    maker.table("slices", "slices of slices", ([array("a", [6]), f"v = a[{one}]", f"x = v[{two}]"] for one in first[::3] for two in second), any_type=True)
    maker.table("slices", "writes through slices of slices",
                ([array("a", [6]), f"v = a[{one}]", f"set v[{two}] = 99"] for one in first[1::3] for two in second[:8]), any_type=True)
    deep = ["::2", "1:", "::-1", "1:-1"]
    maker.table("slices", "slices of slices", ([array("a", [9]), f"v = a[{one}]", f"w = v[{two}]", f"x = w[{three}]"]
                for one, two, three in itertools.product(deep, deep, ("1:", "::-2", "::2"))), any_type=True)


AXES = ["", ":", "1:", ":-1", "::2", "::-1", "-2::-1", "1:1", "9:", "-9:2", "0:1", "2:0:-1", "::-2", "-1:", ":-9:-1", "2:9:7"]


def several_axes(maker: Maker) -> None:
    """Slices of two and three axes."""
    for lengths in ((2, 3), (3, 4)):
        both = [(one or ":", two or ":") for one in AXES for two in AXES if one != two]
        maker.table("slices", "slices of two axes", ([array("m", lengths), f"x = m[{one},{two}]"] for one, two in both[::5]), any_type=True)
        maker.table("slices", "writes by slices of two axes", ([array("m", lengths), f"set m[{one},{two}] = 99"] for one, two in both[1::5]), any_type=True)
    three = list(itertools.product(["1:", "::-1", ":", "0:1"], ["::2", ":0:-1", ":"], [":2", "::-2", "1:"]))
    maker.table("slices", "slices of three axes", ([array("m", (2, 3, 4)), f"x = m[{','.join(each)}]"] for each in three), any_type=True)
    maker.table("slices", "writes by slices of three axes", ([array("m", (2, 3, 4)), f"set m[{','.join(each)}] = 99"] for each in three[::2]), any_type=True)
    turned = [("t = transpose m", f"x = t[{one},{two}]") for one, two in itertools.product(["1:", "::-1", "::2"], ["::2", "1:", "::-1", "0:1"])]
    maker.table("slices", "slices of a transposed array", ([array("m", (3, 4)), *each] for each in turned), any_type=True)
    maker.table("slices", "writes through a transposed array", ([array("m", (3, 4)), one, two.replace("x = ", "set ") + " = 99"] for one, two in turned), any_type=True)


def integers(maker: Maker) -> None:
    """Integers, `...` and None in index lists, in range and out of it."""
    for lengths in ((3,), (1,), (0,)):
        maker.table("indexes", "an integer", ([array("a", lengths), f"x = a[{k}]"] for k in range(-lengths[0], lengths[0])), any_type=True)
        out = [k for k in (-5, -4, -lengths[0] - 1, lengths[0], 4, 2**31, 2**63, -(2**63) - 1, 2**64) if not -lengths[0] <= k < lengths[0]]
        maker.table("indexes", "an integer out of range", ([array("a", lengths), f"x = a[{k}]"] for k in out), any_type=True)
        maker.table("indexes", "writes by an integer out of range", ([array("a", lengths), f"set a[{k}] = 99"] for k in out), any_type=True)
    maker.table("indexes", "writes by an integer", ([array("a", [3]), f"set a[{k}] = 99"] for k in range(-3, 3)), any_type=True)
    rows = ["0", "-1", "1,2", "-2,-3", ":,1", ":,-1", "1,:", "1,::-1", "0,1:", "::-1,2", "1:,0", "0:0,1", "0,0:0", "-1,::2"]
    maker.table("indexes", "integers and slices", ([array("m", (2, 3)), f"x = m[{each}]"] for each in rows), any_type=True)
    maker.table("indexes", "writes by integers and slices", ([array("m", (2, 3)), f"set m[{each}] = 99"] for each in rows), any_type=True)
    out_ = ["2", "-3", "0,3", "0,-4", "2,0", ":,3", ":,-4", "0:0,3", "2,0:0", "0:0,-4"]
    maker.table("indexes", "an integer out of range", ([array("m", (2, 3)), f"x = m[{each}]"] for each in out_), any_type=True)
    maker.table("indexes", "writes by an integer out of range", ([array("m", (2, 3)), f"set m[{each}] = 99"] for each in out_), any_type=True)
    three = ["1", "1,2", "1,2,3", ":,1", ":,:,1", ":,1,2", "0,:,2", "-1,::-1,::2", "::-1,-1,1:", "1,1:2,-1"]
    maker.table("indexes", "integers and slices", ([array("m", (2, 3, 4)), f"x = m[{each}]"] for each in three), any_type=True)
    maker.table("indexes", "too many indexes", ([array("m", (2, 3)), f"x = m[{each}]"] for each in (":,:,:", "0,0,0", "0,:,1:", "...,0,0,0")), any_type=True)
    maker.table("indexes", "too many indexes", ([array("m", (3,)), f"set m[{each}] = 99"] for each in (":,:", "0,0", "...,0,:")), any_type=True)


def new_axes(maker: Maker) -> None:
    dots = ["...", "...,1", "1,...", "0,...,1", "...,1:", "::-1,...", "1:,...,::2", "0,1,...", "...,0,1"]
    more = ["0,1,1,...", "...,0,1,2", "0,...,1:,1", "1,...,::-1", ":,...,1", "::-1,...,::-1"]
    maker.table("indexes", "an ellipsis", ([array("m", (2, 3)), f"x = m[{each}]"] for each in dots), any_type=True)
    maker.table("indexes", "an ellipsis", ([array("m", (2, 3, 4)), f"x = m[{each}]"] for each in dots + more), any_type=True)
    maker.table("indexes", "an ellipsis", ([array("m", (2, 3)), f"set m[{each}] = 99"] for each in dots), any_type=True)
    axes = ["None", "None,:", ":,None", "None,None", "...,None", "None,...", ":,None,:", "1,None", "None,1", "None,1:,None,::-1", ":,None,1", "None,...,None",
            "0,None,1", "None,0,None,1,None", "1:,...,None", "::2,None,::-2"]
    for lengths in ((2, 3), (2, 0), (1, 1)):
        fitting = [each for each in axes if size(lengths) and lengths[0] > 1 or not any(entry.lstrip("-").isdigit() for entry in each.split(","))]
        maker.table("indexes", "new axes", ([array("m", lengths), f"x = m[{each}]"] for each in fitting), any_type=True)
    maker.table("indexes", "new axes", ([array("m", (2, 3)), f"set m[{each}] = 99"] for each in axes), any_type=True)
    maker.table("indexes", "new axes", ([array("m", (2, 3)), f"v = m[{each}]", "set v[...] = 99"] for each in axes), any_type=True)


def all_cases(maker: Maker) -> None:
    for make in (one_axis, of_slices, several_axes, integers, new_axes):
        make(maker)
