"""The feature of a case: the row of the judge's table in which it counts. The plans name their cases more closely than that."""
from __future__ import annotations

import re
from functools import lru_cache

# What the plan calls a case, as a pattern, and its feature; the first that fits holds.
RULES = [(re.compile(pattern), feature) for pattern, feature in (line.rsplit(" -> ", 1) for line in r"""
slices, step 0|writes by slices, step 0 -> slices, step 0
slices far.* -> slices far beyond the ends
(writes through )?slices of slices -> slices of slices
(writes by )?slices of (two|three) axes|slices of a transposed array|writes through a transposed array -> slices of several axes
writes by slices.*step below 0.* -> writes by slices, negative steps
writes by slices.* -> writes by slices
slices, step below 0, beyond the ends -> slices beyond the ends, negative steps
slices, beyond the ends -> slices beyond the ends
slices, step below 0 -> slices, negative steps
slices -> slices
.*an integer out of range -> integers out of range
an integer|writes by an integer|.*integers and slices -> integers
too many indexes|an ellipsis|new axes -> ellipsis, new axes, too many indexes
set of a slice from a slice|set of bools.* -> overlap: slices
upd of a slice from a slice -> overlap: slices, in place
set of a mask from a slice|set of a mask of two axes -> overlap: masks
upd of a mask from a slice|upd of a mask of two axes -> overlap: masks, in place
set of a (slice|list) from a (slice|list) -> overlap: index arrays
upd of a list from a (slice|list) -> overlap: index arrays, in place
(set|upd) (within a view|between names).* -> overlap: within views, between names
set (of (two|three) axes|from the transposed|of an axis).* -> overlap: several axes
upd (of (two|three) axes|from the transposed|of an axis).* -> overlap: several axes, in place
(set|upd) of (rows|columns) by.* -> overlap: rows and columns by index arrays and masks
(set|upd) from (one item|an item|a row or column) of itself -> overlap: a source that is repeated
(set|upd) of 100,000.* -> overlap: 100,000 items
(set|upd) by a (list|mask) that is.* -> overlap: the target is the index
reshape of a view, then.* -> reshape: view or copy
reshape to another.*|reshape with a length below.* -> reshape to a wrong shape
reshape.* -> reshape
transpose by wrong axes -> transpose by wrong axes
transpose.*|a write through a transpose -> transpose
broadcast|.* of a broadcast|a view of a broadcast -> broadcast
a write to a broadcast -> writes to a broadcast
.*then a write.*|an (array|updated).*|a name that.* -> views and copies
(set|upd) of a (list|mask) from.* other shapes -> broadcasting: index arrays and masks
set (from|of a slice from|of rows).* other shapes|set of a literal -> broadcasting: assignments
upd.* other shapes -> broadcasting: in place
.* other shapes|operations of a column and a row -> broadcasting: operations
(set by )?a mask of other lengths|set by a mask from an array of another length -> masks of other lengths
(set by )?a mask of two axes beside slices|a mask of (rows|columns)|set by a mask of columns -> masks beside slices
(set by )?(a mask of two axes and an integer|a mask.* and a list|two masks) -> masks beside integers and index arrays
.*mask of (two axes|three axes|\(1, \d\).*) -> masks of several axes
.*mask.* -> masks
.*out of range, where nothing is selected -> index arrays out of range, nothing selected
.*list out of range|a list of an axis without items -> index arrays out of range
.*empty list -> empty index arrays
(set by )?a list (beside slices|beside None) -> index arrays beside slices
(set by )?a list and an integer -> index arrays beside integers
(set by )?(two lists|lists of two shapes) -> several index arrays
(set|upd) of a place twice -> index arrays that repeat
(set|upd) by.* list.* -> writes by index arrays
.*list.* -> index arrays
sums|differences|products -> sums, differences, products
quotients|remainders -> quotients, remainders
and|or|xor|negations.* -> and, or, xor, negation, complement
shifts.* -> shifts
updates|updates with a number|updates of another type -> in-place operations
operations with a number -> operations with a number
comparisons with a number out of range -> comparisons with a number out of range
comparisons with a number -> comparisons with a number
operations of two types.* -> operations of two types
comparisons of two types -> comparisons of two types
comparisons -> comparisons
casts -> casts
(assignments of another type|numbers set|bools set).* -> assignments of another type
.*byte orders -> byte orders
operations of.* -> operations of slices and longer arrays
(sum|prod) of no items|(min|max|any|all|argmin|argmax) of no items -> reductions of no items
(min|max|argmin|argmax) of ties -> ties of min, max, argmin, argmax
sum|prod -> sum, prod
min|max -> min, max
any|all -> any, all
argmin|argmax -> argmin, argmax
reductions.* along a.*axis|reductions of no axes.* -> reductions along a wrong axis, of no axes
reductions with keep|reductions, axes from the end -> reductions with keep, with axes from the end
reductions at.*|sums of many.* -> reductions at the ends of the range
reductions of.* -> reductions of views and longer arrays
.*byte strings.* -> byte strings
a file of (each type|bools|byte strings|records) -> NPY: types
a file in.*order|a file of \d+ axes -> NPY: orders, many axes
.*version 2.* -> NPY: version 2
a header of each.*|a header length with.*|a header written.*|a length with L|a file with bytes after.* -> NPY: forms of headers
a file cut.* -> NPY: files that are cut
a shape.* -> NPY: forged shapes
a header that.*|a type that.*|another.*|a length of the header.* -> NPY: damaged headers
a file that.* -> NPY: files that are written
.* -> records
""".strip().splitlines())]


@lru_cache(None)
def feature_of(name: str) -> str:
    """The feature of what a plan calls a case."""
    return next(feature for pattern, feature in RULES if pattern.fullmatch(name))
