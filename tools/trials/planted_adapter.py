"""The adapter of planted_library."""
import planted_library as library  # type: ignore[import]
from planted_library import broadcast, cast, compare, copy, make, op, put, reduce, reshape, take, transpose, unary, update

from bench_tool import needs


class Planted:
    HAS = needs.ALL - {"byte_strings", "records", "big_endian"}
    items = staticmethod(lambda a: (a.type, a.shape, library.items(a)))
    make, take, put, update, op, unary, compare, reduce = map(staticmethod, (make, take, put, update, op, unary, compare, reduce))
    reshape, transpose, broadcast, copy, cast = map(staticmethod, (reshape, transpose, broadcast, copy, cast))
