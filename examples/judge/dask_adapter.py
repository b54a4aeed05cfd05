"""dask.array, in chunks of two items, or nine chunks. A dask array is lazy and has no views: a write makes another array under the same name."""
import dask
import dask.array as da
import numpy as np
from bench_tool import needs
from bench_tool.operators import OPERATORS

dask.config.set(scheduler="synchronous")
plain = lambda index: tuple(part.compute() if isinstance(part, da.Array) else part for part in index)


class Dask:
    HAS = needs.ALL - {"views", "big_endian", "byte_strings", "records"}
    def make(self, type, shape, items): return da.from_array(np.array(items, type).reshape(shape), chunks=[max(2, length // 9) for length in shape])
    def items(self, a): return (lambda made: (str(a.dtype), made.shape, made.tolist()))(np.asarray(a.compute()))
    def take(self, a, index): return a[plain(index)]
    def put(self, a, index, value): a[plain(index)] = value
    def op(self, name, a, b): return OPERATORS[name](a, b)
    def compare(self, name, a, b): return OPERATORS[name](a, b)
    def unary(self, name, a): return OPERATORS[name](a)
    def reduce(self, name, a, axis, keep): return getattr(da, name)(a, axis=axis, **({"keepdims": True} if keep else {}))
    def reshape(self, a, shape): return a.reshape(shape)
    def transpose(self, a, axes): return a.transpose(axes)
    def broadcast(self, a, shape): return da.broadcast_to(a, shape)
    def cast(self, a, type): return a.astype(type)
