"""numba: slices, writes, sums in place and operations that it compiles. The arrays are NumPy's."""
import numpy as np
from numba import njit

SIGNS = {"add": "+", "sub": "-", "mul": "*", "fdiv": "//", "mod": "%", "and": "&", "or": "|", "xor": "^", "eq": "==", "ne": "!=", "lt": "<", "ge": ">="}
compiled = {name: njit(eval(f"lambda a, b: a {sign} b")) for name, sign in SIGNS.items()}
take, one = njit(lambda a, index: a[index]), lambda index: index[0] if len(index) == 1 else index

@njit
def put(a, index, value): a[index] = value

@njit
def add(a, index, value): a[index] += value


class Numba:
    HAS = {"i4", "i8", "b1", "steps", "negative_steps", "views", "size_0", "rank_0", "index_arrays", "masks"}
    make = staticmethod(lambda type, shape, items: np.array(items, type).reshape(shape))
    items = staticmethod(lambda a: (a.dtype.str if isinstance(a, np.ndarray) else None, np.shape(a), np.asarray(a).tolist()))
    def take(self, a, index): return take(a, one(index))
    def put(self, a, index, value): put(a, one(index), value)
    def update(self, name, a, index, value): add(a, one(index), value if name == "add" else self.lacks())
    def op(self, name, a, b): return compiled.get(name, self.lacks)(a, b)
    def compare(self, name, a, b): return compiled.get(name, self.lacks)(a, b)
    def lacks(self, *_): raise NotImplementedError
