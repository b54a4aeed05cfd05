"""NumPy, called as its users call it."""
import numpy as np
from bench_tool import item_types
from bench_tool.operators import IN_PLACE, OPERATORS


class NumPy:
    def make(self, type, shape, items): return np.array(items, item_types.read(type).numpy()).reshape(shape)
    def items(self, a): return np.asarray(a).dtype.str, np.shape(a), np.asarray(a).tolist()
    def take(self, a, index): return a[index]
    def put(self, a, index, value): a[index] = value
    def update(self, name, a, index, value): a[index] = IN_PLACE[name](a[index], value)
    def op(self, name, a, b): return OPERATORS[name](a, b)
    def compare(self, name, a, b): return OPERATORS[name](a, b)
    def unary(self, name, a): return OPERATORS[name](a)
    def reduce(self, name, a, axis, keep): return getattr(np, name)(a, axis=axis, keepdims=keep)
    def reshape(self, a, shape): return a.reshape(shape)
    def transpose(self, a, axes): return a.transpose(axes)
    def broadcast(self, a, shape): return np.broadcast_to(a, shape)
    def copy(self, a, order): return a.copy(order)
    def cast(self, a, type): return a.astype(item_types.read(type).numpy())
    def field(self, a, name): return a[name]
    def load(self, path): return np.load(path)
    def save(self, a, path): np.save(path, a)
