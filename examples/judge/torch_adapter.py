"""torch, with tensors of integers and bools on the CPU."""
import torch
from bench_tool import needs
from bench_tool.operators import IN_PLACE, OPERATORS

TYPES = {"|b1": torch.bool, "|i1": torch.int8, "|u1": torch.uint8, "<i2": torch.int16, "<i4": torch.int32, "<i8": torch.int64}


class Torch:
    HAS = needs.ALL - {"u2", "u4", "u8", "big_endian", "byte_strings", "records", "negative_steps"}
    def make(self, type, shape, items): return torch.tensor(items, dtype=TYPES[type]).reshape(shape)
    def items(self, a): return a.dtype, a.shape, a.tolist()
    def take(self, a, index): return a[index]
    def put(self, a, index, value): a[index] = value
    def update(self, name, a, index, value): a[index] = IN_PLACE[name](a[index], value)
    def op(self, name, a, b): return OPERATORS[name](a, b)
    def compare(self, name, a, b): return OPERATORS[name](a, b)
    def reduce(self, name, a, axis, keep):
        if axis is None and keep: raise NotImplementedError
        return getattr(torch, {"min": "amin", "max": "amax"}.get(name, name))(a, *([] if axis is None else [axis, keep]))
    def reshape(self, a, shape): return a.reshape(shape)
    def transpose(self, a, axes): return a.permute(axes)
    def broadcast(self, a, shape): return a.expand(shape)
    def copy(self, a, order): return a.clone()
    def cast(self, a, type): return a.to(TYPES[type], copy=True)
