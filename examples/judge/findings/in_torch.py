"""torch: overlapping assignments, masks of two axes, comparisons with large numbers, and INT_MIN % -1."""
import torch
from finding import finding, report, version

torch.set_num_threads(1)
LEAST = torch.iinfo(torch.int32).min


def put(a, to, of):
    a[to] = a[of]
    return a.tolist()


def square():
    return torch.arange(12).reshape(3, 4)


def stepped():
    return torch.arange(12)[::2]


finding("e[:, 1:] = e[:, :-1]", "a = arange <i8 0 12 1; e = reshape a (3,4); set e[:,1:] = e[:,:-1]; print e",
        lambda: put(square(), (slice(None), slice(1, None)), (slice(None), slice(None, -1))))
finding("a[1:] = a[:-1] of a = b[::2]", "b = arange <i8 0 12 1; a = b[::2]; set a[1:] = a[:-1]; print a",
        lambda: put(stepped(), slice(1, None), slice(None, -1)))
finding("a[i] = a[:5] of a = b[::2]", "b = arange <i8 0 12 1; a = b[::2]; i = arange <i8 1 6 1; set a[i] = a[:5]; print a",
        lambda: put(stepped(), torch.arange(1, 6), slice(5)))
finding("a[k] = a[:5] of a = b[::2]", "b = arange <i8 0 12 1; a = b[::2]; k = array ? (6) False True True True True True; set a[k] = a[:5]; print a",
        lambda: put(stepped(), torch.arange(6) > 0, slice(5)))
finding("x[k, :2], k of two axes", "a = arange <i8 0 12 1; x = reshape a (2,2,3); k = array ? (2,2) True False False True; y = x[k,:2]; print y",
        lambda: torch.arange(12).reshape(2, 2, 3)[torch.eye(2, dtype=torch.bool), :2].tolist(), "the slice falls on axis 1, not 2")
finding("x[k, 0], k of two axes", "a = arange <i8 0 12 1; x = reshape a (2,2,3); k = array ? (2,2) True False False True; y = x[k,0]; print y",
        lambda: torch.arange(12).reshape(2, 2, 3)[torch.eye(2, dtype=torch.bool), 0].tolist())
finding("int32 0 > -2**63", "a = zeros <i4 (1); x = gt a -9223372036854775808; print x", lambda: (torch.zeros(1, dtype=torch.int32) > -2**63).tolist())
finding("int32 0 < 2**32", "a = zeros <i4 (1); x = lt a 4294967296; print x", lambda: (torch.zeros(1, dtype=torch.int32) < 2**32).tolist())
finding("uint8 0 == 256", "a = zeros |u1 (1); x = eq a 256; print x", lambda: (torch.zeros(1, dtype=torch.uint8) == 256).tolist())
finding("remainder(INT_MIN, -1) of int32", "a = full <i4 (1) -2147483648; x = mod a -1; print x",
        lambda: torch.remainder(torch.tensor([LEAST], dtype=torch.int32), torch.tensor([-1], dtype=torch.int32)).tolist())
finding("INT_MIN // -1 of int32", "a = full <i4 (1) -2147483648; x = fdiv a -1; print x",
        lambda: torch.div(torch.tensor([LEAST], dtype=torch.int32), torch.tensor([-1], dtype=torch.int32), rounding_mode="floor").tolist())
finding("d[1:1, i] = 8, i = [7]", "d = zeros <i8 (2,2); i = array <i8 (1) 7; set d[1:1,i] = 8",
        lambda: torch.zeros(2, 2).index_put_((torch.arange(0).reshape(0, 1), torch.tensor([7])), torch.tensor(8.)).tolist(), "open: NumPy 1.24 only warns")
report(version("torch"))
