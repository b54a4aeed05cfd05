"""dask: slices that start before the first item, empty reductions, and index arrays of two axes."""
import warnings

import dask.array as da
import numpy as np
from finding import finding, report, version

warnings.simplefilter("ignore")


def taken(array, *index):
    return da.from_array(array)[index].compute().tolist()


def filled(array, index, number):
    x = da.from_array(array)
    x[index] = number
    return x.compute().tolist()


def zeros(*shape):
    return da.from_array(np.zeros(shape, "i4"))


finding("x[-4::-1] of 3 items", "a = arange <i8 0 3 1; x = a[-4::-1]; print x", lambda: taken(np.arange(3), slice(-4, None, -1)))
finding("x[-4::-1] = 9 of 3 items", "a = arange <i8 0 3 1; set a[-4::-1] = 9; print a", lambda: filled(np.arange(3), slice(-4, None, -1), 9))
finding("the shape of min(axis=1) of (2, 3, 0, 4)", "a = zeros <i4 (2,3,0,4); x = min a 1", lambda: zeros(2, 3, 0, 4).min(axis=1).compute().shape)
finding("the shape of max(axis=0, keepdims=True) of (2, 0, 3)", "a = zeros <i4 (2,0,3); x = max a 0 keep",
        lambda: zeros(2, 0, 3).max(axis=0, keepdims=True).compute().shape)
finding("x[k] of (1, 3, 4), k a mask of (1, 3)", "a = arange <i8 0 12 1; x = reshape a (1,3,4); k = array ? (1,3) True False True; y = x[k]; print y",
        lambda: taken(np.arange(12).reshape(1, 3, 4), np.array([[True, False, True]])))
finding("the shape of x[i], i of (0, 3)", "x = arange <i8 0 3 1; i = zeros <i8 (0,3); y = x[i]",
        lambda: da.from_array(np.arange(3))[np.zeros((0, 3), int)].compute().shape)
finding("x[i], i of (2, 2)", "x = arange <i8 0 3 1; i = array <i8 (2,2) 0 1 2 0; y = x[i]; print y",
        lambda: taken(np.arange(3), np.array([[0, 1], [2, 0]])))
finding("x[0, :, i] of (2, 3, 4), i = [1, 2]", "a = arange <i8 0 24 1; x = reshape a (2,3,4); i = array <i8 (2) 1 2; y = x[0,:,i]; print y",
        lambda: taken(np.arange(24).reshape(2, 3, 4), 0, slice(None), np.array([1, 2])), "by design, and undocumented: an integer is no index array")
report(version("dask"))
