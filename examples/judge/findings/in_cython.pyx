# cython: language_level=3
def taken(long[:] a, Py_ssize_t start, Py_ssize_t stop, Py_ssize_t step):
    cdef long[:] view = a[start:stop:step]
    return view


def taken_from(long[:] a, Py_ssize_t start, Py_ssize_t step):
    cdef long[:] view = a[start::step]
    return view
