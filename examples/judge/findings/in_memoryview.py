"""memoryview: slices of slices, and assignments of other lengths. Run it with pypy3, and with python3 for comparison."""
import platform

from finding import finding, report


def put(count, to, of):
    view = memoryview(bytearray(range(count)))
    view[to] = view[of]
    return view.tolist()


def view(count):
    return memoryview(bytearray(range(count)))


EACH, BACK = slice(None), slice(None, None, -1)
finding("m[::2][1:] of 8 bytes", "m = arange |u1 0 8 1; t = m[::2]; x = t[1:]; print x", lambda: view(8)[::2][1:].tolist())
finding("m[::-1][::-1] of 8 bytes", "m = arange |u1 0 8 1; t = m[::-1]; x = t[::-1]; print x", lambda: view(8)[::-1][::-1].tolist())
finding("m[::2] = m[::3] of 9 bytes", "m = arange |u1 0 9 1; set m[::2] = m[::3]", lambda: put(9, slice(None, None, 2), slice(None, None, 3)), "reads outside")
finding("m[::-1] = m[::-3] of 9 bytes", "m = arange |u1 0 9 1; set m[::-1] = m[::-3]", lambda: put(9, BACK, slice(None, None, -3)), "reads outside")
finding("m[::2] = m[4:] of 6 bytes", "m = arange |u1 0 6 1; set m[::2] = m[4:]", lambda: put(6, slice(None, None, 2), slice(4, None)), "reads outside")
finding("m[::-1] = m of 6 bytes", "m = arange |u1 0 6 1; set m[::-1] = m; print m", lambda: put(6, BACK, EACH))
finding("m[1:] = m[:-1] of 6 bytes", "m = arange |u1 0 6 1; set m[1:] = m[:-1]; print m", lambda: put(6, slice(1, None), slice(None, -1)))
report(f"memoryview of {platform.python_implementation()} {getattr(platform, 'python_version')()}")
