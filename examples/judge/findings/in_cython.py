"""Cython: slices of typed memoryviews that read outside the buffer, with bounds checks on. Compiles in_cython.pyx in a temporary folder."""
import pathlib
import shutil
import subprocess
import sys
import tempfile

import numpy as np
from finding import finding, report, version

SETUP = "from setuptools import setup\nfrom Cython.Build import cythonize\nsetup(ext_modules=cythonize('in_cython.pyx', quiet=True))\n"
with tempfile.TemporaryDirectory() as folder:
    shutil.copy(pathlib.Path(__file__).with_suffix(".pyx"), folder)
    (pathlib.Path(folder) / "setup.py").write_text(SETUP)
    subprocess.run([sys.executable, "setup.py", "-q", "build_ext", "--inplace"], cwd=folder, check=True, capture_output=True)
    sys.path.insert(0, folder)
    import in_cython as compiled


def taken(count, start, stop, step):
    return np.asarray(compiled.taken(np.arange(count), start, stop, step)).tolist()


finding("a[3:2:7] of 4 items", "a = arange <i8 0 4 1; x = a[3:2:7]; print x", lambda: taken(4, 3, 2, 7), "one item")
finding("a[6:2:7] of 4 items", "a = arange <i8 0 4 1; x = a[6:2:7]; print x", lambda: len(taken(4, 6, 2, 7)) and "one item, from outside the buffer")
finding("a[-6::-2] of 4 items", "a = arange <i8 0 4 1; x = a[-6::-2]; print x", lambda: np.asarray(compiled.taken_from(np.arange(4), -6, -2)).tolist())
finding("a[3:-9:-1] of 4 items", "a = arange <i8 0 4 1; x = a[3:-9:-1]; print x", lambda: taken(4, 3, -9, -1))
report(version("Cython"))
