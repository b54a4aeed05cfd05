"""What the tests share: where the program and the companion are, how much is tried, and what the machine has of what a test wants.

A test holds on any machine: whatever its user has set, whoever that is, however busy it is. So settings that change a reply are taken out
of the environment here, time is measured as the processor's, and waiting ends only where nothing will come."""
from __future__ import annotations

import contextlib
import functools
import io
import os
import resource
import shutil
import subprocess
import tempfile
import unittest
from pathlib import Path
from typing import Any, Iterable, Iterator, TypeVar
from unittest import mock

from bench_tool.main import main

from . import TOP

T = TypeVar("T")
COMPANION = TOP / "companion"
TOOL = COMPANION / "bench-tool"
PLACES = (TOP / "crates/bench_main/out/bench_main", TOP / f"dist/bench-{os.uname().machine}-linux")
PROGRAM = os.environ.get("BENCH") or str(next((path for path in PLACES if os.access(path, os.X_OK)), "none"))
needs_program = unittest.skipUnless(os.access(PROGRAM, os.X_OK), "no program: none is built or in dist/, and BENCH names none")
needs_compiler = unittest.skipUnless(shutil.which("cc"), "no C compiler is installed")
PATIENT = 600  # seconds, after which nothing will come
SETTINGS = ("BASH_ENV", "BENCH_HISTORY", "CDPATH", "COLUMNS", "ENV", "GLIBC_TUNABLES", "LINES", "MAKEFLAGS", "MAKELEVEL", "MFLAGS",
            "NO_COLOR", "POSIXLY_CORRECT", "PYTHONIOENCODING", "PYTHONUTF8", "PYTHONWARNINGS")

for setting in SETTINGS:
    os.environ.pop(setting, None)
os.environ["BENCH_HINT_SECONDS"] = "30"  # for hints on a loaded machine
os.umask(0o022)


def share(few: T, all_: T) -> T:
    """How many are tried: few, and all with BENCH_TESTS=all."""
    return all_ if os.environ.get("BENCH_TESTS") == "all" else few


def environment(**more: str) -> dict[str, str]:
    """The environment of a companion that is run, with Python's own buffers."""
    own = {name: text for name, text in os.environ.items() if name != "PYTHONUNBUFFERED"}
    return {**own, "BENCH": PROGRAM, **more}


@contextlib.contextmanager
def inside(folder: str | Path) -> Iterator[None]:
    """Another current folder for a while."""
    before = os.getcwd()
    os.chdir(folder)
    try:
        yield
    finally:
        os.chdir(before)


def tool_here(*words: str | Path, where: str | Path = ".", **more: str) -> tuple[bytes, bytes, int]:
    """What `bench-tool` writes, and its status: in this process, which takes a tenth of the time of a new one. The window is the usual one."""
    out, err = io.BytesIO(), io.BytesIO()
    streams = [io.TextIOWrapper(each, "utf-8", "backslashreplace") for each in (out, err)]
    settings = environment(**{"LINES": "24", "COLUMNS": "80", **more})
    with mock.patch.dict(os.environ, settings, clear=True), inside(where), contextlib.redirect_stdout(streams[0]), contextlib.redirect_stderr(streams[1]):
        status = main(list(map(str, words)))
    return out.getvalue(), err.getvalue(), status


def numpy_or_none() -> Any:
    """NumPy, where it is installed."""
    try:
        import numpy
        return numpy
    except ImportError:
        return None


def works(*words: str | Path, **more: Any) -> bool:
    """Whether a command is there, and ends well."""
    try:
        return subprocess.run(words, stdin=subprocess.DEVNULL, stdout=subprocess.DEVNULL, stderr=subprocess.DEVNULL, **more).returncode == 0
    except (OSError, subprocess.SubprocessError):
        return False


@functools.lru_cache(maxsize=None)
def nobody() -> dict[str, Any]:
    """Words of `subprocess` for a run as another user, where that can be: with root's rights, and a temporary folder for all."""
    words = {"user": 65534, "group": 65534, "extra_groups": []}
    with tempfile.TemporaryDirectory() as folder:
        os.chmod(folder, 0o755)
        return words if os.getuid() == 0 and works("ls", folder, **words) else {}


def processor_seconds() -> float:
    """The processor time of this process, and of those below it that have ended."""
    used = [resource.getrusage(who) for who in (resource.RUSAGE_SELF, resource.RUSAGE_CHILDREN)]
    return sum(each.ru_utime + each.ru_stime for each in used)


def links_to(names: Iterable[str], folder: Path) -> Path:
    """A folder for a PATH of few commands, of those that are here; `python3` is the one that runs this."""
    folder.mkdir()
    for name in names:
        found = os.path.realpath("/proc/self/exe") if name == "python3" else shutil.which(name)
        if found:
            (folder / name).symlink_to(found)
    return folder


class InFolder(unittest.TestCase):
    """Tests with a folder of their own, which goes with them."""

    def setUp(self) -> None:
        folder = tempfile.TemporaryDirectory()
        self.addCleanup(folder.cleanup)
        self.folder = Path(folder.name)
