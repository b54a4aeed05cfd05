"""Runs of the program under trial, the memory they take, and what a part of the trial counts."""
from __future__ import annotations

import collections
import contextlib
import multiprocessing
import os
import re
import resource
import shutil
import subprocess
import tempfile
import time
from argparse import Namespace
from pathlib import Path
from typing import Any, Callable, Iterable, Iterator, Mapping, NamedTuple, Optional, Sequence, TypeVar, Union

from . import TOP

T = TypeVar("T")
U = TypeVar("U")
Word = Union[str, bytes, Path]
Files = dict[str, Union[bytes, int]]

IN_MEMORY = "/dev/shm" if os.access("/dev/shm", os.W_OK) else None
MOST_SECONDS = 60  # of processor time for a run
MOST_WAIT = 300


class Ran(NamedTuple):
    """The status of a run, its output and what it said on standard error."""

    status: int
    out: bytes
    err: bytes


class Part:
    """The counts of a part, what was found where no rule tells it, and what was wrong: where, what happened, what should have."""

    def __init__(self) -> None:
        self.counts: collections.Counter[str] = collections.Counter()
        self.notes: list[str] = []
        self.faults: list[tuple[str, object, object]] = []
        self.figures: list[dict[str, object]] = []
        self.first = 0  # how many were tried before the first that was wrong

    def tried(self) -> int:
        return sum(self.counts[what] for what in ("trials", "scripts", "kills"))

    def summary(self) -> dict[str, object]:
        """All of it, as JSON has it."""
        faults = [{"where": where, "happened": shown(happened), "should": shown(should)} for where, happened, should in self.faults]
        return {"counts": dict(self.counts), "notes": self.notes, "wrong": len(self.faults), "faults": faults, "figures": self.figures}

    def count(self, what: str, number: int = 1) -> None:
        self.counts[what] += number

    def note(self, what: str, found: object) -> None:
        self.notes.append(f"{what}: {shown(found)}")

    def fault(self, where: str, happened: object, should: object) -> None:
        self.first = self.first if self.faults else self.tried()
        self.faults.append((where, happened, should))

    def expect(self, where: str, happened: object, should: object) -> None:
        """Counts a trial, and a fault where something else happened than should have."""
        if happened != should:
            self.fault(where, happened, should)
        self.count("trials")

    def add(self, other: Part) -> None:
        if other.faults and not self.faults:
            self.first = self.tried() + other.first
        self.counts.update(other.counts)
        self.notes += other.notes
        self.faults += other.faults
        self.figures += other.figures


def shown(value: object, length: int = 400) -> str:
    """A text for a report, cut where it is long."""
    text = value if isinstance(value, str) else repr(value)
    return text if len(text) <= length else f"{text[:length]}.. ({len(text)} characters)"


def temporary_folder() -> tempfile.TemporaryDirectory[str]:
    """A folder for files that are soon gone, in memory where that can be had."""
    return tempfile.TemporaryDirectory(prefix="hostile", dir=IN_MEMORY)


def compiled(source: str, made: Path, *words: str) -> Path:
    """What C code of this folder gives: a library to stand before the C library in a run, by `LD_PRELOAD`, if no words ask for more."""
    kind = words or ("-shared", "-fPIC")
    subprocess.run(["cc", "-O2", *kind, "-o", made, TOP / "tools/trials" / source], check=True)
    return made


def fill(folder: Path, files: Mapping[str, Union[bytes, int]]) -> None:
    """Empties a folder and puts files there: their bytes, or a number for as many zeros without blocks on the disk."""
    shutil.rmtree(folder, ignore_errors=True)
    folder.mkdir()
    for name, content in files.items():
        if isinstance(content, bytes):
            (folder / name).write_bytes(content)
        else:
            with open(folder / name, "wb") as file:
                file.truncate(content)


def contents(folder: Path) -> Files:
    """The files of a folder; of one that is long only its length."""
    sizes = {path: path.stat().st_size for path in folder.iterdir()}
    return {path.name: path.read_bytes() if size < 2**24 else size for path, size in sizes.items()}


def limited(limits: Sequence[tuple[str, int]]) -> list[str]:
    """The words before a program that set limits, as ("as", bytes), which hold from its first moment on."""
    return ["prlimit", *(f"--{kind}={most}" for kind, most in limits)] if limits else []


def with_launcher(program: Path, folder: Path) -> Path:
    """The launcher of a tree with this program and nothing else."""
    tree = folder / "tree"
    placed = tree / "crates" / "bench_main" / "out" / "bench_main"
    placed.parent.mkdir(parents=True)
    shutil.copy(program, placed)
    return Path(shutil.copy(TOP / "bench", tree / "bench"))


def in_processes(given: Namespace, trial: Callable[[T], U], tasks: Iterable[T]) -> Iterator[U]:
    """What a trial comes to on each task, some at a time."""
    with multiprocessing.Pool(given.processes) as pool:
        yield from pool.imap_unordered(trial, tasks)


class Runner(contextlib.ExitStack):
    """Runs a program over scripts, with a folder of its own for its streams and for the files of `--dir`."""

    def __init__(self, program: Word) -> None:
        super().__init__()
        self.program, self.folder = str(program), Path(self.enter_context(temporary_folder()))
        self.dir = self.folder / "dir"
        self.dir.mkdir()

    def run(self, text: bytes, words: Sequence[Word] = (), env: Optional[Mapping[str, str]] = None,
            limits: Sequence[tuple[str, int]] = ()) -> Ran:
        """What a run over a script comes to, which keeps within limits from its start."""
        into, out, err = (self.folder / name for name in ("in", "out", "err"))
        into.write_bytes(text)
        called: list[Word] = [*limited(limits), self.program, *words]
        with open(into, "rb") as stdin, open(out, "wb") as stdout, open(err, "wb") as stderr:
            started = subprocess.Popen(called, stdin=stdin, stdout=stdout, stderr=stderr, env=env, close_fds=False)
            resource.prlimit(started.pid, resource.RLIMIT_CPU, (MOST_SECONDS, MOST_SECONDS))
            status = started.wait()
        return Ran(status, out.read_bytes(), err.read_bytes())

    def over(self, files: Mapping[str, Union[bytes, int]], text: bytes, words: Sequence[Word] = (), **bounds: Any) -> tuple[Ran, Files]:
        """What a run over a script comes to in a folder with these files alone, and the files that it leaves."""
        fill(self.dir, files)
        return self.run(text, ["--dir", self.dir, *words], **bounds), contents(self.dir)


class Talk:
    """A run that is spoken to through a pipe, so that its memory can be looked at before it ends; a file takes its replies."""

    def __init__(self, program: Word, words: Sequence[Word] = ()) -> None:
        self.replies = tempfile.TemporaryFile(dir=IN_MEMORY)
        called: list[Word] = [str(program), *words]
        self.process = subprocess.Popen(called, stdin=subprocess.PIPE, stdout=self.replies, stderr=subprocess.DEVNULL)
        assert self.process.stdin
        self.into = self.process.stdin

    def say(self, text: bytes) -> None:
        self.into.write(text)

    def length(self) -> int:
        """The bytes of the replies so far."""
        return os.fstat(self.replies.fileno()).st_size

    def answered(self, line: bytes, reply: bytes) -> bytes:
        """Says a line and waits for the reply to it, which answers all lines before: what was said since, up to that."""
        begin, end = self.length(), time.monotonic() + MOST_WAIT
        self.say(line + b"\n")
        self.into.flush()
        while time.monotonic() < end and self.process.poll() is None:
            said = os.pread(self.replies.fileno(), self.length() - begin, begin)
            if said.endswith(reply + b"\n"):
                return said
            time.sleep(0.002)
        raise TimeoutError(f"no reply {reply!r} in time")

    def memory(self, what: str = "VmHWM") -> int:
        """The bytes of memory: `VmHWM` is the most that was in use, `VmPeak` the most that was reserved."""
        text = Path(f"/proc/{self.process.pid}/status").read_text()
        return int(re.findall(rf"{what}:\s+(\d+) kB", text)[0]) * 1024

    def end(self) -> int:
        """Ends the script, and answers the status."""
        self.into.close()
        self.replies.close()
        return self.process.wait(MOST_WAIT)
