"""Programs that answer questions, as child processes: an adapter in Python, or a command of any language. One that dies or hangs is started
again."""
from __future__ import annotations

import json
import os
import select
import shlex
import signal
import subprocess
import sys
import tempfile
import time
from pathlib import Path
from typing import Any, Iterable, Mapping, NamedTuple, Optional, Sequence, Union

from . import needs
from .judge_adapter import METHODS
from .session import BenchError

PATIENCE = 5.0  # seconds for an answer
MORE = 4  # times as long for a question that was not answered, asked again in a new process
SLOW = "no answer in"
START = 600.0  # seconds for a library to be loaded
MOST_ERROR = 2000
MOST_MEMORY = 12 << 30
MOST_REPLAYED = 64
# Of the C library, where it is: it aborts where a block was written past its end, and fills blocks so that items that were never written show.
CHECKS = [path for path in map(Path, ("/lib/x86_64-linux-gnu/libc_malloc_debug.so.0", "/usr/lib64/libc_malloc_debug.so.0")) if path.is_file()][:1]


class Died(NamedTuple):
    """How a program ended while it had to answer: by a signal, with a status, or because it took too long; and the end of what it said."""

    how: str
    said: str


Answer = Union[Mapping[str, Any], Died]


class Program(NamedTuple):
    """What is judged: its name in the table, and the command that answers questions."""

    name: str
    words: Sequence[str]
    folder: Optional[str] = None


def adapter(path: str) -> Program:
    """An adapter in a Python file."""
    if not Path(path).is_file():
        raise BenchError(f"there is no adapter {path}")
    name = Path(path).stem
    return Program(name.removesuffix("_adapter") or name, [sys.executable, "-m", "bench_tool.judge_adapter", os.path.abspath(path)])


def piped(command: str) -> Program:
    """A command that answers questions."""
    words = shlex.split(command)
    if not words:
        raise BenchError("--pipe needs a command")
    return Program(Path(words[-1] if len(words) > 1 and words[0] == sys.executable else words[0]).stem, words)


def environment(is_checked: bool) -> dict[str, str]:
    """The environment of a program: one thread, the companion to import, and checks of its memory."""
    here = str(Path(__file__).resolve().parents[1])
    paths = os.pathsep.join([here, *filter(None, [os.environ.get("PYTHONPATH")])])
    few = {name: "1" for name in ("OMP_NUM_THREADS", "OPENBLAS_NUM_THREADS", "MKL_NUM_THREADS")}
    checks = {"LD_PRELOAD": str(CHECKS[0]), "MALLOC_CHECK_": "3", "MALLOC_PERTURB_": "165"} if CHECKS and is_checked else {}
    return {**few, **os.environ, "PYTHONPATH": paths, "PYTHONWARNINGS": "ignore", **checks}


def limit(process: int) -> None:
    """Limits the memory of a process, if the system can: a forged shape of many items must not take all of it."""
    try:
        import resource
        resource.prlimit(process, resource.RLIMIT_AS, (MOST_MEMORY, MOST_MEMORY))
    except (AttributeError, ImportError, OSError, ValueError):
        pass


class Worker:
    """A running program. `ask` starts it again if it has ended."""

    def __init__(self, program: Program, is_checked: bool = True):
        self.program, self.is_checked = program, is_checked
        self.starts, self._process = 0, None  # type: int, Optional[subprocess.Popen[bytes]]
        self._error = tempfile.TemporaryFile()
        self._held = b""
        self.has: frozenset[str] = frozenset()
        self.can: tuple[str, ...] = ()
        self.unknown: list[str] = []
        self.most_axes = needs.MOST_AXES
        self.first_start()

    def first_start(self) -> None:
        """Starts the program, without the checks of its memory if it does not start with them."""
        try:
            self.start()
        except BenchError:
            if not (CHECKS and self.is_checked):
                self.close()
                raise
            self.is_checked = False
            self.first_start()

    def start(self) -> None:
        """Starts the program, which says first what it has and can."""
        self.starts += 1
        self._held = b""
        self._error.seek(0)
        self._error.truncate()
        try:
            self._process = subprocess.Popen(self.program.words, stdin=subprocess.PIPE, stdout=subprocess.PIPE, stderr=self._error,
                                             start_new_session=True, env=environment(self.is_checked))
        except OSError as fault:
            raise BenchError(f"{self.program.words[0]} cannot be started: {fault.strerror}") from None
        limit(self._process.pid)
        line = self._line(START)
        if isinstance(line, Died):
            last = line.said.splitlines()[-1:] or [line.how]
            raise BenchError(f"{self.program.name} does not start: {last[0]} ({self.program.words[0]})")
        try:
            told = json.loads(line)
            has, can = told.get("has", sorted(needs.ALL)), told.get("can", METHODS)
            self.has, self.can, self.unknown = frozenset(has), tuple(can), list(told.get("unknown", set(has) - needs.ALL))
            self.most_axes = needs.MOST_AXES if told.get("most_axes") is None else int(told["most_axes"])
        except (AttributeError, TypeError, ValueError):
            raise BenchError(f"{self.program.name}: its first line is not what it has and can: {line[:200]!r}") from None

    def ask(self, question: Mapping[str, Any], patience: float = PATIENCE) -> Answer:
        """The answer to a question."""
        if self._process is None:
            self.start()
        assert self._process is not None and self._process.stdin is not None
        try:
            self._process.stdin.write(json.dumps(question).encode() + b"\n")
            self._process.stdin.flush()
        except BrokenPipeError:
            pass
        line = self._line(patience)
        if isinstance(line, Died):
            return line
        try:
            answer: Mapping[str, Any] = json.loads(line)
        except ValueError:
            self._end()
            return Died("an answer that is not JSON", repr(line[:200]))
        return answer

    def ended(self) -> Optional[Died]:
        """Has the program end by itself. How it died, if it did."""
        assert self._process is not None and self._process.stdin is not None
        self._process.stdin.close()
        try:
            is_well = self._process.wait(PATIENCE) >= 0
        except subprocess.TimeoutExpired:
            is_well = True
        return None if is_well else Died(self._ending(), self._said())

    def close(self) -> None:
        """Ends the program."""
        self._end()
        self._error.close()

    def _line(self, patience: float) -> Union[bytes, Died]:
        """The next line of the program, or how it ended."""
        assert self._process is not None and self._process.stdout is not None
        until, handle = time.monotonic() + patience, self._process.stdout.fileno()
        parts = [self._held]
        while b"\n" not in parts[-1]:
            left = until - time.monotonic()
            if left <= 0 or not select.select([handle], [], [], left)[0]:
                self._end()
                return Died(f"{SLOW} {patience:.0f} s", self._said())
            part = os.read(handle, 1 << 16)
            if not part:
                return Died(self._ending(), self._said())
            parts.append(part)
        line, _, self._held = b"".join(parts).partition(b"\n")
        return line

    def _ending(self) -> str:
        """How the program ended by itself."""
        assert self._process is not None
        try:
            status = self._process.wait(PATIENCE)
        except subprocess.TimeoutExpired:
            status = 0
        self._end()
        if status < 0:
            try:
                return f"{signal.Signals(-status).name} ({signal.strsignal(-status)})"
            except ValueError:
                return f"signal {-status}"
        return f"it ended with status {status}"

    def _said(self) -> str:
        self._error.seek(0)
        return self._error.read()[-MOST_ERROR:].decode("utf-8", "replace").strip()

    def _end(self) -> None:
        process, self._process = self._process, None
        if process is not None:
            try:
                os.killpg(process.pid, signal.SIGKILL)
            except (OSError, AttributeError):
                process.kill()
            for stream in (process.stdin, process.stdout):
                if stream is not None:
                    try:
                        stream.close()
                    except OSError:
                        pass
            process.wait()


def again(program: Program, question: Mapping[str, Any]) -> Answer:
    """The answer of a new process, which has more time: the machine may be busy."""
    worker = Worker(program)
    try:
        return worker.ask(question, MORE * PATIENCE)
    finally:
        worker.close()


def culprit(program: Program, asked: Sequence[Mapping[str, Any]], is_checked: bool = True) -> tuple[int, Died]:
    """Which of some questions, the last of which a program did not survive, is the one to blame: the last from which on a new process dies."""
    tried = asked[-MOST_REPLAYED:]

    def dies(first: int) -> Optional[Died]:
        worker = Worker(program, is_checked)
        try:
            for question in tried[first:]:
                answer = worker.ask(question)
                if isinstance(answer, Died):
                    return answer
            return None
        finally:
            worker.close()

    alone = dies(len(tried) - 1)
    if alone:
        return len(asked) - 1, alone
    low, high, last = 0, len(tried) - 1, dies(0)
    if last is None:
        return len(asked) - 1, Died("it ended, but not when asked again", "")
    while high - low > 1:
        middle = (low + high) // 2
        found = dies(middle)
        low, high, last = (middle, high, found) if found else (low, middle, last)
    return len(asked) - len(tried) + low, last


def each(programs: Iterable[Program]) -> list[Program]:
    """The programs, with different names."""
    made: list[Program] = []
    for program in programs:
        same = sum(other.name.split("#")[0] == program.name for other in made)
        made.append(program._replace(name=f"{program.name}#{same + 1}") if same else program)
    return made
