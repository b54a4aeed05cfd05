"""A program in a pseudo-terminal, whose keys a test types and whose screen it reads."""
from __future__ import annotations

import os
import pty
import select
import signal
import threading
import time
from pathlib import Path
from typing import Mapping, Optional, Sequence

from bench_tool.shell import PROMPT

from .companion_trials import PATIENT, environment

UP, TAB, CTRL_C, CTRL_D, ENTER = b"\x1b[A", b"\t", b"\x03", b"\x04", b"\r"
AT_PROMPT = b"\n" + PROMPT.encode()


class Terminal:
    """A program in a terminal of its own."""

    def __init__(self, folder: Path, words: Sequence[str], more: Optional[Mapping[str, str]] = None) -> None:
        self.pid, self.terminal = pty.fork()
        if self.pid == 0:
            os.chdir(folder)
            signal.signal(signal.SIGINT, signal.SIG_DFL)  # a gate that runs behind a shell's & has it ignored
            settings = environment(**{"TERM": "xterm", "INPUTRC": "/dev/null", "NO_COLOR": "1", "BENCH_HISTORY": str(folder / "history"), **(more or {})})
            os.execvpe(words[0], list(words), settings)
        self.status: Optional[int] = None

    def type(self, keys: bytes) -> None:
        """Types keys as fast as they are taken, while what is shown is read elsewhere."""
        def typing() -> None:
            for at in range(0, len(keys), 512):
                os.write(self.terminal, keys[at:at + 512])
        threading.Thread(target=typing, daemon=True).start()

    def until(self, end: bytes, seconds: float = PATIENT, is_last: bool = True) -> str:
        """What is shown until an end, or until it has been shown; without carriage returns and bells."""
        shown, last = b"", time.monotonic() + seconds
        while not shown.replace(b"\r", b"").endswith(end) and (is_last or end not in shown.replace(b"\r", b"")):
            ready, _, _ = select.select([self.terminal], [], [], max(0, last - time.monotonic()))
            if not ready:
                raise AssertionError(f"{end!r} is not shown, but {shown[-300:]!r}")
            try:
                shown += os.read(self.terminal, 65536)
            except OSError:
                break
        return shown.replace(b"\r", b"").replace(b"\x07", b"").replace(b"\x1b[?2004h", b"").replace(b"\x1b[?2004l", b"").decode()

    def line(self, text: bytes) -> str:
        """What is shown for a line up to the next prompt, without the line itself."""
        self.type(text + ENTER)
        return self.until(AT_PROMPT).split("\n", 1)[1].removesuffix(PROMPT)

    def end(self, keys: bytes = CTRL_D) -> str:
        self.type(keys)
        shown = self.until(b"nothing that is shown")
        self.status = os.waitstatus_to_exitcode(os.waitpid(self.pid, 0)[1])
        return shown

    def close(self) -> None:
        if self.status is None:
            os.kill(self.pid, signal.SIGKILL)
            os.waitpid(self.pid, 0)
        os.close(self.terminal)
