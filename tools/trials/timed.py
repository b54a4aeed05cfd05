"""Runs of the program whose processor time and memory are taken, with the environment that `./bench` gives it, in a folder of their own;
and the rows that are run, which speed.txt and worst.txt have."""
from __future__ import annotations

import os
import re
import resource
import string
import subprocess
import tempfile
from pathlib import Path
from typing import Mapping, NamedTuple, Optional

TUNABLES = {"hugetlb": 1, "mmap_threshold": 2**29, "trim_threshold": 2**29}
ENVIRONMENT = {"GLIBC_TUNABLES": ":".join(f"glibc.malloc.{name}={value}" for name, value in TUNABLES.items()), **os.environ}
FOLDER = tempfile.TemporaryDirectory()
MOST_SECONDS, MOST_MEMORY = 10, 1.5 * 10**9


class Used(NamedTuple):
    """What a run took: processor seconds, the most bytes of memory, and whether it ended by itself; and its replies, if they are kept."""

    seconds: float
    memory: int
    ended: bool
    replies: list[str]


class Row(NamedTuple):
    """A line, what it is, the lines before it, both for NumPy, and how many bytes it moves for each item, or 0 where none are told."""

    name: str
    moved: float
    setup: str
    line: str
    numpy_setup: str
    numpy: str

    def with_words(self, words: Mapping[str, object]) -> Row:
        """The row with what the words in its lines stand for."""
        return Row(self.name, self.moved, *(string.Template(text).substitute(words) for text in self[2:]))


def unfolded(text: str) -> str:
    """A text with `«text×9»` written nine times, and a line behind `×9 ` nine times, with the number of each in the place of `#`."""
    text = re.sub("«([^«»]*)×([0-9]+)»", lambda found: found[1] * int(found[2]), text)
    return re.sub("(?m)^×([0-9]+) (.*)$", lambda found: "\n".join(found[2].replace("#", f"{k:04}") for k in range(int(found[1]))), text)


def rows(path: Path) -> list[Row]:
    """The rows of a file, whose head says what they are."""
    found = []
    for text in re.split("(?m)^== ", path.read_text())[1:]:
        head, *lines = unfolded(text.rstrip("\n")).split("\n")
        name, _, moved = head.partition(" | ") if re.search(r" \| [\d.]+$", head) else (head, "", "0")
        ours, numpys = zip(*((re.split("(?:^| ):: ", line, maxsplit=1) + [""])[:2] for line in lines))
        setup, numpy_setup = ("\n".join(filter(None, each[:-1])) for each in (ours, numpys))
        found.append(Row(name, float(moved), setup, ours[-1].removeprefix("> "), numpy_setup, numpys[-1]))
    return found


def run(program: Path, text: str, depth: int, limit: Optional[float] = None, is_kept: bool = False) -> Used:
    """A run over a script, which may take so many seconds of processor time."""
    with tempfile.TemporaryFile() as script, tempfile.TemporaryFile() as out:
        script.write(text.encode())
        script.seek(0)
        words, sink = [str(program), "--undo", str(depth)], out.fileno() if is_kept else subprocess.DEVNULL
        process = subprocess.Popen(words, stdin=script, stdout=sink, env=ENVIRONMENT, cwd=FOLDER.name)
        if limit:
            resource.prlimit(process.pid, resource.RLIMIT_CPU, (int(limit), int(limit)))
        _, status, used = os.wait4(process.pid, 0)
        process.returncode = os.waitstatus_to_exitcode(status)
        out.seek(0)
        replies = out.read().decode("latin-1").split("\n")
    return Used(used.ru_utime + used.ru_stime, used.ru_maxrss * 1024, process.returncode >= 0, replies)


def record(leaves: int, letters: str = "b") -> str:
    """The format text of a record with so many leaves, of these letters in turn, in up to 64 fields."""
    inner = "".join(f"{letters[k % len(letters)]}:{chr(97 + k % 26)}{k}:" for k in range(min(leaves, 64)))
    return f"T{{{inner}}}" if leaves <= 64 else "T{" + "".join(f"T{{{inner}}}:r{k}:" for k in range(leaves // 64)) + "}"
