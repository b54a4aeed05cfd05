"""Scripts for hostile trials: those of folders, some with lines that are too long, and random ones with every command."""
from __future__ import annotations

import dataclasses
import os
import re
import tempfile
from argparse import Namespace
from pathlib import Path
from random import Random
from typing import Iterable, Iterator, Optional, Sequence, Union

from bench_tool import Session, scripts

from . import TOP
from .timed import unfolded

Named = Union[str, "os.PathLike[str]"]
NAME = re.compile(rb"\s*([A-Za-z_]\w*)\s*=")
LONGEST_LINE = 65536
# A line that takes no memory, and its reply behind that to another line, which is a line or more.
MARK, MARKED = b"\x7f", b"no E02 byte not allowed\n"
SILENCE, REPLY = re.compile(b"()" + MARKED), re.compile(b"(.*\n(?:(?!%b).*\n)*)%b" % (MARKED, MARKED))


@dataclasses.dataclass
class Script:
    """A script: its lines, the files of its folder and its undo depth."""

    name: str
    lines: list[bytes]
    files: dict[str, bytes] = dataclasses.field(default_factory=dict)
    depth: Optional[int] = None

    def asking(self) -> Script:
        """The script followed by `names` and `print` of every name that it binds."""
        bound = dict.fromkeys(found[1] for found in map(NAME.match, self.lines) if found)
        asked = [b"names", *(b"print " + name for name in bound)]
        return dataclasses.replace(self, lines=self.lines + asked)


def is_silent(line: bytes) -> bool:
    """Whether a line is blank or a comment, and so has no reply."""
    bare = line.removesuffix(b"\r")
    inside = bare.strip(b" \t")
    return len(bare) <= LONGEST_LINE and (not inside or inside.startswith(b"#"))


def text_of(lines: Iterable[bytes]) -> bytes:
    return b"".join(line + b"\n" for line in lines)


def lines_of(text: bytes) -> list[bytes]:
    return text.removesuffix(b"\n").split(b"\n")


def entries(text: str) -> list[tuple[str, str]]:
    """Lines behind `> `, with the replies below them."""
    found = re.findall(r"(?m)((?:^> .*\n)+)((?:^(?!> ).+\n?)*)", text)
    return [("\n".join(line[2:] for line in asked.splitlines()), told.rstrip("\n")) for asked, told in found]


def parts(name: str) -> dict[str, str]:
    """The parts of a text file of this folder, by the first words of their heads."""
    texts = re.split("(?m)^== ", unfolded((TOP / "tools/trials" / name).read_text()))[1:]
    return {head.partition(":")[0]: body.rstrip("\n") + "\n" for head, _, body in (text.partition("\n") for text in texts)}


def marked(lines: Iterable[bytes]) -> bytes:
    """The text of lines, each with one behind it that is no command, whose reply tells the others apart."""
    return text_of([text for line in lines for text in (line, MARK)])


def replies_of(out: bytes, lines: Iterable[bytes]) -> Optional[list[bytes]]:
    """The replies to marked lines, one for each, or none where they are not told apart."""
    found: list[bytes] = []
    at = 0
    for line in lines:
        told = (SILENCE if is_silent(line) else REPLY).match(out, at)
        if not told:
            return None
        found.append(told[1])
        at = told.end()
    return found if at == len(out) else None


def scripts_in(folder: Path) -> Iterator[Script]:
    """The scripts of a folder, each with what stands beside it: NAME.dir with files, and NAME.undo with a depth."""
    for path in sorted(folder.glob("*.bench")):
        files, undo = path.with_suffix(".dir"), path.with_suffix(".undo")
        kept = {file.name: file.read_bytes() for file in sorted(files.iterdir())} if files.is_dir() else {}
        yield Script(path.name, lines_of(path.read_bytes()), kept, int(undo.read_text()) if undo.is_file() else None)


def as_bytes(text: str) -> bytes:
    """A text in which `\\xff` stands for a byte."""
    return text.encode().decode("unicode_escape").encode("latin-1")


def own_scripts() -> list[Script]:
    """The scripts of the repository, and those with long lines."""
    long = [Script(name, lines_of(as_bytes(text))) for name, text in parts("long_lines.txt").items()]
    return [*scripts_in(TOP / "examples"), *scripts_in(TOP / "tools/trials/scripts"), *long]


def scripts_of(given: Namespace, count: int) -> list[Script]:
    """The scripts of the repository, and so many random ones."""
    rng = Random(given.seed)
    return own_scripts() + [random_script(given.program, rng, number) for number in range(count)]


def random_script(program: Named, rng: Random, number: int, depths: Sequence[int] = (0, 1, 2, 16, 64)) -> Script:
    """A random script with up to thirty commands, at some depth, as the program takes it."""
    depth = rng.choice(depths)
    with tempfile.TemporaryDirectory() as folder, Session(program, depth, folder) as bench:
        steps = scripts.write(rng, lambda line: bench.send(line).text, "small", rng.randint(8, 30))
    return Script(f"random script {number}", [step.line.encode() for step in steps], {}, depth)
