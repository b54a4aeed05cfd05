"""Pictures of a session: the lines that changed something are kept, and the modules of the page run them again and draw the last one."""
from __future__ import annotations

import re
from base64 import b64encode
from functools import cached_property
from typing import Any, Optional, Protocol

from . import page
from .session import BenchError

LOADS = re.compile(r'=\s*load\s*"([\w.-]+)"')
MOST_LINES = 4_000
FRAME = '<iframe srcdoc="{}" title="{}" style="width:100%;height:24em;border:0"></iframe>'
IMAGE = '<img src="data:image/svg+xml;base64,{}" alt="{}" style="max-width:100%">'


class Stored(Protocol):
    """The files of a session, by name."""

    def __getitem__(self, name: str) -> bytes: ...

    def size(self, name: str) -> int: ...


class Log:
    """The lines that changed something, and what the files had that they loaded. `lacking` says why it was given up."""

    def __init__(self) -> None:
        self.lines: list[str] = []
        self.puts: dict[int, dict[str, bytes]] = {}
        self.lacking, self._room = "", page.MOST_FILES

    def note(self, line: str, files: Stored, exchange: str) -> None:
        """Keeps an accepted line. An array that came in through the file `exchange` has a file of its own name."""
        if self.lacking:
            return
        self.lines.append(line)
        if found := LOADS.search(line):
            self._load(found[1], files, f"{line.split('=')[0].strip()}.npy" if found[1] == exchange else found[1])
        if len(self.lines) > MOST_LINES:
            self.drop(f"more than {MOST_LINES:,} lines have changed something")

    def _load(self, name: str, files: Stored, shown: str) -> None:
        """Keeps a file that the last line has loaded, under the name that is shown."""
        self._room -= files.size(name)
        if self._room < 0:
            self.drop(f"the files of the session have more than {page.MOST_FILES} bytes")
            return
        try:
            self.puts[len(self.lines)] = {shown: files[name]}
        except (KeyError, OSError):
            self.drop(f"{name} has gone")
            return
        self.lines[-1] = self.lines[-1].replace(f'"{name}"', f'"{shown}"')

    def drop(self, why: str) -> None:
        self.lines, self.puts, self.lacking = [], {}, why


class Drawing:
    """The picture of a line, as notebooks show it: an image if Node is installed, and otherwise drawn by the browser."""

    def __init__(self, log: Log, line: str, undo: int):
        lines = [*log.lines, *filter(None, [line])]
        if log.lacking:
            raise BenchError(f"there is no picture: {log.lacking}")
        if not lines:
            raise BenchError("there is no picture: no line has changed anything")
        if undo > page.MOST_UNDO:
            raise BenchError(f"a session that is drawn may go back {page.MOST_UNDO} changes, not {undo}")
        puts = {number: {name: b64encode(data).decode() for name, data in files.items()} for number, files in log.puts.items()}
        self.line = lines[-1]
        self._told: dict[str, Any] = {"script": "\n".join(lines), "files": {}, "puts": puts, "undo": undo}

    @cached_property
    def svg(self) -> str:
        """The picture as SVG. `BenchError` is raised if there is no Node."""
        return page.in_node(page.PICTURE + page.WRITTEN, self._told)

    def _repr_svg_(self) -> Optional[str]:
        try:
            return self.svg
        except BenchError:
            return None

    def _repr_html_(self) -> str:
        from html import escape, unescape
        svg = self._repr_svg_()
        if svg is None:
            return FRAME.format(escape(page.in_browser(self._told)), escape(self.line))
        said = re.search('<desc id="words">(.*?)</desc>', svg, re.S)
        return IMAGE.format(b64encode(svg.encode()).decode(), escape(unescape(said[1] if said else self.line)))

    def __repr__(self) -> str:
        return f"<picture of `{self.line}`>"
