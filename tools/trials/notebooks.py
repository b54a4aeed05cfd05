"""A stand-in for IPython's shell: it runs the magics of cells, and keeps what they print, show and put into the next cell."""
from __future__ import annotations

import contextlib
import io
from typing import Any, Callable, Mapping, Optional

import bench_tool


class Notebook:
    """A notebook with the extension in it, without IPython. `next` is the text of the cell that was filled in, `shown` what was displayed:
    pictures, if it draws."""

    def __init__(self, draws: bool = False) -> None:
        if draws:
            self.kernel = True  # as a notebook's shell has one, and a terminal's none
        self.user_ns: dict[str, Any] = {}
        self.shown: list[dict[str, str]] = []
        self.next: Optional[str] = None
        self.display_pub = self
        bench_tool.load_ipython_extension(self)

    def close(self) -> None:
        bench_tool.unload_ipython_extension(self)

    def register_magic_function(self, magic: Callable[..., None], kind: str, name: str) -> None:
        if (kind, name) != ("line_cell", "bench"):
            raise AssertionError((kind, name))
        self._magic = magic

    def push(self, names: Mapping[str, Any]) -> None:
        self.user_ns.update(names)

    def publish(self, data: dict[str, str]) -> None:
        self.shown.append(data)

    def set_next_input(self, text: str) -> None:
        self.next = text

    def session_names(self) -> list[str]:
        """The names of the session."""
        found: list[str] = self.user_ns["session"].names()
        return found

    def cell(self, text: str) -> str:
        """What a cell prints. Its magics are `%%bench`, and `%bench` in a line of its own; all else is Python."""
        said = io.StringIO()
        self.next = None
        with contextlib.redirect_stdout(said):
            if text.startswith("%%bench"):
                first, _, rest = text.partition("\n")
                self._magic(first[len("%%bench"):].strip(), rest)
            else:
                self._python(text)
        return said.getvalue()

    def _python(self, text: str) -> None:
        plain = [f"_magic({line[len('%bench '):]!r})" if line.startswith("%bench ") else line for line in text.split("\n") if not line.startswith("%load_ext")]
        self.user_ns["_magic"] = self._magic
        exec("\n".join(plain), self.user_ns)
