"""The extension for notebooks: `%load_ext bench_tool` adds the magic `%bench` and the name `session`.

IPython is not imported: it hands over its shell, which runs cells and shows what they display.
"""
from __future__ import annotations

import os
import re
from collections import deque
from pathlib import Path
from typing import Any, Optional, Sequence

from . import language, whole
from .bench import Session
from .drawing import LOADS
from .hints import Hints
from .session import BenchError, Reply, find_program
from .terminal import Window, printable

SECONDS = 2.0  # for a hint
ROWS, COLUMNS = 40, 120  # of a printed array
SHOWS = re.compile(r"\s*(print|info|format|shares)\b")
SAVES = re.compile(r'\s*save\s.*"([\w.-]+)"')
CHANGES = re.compile("ok (?!save)")
TAKE = "--take"


class Notebook:
    """The magic `%bench`, and its session."""

    def __init__(self, shell: Any):
        self.shell, self.session = shell, Session()
        self.hints = Hints(self.session, SECONDS, find_program)
        self.offered: list[str] = []  # the lines that `%bench --take` runs

    def close(self) -> None:
        self.hints.close()
        self.session.close()

    def bench(self, line: str, cell: Optional[str] = None) -> None:
        """Runs lines of bench, and shows replies, hints, who sees a write, and a picture of the last line that changed or showed memory.

        %%bench           runs the lines of the cell; where other lines are offered for one, it ends and puts them into the next cell
        %%bench --take    runs the lines of the cell, and for a line of NumPy those that are offered for it
        %bench --take     runs the lines that were offered last, and those that came after them
        %bench LINE       runs one line
        %bench x y        copies the NumPy arrays x and y of the notebook into the session, which has them under these names

        In Python, `session["x"]` is a copy of an array of the session as a NumPy array, `session["x"] = array` puts one in, and
        `session.draw()` is the last picture. `load` and `save` use the notebook's folder."""
        words, takes = line.split(), line.strip() == TAKE
        try:
            if cell is not None and words and not takes:
                print(f"%%bench takes {TAKE} or nothing, and its lines below")
            elif cell is not None:
                self.run(cell.splitlines(), takes)
            elif words and all(map(self.is_array, words)):
                self.put(words)
            else:
                self.run(self.offered if takes else [line], takes)
        except (BenchError, ImportError, OSError, TypeError, ValueError) as fault:
            print(f"    {printable(str(fault), 500)}")

    def is_array(self, word: str) -> bool:
        """Whether a word is a name of the notebook that can be one of the session."""
        return word.isidentifier() and word in self.shell.user_ns and word not in {*language.verbs(False), *language.verbs(True)}

    def put(self, names: Sequence[str]) -> None:
        for name in names:
            self.session.put(name, self.shell.user_ns[name])
            info = self.session.info(name)
            print(f"{name} {info.type} {info.shape}: a copy of the notebook's array")

    def run(self, lines: Sequence[str], takes: bool) -> None:
        """Runs lines, up to one for which others are offered; with `takes` these are run instead."""
        pending, taken, self.offered = deque(lines), 0, list[str]()
        changed, asked = False, ""
        while pending and not self.offered:
            line = self.command(pending.popleft())
            is_taken, taken = bool(taken), max(0, taken - 1)
            print(f"bench> {line}\n" * is_taken, end="")
            reply = self.answer(line, takes)
            self.note([why for why in [self.hints.one_item(line)] if why and reply.accepted and not is_taken])
            changed = changed or bool(CHANGES.match(reply.text))
            asked = line if reply.accepted and SHOWS.match(line) else asked
            if not reply.accepted and takes:
                pending.extendleft(reversed(self.hints.offered))
                taken += len(self.hints.offered)
            elif not reply.accepted and self.hints.offered:
                self.offered = [*self.hints.offered, *pending]
        if self.offered:
            self.offer(bool(pending))
        if changed or asked:
            self.show("" if changed else asked)

    def offer(self, is_more: bool) -> None:
        """Puts the offered lines into the next cell, with those that come after them."""
        what = "it" if len(self.offered) == 1 else "them"
        print(f"    (the next cell has {what}{', and the rest of this one' * is_more}; %bench {TAKE} runs the same)")
        self.shell.set_next_input("\n".join(["%%bench", *self.offered]))

    def command(self, line: str) -> str:
        """A line as it is sent: a name alone is printed."""
        bare = line.strip()
        return f"print {bare}" if bare.isidentifier() and bare in self.session else line

    def answer(self, line: str, takes: bool) -> Reply:
        """Sends a line, and prints the reply with its hints. If the lines that are offered are taken, they say enough."""
        word, _, rest = line.strip().partition(" ")
        if word == "help":
            print(language.help_text(rest.strip(), COLUMNS))
            return Reply(True, "", "", "")
        self.fetch(line)
        window = Window(ROWS, COLUMNS)
        reply = self.session.send(line, window.take)
        if reply.accepted:
            self.accepted(line, reply, window)
            return reply
        notes = self.hints.meant(line, reply)
        if takes and self.hints.offered:
            notes = [text for text in notes if not text.startswith("write: ")]
        else:
            print(f"{reply.text}: {printable(line.strip(), 200)}")
        self.note(notes)
        return reply

    def accepted(self, line: str, reply: Reply, window: Window) -> None:
        """Prints a reply, who sees what the line wrote, and where the rest is of what was cut."""
        print("".join(f"{text}\n" for text in window.lines()), end="")
        seen = self.hints.seen(line) if reply.text not in ("ok set 0", "ok upd 0") else ""
        self.note([seen] * bool(seen) + [f'cut: session["{name}"] has all items' for name in line.split()[-1:] if window.is_cut])
        self.store(line, reply)

    def note(self, texts: Sequence[str]) -> None:
        print("".join(f"    {text}\n" for text in texts), end="")

    def fetch(self, line: str) -> None:
        """Gives the session the file that a line loads, as it is in the notebook's folder."""
        if (found := LOADS.search(line)) and os.path.isfile(found[1]):
            self.session.files[found[1]] = Path(found[1]).read_bytes()

    def store(self, line: str, reply: Reply) -> None:
        """Writes the file that a line saved into the notebook's folder."""
        if reply.text.startswith("ok save") and (found := SAVES.match(line)):
            with whole.replaced(found[1]) as file:
                file.write(self.session.files[found[1]])

    def show(self, line: str) -> None:
        """Shows the picture of a line, or of the last change, in a notebook. A terminal has none."""
        if not hasattr(self.shell, "kernel"):
            return
        drawing = self.session.draw(line)
        data = {"text/plain": repr(drawing), "text/html": drawing._repr_html_(), "image/svg+xml": drawing._repr_svg_()}
        self.shell.display_pub.publish({kind: text for kind, text in data.items() if text})


setattr(Notebook.bench, "_ipython_magic_no_var_expand", True)  # types such as T{i:x:} stay as they are
LOADED: list[Notebook] = []


def unload(_: Any) -> None:
    """Ends the session of the extension."""
    while LOADED:
        LOADED.pop().close()


def load(shell: Any) -> None:
    """Starts a session, and gives the notebook its magic and its name."""
    unload(shell)
    LOADED.append(made := Notebook(shell))
    shell.register_magic_function(made.bench, "line_cell", "bench")
    name = "session" if isinstance(shell.user_ns.get("session", made.session), Session) else "bench_session"
    shell.push({name: made.session})
    if name != "session":
        print(f"`session` is another value of this notebook: the session is `{name}`")
