"""`shell`: a prompt over a session, with history, Tab, help, and hints for refused lines."""
import argparse
import os
import re
import signal
import stat
import sys
import tempfile
import threading
import time
from collections import deque
from contextlib import ExitStack, contextmanager, suppress
from itertools import combinations
from pathlib import Path
from typing import Callable, Iterator, Optional

from . import __version__, language, page, whole
from .grammar import ARGUMENT, ARRAY, COMMAND, ENTRY, FIELD, FILE, OPERATION, ORDER, TYPE, VERB, Reading
from .hints import Hints
from .session import BenchError, ProgramEnded, Reply, Session
from .terminal import BLUE, RED, Window, defect, lines_of, painted, printable, room, say

try:
    import readline
    import termios
except ImportError:  # a Python without them has a prompt without editing
    readline = None  # type: ignore[assignment]

PROMPT = "bench> "
PATIENCE = 0.5  # seconds that a line has to end of itself after Ctrl-C
DROPPED = "# dropped"  # what Ctrl-C makes of a line: a comment
ENDS = ("exit", "quit", "exit()", "quit()", ".exit", ".quit")
TYPES = ["|b1", "|i1", "<i2", "<i4", "<i8", "|u1", "<u2", "<u4", "<u8", "|S8", "T{<i:x:<h:y:}"]
CHANGES_NO_NAME = re.compile(r"\s*(save|print|info|format|names|shares)\b")
DOTS = """  .read FILE    runs the lines of a script
  .save FILE    writes the accepted lines of the session as a script
  .names        lists the names with types and shapes, and which of them share items
  .draw [PAGE]  writes a page of pictures of the session, and opens it if there is a browser
  .all NAME     prints an array without cutting it; `print NAME` cuts it to the window
  .time         starts or stops showing how long each line takes
  exit, quit    end the shell, as Ctrl-D does"""


class Interrupts:
    """Ctrl-C while a line runs. A separate thread waits for the signal, so it never interrupts other code: the thread notes the
    signal, which drops the rest of a reply, and stops whatever is still running a little later."""

    def __init__(self) -> None:
        self.is_noted = self.is_stopped = False
        self._stop: Optional[Callable[[], None]] = None
        self._ended, self._lock = threading.Event(), threading.Lock()

    def listen(self) -> None:
        signal.pthread_sigmask(signal.SIG_BLOCK, {signal.SIGINT})
        threading.Thread(target=self._listen, daemon=True).start()

    def _listen(self) -> None:
        signal.pthread_sigmask(signal.SIG_BLOCK, signal.valid_signals())
        while signal.sigwait({signal.SIGINT}):
            if self._stop is not None and not self.is_stopped:
                self.is_noted = True
                self._ended.wait(PATIENCE)
                with self._lock:
                    if self._stop is not None and self.is_noted:
                        self.is_stopped = True
                        self._stop()

    @contextmanager
    def during(self, stop: Callable[[], None]) -> Iterator[None]:
        """While something runs that `stop` ends."""
        self._ended.clear()
        self.is_noted, self.is_stopped, self._stop = False, False, stop
        try:
            yield
        finally:
            with self._lock:
                self._stop = None
            self._ended.set()


class Keys:
    """Lines typed at a terminal, with editing, Tab and history. Ctrl-C is a key here, not a signal: it ends the line with a mark."""

    def __init__(self, complete: Callable[[str, int], Optional[str]]) -> None:
        self._path = history()
        self._usual, self._without = termios.tcgetattr(0), termios.tcgetattr(0)
        self._key = self._usual[6][termios.VINTR]
        self._without[6][termios.VINTR] = b"\0"
        octal = f"\\{ord(self._key):03o}"
        for setting in ("tab: complete", "set completion-query-items 0", "set page-completions off",
                        f'"{octal}": "\\026{octal}\\015"', f'"\\e{octal}": "{octal}"',
                        "$if mode=vi", "set keymap vi-command", f'"{octal}": "i\\026{octal}\\015"', "set keymap vi-insert", "$endif"):
            readline.parse_and_bind(setting)
        readline.set_completer_delims(" \t=[](),:\"")
        readline.set_completer(complete)
        readline.set_auto_history(False)
        readline.set_history_length(2000)
        self._typed: list[str] = []
        with suppress(OSError):
            os.makedirs(os.path.dirname(self._path), exist_ok=True)
            readline.read_history_file(self._path)

    def read(self, prompt: str) -> str:
        """The next line, or a comment if Ctrl-C ended it."""
        termios.tcsetattr(0, termios.TCSADRAIN, self._without)
        try:
            line = input(prompt)
        finally:
            termios.tcsetattr(0, termios.TCSADRAIN, self._usual)
        if self._key.decode("latin-1") in line:
            return DROPPED
        self.offer([line], True)
        return line

    def offer(self, lines: list[str], is_typed: bool = False) -> None:
        """Puts lines where Up finds them; those that were typed are also kept for the next shell."""
        for line in lines:
            count = readline.get_current_history_length()
            if line and not (count and readline.get_history_item(count) == line):
                readline.add_history(line)
                self._typed += [line] * is_typed

    def close(self) -> None:
        """Appends the lines to the history, to which other shells append too."""
        readline.clear_history()
        for line in self._typed:
            readline.add_history(line)
        with suppress(OSError):
            open(self._path, "a").close()
            readline.append_history_file(len(self._typed), self._path)


def without_waiting(path: str, flags: int) -> int:
    """Opens a file, also a pipe that nobody writes to."""
    return os.open(path, flags | os.O_NONBLOCK | os.O_NOCTTY)


def history() -> str:
    """The history file: BENCH_HISTORY, none if that is empty, and by default one in the user's state directory."""
    if "BENCH_HISTORY" in os.environ:
        return os.environ["BENCH_HISTORY"] or os.devnull
    with suppress(RuntimeError):  # there is no home
        return str(Path(os.environ.get("XDG_STATE_HOME") or Path.home() / ".local/state", "bench/history"))
    return os.devnull


class Shell:
    """The prompt, and the session behind it. `log` has the accepted lines, `changes` those that `undo` would take back."""

    def __init__(self, words: argparse.Namespace, is_terminal: bool):
        self.words, self.is_terminal, self.is_timed = words, is_terminal, False
        self.log: list[str] = []
        self.changes: deque[str] = deque(maxlen=words.undo)
        self.found: list[str] = []
        self.read: Callable[[str], str] = input
        self.offered: list[str] = []  # the lines that Enter on an empty line runs
        self.is_taking = False  # whether they run
        self.offer: Callable[[list[str], bool], None] = lambda *_: None
        self.interrupts = Interrupts()
        if is_terminal:
            self.interrupts.listen()
        self.begin()

    def begin(self, wait: bool = False) -> None:
        """Starts a new program, without names."""
        self.session = Session(undo=self.words.undo, dir=self.words.dir, wait=wait)
        self.hints = Hints(self.session)

    def close(self) -> None:
        self.hints.close()
        self.session.close()

    def loop(self) -> None:
        """Answers lines until one ends the shell, or there are no more."""
        with suppress(EOFError):
            while True:
                for line in self.read(PROMPT if self.is_terminal else "").split("\n"):  # several may be pasted at once
                    if line.strip() in ENDS:
                        return
                    self.take() if self.offered and not line else self.answer(line)
        print(end="\n" if self.is_terminal else "")

    def take(self) -> None:
        """Runs the lines that were offered."""
        lines, self.is_taking = self.offered, True
        self.offer(lines, True)
        for line in lines:
            print(PROMPT + line)
            self.answer(line)
        self.is_taking = False

    def answer(self, line: str) -> None:
        """Carries out a line. If Ctrl-C stopped the program, or it ended, the accepted lines run again in a new one."""
        begun, ended, self.offered = time.perf_counter(), "", []
        try:
            with self.interrupts.during(self.session.kill):
                self.does(line)
        except ProgramEnded as fault:
            ended = printable(str(fault))
        except (BenchError, OSError) as fault:
            print(f"    {printable(str(fault))}")
        except Exception as fault:
            print(f"    {printable(defect(fault), 500)}")
        if ended or self.interrupts.is_stopped:
            self.again("the program was stopped" if self.interrupts.is_stopped else ended)
        if self.is_timed:
            print(f"    {(time.perf_counter() - begun) * 1e3:.3f} ms")
        sys.stdout.flush()

    def does(self, line: str) -> None:
        bare = re.sub(r"^help\s*\(\s*[\"']?(\w*)[\"']?\s*\)$", r"help \1", line.strip())
        first, _, rest = bare.partition(" ")
        if first == ".help" or first == "help" and not rest.lstrip().startswith(("=", "[")):
            print(language.help_text(rest.strip(), room()[1] * self.is_terminal) + f"\n{DOTS}" * (not rest))
        elif first.startswith("."):
            dot = getattr(self, f"dot_{first[1:]}", None)
            print(f"    there is no command {printable(first)}: .names lists the names, help all commands") if dot is None else dot(rest.strip())
        else:
            is_name = bare.isidentifier() and bare in self.session.names()
            self.send(f"print {bare}" if is_name else line)

    def send(self, line: str, place: str = "", is_whole: bool = False) -> None:
        """Sends a line, writes its reply as it arrives, with a printed array cut to the window, and gives a hint if it is refused."""
        is_cut = self.is_terminal and not is_whole and line.split()[:1] == ["print"]
        window = Window(room()[0] - 4, room()[1] - 1)

        def write(part: bytes) -> None:
            if is_cut:
                window.take(part)
            elif not self.interrupts.is_noted:
                sys.stdout.buffer.write(painted(part.decode(), RED).encode() if part.startswith(b"no E") else part)
                sys.stdout.buffer.flush()

        sys.stdout.flush()
        reply = self.session.send(line.encode("utf-8", "surrogateescape"), write)
        if self.interrupts.is_noted:
            print("\n    (the rest of the reply is dropped)")
            return
        if is_cut:
            print(painted("\n".join(window.lines()), "" if reply.accepted else RED))
            self.note(f"(cut to the window; .all {line.split()[1]} prints all of it)" if window.is_cut else "")
        if not reply.accepted:
            for text in self.hints.meant(line, reply):
                self.note(place + text)
            if self.is_terminal and self.hints.offered and not place:
                self.offered = self.hints.offered
                self.offer(self.offered, False)
                self.note(f"(Enter runs {'it' if len(self.offered) == 1 else 'them'}, Up edits)")
        elif reply.text:
            taken = self.keep(line, reply)
            self.note(f"(took back: {printable(taken, 200)})" if taken and self.is_terminal else "")
            self.note(self.hints.seen(line) if reply.text not in ("ok set 0", "ok upd 0") else "")
            self.note(self.hints.one_item(line) if not self.is_taking and not place else "")

    def keep(self, line: str, reply: Reply) -> str:
        """Notes an accepted line, and returns the line that it took back."""
        self.log.append(line)
        if reply.text == "ok undo" and self.changes:
            return self.changes.pop()
        if reply.text.startswith("ok ") and not reply.text.startswith("ok save"):
            self.changes.append(line)
        return ""

    def note(self, text: str) -> None:
        """Prints a note next to a reply."""
        print(painted(f"    {text}", BLUE) + "\n" if text else "", end="", flush=True)

    def again(self, why: str) -> None:
        """Starts a new program and runs the accepted lines again. Ctrl-C asks whether to give them up."""
        print(end="\n" * self.is_terminal)  # behind the sign of Ctrl-C
        is_whole = False
        while not is_whole:
            self.note(f"({why}; the lines before this one are run again)")
            try:
                with self.interrupts.during(lambda: self.session.kill()):
                    self.close()
                    self.begin(wait=True)
                    why = self.repeated()
            except ProgramEnded:
                if not self.interrupts.is_stopped:
                    raise
            is_whole = not why and not self.interrupts.is_noted
            if self.interrupts.is_noted and self.read("    give up the names (y or n)? ").startswith("y"):
                self.log.clear()
                self.changes.clear()

    def repeated(self) -> str:
        """Runs the accepted lines in the new program. If it ends in one of them, that line is given up, and the text says so."""
        lines, self.log = deque(self.log), []
        self.changes.clear()
        try:
            while lines and not self.interrupts.is_noted:
                self.repeat(lines[0])
                lines.popleft()
        except ProgramEnded as fault:
            if self.interrupts.is_stopped:
                raise
            return f"{printable(str(fault))} in `{printable(lines.popleft(), 200)}`, which is given up"
        finally:
            self.log += lines
        return ""

    def repeat(self, line: str) -> None:
        """Runs an accepted line again, unless it is only a question."""
        if CHANGES_NO_NAME.match(line):
            self.log.append(line)
            return
        reply = self.session.send(line)
        self.keep(line, reply)
        if not reply.accepted:
            self.note(f"(refused now: {printable(line, 200)})")

    def dot_read(self, file: str) -> None:
        with open(os.path.expanduser(file), "rb", opener=without_waiting) as script:
            if not stat.S_ISREG(os.fstat(script.fileno()).st_mode):
                raise BenchError(f"{file} is not a regular file")
            for number, line in enumerate(lines_of(script), 1):
                if self.interrupts.is_noted:
                    break
                self.send(line.decode("utf-8", "surrogateescape"), f"{printable(file)}:{number}: ")

    def script(self) -> bytes:
        """The accepted lines."""
        return b"".join(line.encode("utf-8", "surrogateescape") + b"\n" for line in self.log)

    def dot_save(self, file: str) -> None:
        with whole.replaced(os.path.expanduser(file)) as script:
            script.write(self.script())
        print(f"    wrote {len(self.log)} lines to {printable(file)}")

    def dot_names(self, _: str) -> None:
        arrays = [self.session.array(name, items=False) for name in self.session.names()]
        shared: dict[str, list[str]] = {array.name: [] for array in arrays}
        for one, other in combinations(list(shared) if len(shared) <= 40 else [], 2):
            if self.session.ask(f"shares {one} {other}") == "shares yes":
                shared[one].append(other)
                shared[other].append(one)
        width = max(map(len, shared), default=0)
        for array in arrays:
            behind = f"  shares with {' '.join(shared[array.name])}" if shared[array.name] else ""
            print(f"    {array.name:{width}}  {printable(array.type, 60)} {array.shape}{behind}{'' if array.writable else '  read-only'}")

    def dot_all(self, name: str) -> None:
        self.send(f"print {name}", is_whole=True)

    def dot_time(self, _: str) -> None:
        self.is_timed = not self.is_timed

    def dot_draw(self, file: str) -> None:
        path = Path(file).expanduser().absolute() if file else Path(tempfile.mkdtemp(prefix="bench-"), "session.html")
        page.write(str(path), page.drawn("session", self.script().splitlines(), self.words))
        print(f"    {printable(str(path))}")
        if os.environ.get("DISPLAY") or os.environ.get("WAYLAND_DISPLAY"):
            import webbrowser
            webbrowser.open(path.as_uri())

    def complete(self, text: str, state: int) -> Optional[str]:
        """The words that could come at the cursor, one for each state, as readline asks for them."""
        if state == 0:
            self.found = []
            with suppress(BenchError, OSError, LookupError):
                before = readline.get_line_buffer()[:readline.get_begidx()]
                self.found = [word for word in self.words_at(before) if word.startswith(text)]
        return self.found[state] if state < len(self.found) else None

    def words_at(self, before: str) -> list[str]:
        """What could come after a text, by the grammar: between quotes the fields of the array before them, or files."""
        if before.strip() == "help":
            return sorted({*language.verbs(False), *language.verbs(True), *language.codes()})
        begin = before[:before.rindex('"')] if before.count('"') % 2 else before
        reading = Reading(begin)
        wanted = reading.wanted if reading.far >= len(begin.rstrip()) else {}
        if begin != before:
            return self.session.fields(begin.split()[-1]) if FIELD in wanted else self.files() if FILE in wanted else []
        names = self.session.names()
        firsts = sorted(["help", "quit", *language.verbs(False)])
        words = {COMMAND: [*(f"{verb} " for verb in firsts), *names], VERB: [*(f"{verb} " for verb in language.verbs(True)), *names],
                 ARRAY: names, ARGUMENT: names, ENTRY: names, TYPE: TYPES, OPERATION: [f"{verb} " for verb in language.operations()["OP"]],
                 ORDER: ["C", "F"], "keep": ["keep"]}
        return [*dict.fromkeys(word for what in wanted for word in words.get(what, []))]

    def files(self) -> list[str]:
        """The files that could be loaded."""
        return sorted(entry.name for entry in os.scandir(self.words.dir) if entry.is_file() and entry.name[0] not in ".-")


def shell(words: argparse.Namespace) -> int:
    is_terminal = sys.stdin.isatty() and sys.stdout.isatty()
    if not os.path.isdir(words.dir):
        say(f"bench-tool: there is no folder {printable(words.dir)}")
    prompt = Shell(words, is_terminal)
    with ExitStack() as held:
        held.callback(prompt.close)
        if readline and is_terminal:
            print(f"bench {__version__}: help lists the commands, Tab completes; exit or Ctrl-D ends")
            keys = Keys(prompt.complete)
            held.callback(keys.close)
            prompt.read, prompt.offer = keys.read, keys.offer
        prompt.loop()
    return 0
