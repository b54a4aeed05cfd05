"""Hints for refused lines: where a line stops being a command, what to write instead, the numbers behind a code.

What is to be written is tried first, in a second session with arrays like those that the line names, and is said only where
it is accepted there.
"""
import difflib
import os
import re
import tempfile
import threading
import time
from contextlib import AbstractContextManager, ExitStack, contextmanager, suppress
from itertools import takewhile
from math import prod
from typing import Callable, Iterable, Iterator, Optional, Sequence

from . import language
from .grammar import Part, Reading, reserved
from .session import Array, BenchError, Reply, Session
from .terminal import printable, say
from .numpy_rules import NO_KIND, TYPES, phrase
from .seen import one_item, seen_by
from .translate import translated
from .trials import Trial, like

SECONDS, MOST_SECONDS = 0.05, 3600  # for one hint: by default, and at most
LONGEST = 400  # letters of a line of which more is said than its code
MOST_NAMES = 12  # of a line that are looked at
MOST_ITEMS = 2000  # of an array that is tried with its own items
WORD = re.compile(r"(?<![\w'\"])[A-Za-z_]\w*", re.ASCII)
WRITES = re.compile(r"\s*(set|upd)\b")
OPERANDS = ("X[ix]", "Y[ix]", "Y[iy]", "Y[?]", "Y", "Z")
BOUNDS = {f"{mark}{sign}{size}": (-(1 << 8 * size - 1) * (sign == "i"), (1 << 8 * size - (sign == "i")) - 1)
          for mark in ("<", ">", "|", "") for sign in "iu" for size in (1, 2, 4, 8)}
Known = dict[str, Array]


def items(count: int) -> str:
    return "1 item" if count == 1 else f"{count} items"


def seconds_of_a_hint() -> float:
    """What BENCH_HINT_SECONDS says, or the default if that is not a number of seconds."""
    given = os.environ.get("BENCH_HINT_SECONDS", "")
    with suppress(ValueError):
        if 0 <= (seconds := float(given or SECONDS)) <= MOST_SECONDS:
            return seconds
    say(f"bench-tool: BENCH_HINT_SECONDS is not a number from 0 to {MOST_SECONDS}: {printable(given, 60)}")
    return SECONDS


class Hints(AbstractContextManager["Hints"]):
    """The hints for the refused lines of a session. They are guests of the commands that ask for them: whatever goes wrong here, there
    is only no hint."""

    def __init__(self, session: Session, seconds: float = 0, program: Callable[[], str] = lambda: ""):
        self.session, self.seconds, self._program = session, seconds or seconds_of_a_hint(), program
        self._end, self._folder, self._held = 0.0, "", ExitStack()
        self._spare: Optional[Trial] = None
        self.offered: list[str] = []  # the lines of the last hint
        with suppress(Exception):
            self._folder = self._held.enter_context(tempfile.TemporaryDirectory(prefix="bench-"))
            self._start()

    def _start(self) -> None:
        """Starts a second session, without waiting for it."""
        self._spare = None
        self._spare = spare = Trial(self._program() or self.session.program, self._folder, self.session.dir)
        self._held.callback(spare.close)
        self._held.callback(spare.kill)

    def __exit__(self, *_: object) -> None:
        self.close()

    def close(self) -> None:
        with suppress(Exception):
            self._held.close()

    def meant(self, line: str, reply: Reply) -> list[str]:
        """The hint for a refused line, in a few lines. It takes at most `seconds`, and raises nothing."""
        self._end, self.offered = time.monotonic() + self.seconds, []
        try:
            said = self._said(line, reply)
        except Exception:
            said = []
        return said or [language.codes()[reply.code][1]] * (reply.code in language.codes() and reply.code != "E03")

    def seen(self, line: str) -> str:
        """Who sees what an accepted line wrote. It takes about `seconds` at most, and raises nothing."""
        self._end = time.monotonic() + self.seconds
        with suppress(Exception):
            if not WRITES.match(line):
                return ""
            index = [word for word in WORD.findall(line.partition("]")[0].partition("[")[2]) if word != "None"]
            if not index:
                return seen_by(self.session, line)
            sizes = [prod(self.session.array(word, items=False).shape) for word in index]
            if max(sizes) > MOST_ITEMS:
                return seen_by(self.session, line)
            with self._trial(index) as trial:
                return seen_by(self.session, line, trial)
        return ""

    def one_item(self, line: str) -> str:
        """What differs from NumPy after an accepted line that binds a name to one item. It raises nothing."""
        with suppress(Exception):
            return one_item(self.session, line)
        return ""

    def _said(self, line: str, reply: Reply) -> list[str]:
        if reply.code == "E01":
            return [phrase("too long")]
        if reply.code == "E02":
            return [self._of_byte(line)]
        if len(line) > LONGEST:
            return []
        names = self.session.names()
        if reply.code == "E06":
            return self._of_name(line, names)
        if reply.code == "E34":
            return self._of_file(line)
        words = [word for word in dict.fromkeys(WORD.findall(line)) if word in set(names)][:MOST_NAMES]
        if reply.code != "E03":
            with suppress(BenchError), self._trial(words) as trial:
                return [Numbers(trial, line).said(reply.code)]
            return [Numbers(self.session, line, False).said(reply.code)]
        said: list[str] = []
        with suppress(BenchError), self._trial(words) as trial:  # there may be no time
            said = self._of_syntax(line, names, trial)
        return said or self._of_place(line, names)

    def _of_byte(self, line: str) -> str:
        if line.startswith(("\ufeff", "\xef\xbb\xbf", "\udcef\udcbb\udcbf")):
            return phrase("mark")
        at = next(k for k, letter in enumerate(line) if not (letter == "\t" or " " <= letter <= "~"))
        return phrase("letter", printable(line[at]), at + 1)

    def _of_syntax(self, line: str, names: list[str], trial: Session) -> list[str]:
        """What to write instead of a line that is not a command, or where it stops being one."""
        bare = re.fullmatch(r"([^#'\"]*[^#\s'\"])\s*#.*", line)
        offer = translated(bare[1] if bare else line, trial, names)
        self.offered = offer.lines if offer.refusal is None else []
        if bare and not offer.lines and not offer.reasons:
            self.offered = [bare[1]] * trial.send(bare[1]).accepted
        said = [phrase("comment")] * bool(bare) + offer.reasons
        if self.offered:
            return said + [f"write: {text}" for text in self.offered]
        if offer.refusal is None:
            return said + self._of_place(line, names)
        last, code = offer.lines[-1], offer.refusal.code
        if code == "E06":
            return said + self._of_name(last, [*dict.fromkeys([*names, *trial.names()])])
        why = self._of_file(last)[0] if code == "E34" else Numbers(trial, last).said(code)
        return said + [phrase("then", last, code, why)]

    def _of_place(self, line: str, names: list[str]) -> list[str]:
        """Where a line stops being a command."""
        reading = Reading(line, names)
        if not reading.wanted:
            return []
        word = re.match(r"[a-z_]{4,}|", line[reading.stop()[0]:])[0]  # type: ignore[index]
        near = [] if word in reserved() else difflib.get_close_matches(word, sorted(reserved()), 2, 0.75)
        return [*reading.place(), *[phrase("near", " or ".join(near))] * bool(near)]

    def _of_name(self, line: str, names: list[str]) -> list[str]:
        """The hint for a name that is not bound."""
        words = WORD.findall(re.sub(r'^\s*\w+\s*=|"[^"]*"', "", line))
        word = next(word for word in words if word not in names and word not in reserved())
        near = self._near(word, names)
        bound = phrase("names", " ".join(names[:10]) + " .." * (len(names) > 10)) if names else phrase("no name")
        return [phrase("unbound", word), phrase("near", near) if near else bound]

    def _of_file(self, line: str) -> list[str]:
        """The hint for a file that does not exist."""
        folder = self.session.dir
        if not os.path.isdir(folder):
            return [f"there is no folder {printable(folder)}"]
        with os.scandir(folder) as entries:
            near = self._near(line.split('"')[1], (entry.name for entry in entries))
        return [phrase("near", printable(near)) if near else phrase("folder", printable(os.path.abspath(folder)))]

    def _near(self, word: str, among: Iterable[str]) -> str:
        """The nearest of some words, as far as time allows."""
        until = min(self._end, time.monotonic() + self.seconds / 2)
        return next(iter(difflib.get_close_matches(word, takewhile(lambda _: time.monotonic() < until, among), 1, 0.7)), "")

    @contextmanager
    def _trial(self, words: Sequence[str]) -> Iterator[Session]:
        """A session with arrays like those of some names. `BenchError` is raised if time runs out."""
        spare = self._spare
        if spare is None:
            raise BenchError("there is no second session")
        alarm = threading.Timer(max(0.001, self._end - time.monotonic()), spare.kill)
        alarm.start()
        try:
            for word in words:
                array = self.session.array(word, items=False)
                values = self.session.array(word).items if prod(array.shape) <= MOST_ITEMS else None
                for text in like(array, values):
                    spare.send(text)
            yield spare
            spare.clear()
        except Exception:
            spare.kill()
            self._start()
            raise
        finally:
            alarm.cancel()


class Numbers:
    """The types, shapes and numbers behind the refusal of a line that is a command."""

    def __init__(self, session: Session, line: str, is_trial: bool = True):
        self.session, self.is_trial = session, is_trial  # in a trial a name can be bound to look at it
        self.parts: list[Part] = Reading(line).parts
        self.text = {part.piece: part.text for part in self.parts}
        bound = set(session.names())
        read = [part.text for k, part in enumerate(self.parts) if part.piece not in ("X", "D") or self.parts[k + 1:k + 2] and self.parts[k + 1].piece != "="]
        words = dict.fromkeys(word for text in read for word in WORD.findall(text) if word in bound)
        self.known: Known = {word: session.array(word, items=False) for word in words}
        self.operands = [part.text for part in self.parts if part.piece in OPERANDS and part.text.partition("[")[0].strip() in self.known]

    def said(self, code: str) -> str:
        """The numbers behind a code; or when it occurs, if that is short, and the arrays of the line."""
        reader: Callable[[], str] = getattr(self, f"_{code.lower()}", lambda: "")
        with suppress(LookupError, TypeError, StopIteration):
            if told := reader():
                return told
        when, facts = language.codes()[code][1], ", ".join(self.facts()) if "E10" <= code <= "E25" else ""
        return facts if facts and len(when) > 80 else f"{when}: {facts}" if facts else when

    def facts(self) -> list[str]:
        """The operands and the index arrays, each with its type and shape."""
        found = dict(self.known)
        for operand in self.operands:
            with suppress(LookupError):
                found[operand] = self.array(operand)
        return [f"{name} is {array.type} {array.shape}" for name, array in found.items()]

    def array(self, operand: str) -> Array:
        """An operand with its index as an array."""
        if operand in self.known:
            return self.known[operand]
        if not self.is_trial:
            raise LookupError(operand)
        free = next(name for name in ("_", "__", "___") if name not in self.known)
        if not self.session.send(f"{free} = {operand}").accepted:
            raise LookupError(operand)
        found = self.session.array(free, items=False)
        self.session.send(f"del {free}")
        return found

    def _e04(self) -> str:
        kind = self.text["D"]
        return f"write {TYPES[kind]} instead of {kind}" if kind in TYPES else \
            f"{printable(kind, 60)} is not a type such as <i4, |u1, |b1, |S5 or T{{<i:x:<h:y:}}"

    def _e05(self) -> str:
        kind = self.text["D"]
        if kind in TYPES:
            return f"write {TYPES[kind]} instead of {kind}"
        what = NO_KIND.get(kind.lstrip("<>|=")[:1], "")
        return f"the type is not supported: there are no {what}" if what else ""

    def _e09(self) -> str:
        lengths = list(map(int, re.findall(r"\d+", self.text.get("S") or self.text["S-"])))
        if max(lengths) > 1 << 24:
            return f"{max(lengths)} is above 16777216, the greatest length of an axis"
        count, above = items(prod(lengths)), "16777216" if prod(lengths) > 1 << 24 else "268435456 bytes"
        return f"{count}{' of that type' * above.endswith('s')} are more than {above}"

    def _e10(self) -> str:
        """How many axes an index takes, and how many there are."""
        for operand in self.operands:
            name, _, index = operand.rstrip("] \t").partition("[")
            entries = [entry.strip() for entry in index.split(",")]
            taken = sum(self._takes(entry) for entry in entries)
            if index and taken > len(self.known[name.strip()].shape):
                return f"{self._axes(name.strip())}, and [{index}] takes {taken}"
        return ""

    def _axes(self, name: str) -> str:
        count = len(self.known[name].shape)
        return f"{name} has {count or 'no'} ax{'i' if count == 1 else 'e'}s"

    def _takes(self, entry: str) -> int:
        """The axes that an entry of an index takes."""
        array = self.known.get(entry)
        return len(array.shape) if array and array.type == "|b1" else int(entry not in ("None", "..."))

    def _e12(self) -> str:
        return "the step of arange is 0" if "s" in self.text else "the step of a slice is 0"

    def _e17(self) -> str:
        name = self.text["Y"]
        if axes := self.text.get("(axes)"):
            return f"{self._axes(name)}: {axes} must have each of them once"
        count = len(self.known[name].shape)
        return f"{self._axes(name)}: {f'an axis is {-count} to {count - 1}' if count else 'leave the axis out'}, not {self.text['[axis]']}"

    def _e11(self) -> str:
        """The first number that is out of range for its axis."""
        return next(filter(None, map(self._outside, (operand for operand in self.operands if "[" in operand))), "")

    def _outside(self, operand: str) -> str:
        """The first number of an index that is out of range for its axis. The numbers of a large index array are not looked at: if no
        other is out of range, one of them is."""
        name, _, index = operand.rstrip("] \t").partition("[")
        entries, lengths = [entry.strip() for entry in index.split(",")], self.known[name.strip()].shape
        takes = [self._takes(entry) for entry in entries]
        axis, large = 0, []
        for k, (entry, count) in enumerate(zip(entries, takes)):
            axis = len(lengths) - sum(takes[k:]) if entries[k - 1:k] == ["..."] else axis
            length = lengths[axis] if count else 0
            within = f"{-length} to {length - 1} are within" if length else "it has no item"
            is_array = entry in self.known and self.known[entry].type != "|b1"
            if is_array and prod(self.known[entry].shape) > MOST_ITEMS:
                large.append(f"axis {axis} of {name} has length {length}: a number in {entry} is outside, {within}")
            values = self._numbers(entry) if is_array else [int(entry)] if re.fullmatch(r"[+-]?\d+", entry) else []
            for value in values:
                if not -length <= value < length:
                    return f"axis {axis} of {name} has length {length}: {value}{f' in {entry}' * is_array} is outside, {within}"
            axis += count
        return large[0] if len(large) == 1 else ""

    def _numbers(self, name: str) -> Sequence[int]:
        """The numbers of an index array, unless there are many."""
        return self.session.array(name).items if prod(self.known[name].shape) <= MOST_ITEMS else []

    def _e16(self) -> str:
        shapes = {operand: self.array(operand).shape for operand in self.operands}
        source = "" if "OP" in self.text and "X[ix]" not in self.text else f" in {self.operands[-1]}"
        told = ", ".join(f"{operand} has shape {shape}" for operand, shape in shapes.items())
        return f"{told}: aligned at the last axis, lengths must be equal, or 1{source}"

    def _e18(self) -> str:
        name, lengths = self.text["Y"], list(map(int, re.findall(r"[+-]?\d+", self.text["S-"])))
        known = prod(length for length in lengths if length != -1)
        if any(length < -1 for length in lengths) or lengths.count(-1) > 1:
            return "a length is 0 or more; one may be -1, for what is left"
        begin = f"{name} is {self.known[name].type} {self.known[name].shape}: {items(prod(self.known[name].shape))}, and "
        if -1 not in lengths:
            return f"{begin}{self.text['S-']} has {known}"
        return begin + (f"{known} does not divide that" if known else "beside a length of 0 there is no -1")

    def _e19(self) -> str:
        name = self.text["Y"]
        fields = self.session.fields(name)
        return f"{name} has the field{'s' * (len(fields) > 1)} {' '.join(fields)}" if fields else f"{self.facts()[0]}, which has no fields"

    def _e21(self) -> str:
        return "`fdiv` divides and rounds down" if self.text.get("OP") == "div" else ""

    def _e23(self) -> str:
        kind = self.text.get("D") or self.array(self.operands[0]).type
        low, high = BOUNDS[kind]
        is_of = f"{self.operands[0].partition('[')[0]} is {kind}, which" if self.operands else kind
        return f"{is_of} holds {low} to {high}"

    def _e33(self) -> str:
        given = self.text.get("L") or self.text.get("Z") or self.operands[-1]
        return f"{given} cannot be converted to {self.text.get('D') or self.array(self.operands[0]).type}" if "L.." not in self.text else ""

    def _e32(self) -> str:
        count = prod(map(int, re.findall(r"\d+", self.text["S"])))
        values = len(re.findall(r"b'[^']*'|\((?:[^()]|\([^()]*\))*\)|[^\s()]+", self.text.get("L..", "")))
        return f"the shape {self.text['S']} has {items(count)}, and there {'is 1 literal' if values == 1 else f'are {values} literals'}"
