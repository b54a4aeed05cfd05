"""Every state that a crash of the machine may leave of a save.

strace records the calls of a run. After each of them the machine may stop. What the file system had not been told to sync may then be there
or not: any subset of the names that were made, changed or removed (a rename may be half done, with both names there), and of the bytes of
each file none, some or all, or zeros in their place. In each state every name must be an old or a new version of its file, whole, and after
the reply `ok save` the new one. Over each state that differs, saves and loads then work, and nothing hidden stays."""
from __future__ import annotations

import itertools
import os
import re
import subprocess
from argparse import Namespace
from pathlib import Path
from typing import Iterator, NamedTuple, Optional, Union

from .runs import Part, fill

OLD = b"OLD" * 1000
FILL = "a = arange <i4 0 {} 1\n"
# A script of saves, and the files that are there before.
SCENARIOS: dict[str, tuple[str, dict[str, bytes]]] = {
    "a new file": (FILL.format(3000) + 'save a "a.npy"\n', {}),
    "over a file": (FILL.format(3000) + 'save a "a.npy"\n', {"a.npy": OLD}),
    "twice over a file": (FILL.format(3000) + 'save a "a.npy"\nset a[0] = 77\nsave a "a.npy"\n', {"a.npy": OLD}),
    "two names": (FILL.format(300) + 'save a "a.npy"\nset a[0] = 77\nsave a "b.npy"\nset a[1] = 8\nsave a "a.npy"\n', {"b.npy": OLD}),
    "over what was left": (FILL.format(3000) + 'save a "a.npy"\n', {"a.npy": OLD, ".a.npy.part": b"JUNK" * 50}),
    "no items": ('a = zeros <i4 (0)\nsave a "a.npy"\nset a[:] = 3\nsave a "a.npy"\n', {"a.npy": OLD}),
    "a name like that of a part": (FILL.format(300) + 'save a "a.npy"\nsave a "a.npy.part"\nsave a "a.npy"\n', {}),
}
# The calls that are recorded, and those of them that change neither bytes nor names.
CALLS = "openat,creat,write,pwrite64,writev,fsync,fdatasync,sync_file_range,rename,renameat,renameat2,link,linkat,unlink,unlinkat,ftruncate,truncate,mkdir,close"
STRACE = ("strace", "-qq", "-xx", "-s", "10000000", "-e", f"trace={CALLS}", "-e", "signal=none")
LINE = re.compile(rb"(\w+)\((.*)\)\s+= (\d+)")
TEXT = re.compile(rb'"((?:\\x[0-9a-f]{2})*)"')
State = tuple[tuple[str, bytes], ...]


class Change(NamedTuple):
    """A change of names: the name of a file that goes, if one does, and the one that comes."""

    gone: Optional[str]
    come: Optional[str]
    file: int


class Write(NamedTuple):
    file: int
    data: bytes


class Sync(NamedTuple):
    """A sync of a file, or of the folder."""

    file: Optional[int]


class Reply(NamedTuple):
    text: bytes


Step = Union[Change, Write, Sync, Reply]


class Recorder:
    """The steps of a run, by the calls that strace wrote down."""

    def __init__(self, folder: Path, before: dict[str, bytes]) -> None:
        self.folder, self.steps = os.fsencode(folder), list[Step]()
        self._names = {name: number for number, name in enumerate(before)}
        self._count = len(before)
        self._open: dict[int, Optional[int]] = {}  # the file of each handle; None is the folder

    def call(self, name: str, given: bytes, result: int) -> None:
        texts = [bytes.fromhex(text.decode().replace("\\x", "")) for text in TEXT.findall(given)]
        names = [text[len(self.folder) + 1:].decode() for text in texts if text.startswith(self.folder + b"/")]
        handle = int(given.split(b",")[0], 0) if given[:1].isdigit() else -1
        if name == "openat":
            self._opened(result, names, b"O_CREAT" in given, texts[0] == self.folder)
        elif name == "write" and handle == 1:
            self.steps.append(Reply(texts[0]))
        elif name == "write" and (file := self._open.get(handle)) is not None:
            self.steps.append(Write(file, texts[0][:result]))
        elif name in ("fsync", "fdatasync") and handle in self._open:
            self.steps.append(Sync(self._open[handle]))
        elif name == "rename" and len(names) == 2:
            self.steps.append(Change(names[0], names[1], self._names[names[0]]))
            self._names[names[1]] = self._names.pop(names[0])
        elif name == "unlink" and names:
            self.steps.append(Change(names[0], None, self._names.pop(names[0])))
        elif name == "close":
            self._open.pop(handle, None)
        elif names or handle in self._open:
            raise ValueError(f"a call that is not modelled: {name}")

    def _opened(self, handle: int, names: list[str], is_made: bool, is_folder: bool) -> None:
        if is_folder:
            self._open[handle] = None
        elif names and is_made and names[0] not in self._names:
            self._open[handle] = self._names[names[0]] = self._count
            self.steps.append(Change(None, names[0], self._count))
            self._count += 1
        elif names:
            self._open[handle] = self._names[names[0]]


def recorded(program: Path, folder: Path, script: str, before: dict[str, bytes]) -> list[Step]:
    """The steps of a run over a folder."""
    fill(folder, before)
    trace, recorder = folder.with_suffix(".trace"), Recorder(folder, before)
    subprocess.run([*STRACE, "-o", trace, program, "--dir", folder], input=script.encode(), stdout=subprocess.DEVNULL, check=True)
    for line in trace.read_bytes().splitlines():
        if found := LINE.match(line):
            recorder.call(found[1].decode(), found[2], int(found[3]))
    return recorder.steps


class Disk:
    """A folder on a disk: names and bytes that are there whatever happens, and what was not synced yet."""

    def __init__(self, before: dict[str, bytes]) -> None:
        self._names = {name: number for number, name in enumerate(before)}
        self._kept = dict(enumerate(before.values()))
        self._written = dict.fromkeys(self._kept, b"")
        self._changes: list[Change] = []

    def step(self, step: Step) -> None:
        if isinstance(step, Change):
            self._changes.append(step)
            self._kept.setdefault(step.file, b"")
            self._written.setdefault(step.file, b"")
        elif isinstance(step, Write):
            self._written[step.file] += step.data
        elif isinstance(step, Sync) and step.file is None:
            self._names = self._after([2] * len(self._changes))
            self._changes = []
        elif isinstance(step, Sync) and step.file is not None:
            self._kept[step.file] += self._written[step.file]
            self._written[step.file] = b""

    def _after(self, how: list[int]) -> dict[str, int]:
        """The names after each change was lost (0), half done (1) or done (2)."""
        names = dict(self._names)
        for change, done in zip(self._changes, how):
            if change.come and done:
                names[change.come] = change.file
            if change.gone and done == 2:
                names.pop(change.gone, None)
        return names

    def _contents(self, file: int) -> list[bytes]:
        """What may be there of a file: all that was synced, and of the rest a beginning, or zeros."""
        kept, rest = self._kept[file], self._written[file]
        cuts = {0, 1, 10, 64, 127, 128, len(rest) // 3, len(rest) // 2, len(rest) - 1, 4096, len(rest)}
        found = [rest[:cut] for cut in sorted(cuts) if 0 <= cut <= len(rest)]
        found += [bytes(len(rest)), bytes(min(128, len(rest))) + rest[128:], rest[:128] + bytes(max(0, len(rest) - 128))]
        return [kept + part for part in dict.fromkeys(found)]

    def states(self) -> Iterator[State]:
        """Each state that a crash may leave now."""
        ways = [(0, 1, 2) if change.gone and change.come else (0, 2) for change in self._changes]
        for how in itertools.product(*ways):
            names = self._after(list(how))
            files = sorted(set(names.values()))
            for contents in itertools.product(*map(self._contents, files)):
                held = dict(zip(files, contents))
                yield tuple(sorted((name, held[file]) for name, file in names.items()))


class Versions:
    """The versions of each name that may be there: those from the last that was acknowledged on."""

    def __init__(self, before: dict[str, bytes], steps: list[Step]) -> None:
        self._bytes = dict(enumerate(before.values()))
        for step in steps:
            if isinstance(step, Write):
                self._bytes[step.file] = self._bytes.get(step.file, b"") + step.data
        named = [step.come for step in steps if isinstance(step, Change) and step.gone and step.come]
        self.allowed: dict[str, list[Optional[bytes]]] = {name: [before.get(name)] for name in {*before, *named} if not name.startswith(".")}
        self._last = ""

    def step(self, step: Step) -> None:
        if isinstance(step, Change) and step.gone and step.come:
            self.allowed[step.come].append(self._bytes.get(step.file, b""))
            self._last = step.come
        elif isinstance(step, Reply) and step.text.startswith(b"ok save"):
            del self.allowed[self._last][:-1]

    def wrong(self, state: State) -> list[str]:
        """What is wrong in a state."""
        found = dict(state)
        others = [f"{name} is there" for name in found if name not in self.allowed and not re.fullmatch(r"\..*\.part", name)]
        return others + [f"{name} has {len(found.get(name, b''))} bytes that are no version of it" for name in self.allowed if found.get(name) not in self.allowed[name]]


def crashed(before: dict[str, bytes], steps: list[Step]) -> Iterator[tuple[int, State, list[str]]]:
    """Each state of each moment: after how many steps, the state, and what is wrong in it."""
    disk, versions = Disk(before), Versions(before, steps)
    for count in range(len(steps) + 1):
        for state in set(disk.states()):
            yield count, state, versions.wrong(state)
        if count < len(steps):
            disk.step(steps[count])
            versions.step(steps[count])


def recovers(program: Path, folder: Path, state: State) -> object:
    """What is wrong when each name of a state, and each whose part is there, is saved and loaded again; None if nothing is."""
    fill(folder, {})
    links: dict[bytes, Path] = {}  # a rename that is half done leaves two names of a file
    for name, held in state:
        if held in links:
            os.link(links[held], folder / name)
        else:
            (folder / name).write_bytes(held)
            links.update({held: folder / name} if held else {})
    names = sorted({re.sub(r"^\.(.*)\.part$", r"\1", name) for name, _ in state}) or ["a.npy"]
    script = "z = full |u1 (5) 9\n" + "".join(f'save z "{name}"\ny = load "{name}"\nprint y\n' for name in names)
    ran = subprocess.run([program, "--dir", folder], input=script.encode(), stdout=subprocess.PIPE)
    is_right = ran.returncode == 0 and ran.stdout.count(b"[9 9 9 9 9]") == len(names) and sorted(os.listdir(folder)) == names
    return None if is_right else (ran.returncode, ran.stdout, os.listdir(folder))


def all_trials(given: Namespace, folder: Path) -> Part:
    """All states of all scenarios, and recovery from each that differs."""
    part, place, states = Part(), folder / "crashes", dict[State, str]()
    for name, (script, before) in SCENARIOS.items():
        for count, state, wrong in crashed(before, recorded(given.program, place, script, before)):
            part.count("states")
            states.setdefault(state, name)
            if wrong:
                part.fault(f"{name}, a crash after {count} calls", wrong, "an old or a new version of each file")
    for state, name in states.items():
        part.count("recoveries")
        if found := recovers(given.program, place, state):
            part.fault(f"{name}, over {[(name, len(held)) for name, held in state]}", found, "saves and loads that work")
    return part
