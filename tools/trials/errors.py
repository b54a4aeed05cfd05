"""Each call on the files of a folder failed by each error, one at a time, with the answer that docs/DECISIONS.md has for it.
`fail_calls.c`, which stands before the C library, fails them. test_saves.py does the same with few errors."""
from __future__ import annotations

import errno
import itertools
import os
import subprocess
from argparse import Namespace
from pathlib import Path
from typing import NamedTuple, Optional, Sequence

from .files import FILE, header_text, padded, with_header
from .runs import Part, compiled, fill


class Call(NamedTuple):
    """A call of the system, and the file that it is about."""

    kind: str
    name: str


class Scenario(NamedTuple):
    """A script over some files, and its last reply in peace."""

    name: str
    script: str
    files: dict[str, bytes]
    reply: str


ITEMS = bytes([7, 7, 7])
NEW = with_header(padded(header_text("'|u1'")), ITEMS)
NAME, HIDDEN, FOLDER = "a.npy", ".a.npy.part", "."
FAULT, NO_FILE = "no E27 store fault", "no E34 no such file"
SAVE = 'a = full |u1 (3) 7\nsave a "a.npy"\n'
SCENARIOS = [
    Scenario("a load", 'x = load "a.npy"\n', {NAME: FILE}, "ok x <i4 (3,) new rest 0"),
    Scenario("a save of a new file", SAVE, {}, "ok save 131"),
    Scenario("a save over a file", SAVE, {NAME: FILE}, "ok save 131"),
    Scenario("a save over what was left", SAVE, {NAME: FILE, HIDDEN: b"left"}, "ok save 131"),
]
# The file system has no such call; the other errors say that the call failed.
UNSUPPORTED = {errno.EINVAL, errno.ENOSYS, errno.EOPNOTSUPP}
FORBIDDEN = {errno.EACCES, errno.EPERM}
FEW = [errno.EINTR, errno.EIO, errno.ENOENT, errno.EACCES, *sorted(UNSUPPORTED), errno.EROFS, errno.EMFILE, errno.ENOLCK]
OLD_MODE = 0o640
OTHER_GROUP = 54400  # of the files that are there before, where this is root's run
PATIENT = 600


def answer(scenario: Scenario, calls: Sequence[Call], at: int, error: int) -> str:
    """The reply where this call fails with this error."""
    call, earlier = calls[at], calls[:at]
    is_left = HIDDEN in scenario.files
    if error == errno.EINTR:
        return scenario.reply
    if call.kind == "look" and error == errno.ENOENT and call not in earlier:
        if call.name == HIDDEN:
            return FAULT if is_left else scenario.reply
        return NO_FILE if scenario.script != SAVE else scenario.reply
    if error in UNSUPPORTED and (call.kind in ("lock", "group") or call == Call("sync", FOLDER)):
        return scenario.reply
    if error in FORBIDDEN and call.kind == "group":
        return scenario.reply
    if error in FORBIDDEN and call == Call("open", HIDDEN) and is_left and call not in earlier:
        return scenario.reply
    return FAULT


def prepare(folder: Path, scenario: Scenario) -> None:
    fill(folder, scenario.files)
    for name in scenario.files:
        if os.getuid() == 0:
            os.chown(folder / name, -1, OTHER_GROUP)
        (folder / name).chmod(OLD_MODE)


class Runs:
    """Runs of a program below `fail_calls.c`, which is compiled to a place."""

    def __init__(self, program: Path, place: Path) -> None:
        self.program, self.log, self.library = str(program), place / "calls", compiled("fail_calls.c", place / "fail_calls.so")

    def in_peace(self, script: str, folder: Path, env: Optional[dict[str, str]] = None) -> str:
        """The last reply to a script over a folder."""
        ran = subprocess.run([self.program, "--dir", folder], input=script.encode(), capture_output=True, env=env, timeout=PATIENT)
        return ran.stdout.decode().splitlines()[-1]

    def run(self, script: str, folder: Path, **more: str) -> tuple[str, list[Call]]:
        """What a script is answered over a folder, and the calls on its files."""
        self.log.unlink(missing_ok=True)
        env = {**os.environ, "LD_PRELOAD": str(self.library), "STORE_FOLDER": str(folder), "STORE_LOG": str(self.log), **more}
        reply = self.in_peace(script, folder, env)
        lines = self.log.read_text().splitlines() if self.log.exists() else []
        return reply, [Call(*line.split(" ", 1)) for line in lines]


def one_call(part: Part, runs: Runs, folder: Path, scenario: Scenario, calls: Sequence[Call], at: int, error: int) -> None:
    """One call fails with one error; afterwards a save in peace goes well."""
    prepare(folder, scenario)
    where = f"{scenario.name}: {calls[at].kind} {calls[at].name} (call {at}) fails with {errno.errorcode[error]}"
    reply, _ = runs.run(scenario.script, folder, STORE_FAILS=str(at), STORE_ERROR=str(error))
    should = answer(scenario, calls, at, error)
    part.expect(where, reply, should)
    if scenario.script != SAVE:
        return
    is_named = should.startswith("ok save") or calls[at].name == FOLDER
    whole = NEW if is_named else scenario.files.get(NAME)
    found = {path.name: path.read_bytes() for path in folder.iterdir()}
    part.expect(f"{where}: the file", found.get(NAME), whole)
    if reply.startswith("ok") or calls[at].kind in ("write", "sync", "rename", "group", "mode-open"):
        part.expect(f"{where}: what lies beside it", found.keys() - {NAME}, set())
    then = (runs.in_peace(SAVE, folder), sorted(os.listdir(folder)))
    part.expect(f"{where}: a save in peace", then, ("ok save 131", [NAME]))


def each_call(part: Part, runs: Runs, folder: Path, errors: Sequence[int]) -> None:
    """Each call of each scenario, with each of these errors."""
    for scenario in SCENARIOS:
        prepare(folder, scenario)
        reply, calls = runs.run(scenario.script, folder)
        part.expect(f"{scenario.name} in peace", reply, scenario.reply)
        part.count(f"calls of {scenario.name}", len(calls))
        for at, error in itertools.product(range(len(calls)), errors):
            one_call(part, runs, folder, scenario, calls, at, error)


def all_trials(given: Namespace, folder: Path) -> Part:
    """All errors that the system knows."""
    part, place = Part(), folder / "errors"
    place.mkdir()
    each_call(part, Runs(given.program, place), place / "files", sorted(errno.errorcode))
    return part
