"""What steps should give: the bench in this process, asked step by step."""
from __future__ import annotations

from typing import Mapping, NamedTuple, Sequence

from . import needs
from .bench import Session
from .cases import Question, Shown
from .commands import Command, Set, Update
from .judge_adapter import plain

# Refusals that say that the bench has no such thing, or has other limits: they are not wanted of other libraries.
OWN_REFUSALS = {"E01", "E02", "E03", "E04", "E05", "E06", "E07", "E08", "E09", "E14", "E20", "E21", "E22", "E23", "E24", "E26", "E27", "E33", "E34",
                "E35", "E40"}


class Step(NamedTuple):
    """A command, the code of its refusal or nothing, what the names show after it, and what it needs."""

    command: Command
    code: str
    shown: Mapping[str, Shown]
    needs: frozenset[str]


class Oracle:
    """A bench, and which names show items of one buffer."""

    def __init__(self, undo: int = 0) -> None:
        self.session = Session(undo=undo)
        self.shown: dict[str, Shown] = {}
        self.buffers: dict[str, int] = {}
        self._count = 0

    def restart(self) -> None:
        """Unbinds all names."""
        self.session.batch([f"del {name}" for name in self.session.names()])
        self.shown, self.buffers = {}, {}

    def back(self, shown: Mapping[str, Shown], buffers: Mapping[str, int]) -> None:
        """Takes the last change back."""
        self.session.send("undo")
        self.shown, self.buffers = dict(shown), dict(buffers)

    def known(self) -> dict[str, needs.Known]:
        return {name: (shown.type, shown.shape) for name, shown in self.shown.items()}

    def look(self, name: str) -> Shown:
        """What a name shows."""
        found = self.session.array(name)
        return Shown(found.type, found.shape, tuple(plain(item) for item in found.items))

    def step(self, command: Command) -> Step:
        """Carries out a command."""
        reply = self.session.send(str(command))
        if not reply.accepted:
            return Step(command, reply.code, dict(self.shown), needs.of(command, self.known()))
        words: set[str] = set()
        if command.binds:
            self.shown[command.binds] = self.look(command.binds)
            source = getattr(command, "source", "")
            self._count += 1
            self.buffers[command.binds] = self.buffers[source] if reply.text.endswith(" view") else self._count
        if isinstance(command, (Set, Update)):
            same = [name for name, buffer in self.buffers.items() if buffer == self.buffers[command.target]]
            words |= {"views"} if len(same) > 1 else set()
            self.shown.update({name: self.look(name) for name in same})
        return Step(command, "", dict(self.shown), needs.of(command, self.known()) | words)

    def steps(self, commands: Sequence[Command], files: Mapping[str, bytes] = {}) -> list[Step]:
        """Carries out some commands from the start, up to the first that is refused."""
        self.restart()
        for name, data in files.items():
            self.session.files[name] = data
        made: list[Step] = []
        for command in commands:
            made.append(self.step(command))
            if made[-1].code:
                break
        return made


def question_of(id_: str, feature: str, steps: Sequence[Step], files: Mapping[str, bytes] = {}) -> Question:
    """The question about some steps, of which only the last may be refused."""
    return Question(id_, feature, tuple(step.command for step in steps), steps[-1].shown, steps[-1].code, len(steps) - 1 if steps[-1].code else 0, files)


def groups(oracle: Oracle) -> list[list[str]]:
    """The names that show items of one buffer, where there are several."""
    found: dict[int, list[str]] = {}
    for name, buffer in oracle.buffers.items():
        found.setdefault(buffer, []).append(name)
    return [names for names in found.values() if len(names) > 1]
