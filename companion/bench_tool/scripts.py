"""Random scripts, made command by command from a source of choices: `random.Random`, or Hypothesis's, which shrinks what fails
(`bench_tool.testing`).

The reply to each line tells the writer what its name is bound to, so most commands are accepted. A profile says which commands come how
often, and how large arrays and index lists are. For a library that has less than bench, `types`, `commands` and `needs` say what it has:

    >>> from random import Random
    >>> steps = write(Random(1), types=["<i4", "<i8"], commands=["array", "select", "set", "reduce"], needs={"i4", "i8", "rank_0", "views"})
    >>> sorted({type(step.command).__name__ for step in steps})
    ['NewArray', 'Reduce', 'Select', 'Set']
"""
from __future__ import annotations

from dataclasses import replace
from random import Random
from typing import Callable, Collection, Optional, Sequence, Union

from .bench import Session
from .profiles import MIXED, PROFILES, Profile
from .writer import Known, Step, Writer, can_cast, literal

__all__ = ["MIXED", "PROFILES", "Known", "Profile", "Step", "Writer", "can_cast", "literal", "profile_of", "write"]


def profile_of(
    profile: Union[str, Profile], types: Optional[Collection[str]] = None, commands: Optional[Collection[str]] = None,
    needs: Optional[Collection[str]] = None, refused: bool = True,
) -> Profile:
    """A profile, by its name or as it is, for a library that has these types, commands and words of `needs`."""
    base = PROFILES[profile] if isinstance(profile, str) else profile
    has = None if needs is None else frozenset(needs)
    return replace(base, types=types or base.types, commands=commands or base.commands, needs=base.needs if has is None else has, refused=refused)


def write(
    rng: Random, ask: Optional[Callable[[str], str]] = None, profile: Union[str, Profile] = MIXED, size: int = 30, files: Sequence[str] = (), *,
    types: Optional[Collection[str]] = None, commands: Optional[Collection[str]] = None, needs: Optional[Collection[str]] = None,
    refused: bool = True,
) -> list[Step]:
    """A random script with at least this many commands. `ask` takes each line and returns its reply; by default it is a session of its own.
    The files may be loaded.

    With one of `types`, `commands` and `needs`, every command and every result stays within what the library has, all names are bound, and
    there are no wrong lines; `ask` must then be able to undo. Without `refused`, every command is accepted."""
    chosen = profile_of(profile, types, commands, needs, refused)
    if ask is not None:
        return Writer(rng, ask, chosen, files).write(size)
    with Session() as session:
        return Writer(rng, lambda line: session.send(line).text, chosen, files).write(size)
