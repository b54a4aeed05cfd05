"""Requests for memory that are refused, one in each run. At most one line may lack memory then."""
from __future__ import annotations

import itertools
import os
import struct
from argparse import Namespace
from pathlib import Path

from . import TOP
from .files import reserved_when_idle
from .lacking import STOPPED, Lacking
from .lines import Script, entries, scripts_of, text_of
from .runs import Part, Runner, compiled, in_processes, shown

ROOM = 2**25
LONGEST_PRINT = 20000
MOST_REQUESTS = 300
RANDOM_SCRIPTS = 200


class Requests:
    """The requests for memory of a run below `refuse_memory.c`: with one refused, how many were made and refused."""

    def __init__(self, library: Path, folder: Path) -> None:
        self.library, self.told = library, folder / "told"

    def refusing(self, request: int) -> dict[str, str]:
        """The environment of a run."""
        self.told.write_bytes(bytes(16))
        return {**os.environ, "LD_PRELOAD": str(self.library), "REFUSE_TOLD": str(self.told), "REFUSE_REQUEST": str(request)}

    def counts(self) -> tuple[int, int]:
        made, refused = struct.unpack("=2Q", self.told.read_bytes())
        return made, refused


class Refusing(Lacking):
    """A script, run again and again with one request for memory refused."""

    def __init__(self, runner: Runner, part: Part, script: Script, library: Path) -> None:
        super().__init__(runner, part, script.name, script, most=1)
        short = [len(reply) <= LONGEST_PRINT or not line.startswith(b"print") for line, reply in zip(self.lines, self.expected()[0])]
        self.lines, self.without = list(itertools.compress(self.lines, short)), {}
        self.requests = Requests(library, runner.folder)
        self.run(self.lines, env=self.requests.refusing(0))
        self.made, _ = self.requests.counts()

    def refuse(self, most: int) -> None:
        """Runs with one request refused, at most so many, evenly spread."""
        for request in range(1, self.made + 1, -(-self.made // most)):
            where = f"request {request} of {self.made} refused"
            where += "" if self.part.faults else f", the script being\n{shown(text_of(self.lines).decode('latin-1'), 3000)}"
            self.trial(where, env=self.requests.refusing(request))
            self.part.expect(f"{self.name}, request {request}: requests refused", self.requests.counts()[1], 1)


def trials_of(task: tuple[Path, Path, Script, int]) -> Part:
    """All runs over one script."""
    program, library, script, most = task
    part = Part()
    with Runner(program) as runner:
        trial = Refusing(runner, part, script.asking(), library)
        replies = trial.expected()[0]
        part.count("scripts")
        part.count("commands", len(replies))
        part.count("commands accepted", sum(not reply.startswith(b"no E") and reply != b"" for reply in replies))
        trial.refuse(most)
    return part


def within_bounds(program: Path) -> Part:
    """A run in an address space with room for 32 MB: what takes more is refused, and all else goes on."""
    part = Part()
    with Runner(program) as runner:
        lacking, files = entries((TOP / "tools/trials/lacking.txt").read_text()), {"zeros.npy": 2**26}
        text = "".join(f"{line}\n" for line, _ in lacking).encode()
        ran, left = runner.over(files, text, limits=[("as", reserved_when_idle(program) + ROOM)])
        replies = ran.out.decode().splitlines()
        for (line, should), reply in itertools.zip_longest(lacking, replies, fillvalue=("nothing", "nothing")):
            part.expect(f"{line}, with room for {ROOM:,} bytes", reply, should)
        part.expect("a run that lacks memory", (ran.status, ran.err, left), (1, b"", files))
    return part


def words_of_the_program(program: Path, library: Path) -> Part:
    """Words that are refused, or ask for help: each run is as with all memory, or is out of memory and does nothing else."""
    part = Part()
    with Runner(program) as runner:
        requests = Requests(library, runner.folder)
        for words in (["--help"], ["--unknown"], ["--dir"], ["one", "two"], [str(runner.folder / "none")]):
            whole = runner.run(b"names\n", words, requests.refusing(0))
            for number in range(1, requests.counts()[0] + 1):
                ran = runner.run(b"names\n", words, requests.refusing(number))
                part.count("runs with words that are refused")
                if ran not in (whole, STOPPED):
                    part.fault(f"bench {' '.join(words)}, request {number} refused", ran, f"{shown(whole)} or {STOPPED}")
    return part


def all_trials(given: Namespace, folder: Path) -> Part:
    """The refused requests over all scripts."""
    library, part = compiled("refuse_memory.c", folder / "refuse_memory.so"), within_bounds(given.program)
    part.add(words_of_the_program(given.program, library))
    most = 10**9 if given.every else MOST_REQUESTS
    tasks = [(given.program, library, script, most) for script in scripts_of(given, RANDOM_SCRIPTS)]
    for found in in_processes(given, trials_of, tasks):
        part.add(found)
    return part
