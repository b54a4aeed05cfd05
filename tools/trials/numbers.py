"""Numbers of 30 digits wherever a script has a number, and of one digit more: numbers.txt has them, and the replies.

One digit more is no number of a script; in a type and in a file, where digits are not counted, it is still too large."""
from __future__ import annotations

import re
from argparse import Namespace
from pathlib import Path
from typing import Iterator

from .files import DATA, header_text, padded, with_header
from .lines import entries, parts
from .runs import Part, Runner, fill

Trial = tuple[str, str]

SYNTAX = "no E03 syntax"
MORE = (30, 31, 1000)

PARTS = {name: entries(text) for name, text in parts("numbers.txt").items()}
SETUP = PARTS["arrays"][0][0].split("\n")


def with_nines(line: str, digits: int) -> str:
    return line.replace("{B}", "9" * digits)


def with_zeros(line: str, digits: int) -> str:
    return re.sub("{([0-9])}", lambda found: found[1].rjust(digits, "0"), line)


def trials() -> Iterator[Trial]:
    """Lines with the replies to them; one digit more changes that to the first line, since what follows it asks for the result."""
    yield from PARTS["ends"]
    for name, made, wrong in (("lines", with_nines, (31, 9000)), ("zeros", with_zeros, (31,))):
        for line, reply in PARTS[name]:
            yield made(line, 30), reply
            first = line.split("\n")[0]
            yield from ((made(first, digits), SYNTAX) for digits in wrong if made(first, 30) != first)
    for name, made in (("types", with_nines), ("types with zeros", with_zeros)):
        yield from ((made(line, digits), reply) for digits in MORE for line, reply in PARTS[name])


def files() -> list[tuple[bytes, str]]:
    """Files with headers that have such numbers, and the replies to their loads."""
    found = []
    for line, reply in PARTS["headers"]:
        key, value = line.split(" ", 1)
        found += [(with_header(padded(header_text(**{key: with_nines(value, digits)})), DATA), reply) for digits in MORE]
    return found


def all_trials(given: Namespace, _folder: Path) -> Part:
    """Each trial in a run of its own setup, all in one script."""
    part, loaded = Part(), files()
    lines = [*trials(), *((f'x = load "{k}"', reply) for k, (_, reply) in enumerate(loaded))]
    with Runner(given.program) as runner:
        fill(runner.dir, {str(k): file for k, (file, _) in enumerate(loaded)})
        for line, reply in lines:
            ran = runner.run("".join(f"{text}\n" for text in [*SETUP, line]).encode(), ["--dir", runner.dir])
            before, happened = ran.out.decode().splitlines()[:len(SETUP)], ran.out.decode().splitlines()[len(SETUP):]
            is_set_up = all(told.startswith("ok") for told in before)
            part.expect(line, ("\n".join(happened), ran.status, ran.err, is_set_up), (reply, int("no E" in reply), b"", True))
    return part
