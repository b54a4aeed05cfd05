"""`run SCRIPT`: the replies and the status of the program, and each refusal with its place on standard error."""
import argparse
import collections
import os
import sys
import time
from typing import BinaryIO

from .hints import Hints
from .session import Reply, Session
from .terminal import lines_of, printable, say

SHOWN = 200
MOST_NOTES = 100  # refused lines of which more is said than code and place


def shown(line: bytes) -> str:
    """A line as it is shown in a message."""
    return printable(line.decode("utf-8", "backslashreplace").strip(), SHOWN)


def refusal(hints: Hints, place: str, line: bytes, reply: Reply, is_noted: bool) -> None:
    """Reports a refused line, with a hint."""
    say(f"{place} {reply.code} {reply.meaning}: {shown(line)}")
    for text in hints.meant(line.decode("utf-8", "surrogateescape"), reply) if is_noted else []:
        say(f"{place} note: {text}")


def lines(script: BinaryIO, session: Session, words: argparse.Namespace, hints: Hints) -> int:
    """Runs all lines, or with --stop only up to the first that is refused. Returns the exit status."""
    begun, codes, name = time.perf_counter(), collections.Counter[str](), printable(words.script)
    for number, line in enumerate(lines_of(script), 1):
        sent = time.perf_counter()
        reply = session.send(line, sys.stdout.buffer.write)
        sys.stdout.buffer.flush()
        took = time.perf_counter() - sent
        codes[reply.code] += bool(reply.text)
        if reply.text and words.time:
            say(f"{took * 1e3:10.3f} ms  {number:5}  {shown(line)}")
        if words.explain and reply.accepted and reply.text not in ("ok set 0", "ok upd 0"):
            seen = hints.seen(line.decode("ascii", "replace"))
            say(f"{name}:{number}: {seen}") if seen else None
        if not reply.accepted:
            refused = sum(codes.values()) - codes[""]
            refusal(hints, f"{name}:{number}:", line, reply, refused <= MOST_NOTES)
            if words.stop:
                break
    accepted = codes.pop("", 0)
    if words.summary:
        told = "".join(f", {count} {code}" for code, count in sorted(codes.items()))
        say(f"{name}: {accepted} accepted, {sum(codes.values())} refused{told}; {time.perf_counter() - begun:.3f} s")
    return 1 if codes else 0


def run(words: argparse.Namespace) -> int:
    name = printable(words.script)
    if not os.path.isdir(words.dir):
        say(f"bench-tool: there is no folder {printable(words.dir)}")
    try:
        script = sys.stdin.buffer if words.script == "-" else open(words.script, "rb")
    except FileNotFoundError:
        say(f"bench-tool: there is no script {name}")
        return 3
    except OSError as fault:
        say(f"bench-tool: {name} cannot be read: {'it is a folder' if isinstance(fault, IsADirectoryError) else fault.strerror}")
        return 3
    with script, Session(undo=words.undo, dir=words.dir) as session, Hints(session) as hints:
        status = lines(script, session, words, hints)
    return status
