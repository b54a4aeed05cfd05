"""The companion with what nobody expects: refused lines and their hints, headers of files, environments and arguments, keys at the prompt.

No exception is left to a person, a hint changes nothing, each command ends with a status of its own, and after any keys the shell answers."""
from __future__ import annotations

import contextlib
import itertools
import os
import re
import resource
import select
import subprocess
import tempfile
import time
from argparse import Namespace
from pathlib import Path
from random import Random
from typing import Callable, Iterator

from bench_tool import BenchError, hints, show
from bench_tool.session import Session

from . import TOP
from .companion_trials import TOOL, environment
from bench_tool.show import MAGIC
from .runs import Part
from .terminals import CTRL_C, ENTER, TAB, Terminal

BOUND = ["a = arange <i4 0 6 1", "m = reshape a (2,3)", "r = zeros T{i:x:T{b:q:}:y:} (2)", "i = array <i8 (2) 5 -9", "big = full |u1 (3000) 9",
         "long = full <i8 (2001) -99", "mask = full ? (4000) True", "z = zeros <i4 (0)", "none = zeros |u1 (0,16777216,3)", "s = full |S60000 (4) b'x'",
         "w = broadcast a (5,6)", f"axes = zeros |u1 ({'1,' * 63}1)", "keep = zeros <i4 (3)", "C = zeros <i4 (2,2)", "new = zeros ? ()",
         "u = full <u8 (3) 18446744073709551615", "b = full |S3 (2) b'a'", "T = zeros <i4 (4)", "n0 = zeros T{<i:a b:<i:{}:} (3)"]
NAMES = [line.split()[0] for line in BOUND] + ["zz", "t", "x"]
WORDS = {
    "NAME": NAMES, "OP": "add sub mul fdiv mod and or xor shl shr div eq lt sum prod min max any all argmin argmax neg not".split(),
    "ENTRY": ["0", "-1", "9", "-99", "::0", "::-1", "...", "None", ":", "1:2", *NAMES], "SIGN": "+ - * / // % & | ^ << >> == < @ ** and or".split(),
    "TYPE": ["<i4", "|u1", "?", "f8", "<u8", "|S3", "T{i:a:}", "T{i:a:b:b:}", "foo", "<i3", "int32", "np.int16", "float"],
    "LITERAL": ["5", "-1", "300", "9" * 20, "True", "b'x'", "(1,2)", "(1,(2,))", "()", "''", "1.5"], "LENGTH": ["0", "1", "2", "3", "6", "-1", "-2", "16777217", "9" * 20],
    "WRITE": "= += -= *= /= **= //= <<= @= :=".split(), "RED": ["0", "1", "-5", "keep", "0 keep", "axis=1"],
    "METHOD": [".T", ".sum()", ".reshape(2,3)", ".astype(int)", ".copy()", ".x", ".shape", ".max(axis=1)", ".view(int)", ".flatten()", ".fill(NAME)", ".sort()"],
    "CALL": "where concatenate ones arange array clip add.outer zeros full dot sum flip squeeze maximum logical_and zeros_like repeat tile".split(),
    "MADE": ["zeros", "full", "array", "arange"], "ASK": ["print", "info", "format", "del", "shares", "help"], "FILE": ['"no.npy"', '"../x"', '"a"', '"-x"', "a.npy"],
    "ODD": ["exit()", "undo 3", "undo undo", "print", "for i in a:", "import numpy as np", "lambda: a", "x = [i for i in a]", "{}", "a; m; zz", "a if m else r", "not a",
            "f'{a}'", "*a", "a[*i]", "a:=3", "x = yield", "print(a", "0", "''", "...", "a[::]", "(a)", "a.", "a..b", "=", "a==", "#", "set", "upd a", "X[ix] = L",
            "a, m = m, a", "who", "ls", "dir()", "help views", "a is m", "del a[0]", "assert a", "with a: b", "a\\", "\t", "x = " + "(" * 90, "x = " + "[" * 90 + "1" + "]" * 90],
}
FORMS = """NAME = NAME[INDEX]|set NAME[INDEX] = VALUE|upd NAME[INDEX] OP VALUE|NAME = OP NAME VALUE|NAME = OP NAME[INDEX] NAME[INDEX]|NAME = reshape NAME SHAPE
NAME = broadcast NAME SHAPE|NAME = transpose NAME SHAPE|NAME = cast NAME TYPE|NAME = field NAME "NAME"|NAME = MADE TYPE SHAPE LITERAL LITERAL|NAME = OP NAME RED
ASK NAMEMETHOD|NAME = load FILE|save NAME FILE|NAME[INDEX] WRITE VALUE|NAME WRITE VALUE|NAME = NAMEMETHOD|NAMEMETHOD|NAME = np.CALL(VALUE, VALUE, VALUE)
NAME = np.CALL([VALUE, VALUE], dtype=TYPE)|NAME = NAME SIGN VALUE|NAME = (NAME SIGN VALUE) SIGN NAMEMETHOD|NAME, NAME = NAME, NAME|upd NAME[INDEX] SIGN VALUE|ODD|ODD
NAME = VALUE SIGN NAME|set NAME VALUE|NAME = LITERAL|print(NAMEMETHOD)|NAME = CALL(NAME, axis=LITERAL)""".replace("\n", "|").split("|")
LINES = TOP / "tools/rows/wrong_lines.txt"
KEYS = [TAB, TAB + TAB, b"\x01", b"\x05", b"\x0b", b"\x15", b"\x17", b"\x19", b"\x12set\x07", b"\x1b[A", b"\x1b[B", b"\x1b[C", b"\x1b[D", b"\x1b[3~", b"\x1b.", b"\x1bd",
        b"\x14", b"\x0c", b"\x7f", b"\x16\x01", b"\x16\x1b", b"\x1b5", b"\x18(", b"\x18)", b"\x18e", b"\x1b?", b"\x1b*", b"\x1f", b"\x1b#", b"\x10", b"\x0e", b"\x00", b"\xff",
        b"\xc3\xa9", b"\xf0\x9f\x98\x80", b"\x80", b"\x1b[200~", b"\x1b[201~", b"\x1b]0;x\x07", b"\x16\x0a", b"\x16\x0d", ENTER, ENTER, CTRL_C]
DOTS = [b".names", b".time", b".all a", b".read s", b".read /", b".read no", b".save out.bench", b".save /proc/x", b".save", b".draw p.html", b".draw /dev/full", b".no", b"help",
        b"help set", b"help E18", b"help \xff", b".all", b". ", b".begin", b".__init__", b"help zzz", b".read s2", b"undo"]
VALUES = ["", "0", "1", "-1", "abc", "inf", "nan", "1e9", "\x1b[31m", "/nowhere", "/", ".", "\udcff", "x" * 5000]
SETTINGS = ["BENCH_HINT_SECONDS", "BENCH_HISTORY", "BENCH_LIBRARY", "COLUMNS", "LINES", "TERM", "HOME", "TMPDIR", "XDG_STATE_HOME", "LANG", "LC_ALL", "NO_COLOR", "BENCH",
            "PYTHONUNBUFFERED", "PYTHONWARNINGS", "PATH", "INPUTRC", "DISPLAY"]  # not those without which Python itself does not begin


def line_of(rng: Random, form: str) -> str:
    """A line of a form; what stands in capitals is chosen, the index and the shape with several entries."""
    while found := re.search("INDEX|SHAPE|VALUE|" + "|".join(map(re.escape, WORDS)), form):
        word = found[0]
        made = ",".join(["ENTRY"] * rng.choice([1, 1, 1, 2, 2, 3, 14])) if word == "INDEX" else \
            f"({','.join(['LENGTH'] * rng.choice([0, 1, 1, 2, 3, 70]))})" if word == "SHAPE" else \
            rng.choice(["LITERAL", "NAME", "NAME[INDEX]"]) if word == "VALUE" else rng.choice(WORDS[word])
        form = form[:found.start()] + made.replace("NAME", "\0") + form[found.end():]
    return re.sub("\0", lambda _: rng.choice(NAMES), form)


def refused_lines(rng: Random) -> Iterator[str]:
    """Lines that are nearly right, and some with letters in the wrong places."""
    typed = [line[2:] for line in LINES.read_text().splitlines() if line.startswith("> ")]
    while True:
        line = rng.choice(typed) if rng.random() < 0.1 else line_of(rng, rng.choice(FORMS))
        for _ in range(rng.choice([0, 0, 0, 1, 2])):
            at = rng.randrange(len(line) + 1)
            line = line[:at] + rng.choice([*"[]()'\"#,.:=+-*/ \t\\@;{}\x00é", "  "]) + line[at + rng.randrange(2):]
        yield line


def rounds(end: float) -> Iterator[None]:
    """One round, and then more while there is time."""
    yield
    while time.monotonic() < end:
        yield


def hints_of_lines(part: Part, given: Namespace, rng: Random, end: float) -> None:
    """Nothing is raised while a hint is looked for but that there is no time, and no name changes."""
    with Session(given.program, undo=64) as session, hints.Hints(session, 3) as made:
        session.dir = tempfile.gettempdir()
        for line in BOUND:
            session.ask(line)
        before = [session.ask(f"info {name}") for name in session.names()]
        for line in refused_lines(rng):
            if time.monotonic() > end and part.counts["refused lines"]:
                break
            reply = session.send(line) if not line.lstrip().startswith("save") else session.send("~")
            if reply.accepted:
                if reply.text.startswith("ok ") and session.names():
                    session.ask("undo")
                continue
            part.count("refused lines")
            made._end = time.monotonic() + 3
            try:
                made._said(line, reply)
            except BenchError:
                part.count("without time")
            except Exception as fault:
                part.fault(f"hint of {line!r}", f"{type(fault).__name__}: {fault}", "a hint, or none")
        part.expect("arrays after all hints", [session.ask(f"info {name}") for name in session.names()], before)


def header_text(rng: Random) -> str:
    """The text of a header, with something odd in it."""
    odd = ["None", "()", "[]", "{}", "'a'", "b'x'", "-1", "1.5", "1j", "True", "9" * 30, f"0x{'f' * 4000}", "'<S20000000000'", "[('x', '<i4')]", "[('x', '<f4', (2, 3))]",
           "[('x',)]", "[[]]", "[(('t', 'n'), '<i4')]", "('a',)", "(1, 2)", "(-3,)", "({},)", "[1, 2]", "1 + 2j", "-'a'", "{1: 2}", "set()", "...", "(" * 80 + ")" * 80, "'\x1b[31m'"]
    keys = {"descr": "'<i4'", "fortran_order": "False", "shape": "(3,)"}
    for key in rng.sample(sorted(keys), rng.choice([0, 1, 1, 2])):
        keys[key] = rng.choice(odd)
    text = "{" + ", ".join(f"{key!r}: {value}" for key, value in [*keys.items(), *[("extra", rng.choice(odd))] * rng.choice([0, 0, 1])]) + ", }"
    for _ in range(rng.choice([0, 0, 1, 3])):
        at = rng.randrange(len(text))
        text = text[:at] + rng.choice([*"()[]{}'\",:0-\\\x00\té", "9" * 400]) + text[at + rng.randrange(4):]
    return text


@contextlib.contextmanager
def little_memory(most: int) -> Iterator[None]:
    """So many bytes of address space at most."""
    kept = resource.getrlimit(resource.RLIMIT_AS)
    resource.setrlimit(resource.RLIMIT_AS, (most, kept[1]))
    try:
        yield
    finally:
        resource.setrlimit(resource.RLIMIT_AS, kept)


def headers(part: Part, folder: Path, rng: Random, end: float) -> None:
    """What a header says is told in words, whatever it is, and no memory goes into it."""
    path = folder / "f.npy"
    for _ in rounds(end):
        text = header_text(rng).encode("utf-8", "replace")
        wide, length = rng.choice([1, 1, 1, 2, 3, 9]), min(len(text) + rng.choice([0, 0, 0, 0, -5, 9, 60000]), 65_535)
        path.write_bytes(MAGIC + bytes([wide, 0]) + max(0, length).to_bytes(2 if wide == 1 else 4, "little") + text + bytes(rng.choice([0, 12, 40])))
        part.count("headers")
        try:
            if not all(told.isprintable() for told in show.explained(str(path))):
                part.fault(f"header {text!r}", "an unprintable text", "a printable one")
        except Exception as fault:
            part.fault(f"header {text!r}", f"{type(fault).__name__}: {fault}", "words")


def environments(part: Part, folder: Path, rng: Random, end: float) -> None:
    """Any settings, arguments and streams: no traceback, and a status of the tool's own."""
    (folder / "s").write_bytes(b"a = arange <i4 0 6 1\nprint a[0]\nb = a[9]\nsave a \"a.npy\"\n" + os.urandom(300))
    for _ in rounds(end):
        env = environment(**{name: rng.choice(VALUES) for name in rng.sample(SETTINGS, rng.choice([0, 1, 2]))}, PYTHONIOENCODING=rng.choice(["", "ascii:strict", "latin-1"]))
        words = [rng.choice(["run", "run", "shell", "show", "draw", "--help", "zz", ""])]
        words += rng.sample(["s", "-", "f.npy", "/dev/null", ".", "--undo", "5", "--undo=x", "--dir", "--dir=/nowhere", "--line=0", "--line", "--svg", "-o", "--all", "--check",
                             "--stop", "--time", "--summary", "--explain", "é\x1b", "\udcff"], rng.choice([0, 1, 1, 2, 3]))
        behind = rng.choice(["", "", "", "<&-", ">&-", "2>&-", ">/dev/full", "2>/dev/full", "<&- >&- 2>&-"])
        called = ["sh", "-c", f'exec "$@" {behind}', "sh", str(TOOL), *words]
        if env.get("PATH") in VALUES:
            env["PATH"] += ":" + os.environ["PATH"]
        done = subprocess.run(called, input=b"names\nx = zz\n", capture_output=True, env=env, cwd=folder)
        if b"Fatal Python error" in done.stderr:  # with such a PATH, Python itself does not begin
            continue
        part.count("commands")
        if b"Traceback" in done.stderr or b"defect" in done.stderr or done.returncode not in (0, 1, 2, 3):
            part.fault(f"{words} {behind} {set(env.items()) - set(os.environ.items())}", done.stderr[-400:], "a plain line, and a status of 0 to 3")


def keys(part: Part, folder: Path, rng: Random, end: float) -> None:
    """After any keys the shell answers, and its end is its program's end."""
    lines = [line[2:].encode() for line in LINES.read_text().splitlines() if line.startswith("> ") and "exit" not in line and "quit" not in line]
    (folder / "s").write_bytes(b"a = arange <i4 0 6 1\nprint a\nbogus\n" * 5)
    (folder / "s2").write_bytes(os.urandom(3000))
    choices: list[Callable[[], bytes]] = [
        lambda: rng.choice(lines) + ENTER, lambda: rng.choice(lines) + ENTER, lambda: rng.choice(KEYS), lambda: rng.choice(DOTS) + ENTER, lambda: CTRL_C * rng.randint(1, 3),
        lambda: b"\x1b[200~" + b"\n".join(rng.sample(lines, 3)) + b"\x1b[201~" + ENTER, lambda: rng.choice(lines)[:9] + rng.choice(KEYS)]
    for _ in rounds(end):
        terms = {"TERM": rng.choice(["xterm-256color", "dumb", "vt100", "xterm"]), "LC_ALL": rng.choice(["C", "C.UTF-8", ""]), "BENCH_HINT_SECONDS": "0.05"}
        typed = [rng.choice(choices)() for _ in range(rng.randint(5, 30))]
        part.count("shells")
        shown = shell_with(folder, typed, terms)
        if "Traceback" in shown or "defect" in shown or not shown.endswith("\nnames"):
            part.fault(f"keys {typed!r}", shown[-600:], "an answer to `names`")


def shell_with(folder: Path, typed: list[bytes], settings: dict[str, str]) -> str:
    """What a shell shows for keys, up to its answer to `names`."""
    terminal, shown = Terminal(folder, [str(TOOL), "shell"], settings), b""

    def read(seconds: float) -> None:
        nonlocal shown
        while select.select([terminal.terminal], [], [], seconds)[0]:
            shown += os.read(terminal.terminal, 65536)

    try:
        with contextlib.suppress(OSError):
            terminal.until(b"bench> ")
            for each in typed:
                os.write(terminal.terminal, each)
                read(0.02)
            ends = (b"\x11", CTRL_C, b"\x07" + CTRL_C, b"\x1b[201~" + CTRL_C, b"n" + ENTER, b"\x15\x0bnames" + ENTER)
            for pause, end in itertools.product((0.3, 0.3, 3, 30), ends):
                os.write(terminal.terminal, end)
                read(pause)
                if end.startswith(b"\x15") and (found := re.search(rb"\nnames( |\r)", shown)):
                    return shown[:found.end() - 1].decode("latin-1")
    finally:
        terminal.close()
    return shown.decode("latin-1")


def all_trials(given: Namespace, folder: Path) -> Part:
    """A share of the seconds for each kind."""
    part, rng, begin = Part(), Random(given.seed), time.monotonic()
    hints_of_lines(part, given, rng, begin + 0.4 * given.seconds)
    with little_memory(3 << 30):
        headers(part, folder, rng, begin + 0.5 * given.seconds)
    environments(part, folder, rng, begin + 0.75 * given.seconds)
    keys(part, folder, rng, begin + given.seconds)
    return part
