"""Prints what a library makes of a case beside what `bench` answers. The library's side runs in a child process, which may die.

    from finding import finding
    finding("a[1:] += a[:-1]", "a = arange <i8 0 5 1; upd a[1:] add a[:-1]; print a", lambda: shifted(np.arange(5)).tolist())
"""
import os
import pathlib
import re
import select
import signal
import sys
import time

sys.path.insert(0, str(pathlib.Path(__file__).resolve().parents[3] / "companion"))
from bench_tool import Session  # noqa: E402

SECONDS = 60
COUNTS = {"cases": 0, "findings": 0}


def plain(text):
    """The items of a printed array or a list, so that both are spelled alike."""
    return re.sub(r"[\s,]+", " ", text).replace("[ ", "[").strip()


def wanted(lines, files):
    """What `bench` answers to the last of the lines, which are separated by semicolons: items, a refusal, or the shape of a new array."""
    with Session() as bench:
        for name, data in files.items():
            bench.files[name] = data
        reply = [bench.send(line.strip()) for line in lines.split(";")][-1]
    if not reply.accepted:
        return f"refuses: {reply.meaning}"
    made = re.match(r"ok \w+ \S+ (\(.*\)) (?:new|view|copy)", reply.text)
    return plain(made.group(1) if made else reply.text)


def in_child(function):
    """What a function returns, as text, or how it ends, in a process of its own."""
    reader, writer = os.pipe()
    child = os.fork()
    if child == 0:
        os.dup2(os.open(os.devnull, os.O_WRONLY), 2)
        try:
            text = plain(str(function()))
        except Exception as error:
            text = f"refuses: {type(error).__name__}"
        os.write(writer, text.encode()[:4096])
        os._exit(0)
    os.close(writer)
    if not select.select([reader], [], [], SECONDS)[0]:
        os.kill(child, signal.SIGKILL)
        os.waitpid(child, 0)
        os.close(reader)
        return f"no answer in {SECONDS} s"
    text = os.read(reader, 4096).decode()
    os.close(reader)
    status = os.waitpid(child, 0)[1]
    return f"dies: {signal.Signals(status & 127).name}" if status & 127 else text


def finding(case, lines, function, note="", files={}):
    """Prints a case, what the library makes of it, and what `bench` answers, which may load files. Counts it if the two differ."""
    right, got = wanted(lines, files), in_child(function)
    differs = got != right and not (right.startswith("refuses") and got.startswith("refuses"))
    COUNTS["cases"] += 1
    COUNTS["findings"] += differs
    print(f"{'DIFFERS' if differs else 'same   '}  {case}{f' ({note})' if note else ''}")
    print(f"         got    {got if len(got) < 70 else got[:66] + ' ...'}\n         right  {right}    {lines}", flush=True)


def report(program):
    """Prints how many of the cases differ."""
    print(f"{program}: {COUNTS['findings']} of {COUNTS['cases']} cases differ")


def version(package):
    from importlib import metadata
    return f"{package} {metadata.version(package)}"
