"""The command line of bench-tool."""
import argparse
import errno
import os
import signal
import sys
from typing import Any, Callable, NoReturn, Optional, Sequence

from . import __version__
from .session import BenchError
from .terminal import defect, drop_unwritten, open_streams, printable, say

SIGNALS = (signal.SIGINT, signal.SIGTERM, signal.SIGHUP)


def depth(text: str) -> int:
    """How many changes `undo` can take back."""
    if not text.isdigit() or int(text) > 64:
        raise argparse.ArgumentTypeError("a number from 0 to 64")
    return int(text)


def count(text: str) -> int:
    """A number of bytes."""
    if not text.isdigit() or len(text) > 18:
        raise argparse.ArgumentTypeError("a number of bytes")
    return int(text)


class Parser(argparse.ArgumentParser):
    def error(self, message: str) -> NoReturn:
        """Says what is wrong with the arguments, if possible: the argparse of some versions of Python fails where standard error is full."""
        say(f"{self.format_usage()}{self.prog}: error: {message}")
        sys.exit(2)


def parser() -> argparse.ArgumentParser:
    common, script = (argparse.ArgumentParser(add_help=False) for _ in range(2))
    common.add_argument("--undo", type=depth, default=16, metavar="N", help="how many changes undo can take back, 0 to 64 (default: 16)")
    common.add_argument("--dir", default=".", help="the folder for load and save (default: the current folder)")
    script.add_argument("script", metavar="SCRIPT", help="the script; - is standard input")
    made = Parser(prog="bench-tool", description="The companion of bench, a workbench for strided arrays.")
    made.add_argument("--version", action="version", version=f"bench-tool {__version__}")
    commands = made.add_subparsers(metavar="COMMAND")

    def command(name: str, call: Callable[[argparse.Namespace], int], help: str, *parents: Any) -> argparse.ArgumentParser:
        added = commands.add_parser(name, parents=[*parents], help=help)
        added.set_defaults(call=call)
        return added

    command("shell", shell, "a prompt with history, Tab and help", common)
    ran = command("run", run, "runs a script and says where each line is refused", script, common)
    ran.add_argument("--stop", action="store_true", help="end at the first refusal")
    ran.add_argument("--summary", action="store_true", help="say how many lines were accepted and refused")
    ran.add_argument("--explain", action="store_true", help="say which names see what set and upd wrote")
    ran.add_argument("--time", action="store_true", help="say how long each line took")
    shown = command("show", show, "shows NPY files: type, fields and items, or what is wrong")
    shown.add_argument("files", metavar="FILE.npy", nargs="+")
    shown.add_argument("--all", action="store_true", help="all items, not only what fits the window")
    shown.add_argument("--check", action="store_true", help="one line for each file; bytes behind the last item are wrong too")
    packed = command("pack", pack, "makes an NPY file of raw bytes")
    packed.add_argument("file", metavar="FILE.bin")
    packed.add_argument("type", metavar="TYPE", help="the type of an item, as <i4 or T{<I:t:<h:temp:}")
    packed.add_argument("shape", metavar="SHAPE", help="the shape, as (2,3) or 40; one length may be -1")
    packed.add_argument("--offset", type=count, default=0, metavar="N", help="where the items begin (default: 0)")
    packed.add_argument("--order", choices=("C", "F"), default="C", help="the order of the items (default: C)")
    unpacked = command("unpack", unpack, "writes the items of an NPY file as raw bytes")
    unpacked.add_argument("file", metavar="FILE.npy")
    for each, name in ((packed, "FILE.npy"), (unpacked, "FILE.bin")):
        each.add_argument("-o", dest="output", metavar=name, required=True, help="the file to write")
    drawn = command("draw", draw, "draws memory line by line, as a page or as SVG", script, common)
    drawn.add_argument("-o", dest="output", metavar="PAGE.html", help="the file to write (default: standard output)")
    drawn.add_argument("--line", type=int, metavar="N", help="the line that the page opens with, or that is drawn as SVG")
    drawn.add_argument("--svg", action="store_true", help="one picture, of line N")
    add_judge(command("judge", judge, "asks array libraries cases and random scripts, and reports where they are wrong"))
    return made


def add_judge(parser: argparse.ArgumentParser) -> None:
    """The arguments of `judge`."""
    parser.add_argument("adapters", nargs="*", metavar="ADAPTER", help="a Python file with an adapter of a library")
    parser.add_argument("--pipe", action="append", default=[], metavar="COMMAND", help="a program that answers questions as JSON lines")
    parser.add_argument("--only", default="", metavar="WORD", help="the cases with this in their id or feature, or `random`")
    parser.add_argument("--needs", default="", metavar="WORDS", help="the cases that need all of these, as masks,views")
    parser.add_argument("--seconds", type=float, default=30, metavar="N", help="how long random scripts are asked (default: 30)")
    parser.add_argument("--seed", type=int, default=1, metavar="N", help="the seed of the random scripts (default: 1)")
    parser.add_argument("--processes", type=int, default=2, metavar="N", help="processes of each library (default: 2)")
    parser.add_argument("--all", action="store_true", help="show also what a library refuses")
    parser.add_argument("--cases", metavar="FOLDER", help="other cases than those that come with bench-tool")
    parser.add_argument("--expect", metavar="FILE", help="known findings, which do not count")
    parser.add_argument("--update", action="store_true", help="write the findings to the file of --expect")
    for name, form in (("json", "JSON"), ("junit", "JUnit XML"), ("html", "a page")):
        parser.add_argument(f"--{name}", metavar="FILE", help=f"write the report as {form}")


# Each command loads its module when it is called: so none takes the time to load those of the others.

def shell(words: argparse.Namespace) -> int:
    from .shell import shell as called
    return called(words)


def run(words: argparse.Namespace) -> int:
    from .runs import run as called
    return called(words)


def show(words: argparse.Namespace) -> int:
    from .show import show as called
    return called(words)


def pack(words: argparse.Namespace) -> int:
    from .raw import pack as called
    return called(words)


def unpack(words: argparse.Namespace) -> int:
    from .raw import unpack as called
    return called(words)


def draw(words: argparse.Namespace) -> int:
    from .page import draw as called
    return called(words)


def judge(words: argparse.Namespace) -> int:
    from .judge import judge as called
    return called(words)


def ended(number: int, _: Any) -> None:
    """A signal ends this program and the programs that it started; a second signal changes nothing."""
    for each in SIGNALS:
        signal.signal(each, signal.SIG_IGN)
    sys.exit(128 + number)


def called(words: argparse.Namespace, arguments: Optional[Sequence[str]]) -> int:
    """Carries out what the arguments ask for, and flushes the output."""
    try:
        parser().parse_args(arguments, words)
        if words.call:
            return int(words.call(words))
        say(parser().format_help().removesuffix("\n"))
        return 2
    finally:
        sys.stdout.flush()


def main(arguments: Optional[Sequence[str]] = None) -> int:
    """Carries out the command line and returns the exit status. No exception leaves it."""
    open_streams()
    for number in SIGNALS:
        if signal.getsignal(number) is not signal.SIG_IGN:
            signal.signal(number, ended)
    words = argparse.Namespace(call=None)
    try:
        return called(words, arguments)
    except BenchError as fault:
        # The program says itself why it ends with 3.
        if words.call is not run or getattr(fault, "status", 0) != 3:
            say(f"bench-tool: {printable(str(fault), 500)}")
    except OSError as fault:
        # Nothing that is left may be written at the end.
        os.dup2(os.open(os.devnull, os.O_WRONLY), 1)
        said = "a standard stream is closed" if fault.errno == errno.EBADF else fault.strerror or str(fault)
        named = f": {os.fsdecode(fault.filename)}" if fault.filename else ""
        say("bench: write fault" if words.call is run else f"bench-tool: {printable(said + named)}")
    except MemoryError:
        say("bench-tool: out of memory")
    except Exception as fault:
        say(f"bench-tool: {printable(defect(fault), 500)}")
    finally:
        drop_unwritten()
        for number in SIGNALS:
            if signal.getsignal(number) is ended:  # (an exception has no place where Python itself ends)
                signal.signal(number, signal.SIG_DFL)
    return 3
