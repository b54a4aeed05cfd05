"""The companion of bench: a prompt, scripts with a place for each refusal, files looked at, pictures of memory."""
from typing import Any

from .bench import Info, Session
from .commands import Command
from .parsing import ParseError, parse
from .session import Array, BenchError, ProgramEnded, ProgramMissing, Refused, Reply

__all__ = ["Array", "BenchError", "Command", "Info", "ParseError", "ProgramEnded", "ProgramMissing", "Refused", "Reply", "Session", "parse"]
__version__ = "1.0"


def load_ipython_extension(shell: Any) -> None:
    """Called by `%load_ext bench_tool`."""
    from .notebook import load
    load(shell)


def unload_ipython_extension(shell: Any) -> None:
    """Called by `%unload_ext bench_tool`."""
    from .notebook import unload
    unload(shell)
