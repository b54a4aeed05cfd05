"""Files that are written whole or not at all."""
import os
import tempfile
from contextlib import contextmanager, suppress
from typing import BinaryIO, Iterator


@contextmanager
def replaced(path: str) -> Iterator[BinaryIO]:
    """A file that takes the place of another when it is complete; after an exception the old one stays. Anything that is not a regular
    file is written to directly."""
    if os.path.exists(path) and not os.path.isfile(path):
        with open(path, "wb") as file:
            yield file
        return
    real = os.path.realpath(path)
    handle, part = tempfile.mkstemp(dir=os.path.dirname(real), prefix=".", suffix=".part")
    try:
        with open(handle, "wb") as file:
            yield file
        os.chmod(part, os.stat(real).st_mode & 0o777 if os.path.exists(real) else 0o666 & ~umask())
        os.replace(part, real)
    except BaseException:
        with suppress(OSError):
            os.unlink(part)
        raise


def umask() -> int:
    kept = os.umask(0o77)
    os.umask(kept)
    return kept
