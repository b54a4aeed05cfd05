"""`show FILE.npy ..`: the type, the layout and the items of NPY files, or why they are refused; with --check one line for each."""
import argparse
import os
import sys
import tempfile
from itertools import islice
from math import prod
from pathlib import Path
from typing import Any, Iterator, Sequence

from . import item_types
from .header import MAGIC, counted, explained
from .session import Array, Session, literal
from .terminal import Window, printable, room, say

__all__ = ["MAGIC", "explained", "show"]
AT_ONCE = 1000  # records that are read at a time


def leaves(kind: item_types.ItemType, name: str = "", at: int = 0) -> Iterator[tuple[str, item_types.ItemType, int]]:
    """The values of a record, each with its name and its first byte; a field of a field is `x.y`."""
    for field in kind.fields:
        inner = f"{name}.{field.name}" if name else field.name
        if field.type.fields:
            yield from leaves(field.type, inner, at + field.offset)
        else:
            yield inner, field.type, at + field.offset


def flat(record: Any) -> list[Any]:
    return [value for each in record for value in flat(each)] if isinstance(record, tuple) else [record]


def table(rows: Sequence[Sequence[str]], left: int) -> list[str]:
    """Rows as columns, of which the first ones are at the left."""
    widths = [max(map(len, column)) for column in zip(*rows)]
    return ["  ".join(cell.ljust(width) if k < left else cell.rjust(width) for k, (cell, width) in enumerate(zip(row, widths))).rstrip() for row in rows]


def place_of(number: int, array: Array, is_fortran: bool) -> tuple[tuple[int, ...], int]:
    """The index of a record, by its number in C order, and its number in the file."""
    index, rest = [], number
    for length in reversed(array.shape):
        index.append(rest % length)
        rest //= length
    index.reverse()
    if not is_fortran:
        return tuple(index), number
    return tuple(index), sum(at * prod(array.shape[:axis]) for axis, at in enumerate(index))


def records(session: Session, numbers: range) -> Iterator[Any]:
    """Some records of x by their numbers in C order, which follow one another."""
    session.ask("flat = reshape x (-1)")
    for begin in range(numbers.start, numbers.stop, AT_ONCE):
        session.ask(f"part = flat[{begin}:{min(begin + AT_ONCE, numbers.stop)}]")
        yield from session.array("part").items


def record_rows(session: Session, array: Array, first: int, is_fortran: bool, numbers: range) -> Iterator[list[str]]:
    """The rows of some records: where they begin in the file, their index, and their values."""
    size = item_types.read(array.type).size
    for number, record in zip(numbers, records(session, numbers)):
        index, at = place_of(number, array, is_fortran)
        yield [str(first + at * size), f"[{', '.join(map(str, index))}]", *map(literal, flat(record))]


def show_records(session: Session, array: Array, first: int, is_fortran: bool, is_whole: bool) -> None:
    """The fields with their types and offsets, and one record a line."""
    fields, count = list(leaves(item_types.read(array.type))), prod(array.shape)
    print("\n".join("  " + line for line in table([("field", "type", "byte"), *((printable(name), str(of), str(at)) for name, of, at in fields)], 2)))
    head = ["at", "", *(printable(name) for name, _, _ in fields)]
    lines, columns = room()
    most = max(4, lines - len(fields) - 8)
    if is_whole:
        found = record_rows(session, array, first, is_fortran, range(count))
        while rows := list(islice(found, AT_ONCE)):
            print("\n".join(table([head, *rows], 2)))
        return
    parts = [range(count)] if count <= most else [range(most // 2), range(count - (most - most // 2 - 1), count)]
    told = table([head, *(row for part in parts for row in record_rows(session, array, first, is_fortran, part))], 2)
    told[1 + len(parts[0]):1 + len(parts[0])] = [f"... {count - len(told) + 1} records ..."] * (len(parts) > 1)
    print("\n".join(line if len(line) <= columns else line[:columns - 3] + "..." for line in told))
    print(end="(cut to the screen; --all shows all)\n" * (len(parts) > 1))


def show_items(session: Session, is_whole: bool) -> None:
    if is_whole:
        session.send("print x", sys.stdout.buffer.write)
        return
    lines, columns = room()
    window = Window(lines - 3, columns)
    session.send("print x", window.take)
    print("\n".join([*window.lines(), *["(cut to the screen; --all shows all)"] * window.is_cut]))


def show_file(session: Session, name: str, path: Path, words: argparse.Namespace, rest: int) -> bool:
    """Shows a file that was loaded as x; answers False where it is not as --check wants it."""
    array = session.array("x", items=False)
    size, is_record = item_types.read(array.type).size, array.type.startswith("T")
    told = f"{name}: {f'records of {size} bytes' if is_record else array.type} {array.shape}"
    follow = f"; {counted(rest, 'byte')} follow{'s' * (rest == 1)} the last item" * bool(rest)
    if words.check:
        print(f"{told}{follow or ': ok'}")
        return not rest
    count = prod(array.shape) * size
    first, is_fortran = path.stat().st_size - rest - count, array.order == "F"
    print(f"{told}, {'Fortran' if is_fortran else 'C'} order; items from byte {first}, {counted(count, 'byte')}{follow}", flush=True)
    if is_record:
        show_records(session, array, first, is_fortran, words.all)
    else:
        show_items(session, words.all)
    return True


def refuse(name: str, path: Path, code: str, words: argparse.Namespace) -> None:
    """Says why a file is refused."""
    told = explained(os.fspath(path))
    if words.check:
        print(f"{name}: {code}{f': {told[0]}' if told else ''}")
        return
    sys.stdout.flush()
    say(f"{name}: {code}")
    for text in told:
        say(f"    {text}")


def show(words: argparse.Namespace) -> int:
    """Shows each file, or why it is refused. The status is 1 if one is refused, or with --check has bytes behind its last item."""
    is_right = True
    with tempfile.TemporaryDirectory(prefix="bench-") as folder, Session(undo=0, dir=folder) as session:
        link = Path(folder, "file.npy")  # a name of the program's own, so that the file may have any
        for k, file in enumerate(words.files):
            path, name = Path(file).absolute(), printable(file)
            print(end="\n" * (k > 0 and not words.check))
            link.unlink(missing_ok=True)
            if os.path.lexists(path):
                os.symlink(path, link)
            load = session.send('x = load "file.npy"')
            if load.accepted:
                is_right &= show_file(session, name, path, words, int(load.text.rpartition(" ")[2]))
            else:
                refuse(name, path, f"{load.code} {load.meaning}", words)
                is_right = False
    return 0 if is_right else 1
