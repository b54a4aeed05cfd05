"""The rows of tools/rows/ and the scripts of examples/: each is replied what stands there, as a file and as standard input.

A row begins with a line `== title`. `> ` stands before a command, and behind it are the lines of its reply. A line may also say

    words: WORD ..         words of the program
    status: N              its status, if not 0, or 1 where a command is refused
    stderr: TEXT           what it says on standard error; if there is no such line and the status is 0 or 1, nothing
    let NAME = EXPRESSION      in Python, for those below in the row
    file NAME = EXPRESSION     a file that is there first, as bytes, or as `zeros(N)`
    left NAME = EXPRESSION     a file that is there afterwards; the other files stay as they are, and no more come
    files EXPRESSION           files that are there first, in a dict
    >= EXPRESSION, <= EXPRESSION    a line of the script, or of the replies, or a list of such, as bytes or text
"""
import pathlib
import re
import subprocess
import tempfile
import unittest

from trials.companion_trials import PATIENT, PROGRAM, TOP, needs_program

ROWS = TOP / "tools/rows"


class zeros(int):
    """That many zeros, which take no place in a file."""


def npy(header, data="", version=1, length=None):
    """A NPY file: its header, filled up with blanks to a length, in all a multiple of 64 where none is told, and the bytes of its items in hexadecimal."""
    lead = 6 + 2 + (2 if version == 1 else 4)
    length = length or -(-(lead + len(header) + 1) // 64) * 64
    text = header.ljust(length - lead - 1).encode("latin-1") + b"\n"
    return b"\x93NUMPY" + bytes([version, 0]) + len(text).to_bytes(lead - 8, "little") + text + bytes.fromhex(data)


def as_lines(value):
    """A line, or a list of lines, as a list of bytes."""
    return [line.encode() if isinstance(line, str) else line for line in (value if isinstance(value, list) else [value])]


class Row:
    def __init__(self, text):
        self.title, *lines = text.split("\n")
        self.words, self.status, self.stderr, self.script, self.replies, self.files, self.left = [], None, None, [], [], {}, {}
        self.names = {"npy": npy, "zeros": zeros, "re": re}
        for line in lines:
            self.read(line)
        if self.status is None:
            self.status = int(any(line.startswith(b"no ") for line in self.replies))

    def read(self, line):
        """Takes in a line of the row. Those of its head stand before its first command."""
        told = None if self.script else re.fullmatch(r"(words|status|stderr|let|file|left|files)(?::| ([\w.-]+) =|(?= )) (.*)", line)
        if line.startswith("> "):
            self.script.append(line[2:].encode())
        elif line.startswith((">= ", "<= ")):
            {">": self.script, "<": self.replies}[line[0]].extend(as_lines(self.value(line[3:])))
        elif told:
            self.take(*told.groups())
        else:
            self.replies.append(line.encode())

    def take(self, key, name, text):
        """Takes in a line of the head."""
        if key in ("words", "status", "stderr"):
            setattr(self, key, {"words": str.split, "status": int, "stderr": str}[key](text))
        elif key == "files":
            self.files.update(self.value(text))
        else:
            {"let": self.names, "file": self.files, "left": self.left}[key][name] = self.value(text)

    def value(self, text):
        return eval(text, self.names)


def rows(path):
    """The rows of a file. A blank line before the next row is none of a reply's."""
    return [Row(text.rstrip("\n")) for text in re.split(r"^== ", path.read_text(), flags=re.M)[1:]]


def put(path, value):
    """Writes a file, or makes it as long as it should be."""
    with open(path, "wb") as file:
        if isinstance(value, zeros):
            file.truncate(value)
        else:
            file.write(value)


@needs_program
class Rows(unittest.TestCase):
    def ran(self, row, folder, is_file):
        """The run of a row over a folder, with its script as a file or as standard input."""
        files = pathlib.Path(folder, "files")
        files.mkdir()
        for name, value in row.files.items():
            put(files / name, value)
        script = pathlib.Path(folder, "script")
        put(script, b"".join(line + b"\n" for line in row.script))
        words = [*row.words, *([str(script)] if is_file else [])]
        with open(script, "rb") as given:
            done = subprocess.run([PROGRAM, *words], cwd=files, stdin=subprocess.DEVNULL if is_file else given, capture_output=True, timeout=PATIENT)
        return done, {path.name: zeros(path.stat().st_size) if path.stat().st_size > 1 << 24 else path.read_bytes() for path in files.iterdir()}

    def hold(self, row):
        for is_file in (False, *([True] if row.script else [])):
            with tempfile.TemporaryDirectory() as folder:
                done, left = self.ran(row, folder, is_file)
            self.assertEqual(done.stdout.split(b"\n"), [*row.replies, b""])
            self.assertEqual(done.returncode, row.status)
            if row.stderr is not None or row.status < 2:
                self.assertEqual(done.stderr.decode(), f"{row.stderr}\n" if row.stderr else "")
            self.assertEqual(left, {**row.files, **row.left})


@needs_program
class Examples(unittest.TestCase):
    def hold(self, script):
        with tempfile.TemporaryDirectory() as folder:
            done = subprocess.run([PROGRAM, f"--dir={folder}", script], stdin=subprocess.DEVNULL, capture_output=True, timeout=PATIENT)
        self.assertEqual(done.stdout, script.with_suffix(".out").read_bytes())
        self.assertEqual((done.returncode, done.stderr), (int(b"\nno E" in b"\n" + done.stdout), b""))


def add(case, name, value):
    """Makes a test of a row or of a script."""
    setattr(case, "test_" + re.sub(r"\W+", "_", name).strip("_"), lambda self: self.hold(value))


for path in sorted(ROWS.glob("*.rows")):
    for found in rows(path):
        add(Rows, f"{path.stem}: {found.title}", found)
for path in sorted((TOP / "examples").glob("*.bench")):
    add(Examples, path.stem, path)

if __name__ == "__main__":
    unittest.main()
