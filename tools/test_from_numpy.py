"""docs/FROM-NUMPY.md, row by row, against NumPy and against the program."""
import contextlib
import io
import itertools
import os
import pathlib
import re
import subprocess
import sys
import tempfile
import unittest
import warnings

from trials.companion_trials import COMPANION, PROGRAM, TOP, environment, needs_program, numpy_or_none, share
from bench_tool import ProgramEnded, Session, language

np = numpy_or_none()
needs_numpy = unittest.skipIf(np is None, "NumPy is not installed")
PAGE = (TOP / "docs/FROM-NUMPY.md").read_text()
BLOCKS = dict(zip(("python", "bench"), re.findall(r"```(?:python)?\n(.*?)```", PAGE, re.S)))
SLICES = 2912


def rows(title):
    """The rows of the table under a title, a cell as its lines."""
    part = PAGE.split(f"\n## {title}\n", 1)[1].split("\n## ", 1)[0]
    return [[cell.strip() for cell in re.split(r"(?<!\\)\|", line)[1:-1]] for line in part.splitlines() if line.startswith("| ")][1:]


def lines_of(cell):
    return [line.replace("\\|", "|") for line in re.findall(r"`([^`]+)`", cell)]


@contextlib.contextmanager
def inside(folder):
    before = os.getcwd()
    os.chdir(folder)
    try:
        yield
    finally:
        os.chdir(before)


@needs_program
class FromNumPy(unittest.TestCase):
    def setUp(self):
        folders = [tempfile.TemporaryDirectory() for _ in range(2)]
        for folder in folders:
            self.addCleanup(folder.cleanup)
        self.ours, self.theirs = (pathlib.Path(folder.name) for folder in folders)

    def session(self, program=PROGRAM, **words):
        bench = Session(program, dir=words.pop("dir", self.ours), **words)
        self.addCleanup(bench.close)
        return bench

    def numpys(self, code):
        """The names that NumPy's code leaves, and what it prints, or the value that it is."""
        names, said, value = {"np": np}, io.StringIO(), None
        with inside(self.theirs), contextlib.redirect_stdout(said), warnings.catch_warnings():
            warnings.simplefilter("ignore")
            exec(BLOCKS["python"], names)
            if re.search(r"(?<![=<>])=(?!=)|^print|^np.save|^del", code):
                exec(code, names)
            else:
                value = eval(code, names)
        return {name: array for name, array in names.items() if isinstance(array, (np.ndarray, np.generic))}, said.getvalue(), value

    def compare(self, name, array, bench):
        told, array = bench.array(name), np.asarray(array)
        type_ = {"T{<i:x:<h:y:}": "|V6"}.get(told.type, told.type)
        self.assertEqual((type_, told.shape, told.tolist()), (array.dtype.str, array.shape, array.tolist()), name)

    @needs_numpy
    def test_side_by_side(self):
        self.assertGreaterEqual(len(rows("Side by side")), 30)
        for numpy_cell, bench_cell in rows("Side by side"):
            with self.subTest(numpy_cell):
                bench = self.session()
                replies = bench.run([*BLOCKS["bench"].splitlines(), *lines_of(bench_cell)])
                self.assertEqual([reply.text for reply in replies if not reply.accepted], [])
                names, said, value = self.numpys(lines_of(numpy_cell)[0])
                self.assertEqual([name for name in bench.names() if name != "t"], list(names))
                for name, array in names.items():
                    self.compare(name, array, bench)
                if said:
                    self.assertEqual(replies[-1].text, said[:-1])
                if isinstance(value, bool):
                    self.assertEqual(replies[-1].text, f"shares {'yes' if value else 'no'}")
                elif value is not None:
                    self.assertIn(f" {value} strides " if numpy_cell.endswith(".shape`") else f" strides {value} ", replies[-1].text)
                files = [{path.name: path.read_bytes() for path in folder.iterdir()} for folder in (self.ours, self.theirs)]
                self.assertEqual(*files)

    def refused(self, code, cell):
        """The code of the last of the lines; those that the page tells in words are made here."""
        header = b"{}".ljust(53) + b"\n"
        of_ones = b"{'descr':'|u1','fortran_order':False,'shape':(1,)}".ljust(53) + b"\n"
        files = {"E28": b"", "E29": b"\x93NUMPY\x03\0", "E30": b"\x93NUMPY\x01\0\x36\0" + header, "E31": b"\x93NUMPY\x01\0\x36\0" + of_ones}
        if code in files:
            (self.ours / "a").write_bytes(files[code])
        if code == "E35":
            with open(self.ours / "a", "wb") as file:
                file.truncate(536_870_913)
        before = {"E07": [f"a{k} = zeros ? ()" for k in range(1024)], "E27": ["a = zeros ? ()"]}.get(code, [])
        lines = {"E01": [" " * 65537], "E07": ["a = zeros ? ()"]}.get(code) or lines_of(cell.split("`, ")[0] + "`")
        program, folder = PROGRAM, self.ours / "nowhere" if code == "E27" else self.ours
        if code == "E40":
            program = str(self.theirs / "short")
            pathlib.Path(program).write_text(f'#!/bin/sh\nulimit -v 100000\nexec {PROGRAM} "$@"\n')
            os.chmod(program, 0o755)
        try:
            bench = self.session(program, dir=folder)
        except ProgramEnded:
            self.skipTest(f"this program does not start with as little memory as {code} wants")
        replies = bench.run(before + lines)
        (self.ours / "a").unlink(missing_ok=True)
        self.assertEqual([reply.code for reply in replies[:-1]], [""] * (len(replies) - 1))
        return replies[-1]

    def test_every_code(self):
        table = rows("Every code")
        self.assertEqual([code for code, _ in table], list(language.codes()))
        for code, cell in table:
            with self.subTest(code):
                self.assertEqual(self.refused(code, cell).text, f"no {code} {language.codes()[code][0]}")

    @unittest.skipUnless(np is not None and np.__version__ == "1.24.2", "NumPy 1.24.2 is not installed")
    def test_something_else(self):
        for what, code, theirs, cell, ours in rows("Where NumPy does something else"):
            with self.subTest(what):
                self.assertEqual(f"`{self.shown(lines_of(code)[0])}`", theirs)
                replies = self.session().run([*BLOCKS["bench"].splitlines(), *lines_of(cell)])
                self.assertEqual(f"`{replies[-1].text}`", ours)

    def shown(self, code):
        """What the last expression of some code of NumPy shows, or the name of the exception."""
        names = {"np": np}
        exec(BLOCKS["python"], names)
        *first, last = code.split("; ")
        with warnings.catch_warnings():
            warnings.simplefilter("ignore")
            try:
                for statement in first:
                    exec(statement, names)
                return str(eval(last, names))
            except Exception as fault:
                return type(fault).__name__

    def test_open_or_wrong(self):
        for cell, ours, theirs, _ in rows("Where NumPy's result is undefined, or wrong"):
            lines = lines_of(cell)
            with self.subTest(lines):
                bench = self.session()
                replies = bench.run([*lines, f"print {'x' if lines[-1].startswith('x') else 'a'}"])
                self.assertEqual(f"`{replies[-1].text}`", ours)
                if np is not None and np.__version__ == "1.24.2":
                    self.assertEqual(f"`{self.in_numpy(lines)}`", theirs)

    def in_numpy(self, lines):
        """The same in NumPy, for the few forms that the table has."""
        names = {}
        makes = {
            "arange": lambda type_, start, stop, _: np.arange(int(start), int(stop), dtype=type_),
            "full": lambda type_, shape, value: np.full(int(shape[1:-1]), eval(value), type_),
            "array": lambda type_, _, *values: np.array(list(map(int, values)), type_),
        }
        signs = {"eq": np.equal, "gt": np.greater, "fdiv": np.floor_divide, "shl": np.left_shift, "shr": np.right_shift}
        for line in lines:
            name, _, verb, *words = line.split()
            if name == "set":
                exec(line[4:], names)
            elif verb in makes:
                names[name] = makes[verb](*words)
            else:
                left = names[words[0]]
                with np.errstate(all="ignore"):
                    names[name] = signs[verb](left, names[words[1]] if words[1] in names else np.array(int(words[1]), left.dtype))
        return str(names["x"] if "x" in names else names["a"])

    def test_slices_onto_slices(self):
        pairs = []
        for length in range(1, 8):
            bounds = [None, *range(-length, length + 1)]
            named = {}
            for start, stop, step in itertools.product(bounds, bounds, [-3, -2, -1, 1, 2, 3]):
                named[tuple(range(length))[slice(start, stop, step)]] = (start, stop, step)
            pairs += [(length, named[one], named[two]) for one in named for two in named if one and len(one) == len(two)]
        self.assertEqual(len(pairs), SLICES)
        self.assertIn(f"{SLICES:,} pairs", PAGE)
        wrong, bench = 0, self.session(undo=0)
        for number, (length, one, two) in enumerate(pairs):
            values = list(range(length))
            values[slice(*one)] = list(range(length))[slice(*two)]
            if np is not None:
                array = np.arange(length)
                array[slice(*one)] = array[slice(*two)]
                wrong += array.tolist() != values
            if number % share(8, 1) == 0:
                first, second = (":".join("" if part is None else str(part) for part in items) for items in (one, two))
                bench.run([f"a = arange <i8 0 {length} 1", f"set a[{first}] = a[{second}]"])
                self.assertEqual(list(bench.array("a").items), values)
        if np is not None and np.__version__ == "1.24.2":
            self.assertIn(f"wrongly in {wrong} of them", PAGE)


@needs_program
class Judge(unittest.TestCase):
    def test_page(self):
        """The unittest of docs/COMPANION.md runs, and is of ten lines or so."""
        page = (TOP / "docs/COMPANION.md").read_text()
        code = re.search(r"```python\n(import unittest.*?)```", page, re.S)[1]
        self.assertLessEqual(len([line for line in code.splitlines() if line.strip()]), 13)
        with tempfile.TemporaryDirectory() as folder:
            pathlib.Path(folder, "test_shifts.py").write_text(code)
            done = subprocess.run([sys.executable, "-m", "unittest", "test_shifts"], cwd=folder, capture_output=True, text=True,
                                  env=environment(PYTHONPATH=str(COMPANION)))
        self.assertEqual(done.returncode, 0, done.stderr)
        self.assertIn("Ran 1 test", done.stderr)


if __name__ == "__main__":
    unittest.main()
