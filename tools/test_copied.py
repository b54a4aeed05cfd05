"""Copy as NumPy, of the page: the copied text is run in NumPy, and leaves the types, the values and the shared memory that `bench` leaves.

Files are not copied, so scripts that load one are not tried. A line whose comment says `differs` ends the comparison of a script."""
import contextlib
import io
import itertools
import json
import pathlib
import random
import shutil
import subprocess
import unittest
import warnings

from trials.companion_trials import TOP, numpy_or_none, share
from bench_tool import Session, scripts

np = numpy_or_none()
ODD = [
    ["m = arange <i4 0 6 1", "m = reshape m (2,3)", "x = m[1,2]", "set m[1,2] = 99", "y = add x 1"],
    ["x = array <i8 () 7", "y = array |S9 () b'   b9'", "z = array <u2 (2,2) 007 08 +1 0"],
    ["a = arange <i4 0 3 1", "upd a[0] gt -1", "upd a[1:] le 1", "upd a[:] mul a[::-1]"],
    ["r = array T{<i:x:<h:y:} (2) (1,2) (3,4)", "y = field r \"y\"", "set r[0] = (7,8)", "s = full T{3s:a b:xT{?:n:}:in:} (2) (b' x ',(True,))"],
    ["a = zeros <i4 (3)", "set a[0] = 5", "b = a[:2]", "undo", "undo", "set a[1] = 7"],
    ["a = arange <i8 0 5 1", "set a[::2] = a[:3]", "i = array <i8 (3) 2 1 0", "set a[i] = a[:3]", "set i[i] = 0"],
    ["for = arange |u1 0 6 1", "np = reshape for (2,3)", "print = transpose np", "x = neg print", "y = reshape x (-1)"],
    ["m = arange >i2 0 24 1", "m = reshape m (2,3,4)", "t = transpose m", "i = array <i8 (2) 2 0", "x = t[:,i]", "y = reshape x (-1)", "s = sum t 0", "z = reshape s (-1)", "w = eq t t"],
]


def script(number):
    """A random script, as `bench` takes it, without files."""
    rng = random.Random(f"copied {number}")
    with Session() as bench:
        lines = [step.line for step in scripts.write(rng, lambda line: bench.send(line).text, scripts.PROFILES["small"], rng.randint(5, 25))]
    return [line for line in lines if " load " not in line and not line.startswith(("save", "info", "print", "names"))]


def numpy_texts(chosen):
    done = subprocess.run(["node", TOP / "tools/trials/page_numpy.mjs"], input=json.dumps(chosen).encode(), capture_output=True)
    assert not done.stderr, done.stderr.decode()[-2000:]
    return json.loads(done.stdout)


def is_same(one, other):
    """Whether two arrays have the same type but for the byte order of results, the same shape and the same items."""
    if one.shape != other.shape or one.dtype.newbyteorder("<") != other.dtype.newbyteorder("<"):
        return False
    return one.tolist() == other.tolist()


@unittest.skipIf(np is None, "NumPy is not installed")
@unittest.skipUnless(shutil.which("node"), "Node is not installed (Debian: nodejs)")
class Copied(unittest.TestCase):
    def compare(self, lines, text):
        names, space = {}, {}
        with Session() as bench, warnings.catch_warnings(), np.errstate(all="ignore"):
            warnings.simplefilter("ignore")
            bench.run(lines)
            try:
                with contextlib.redirect_stdout(io.StringIO()):
                    exec(compile(text, "<copied>", "exec"), space)
            except Exception as error:
                self.fail(f"{error!r}\n{text}")
            for name in bench.names():
                names[name] = space[name if name in space else name + "_"] if name not in ("np", "print", "for", "in") else space[name + "_"]
                self.assertIsInstance(names[name], np.ndarray, f"{name}\n{text}")
                self.assertTrue(is_same(bench.get(name), names[name]), f"{name}: {bench.get(name)!r} and {names[name]!r}\n{text}")
            for one, other in itertools.combinations(names, 2):
                reply = bench.send(f"shares {one} {other}")
                if reply.accepted:
                    self.assertEqual("yes" in reply.text, np.shares_memory(names[one], names[other]), f"{one} {other}\n{text}")

    def check(self, chosen):
        for lines, text in zip(chosen, numpy_texts(chosen)):
            if "# differs" not in text and "# compared" not in text:
                with self.subTest(lines=lines):
                    self.compare(lines, text)

    def test_odd_lines(self):
        self.check(ODD)

    def test_examples(self):
        self.check([[line for line in path.read_text().splitlines() if " load " not in line] for path in sorted((TOP / "examples").glob("*.bench"))])

    def test_random_scripts(self):
        self.check([script(number) for number in range(share(60, 2000))])


if __name__ == "__main__":
    unittest.main()
