"""`Session` behind a pipe and in the process: the same replies, arrays and files. test_library.py does the same with random scripts."""
import doctest
import os
import subprocess
import sys
import unittest
from pathlib import Path

from trials.companion_trials import COMPANION, PROGRAM, needs_program, numpy_or_none
import bench_tool.bench
from bench_tool import BenchError, Info, ProgramEnded, Refused, Session, library

numpy = numpy_or_none()
LIBRARY = library.loaded()
needs_library = unittest.skipUnless(LIBRARY, "there is no libbench here")
needs_numpy = unittest.skipUnless(numpy, "NumPy is not installed")


def arrays():
    """Arrays of many types, shapes and strides."""
    base = numpy.arange(24, dtype="<i4").reshape(2, 3, 4)
    for dtype in ("<i4", ">i2", "|u1", "<u8", ">u4", "|i1", "<i8"):
        yield numpy.arange(6).astype(dtype).reshape(2, 3)
    yield from (base[:, ::-1], base.T, base[::-1, :, ::2], base[1], base[:, :0], base[0, 0, 0], numpy.asfortranarray(base[0]), base[..., None])
    yield from (numpy.array(7, ">i8"), numpy.array([], "<u2"), numpy.array([True, False]), numpy.zeros((0, 3, 0), "|i1"))
    yield numpy.array([b"ab", b"", b"a\0c"], "S4")
    record = numpy.array([(1, b"x", (True, -2)), (2, b"y", (False, 3))], [("n", "<i4"), ("s", "S2"), ("r", [("t", "?"), ("h", ">i2")])])
    yield from (record, record[::-1], record["r"], record["n"][1:])


@needs_program
class Piped(unittest.TestCase):
    """What holds of both kinds, of the one behind a pipe."""

    WORDS = {"program": PROGRAM}

    def session(self, **words):
        session = Session(**self.WORDS, **words)
        self.addCleanup(session.close)
        return session

    def test_replies(self):
        bench = self.session(undo=1)
        self.assertEqual([reply.text for reply in bench.run("a = zeros <i4 (2)\n\nb = a[2]\n#\nundo\r\nundo")],
                         ["ok a <i4 (2,) new", "", "no E11 index out of range", "", "ok undo", "no E26 nothing to undo"])
        self.assertEqual(bench.send("names").text, "names")

    def test_parts(self):
        """A long reply comes in parts, and of its text there is the beginning."""
        bench, parts = self.session(), []
        bench.send("a = zeros |u1 (50000)")
        text = bench.send("print a", parts.append).text
        self.assertTrue(text.startswith("[0 0") and len(text) <= 256)
        self.assertEqual(b"".join(parts), b"[" + b" ".join([b"0"] * 50000) + b"]\n")
        self.assertEqual(bench.ask("print a").encode() + b"\n", b"".join(parts))

    def test_refused(self):
        with self.assertRaises(Refused) as caught:
            self.session().run(["a = zeros <i4 (2)", "print b", "a = zeros <i4 (3)"], check=True)
        self.assertEqual((caught.exception.line, caught.exception.code, caught.exception.text), ("print b", "E06", "no E06 unknown name"))

    def test_batch(self):
        bench = self.session()
        lines = ["a = arange <i4 0 9 1", "m = reshape a (3,3)", "", "print m", "~", "\x7f", "print b"] + ["info a"] * 3000
        replies = bench.batch(lines)
        self.assertEqual(replies[:7], [bench.send(line).text for line in lines[:1]] + ["ok m <i4 (3, 3) view", "", "[[0 1 2]\n [3 4 5]\n [6 7 8]]", "no E03 syntax",
                                                                                     "no E02 byte not allowed", "no E06 unknown name"])
        self.assertEqual(replies[7:], ["info a <i4 (9,) strides (4,) at 0 order CF write yes"] * 3000)
        self.assertEqual(bench.batch([]), [])
        for call in (lambda: bench.batch(["names\nnames"]), lambda: bench.send("names\nnames")):
            self.assertRaises(ValueError, call)

    def test_names(self):
        bench = self.session()
        bench.batch(["b = arange <i4 0 6 1", "a = b[::-2]"])
        self.assertEqual((bench.names(), bench.info("a")), (["b", "a"], Info("a", "<i4", (3,), (-8,), 20, "-", True)))
        with self.assertRaises(Refused):
            bench.info("c")

    @needs_numpy
    def test_arrays(self):
        bench = self.session()
        for array in arrays():
            bench.put("x", array)
            found = bench.get("x")
            self.assertEqual((found.dtype, found.shape, found.tolist()), (array.dtype, array.shape, array.tolist()))
            self.assertEqual(bench.array("x").tolist(), array.tolist())
        self.assertEqual(list(bench.files), [])
        self.assertEqual(bench.ask("undo"), "ok undo")
        bench.get("x")[...] = 0
        for wrong in (numpy.zeros(2, "<f8"), numpy.zeros((1,) * 33, "<i4") if numpy.lib.NumpyVersion(numpy.__version__) >= "2.0.0" else numpy.zeros(2, "M8[s]")):
            with self.assertRaises(Refused):
                bench.put("y", wrong)
        for wrong, said in ((numpy.zeros(2, "<f8"), "no E05 descriptor left out: put('y', ..) of dtype float64: bench has no floats: the type is <f8"),
                            (numpy.zeros(2, [("x", "<i2", (3,))]), "field x has the shape (3,), which bench does not have"), (numpy.array(["a"]), "bench has no Unicode strings")):
            with self.assertRaises(Refused) as caught:
                bench.put("y", wrong)
            self.assertIn(said, str(caught.exception))
        for call, said in ((lambda: bench.put("no name", [1]), "no E03 syntax: put('no name', ..) of dtype int64"), (lambda: bench.get("nowhere"), "no E06 unknown name: get('nowhere')")):
            with self.assertRaises(Refused) as caught:
                call()
            self.assertEqual(str(caught.exception), said)
        with self.assertRaises(TypeError):
            bench.put("y", numpy.array([None]))
        with self.assertRaises(Refused):
            bench.get("nowhere")

    def test_files(self):
        bench = self.session()
        bench.files["b.npy"] = b"none"
        bench.batch(["a = zeros |u1 (2)", 'save a "a.npy"'])
        self.assertEqual((list(bench.files), len(bench.files)), (["a.npy", "b.npy"], 2))
        self.assertEqual((bench.files["b.npy"], bench.files["a.npy"][-3:], "c.npy" in bench.files), (b"none", b"\n\0\0", False))
        bench.files["b.npy"] = bench.files["a.npy"]
        self.assertEqual(bench.ask('b = load "b.npy"'), "ok b |u1 (2,) new rest 0")
        for wrong in ("", ".hidden", "../up", "a b", "x" * 65):
            self.assertNotIn(wrong, bench.files)
            with self.assertRaises(ValueError):
                bench.files[wrong] = b""

    def test_closed(self):
        bench = self.session()
        self.assertEqual(bench.close(), bench.close())
        for call in (lambda: bench.send("names"), lambda: bench.batch(["names"]), lambda: bench.info("a")):
            self.assertRaises(ProgramEnded, call)

    def test_files_of_a_closed_session(self):
        bench = self.session()
        bench.batch(["a = arange <i4 0 6 1", 'save a "a.npy"'])
        self.assertEqual(len(bench.files["a.npy"]), 152)
        bench.close()
        for call in (lambda: bench.files["a.npy"], lambda: bench.files["none"], lambda: list(bench.files), lambda: len(bench.files),
                     lambda: "a.npy" in bench.files, lambda: bench.files.__setitem__("b", b"x"), lambda: bench.files.get("a.npy")):
            self.assertRaises(ProgramEnded, call)

    @needs_numpy
    def test_arrays_of_a_closed_session(self):
        bench = self.session()
        bench.close()
        self.assertRaises(ProgramEnded, bench.put, "a", numpy.zeros(2, "<i4"))
        self.assertRaises(ProgramEnded, bench.get, "a")

    def test_arguments_of_other_types(self):
        for undo, raised in (("3", TypeError), (2.0, TypeError), (None, TypeError), (-1, ValueError), (65, ValueError), (1 << 70, ValueError)):
            self.assertRaises(raised, self.session, undo=undo)
        bench = self.session()
        for call in (lambda: bench.files.__setitem__("a", "text"), lambda: bench.send(5), lambda: bench.send(None), lambda: bench.batch([5])):
            self.assertRaises(TypeError, call)
        self.assertEqual(bench.ask("names"), "names")

    @needs_numpy
    def test_an_array_with_a_long_header(self):
        """Of more than the 10,000 bytes that NumPy's own reader takes."""
        bench = self.session()
        inner = "".join(f"b:{'n' * 40}{k}:" for k in range(60))
        bench.ask("a = zeros T{" + "".join(f"T{{{inner}}}:g{k}:" for k in range(4)) + "} (2)")
        bench.ask('b = field a "g2"')
        self.assertEqual(bench.get("a").dtype.itemsize, 240)
        self.assertEqual(bench.get("a").dtype["g3"].names[59], "n" * 40 + "59")
        self.assertEqual(bench.get("b").shape, (2,))


@needs_library
class Inside(Piped):
    """The same in the process."""

    WORDS = {}

    def test_where(self):
        self.assertIsNotNone(self.session()._inside)
        self.assertRaises(ValueError, self.session, undo=65)

    def test_without(self):
        """Without the library a session is the program, and nothing is left of its folder."""
        words = {**os.environ, "BENCH_LIBRARY": "", "BENCH": PROGRAM, "PYTHONPATH": str(COMPANION)}
        code = "from bench_tool import Session\nwith Session() as bench:\n  bench.files['f'] = b''\n  print(bench._inside, bench.files._place)"
        told = subprocess.run([sys.executable, "-c", code], env=words, stdout=subprocess.PIPE, check=True, text=True).stdout.split()
        self.assertEqual((told[0], Path(told[1]).exists()), ("None", False))

    @needs_numpy
    def test_examples(self):
        failed, tried = doctest.testmod(bench_tool.bench)
        self.assertEqual(failed, 0)
        self.assertGreater(tried, 9)


if __name__ == "__main__":
    unittest.main()
