"""`Session`: replies, arrays, and what is told where the program is missing or ends."""
import os
import tempfile
import unittest

from trials.companion_trials import PROGRAM, needs_program
from bench_tool import ProgramEnded, ProgramMissing, Refused, Session
from bench_tool.session import items_of

# What binds x; its type, shape, strides, first byte, order, whether it may be written, and its items as lists.
ARRAYS = [
    ("x = arange <i4 0 3 1", "<i4", (3,), (4,), 0, "CF", True, [0, 1, 2]),
    ("x = array |b1 (2,2) True False False True", "|b1", (2, 2), (2, 1), 0, "C", True, [[True, False], [False, True]]),
    ("x = full <u8 () 18446744073709551615", "<u8", (), (), 0, "CF", True, 18446744073709551615),
    ("x = zeros >i2 (2,0,3)", ">i2", (2, 0, 3), (0, 0, 0), 0, "CF", True, [[], []]),
    ("x = array |S4 (3) b'ab' b'\\x00\\x27' b'[, '", "|S4", (3,), (4,), 0, "CF", True, [b"ab", b"\0'", b"[, "]),
    ("x = array T{<i:x:T{2s:y:?:z:}:s:} (2) (1,(b')',True)) (-2,(b'\\x5c',0))", "T{<i:x:T{<2s:y:<?:z:}:s:}", (2,), (7,), 0, "CF",
     True, [(1, (b")", True)), (-2, (b"\\", False))]),
    ("a = arange <i4 0 5 1\nx = a[::-2]", "<i4", (3,), (-8,), 16, "-", True, [4, 2, 0]),
    ("a = full <i4 (1) 7\nx = broadcast a (1,2)", "<i4", (1, 2), (0, 0), 0, "-", False, [[7, 7]]),
    ("x = array T{<h:x:} (1,1) (5,)", "T{<h:x:}", (1, 1), (0, 0), 0, "CF", True, [[(5,)]]),
]


@needs_program
class Sessions(unittest.TestCase):
    def session(self, **words):
        bench = Session(PROGRAM, **words)
        self.addCleanup(bench.close)
        return bench

    def test_replies(self):
        bench = self.session()
        asked = ["a = arange <i4 0 4 1", "", "  # none", "~", "\x7f", "a = b", "m = reshape a (2,2)", "print m", "#" + "x" * 65536, "x" * 65536]
        told = [bench.send(line) for line in asked]
        self.assertEqual([reply.code for reply in told], ["", "", "", "E03", "E02", "E06", "", "", "E01", "E03"])
        self.assertEqual(told[7].text, "[[0 1]\n [2 3]]")
        self.assertEqual((told[1].text, told[5].text, told[5].meaning), ("", "no E06 unknown name", "unknown name"))
        self.assertEqual(bench.names(), ["a", "m"])

    def test_arrays(self):
        for lines, type_, shape, strides, at, order, writable, items in ARRAYS:
            with self.subTest(lines), Session(PROGRAM) as bench:
                self.assertTrue(all(reply.accepted for reply in bench.run(lines)))
                array = bench.array("x")
                self.assertEqual((array.type, array.shape, array.at, array.order, array.writable), (type_, shape, at, order, writable))
                self.assertEqual((array.strides, array.tolist()), (tuple(s if n > 1 else 0 for s, n in zip(strides, shape)), items))

    def test_items(self):
        self.assertEqual(items_of("[]"), ())
        self.assertEqual(items_of("[[ True False]\n [False  True]]"), (True, False, False, True))
        self.assertEqual(items_of("(1, (2,), b'a\\x00(')"), ((1, (2,), b"a\0("),))

    def test_words(self):
        with tempfile.TemporaryDirectory() as folder:
            bench = self.session(undo=1, dir=folder)
            bench.run(["a = zeros <i4 (2)", "set a[0] = 1", 'save a "a.npy"'])
            self.assertEqual(os.listdir(folder), ["a.npy"])
            self.assertEqual([reply.code for reply in bench.run("undo\nundo")], ["", "E26"])

    def test_unknown_names(self):
        with self.assertRaises(Refused) as caught:
            self.session().array("nowhere")
        self.assertEqual(caught.exception.reply.code, "E06")

    def test_program_missing(self):
        with self.assertRaises(ProgramMissing):
            Session("/nowhere/bench")

    def test_program_that_ends(self):
        with self.assertRaises(ProgramEnded) as caught:
            Session("/bin/true")
        self.assertEqual(caught.exception.status, 0)
        bench = self.session()
        bench._process.kill()
        with self.assertRaises(ProgramEnded):
            bench.send("names")

    def test_exception_in_a_reply(self):
        bench = self.session()
        with self.assertRaises(ZeroDivisionError):
            bench.send("names", lambda part: 1 // 0)
        with self.assertRaises(ProgramEnded):
            bench.send("names")


if __name__ == "__main__":
    unittest.main()
