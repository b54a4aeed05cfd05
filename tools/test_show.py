"""`bench-tool show`: what load, info, format and print say of a file."""
import math
import os
import random
import re
import subprocess
import unittest

from trials.companion_trials import PROGRAM, TOOL, InFolder, environment, needs_program, numpy_or_none, share, tool_here
from bench_tool import Session


@needs_program
class Shows(InFolder):
    def setUp(self):
        super().setUp()
        with Session(PROGRAM, dir=self.folder) as bench:
            bench.run("a = arange <i4 0 2000 1\nm = reshape a (100,20)\nsave m \"m.npy\"\nsave a \"a.npy\"")
            bench.run("r = array T{b:x:2s:s:} (2) (1,b'ab') (-2,b'c')\nsave r \"r.npy\"")
            self.whole = bench.send("print m").text

    def show(self, *words, **size):
        return self.tool("show", *words, **size)

    def tool(self, *words, **size):
        """What bench-tool writes in the folder."""
        output, told, status = tool_here(*words, where=self.folder, **size)
        return output.decode(), told.decode(), status

    def test_record(self):
        """The fields with types and offsets, and one record a line with the byte where it begins."""
        self.assertEqual(self.show("r.npy"), (
            "r.npy: records of 3 bytes (2,), C order; items from byte 128, 6 bytes\n  field  type  byte\n  x      |i1      0\n  s      |S2      1\n"
            "at        x  s\n128  [0]   1  b'ab'\n131  [1]  -2   b'c'\n".replace("x  s\n", " x      s\n").replace("1  b'ab'", "1  b'ab'"), "", 0))

    def test_nested_records_in_fortran_order(self):
        with Session(PROGRAM, dir=self.folder) as bench:
            for line in ("r = zeros T{h:a:T{B:c:2s:d:}:b:x:} (2,2)", "f = copy r F", "set f[1,0] = (1,(2,b'z'))"):
                bench.send(line)
            bench.run("r = zeros T{<h:a:T{B:c:2s:d:}:b:} (2,2)\nf = copy r F\nset f[1,0] = (1,(2,b'z'))\nsave f \"f.npy\"")
        shown = self.show("f.npy")[0].splitlines()
        self.assertEqual(shown[0], "f.npy: records of 5 bytes (2, 2), Fortran order; items from byte 128, 20 bytes")
        self.assertEqual(shown[2:5], ["  a      <i2      0", "  b.c    |u1      2", "  b.d    |S2      3"])
        self.assertEqual([line.split() for line in shown[6:]], [["128", "[0,", "0]", "0", "0", "b''"], ["138", "[0,", "1]", "0", "0", "b''"],
                                                               ["133", "[1,", "0]", "1", "2", "b'z'"], ["143", "[1,", "1]", "0", "0", "b''"]])

    def test_many_records(self):
        with Session(PROGRAM, dir=self.folder) as bench:
            bench.run("a = arange <i4 0 3000 1\nr = zeros T{<i:x:B:y:} (3000)\nx = field r \"x\"\nset x[:] = a\nsave r \"big.npy\"")
        cut, _, _ = self.show("big.npy", LINES="16", COLUMNS="60")
        self.assertEqual([line.split()[:3] for line in cut.splitlines()[5:8] + cut.splitlines()[-3:-1]],
                         [["128", "[0]", "0"], ["133", "[1]", "1"], ["138", "[2]", "2"], ["15118", "[2998]", "2998"], ["15123", "[2999]", "2999"]])
        self.assertIn("records ...", cut)
        whole = self.show("big.npy", "--all")[0]
        self.assertEqual([line.split()[2] for line in whole.splitlines() if " [" in line], list(map(str, range(3000))))

    def test_all(self):
        shown, _, status = self.show("m.npy", "--all", LINES="10", COLUMNS="40")
        self.assertEqual((shown.split("\n", 1)[1], status), (self.whole + "\n", 0))

    def test_cut_to_a_screen(self):
        for file in ("m.npy", "a.npy"):
            lines = self.show(file, LINES="10", COLUMNS="40")[0].splitlines()
            self.assertLess(len(lines), 10)
            self.assertLessEqual(max(map(len, lines[1:])), 40)
            self.assertEqual(lines[-1], "(cut to the screen; --all shows all)")
        self.assertEqual(lines[:2], ["a.npy: <i4 (2000,), C order; items from byte 128, 8000 bytes", "[   0    1    2  ... 1997 1998 1999]"])

    def test_no_fault_where_it_is_cut(self):
        for _ in range(4):
            self.assertEqual(self.show("m.npy", LINES="10", COLUMNS="40")[1:], ("", 0))

    def test_whole_where_there_is_room(self):
        self.assertEqual(self.show("m.npy", LINES="200", COLUMNS="200")[0].split("\n", 1)[1], self.whole + "\n")

    def test_bytes_behind_the_last_item(self):
        path = self.folder / "a.npy"
        path.write_bytes(path.read_bytes() + b"more")
        self.assertIn("8000 bytes; 4 bytes follow the last item\n", self.show("a.npy", COLUMNS="200")[0])

    def test_several_files(self):
        (self.folder / "no.npy").write_bytes(b"none")
        shown, told, status = self.show("r.npy", "no.npy", "m.npy")
        self.assertEqual((shown.count("items from byte"), told.splitlines()[0], status), (2, "no.npy: E28 bad magic", 1))

    def test_check(self):
        """A line for each file, and a status; what stands behind the last item is wrong too."""
        (self.folder / "no.npy").write_bytes(b"none")
        (self.folder / "rest.npy").write_bytes((self.folder / "a.npy").read_bytes() + b"x")
        self.assertEqual(self.show("--check", "r.npy", "m.npy"), ("r.npy: records of 3 bytes (2,): ok\nm.npy: <i4 (100, 20): ok\n", "", 0))
        self.assertEqual(self.show("--check", "no.npy", "a.npy", "rest.npy", "nowhere.npy"),
                         ("no.npy: E28 bad magic: not an NPY file: it begins with b'none'\na.npy: <i4 (2000,): ok\n"
                          "rest.npy: <i4 (2000,); 1 byte follows the last item\nnowhere.npy: E34 no such file\n", "", 1))

    def test_any_path(self):
        (self.folder / "in here").mkdir()
        (self.folder / "r.npy").rename(self.folder / "in here" / "a name, of its own")
        self.assertEqual(self.show("in here/a name, of its own")[2], 0)

    def header(self, text, version=1, items=b""):
        """An NPY file with a header of this text."""
        count = len(text).to_bytes(2 if version == 1 else 4, "little")
        (self.folder / "f.npy").write_bytes(b"\x93NUMPY" + bytes([version, 0]) + count + text.encode() + items)
        return self.show("f.npy")

    def test_refused(self):
        """What a file is that is refused, by Python's reading of its header."""
        (self.folder / "no.npy").write_bytes(b"none")
        self.assertEqual(self.show("no.npy"), ("", "no.npy: E28 bad magic\n    not an NPY file: it begins with b'none'\n", 1))
        (self.folder / "no.npz").write_bytes(b"PK\x03\x04none")
        self.assertIn("a ZIP file, like every NPZ file", self.show("no.npz")[1])
        self.assertEqual(self.show("nowhere.npy"), ("", "nowhere.npy: E34 no such file\n", 1))
        self.assertEqual(self.show("."), ("", ".: E27 store fault\n    a folder\n", 1))
        (self.folder / "l.npy").symlink_to("l.npy")
        self.assertEqual(self.show("l.npy"), ("", "l.npy: E27 store fault\n", 1))
        floats = self.header("{'descr': '<f8', 'fortran_order': True, 'shape': (3, 4), }", items=b"x" * 96)
        self.assertEqual(floats, ("", "f.npy: E05 descriptor left out\n    bench has no floats: the type is <f8\n    NPY version 1.0, header of 68 bytes\n"
                                      "    <f8 (3, 4), Fortran order, 96 bytes of items\n", 1))
        (self.folder / "fifo").unlink(missing_ok=True)
        os.mkfifo(self.folder / "fifo")
        self.assertIn("    not a regular file\n", self.show("fifo")[1])

    def test_causes(self):
        """What is said first of a header is what is wrong with it, and not what follows from that."""
        begin, good = "{'descr': '<i4', 'fortran_order': False, 'shape': ", "(3,), }"
        for text, said in [
            (begin + "(3,), 'shape': (4,), }", "the header has the key 'shape' 2 times"), (begin + "[3], }", "the shape is a list, [3], and not a tuple"),
            (begin.replace("False", "1") + good, "fortran_order is 1, and not True or False"), (begin + "(-1, 3), }", "a length of the shape is negative: (-1, 3)"),
            (begin + "('a',), }", "a length of the shape is 'a', and not an integer"), (begin + "(True,), }", "a length of the shape is True, and not an integer"),
            ("{'descr': '<i4', 'shape': (3,), }", "the header has no key 'fortran_order'"), (begin + good.replace("}", "'more': 1, }"), "the header has the key 'more'"),
            ("{__import__('os').system('id')}", "the header is not a dictionary of Python"), (begin + "(len('a'),), }", "a value of the header is not a literal"),
            (begin.replace("'<i4'", "[('x', '<U5'), ('y', '<f4', (2,))]") + good, "bench has no Unicode strings: field x is <U5"),
            (begin.replace("'<i4'", "[('y', '<i4', (2,))]") + good, "field y has the shape (2,), which bench does not have"),
            (begin.replace("'<i4'", "[(('title', 'y'), '<i4')]") + good, "field y has a title"), (begin.replace("<i4", "<M8[s]") + good, "bench has no dates: the type is <M8[s]"),
            (begin.replace("<i4", "|O") + good, "bench has no Python objects"), (begin.replace("<i4", "zz") + good, "the type is 'zz', which is no type of bench"),
            (begin + "(99999999,), }", "the shape has more than 16777216 items"), (begin + good, "5 bytes of items are missing"),
        ]:
            with self.subTest(said):
                told, status = self.header(text, items=b"x" * 7)[1:]
                self.assertIn(said, told.splitlines()[1])
                self.assertEqual(status, 1)
        self.assertIn("version 9.0: bench reads 1.0 and 2.0", self.header(begin + good, 9)[1])
        self.assertIn("version 3.0, which NumPy writes for names of fields that are not ASCII", self.header(begin + good, 3)[1])

    def test_headers_that_are_no_headers(self):
        """A shape that is none, a number of many digits, a length that would take all memory."""
        names = []
        for shape, descr in (("('a',)", "<i4"), (f"(0x{'f' * 4000},)", "<i4"), ("('a',)", "<S20000000000"), ("5", "<i4"), ("(2.5,)", "<i4"), ("{}", "<i4"),
                             ("(True,)", "<f4"), ("(None,)", "<f4"), (f"({'9' * 300},)", "<f8"), ("(-3,)", "<f8")):
            text = f"{{'descr': {descr!r}, 'fortran_order': False, 'shape': {shape}, }}"
            names.append(f"f{len(names)}.npy")
            (self.folder / names[-1]).write_bytes(b"\x93NUMPY\1\0" + len(text).to_bytes(2, "little") + text.encode() + b"\0" * 40)
        done = subprocess.run(["sh", "-c", 'ulimit -v 3000000; exec "$@"', "sh", TOOL, "show", *names], capture_output=True, text=True, env=environment(), cwd=self.folder)
        self.assertEqual(re.findall(r"^(f\d\.npy): E(?:05|30) ", done.stderr, re.M), names)
        self.assertEqual(done.returncode, 1)

    def test_damaged_headers(self):
        """No header ends it otherwise than with a code."""
        rng = random.Random(1)
        text = "{'descr': [('x', '<i4'), ('y', '|S3', (2,))], 'fortran_order': False, 'shape': (3, 4), }"
        for _ in range(share(12, 2000)):
            at = rng.randrange(len(text))
            shown = self.header(text[:at] + rng.choice(["", "(", "'", "\0", "[", "9" * 5000, "{", "None", "é"]) + text[at + rng.randrange(4):])
            self.assertRegex(shown[1], r"^f\.npy: E\d\d ")
            self.assertEqual(shown[2], 1)

    def test_pack_and_unpack(self):
        """Raw bytes become a file that bench loads, and its items are the same bytes again."""
        items = bytes(range(120))
        (self.folder / "raw.bin").write_bytes(b"head" + items)
        for kind, shape, order, size in (("<i4", "(5,6)", "C", 30), (">u2", "(-1,4)", "F", 60), ("T{<I:t:<h:temp:}", "20", "C", 20), ("|S3", "(2,-1)", "F", 40), ("u1", "()", "C", 1)):
            with self.subTest(kind):
                (self.folder / "raw.bin").write_bytes(b"head" + items[:120 if shape != "()" else 1])
                self.assertEqual(self.tool("pack", "raw.bin", kind, shape, "--offset", "4", "--order", order, "-o", "made.npy")[1:], ("", 0))
                with Session(PROGRAM, dir=self.folder) as bench:
                    self.assertIn(" rest 0", bench.ask('x = load "made.npy"'))
                    self.assertEqual(math.prod(bench.info("x").shape), size)
                    self.assertEqual("F" in bench.info("x").order, order == "F" or len(bench.info("x").shape) < 2)
                self.assertEqual(self.tool("unpack", "made.npy", "-o", "back.bin")[1:], ("", 0))
                self.assertEqual((self.folder / "back.bin").read_bytes(), items[:120 if shape != "()" else 1])

    def test_pack_where_sizes_do_not_agree(self):
        """Nothing is written, and the sizes are said."""
        (self.folder / "raw.bin").write_bytes(bytes(10))
        for words, said in (
            (["<i4", "3"], "it has 10 bytes, and (3,) items of 4 bytes are 12: 2 bytes missing"), (["<i4", "2"], "it has 10 bytes, and (2,) items of 4 bytes are 8: 2 bytes left over"),
            (["<i4", "1", "--offset", "3"], "it has 7 bytes from byte 3 on, and (1,) items of 4 bytes are 4: 3 bytes left over"),
            (["<i4", "3,-1"], "2 items cannot be divided into 3,-1"), (["<f4", "2"], "bench has no floats: the type is <f4"), (["zz", "2"], "the type is 'zz', which is no type of bench"),
            (["<i4", "two"], "a shape is written as (2,3) or 40, not as two"), (["<i4", "1", "--offset", "30"], "it has 10 bytes, and --offset is 30"),
        ):
            self.assertEqual(self.tool("pack", "raw.bin", *words, "-o", "made.npy"), ("", f"raw.bin: {said}\n", 1))
        self.assertFalse((self.folder / "made.npy").exists())
        (self.folder / "cut.npy").write_bytes((self.folder / "a.npy").read_bytes()[:-5])
        self.assertEqual(self.tool("unpack", "cut.npy", "-o", "made.bin"), ("", "cut.npy: 5 bytes of items missing\n", 1))
        nowhere = subprocess.run([TOOL, "pack", "nowhere.bin", "<i4", "1", "-o", "x"], capture_output=True, env=environment(), cwd=self.folder)
        self.assertEqual((nowhere.stdout, nowhere.returncode), (b"", 3))
        self.assertEqual(self.tool("pack", ".", "<i4", "1", "-o", "x")[1], ".: not a regular file\n")

    @unittest.skipUnless(numpy_or_none(), "NumPy is not installed")
    def test_packed_files_are_numpys(self):
        import numpy
        array = numpy.arange(24, dtype="<i4").reshape(4, 6)
        for order in "CF":
            (self.folder / "raw.bin").write_bytes(array.tobytes(order))
            self.tool("pack", "raw.bin", "<i4", "4,6", "--order", order, "-o", "made.npy")
            self.assertEqual(numpy.load(self.folder / "made.npy").tolist(), array.tolist())
            numpy.save(self.folder / "saved.npy", numpy.asarray(array, order=order))
            self.assertEqual((self.folder / "made.npy").read_bytes(), (self.folder / "saved.npy").read_bytes())

    def test_names_are_printable(self):
        name = "e\x1b[31mv.npy"
        self.assertEqual(self.show(name)[1], "e\\x1b[31mv.npy: E34 no such file\n")


if __name__ == "__main__":
    unittest.main()
