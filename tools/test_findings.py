"""The findings of docs/FINDINGS.md: each file runs where its program is installed, and every program on the page has a file."""
import pathlib
import re
import subprocess
import sys
import unittest

TOP = pathlib.Path(__file__).resolve().parent.parent
FINDINGS = TOP / "examples/judge/findings"
DEBIAN = "/usr/bin/python3"
FILES = {"numba": "numba", "torch": "torch", "dask": "dask", "numexpr": "numexpr", "NumPy": "numpy", "CPython": "numpy", "Cython": "cython",
         "xtensor": "xtensor", "PyPy": "memoryview"}


class Findings(unittest.TestCase):
    def test_every_program_on_the_page_has_a_file(self):
        rows = re.findall(r"^\| ([A-Z]?[a-zA-Z]+) \d[^|]* \|", (TOP / "docs/FINDINGS.md").read_text(), re.MULTILINE)
        self.assertEqual({FILES[program] for program in rows}, {file.stem[3:] for file in FINDINGS.glob("in_*.py")})

    def findings(self, program):
        """The text of a file of findings, and how many of its cases differ."""
        ran = subprocess.run([DEBIAN, str(FINDINGS / f"in_{program}.py")], capture_output=True, text=True)
        if ran.returncode:
            self.skipTest(f"{program} is not installed for {DEBIAN}")
        return ran.stdout, int(re.search(r": (\d+) of \d+ cases differ\n$", ran.stdout)[1])

    def test_numpy_differs_where_the_page_says_so(self):
        text, count = self.findings("numpy")
        if "numpy 1.24" not in text:
            self.skipTest("another version of NumPy")
        self.assertEqual(count, 7)
        self.assertIn("got    [0 1 1 3 1]\n         right  [0 1 1 3 2]", text)

    def test_memoryview_of_cpython_has_no_finding(self):
        ran = subprocess.run([sys.executable, str(FINDINGS / "in_memoryview.py")], capture_output=True, text=True)
        self.assertRegex(ran.stdout, r"CPython .*: 0 of 7 cases differ\n$", ran.stderr)


if __name__ == "__main__":
    unittest.main()
