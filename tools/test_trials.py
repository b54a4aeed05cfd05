"""The trials of tools/trials/ themselves: scripts of each kind beside NumPy, whether a difference is seen and told with few lines, types by
mypy and style by ruff where these are installed."""
import json
import re
import shutil
import subprocess
import sys
import unittest
from unittest import mock

import test_rows
from trials import npy_rule, timed
from trials.companion_trials import PROGRAM, TOP, InFolder, needs_compiler, needs_program, numpy_or_none, share

needs_numpy = unittest.skipUnless(numpy_or_none(), "NumPy is not installed")
KINDS = ("mixed", "indexes", "masks", "shares", "computing", "formats")


@needs_program
@needs_numpy
class BesideNumPy(InFolder):
    def tried(self, trial, *words):
        """What a trial ends with, and its summary."""
        from trials import __main__ as trials
        summary = self.folder / "summary.json"
        status = trials.main([trial, "--program", PROGRAM, "--json", str(summary), *words])
        return status, json.loads(summary.read_text())["parts"][0]

    def test_random_scripts(self):
        for kind in KINDS:
            with self.subTest(kind):
                status, part = self.tried("numpy", "--only", kind, "--scripts", str(share(100, 20_000)))
                self.assertEqual((status, part["faults"]), (0, []))
                self.assertGreaterEqual(part["counts"]["scripts"], 100)

    def test_a_difference_is_told_with_few_lines(self):
        """An addition that is one too high is found, and its script has no line that is not needed."""
        from trials import beside_numpy, computations, runs
        right = computations.worked

        def too_high(word, left, other):
            found = right(word, left, other)
            return (found + 1).astype(found.dtype) if word == "add" else found

        with mock.patch.object(computations, "worked", too_high):
            parts = [beside_numpy.trial((runs.Path(PROGRAM), 1, "mixed", first)) for first in range(0, 100, beside_numpy.BATCH)]
        faults = [fault for part in parts for fault in part.faults]
        self.assertTrue(faults)
        for where, _, _ in faults:
            lines = where.split("\n")[1:]
            self.assertLessEqual(len(lines), 6, where)
            self.assertIn(" add ", where)

    @needs_compiler
    def test_speeds_go_into_a_page(self):
        page = self.folder / "SPEED.md"
        page.write_text("Words.\n\n## Figures\n\nEarlier ones.\n")
        status, part = self.tried("speed", "--sizes", "100", "20000", "--only", "zeros <i4", "--runs", "1", "--page", str(page))
        self.assertEqual((status, [row["items"] for row in part["figures"]]), (0, [100, 20000]))
        self.assertRegex(page.read_text(), r"\AWords\.\n\n## Figures\n\n\d[^|]+\n\n\| Items [^`]+\n\| `zeros <i4` \| [\d.]+ \| -?[\d.]+ \| [\d.]+ \| -?[\d./ ]+ \|\n\Z")

    @needs_compiler
    def test_planted_faults(self):
        """A reply and a bit of a file that are wrong in the program are found; without them nothing is."""
        from trials import planted
        few = [fault for fault in planted.FAULTS if fault.said == "FILES" or fault.trial == "hostile numbers"]
        with mock.patch.multiple(planted, FAULTS=few, SCRIPTS=25):
            status, part = self.tried("planted")
        self.assertEqual((status, part["faults"], part["counts"]), (0, [], {"trials": 4}))


class Speeds(unittest.TestCase):
    def test_the_page_has_each_row(self):
        names = re.findall(r"(?m)^\| `(.*?)` \|", (TOP / "docs/SPEED.md").read_text())
        self.assertEqual([name.replace(r"\|", "|") for name in names], [row.name for row in timed.rows(TOP / "tools/trials/speed.txt")])


class NpyRule(unittest.TestCase):
    def test_the_rule_says_what_the_rows_say(self):
        tried = 0
        for row in test_rows.rows(TOP / "tools/rows/files.rows"):
            loads = [re.fullmatch(rb'\w+ = load "([\w.-]+)"', line) for line in row.script]
            if all(loads):
                for found, reply in zip(loads, row.replies):
                    tried += 1
                    name = found[0].split()[0].decode()
                    said, _ = npy_rule.reply(row.files[found[1].decode()])
                    self.assertEqual(said.replace("ok x", f"ok {name}"), reply.decode(), (row.title, found[1]))
        self.assertGreater(tried, 170)


class Tools(unittest.TestCase):
    def clean(self, *words):
        done = subprocess.run(words, cwd=TOP, capture_output=True, text=True)
        self.assertEqual(done.returncode, 0, done.stdout + done.stderr)

    @unittest.skipUnless(shutil.which("mypy") and numpy_or_none(), "mypy or NumPy is not installed")
    def test_types(self):
        self.clean("mypy", "--cache-dir", "out/mypy", "--python-executable", sys.executable)

    @unittest.skipUnless(shutil.which("ruff"), "ruff is not installed")
    def test_style(self):
        self.clean("ruff", "check", ".")


if __name__ == "__main__":
    unittest.main()
