"""A fresh copy of the tree, as a newcomer has it: no toolchain, no compiler, no NumPy, and only the tools that are named here."""
import os
import pathlib
import shutil
import subprocess
import tempfile
import unittest

from trials.companion_trials import TOP, links_to, processor_seconds

NAMED = "sh make python3 awk basename cat chmod cp date dirname echo env find gzip head install ln mkdir mv nproc readlink rm sed sleep sort tail tar test true uname".split()


@unittest.skipUnless(os.environ.get("BENCH_GATE"), "the gate alone runs all tests a second time, in a fresh copy of the tree")
class Fresh(unittest.TestCase):
    def setUp(self):
        folder = tempfile.TemporaryDirectory()
        self.addCleanup(folder.cleanup)
        self.tree, self.tools = pathlib.Path(folder.name, "tree"), links_to(NAMED, pathlib.Path(folder.name, "bin"))
        shutil.copytree(TOP, self.tree, ignore=shutil.ignore_patterns(".git", "out", "__pycache__", ".*_cache", ".hypothesis"))
        self.env = {"PATH": str(self.tools), "HOME": folder.name, "LANG": "C.UTF-8"}

    def ran(self, *words):
        return subprocess.run(words, cwd=self.tree, env=self.env, stdin=subprocess.DEVNULL, capture_output=True, text=True)

    def test_the_first_reply(self):
        """It is there at once: of processor time all takes less than a second."""
        began = processor_seconds()
        done = self.ran("./bench", "examples/mirrored.bench")
        self.assertEqual((done.returncode, done.stderr, done.stdout), (0, "", (TOP / "examples/mirrored.out").read_text()))
        self.assertLess(processor_seconds() - began, 1)

    def test_make_test(self):
        done = self.ran("make", "test")
        self.assertEqual((done.returncode, done.stderr), (0, ""), done.stdout[-4000:])
        self.assertRegex(done.stdout.splitlines()[-1], r"^\d+ passed, 0 failed, \d+ skipped$")
        self.assertNotIn("no program", done.stdout)

    def test_nothing_is_changed(self):
        """`make words` and `make pictures` leave every file as it is, and its time."""
        before = {path: (path.read_bytes(), path.stat().st_mtime_ns) for path in self.tree.rglob("*") if path.is_file()}
        node = shutil.which("node")
        if node:
            (self.tools / "node").symlink_to(node)
        for what in ("words", "pictures") if node else ("words",):
            done = self.ran("make", "-s", what)
            self.assertEqual((done.returncode, done.stderr), (0, ""))
        after = {path: path.read_bytes() for path in self.tree.rglob("*") if path.is_file() and "__pycache__" not in path.parts}
        self.assertEqual(after, {path: text for path, (text, _) in before.items()})
        changed = [path for path, (_, when) in before.items() if path.stat().st_mtime_ns != when and path.suffix != ".svg"]
        self.assertEqual(changed, [])


if __name__ == "__main__":
    unittest.main()
