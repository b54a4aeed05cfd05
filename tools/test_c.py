"""docs/C.md: each program of the page is compiled, each command is run in its order, and prints what the page says."""
import os
import pathlib
import re
import shutil
import subprocess
import unittest

from trials.companion_trials import InFolder, TOP, needs_compiler, needs_program
from trials.library_trials import ARCHIVE, SHARED, needs_arrays

PAGE = (TOP / "docs/C.md").read_text()
SPLIT = re.split(r"^##? (.*)\n", PAGE, flags=re.M)
SECTIONS = dict(zip(SPLIT[1::2], SPLIT[2::2]))
NAMED = {"c": r"/\* (\S+):", "cpp": r"// (\S+):"}


def blocks(text):
    """The blocks of code of a text, as language and lines."""
    return re.findall(r"^```(\w+)\n(.*?)^```\n", text, re.M | re.S)


def commands(text):
    """Each command of the blocks of `sh`, with what it prints."""
    return [(line, printed) for language, block in blocks(text) if language == "sh" for line, printed in re.findall(r"^\$ (.*)\n((?:[^$].*\n)*)", block, re.M)]


@needs_arrays
@needs_compiler
class Page(InFolder):
    def setUp(self):
        super().setUp()
        os.symlink(TOP / "library", self.folder / "library")
        os.symlink(os.path.dirname(SHARED), self.folder / "dist")
        for language, block in blocks(PAGE):
            if language in NAMED:
                (self.folder / re.match(NAMED[language], block)[1]).write_text(block)

    def runs(self, text, **more):
        """Runs the commands of a part of the page in one shell, and compares what each prints."""
        words = {**os.environ, "HOME": str(self.folder), "BENCH": str(TOP), **more}
        for name in ("LD_LIBRARY_PATH", "PKG_CONFIG_PATH"):
            words.pop(name, None)
        before, steps = "", commands(text)
        self.assertTrue(steps)
        for line, printed in steps:
            if line.startswith("export "):
                before += f"{line}; "
                continue
            ran = subprocess.run(["sh", "-c", before + line], cwd=self.folder, env=words, capture_output=True, text=True, check=False)
            self.assertEqual((ran.returncode, ran.stderr), (0, ""), line)
            if "cmake" not in line:
                self.assertEqual(ran.stdout, printed.replace("$HOME", str(self.folder)), line)

    def test_static_library(self):
        self.runs(SECTIONS["From C and C++"])

    def test_shared_library(self):
        self.runs(SECTIONS["Compile and link"].partition("Installed, by")[0])

    @needs_program
    @unittest.skipUnless(shutil.which("pkg-config"), "there is no pkg-config")
    def test_pkg_config(self):
        self.runs(SECTIONS["Compile and link"].partition("Installed, by")[2].partition("By CMake")[0])

    @needs_program
    @unittest.skipUnless(shutil.which("cmake"), "there is no CMake")
    def test_cmake(self):
        lines = next(block for language, block in blocks(PAGE) if language == "cmake")
        for target in ("bench::bench", "bench::static"):
            (self.folder / "CMakeLists.txt").write_text("cmake_minimum_required(VERSION 3.13)\n" + lines.replace("bench::bench", target))
            subprocess.run(["make", "-s", "-C", TOP, "install", f"PREFIX={self.folder / '.local'}"], check=True, stdout=subprocess.DEVNULL)
            self.runs(SECTIONS["Compile and link"].partition("By CMake")[2])
            shutil.rmtree(self.folder / "build")

    @unittest.skipUnless(shutil.which("c++"), "there is no C++ compiler")
    def test_cpp(self):
        self.runs(SECTIONS["C++"])


XTENSOR = pathlib.Path("/usr/include/xtensor/xtensor_config.hpp")


@needs_arrays
@unittest.skipUnless(shutil.which("c++"), "there is no C++ compiler")
@unittest.skipUnless(XTENSOR.is_file(), "xtensor is not installed")
class Library(InFolder):
    def test_array_library_in_cpp(self):
        """The example finds two faults of xtensor that docs/FINDINGS.md has, and no other."""
        made = self.folder / "made"
        subprocess.run(["c++", "-std=c++17", f"-I{TOP / 'library'}", TOP / "examples/cpp/xtensor_test.cpp", ARCHIVE, "-o", made], check=True)
        ran = subprocess.run([made], capture_output=True, text=True, check=False)
        self.assertRegex(ran.stdout, r"\A(.*: xtensor (differs|has too few).*\n)*\d of 4 differ\n\Z")
        if "XTENSOR_VERSION_MINOR 24" in XTENSOR.read_text():
            self.assertEqual([line.partition(": xtensor")[0] for line in ran.stdout.splitlines()], ["set a[:] = a[0:1]", "a = argmax b 0 keep", "2 of 4 differ"])


class Words(unittest.TestCase):
    def test_each_call_is_on_the_page(self):
        calls = re.findall(r"^int (bench_\w+)\(", (TOP / "library/bench.h").read_text(), re.M)
        self.assertGreater(len(calls), 11)
        self.assertEqual([call for call in calls if f"`{call}`" not in PAGE], [])

    def test_each_command_is_run(self):
        """No command of the page is outside the parts that are run above."""
        self.assertEqual(len(commands(PAGE)), sum(len(commands(SECTIONS[name])) for name in ("From C and C++", "Compile and link", "C++")))


if __name__ == "__main__":
    unittest.main()
