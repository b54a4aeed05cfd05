"""The library for C, from C, from Rust and from Python: invalid arguments, want of memory, two threads, and random scripts, which are answered
as by the program. BENCH_TESTS=all tries 20,000 of these."""
import ctypes
import itertools
import os
import pathlib
import re
import shutil
import subprocess
import tempfile
import unittest
import unittest.mock

from trials.companion_trials import InFolder, PROGRAM, TOP, needs_compiler, needs_program, share, works
from trials.library_trials import ARCHIVE, PLACE, SHARED, has, needs_arrays, needs_library
from bench_tool import Session, library

try:
    import hypothesis
    from bench_tool.testing import scripts
except ImportError:
    hypothesis = None

EXAMPLES = [path for path in sorted((TOP / "examples").glob("*.bench")) if "load" not in path.read_text()]
FLAGS = ["-O1", "-g", "-std=gnu11", "-Wall", "-Wextra", "-Werror", f"-I{TOP / 'library'}"]
WRAPPED = ["-Wl,--wrap=malloc", "-Wl,--wrap=realloc"]
SANITIZED = [*WRAPPED, "-fsanitize=address,undefined", "-fno-sanitize-recover=all"]


@needs_library
class Programs(InFolder):
    """Programs that are linked with the library."""

    def compiled(self, source, *flags, skips=""):
        """A program of a C source and the library. If a program with these flags cannot be made, or does not run here, the test is skipped."""
        made, least = self.folder / pathlib.Path(source).stem, self.folder / "least"
        least.with_suffix(".c").write_text("int main(void) { return 0; }")
        if skips and not (works("cc", least.with_suffix(".c"), *flags[-2:], "-o", least) and works(least)):
            self.skipTest(skips)
        subprocess.run(["cc", *FLAGS, TOP / source, ARCHIVE, *flags, "-o", made], check=True)
        return made

    def answers_the_examples(self, made, **words):
        for example in EXAMPLES:
            ran = subprocess.run([made], input=example.read_bytes(), stdout=subprocess.PIPE, check=False, **words)
            self.assertEqual(ran.stdout, example.with_suffix(".out").read_bytes(), example.name)
            self.assertIn(ran.returncode, (0, 1))

    @needs_compiler
    def test_example_in_c(self):
        self.answers_the_examples(self.compiled("examples/c/script.c"))

    @needs_compiler
    def test_example_in_c_with_the_shared_library(self):
        made = self.folder / "script"
        subprocess.run(["cc", *FLAGS, TOP / "examples/c/script.c", SHARED, "-o", made], check=True)
        self.answers_the_examples(made, env={**os.environ, "LD_LIBRARY_PATH": str(PLACE)})

    @unittest.skipUnless(shutil.which("rustc"), "there is no Rust compiler")
    def test_example_in_rust(self):
        made = self.folder / "script"
        ran = subprocess.run(["rustc", "-O", "--edition", "2021", TOP / "examples/rust/script.rs", "-L", PLACE, "-l", "static=bench", "-o", made], capture_output=True, text=True)
        self.assertEqual((ran.returncode, ran.stderr), (0, ""))
        self.answers_the_examples(made)

    @needs_compiler
    def test_calls(self):
        made = self.compiled("tools/trials/library_calls.c", *SANITIZED, skips="there is no AddressSanitizer")
        subprocess.run([made], stdout=subprocess.DEVNULL, check=True)

    @needs_compiler
    @needs_arrays
    def test_calls_for_arrays(self):
        made = self.compiled("tools/trials/library_arrays.c", *SANITIZED, skips="there is no AddressSanitizer")
        subprocess.run([made], stdout=subprocess.DEVNULL, check=True)

    def refuses_each_request(self, made):
        """Each request for memory is refused in turn. One call reports it, and all other calls return what they return without it."""
        for number in itertools.count(1):
            if subprocess.run([made, str(number)], stdout=subprocess.PIPE, check=True, text=True).stdout == "none refused\n":
                return number

    @needs_compiler
    def test_want_of_memory(self):
        made = self.compiled("tools/trials/library_calls.c", *SANITIZED, skips="there is no AddressSanitizer")
        self.assertGreater(self.refuses_each_request(made), 20)

    @needs_compiler
    @needs_arrays
    def test_want_of_memory_for_arrays(self):
        self.assertGreater(self.refuses_each_request(self.compiled("tools/trials/library_arrays.c", *WRAPPED)), 200)

    @needs_compiler
    @unittest.skipUnless(shutil.which("valgrind"), "there is no Valgrind")
    def test_calls_under_valgrind(self):
        if not works("valgrind", "-q", "true"):
            self.skipTest("Valgrind does not run here")
        made = self.compiled("tools/trials/library_calls.c", *WRAPPED)
        subprocess.run(["valgrind", "-q", "--error-exitcode=9", "--leak-check=full", "--show-leak-kinds=all", made], stdout=subprocess.DEVNULL, check=True)

    @needs_compiler
    def test_two_threads(self):
        subprocess.run([self.compiled("tools/trials/library_threads.c", "-fsanitize=thread", "-pthread", skips="there is no ThreadSanitizer")], check=True)


@needs_library
class Installed(InFolder):
    """The library where it was installed."""

    @needs_compiler
    @needs_program
    @unittest.skipUnless(shutil.which("pkg-config"), "there is no pkg-config")
    def test_make_install(self):
        subprocess.run(["make", "-s", "-C", TOP, "install", f"PREFIX={self.folder}"], check=True, stdout=subprocess.DEVNULL)
        words = {**os.environ, "PKG_CONFIG_PATH": str(self.folder / "lib/pkgconfig")}
        flags = subprocess.run(["pkg-config", "--cflags", "--libs", "bench"], env=words, stdout=subprocess.PIPE, check=True, text=True).stdout.split()
        made = self.folder / "script"
        subprocess.run(["cc", TOP / "examples/c/script.c", *flags, "-o", made], check=True)
        ran = subprocess.run([made], input=(TOP / "examples/mirrored.bench").read_bytes(), stdout=subprocess.PIPE, check=True)
        self.assertEqual(ran.stdout, (TOP / "examples/mirrored.out").read_bytes())


@needs_library
class Names(unittest.TestCase):
    @unittest.skipUnless(shutil.which("nm"), "there is no nm")
    def test_only_the_calls_are_visible(self):
        calls = sorted(f"bench_{name}" for name in library.CALLS)
        if has("bench_put_array"):
            calls = sorted(re.findall(r"^int (bench_\w+)\(", (TOP / "library/bench.h").read_text(), re.M))
        for words in (["nm", "-D", "--defined-only", SHARED], ["nm", "-g", "--defined-only", ARCHIVE]):
            listed = subprocess.run(words, stdout=subprocess.PIPE, check=True, text=True).stdout
            self.assertEqual(sorted(line.split()[2] for line in listed.splitlines() if len(line.split()) == 3), calls)

    def test_places(self):
        self.assertIsInstance(library.load(SHARED), ctypes.CDLL)
        self.assertIsNone(library.load(pathlib.Path("/nowhere/libbench.so.1")))
        self.assertIsNone(library.load(TOP / "README.md"))
        self.assertIn(SHARED, [folder / library.NAME for folder in library.FOLDERS])


@needs_program
@needs_library
@needs_compiler
@unittest.skipUnless(hypothesis, "Hypothesis is not installed")
class Alike(InFolder):
    """Random scripts get the same replies and leave the same files by pipe, in the process and from C."""

    def setUp(self):
        super().setUp()
        words = unittest.mock.patch.dict(os.environ, BENCH_LIBRARY=str(SHARED))
        words.start()
        self.addCleanup(words.stop)

    def scripts(self):
        held = []

        @hypothesis.settings(max_examples=share(150, 20_000), deadline=None, database=None, derandomize=True,
                             suppress_health_check=list(hypothesis.HealthCheck), phases=[hypothesis.Phase.generate])
        @hypothesis.given(scripts())
        def collect(steps):
            held.append([step.line for step in steps])

        collect()
        return held

    def test_scripts(self):
        judge = self.folder / "judge"
        subprocess.run(["cc", *FLAGS, TOP / "tools/trials/library_scripts.c", ARCHIVE, "-o", judge], check=True)
        held = self.scripts()
        sent = "".join("".join(f"{line}\n" for line in lines) + "\0\n" for lines in held)
        from_c = subprocess.run([judge], input=sent.encode(), stdout=subprocess.PIPE, check=True).stdout.decode().split("\0\n")
        self.assertEqual(len(from_c), len(held) + 1)
        for lines, text in zip(held, from_c):
            with tempfile.TemporaryDirectory(dir=self.folder) as folder, Session(PROGRAM, dir=folder) as piped, Session() as inside:
                self.assertIsNotNone(inside._inside)
                replies, files = piped.batch(lines), dict(piped.files)
                self.assertEqual((inside.batch(lines), dict(inside.files)), (replies, files), lines)
                self.assertEqual(text, "".join(f"{reply}\n" for reply in replies) + "".join(f"{name} {data.hex()}\n" for name, data in files.items()), lines)


if __name__ == "__main__":
    unittest.main()
