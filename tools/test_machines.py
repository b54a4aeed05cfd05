"""What `make machines` makes: each program and each library gives what those for this machine give, byte for byte, and the rows and examples
what stands there. Those for aarch64 run in qemu-user, over glibc as Debian's libc6-arm64-cross has it. BENCH_TESTS=all tries all rows and
cases, 1,000 random scripts, and each request for memory."""
import os
import pathlib
import random
import shutil
import subprocess
import unittest
from unittest import mock

import test_rows
from trials import memory
from trials.companion_trials import PROGRAM, TOP, InFolder, needs_program, share, works
from trials.lines import own_scripts, random_script, text_of
from trials.runs import Part, Runner, compiled
from bench_tool import cases, library

PLACES = (TOP / "out/machines", TOP / "dist")
ARM_GLIBC = "/usr/aarch64-linux-gnu"
ARM_COMPILER = os.path.isfile(f"{ARM_GLIBC}/lib/crti.o") and shutil.which("aarch64-linux-gnu-gcc")  # (with what a program is linked with)
EXAMPLE = TOP / "examples/c/script.c"


def made(name):
    """A file that `make machines` made here, or that is in dist/."""
    return next((folder / name for folder in PLACES if (folder / name).is_file()), pathlib.Path("/nowhere", name))


def asked(questions):
    """A script of questions: of each its steps, and then what its names are bound to; it leaves none of them."""
    for question in questions:
        yield from question.lines
        for name in sorted(question.want):
            yield from (f"info {name}", f"print {name}")
        yield from (f"del {name}" for name in sorted({command.binds for command in question.commands if command.binds}))


class Equal:
    """Tests of a program for another machine, as `self.program` starts it."""

    def same(self, files, text, *words):
        """What the program for this machine gives is what this one gives."""
        found = []
        for program in (PROGRAM, self.program):
            with Runner(program) as runner:
                found.append(runner.over(files, text, words))
        self.assertEqual(found[1], found[0], text[:3000])
        return found[0][0].out

    def test_each_row(self):
        held = [row for path in sorted(test_rows.ROWS.glob("*.rows")) for row in test_rows.rows(path)]
        with mock.patch.object(test_rows, "PROGRAM", str(self.program)):
            for row in held[::share(self.every, 1)]:
                with self.subTest(row.title):
                    test_rows.Rows.hold(self, row)

    ran = test_rows.Rows.ran

    def test_examples(self):
        with mock.patch.object(test_rows, "PROGRAM", str(self.program)):
            for script in sorted((TOP / "examples").glob("*.bench")):
                with self.subTest(script.name):
                    test_rows.Examples.hold(self, script)

    def test_cases(self):
        found = cases.read(place=TOP / "vectors")
        questions = [question for case in found for question in list(case.questions())[::share(7, 1)]]
        with_files = [question for question in questions if question.files]
        text = "".join(f"{line}\n" for line in asked(question for question in questions if not question.files))
        self.assertGreater(self.same({}, text.encode()).count(b"\n"), 5 * len(questions) // 2)
        for question in with_files[::share(10 * self.every, 1)]:
            self.same(question.files, "".join(f"{line}\n" for line in asked([question])).encode())

    def test_random_scripts(self):
        rng = random.Random(93)
        scripts = [random_script(PROGRAM, rng, number) for number in range(share(100 // self.every, 1000))]
        for script in [*own_scripts(), *scripts]:
            self.same(script.files, text_of(script.lines), *([] if script.depth is None else ["--undo", str(script.depth)]))

    def test_lacking_memory(self):
        """Each request for memory is refused in turn: at most one line lacks it, and the others are answered as ever."""
        part, preloaded = Part(), self.refusing()
        with Runner(self.program) as runner, mock.patch.object(memory, "Requests", self.requests):
            for script in own_scripts()[::share(2 * self.every, 1)]:
                memory.Refusing(runner, part, script.asking(), preloaded).refuse(share(60 // self.every, 10**9))
        self.assertEqual(part.faults, [])
        self.assertGreater(part.counts["with E40"], 10, part.counts)

    requests = memory.Requests

    def linked(self, compiler, shared):
        """The example in C, linked with a library, in a folder with that library."""
        shutil.copy(shared, self.folder / "libbench.so.1")
        words = [compiler, "-O1", f"-I{TOP / 'library'}", EXAMPLE, self.folder / "libbench.so.1", "-Wl,-rpath,$ORIGIN", "-o", self.folder / "script"]
        subprocess.run(words, check=True)
        return self.folder / "script"

    def library_answers(self, *words):
        """The example in C answers random scripts as the program does."""
        rng = random.Random(94)
        for number in range(share(100 // self.every, 1000)):
            text = text_of(random_script(PROGRAM, rng, number, (16,)).lines)
            with Runner(PROGRAM) as runner:
                wanted = runner.over({}, text)[0]
            done = subprocess.run(words, input=text, capture_output=True)
            self.assertEqual((done.stdout, done.stderr), (wanted.out, b""), text)


@needs_program
@unittest.skipUnless(made("bench-x86_64-v3-linux").is_file(), "nothing is made for x86-64-v3 here")
class OnV3(Equal, InFolder):
    every = 1

    def setUp(self):
        if "glibc-hwcaps" not in library.names()[0]:
            self.skipTest("this processor is not of x86-64-v3")
        super().setUp()
        self.program = made("bench-x86_64-v3-linux")

    def refusing(self):
        if not shutil.which("cc"):
            self.skipTest("no C compiler is installed")
        return compiled("refuse_memory.c", self.folder / "refuse_memory.so")

    @unittest.skipUnless(shutil.which("cc"), "no C compiler is installed")
    def test_library(self):
        self.library_answers(self.linked("cc", made("glibc-hwcaps/x86-64-v3/libbench.so.1")))

    @unittest.skipUnless(shutil.which("cc"), "no C compiler is installed")
    def test_the_c_library_chooses(self):
        """A program that is linked with the library in a folder takes that for this processor."""
        place = self.linked("cc", TOP / "dist/libbench.so.1").parent
        (place / "glibc-hwcaps/x86-64-v3").mkdir(parents=True)
        chosen = shutil.copy(made("glibc-hwcaps/x86-64-v3/libbench.so.1"), place / "glibc-hwcaps/x86-64-v3")
        told = subprocess.run(["ldd", place / "script"], capture_output=True, text=True).stdout
        self.assertIn(f"libbench.so.1 => {chosen}", told)

    @unittest.skipUnless(shutil.which("qemu-x86_64"), "there is no qemu-x86_64")
    def test_a_processor_of_before(self):
        """It looks at the processor as it starts, and ends with status 127 if that lacks something."""
        done = subprocess.run(["qemu-x86_64", "-cpu", "Nehalem", made("bench-x86_64-v3-linux")], input=b"names\n", capture_output=True)
        self.assertEqual((done.returncode, done.stdout), (127, b""))


@needs_program
@unittest.skipUnless(made("bench-aarch64-linux").is_file(), "nothing is made for aarch64 here")
@unittest.skipUnless(shutil.which("qemu-aarch64") and os.path.isdir(ARM_GLIBC), "there is no qemu-aarch64, or no glibc for it")
class OnArm(Equal, InFolder):
    every = 6

    def setUp(self):
        super().setUp()
        self.program = self.folder / "bench"
        self.program.write_text(f"#!/bin/sh\nexport QEMU_LD_PREFIX={ARM_GLIBC}\nexec qemu-aarch64 '{made('bench-aarch64-linux')}' \"$@\"\n")
        self.program.chmod(0o755)

    class requests(memory.Requests):
        def refusing(self, request):
            env = super().refusing(request)
            preloaded = env.pop("LD_PRELOAD")  # (not for the shell that starts qemu)
            return {**env, "QEMU_SET_ENV": f"LD_PRELOAD={preloaded}"}

    def refusing(self):
        if not ARM_COMPILER:
            self.skipTest("there is no C compiler for aarch64")
        with mock.patch.dict(os.environ, {"PATH": f"{self.folder}:{os.environ['PATH']}"}):
            (self.folder / "cc").symlink_to(ARM_COMPILER)
            return compiled("refuse_memory.c", self.folder / "refuse_memory.so")

    @unittest.skipUnless(ARM_COMPILER, "there is no C compiler for aarch64")
    def test_library(self):
        self.library_answers("qemu-aarch64", "-L", ARM_GLIBC, self.linked(ARM_COMPILER, made("libbench-aarch64.so.1")))

    def test_what_it_needs(self):
        """The program and the library call glibc alone, and nothing that came after 2.28."""
        for name in ("bench-aarch64-linux", "libbench-aarch64.so.1"):
            data = made(name).read_bytes()
            self.assertEqual((data[:5], data[18:20]), (b"\x7fELF\x02", (183).to_bytes(2, "little")), name)
            self.assertNotIn(b"GLIBC_2.3", data)


if __name__ == "__main__":
    unittest.main()
