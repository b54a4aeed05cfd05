"""The gate refuses a library and a program in WebAssembly that are not those of the sources, whatever sums dist/SHA256SUMS has. What is linked
for aarch64 by the toolchain alone runs in qemu-user, where that is installed."""
import pathlib
import re
import shutil
import subprocess
import sys
import tempfile
import unittest
import unittest.mock

from trials.companion_trials import TOP, InFolder, works

sys.path[:0] = [str(TOP / "tools/make"), str(TOP / "page")]
import build as page  # noqa: E402
import dist  # noqa: E402
import library  # noqa: E402
import machines  # noqa: E402
import module  # noqa: E402
import sources  # noqa: E402

# What stands for bench_c: the calls that library/bench.c declares, which answer a number.
DECLARED = re.findall(r"^(?:uint8_t|void) bench_c_(\w+)\(", (TOP / "library/bench.c").read_text(), re.M)
CALLS = "".join(f"unsigned char bench_c_{call}(void *handle) {{ return handle ? {number} : 0; }}\n" for number, call in enumerate(DECLARED, 1))
WHY = "is not what these sources and this toolchain give: run `make`, `make page`, then `make dist`"


@unittest.skipUnless(sources.kit_folder(), "the toolchain is not installed")
class MadeAnew(unittest.TestCase):
    def setUp(self):
        made = tempfile.TemporaryDirectory()
        self.addCleanup(made.cleanup)
        self.folder, self.dist = pathlib.Path(made.name), pathlib.Path(made.name, "dist")
        self.dist.mkdir()
        for owner, name, value in ((dist, "DIST", self.dist), (page, "OUT", self.folder / "page"), (module, "build", self.stands_in)):
            patch = unittest.mock.patch.object(owner, name, value)
            patch.start()
            self.addCleanup(patch.stop)
        archive, built = self.stands_in()
        self.files = {**library.linked(archive), "bench.wasm": page.program(built)}
        for name, data in self.files.items():
            (self.dist / name).write_bytes(data)

    def stands_in(self, *_):
        """An archive and an LLVM module in the place of those of bench_c."""
        code, built, archive = (self.folder / name for name in ("calls.c", "calls.bc", "calls.a"))
        code.write_text(CALLS)
        target = ["--target=x86_64-unknown-linux-gnu", "-O2", "-fPIC", "-c", code]
        sources.llvm("clang", *target, "-emit-llvm", "-o", built)
        sources.llvm("clang", *target, "-o", self.folder / "calls.o")
        archive.unlink(missing_ok=True)
        sources.llvm("llvm-ar", "rcsD", archive, self.folder / "calls.o")
        return archive, built

    def test_the_same(self):
        self.assertEqual(sorted(self.files), ["bench.wasm", "libbench.a", "libbench.so.1"])
        self.assertEqual(list(dist.made_anew("a kit")), [])

    def test_another_byte(self):
        for name, data in self.files.items():
            for at in (8, len(data) // 2, len(data) - 1):
                with self.subTest(name, at=at):
                    (self.dist / name).write_bytes(data[:at] + bytes([data[at] ^ 1]) + data[at + 1:])
                    self.assertEqual(list(dist.made_anew("a kit")), [f"dist/{name} {WHY}"])
            (self.dist / name).unlink()
            self.assertEqual(list(dist.made_anew("a kit")), [f"dist/{name} {WHY}"])
            (self.dist / name).write_bytes(data)

    def test_another_program(self):
        """One byte of the sources is another, as a call that answers another number."""
        with unittest.mock.patch(f"{__name__}.CALLS", CALLS.replace("handle ? 2", "handle ? 9")):
            self.assertEqual(list(dist.made_anew("a kit")), [f"dist/{name} {WHY}" for name in ("libbench.so.1", "libbench.a", "bench.wasm")])

    def test_not_built(self):
        """Where bench_c cannot be built, nothing passes."""
        with unittest.mock.patch.object(module, "build", side_effect=module.NotBuilt("no library")):
            self.assertEqual(list(dist.made_anew("a kit")), ["the library and the page are not compared: no library"])


@unittest.skipUnless(sources.kit_folder(), "the toolchain is not installed")
class Module(unittest.TestCase):
    def test_the_module_is_kept(self):
        """The clang of the folder of links compiles as the real one does, and keeps the module."""
        with tempfile.TemporaryDirectory() as name:
            folder = pathlib.Path(name)
            made, real = module.toolchain(folder), sources.kit_folder() / "toolchain"
            for part in ("", "bin"):
                self.assertEqual({path.name for path in (made / part).iterdir()}, {path.name for path in (real / part).iterdir()})
            (folder / "code.c").write_text(CALLS)
            subprocess.run([made / "bin/clang", "-c", "-emit-llvm", "code.c", "-o", "given.bc"], cwd=folder, check=True, env={})
            self.assertFalse((folder / "module.bc").exists())
            subprocess.run([made / "bin/clang", "-c", "-x", "ir", "given.bc", "-o", "given.o"], cwd=folder, check=True, env={})
            self.assertEqual((folder / "module.bc").read_bytes(), (folder / "given.bc").read_bytes())


@unittest.skipUnless(sources.kit_folder(), "the toolchain is not installed")
class Machines(InFolder):
    """What `make machines` does with what rattle compiles, with C in the place of that."""

    def setUp(self):
        super().setUp()
        for owner, name, value in ((machines, "DIST", self.folder / "dist"), (machines, "OUT", self.folder / "out"), (module, "compiled", self.stands_in)):
            patch = unittest.mock.patch.object(owner, name, value)
            patch.start()
            self.addCleanup(patch.stop)
        self.compiled, self.program = [], "int main(void) { return 7; }\n"

    def stands_in(self, crate, here, made, *words):
        self.compiled.append((crate, *words[:2]))
        made.parent.mkdir(exist_ok=True)
        target = words[1] if words[0] == "--target" else "x86_64-unknown-linux-gnu"
        code, made_of = self.folder / "code.c", made.with_suffix(".o")
        code.write_text(CALLS if crate == "bench_c" else self.program)
        sources.llvm("clang", f"--target={target}", "-O2", "-fPIC", "-c", code, "-o", made_of)
        if crate == "bench_c":
            made.unlink(missing_ok=True)
            sources.llvm("llvm-ar", "rcsD", made, made_of)
        return made

    def test_made_once(self):
        """Each file is made, for its machine, once for the same sources and toolchain; others are found."""
        with unittest.mock.patch("builtins.print"):
            machines.make_all("a kit")
            self.assertEqual({crate for crate, *_ in self.compiled}, {"bench_main", "bench_c"})
            self.assertEqual({(option, value) for _, option, value in self.compiled}, set(machines.WORDS.values()))
            self.assertTrue(machines.stand("a kit"))
            self.assertEqual({name: data[18] for name, data in machines.made().items()}, {name: 183 if "aarch64" in name else 62 for name in machines.FILES})
            machines.make_all("a kit")
            self.assertEqual(len(self.compiled), 4)
            self.assertFalse(machines.stand("another kit"))
            (self.folder / "out/bench-aarch64-linux").write_bytes(b"another")
            machines.make_all("a kit")
            self.assertEqual(len(self.compiled), 5)

    def test_what_differs_is_told(self):
        with unittest.mock.patch("builtins.print"), unittest.mock.patch.dict("os.environ"):
            machines.os.environ.pop("BENCH_MACHINES", None)
            self.assertEqual(list(machines.differences("a kit")), [])  # (nothing is made)
            machines.make_all("a kit")
            sources.put(self.folder / "dist", machines.made())
            self.assertEqual(list(machines.differences("a kit")), [])
            (self.folder / "dist/bench-aarch64-linux").unlink()
            self.assertEqual([line.split()[0] for line in machines.differences("a kit")], ["dist/bench-aarch64-linux"])
            self.program = "int main(void) { return 8; }\n"
            machines.stamp("bench-x86_64-v3-linux").unlink()
            self.assertEqual(len(list(machines.differences("a kit"))), 1)
            machines.os.environ["BENCH_MACHINES"] = "all"
            self.assertEqual([line.split()[0] for line in machines.differences("a kit")], ["dist/bench-x86_64-v3-linux", "dist/bench-aarch64-linux"])


@unittest.skipUnless(sources.kit_folder(), "the toolchain is not installed")
class Aarch64(InFolder):
    GLIBC = "/usr/aarch64-linux-gnu"

    def compiled(self, name, text):
        """An object for aarch64."""
        code = self.folder / f"{name}.c"
        code.write_text(text)
        sources.llvm("clang", "--target=aarch64-unknown-linux-gnu", "-O2", "-fPIC", "-c", code, "-o", code.with_suffix(".o"))
        return code.with_suffix(".o")

    @unittest.skipUnless(works("qemu-aarch64", "-L", GLIBC, f"{GLIBC}/lib/ld-linux-aarch64.so.1", "--version"), "there is no qemu-aarch64, or no glibc for it")
    def test_the_c_part(self):
        """A program that calls all of system.c."""
        program = self.folder / "started"
        program.write_bytes(machines.program_for_aarch64(self.compiled("calls", (TOP / "tools/trials/system_calls.c").read_text()), self.folder))
        program.chmod(0o755)
        words = [shutil.which("qemu-aarch64"), "-L", self.GLIBC, program, "one", "", "four", "and five"]
        done = subprocess.run(words, capture_output=True, text=True, env={"ABC": "de"})
        self.assertEqual((done.returncode, done.stdout, done.stderr), (0, "one..four.and +", ""))

    def test_the_same_bytes(self):
        """Linked in another folder, program and library are the same."""
        archive, found = self.folder / "calls.a", []
        sources.llvm("llvm-ar", "rcsD", archive, self.compiled("library", CALLS))
        program = self.compiled("calls", (TOP / "tools/trials/system_calls.c").read_text())
        for name in ("one", "another"):
            (self.folder / name).mkdir()
            found.append([machines.program_for_aarch64(program, self.folder / name), machines.library_for_aarch64(archive, self.folder / name)])
        self.assertEqual(found[0], found[1])
        self.assertEqual([data[18] for data in found[0]], [183, 183])

    def test_calls_of_the_program(self):
        """The names have all that the program for x86-64 calls, but for what only its start there needs."""
        told = subprocess.run(["llvm-nm", "-D", "--undefined-only", TOP / "dist/bench-x86_64-linux"],
                              executable=sources.kit_folder() / "toolchain/bin/clang", capture_output=True, text=True, check=True).stdout
        calls = {line.split()[1].partition("@")[0] for line in told.splitlines()}
        start = {"_ITM_deregisterTMCloneTable", "_ITM_registerTMCloneTable", "__cxa_finalize", "__gmon_start__", "__x86_get_cpuid_feature_leaf"}
        self.assertEqual(calls - start - set(" ".join(machines.GLIBC.values()).split()), set())

    def test_calls_that_glibc_has_not(self):
        """The names that stand for glibc are its names."""
        libc = pathlib.Path(self.GLIBC, "lib/libc.so.6")
        if not libc.is_file():
            self.skipTest("there is no glibc for aarch64")
        told = subprocess.run(["llvm-nm", "-D", "--defined-only", libc], executable=sources.kit_folder() / "toolchain/bin/clang", capture_output=True, text=True).stdout
        for version, calls in machines.GLIBC.items():
            for call in calls.split():
                self.assertRegex(told, rf"(?m) {call}@@?GLIBC_{version}$")


if __name__ == "__main__":
    unittest.main()
