"""Tests of the launcher, of `make`, and of dist/, with a toolchain and a program that only pretend."""
import os
import pathlib
import re
import shutil
import signal
import subprocess
import tempfile
import time
import unittest

from test_run import heard
from trials.companion_trials import PATIENT, PROGRAM, TOP, links_to, needs_program, processor_seconds
from trials.terminals import AT_PROMPT, Terminal

BUILT = "crates/bench_main/out/bench_main"
SIZE = "536870912"
AGAIN = "run `make`, `make page`, `make machines`, then `make dist`"
SAYS = """#!/bin/sh
# A program that says how it was started, and which it is. GLIBC_2.34
PATH=$PATH:/usr/bin:/bin
echo "words: $*"
echo "tunables: $GLIBC_TUNABLES"
sed -n 's/^SigIgn:.*\\(....\\)\\(....\\)$/ignored: \\1/p' /proc/$$/status
echo "program: $0"
"""
RT = """#!/bin/sh
# Pretends to prove a crate, where those that it uses are built.
[ "$1" = version ] && { echo "${RT_KIT-a kit}"; exit; }
crate=${PWD##*/}
echo "start $crate" >>"$RT_TRACE"
for used in $(sed -n "s/^$crate: *//p" ../../crates.txt); do
    if [ -d "../$used" ] && ! [ -f "../$used/out/rlib/stamp" ]; then echo "error: $used is not built"; exit 1; fi
done
echo "so far: 1 of 2 functions"
mkdir -p out/incremental
[ "$crate" = "$RT_SLEEPS" ] && sleep 60
[ "$crate" = "$RT_FAILS" ] && { echo "error: no proof"; exit 1; }
mkdir -p out/rlib && echo "$crate" >out/rlib/stamp
[ "$1" = run ] && cp "$RT_PROGRAM" out/bench_main
echo "end $crate" >>"$RT_TRACE"
"""
CRATES = "elem_descr: itoa\nfancy_index: byteorder elem_descr raw_block\nraw_block:\nscript_lang: elem_descr\nbench_engine: fancy_index script_lang\nhost_process: clap\nbench_main: bench_engine host_process\narray_tests: fancy_index\n"
STRIP = """#!/bin/sh
[ "$1" = -o ] && cp "$3" "$2"
"""


class InTree(unittest.TestCase):
    """Tests over a tree with sources of no account, where all that is built or proved is pretended."""

    def setUp(self):
        self.folder = pathlib.Path(tempfile.mkdtemp())
        self.addCleanup(shutil.rmtree, self.folder)
        self.tree = self.folder / "a tree"
        for name in ("bench", "Makefile", "CHANGELOG.md", "README.md", "tools/make", "docs", "companion", "completions", "man", "editors", "examples", "LICENSE-MIT", "LICENSE-APACHE"):
            self.copy(TOP / name, self.tree / name)
        self.put(self.tree / "crates.txt", CRATES)
        self.uses = dict(re.findall(r"(\w+):(.*)\n", CRATES))
        del self.uses["array_tests"]
        for crate in self.uses:
            self.put(self.tree / "crates" / crate / "src/lib.rt", "//! Nothing.\n")
        for name, text in (("kit/bin/rt", RT), ("program", SAYS), ("kit/toolchain/bin/clang", STRIP)):
            self.put(self.folder / name, text)
        self.trace = self.folder / "trace"
        self.trace.write_text("")
        self.env = {**os.environ, "PATH": f"{self.folder / 'kit/bin'}:{os.environ['PATH']}", "RT_TRACE": str(self.trace), "RT_PROGRAM": str(self.folder / "program")}
        self.env.pop("GLIBC_TUNABLES", None)

    def copy(self, old, new):
        new.parent.mkdir(parents=True, exist_ok=True)
        if old.is_dir():
            shutil.copytree(old, new, ignore=shutil.ignore_patterns("__pycache__"))
        else:
            shutil.copy2(old, new)

    def put(self, path, text):
        path.parent.mkdir(parents=True, exist_ok=True)
        path.write_text(text)
        path.chmod(0o755)

    def run_in(self, words, where=None, **env):
        return subprocess.run(words, cwd=where or self.tree, env={**self.env, **env}, stdin=subprocess.DEVNULL, capture_output=True, text=True, timeout=PATIENT)

    def told(self, ran):
        self.assertEqual((ran.returncode, ran.stderr), (0, ""))
        return ran.stdout.splitlines()

    def started(self):
        """The crates that were begun since the last call, in that order."""
        lines = self.trace.read_text().splitlines()
        self.trace.write_text("")
        return [line.split()[1] for line in lines if line.startswith("start")]


class Launcher(InTree):
    def setUp(self):
        super().setUp()
        self.put(self.tree / "dist/bench-x86_64-linux", SAYS)

    def test_becomes_the_program(self):
        for words in ([], ["--dir", "a b"]):
            said = self.told(self.run_in([str(self.tree / "bench"), *words], where="/"))
            self.assertEqual(said[0], "words: " + " ".join(words))
            self.assertIn(f"mmap_threshold={SIZE}", said[1])
            self.assertTrue(int(said[2].split()[1], 16) >> (25 - 1 - 16) & 1, "a file's limit still ends the program")
            self.assertIn("dist/bench-x86_64-linux", said[3])
        self.assertEqual(self.started(), [])

    def test_what_make_built_comes_first(self):
        self.put(self.tree / BUILT, SAYS)
        self.assertIn("bench_main", self.told(self.run_in(["./bench"]))[3])

    def test_a_link_leads_to_it(self):
        (self.folder / "link").symlink_to(self.tree / "bench")
        self.assertEqual(self.told(self.run_in([str(self.folder / "link"), "-x"], where="/"))[0], "words: -x")
        self.assertEqual(self.told(self.run_in(["sh", "bench", "-x"]))[0], "words: -x")

    @needs_program
    def test_folders_of_any_name(self):
        """The program is started by its name alone, since its words must be UTF-8."""
        for name in (b"\xff", b"a:b", b" $x'"):
            tree = os.path.join(os.fsencode(self.folder), name)
            os.makedirs(os.path.join(tree, b"dist"))
            shutil.copy(TOP / "bench", os.path.join(tree, b"bench"))
            os.symlink(PROGRAM, os.path.join(tree, b"dist/bench-x86_64-linux"))
            ran = subprocess.run([os.path.join(tree, b"bench")], input=b"names\n", capture_output=True)
            self.assertEqual((ran.returncode, ran.stdout, ran.stderr), (0, b"names\n", b""), name)

    @needs_program
    def test_without_arguments_at_a_terminal(self):
        """It is the companion's shell there, unless Python 3.9 is not there or --plain is said; anywhere else it is the program."""
        (self.tree / "dist/bench-x86_64-linux").unlink()
        (self.tree / "dist/bench-x86_64-linux").symlink_to(PROGRAM)
        self.put(self.folder / "old/python3", "#!/bin/sh\nexit 1\n")
        few = f"{self.folder / 'old'}:{links_to(['sh', 'readlink', 'env', 'uname'], self.folder / 'few')}"
        for words, path, is_shell in (([], self.env["PATH"], True), (["--plain"], self.env["PATH"], False), ([], few, False), (["--undo", "3"], None, False)):
            with self.subTest(words, path=path):
                self.assertEqual("Tab completes" in self.at_terminal(["./bench", *words], path, is_shell), is_shell)
        self.assertEqual(self.told(self.run_in(["./bench"])), [])
        self.assertEqual(self.run_in(["./bench", "--plain", "nowhere"]).stderr, "bench: no script: nowhere\n")

    def at_terminal(self, words, path, is_shell):
        """What is shown at a terminal where `names` and Ctrl-D are typed, in the shell at its prompts: before one a key may be lost."""
        terminal = Terminal(self.tree, words, {"PATH": path or self.env["PATH"], "BENCH": ""})
        self.addCleanup(terminal.close)
        shown = terminal.until(AT_PROMPT) if is_shell else ""
        terminal.type(b"names\n")
        shown += terminal.until(AT_PROMPT if is_shell else b"\nnames\n") + terminal.end()
        self.assertEqual(terminal.status, 0)
        return shown

    def test_tunables_that_are_set_stay(self):
        self.assertEqual(self.told(self.run_in(["./bench"], GLIBC_TUNABLES="glibc.malloc.arena_max=1"))[1], "tunables: glibc.malloc.arena_max=1")

    def test_limits_of_memory(self):
        """Where the address space has a limit memory is given back, and a small stack is want of memory."""
        for limits, tunables in (("-v 8000000", ""), ("-s 512", None), ("-s 4096", None)):
            said = self.told(self.run_in(["sh", "-c", f"ulimit {limits}; exec ./bench"]))[1]
            self.assertEqual("mmap_threshold" in said, tunables is None)
        ran = self.run_in(["sh", "-c", "ulimit -s 256; exec ./bench"])
        self.assertEqual((ran.returncode, ran.stdout, ran.stderr), (3, "", "bench: out of memory\n"))

    @unittest.skipUnless(shutil.which("prlimit"), "there is no prlimit")
    def test_a_stack_above_the_shells_numbers(self):
        ran = self.run_in(["prlimit", "--stack=9300000000000000000:unlimited", "./bench"])
        if "permitted" in ran.stderr:
            self.skipTest("limits cannot be raised here")
        self.assertEqual(self.told(ran)[0], "words: ")

    @needs_program
    def test_little_memory_for_data(self):
        """By where the system puts the program's blocks it runs, or says why not."""
        for _ in range(10):
            ran = subprocess.run(["sh", "-c", f"ulimit -d 1500; exec '{TOP}/bench'"], input=b"names\n", capture_output=True)
            self.assertIn((ran.returncode, ran.stdout, ran.stderr), [(0, b"names\n", b""), (3, b"", b"bench: out of memory\n")])

    @needs_program
    def test_few_descriptors(self):
        """Where few files may be open it runs, or says that it cannot."""
        script = self.folder / "script.bench"
        script.write_text("names\n")
        for most in range(4, 17):
            for given in (f"'{script}'", f"<'{script}'", f"'{script}' 9</dev/null"):
                ran = subprocess.run(["sh", "-c", f"ulimit -n {most}; '{TOP}/bench' {given}"], capture_output=True, text=True, timeout=PATIENT)
                with self.subTest(most=most, given=given):
                    self.assertEqual(ran.stdout, "names\n" if ran.returncode == 0 else "")
                    self.assertTrue(ran.returncode == 0 or ran.stderr)

    def test_no_proc(self):
        ran = self.run_in(["unshare", "-m", "sh", "-c", "umount -l /proc && exec ./bench -x"]) if shutil.which("unshare") else None
        if ran is None or re.search("unshare|umount", ran.stderr):
            self.skipTest("/proc cannot be taken away here")
        self.assertEqual(ran.stdout.splitlines()[0], "words: -x")

    def test_version(self):
        """It says which program it starts."""
        self.assertEqual(self.told(self.run_in(["./bench", "--version"])), ["bench 1.0 from ./dist/bench-x86_64-linux"])
        self.assertEqual(self.told(self.run_in(["./bench", "--version", "--undo"]))[0], "words: --version --undo")

    def test_no_script(self):
        """A script that is not there is named, if its name is plain; whatever else is the program's to say."""
        ran = self.run_in(["./bench", "no where.bench"])
        self.assertEqual((ran.returncode, ran.stdout, ran.stderr), (3, "", "bench: no script: no where.bench\n"))
        for words in (["\x1b[2J"], ["\u00e9"], [""], ["-"], ["--help"], ["README.md"], ["x", "y"]):
            self.assertEqual(self.told(self.run_in(["./bench", *words]))[0], "words: " + " ".join(words))

    def test_no_program(self):
        shutil.rmtree(self.tree / "dist")
        ran = self.run_in(["./bench"])
        self.assertEqual((ran.returncode, ran.stdout, ran.stderr), (3, "", "bench: no program for x86_64 in ./crates/bench_main/out, ./dist or ./../libexec/bench: `make` builds one for x86_64\n"))

    def instead(self, old, new):
        """Has the launcher look at another path."""
        launcher = self.tree / "bench"
        self.assertIn(old, launcher.read_text())
        launcher.write_text(launcher.read_text().replace(old, str(new)))

    def test_another_machine(self):
        """Where the loader of glibc for x86-64 is not, `uname` says the machine. Its program is tried, and what it needs is told if it does not
        run; where there is none, that is told."""
        self.instead("/lib64/ld-linux-x86-64.so.2", "/nowhere")
        for machine in ("x86_64", "aarch64"):
            self.put(self.folder / "kit/bin/uname", f"#!/bin/sh\n[ $1 = -m ] && echo {machine} || echo Linux\n")
            self.put(self.tree / f"dist/bench-{machine}-linux", SAYS)
            said = self.told(self.run_in(["./bench", "-x"]))
            self.assertEqual((said[0], said[3].endswith(f"bench-{machine}-linux")), ("words: -x", True))
            self.put(self.tree / f"dist/bench-{machine}-linux", "#!/bin/sh\nexit 127\n")
            ran = self.run_in(["./bench"])
            self.assertEqual((ran.returncode, ran.stdout), (3, ""))
            self.assertIn("needs Linux, on x86-64", ran.stderr)
        self.put(self.folder / "kit/bin/uname", "#!/bin/sh\necho arm64\n")
        ran = self.run_in(["./bench"])
        self.assertEqual((ran.returncode, ran.stdout, ran.stderr[:32]), (3, "", "bench: no program for arm64 in ."))

    def test_another_processor(self):
        """The program for x86-64-v3 is taken where the processor has all of it; what `make` built comes first."""
        told = self.folder / "cpuinfo"
        self.instead("/proc/cpuinfo", told)
        self.put(self.tree / "dist/bench-x86_64-v3-linux", SAYS)
        flags = "fpu fma cx16 movbe f16c lahf_lm abm fsgsbase bmi1 avx2 smep bmi2 erms"
        for lacking in (None, "all", "fma", "movbe", "f16c", "abm", "bmi1", "avx2", "bmi2"):
            has = "" if lacking == "all" else f"model\t: 1\nflags\t\t: {flags} \nbugs\t:\n".replace(f" {lacking} ", " ")
            told.write_text(f"processor\t: 0\n{has}")
            self.assertIn("v3" if lacking is None else "dist/bench-x86_64-linux", self.told(self.run_in(["./bench"]))[3], lacking)
        told.unlink()
        self.assertIn("dist/bench-x86_64-linux", self.told(self.run_in(["./bench"]))[3])
        told.write_text(f"flags\t\t: {flags} \n")
        self.put(self.tree / BUILT, SAYS)
        self.assertIn("bench_main", self.told(self.run_in(["./bench"]))[3])


@unittest.skipUnless(shutil.which("make"), "there is no make")
class Makes(InTree):
    def make(self, *words, **env):
        ran = self.run_in(["make", *words], **env)
        self.assertEqual(ran.returncode, 0, ran.stderr)
        return ran

    def test_each_crate_after_those_that_it_uses(self):
        self.make("-j3")
        done, running, most = [], set(), 0
        for line in self.trace.read_text().splitlines():
            event, crate = line.split()
            if event == "start":
                self.assertTrue(set(self.uses[crate].split()) & {*self.uses} <= {*done}, crate)
                running.add(crate)
            else:
                running.remove(crate)
                done.append(crate)
            most = max(most, len(running))
        self.assertEqual(sorted(done), sorted(self.uses))
        self.assertLessEqual(most, 3)
        self.assertEqual(list((self.tree / "out/build").glob("*/")), [])
        self.assertEqual(self.told(self.run_in(["./bench", "-x"]))[0], "words: -x")

    def test_sums_and_not_times_say_what_is_built(self):
        self.make()
        self.assertEqual(len(self.started()), len(self.uses))
        for path in self.tree.rglob("*.rt"):
            os.utime(path)
        other = self.folder / "another"
        shutil.copytree(self.tree, other)
        self.make()
        self.assertEqual(self.run_in(["make"], where=other).returncode, 0)
        self.assertEqual(self.started(), [])
        (self.tree / "crates/fancy_index/src/lib.rt").write_text("//! Something.\n")
        self.make()
        self.assertEqual(self.started(), ["fancy_index", "bench_engine", "bench_main"])
        self.make(RT_KIT="another kit")
        self.assertEqual(len(self.started()), len(self.uses))

    def test_a_crate_that_is_not_proved(self):
        ran = self.run_in(["make"], RT_FAILS="fancy_index")
        self.assertEqual(ran.returncode, 2)
        self.assertIn("bench: not built: fancy_index was not proved\nerror: no proof\n", ran.stderr)
        self.assertTrue((self.tree / "crates/elem_descr/out/rlib/stamp").is_file())
        self.assertNotIn("bench_engine", self.started())
        self.make()
        self.assertNotIn("elem_descr", self.started())

    def test_a_build_that_is_cut_off(self):
        for number in (signal.SIGINT, signal.SIGTERM):
            self.trace.write_text("")
            started = subprocess.Popen(["make"], cwd=self.tree, env={**self.env, "RT_SLEEPS": "raw_block"}, stdin=subprocess.DEVNULL,
                                       stdout=subprocess.DEVNULL, stderr=subprocess.PIPE, text=True, start_new_session=True, preexec_fn=heard)
            while "start raw_block" not in self.trace.read_text():
                self.assertIsNone(started.poll())
                time.sleep(0.01)
            second = self.run_in(["make", "prove-raw_block"])
            self.assertRegex(second.stderr, r"bench: not built: process \d+ is proving raw_block")
            os.killpg(started.pid, number) if number == signal.SIGINT else started.terminate()
            self.assertIn("bench: not built: interrupted", started.communicate(timeout=PATIENT)[1])
            self.assertEqual(list((self.tree / "out/build").glob("*/")), [])
            self.assertTrue((self.tree / "crates/raw_block/out/incremental").is_dir())
        self.make()

    def test_no_toolchain(self):
        (self.folder / "kit/bin/rt").unlink()
        ran = self.run_in(["make"], PATH=str(links_to("sh make python3 awk date find nproc sed".split(), self.folder / "few")))
        self.assertEqual(ran.returncode, 2)
        self.assertIn("bench: not built: building needs the command rt of the toolchain\n", ran.stderr)

    def test_installed_it_can_be_moved(self):
        """What dist/ has is installed where nothing is built, without the toolchain."""
        self.put(self.tree / "dist/bench-x86_64-linux", SAYS)
        first, second = self.folder / "in place", self.folder / "moved"
        self.make("-s", "install", f"PREFIX={first}")
        self.tree.rename(self.folder / "away")
        first.rename(second)
        said = self.told(self.run_in([str(second / "bin/bench"), "-x"], where="/"))
        self.assertEqual(said[0], "words: -x")
        self.assertIn(f"mmap_threshold={SIZE}", said[1])
        docs = second / "share/doc/bench"
        for page in docs.rglob("*.md"):
            for name in re.findall(r"\]\(([^)#:, ]+)\)", page.read_text()):
                self.assertTrue((page.parent / name).is_file() or page.name == "CHANGELOG.md", (page, name))
        self.assertEqual(self.run_in(["make", "-s", "uninstall", f"PREFIX={second}"], where=self.folder / "away").returncode, 0)
        self.assertEqual([path for path in second.rglob("*") if path.is_file()], [])
        self.assertEqual(self.started(), [])

    def test_stages(self):
        self.put(self.tree / BUILT, SAYS)
        self.make("-s", "install", f"DESTDIR={self.folder / 'stage'}", "PREFIX=/usr")
        self.assertTrue((self.folder / "stage/usr/libexec/bench/bench_main").is_file())

    @needs_program
    def test_a_package_runs_where_it_is_unpacked(self):
        (self.tree / "dist").mkdir()
        shutil.copy(PROGRAM, self.tree / "dist/bench-x86_64-linux")
        self.make("-s", "package")
        made = list((self.tree / "out").glob("bench-*-x86_64-linux.tar.gz"))
        self.assertEqual(len(made), 1)
        shutil.unpack_archive(made[0], self.folder / "unpacked")
        top = self.folder / "unpacked" / made[0].name.removesuffix(".tar.gz")
        script = top / "share/doc/bench/examples/mirrored.bench"
        for words in ([top / "bin/bench", script], [top / "bin/bench-tool", "run", script]):
            ran = self.run_in(words, where="/")
            self.assertEqual((ran.stdout, ran.stderr), (script.with_suffix(".out").read_text(), ""))

    def test_dist(self):
        """dist/ is written from what was built of the sources as they are, and else refused, as is another one by the gate."""
        self.assertEqual(self.run_in(["make", "-s", "dist"]).returncode, 2)
        self.make()
        self.make("dist")
        check, dist = ["tools/make/dist.py", "--check"], self.tree / "dist/bench-x86_64-linux"
        self.assertEqual(self.told(self.run_in(check)), ["bench: dist/ is what these sources give"])
        self.assertEqual(dist.read_text(), SAYS)
        self.assertIn("bench-x86_64-linux needs: Linux, x86-64-v2, glibc 2.34\n", (self.tree / "dist/SOURCES").read_text())
        wheel = next((self.tree / "dist").glob("bench_tool-*-py3-none-manylinux_2_34_x86_64.whl"))
        dist.write_text(SAYS.replace("words", "wards"))
        self.assertEqual(self.run_in(check).stdout.splitlines(), [
            "bench: dist/bench-x86_64-linux has not the sum that dist/SHA256SUMS has",
            f"bench: dist/{wheel.name} is not what the companion and dist/ give: run `make dist`",
            "bench: dist/ is not what these sources and this toolchain give"])
        self.make("dist")
        other = self.run_in(check, RT_KIT="another kit")
        self.assertEqual((other.returncode, other.stdout.splitlines()[0]), (0, "bench: dist/ was built by a kit, and another kit is here: the programs are not compared"))
        self.put(self.tree / BUILT, SAYS + "# other\n")
        self.assertEqual(self.run_in(check).stdout, "bench: dist/ is not what these sources and this toolchain give\n")
        self.put(self.tree / BUILT, SAYS)
        (self.tree / "crates/elem_descr/src/lib.rt").write_text("//! Nothing!\n")
        ran = self.run_in(check)
        self.assertEqual((ran.returncode, ran.stdout.splitlines()[0]), (1, f"bench: dist/SOURCES has not the program sources: {AGAIN}"))
        ran = self.run_in(["make", "-s", "dist"])
        self.assertEqual(ran.returncode, 2)
        self.assertIn("bench: the program is not what `make` builds of these sources: run `make`\n", ran.stderr)

    def test_wheels(self):
        """The gate refuses a wheel that is not of the companion and the files of dist/, and one that should not be there."""
        self.make()
        self.make("dist")
        check = ["tools/make/dist.py", "--check"]
        wheel = next((self.tree / "dist").glob("*.whl"))
        (self.tree / "companion/bench_tool/more.py").write_text("")
        self.assertEqual(self.run_in(check).stdout, f"bench: dist/{wheel.name} is not what the companion and dist/ give: run `make dist`\n")
        (self.tree / "companion/bench_tool/more.py").unlink()
        wheel.rename(wheel.with_name("bench_tool-0.1-py3-none-any.whl"))
        self.assertEqual({line.split()[1] for line in self.run_in(check).stdout.splitlines()}, {f"dist/{wheel.name}", "dist/bench_tool-0.1-py3-none-any.whl"})
        self.make("dist")
        self.assertEqual(self.told(self.run_in(check)), ["bench: dist/ is what these sources give"])
        self.assertEqual(list((self.tree / "dist").glob("*.whl")), [wheel])

    @unittest.skipUnless(shutil.which("sha256sum"), "there is no sha256sum")
    def test_sums(self):
        """The lines of README check dist/ with `sha256sum`, which finds each change."""
        self.make()
        self.make("dist")
        line = re.search(r"(?m)^    (\(cd dist && sha256sum .*\))", (TOP / "README.md").read_text())[1]
        names = sorted(path.name for path in (self.tree / "dist").iterdir())
        names.remove("SHA256SUMS")
        self.assertEqual(self.told(self.run_in(["sh", "-c", line])), [f"{name}: OK" for name in names])
        for name in names:
            with open(self.tree / "dist" / name, "ab") as held:
                held.write(b"x")
            ran = self.run_in(["sh", "-c", line])
            self.assertEqual((ran.returncode, f"{name}: FAILED" in ran.stdout), (1, True), name)


class Texts(unittest.TestCase):
    @unittest.skipUnless((TOP / "dist/SHA256SUMS").is_file() and shutil.which("sha256sum"), "dist/ has no SHA256SUMS, or there is no sha256sum")
    def test_the_sums_of_dist(self):
        ran = subprocess.run(["sha256sum", "-c", "--quiet", "SHA256SUMS"], cwd=TOP / "dist", capture_output=True, text=True)
        self.assertEqual((ran.returncode, ran.stdout, ran.stderr), (0, "", ""))

    @needs_program
    def test_the_help_is_the_programs(self):
        said = subprocess.run([PROGRAM, "--help"], capture_output=True, text=True).stdout
        self.assertEqual((TOP / "docs/help.txt").read_text(), said)

    def test_one_version(self):
        """The version is that of the changelog, wherever it stands."""
        version = re.search(r"^## (\d[\w.]*)", (TOP / "CHANGELOG.md").read_text(), re.M)[1]
        for file, text in (("man/bench.1", f'"bench {version}"'), ("man/bench-tool.1", f'"bench {version}"'), ("bench", f"bench {version} from"),
                           ("companion/pyproject.toml", f'version = "{version}"'), ("companion/bench_tool/__init__.py", f'__version__ = "{version}"'),
                           ("library/bench.pc", f"Version: {version}\n")):
            self.assertIn(text, (TOP / file).read_text(), file)

    def test_notices(self):
        """NOTICES has each library that is linked into dist/, with the copyright lines of its licence files, where the toolchain is."""
        page = (TOP / "docs/NOTICES.md").read_text()
        rows = dict(re.findall(r"(?m)^\| ([a-z_]+) \| [^|]* \| ([^|]* \| .*) \|$", page))
        named = {name for line in (TOP / "crates.txt").read_text().splitlines()[1:] for name in line.partition(":")[2].split()}
        named = {name for name in named if not (TOP / "crates" / name).is_dir() and f"`{name}`" not in page}
        kit = shutil.which("rt") and pathlib.Path(shutil.which("rt")).resolve().parents[1]
        for name in sorted(named) if kit else ():
            named |= set(re.findall(r"(?m)^dep (\w+)$", (kit / f"rlibs/{name}.rlib/format").read_text()))
        named = {name for name in named if f"`{name}`" not in page}
        self.assertLessEqual(named, set(rows))
        for name in sorted(rows) if kit else ():
            self.assertIn(name, named)
            texts = [path.read_text() for path in (kit / "rattle" / name).glob("LICENSE*") if "APACHE" not in path.name]
            lines = [line for text in texts for line in re.findall(r"(?m)^Copyright .*$", text)]
            self.assertEqual(rows[name].split(" | ")[1], "; ".join(lines) or "(no line)", name)

    @needs_program
    def test_an_empty_script_costs_a_shell_at_most(self):
        """Three milliseconds more than the program, in processor time: the least of some means, as a busy machine makes each longer."""
        def mean(program):
            before = processor_seconds()
            for _ in range(40):
                subprocess.run([program], stdin=subprocess.DEVNULL, check=True, close_fds=False)
            return (processor_seconds() - before) / 40
        self.assertLessEqual(min(mean(TOP / "bench") - mean(PROGRAM) for _ in range(4)), 0.003)


if __name__ == "__main__":
    unittest.main()
