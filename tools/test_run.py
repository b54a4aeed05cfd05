"""`bench-tool run`: what the program says and leaves, and each refusal at its line."""
import contextlib
import os
import pathlib
import random
import re
import shutil
import signal
import subprocess
import tempfile
import time
import unittest
from unittest import mock

from trials.companion_trials import PATIENT, PROGRAM, TOOL, TOP, InFolder, environment, needs_program, numpy_or_none, share, tool_here, works
from trials import runs as hostile_runs
from trials import lines as scripts

TOLD = re.compile(r"(.*):(\d+): (E\d\d) ([^:]*): ?(.*)")


def program_here(*words):
    """What the program writes, and its status."""
    done = subprocess.run([PROGRAM, *words], capture_output=True, stdin=subprocess.DEVNULL, env=environment(), timeout=PATIENT)
    return done.stdout, done.stderr, done.returncode


def ran(called, script, text):
    """The run of a script over a folder of its own: output, errors, status, files left."""
    with tempfile.TemporaryDirectory() as top:
        folder = pathlib.Path(top, "files")
        hostile_runs.fill(folder, script.files)
        output, told, status = called(text, f"--dir={folder}", *([] if script.depth is None else ["--undo", str(script.depth)]))
        return output, told.decode(), status, hostile_runs.contents(folder)


def tool_runs(*words):
    return tool_here("run", *words)


def refusals(lines, output):
    """The line of each refusal with its code, by the program's output alone: a reply begins neither empty nor with a blank."""
    begins = [line for line in output.decode().split("\n")[:-1] if line and line[0] != " "]
    asked = [number for number, line in enumerate(lines, 1) if not scripts.is_silent(line)]
    assert len(begins) == len(asked), (len(begins), len(asked))
    return [(number, begin[3:6], begin[7:]) for number, begin in zip(asked, begins) if begin.startswith("no E")]


def alive(process):
    """Whether a process is there and has not ended."""
    try:
        return pathlib.Path(f"/proc/{process}/stat").read_text().rpartition(")")[2].split()[0] != "Z"
    except FileNotFoundError:
        return False


def below(process):
    """The processes that a process has started, each with its processor time in seconds."""
    found = {}
    for path in pathlib.Path("/proc").glob("[0-9]*/stat"):
        with contextlib.suppress(OSError):  # (it has ended meanwhile)
            words = path.read_text(errors="replace").rpartition(")")[2].split()
            if int(words[1]) == process:
                found[int(path.parent.name)] = (int(words[11]) + int(words[12])) / os.sysconf("SC_CLK_TCK")
    return found


def heard():
    """Ctrl-C is heard, also where a gate that runs behind a shell's & has it ignored."""
    signal.signal(signal.SIGINT, signal.default_int_handler)


@needs_program
class Runs(InFolder):
    def written(self, text):
        path = self.folder / "script.bench"
        path.write_bytes(text if isinstance(text, bytes) else text.encode())
        return str(path)

    def tool(self, text, *words):
        path = self.written(text)
        output, told, status = tool_here("run", path, *words)
        return output.decode(), told.decode().replace(path, "SCRIPT"), status

    def compare(self, script):
        path = self.written(scripts.text_of(script.lines))
        bench, tool = ran(program_here, script, path), ran(tool_runs, script, path)
        self.assertEqual((tool[0], tool[2], tool[3]), (bench[0], bench[2], bench[3]))
        told = [TOLD.fullmatch(line) for line in tool[1].splitlines() if ": note: " not in line]
        self.assertNotIn(None, told)
        self.assertEqual([(int(found[2]), found[3], found[4]) for found in told], refusals(script.lines, bench[0]))
        self.assertTrue(all(found[1] == path for found in told))

    def test_scripts_of_the_repository(self):
        for script in scripts.own_scripts():
            with self.subTest(script.name):
                self.compare(script)

    def test_random_scripts(self):
        for number in range(share(25, 1000)):
            with self.subTest(number):
                self.compare(scripts.random_script(PROGRAM, random.Random(f"run {number}"), number))

    def test_scripts_of_the_comparison_with_numpy(self):
        if numpy_or_none() is None:
            self.skipTest("NumPy is not installed")
        from trials import beside_numpy
        for number in range(share(5, 200)):
            reference, lines, files = beside_numpy.script(f"run {number}", "mixed", 30)
            with self.subTest(number):
                self.compare(scripts.Script("of the comparison", [line.encode() for line in lines], files, reference.depth))

    def both(self, path):
        """A script by the program and by the companion: output, errors and status."""
        return program_here(path), tool_runs(path)

    def test_texts_as_they_are(self):
        """Last lines without a newline, carriage returns, NULs, bytes of no text, no line at all."""
        texts = [b"", b"\n", b"names", b"names\r\nnames\r", b"print a\0\n\xff\n#\xff\n", b"x" * 65537, b"x" * 70000 + b"\nnames\n",
                 b" " * 65536 + b"\r\n", b"#" * 200000 + b"\nnames"]
        for text in texts:
            with self.subTest(text[:40]):
                program, tool = self.both(self.written(text))
                self.assertEqual(tool[::2], program[::2])

    def test_what_cannot_be_run(self):
        """The status is the program's; the words say what it is."""
        for path, said in ((self.folder / "nowhere", "there is no script"), (self.folder, "it is a folder"), ("/proc/self/mem", "read fault")):
            with self.subTest(path):
                program, tool = self.both(str(path))
                self.assertEqual(tool[::2], program[::2])
                self.assertIn(said, tool[1].decode())
        output, told, status = self.tool("names", "--dir", str(self.folder / "nowhere"))
        self.assertEqual((output, status), ("names\n", 0))
        self.assertIn("there is no folder", told)

    def test_replies_that_are_not_taken(self):
        path = self.written("names\nnames\n")
        with open("/dev/full", "wb") as full:
            done = subprocess.run([TOOL, "run", path], stdout=full, stderr=subprocess.PIPE, env=environment())
        self.assertEqual((done.returncode, done.stderr), (3, b"bench: write fault\n"))
        done = subprocess.run(["sh", "-c", f"{{ {TOOL} run {path}; echo $? >&2; }} | true"], stderr=subprocess.PIPE, env=environment())
        self.assertEqual(done.stderr, b"bench: write fault\n3\n")

    def test_place_of_a_refusal(self):
        text = "# a comment\nb = arange <i4 0 2 1\n\nc = b[2]\nprint b[0]\n"
        output, told, status = self.tool(text)
        self.assertEqual(output, "ok b <i4 (2,) new\nno E11 index out of range\nno E03 syntax\n")
        self.assertEqual(told.splitlines(), [
            "SCRIPT:4: E11 index out of range: c = b[2]", "SCRIPT:4: note: axis 0 of b has length 2: 2 is outside, -2 to 1 are within",
            "SCRIPT:5: E03 syntax: print b[0]",
            "SCRIPT:5: note: write: t = b[0]", "SCRIPT:5: note: write: print t",
        ])
        self.assertEqual(status, 1)

    def test_stop(self):
        """A save behind a load that is refused overwrites nothing."""
        lines = 'x = zeros <i4 (2)\nx = load "b.npy"\nsave x "a.npy"\n'
        output, told, status = self.tool(lines, "--stop", f"--dir={self.folder}")
        self.assertEqual((output.splitlines()[1:], status), (["no E34 no such file"], 1))
        self.assertEqual(told.splitlines()[0], 'SCRIPT:2: E34 no such file: x = load "b.npy"')
        self.assertFalse((self.folder / "a.npy").exists())

    def test_summary_and_time(self):
        output, told, status = self.tool("names\n# none\nprint a\n\nnames", "--summary", "--time")
        lines = told.splitlines()
        self.assertRegex(lines[0], r"^ *\d+\.\d{3} ms +1  names$")
        self.assertRegex(lines[1], r"^ *\d+\.\d{3} ms +3  print a$")
        self.assertRegex(lines[-1], r"^SCRIPT: 2 accepted, 1 refused, 1 E06; \d+\.\d{3} s$")
        self.assertEqual((output, status), ("names\nno E06 unknown name\nnames\n", 1))

    def test_standard_input(self):
        done = subprocess.run([TOOL, "run", "-"], input=b"names\nprint a", capture_output=True, env=environment())
        self.assertEqual((done.stdout, done.returncode), (b"names\nno E06 unknown name\n", 1))
        self.assertEqual(done.stderr, b"-:2: E06 unknown name: print a\n-:2: note: a is not bound\n-:2: note: no name is bound yet\n")

    def test_numbers(self):
        """A refused line has the shapes and numbers behind its code."""
        before = "a = arange <i4 0 6 1\nm = reshape a (2,3)\nk = full ? (4) True\ni = zeros <i8 (2)\nj = zeros <i8 (3)\n"
        for line, said in [
            ("x = m[0,5]", "axis 1 of m has length 3: 5 is outside, -3 to 2 are within"), ("x = add a m", "a has shape (6,), m has shape (2, 3):"),
            ("x = reshape a (4,2)", "a is <i4 (6,): 6 items, and (4,2) has 8"),
            ("x = a[k]", "a is <i4 (6,), k is |b1 (4,)"), ("x = m[i,j]", "i is <i8 (2,), j is <i8 (3,)"),
            ("x = broadcast a (3)", "a has shape (6,): aligned at the last axis, lengths must be equal, or 1 in a"),
            ("set m[0] = a", "m[0] has shape (3,), a has shape (6,)"),
        ]:
            with self.subTest(line):
                self.assertIn(said, self.tool(before + line)[1])

    def test_hints_are_guests(self):
        """Whatever becomes of a hint, each line runs: with numbers in a long index array, a time that is none, no second session."""
        lines = 'i = full |u1 (2001) 9\na = zeros <i4 (3)\nb = a[i]\nb = a[3]\nsave a "a.npy"\n'
        for seconds in ("30", "0", "", "abc", "inf", "nan", "-1", "9" * 400):
            with self.subTest(seconds):
                output, told, status = tool_here("run", "--dir", self.folder, self.written(lines), BENCH_HINT_SECONDS=seconds)
                self.assertEqual((output.splitlines()[2:], status), ([b"no E11 index out of range"] * 2 + [b"ok save 140"], 1))
                self.assertEqual(b"BENCH_HINT_SECONDS is not a number from 0 to 3600" in told, seconds not in ("30", "0", ""))
                self.assertIn(b"note: axis 0 of a has length 3: a number in i is outside, -3 to 2 are within", told)
                self.assertIn(b"note: axis 0 of a has length 3: 3 is outside, -3 to 2 are within", told)
        path = self.written(lines + "b = zeros f8 (3)\n")
        for broken in ("Hints._said", "Hints._start", "Session", "tempfile.TemporaryDirectory", "Numbers", "language.codes", "Reading", "translated"):
            with self.subTest(broken), mock.patch(f"bench_tool.hints.{broken}", lambda *_, **__: next(iter(()))):
                output, told, status = tool_here("run", "--dir", self.folder, path)
                self.assertEqual((output.splitlines()[4:], status), ([b"ok save 140", b"no E05 descriptor left out"], 1), told)

    def test_what_nothing_catches(self):
        """An exception of the tool itself is told in one line, with where it was."""
        for raised, said in (("1 // 0", r"bench-tool: ZeroDivisionError in <string>, line 1: .*; this is a defect of bench-tool: please report it with this line\n"),
                             ("[0] * 10**18", "bench-tool: out of memory\n"), ("next(iter(()))", "bench-tool: StopIteration .*report.*\n")):
            for module, words in (("runs.run", ["run", "-"]), ("show.show", ["show", "a"]), ("page.draw", ["draw", "-"]), ("shell.shell", ["shell"])):
                with self.subTest(module), mock.patch(f"bench_tool.{module}", eval(f"lambda _: {raised}")):
                    output, told, status = tool_here(*words)
                    self.assertEqual((output, status), (b"", 3))
                    self.assertRegex(told.decode(), f"^{said}$")

    def test_ctrl_c_at_once(self):
        """Ctrl-C while the tool begins ends it with status 130 and no traceback of its own. (Python itself may write one, before it runs the tool's first line.)"""
        path, rng = self.written("a = arange <i4 0 9 1\nprint a\n" * 50), random.Random(1)
        for _ in range(share(5, 100)):
            for words in (["run", path], ["--help"], ["draw", path], ["show", path]):
                tool = subprocess.Popen([TOOL, *words], stdout=subprocess.DEVNULL, stderr=subprocess.PIPE, env=environment(), preexec_fn=heard)
                time.sleep(0.02 + rng.random() * 0.25)
                tool.send_signal(signal.SIGINT)
                said = tool.communicate(timeout=PATIENT)[1]
                own = re.findall(rb'File ".*(?:bench_tool/.*|bench-tool", line \d\d)', said)
                self.assertEqual(own, [], said)
                if not re.search(rb"Traceback|Fatal Python error", said) and tool.returncode not in (0, -signal.SIGINT):  # it ended before, or before it began
                    self.assertIn(tool.returncode, (1, 130) if b"E28" in said else (130,), said)

    def test_place_where_a_line_stops(self):
        _, told, _ = self.tool("a = zeros <i4 (3\n")
        self.assertEqual(told.splitlines()[1:], ["SCRIPT:1: note: a = zeros <i4 (3", "SCRIPT:1: note:                 ^ `,` or `)`"])

    @unittest.skipUnless(shutil.which("bash"), "there is no Bash")
    def test_standard_error_that_cannot_be_written(self):
        """The script is carried out to its end, and the status says what happened."""
        path = self.written('a = zeros |u1 (3)\n' + 'b = zeros f8 (3)\n' * 200 + 'save a "end.npy"\nnames\n')
        for behind in ("2>/dev/null", "2>/dev/full", "2>&-", "2>&1 >/dev/null | head -1"):
            with self.subTest(behind):
                command = f"{{ {TOOL} run --dir {self.folder} {path}; echo $? >{self.folder}/status; }} {behind}"
                subprocess.run(["bash", "-c", command], capture_output=True, env=environment(), timeout=PATIENT)
                self.assertEqual((self.folder / "status").read_text(), "1\n")
                (self.folder / "end.npy").unlink()

    @unittest.skipUnless(shutil.which("bash"), "there is no Bash")
    def test_closed_streams(self):
        """A stream that is closed or full is a fault where it is needed, and said in one line where that can be said."""
        path, closed = self.written("a = zeros <i4 (3)\n"), "bench-tool: a standard stream is closed"
        full = "bench-tool: No space left on device"
        for words, status, said in (
            ("run - <&-", 3, "bench-tool: read fault: Bad file descriptor"), ("draw - <&-", 3, "bench-tool: read fault: Bad file descriptor"),
            ("shell <&-", 3, closed), (f"shell <{path} >&-", 3, closed), (f"draw {path} >&-", 3, closed), ("--version >&-", 3, closed),
            (f"run {path} >&-", 3, "bench: write fault"), (f"run {path} <&-", 0, ""), (f"run {path} <&- >&- 2>&-", 3, ""),
            (f"shell <{path} >/dev/full", 3, full), (f"draw {path} >/dev/full", 3, full), ("--version >/dev/full", 3, full),
            ("run --help >/dev/full", 3, full), ("run 2>/dev/full", 2, ""), ("zz 2>/dev/full", 2, ""), (f"draw {path} >/dev/full 2>&1", 3, ""),
        ):
            for unbuffered in ("", "1") if "full" in words else ("",):
                with self.subTest(words, unbuffered=unbuffered):
                    settings = environment(PYTHONUNBUFFERED=unbuffered)
                    done = subprocess.run(["bash", "-c", f"{TOOL} {words}"], capture_output=True, env=settings, timeout=PATIENT)
                    self.assertEqual((done.returncode, done.stderr.decode()), (status, said + "\n" * bool(said)))

    @unittest.skipUnless(shutil.which("bash"), "there is no Bash")
    def test_a_file_that_may_not_grow(self):
        """Where no more may be written, a save is refused, and what comes behind it runs."""
        path = self.written('a = zeros |u1 (100000)\nsave a "big.npy"\nnames\n')
        done = subprocess.run(["bash", "-c", f"ulimit -f 8; {TOOL} run --dir {self.folder} {path}"], capture_output=True, env=environment(), timeout=PATIENT)
        self.assertEqual((done.stdout, done.returncode), (b"ok a |u1 (100000,) new\nno E27 store fault\nnames a\n", 1))

    def test_launcher(self):
        """In a tree the program is started by its launcher, and below a prefix by the one that is installed."""
        tree = self.folder / "tree"
        shutil.copytree(TOP / "companion", tree / "companion", ignore=shutil.ignore_patterns("__pycache__"))
        (tree / "docs").mkdir()
        shutil.copy(TOP / "docs/LANGUAGE.md", tree / "docs")
        (tree / "crates/bench_main/out").mkdir(parents=True)
        for name, text in (("crates/bench_main/out/bench_main", "exit 9"), ("bench", f"exec {PROGRAM} \"$@\"")):
            (tree / name).write_text(f"#!/bin/sh\n{text}\n")
            (tree / name).chmod(0o755)
        settings = {name: value for name, value in os.environ.items() if name != "BENCH"}
        done = subprocess.run([tree / "companion/bench-tool", "run", "-"], input=b"names", capture_output=True, env=settings, timeout=PATIENT)
        self.assertEqual((done.stdout, done.stderr, done.returncode), (b"names\n", b"", 0))

    def test_signals(self):
        """Ctrl-C and SIGTERM end `run` and the program at once; a program that is killed is reported."""
        slow = self.written("a = arange <i8 0 4000000 1\n" + "x = mod a a\n" * 1000)
        for sent, status in ((signal.SIGINT, 130), (signal.SIGTERM, 143)):
            with self.subTest(sent=sent):
                tool, programs = self.begun("run", slow)
                for _ in range(5):  # the first ends it, and the others do not disturb that
                    tool.send_signal(sent)
                self.assertEqual(tool.wait(timeout=PATIENT), status)
                self.assertEqual(list(filter(alive, programs)), [])
        tool, programs = self.begun("run", slow)
        os.kill(programs[0], signal.SIGKILL)
        self.assertIn(b"was killed", tool.communicate(timeout=PATIENT)[1])
        self.assertEqual(tool.returncode, 3)

    def begun(self, word, path):
        """A tool that works on a script, and the programs below it."""
        tool = subprocess.Popen([TOOL, word, path], stdout=subprocess.DEVNULL, stderr=subprocess.PIPE, env=environment(), preexec_fn=heard)
        self.addCleanup(tool.stderr.close)
        end = time.monotonic() + PATIENT
        while time.monotonic() < end:
            found = below(tool.pid)
            if any(seconds >= 0.2 for seconds in found.values()):
                return tool, list(found)
            time.sleep(0.05)
        raise AssertionError("no program works")

    def test_a_line_of_300_mb(self):
        """Its memory is constant, and so is what is said of it."""
        limited = ["sh", "-c", 'ulimit -v 250000; exec "$@"', "sh", TOOL, "run"]  # kilobytes
        if not works(*limited, "/dev/null", env=environment()):
            self.skipTest("this Python does not start with as little memory")
        path = self.folder / "long.bench"
        with open(path, "wb") as file:
            for _ in range(300):
                file.write(b"a" * 1_000_000)
            file.write(b"\nnames\n")
        done = subprocess.run([*limited, path], capture_output=True, env=environment())
        self.assertEqual((done.stdout, done.returncode), (b"no E01 line too long\nnames\n", 1))

    def test_names_are_printable(self):
        path = self.folder / "e\x1b[31mv"
        path.write_bytes(b"bogus\n")
        told = subprocess.run([TOOL, "run", path], capture_output=True, env=environment()).stderr
        self.assertNotIn(b"\x1b", told)
        self.assertIn(b"e\\x1b[31mv:1: E03 syntax: bogus\n", told)

    def test_words(self):
        for words in (["run"], ["run", "a", "b"], ["run", "--undo", "65", "a"], ["none"], []):
            self.assertEqual(subprocess.run([TOOL, *words], capture_output=True, env=environment()).returncode, 2)


if __name__ == "__main__":
    unittest.main()
