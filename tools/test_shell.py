"""`bench-tool shell` in a pseudo-terminal: prompt, history, Tab, help, Ctrl-C, Ctrl-D, long lines."""
import contextlib
import os
import random
import re
import select
import signal
import subprocess
import sys
import time
import unittest
import unittest.mock

from test_run import below
from trials.companion_trials import COMPANION, PATIENT, PROGRAM, TOOL, TOP, InFolder, environment, needs_program, share
from trials.terminals import AT_PROMPT, CTRL_C, CTRL_D, ENTER, TAB, UP, Terminal
from bench_tool.shell import PROMPT, history


# A program that is at work for two seconds on each line that begins with `slow`, and for long on `print slow`, which it writes to a file.
SLOW = f"""#!{sys.executable}
import pathlib, subprocess, sys, time
program = subprocess.Popen([{PROGRAM!r}, *sys.argv[1:]], stdin=subprocess.PIPE)
for line in sys.stdin.buffer:
    if line == b"print slow\\n":
        pathlib.Path(sys.argv[0]).with_name("at work").touch()
    time.sleep(6000 if line == b"print slow\\n" else 2 if line.startswith(b"slow") else 0)
    program.stdin.write(line)
    program.stdin.flush()
program.stdin.close()
sys.exit(program.wait())
"""

# A program that ends at each line that begins with `dies`, and from then on also at those that begin with `frail`.
FRAIL = f"""#!{sys.executable}
import pathlib, subprocess, sys
sign, program = pathlib.Path(sys.argv[0]).with_name("died"), subprocess.Popen([{PROGRAM!r}, *sys.argv[1:]], stdin=subprocess.PIPE)
for line in sys.stdin.buffer:
    if line.startswith(b"dies") or line.startswith(b"frail") and sign.exists():
        sign.touch()
        program.kill()
        sys.exit(9)
    program.stdin.write(line)
    program.stdin.flush()
program.stdin.close()
sys.exit(program.wait())
"""


@needs_program
class Shells(InFolder):
    def shell(self, *words, more=None):
        terminal = Terminal(self.folder, [str(TOOL), "shell", *words], more)
        self.addCleanup(terminal.close)
        self.assertIn("help", terminal.until(AT_PROMPT))
        return terminal

    def test_prompt_and_replies(self):
        shell = self.shell()
        self.assertEqual(shell.line(b"a = arange <i4 0 4 1"), "ok a <i4 (4,) new\n")
        self.assertEqual(shell.line(b"m = reshape a (2,2)"), "ok m <i4 (2, 2) view\n")
        self.assertEqual(shell.line(b"print m"), "[[0 1]\n [2 3]]\n")
        self.assertEqual(shell.line(b""), "")
        self.assertEqual(shell.line(b"# none"), "")
        self.assertEqual(shell.end(), "\n")
        self.assertEqual(shell.status, 0)

    def test_refused_lines(self):
        shell = self.shell()
        shell.line(b"first = arange <i4 0 4 1")
        self.assertEqual(shell.line(b"print first[0]"), "no E03 syntax\n    write: t = first[0]\n    write: print t\n    (Enter runs them, Up edits)\n")
        self.assertEqual(shell.line(b"print frst"), "no E06 unknown name\n    frst is not bound\n    did you mean first?\n")
        self.assertEqual(shell.line(b"t = first[4]"), "no E11 index out of range\n    axis 0 of first has length 4: 4 is outside, -4 to 3 are within\n")
        self.assertEqual(shell.line(b"t = zeros <i4 (4"), "no E03 syntax\n    t = zeros <i4 (4\n                    ^ `,` or `)`\n")
        self.assertIn("write <i4 instead of int32", shell.line(b"t = zeros int32 (2)"))
        shell.line(b"r = zeros T{b:x:T{b:y:}:s:} (1)")
        self.assertIn("r has the fields x s", shell.line(b'f = field r "z"'))
        shell.line(b'save r "some.npy"')
        self.assertIn("did you mean some.npy?", shell.line(b'f = load "sme.npy"'))

    def test_offered_lines_are_taken_with_one_key(self):
        """Enter on an empty line runs them, once; Up brings the last one back; Ctrl-C and another line leave them."""
        shell = self.shell()
        shell.line(b"a = arange <i4 0 6 1")
        self.assertIn("(Enter runs them, Up edits)", shell.line(b"x = a[a > 3]"))
        self.assertEqual(shell.line(b""), "bench> t = gt a 3\nok t |b1 (6,) new\nbench> x = a[t]\nok x <i4 (2,) copy\n")
        self.assertEqual(shell.line(b""), "")
        self.assertIn("write: upd a[...] add 1\n    (Enter runs it, Up edits)", shell.line(b"a += 1"))
        shell.type(UP + b"2" + ENTER)
        self.assertIn("ok upd 6", shell.until(AT_PROMPT))
        self.assertEqual(shell.line(b"print a"), "[12 13 14 15 16 17]\n")
        for other in (CTRL_C, b"names" + ENTER):
            shell.line(b"a += 1")
            shell.type(other)
            shell.until(AT_PROMPT)
            self.assertEqual(shell.line(b""), "")
        self.assertEqual(shell.line(b"print a"), "[12 13 14 15 16 17]\n")
        shell.end()
        self.assertEqual((self.folder / "history").read_text().splitlines()[1:4], ["x = a[a > 3]", "t = gt a 3", "x = a[t]"])

    def test_who_sees_a_write(self):
        shell = self.shell(more={"BENCH_HINT_SECONDS": "30"})
        for line in (b"s = zeros T{<I:t:<h:temp:} (8)", b'temp = field s "temp"', b"head = s[:4]", b"c = copy temp C", b"i = array <i8 (2) 6 7"):
            shell.line(line)
        for line, seen in ((b"set temp[3] = 5", "s, temp and head"), (b"set temp[4] = 5", "s and temp"), (b"upd temp[i] add 1", "s and temp"), (b"set c[0] = 1", "c only")):
            self.assertEqual(shell.line(line).split("\n", 1)[1], f"    seen by {seen}\n")
        self.assertEqual(shell.line(b"set temp[:0] = 5"), "ok set 0\n")

    def test_topics_of_the_help(self):
        topics = {"help views": "a write through either name", "help float": "there are no floats", "help broadcasting": "aligns the shape",
                  "help(set)": "writes a literal", 'help("E11")': "an integer is outside its axis", "help zzz": "there is no command zzz"}
        lines = "".join(f"{line}\nprint behind\n" for line in topics)
        done = subprocess.run([TOOL, "shell"], input=lines, capture_output=True, text=True, env=environment())
        for said, text in zip(topics.values(), done.stdout.split("no E06 unknown name\n")):
            self.assertIn(said, text)

    def test_help_and_quit(self):
        shell = self.shell()
        self.assertIn("X = reshape Y S", shell.line(b"help"))
        self.assertIn("E18 bad reshape", shell.line(b"help reshape"))
        self.assertIn("X = OP Y Z", shell.line(b"help shl"))
        self.assertIn("an integer is outside its axis", shell.line(b"help E11"))
        self.assertIn("no command frobnicate", shell.line(b"help frobnicate"))
        shell.end(b"quit" + ENTER)
        self.assertEqual(shell.status, 0)

    def test_history(self):
        shell = self.shell()
        shell.line(b"a = arange <i4 0 4 1")
        shell.line(b"print a")
        shell.type(UP + UP + ENTER)
        self.assertIn("ok a <i4 (4,) new", shell.until(AT_PROMPT))
        shell.end()
        again = self.shell()
        again.type(UP + ENTER)
        self.assertIn("ok a <i4 (4,) new", again.until(AT_PROMPT))

    def test_tab(self):
        shell = self.shell()
        shell.line(b"image = zeros T{B:red:B:green:T{B:x:}:blue:} (2)")
        for keys, shown in [
            (b"pri" + TAB + b"im" + TAB, "print image"),
            (b"x = tra" + TAB + b"im" + TAB, "x = transpose image"),
            (b"x=tra" + TAB + b"im" + TAB, "x=transpose image"),
            (b"im" + TAB + b"[0]", "image[0]"),
            (b'g = field image "gr' + TAB, 'g = field image "green"'),
            (b'save image "image.npy"', 'save image "image.npy"'),
            (b'x = load "im' + TAB, 'x = load "image.npy"'),
            (b'print "im' + TAB, 'print "im'),
            (b"help resh" + TAB, "help reshape"),
            (b"n = zeros |S" + TAB + b" (2)", "n = zeros |S8 (2)"),
            (b"upd image[0] fd" + TAB + b"1", "upd image[0] fdiv 1"),
            (b"n = zeros ima" + TAB, "n = zeros ima"),
            (b"n = image[ima" + TAB + b"]", "n = image[image]"),
            (b"n = copy image C" + TAB, "n = copy image C"),
        ]:
            with self.subTest(shown):
                shell.type(keys + ENTER)
                self.assertEqual(shell.until(AT_PROMPT).split("\n")[0], shown)

    def test_ctrl_c_drops_the_line(self):
        shell = self.shell()
        shell.line(b"a = zeros <i4 (2)")
        shell.type(b"a = zeros <i4 (3)")
        shell.until(b"(3)")
        shell.type(CTRL_C)
        shell.until(AT_PROMPT)
        self.assertEqual(shell.line(b"print a"), "[0 0]\n")
        shell.type(UP + UP + ENTER)  # and it is not among the earlier ones
        self.assertIn("ok a <i4 (2,) new", shell.until(AT_PROMPT))

    def test_ctrl_c_in_a_long_print(self):
        shell = self.shell()
        shell.line(b"a = zeros |u1 (200,1000)")
        shell.type(b".all a" + ENTER)
        shell.until(b".all a\n", is_last=False)
        select.select([shell.terminal], [], [], 60)
        shell.type(CTRL_C)
        shown = shell.until(AT_PROMPT)
        self.assertIn("the rest of the reply is dropped", shown)
        self.assertLess(len(shown), 400000)
        self.assertEqual(shell.line(b"names"), "names a\n")

    def test_longest_lines(self):
        shell = self.shell()
        self.assertEqual(shell.line(b"#".ljust(65536, b"x"))[-20:], "")
        command = b"a = zeros |u1 (2)"
        self.assertTrue(shell.line(command.replace(b" (", b" " * (65536 - len(command)) + b" (")).endswith("ok a |u1 (2,) new\n"))
        self.assertTrue(shell.line(b"#".ljust(65537, b"x")).endswith("no E01 line too long\n    the line has more than 65,536 bytes\n"))

    def test_ctrl_c_with_the_keys_of_vi(self):
        (self.folder / "inputrc").write_text("set editing-mode vi\n")
        shell = self.shell(more={"INPUTRC": str(self.folder / "inputrc")})
        for keys in (b"abc", b"abc\x1b"):
            shell.type(keys)
            shell.until(b"abc", is_last=False)
            time.sleep(0.6)  # so that Escape is a key of its own
            shell.type(CTRL_C)
            shell.until(AT_PROMPT)
        self.assertEqual(shell.line(b"names"), "names\n")

    def slow(self):
        """A shell of the slow program."""
        program = self.folder / "program"
        program.write_text(SLOW)
        program.chmod(0o755)
        shell = self.shell(more={"BENCH": str(program)})
        for line in (b"d = zeros <i4 (2)", b"set d[0] = 1", b"slow = zeros <i4 (2)", b"set d[0] = 2", b"undo"):
            self.assertIn("ok ", shell.line(line))
        return shell

    def begun(self, shell):
        """Types `print slow`, and Ctrl-C once the program is at work on it."""
        sign, end = self.folder / "at work", time.monotonic() + PATIENT
        sign.unlink(missing_ok=True)
        shell.type(b"print slow" + ENTER)
        shell.until(b"print slow\n")
        while not sign.exists() and time.monotonic() < end:
            time.sleep(0.05)
        time.sleep(0.3)  # until the shell waits for the reply too
        shell.type(CTRL_C)

    def test_ctrl_c_in_a_long_line(self):
        """Its work is stopped, and the names are those of the lines before it."""
        shell = self.slow()
        self.begun(shell)
        self.assertIn("the lines before this one are run again", shell.until(AT_PROMPT))
        self.assertEqual(shell.line(b"print d"), "[1 0]\n")
        self.assertEqual(shell.line(b"undo"), "ok undo\n    (took back: slow = zeros <i4 (2))\n")

    def test_names_are_given_up_only_when_asked(self):
        shell = self.slow()
        for answer, names in ((CTRL_C, "names d slow\n"), (b"y" + ENTER, "names\n")):
            self.begun(shell)
            shell.until(b"are run again)\n")
            shell.type(CTRL_C)
            shell.until(b"(y or n)? ")
            shell.type(answer)
            shell.until(AT_PROMPT)
            self.assertEqual(shell.line(b"names"), names)

    def test_ctrl_c_many_times(self):
        """However soon after one another they come, wherever they fall, the shell is there and has its names."""
        shell, rng = self.shell(), random.Random(1)
        shell.line(b"keep = zeros <i4 (1)")
        for _ in range(share(25, 500)):
            os.write(shell.terminal, rng.choice([b"", b"names\n", b"help\n", b'x = load "zz.npy"\n']) + CTRL_C)
            time.sleep(rng.choice([0, 0.0003, 0.001, 0.003]))
            os.write(shell.terminal, CTRL_C)
            time.sleep(rng.choice([0, 0.003, 0.02]))
        for _ in range(20):  # until it has heard all of them
            shell.type(b"\x15print keep" + ENTER)
            with contextlib.suppress(AssertionError):
                shell.until(b"[0]\n" + PROMPT.encode(), 10)
                break
        shell.end()
        self.assertEqual(shell.status, 0)

    def test_pasted_lines(self):
        """Several lines at once, as a terminal pastes them, and a newline within a line: each is a line."""
        shell = self.shell(more={"TERM": "xterm-256color"})
        shell.type(b"\x1b[200~a = zeros <i4 (2)\rprint a\r\x1b[201~" + ENTER)
        self.assertIn("ok a <i4 (2,) new\n[0 0]\n", shell.until(AT_PROMPT))
        shell.type(b"names\x16\x0a" + ENTER)
        self.assertIn("names a\n", shell.until(AT_PROMPT))
        self.assertEqual(shell.line(b"names"), "names a\n")

    def test_ends(self):
        for word in (b"exit", b"quit", b"exit()", b"quit()", b".exit"):
            shell = self.shell()
            shell.end(word + ENTER)
            self.assertEqual(shell.status, 0)

    def test_what_a_prompt_has(self):
        shell = self.shell()
        shell.line(b"a = arange <i4 0 6 1")
        self.assertEqual(shell.line(b"a"), "[0 1 2 3 4 5]\n")
        shell.line(b"m = reshape a (2,3)")
        shell.line(b"help = zeros <i4 (2)")
        self.assertEqual(shell.line(b"print help"), "[0 0]\n")
        self.assertEqual(shell.line(b".names"), "    a     <i4 (6,)  shares with m\n    m     <i4 (2, 3)  shares with a\n    help  <i4 (2,)\n")
        self.assertEqual(shell.line(b"undo"), "ok undo\n    (took back: help = zeros <i4 (2))\n")
        self.assertIn("wrote 6 lines to s.bench", shell.line(b".save s.bench"))
        self.assertEqual((self.folder / "s.bench").read_text(),
                         "a = arange <i4 0 6 1\nprint a\nm = reshape a (2,3)\nhelp = zeros <i4 (2)\nprint help\nnames\nundo\n".replace("names\n", ""))
        (self.folder / "t.bench").write_text("print m\nprint a[0]\n")
        self.assertEqual(shell.line(b".read t.bench"), "[[0 1 2]\n [3 4 5]]\nno E03 syntax\n    t.bench:2: write: t = a[0]\n    t.bench:2: write: print t\n")
        self.assertIn("No such file", shell.line(b".read nowhere"))
        self.assertIn("No space left", shell.line(b".save /dev/full"))
        self.assertIn("there is no command .nothing", shell.line(b".nothing"))
        shell.line(b".time")
        self.assertRegex(shell.line(b"names"), r"^names a m\n    \d+\.\d{3} ms\n$")
        self.assertIn("page.html", shell.line(b".draw page.html"))
        self.assertIn("reshape a", (self.folder / "page.html").read_text())

    def test_long_prints(self):
        """They are cut to the window as NumPy cuts them, and are there whole."""
        shell = self.shell()
        shell.line(b"a = arange <i4 0 100000 1")
        self.assertRegex(shell.line(b"print a"), r"^\[    0     1 .* \.\.\. .* 99999\]\n    \(cut to the window; \.all a prints all of it\)\n$")
        shell.line(b"m = reshape a (1000,100)")
        self.assertIn("\n... ", shell.line(b"m"))
        self.assertGreater(len(shell.line(b".all m")), 600000)

    def test_texts_of_all_kinds(self):
        """Bytes that are no text end no shell, in whatever encoding; file names come printable."""
        odd = os.path.join(os.fsencode(self.folder), b"b\033]0;title\007a\377X.npy")
        open(odd, "wb").close()
        script = os.path.join(os.fsencode(self.folder), b"c\377.bench")
        with open(script, "wb") as file:
            file.write(b"names\n")
        for encoding in ("utf-8:strict", "ascii:strict", "latin-1:strict"):
            settings = environment(PYTHONIOENCODING=encoding, PYTHONUTF8="0")
            lines = b'a = zeros <i4 (2)\n\377\n\303\251 = 1\nx = load "b0titleaX.npy"\nprint \360\n.read c\377.bench\n.read \377\nnames\n'
            with self.subTest(encoding):
                done = subprocess.run([TOOL, "shell"], input=lines, capture_output=True, env=settings, cwd=self.folder)
                self.assertEqual((done.stdout.splitlines()[-1], done.stderr, done.returncode), (b"names a", b"", 0))
                self.assertNotIn(b"\033", done.stdout)
                for words in (["run", script], ["draw", script]):
                    done = subprocess.run([TOOL, *words], capture_output=True, env=settings, cwd=self.folder)
                    self.assertEqual((done.stderr, done.returncode), (b"", 0))

    def test_no_home(self):
        with unittest.mock.patch.dict(os.environ, clear=True), unittest.mock.patch("pathlib.Path.home", side_effect=RuntimeError):
            self.assertEqual(history(), os.devnull)
            os.environ["BENCH_HISTORY"] = ""
            self.assertEqual(history(), os.devnull)

    def test_words(self):
        shell = self.shell("--undo", "0", "--dir", str(self.folder))
        shell.line(b"a = zeros <i4 (2)")
        self.assertIn("no E26", shell.line(b"undo"))

    def test_pipe(self):
        """Without a terminal there is no prompt."""
        lines = "a = arange <i4 0 4 1\nprint a\na[0] = 2\n"
        done = subprocess.run([TOOL, "shell"], input=lines, capture_output=True, text=True, env=environment(), cwd=self.folder)
        self.assertEqual(done.stdout, "ok a <i4 (4,) new\n[0 1 2 3]\nno E03 syntax\n    write: set a[0] = 2\n")
        self.assertEqual((done.stderr, done.returncode), ("", 0))

    def test_pages(self):
        """The shells that the pages show are as they say."""
        pages = [TOP / "README.md", TOP / "docs/COMPANION.md"]
        blocks = [block for page in pages for block in re.findall(r"```\n\$ \S*bench-tool shell\n(.*?)```", page.read_text(), re.S)]
        self.assertGreaterEqual(len(blocks), 2)
        for block in blocks:
            lines, told = [], ""
            for line in block.splitlines(keepends=True):
                is_asked = line.startswith(PROMPT)
                lines += [line[len(PROMPT):]] * is_asked
                told += "" if is_asked else line
            done = subprocess.run([TOOL, "shell"], input="".join(lines), capture_output=True, text=True, env=environment(), cwd=self.folder)
            self.assertEqual(done.stdout, told)

    def test_program_that_ends(self):
        done = subprocess.run([TOOL, "shell"], input="names\n", capture_output=True, text=True, env=environment(BENCH="/bin/true"))
        self.assertEqual((done.returncode, done.stdout), (3, "    (/bin/true has ended, with status 0; the lines before this one are run again)\n"))
        self.assertIn("has ended", done.stderr)

    def test_program_that_is_killed(self):
        """As after Ctrl-C the accepted lines run again, and the shell says why."""
        shell = self.shell()
        for line in (b"a = zeros <i4 (2)", b"b = a[:1]", b"set b[0] = 7", b"c = copy a F"):
            shell.line(line)
        for names in ("names a b c\n", "names a b\n"):
            for program in below(shell.pid):
                os.kill(program, signal.SIGKILL)
            self.assertRegex(shell.line(b"print a"), r"^\n    \(.* was killed: Killed; the lines before this one are run again\)\n$")
            self.assertEqual((shell.line(b"print a"), shell.line(b"names")), ("[7 0]\n", names))
            self.assertEqual(shell.line(b"undo"), "ok undo\n    (took back: {})\n".format("c = copy a F" if "c" in names else "set b[0] = 7"))

    def test_program_that_ends_in_an_accepted_line(self):
        """The line is given up, and the others are kept."""
        (self.folder / "program").write_text(FRAIL)
        (self.folder / "program").chmod(0o755)
        lines = "a = zeros <i4 (2)\nfrail = zeros <i4 (2)\nset a[0] = 1\ndies = a\nprint a\nnames\nundo\nprint a\n"
        done = subprocess.run([TOOL, "shell"], input=lines, capture_output=True, text=True, cwd=self.folder, timeout=PATIENT,
                              env=environment(BENCH=str(self.folder / "program")))
        self.assertEqual((done.returncode, done.stderr), (0, ""))
        self.assertEqual(done.stdout.replace(str(self.folder), "FOLDER").splitlines()[3:], ["    seen by a only",
            "    (FOLDER/program has ended, with status 9; the lines before this one are run again)",
            "    (FOLDER/program has ended, with status 9 in `frail = zeros <i4 (2)`, which is given up; the lines before this one are run again)",
            "[1 0]", "names a", "ok undo", "[0 0]"])

    def test_read_of_what_is_no_file(self):
        """A pipe, a device or a folder is refused at once."""
        os.mkfifo(self.folder / "fifo")
        shell = self.shell()
        for name in ("fifo", "/dev/zero", "/dev/urandom", "/dev/tty", "/dev/stdin", "."):
            self.assertIn("regular file" if name != "." else "Is a directory", shell.line(b".read " + name.encode()))
        self.assertEqual(shell.line(b"names"), "names\n")

    def test_ctrl_c_ends_read(self):
        (self.folder / "long.bench").write_text("names\n" * 1_000_000)
        shell = self.shell()
        shell.type(b".read long.bench" + ENTER)
        shell.until(b"names\nnames\n", is_last=False)
        shell.type(CTRL_C)
        self.assertLess(shell.until(AT_PROMPT).count("names"), 900_000)
        self.assertEqual(shell.line(b"a = zeros <i4 (1)"), "ok a <i4 (1,) new\n")

    def test_save_is_whole_or_not_at_all(self):
        """Where no more can be written, the older session stays, and nothing else is left."""
        (self.folder / "old.bench").write_text("# my session\n")
        (self.folder / "old.bench").chmod(0o640)
        lines = "".join(f"a_name_of_an_array_{k} = zeros T{{<i:x:<h:y:}} (2,3)\n" for k in range(40)) + ".save old.bench\n"
        for most, said in (("1", "File too large"), ("unlimited", "wrote 40 lines to old.bench")):
            done = subprocess.run(["sh", "-c", f'ulimit -f {most}; exec "$@"', "sh", TOOL, "shell"], input=lines, capture_output=True, text=True,
                                  cwd=self.folder, env=environment())
            self.assertIn(said, done.stdout.splitlines()[-1])
            self.assertEqual(os.listdir(self.folder), ["old.bench"])
            self.assertEqual((self.folder / "old.bench").read_text(), "# my session\n" if most == "1" else lines.partition(".save")[0])
            self.assertEqual((self.folder / "old.bench").stat().st_mode & 0o777, 0o640)

    def test_history_of_shells_that_end_together(self):
        shells = [self.shell() for _ in range(4)]
        for k, shell in enumerate(shells):
            shell.line(f"a{k} = zeros <i4 (1)".encode())
            shell.type(CTRL_D)
        for shell in shells:
            shell.end(b"")
        self.assertEqual(sorted((self.folder / "history").read_text().splitlines()), [f"a{k} = zeros <i4 (1)" for k in range(4)])

    def test_a_defect_of_the_shell(self):
        """It is told in a line, and the shell goes on."""
        code = "import sys; from bench_tool import main, shell; shell.Shell.dot_time = lambda *_: 1 // 0; sys.exit(main.main(['shell']))"
        done = subprocess.run([sys.executable, "-c", code], input=".time\nnames\n", capture_output=True, text=True, env=environment(PYTHONPATH=str(COMPANION)))
        self.assertRegex(done.stdout, r"^    ZeroDivisionError in <string>, line 1: .* please report it with this line\nnames\n$")


if __name__ == "__main__":
    unittest.main()
