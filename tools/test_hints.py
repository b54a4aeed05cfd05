"""What is said of refused lines: apt, true, tried on the program, and soon; where a line stops being a command."""
import os
import pathlib
import random
import re
import tempfile
import time
import unittest

from trials.companion_trials import PATIENT, PROGRAM, TOP, needs_program, share
from trials import lines as scripts
from bench_tool import Session, grammar, hints, language
from bench_tool.grammar import Reading

NAMES = """a = arange <i4 0 6 1
m = reshape a (2,3)
r = array T{<i:x:3s:s:} (2) (1,b'ab') (2,b'c')
k = array ? (6) True False True False True False
i = array <i4 (2) 0 5
j = array <i8 (3) 0 1 2
w = broadcast a (2,6)"""
LINES = TOP / "tools/rows/wrong_lines.txt"
# Of each piece of a form what it may be, for an example.
SAMPLES = {
    "D": "<i4", "S": "(2,3)", "S-": "(2,-1)", '"field"': '"x"', "L": "1", "L..": "1 2 3 4 5 6", "a": "0", "b": "6", "s": "1", "Y[ix]": "a[0]", "Y[iy]": "a[0]",
    "X[ix]": "a[0]", "Y[?]": "a", "Z": "1", '"f"': '"x"', "(axes)": "(0)", "[axis]": "", "[keep]": "", "OP": "add", "UN": "neg", "RED": "sum", "Y": "a",
}
# What is a piece of its own, so that with all that is behind it the line is a command.
PIECES = (grammar.VERB, grammar.TYPE, grammar.OPERATION, grammar.ARRAY, grammar.ORDER, grammar.END, grammar.ARGUMENT, "a shape, as (2,3)", "`=`", "an axis", "keep")


def rows():
    """The lines that are typed, each with what is said of it."""
    parts = re.split(r"^> ", LINES.read_text(), flags=re.M)[1:]
    return [(typed, said.splitlines()) for typed, _, said in (part.partition("\n") for part in parts)]


@needs_program
class Hints(unittest.TestCase):
    def session(self, lines=NAMES, seconds=PATIENT):
        folder = tempfile.TemporaryDirectory()
        self.addCleanup(folder.cleanup)
        bench = Session(PROGRAM, dir=folder.name)
        self.addCleanup(bench.close)
        self.assertEqual([reply.text for reply in bench.run(lines) if not reply.accepted], [])
        made = hints.Hints(bench, seconds)
        self.addCleanup(made.close)
        return bench, made

    def test_each_line(self):
        """Lines that newcomers typed, with the answers that they are to get. Of the first 77, at least 60 get more than the place."""
        bench, made = self.session()
        places = []
        for typed, said in rows():
            with self.subTest(typed):
                reply = bench.send(typed)
                if reply.accepted:
                    bench.send("undo")
                told = [] if reply.accepted else made.meant(typed, reply)
                when = language.codes()[reply.code][1] if told else ""
                self.assertEqual([line.replace(bench.dir, "FOLDER").replace(when or "WHEN", "WHEN").rstrip() for line in told], said)
                self.assertTrue(reply.accepted or told)
                places += [typed] * (len(told) == 2 and told[1].lstrip().startswith("^") and "word of the language" not in told[1])
        self.assertLessEqual(len([typed for typed, _ in rows()[:77] if typed in places]), 17)
        self.assertLess(len(places), len(rows()) * 0.25)

    def offered(self, bench, said):
        """The lines that are offered are accepted where they are typed."""
        lines = [text[len("write: "):] for text in said if text.startswith("write: ")]
        replies = bench.run(lines) if lines else []
        for _ in [reply for reply in replies if reply.text.startswith("ok ") and not reply.text.startswith("ok save")]:
            bench.send("undo")
        return [(line, reply.text) for line, reply in zip(lines, replies) if not reply.accepted]

    def test_what_is_offered_is_accepted(self):
        bench, made = self.session()
        for typed, _ in rows():
            reply = bench.send(typed)
            bench.send("undo") if reply.text.startswith("ok ") else None
            if not reply.accepted:
                self.assertEqual(self.offered(bench, made.meant(typed, reply)), [], typed)

    def test_what_is_offered_for_altered_lines(self):
        """So it is for lines that went wrong by chance, and never is there a fault."""
        rng = random.Random(5)
        bench, made = self.session()
        lines = [typed for typed, _ in rows()] + [form for form in NAMES.split("\n")]
        for _ in range(share(150, 20000)):
            line, other = rng.choice(lines), rng.choice(lines)
            at, to = rng.randrange(len(line) + 1), rng.randrange(len(other) + 1)
            mixed = rng.choice([line[:at] + other[to:], line[:at] + rng.choice("[](),:=+-.'\"@ 0ax~\\\t{}") + line[at:], line[:at] + line[at + 1:]])
            if "save" in mixed:
                continue
            reply = bench.send(mixed)
            bench.send("undo") if reply.text.startswith("ok ") else None
            if not reply.accepted:
                made._end = time.monotonic() + PATIENT
                self.assertEqual(self.offered(bench, made._said(mixed, reply)), [], mixed)

    def test_rows_from_numpy(self):
        """What stands in FROM-NUMPY is answered by its own translation, or by other lines with the same meaning (test_translations.py)."""
        page = (TOP / "docs/FROM-NUMPY.md").read_text()
        before, rows_ = page.partition("\n| NumPy | bench |\n")[::2]
        bench, made = self.session(re.findall(r"```\n(a = arange .*?)\n```", before, re.S)[0])
        found, same = re.findall(r"^\| `(.*?)` \| (.*) \|$", rows_.partition("\n## ")[0], re.M), 0
        self.assertGreater(len(found), 40)
        for left, right in found:
            with self.subTest(left):
                wanted = [line.replace("\\|", "|") for line in re.findall("`(.*?)`", right)]
                reply = bench.send(left)
                bench.send("undo") if reply.text.startswith("ok ") else None
                if not reply.accepted:
                    made.meant(left, reply)
                    told = made.offered
                    same += told == wanted
                    self.assertTrue(told)
                    if "concatenate" not in left:
                        self.assertEqual(re.sub(r"\[(\.\.\.|:)\]", "[]", " ".join(told)).replace("(7, 8)", "(7,8)").replace("<i4:x:<i2:y:", "<i:x:<h:y:"),
                                         re.sub(r"\[(\.\.\.|:)\]", "[]", " ".join(wanted)))
        self.assertGreater(same, len(found) - 16)

    def test_no_state_is_changed(self):
        bench, made = self.session("a = zeros <i4 (2)\nset a[0] = 1")
        for line in ("print a[0]", "x = a[5]", "x = b", 'x = load "q"', 'x = field a "q"', "x = zeros int32 (2)", "\xe9", "a += 1", "del a a"):
            self.assertIsInstance(made.meant(line, bench.send(line)), list)
        self.assertEqual([reply.text for reply in bench.run("undo\nprint a\nundo\nundo")], ["ok undo", "[0 0]", "ok undo", "no E26 nothing to undo"])
        self.assertEqual(os.listdir(bench.dir), [])

    def test_what_is_typed_is_no_template(self):
        bench, made = self.session()
        for line in ("a[0] = @O(zz)", 'x = array |S9 (1) "@T(b)"', "a += @O(5)", r"a[0] = \1 \g<2>", "x = {0} % s", "print {a!r}"):
            self.assertIsInstance(made._said(line, bench.send(line)), list)

    def seconds(self, bench, made, line):
        reply, begun = bench.send(line), time.process_time()
        made.meant(line, reply)
        return time.process_time() - begun

    def test_soon(self):
        """A hint takes 50 ms, whatever the line, the names and the folder. Of three the least is measured, in processor time."""
        bench, made = self.session(NAMES + "".join(f"\nn{k:04}{'q' * 20} = zeros i4 ()" for k in range(1000)), seconds=hints.SECONDS)
        folder = pathlib.Path(bench.dir)
        for k in range(5000):
            (folder / f"file{k:06}abcdefgh.npy").touch()
        lines = ["x = zz[" + ",".join(f"n{k:04}{'q' * 19}r" for k in range(60)) + "]", "set " * 16000, 'x = load "file500000abcdefgh.npy"',
                 "x = " + "(" * 300, "x = " + "-" * 300 + "a", "x = " + "[" * 150 + "1" + "]" * 150, "a" * 399, "x = a" + "[0]" * 120, "b = " + "a + " * 90 + "a",
                 "c = cast w |S65536", "((" * 100 + "))" * 100, "x = np.zeros((4096, 4096), 'S16') + 1", "'" * 350, "a.b" * 120, "T{" * 150, "x = array " + "T{" * 150]
        for line in lines:
            self.assertLess(min(self.seconds(bench, made, line) for _ in range(3)), 0.2, line[:60])


@needs_program
class Places(unittest.TestCase):
    def test_commands_are_read_whole(self):
        """What is no E03 is read whole as some form, and what is E03 is not."""
        with Session(PROGRAM) as bench:
            rng = random.Random(3)
            lines = [line for seed in range(share(6, 300)) for line in scripts.random_script(PROGRAM, random.Random(seed), seed).lines]
            mixed = []
            for line in lines:
                at = rng.randrange(len(line) + 1)
                mixed += [line[:at] + rng.choice([b"", b" ", b"1", b"a", b",", b"[", b")", b"'", b'"', b"-", b"."]) + line[at + rng.randrange(2):]]
            for line in [*lines, *mixed]:
                text = line.decode("latin-1").rstrip("\r")
                if text.strip(" \t") and not text.lstrip(" \t").startswith("#"):
                    code = bench.send(line).code
                    if code != "E02":
                        self.assertEqual(bool(Reading(text).parts), code != "E03", text)

    def test_what_may_stand_there(self):
        """The line up to its place, with what may stand there and all that then is missing, is a command."""
        with Session(PROGRAM) as bench:
            bench.run(NAMES)
            count = 0
            for typed, _ in rows():
                reading = Reading(typed, bench.names())
                if bench.send(typed).code == "E03":
                    for what in [what for what in reading.wanted if what in PIECES]:
                        count, behind = count + 1, reading.wanted[what]
                        text = " ".join([typed[:reading.far], *(SAMPLES.get(piece, piece) for piece in behind)]).replace(" [", "[")
                        self.assertNotIn(bench.send(text).code, ("E03", "E02"), (typed, what, text))
            self.assertGreater(count, 40)

    def test_examples_of_the_help(self):
        for words, lines in language.EXAMPLES:
            for word in words.split():
                said = language.help_text(word)
                shown = re.findall(r"^ {10}([a-z]+ .*|undo|names)$", said.partition("for example:")[2], re.M)
                with self.subTest(word), tempfile.TemporaryDirectory() as folder, Session(PROGRAM, dir=folder) as bench:
                    self.assertEqual(len(shown), len(lines.split("; ")))
                    self.assertEqual([reply.text for reply in bench.run(shown) if not reply.accepted], [])


if __name__ == "__main__":
    unittest.main()
