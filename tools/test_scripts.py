"""Random scripts: of each profile, for libraries that have less than bench, as Hypothesis makes and shrinks them, and in pytest."""
import collections
import importlib.util
import pathlib
import random
import re
import subprocess
import sys
import unittest

from trials.companion_trials import COMPANION, PATIENT, PROGRAM, TOP, InFolder, environment, needs_program, share
from bench_tool import Session, commands, item_types, needs, parse, scripts, testing

try:
    import hypothesis
except ImportError:
    hypothesis = None

needs_hypothesis = unittest.skipUnless(hypothesis, "Hypothesis is not installed")
needs_pytest = unittest.skipUnless(importlib.util.find_spec("pytest"), "pytest is not installed")
FORMS = {"rank_0", "size_0", "views"}
SETS = ["array", "select", "set"]
# Libraries that have less than bench: what they have, by types, commands and words of `needs`.
LIBRARIES = {
    "one type": {"types": ["<i4"]},
    "like torch": {"types": ["|b1", "|u1", "|i1", "<i2", "<i4", "<i8"],
                   "needs": needs.ALL - {"negative_steps", "byte_strings", "records", "big_endian", "far"}},
    "slices": {"types": ["<i4"], "commands": SETS, "needs": FORMS | {"i4", "steps"}},
    "steps of one": {"commands": ["array", "select", "set", "upd"], "needs": FORMS | {"i4"}},
    "no views": {"commands": ["array", "select", "set", "upd", "binary"], "needs": needs.ALL - {"views", "records", "byte_strings", "repeated"}},
    "one axis or more": {"types": ["<i4", "|b1"], "needs": needs.ALL - {"size_0", "rank_0"}},
    "undo": {"types": ["<i4"], "commands": ["array", "set", "undo", "del", "select"]},
    "records": {"types": ["T{<i:x:<h:y:}", "<i4", "<i2"], "commands": ["array", "field", "select", "set", "cast", "reshape"]},
    "files": {"commands": ["array", "save", "load", "transpose"], "needs": needs.ALL - {"records"}},
    "masks of one axis": {"types": ["|b1", "<i4"], "commands": SETS, "needs": FORMS | {"b1", "i4", "masks"}},
    "one index array": {"types": ["<i8"], "commands": SETS, "needs": FORMS | {"i8", "index_arrays", "steps"}},
    "strings": {"types": ["|S3"]},
    "big-endian": {"types": [">i2", ">u4", "|b1"], "profile": "indexes"},
}


@needs_program
class Profiles(unittest.TestCase):
    def test_each_profile(self):
        """Most lines are accepted, each has a reply, and the command of each is that of its line."""
        for kind in scripts.PROFILES:
            steps = [step for seed in range(share(4, 100)) for step in scripts.write(random.Random(f"{kind} {seed}"), profile=kind)]
            self.assertGreater(sum(not step.code for step in steps), 0.65 * len(steps), kind)
            self.assertEqual([step for step in steps if not step.reply], [], kind)
            self.assertEqual([step for step in steps if step.command and step.command != parse(step.line)], [], kind)

    def test_names_are_in_the_document(self):
        page = (TOP / "docs/COMPANION.md").read_text()
        self.assertEqual(re.findall(r"^\| `(\w+)` \| .* \|$", page.partition("| Profile |")[2].partition("\n\n")[0], re.M), list(scripts.PROFILES))

    def test_the_same_seed_gives_the_same_script(self):
        self.assertEqual(*(scripts.write(random.Random(7), needs=needs.ALL) for _ in range(2)))
        self.assertEqual(*(scripts.write(random.Random(7), ask=None, profile=scripts.PROFILES["small"]) for _ in range(2)))

    def test_what_is_asked_of_the_writer(self):
        """`ask` takes the lines as they stand in the script, and questions of names end it."""
        asked = []
        with Session() as bench:
            steps = scripts.write(random.Random(3), lambda line: asked.append(line) or bench.send(line).text)
            names = bench.names()
        self.assertEqual([step.line for step in steps], asked)
        self.assertEqual(asked[-2 * len(names):], [f"{word} {name}" for name in names for word in ("info", "print")])


@needs_program
class Libraries(unittest.TestCase):
    def within(self, steps, types=None, commands=None, needs=None, profile=""):
        """The replies are those of a bench that runs the script, and what every name shows is within what the library has, as are the commands."""
        known = {}
        with Session() as bench:
            for step in steps:
                self.assertEqual(bench.send(step.line).text, step.reply, [step.line for step in steps])
                self.assertTrue(set(step.command.reads) <= set(known), step)
                self.assertIn(step.command.word, commands or [step.command.word])
                shown = {name: (info.type, info.shape) for name in bench.names() for info in [bench.info(name)]}
                self.lacks(step, shown, {**shown, **{name: known[name] for name in step.command.reads}}, types, needs)
                known = shown

    def lacks(self, step, shown, arrays, types, words):
        self.assertTrue(types is None or {type_ for type_, _ in shown.values()} <= set(types), step)
        if words is not None:
            self.assertLessEqual({word for known in shown.values() for word in needs.of_array(known)}, words, step)
            self.assertLessEqual(needs.of(step.command, arrays), words, step)

    def test_nothing_comes_that_the_library_lacks(self):
        for name, library in LIBRARIES.items():
            with self.subTest(name):
                found = collections.Counter()
                for seed in range(share(6, 200)):
                    steps = scripts.write(random.Random(f"{name} {seed}"), size=20, **library)
                    self.within(steps, **library)
                    self.assertGreaterEqual(len(steps), 18)
                    found.update(step.command.word for step in steps)
                self.assertTrue(set(library.get("commands", ["select", "set"])) <= set(found), found)
                if not library.get("commands"):
                    self.assertTrue(found.keys().isdisjoint({"undo", "load", "save", "names"}), found)

    def test_integers_alone(self):
        """A library of integers gets no records, no byte strings and no undo."""
        whole = {f"{sign}{size}" for sign in "iu" for size in (1, 2, 4, 8)} | {"big_endian", "mixed_types", "rank_0", "size_0", "steps", "views"}
        for seed in range(share(20, 500)):
            for step in scripts.write(random.Random(seed), needs=whole, size=15):
                type_ = getattr(step.command, "type", "<i4")
                self.assertIn(item_types.read(type_).kind, "iu")
                self.assertNotRegex(step.line, "b'|undo|field|True")

    def test_only_what_is_accepted(self):
        for library in LIBRARIES.values():
            steps = scripts.write(random.Random(5), refused=False, **library)
            self.assertEqual([step for step in steps if step.code], [])

    def test_views(self):
        """Without `views` no name is written that shares items with another."""
        for seed in range(share(10, 300)):
            steps = scripts.write(random.Random(seed), **LIBRARIES["no views"])
            with Session() as bench:
                for step in steps:
                    if isinstance(step.command, (commands.Set, commands.Update)) and not step.code:
                        others = [name for name in bench.names() if name != step.command.target]
                        self.assertNotIn("shares yes", [bench.ask(f"shares {step.command.target} {name}") for name in others], step)
                    bench.send(step.line)

    def test_words_that_are_unknown(self):
        wrong = ({"commands": ["slice"]}, {"needs": ["undo"]}, {"types": ["<f4"]}, {"commands": SETS, "profile": "formats"}, {"profile": "none"})
        for library in wrong:
            self.assertRaises((ValueError, KeyError), scripts.write, random.Random(1), **library)


@needs_program
@needs_hypothesis
class InHypothesis(unittest.TestCase):
    def found(self, strategy, is_wanted):
        """The smallest script of which something is true."""
        steps = hypothesis.find(strategy, is_wanted, settings=hypothesis.settings(
            max_examples=5000, deadline=None, database=None, derandomize=True, suppress_health_check=list(hypothesis.HealthCheck)))
        return [step.line for step in steps]

    def test_values_shrink(self):
        strategy = testing.scripts(types=["<i4"], commands=["array", "select", "set"], refused=False)
        lines = self.found(strategy, lambda steps: any(step.command.word == "array" and max(step.command.values, default=0) > 57 for step in steps))
        self.assertEqual(lines, ["a = array <i4 () 58"])

    def test_scripts_shrink(self):
        """Of the scripts that copy within an array little more is left than two commands. (Hypothesis gives up on a busy machine.)"""
        def copies(command):
            return command.word == "set" and isinstance(command.value, commands.Operand) and command.value.name == command.target

        strategy = testing.scripts(types=["<i4"], commands=["array", "select", "set"], refused=False, size=share(12, 30))
        lines = self.found(strategy, lambda steps: any(copies(step.command) and step.reply != "ok set 0" for step in steps))
        self.assertLessEqual(len(lines), 4, lines)

    def test_health(self):
        """No health check fails, but perhaps that of time on a busy machine, and scripts have more than a few steps."""
        for library in ({}, {"types": ["<i4", "<i8"]}, LIBRARIES["slices"]):
            held = []

            @hypothesis.settings(database=None, derandomize=True, deadline=None, phases=[hypothesis.Phase.generate],
                                 suppress_health_check=[hypothesis.HealthCheck.too_slow])
            @hypothesis.given(testing.scripts(**library))
            def collect(steps):
                held.append(len(steps))

            collect()
            self.assertGreater(sum(held), 5 * len(held))


@needs_program
@needs_pytest
class InPytest(InFolder):
    def ran(self, *words, **more):
        """The last lines of pytest in this folder, with the companion as if it were installed."""
        installed = self.folder / "installed/bench_tool-1.0.dist-info"
        if not installed.is_dir():
            installed.mkdir(parents=True)
            points = (COMPANION / "pyproject.toml").read_text().partition("[project.entry-points.pytest11]\n")[2].splitlines()[0]
            (installed / "METADATA").write_text("Metadata-Version: 2.1\nName: bench-tool\nVersion: 1.0\n")
            (installed / "entry_points.txt").write_text("[pytest11]\n" + points.replace('"', "") + "\n")
        path = f"{COMPANION}:{installed.parent}"
        command = [sys.executable, "-m", "pytest", "-q", "-p", "no:cacheprovider", *words]
        done = subprocess.run(command, cwd=self.folder, capture_output=True, text=True, timeout=PATIENT, env=environment(PYTHONPATH=path, **more))
        return done.returncode, done.stdout + done.stderr

    def test_the_fixture(self):
        """`bench` is there without an import, and empty for each test."""
        pathlib.Path(self.folder, "test_mine.py").write_text(
            "def test_one(bench):\n    assert bench.ask('a = zeros <i4 (2)') == 'ok a <i4 (2,) new'\n"
            "def test_two(bench):\n    assert bench.names() == []\n")
        status, said = self.ran()
        self.assertEqual(status, 0, said)
        self.assertIn("2 passed", said)

    def examples(self, name):
        """The files of COMPANION with this name."""
        return re.findall(rf"```python\n(# (?:test_)?{name}\.py\n.*?)```", (TOP / "docs/COMPANION.md").read_text(), re.S)

    @unittest.skipUnless([*(TOP / "vectors").glob("*.jsonl")], "there are no cases")
    def test_cases(self):
        """The test of COMPANION with cases passes, here with some of them."""
        test, = self.examples("slices")
        pathlib.Path(self.folder, "test_slices.py").write_text(test.replace('only="slices"', 'only="slices/000"'))
        status, said = self.ran()
        self.assertEqual(status, 0, said)
        self.assertGreater(int(re.findall(r"(\d+) passed", said)[0]), 10)

    @needs_hypothesis
    def test_the_example_of_the_document(self):
        """The test that COMPANION shows finds the mistake of the library beside it, with few lines; with the mistake taken out it passes."""
        library, test = self.examples("division")
        pathlib.Path(self.folder, "test_division.py").write_text(test)
        pathlib.Path(self.folder, "conftest.py").write_text(
            f"import hypothesis\nhypothesis.settings.register_profile('here', max_examples={share(40, 100)}, derandomize={share(True, False)})\n"
            "hypothesis.settings.load_profile('here')\n")
        right = library.replace("int(value / divisor)", "(value // divisor + 2**31) % 2**32 - 2**31")
        for text, status in ((library, 1), (right, 0)):
            pathlib.Path(self.folder, "division.py").write_text(text)
            found, said = self.ran("test_division.py", HYPOTHESIS_STORAGE_DIRECTORY=str(self.folder / "examples"))
            self.assertEqual(found, status, said)
            if found:
                lines = re.findall(r"line='(.*?)'", said.rpartition("Falsifying example")[2])
                self.assertLessEqual(len(lines), 4, said)
                self.assertIn(" fdiv ", lines[-1])


if __name__ == "__main__":
    unittest.main()
