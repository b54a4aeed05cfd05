"""The judge: its cases, the planted library (each fault is found by the cases, the right library has no finding), its runner, reports and
adapters; and NumPy, whose differences are all rows of docs/FROM-NUMPY.md. BENCH_TESTS=all asks NumPy and the planted library all questions, and
makes random scripts for ten minutes."""
import contextlib
import importlib.util
import io
import json
import random
import re
import sys
import unittest
from unittest import mock

from cases import by_numpy
from trials import judging
from trials.companion_trials import COMPANION, TOP, InFolder, numpy_or_none, share
from bench_tool import cases, judge_adapter, language, library, needs, parse
from bench_tool.judge_oracle import Oracle, question_of
from bench_tool.judge_report import Finding, finding_text
from bench_tool.judge_shrink import is_small, shrunk, size_of
from bench_tool.judge_verdicts import Verdict
from bench_tool.main import main

ALL = cases.read(place=TOP / "vectors")
ADAPTERS = TOP / "examples/judge"
ISSUE = 24  # the first faults of the list are those of other libraries
# The keys of a case, and what their values are.
ALWAYS = {"id": str, "feature": str, "needs": list, "lines": list, "steps": list, "want": dict, "numpy": object}
SOMETIMES = {"refuse": dict, "rows": list, "any_type": bool, "files": dict, "shares": list}
# Bugs of docs/FINDINGS.md: the feature of a case that finds each, and its last line, or a line of it.
REPORTED = {
    "numba, a temporary with room for one item": ("overlap: 100,000 items", "set a[:] = a[5:6]"), "numba, lengths in place": ("broadcasting: in place", "upd a[1:] add b"),
    "numba, in place over itself": ("overlap: slices, in place", "upd a[1:5:1] add a[0:4:1]"), "numba, torch, numexpr, the least integer and -1": ("quotients, remainders", "x = mod a b"),
    "Cython, a step past the end": ("slices", "x = a[3:2:7]"), "Cython, a start before the first item": ("slices beyond the ends, negative steps", "x = a[-5::-2]"),
    "PyPy, lengths": ("broadcasting: assignments", "set a[::-1] = a[::-3]"), "PyPy, slices of slices": ("slices of slices", "x = v[1:]"),
    "xtensor, argmax": ("argmin, argmax", "x = argmax a 0"), "xtensor, empty slices": ("slices", "x = a[2:1]"), "xtensor, lengths": ("broadcasting: assignments", "set a[6:] = a[:4]"),
    "xtensor, one item": ("overlap: a source that is repeated", "set a[:] = a[0:1]"), "xtensor, cut files": ("NPY: files that are cut", 'x = load "a.npy"'),
    "xtensor, forged shapes": ("NPY: forged shapes", 'x = load "a.npy"'), "xtensor, long headers": ("NPY: forms of headers", 'x = load "a.npy"'),
    "torch, several axes": ("overlap: several axes", "set m[:,1:] = m[:,:-1]"), "torch, index arrays": ("overlap: index arrays", "set a[i] = a[0:2:1]"),
    "torch, masks of two axes": ("masks beside slices", "x = a[k,:2]"), "torch, wrapped numbers": ("comparisons with a number out of range", "x = eq a 256"),
    "torch, nothing selected": ("index arrays out of range, nothing selected", "x = a[1:1,i]"), "torch, dask, an integer apart": ("index arrays beside integers", "x = a[0,:,i]"),
    "dask, a start before the first item": ("slices beyond the ends, negative steps", "x = a[-4::-1]"), "dask, the least of no items": ("reductions of no items", "x = min a 1"),
    "dask, masks": ("masks of several axes", "x = a[k]"), "dask, empty index arrays": ("empty index arrays", "x = a[i]"), "numexpr, over itself": ("overlap: 100,000 items", "upd a[::-1] add a[:]"),
    "NumPy, a length of -2": ("reshape to a wrong shape", "x = reshape a (-2,3)"), "NumPy, slices": ("overlap: slices", "set a[0:5:2] = a[0:3:1]"),
}
needs_library = unittest.skipUnless(library.loaded(), "there is no libbench here")
needs_numpy = unittest.skipUnless(numpy_or_none(), "NumPy is not installed")


def judged(*words, status=None):
    """What `bench-tool judge` prints, and its status. It starts one process of each library, unless the words say how many."""
    out, err = io.StringIO(), io.StringIO()
    with contextlib.redirect_stdout(out), contextlib.redirect_stderr(err):
        found = main(["judge", "--processes", "1", *map(str, words)])
    if status is not None and found != status:
        raise AssertionError(f"status {found}: {out.getvalue()[-2000:]} {err.getvalue()[-2000:]}")
    return out.getvalue()


class Cases(unittest.TestCase):
    def test_limits(self):
        self.assertLessEqual(len(ALL), 5000)
        self.assertLessEqual(sum(path.stat().st_size for path in (TOP / "vectors").iterdir()), 2_500_000)
        self.assertEqual(len({case.id for case in ALL}), len(ALL))
        said = f"{len(ALL):,} cases", f"{sum(len(case.rows) or 1 for case in ALL):,} questions"
        for page in ("JUDGE", "VECTORS"):
            text = (TOP / f"docs/{page}.md").read_text()
            self.assertTrue(all(each in text for each in said), (page, said))
        for case in ALL:
            self.assertLessEqual(len(case.steps), 6, case.id)
            self.assertLessEqual(case.needs, needs.ALL, case.id)

    def test_schema(self):
        """Each line is as the table of docs/VECTORS.md says, and its lines are its steps."""
        page = (TOP / "docs/VECTORS.md").read_text().split("## The schema")[1].split("\n## ")[0]
        keys = re.findall(r"^\| `(\w+)` ", page, re.M)
        self.assertEqual(set(keys), {*ALWAYS, *SOMETIMES})
        for path in (TOP / "vectors").glob("*.jsonl"):
            for line in path.read_text().splitlines():
                self.check_schema(json.loads(line), path.stem)
        for case in ALL:
            if not case.rows:
                self.assertEqual(next(case.questions()).lines, case.lines)

    def check_schema(self, case, family):
        self.assertEqual({key: type(value) for key, value in case.items() if key != "numpy"}, {key: {**ALWAYS, **SOMETIMES}[key] for key in case if key != "numpy"})
        self.assertLessEqual(set(ALWAYS), set(case))
        self.assertRegex(case["id"], rf"^{family}/\d{{4}}$")
        self.assertEqual(len(case["lines"]), len(case["steps"]))
        self.assertLessEqual(set(case["needs"]), needs.ALL)
        self.assertTrue(case["want"] or "refuse" in case, case["id"])
        self.assertEqual([set(want) for want in case["want"].values() if "row" not in want], [{"type", "shape", "items"}] * sum("row" not in want for want in case["want"].values()))
        rows = case.get("rows", [[]])
        self.assertEqual(len({len(row) for row in rows}), 1)
        used = set(map(int, re.findall(r'\{"row": (\d+)\}', json.dumps([case["steps"], case["want"], case.get("refuse")]))))
        self.assertEqual(used, set(range(len(rows[0]))), case["id"])
        for name, digits in case.get("files", {}).items():
            self.assertTrue(bytes.fromhex(digits) or not digits, name)
        if case["numpy"] != "same":
            self.assertIn(set(case["numpy"]), ({"differs", "version"}, {"open", "version"}))
        refuse = case.get("refuse")
        if refuse and "row" not in json.dumps(refuse):
            self.assertIn(refuse["code"], language.codes())
            self.assertLess(refuse["step"], len(case["steps"]))

    def test_bugs_of_other_libraries(self):
        """Each has a case."""
        asked = {(case.feature, line) for case in ALL for question in case.questions() for line in question.lines}
        self.assertEqual({name: case for name, case in REPORTED.items() if case not in asked}, {})

    def test_pairs_of_slices(self):
        """All 2,912 pairs, as set, upd, by an index array and by a mask."""
        for feature, word, most in (("overlap: slices", "set a[", 2912), ("overlap: slices, in place", "upd a[", 2912)):
            lines = {question.lines for case in ALL if case.feature == feature and "|b1" not in case.lines[0] for question in case.questions()}
            self.assertEqual(len([each for each in lines if each[-1].startswith(word)]), most)

    @needs_library
    def test_bench(self):
        """The bench gives what each case wants, and shares what it says."""
        oracle = Oracle()
        for case in ALL[::share(7, 1)]:
            for question in list(case.questions())[::share(5, 1)]:
                steps = oracle.steps(question.commands, question.files)
                self.assertEqual((steps[-1].code, [each.code for each in steps[:-1]]), (question.refuse, [""] * (len(question.commands) - 1)), question.id)
                for name, want in question.want.items():
                    got = steps[-1].shown[name]
                    self.assertEqual((got.type, got.shape, list(got.items)), (want.type, want.shape, list(want.items)), question.id)

    @needs_library
    def test_made_again(self):
        """tools/cases makes the same cases, but for what NumPy says."""
        from cases import broadcasting, records
        from cases.maker import Maker
        for family in (records, *share((), (broadcasting,))):
            maker = Maker()
            family.all_cases(maker)
            for made in maker.cases.values():
                for case in made:
                    self.assertEqual({**next(each for each in ALL if each.id == case.id).to_json(), "numpy": "same"}, case.to_json())


class Planted(unittest.TestCase):
    """The library of tools/trials/planted_library.py."""

    @classmethod
    def setUpClass(cls):
        cls.adapter = judge_adapter.adapter_of(str(judging.PLANTED))

    def test_every_fault_is_found_by_the_cases(self):
        faults = sys.modules["planted_library"].FAULTS
        self.assertGreaterEqual(len(faults), 50)
        left = faults
        for rows in (40, 1):
            questions = list(judging.questions(self.adapter, ALL, rows)) if left else []
            random.Random(1).shuffle(questions)
            left = [fault for fault in left if not judging.found_by(self.adapter, questions, fault)]
        self.assertEqual(left, [])

    def test_the_right_library_has_no_finding(self):
        tried = 0
        for verdict in judging.verdicts(self.adapter, judging.questions(self.adapter, ALL, share(9, 1))):
            tried += 1
            self.assertIn(verdict.verdict, ("pass", "not supported"), (verdict.question.id, verdict.question.lines, verdict.got))
        self.assertGreater(tried, 2000)

    def test_libraries_that_lack_much(self):
        """They are asked most of what they can do: so many cases at least, which find so many faults at least, and the right library has none."""
        least = {"bytes of one axis": (300, 12), "int of two axes": (250, 25), "int64, index arrays and masks": (380, 21), "no writes": (980, 37),
                 "no steps below 0, no rank 0": (1240, 48)}
        self.assertEqual(set(least), set(judging.SMALL))
        for name in share(list(least)[:1], list(least)):
            with self.subTest(name):
                adapter = judging.small(self.adapter, name)
                asked = list(judging.questions(adapter, ALL, 12))
                self.assertGreaterEqual(len({question.id.split(":")[0] for question in asked}), least[name][0])
                self.assertEqual([verdict.question.id for verdict in judging.verdicts(adapter, asked) if verdict.verdict in judging.FINDINGS], [])
                found = [fault for fault in sys.modules["planted_library"].FAULTS if judging.found_by(adapter, asked, fault)]
                self.assertGreaterEqual(len(found), least[name][1], found)

    @needs_library
    def test_random_scripts(self):
        """The right library has no finding in some random scripts, and a few faults are found by them."""
        self.assertIsNone(judging.found_at_random(self.adapter, "", share(300, 100_000), random.Random(1)))
        faults = sys.modules["planted_library"].FAULTS[:share(6, ISSUE)]
        found = [fault for fault in faults if judging.found_at_random(self.adapter, fault, share(1500, 6000), random.Random(2))]
        self.assertGreaterEqual(len(found), share(4, 18), found)

    @needs_library
    def test_random_findings_are_small(self):
        """Each finding of random scripts is shrunk to at most six steps and 12 items."""
        tried = 0
        for fault in sys.modules["planted_library"].FAULTS[::share(5, 1)]:
            found = judging.found_at_random(self.adapter, fault, share(300, 3000), random.Random(3))
            if found:
                least = judging.least_of(self.adapter, found, fault)
                self.assertEqual(least.verdict, found.verdict)
                self.assertTrue(is_small(least.question.commands), (fault, least.question.lines))
                self.assertEqual(Finding([least]).large, "")
                tried += 1
        self.assertGreaterEqual(tried, share(5, 40))

    @needs_library
    def test_a_finding_that_stays_large(self):
        """The report says that a finding could not be made small."""
        def ask(question):
            return Verdict("wrong" if size_of(question.commands)[1] > 13 else "pass", question, "items", "x", len(question.commands) - 1)

        oracle = Oracle()
        steps = oracle.steps([parse(f"a = array <i4 (25) {' '.join(map(str, range(25)))}"), parse("b = neg a"), parse("x = sum b")])
        least = shrunk(ask(question_of("random/1.0.0", "random scripts", steps)), ask, needs.ALL, oracle)
        self.assertEqual(size_of(least.question.commands), (2, 14))
        self.assertIn("\n  not made smaller than 2 steps and 14 items\n", finding_text(Finding([least])) + "\n")
        self.assertEqual(Finding([least]).to_json()["large"], "not made smaller than 2 steps and 14 items")


@needs_library
class Runner(InFolder):
    """`bench-tool judge`, with adapters that are wrong, die, hang or lack something."""

    def adapter(self, more="", has=None):
        path = self.folder / "my_adapter.py"
        has = "" if has is None else f"    HAS = {has!r}\n"
        path.write_text(f"import os, sys, time\nsys.path.insert(0, {str(judging.PLANTED.parent)!r})\nimport planted_library as lib\n\nclass Adapter:\n{has}"
                        "    def make(self, type, shape, items): return lib.make(type, shape, items)\n    def items(self, a): return a.type, a.shape, lib.items(a)\n"
                        "    def take(self, a, index): return lib.take(a, index)\n" + more)
        return path

    def test_right(self):
        text = judged(self.adapter(), "--only", "indexes/", "--seconds", 0, "--processes", 2, status=0)
        self.assertIn("0 findings that are wrong or deadly", text)

    def test_wrong(self):
        text = judged(self.adapter("    def take(self, a, index): return lib.copy(lib.take(a, (slice(None, None, -1),)), 'C') if a.shape else a\n"), "--only", "slices/00", "--seconds", 0,
                      "--json", self.folder / "r.json", "--junit", self.folder / "r.xml", "--html", self.folder / "r.html", status=1)
        self.assertIn("as calls:\n    a = make(", text)
        self.assertRegex(text, r"file://.*bench.html#script=[\w-]+&line=2|no page" if (TOP / "dist/bench.html").is_file() else "WRONG")
        found = json.loads((self.folder / "r.json").read_text())["programs"][0]["findings"]
        self.assertTrue(all(each["lines"] and each["right"] for each in found))
        self.assertIn("<failure", (self.folder / "r.xml").read_text())
        self.assertIn("<table>", (self.folder / "r.html").read_text())

    def test_death_and_hang(self):
        dies = "    def take(self, a, index):\n        if a.shape == (3,): os.kill(os.getpid(), 11)\n        return lib.take(a, index)\n"
        text = judged(self.adapter(dies), "--only", "indexes/0001", "--seconds", 0, status=1)
        self.assertIn("DIES", text)
        self.assertIn("SIGSEGV", text)
        hangs = "    def take(self, a, index):\n        if a.shape == (3,): time.sleep(1000)\n        return lib.take(a, index)\n"
        with mock.patch("bench_tool.judge_runs.PATIENCE", 1.0), mock.patch("bench_tool.judge_runs.Worker.ask.__defaults__", (1.0,)):
            text = judged(self.adapter(hangs), "--only", "indexes/0001", "--seconds", 0, status=1)
        self.assertIn("no answer in", text)

    def test_late_death(self):
        """The question that a library does not survive is reported, not the one after it."""
        hurt = ("    def take(self, a, index):\n        self.hurt = index == (-2,)\n        return lib.take(a, index)\n"
                "    def make(self, type, shape, items):\n        if getattr(self, 'hurt', False): os.kill(os.getpid(), 11)\n        return lib.make(type, shape, items)\n")
        text = judged(self.adapter(hurt), "--only", "integers", "--seconds", 0, "--json", self.folder / "r.json", status=1)
        findings = json.loads((self.folder / "r.json").read_text())["programs"][0]["findings"]
        self.assertEqual({each["lines"][-1] for each in findings}, {"x = a[-2]"}, text)
        self.assertIn("SIGSEGV", text)

    def test_what_it_lacks_is_no_failure(self):
        text = judged(self.adapter("    def put(self, a, index, value): raise NotImplementedError('no writes')\n", "i8 steps"), "--only", "slices/00", "--seconds", 0, status=0)
        self.assertNotIn("WRONG", text)

    def test_few_axes(self):
        """With MOST_AXES, a library is asked nothing about more axes, and loses no more of a table than that."""
        two = "    MOST_AXES = 2\n    def make(self, type, shape, items):\n        assert len(shape) < 3\n        return lib.make(type, shape, items)\n"
        text = judged(self.adapter(two), "--only", "integers", "--seconds", 0, "--json", self.folder / "r.json", status=0)
        report = json.loads((self.folder / "r.json").read_text())["programs"][0]
        self.assertEqual(set(report["cases"].values()), {"pass", "not supported"}, text)
        self.assertGreater(list(report["cases"].values()).count("pass"), 10)
        judged(self.adapter(two), "--only", "random", "--seconds", 1, status=0)

    def test_operations_together(self):
        """Findings of one feature that differ in the operation are shown once."""
        wrong = "    def compare(self, name, a, b): return lib.unary('not', lib.compare(name, a, b))\n"
        text = judged(self.adapter(wrong), "--only", "comparisons with a number", "--seconds", 0, status=1)
        self.assertRegex(text, r"\n  also   (binary \w\w; ){4}binary \w\w\n")
        self.assertEqual(text.count("WRONG: comparisons with a number ("), 1)

    def test_expected_findings(self):
        path, known = self.adapter("    def take(self, a, index): return lib.make(a.type, (1,), [0])\n"), self.folder / "known.txt"
        words = (path, "--only", "slices/00", "--seconds", 0, "--expect", known)
        judged(*words, status=1)
        judged(*words, "--update", status=0)
        self.assertIn("of them expected", judged(*words, status=0))

    def test_random(self):
        text = judged(self.adapter("    def take(self, a, index): return lib.make(a.type, (1,), [0])\n"), "--only", "random", "--seconds", 2, status=1)
        self.assertIn("random scripts, random/1.0.", text)

    def test_pipe(self):
        script = self.folder / "program.py"
        script.write_text(f"import sys\nsys.path.insert(0, {str(COMPANION)!r})\nfrom bench_tool import judge_adapter\nsys.argv[1:] = [{str(self.adapter())!r}]\njudge_adapter.main()\n")
        judged("--pipe", f"{sys.executable} {script}", "--only", "indexes/", "--seconds", 0, status=0)

    @needs_numpy
    def test_example(self):
        """The adapter of docs/JUDGE.md."""
        code = re.search(r"```python\n(# my_adapter.py.*?)```", (TOP / "docs/JUDGE.md").read_text(), re.S)[1]
        (self.folder / "my_adapter.py").write_text(code)
        text = judged(self.folder / "my_adapter.py", "--only", "indexes/", "--seconds", 0, status=0)
        self.assertRegex(text, r"(?m)^feature +my$")

    def test_adapters_that_do_not_start(self):
        """What is wrong is said in one line, with the Python that runs the adapter."""
        path = self.folder / "my_adapter.py"
        for text, said in (("import no_such_module\n", "ModuleNotFoundError: No module named 'no_such_module'"), ("x = 1\n", "has no class with the methods make and items")):
            path.write_text(text)
            err = io.StringIO()
            with contextlib.redirect_stderr(err):
                self.assertEqual(main(["judge", str(path), "--only", "integers"]), 3)
            self.assertRegex(err.getvalue(), rf"^bench-tool: my does not start: .*{said} \({re.escape(sys.executable)}\)\n$")

    def test_wrong_words(self):
        for words, said in ((["nowhere.py"], "there is no adapter nowhere.py"), ([], "name an adapter"), ([self.adapter(), "--only", "zzz"], "no case is about zzz"),
                            ([self.adapter(), "--needs", "zzz"], "--needs does not know zzz")):
            err = io.StringIO()
            with contextlib.redirect_stderr(err):
                self.assertEqual(main(["judge", *map(str, words)]), 3)
            self.assertIn(said, err.getvalue())


@needs_library
@needs_numpy
class NumPy(unittest.TestCase):
    """NumPy, called as its users call it."""

    def test_each_difference_is_a_row(self):
        page = (TOP / "docs/FROM-NUMPY.md").read_text()
        part = page.split("\n## Where NumPy does something else\n", 1)[1].split("\n## ", 1)[0]
        for case in ALL:
            if case.numpy != "same":
                why = case.numpy.get("differs") or case.numpy["open"]
                self.assertTrue(f"| {why}" in part or why == "headers that only one of the two reads" and "headers that only one of the two reads" in part, why)

    def test_the_mended_reference_names_its_rows(self):
        """Each place of the reference that is not NumPy's rule names a row, and each row but those of the cases alone is named."""
        page = (TOP / "docs/FROM-NUMPY.md").read_text()
        named = [row for path in (TOP / "tools/trials").glob("*.py") for line in re.findall(r"# FROM-NUMPY: (.*)", path.read_text()) for row in line.split("; ")]
        self.assertGreater(len(named), 12)
        for row in named:
            self.assertIn(f"\n| {row}", page)

    def test_what_the_cases_say(self):
        """Cases asked again, among them all in which NumPy differs: each such question has the reason that its case says."""
        import numpy
        if numpy.__version__ != next(case.numpy["version"] for case in ALL if case.numpy != "same"):
            self.skipTest("another version of NumPy than that of the cases")
        same = [case for case in ALL if case.numpy == "same"]
        for case, verdicts in by_numpy.asked([*same[::share(4, 1)], *(case for case in ALL if case.numpy != "same")]):
            self.assertEqual(by_numpy.labelled(case, verdicts, numpy.__version__)["numpy"], case.numpy, case.id)
            others = [verdict for verdict in verdicts if verdict.verdict not in ("pass", "not supported")]
            self.assertLessEqual(len(set(map(by_numpy.reason, others))), 1, case.id)


class Adapters(unittest.TestCase):
    def test_sizes(self):
        for path in ADAPTERS.iterdir():
            if path.suffix in (".py", ".cpp"):
                self.assertLessEqual(len(path.read_text().splitlines()), 120 if path.suffix == ".cpp" else 25, path.name)

    @needs_library
    def test_torch_and_others(self):
        """Each library that is here is asked one family."""
        for name in ("torch", "dask", "numba"):
            with self.subTest(name):
                if not importlib.util.find_spec(name):
                    self.skipTest(f"{name} is not installed")
                self.assertIn("questions of", judged(ADAPTERS / f"{name}_adapter.py", "--only", "slices/000", "--seconds", 0))


if __name__ == "__main__":
    unittest.main()
