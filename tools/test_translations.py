"""Lines of NumPy at the prompt, and the lines that are offered for them: what tools/rows/numpy_lines.txt says, and the same as in NumPy."""
import json
import os
import random
import subprocess
import sys
import unittest

from trials.companion_trials import COMPANION, PATIENT, PROGRAM, InFolder, needs_program, numpy_or_none, share
from bench_tool import hints, numpy_rules
from bench_tool.session import Session

np = numpy_or_none()
if np:
    from trials import translations


@needs_program
@unittest.skipUnless(np, "NumPy is not installed")
class Translations(InFolder):
    def setUp(self):
        super().setUp()
        before = os.getcwd()
        os.chdir(self.folder)  # for the files that NumPy saves
        self.addCleanup(os.chdir, before)
        self.typed = translations.begin(self.session())
        self.typed.ask('save a "q.npy"')
        self.offering = hints.Hints(self.typed, PATIENT)
        self.addCleanup(self.offering.close)

    def session(self):
        bench = Session(PROGRAM, 64, self.folder)
        self.addCleanup(bench.close)
        return bench

    def answer(self, typed):
        """What is offered for a refused line, and what is said, or None for an accepted one."""
        reply = self.typed.send(typed)
        if reply.accepted:
            if reply.text.startswith("ok ") and not reply.text.startswith("ok save"):
                self.typed.ask("undo")
            return None
        said = self.offering.meant(typed, reply)
        return self.offering.offered, translations.first_reasons(said, typed)

    def test_rows(self):
        """What is offered and said is what stands there."""
        self.assertGreater(len(translations.rows()), 900)
        for row in translations.rows():
            with self.subTest(row.typed):
                self.assertEqual(self.answer(row.typed), (row.offered, row.said))

    def test_rows_beside_numpy(self):
        """The lines that are offered do the same as NumPy's: types, shapes and items of all names, so no other array changes, and what is shared."""
        bench, tried = self.session(), 0
        for row in translations.rows():
            if row.offered:
                with self.subTest(row.typed):
                    self.assertEqual(translations.judged(bench, row.meaning, row.offered), [])
                    tried += 1
        self.assertGreater(tried, 700)

    def test_lines_put_together_at_random(self):
        """The same holds of expressions that are put together of these. (Where NumPy raises, nothing is compared.)"""
        rng, bench, tried = random.Random(share(7, None)), self.session(), 0
        values = [row.meaning[4:] for row in translations.rows() if row.meaning.startswith("x = ") and row.offered and ";" not in row.meaning and "'" not in row.meaning]
        for _ in range(share(150, 20_000)):
            line = rng.choice(["x = ({0}) + ({1})", "x = ({0})[{2}]", "a[{2}] = {0}", "x = np.where({1}, {0}, 0)", "x, b = {0}, {1}", "n[{2}] += {0}", "x = ({0}).T[{2}]",
                               "a, b = b, ({0})", "x = y = {0}"]).format(rng.choice(values), rng.choice(values), rng.choice(["0", "1:", "::-1", "..., 0", "[0, 1]", "None"]))
            with self.subTest(line):
                found = self.answer(line)
                if found and found[0]:
                    wrong = translations.judged(bench, line, found[0])
                    self.assertEqual([text for text in wrong if not text.startswith("NumPy raises")], [], found[0])
                    tried += 1
        self.assertGreater(tried, 30)

    def test_what_is_taken_stays(self):
        """A name that is free is never one of the session, also where the line does not name it."""
        for name in "tuvw":
            self.typed.send(f"{name} = zeros <i4 (1)")
        offered, _ = self.answer("x = (a + 1) * 2 + (b + 1) * (b - 1)")
        names = {line.split(" = ")[0] for line in offered} - {"x"}
        self.assertEqual(names & set(self.typed.names()), set())
        self.assertGreater(len(names), 2)


class Rules(unittest.TestCase):
    def test_they_are_plain_values(self):
        """Another language can read them as JSON."""
        ran = subprocess.run([sys.executable, "-m", "bench_tool.numpy_rules"], capture_output=True, text=True, env={**os.environ, "PYTHONPATH": str(COMPANION)})
        read = json.loads(ran.stdout)
        self.assertEqual([tuple(rule) for rule in read["CALLS"]], numpy_rules.CALLS)
        self.assertEqual((read["LINES"], read["WORDS"]), (numpy_rules.LINES, numpy_rules.WORDS))

    def test_no_rule_is_hidden_by_one_before_it(self):
        """Two rules for the same arguments differ in what must hold, and the last has no condition left out of the first."""
        found = {}
        for call, condition, _ in numpy_rules.CALLS:
            self.assertNotIn("", found.get(call, []), call)
            self.assertNotIn(condition, found.get(call, []), call)
            found.setdefault(call, []).append(condition)


if __name__ == "__main__":
    unittest.main()
