"""What the page says of refused lines: the lines that it offers, its reasons and numbers, the place where a line stops being a command and
what is near what was typed are the companion's, line by line and for each code."""
import itertools
import json
import pathlib
import random
import re
import shutil
import subprocess
import sys
import tempfile
import unittest

from trials.companion_trials import PATIENT, PROGRAM, TOP, needs_program, share
from trials import translations
from bench_tool import hints, language
from bench_tool.session import Session
from test_hints import NAMES, rows

sys.path.insert(0, str(TOP / "page"))
import build  # noqa: E402

WASM = TOP / "dist/bench.wasm"
# What is said where no file has a name that is near: the companion names the folder, and the page its files.
FILES = re.compile(r"looked for in \S+|there are the files .*|there are no files: Open files, or drop them on the page")
LONGEST = hints.LONGEST
FAULTS = {"E07", "E27", "E28", "E29", "E30", "E31", "E35", "E40"}  # of names, files and memory: of these is said when they come, and no more
MADE = [["\ufeffa = zeros <i4 (3)"], ["x = \u00e9"], ["a \u200b= 1"], ["x = \U0001f600"], ["a\x00b"], ["\x7f"], ["x = zzz"], ["x = print"], ["print = zeros <i4 (3)"], ["zero x"],
        ["temperature = zeros <i4 (3)", "pressure = zeros <i4 (3)", "print temperatur"], ["a = zeros <i4 (3)", "x = add a temp"],
        [*(f"name{k} = zeros |u1 (1)" for k in range(12)), "print q"], ["a = zeros <i4 (3)", 'save a "records.npy"', 'x = load "record.npy"'],
        ["a = zeros <i4 (3)", 'save a "records.npy"', 'x = load "q.bin"'], ["x = zeros T{<i:x:"], ["x = zeros T{<i:x:}("], [f"{'n' * 33} = zeros <i4 (3)"],
        ["x = tranpose a"], ["x = transpos"], ["x = resahpe a (3)"], ["a = zeros <i4 (3)", "x = a[0"], ["a = zeros <i4 (3)", "x = a [0]"], ["x = full <i4 (2) q"]]
INSTEAD = ["x = ({0}) + ({1})", "x = ({0})[{2}]", "a[{2}] = {0}", "x = np.where({1}, {0}, 0)", "x, b = {0}, {1}", "n[{2}] += {0}", "x = ({0}).T[{2}]", "a, b = b, ({0})",
           "x = y = {0}", "print({0})", "x = {0}; b[{2}] = x", "x = np.concatenate([{0}, {1}])", "upd a[{2}] + {0}", "x = ({0}).astype(np.int16)", "del {0}"]
INDEXES = ["0", "1:", "::-1", "..., 0", "[0, 1]", "None", "7", "-1", "a > 2", "i"]


def in_one(said):
    """What the companion says of a line as the page has it: without the lines that are offered, and in one line."""
    texts = [text for text in said if not text.startswith("write: ")]
    place = next((k for k, text in enumerate(texts) if re.match(" *\\^ ", text)), None)
    if place is not None:
        texts[place - 1:place + 1] = [f"expected {texts[place].lstrip()[2:]}"]
    return "; ".join(texts)


def on_the_page(scripts):
    """The answers of the page: for each script, of the lines that it begins with and those that are typed then, the code of each typed line,
    the lines that are offered and the text, or None if it is accepted."""
    given = json.dumps({"tables": json.loads(build.tables()), "scripts": [{"begin": begin, "typed": typed} for begin, typed in scripts]})
    done = subprocess.run(["node", TOP / "tools/trials/page_hints.mjs"], input=given.encode(), capture_output=True)
    assert not done.returncode, done.stderr.decode()[-2000:]
    return json.loads(done.stdout)


def plain(text):
    """A text of the page or the companion without what is said of folders and files."""
    return FILES.sub("FILES", text)


@needs_program
@unittest.skipUnless(shutil.which("node"), "Node is not installed (Debian: nodejs)")
@unittest.skipUnless(WASM.is_file(), "`make page` has made no bench.wasm")
class Answers(unittest.TestCase):
    def alike(self, begin, typed, wanted):
        """The page answers each line as the companion does: with these lines, and with these texts."""
        return self.compared(typed, wanted, on_the_page([(begin, typed)])[0])

    def compared(self, typed, wanted, answers):
        compared = 0
        for line, want, found in zip(typed, wanted, answers):
            with self.subTest(line):
                self.assertEqual(found is None, want is None)
                if found and (len(line) <= LONGEST or found["code"] == "E01"):
                    self.assertEqual((found["offered"], plain(found["text"])), (want[0], plain(in_one(want[1]))))
                compared += found is not None
        return compared

    def companions(self, begin, typed):
        """The answers of the companion."""
        with tempfile.TemporaryDirectory() as folder, Session(PROGRAM, 16, folder) as bench, hints.Hints(bench, PATIENT) as made:
            for line in begin:
                bench.ask(line)
            return [self.companion(bench, made, line) for line in typed]

    def companion(self, bench, made, line):
        reply = bench.send(line)
        if reply.accepted:
            if reply.text.startswith("ok ") and not reply.text.startswith("ok save"):
                bench.ask("undo")
            return None
        said = made.meant(line, reply)
        return made.offered, said

    def test_wrong_lines(self):
        """Lines that newcomers typed; what they are answered stands beside them."""
        def of(said):
            return [text[len("write: "):] for text in said if text.startswith("write: ")], said

        typed = [line for line, _ in rows()]
        whens = [found and language.codes()[found["code"]][1] for found in on_the_page([(NAMES.split("\n"), typed)])[0]]
        wanted = [when and of([text.replace("WHEN", when).replace("FOLDER", "/") for text in said]) for (_, said), when in zip(rows(), whens)]
        self.assertGreater(self.alike(NAMES.split("\n"), typed, wanted), 200)

    def test_lines_of_numpy(self):
        """Lines of NumPy; what they are offered stands beside them."""
        begin = [*translations.BENCH.replace("array ? ", "array |b1 ").splitlines(), 'save a "q.npy"']
        typed = [row.typed for row in translations.rows()]
        self.assertGreater(self.alike(begin, typed, self.companions(begin, typed)), 850)

    def test_rows_of_from_numpy(self):
        page = (TOP / "docs/FROM-NUMPY.md").read_text()
        begin = re.findall(r"```\n(a = arange .*?)\n```", page, re.S)[0].split("\n")
        typed = [line.replace("\\|", "|") for line in re.findall(r"^\| `(.*?)` \| ", page, re.M)]
        self.assertGreater(self.alike(begin, typed, self.companions(begin, typed)), 30)

    def test_each_code(self):
        """The scripts of FROM-NUMPY that give one code each, the lines that are too long, and words, bytes, names and files of all kinds."""
        page = (TOP / "docs/FROM-NUMPY.md").read_text().partition("## Every code")[2]
        scripts = {code: re.findall("`(.*?)`", cell.partition("`, ")[0] + "`") for code, cell in re.findall(r"^\| (E\d\d) \| (`.*) \|$", page, re.M) if code not in FAULTS}
        scripts.update({f"made {k}": lines for k, lines in enumerate(MADE)})
        chosen, codes = {"E01": ["a" * 65_537], **scripts}, set()
        for name, (*begin, typed), [answer] in zip(chosen, chosen.values(), on_the_page([(lines[:-1], lines[-1:]) for lines in chosen.values()])):
            self.compared([typed], self.companions(begin, [typed]), [answer])
            codes.add(answer["code"])
            self.assertEqual(answer["code"], name if name[0] == "E" else answer["code"])
        self.assertEqual(codes, set(language.codes()) - FAULTS)

    def test_made_lines(self):
        """Lines that are put together of these at random, or changed by a letter."""
        rng = random.Random(share(11, None))
        begin = translations.BENCH.replace("array ? ", "array |b1 ").splitlines()
        chosen = translations.rows()
        values = [row.meaning[4:] for row in chosen if row.meaning.startswith("x = ") and row.offered and ";" not in row.meaning and "'" not in row.meaning]
        lines = [row.typed for row in chosen] + [line for line, _ in rows()]

        def made():
            if rng.random() < 0.6:
                return rng.choice(INSTEAD).format(rng.choice(values), rng.choice(values), rng.choice(INDEXES))
            line, other = rng.choice(lines), rng.choice(lines)
            at, to = rng.randrange(len(line) + 1), rng.randrange(len(other) + 1)
            return rng.choice([line[:at] + other[to:], line[:at] + rng.choice("[](),:=+-.'\"@ 0ax~\\{}") + line[at:], line[:at] + line[at + 1:]])

        typed = [line for line in itertools.islice(iter(made, None), share(1000, 20_000)) if "save" not in line and "load" not in line and "undo" not in line]
        self.assertGreater(self.alike(begin, typed, self.companions(begin, typed)), len(typed) * 3 // 4)


if __name__ == "__main__":
    unittest.main()
