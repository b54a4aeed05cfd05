"""The words around the program: help, what is told of refused lines, manual pages, completions, syntax files; definitions and their list."""
import json
import re
import shutil
import subprocess
import tempfile
import unittest

from trials.companion_trials import PATIENT, PROGRAM, TOP, needs_program
from bench_tool import Session, language, main
from make import words

SAMPLE = "# none\nx = reshape a (2,-1)\nset a[0] = b'\\x00'\nr = zeros T{<i:x:T{b:y:}:s:} (2)\nsave a \"f\"\nm = array <i4 (2) True -1\n"
# Of each line of the sample: a text in it, and how Vim and TextMate name it.
NAMED = [
    (1, "# none", "benchComment", "comment.line"), (2, "x", "benchName", "variable.other"),
    (2, "reshape", "benchMake", "support.function"), (2, "-1", "benchNumber", "constant.numeric"),
    (3, "set", "benchChange", "keyword.control"), (3, "b'", "benchBytes", "string.quoted.single"),
    (4, "T{<i", "benchRecord", "storage.type.record"), (5, '"f"', "benchFile", "string.quoted.double"),
    (6, "<i4", "benchType", "storage.type"), (6, "True", "benchConstant", "constant.language"),
]


def all_verbs():
    return {*language.verbs(False), *language.verbs(True)}


def read(path):
    return (TOP / path).read_text()


class Words(unittest.TestCase):
    def test_tables(self):
        """The tables are read whole: every row, and a text and a meaning for every code."""
        page = read("docs/LANGUAGE.md")
        self.assertEqual(sorted(language.codes()), sorted(set(re.findall(r"^\| (E\d\d) \|", page, re.M))))
        self.assertTrue(all(words and when for words, when in language.codes().values()))
        forms = [form for command in language.commands() for form in command.forms]
        self.assertTrue({"X = zeros D S", "X = Y[ix]", "set X[ix] = Y[iy]", "shares X Y", "undo"} <= set(forms))
        for name, told in language.GROUPS.items():
            self.assertLessEqual(set(told.split()), set(language.codes()), name)

    def test_refusals_of_the_source(self):
        """Codes and texts of the page are those of each table in the source."""
        told = {f"{code} {text}" for code, (text, _) in language.codes().items()}
        found = 0
        for path in sorted((TOP / "crates").glob("*/src/**/refusal*.rt")):
            texts = set(re.findall(r'=> b?"(?:no )?(E\d\d [a-z -]+)"', path.read_text()))
            found += bool(texts)
            self.assertIn(texts, ({*told}, set()), path)
        self.assertGreater(found, 0)

    def test_words_of_the_page(self):
        """The words of the page are those of the table in the source, and the other texts have them as `make words` writes them."""
        self.assertEqual(set(re.findall(r'\(b"([a-z]+)", ', read("crates/script_lang/src/verb.rt"))), all_verbs())
        for path, text in words.texts().items():
            self.assertEqual(read(path), text, path)

    @needs_program
    def test_words_of_the_program(self):
        """No word is a name, and what OP, UN and RED stand for computes."""
        with Session(PROGRAM) as bench:
            bench.run("a = array <i4 (2) 3 1")
            self.assertEqual({bench.send(f"print {verb}").code for verb in all_verbs()}, {"E03"})
            forms = {"OP": "x = {} a a", "UN": "x = {} a", "RED": "x = {} a"}
            refused = [word for key, verbs in language.operations().items() for word in verbs if not bench.send(forms[key].format(word)).accepted]
            self.assertEqual(refused, ["div"])

    def test_depth(self):
        """How many changes `undo` takes back, at most and where it is not said."""
        source = read("crates/host_process/src/command_line.rt")
        self.assertIn("range(0..=64)", source)
        self.assertRegex(source, r"const DEPTH: u8 = 16;")
        pages = ["README.md", "docs/LANGUAGE.md", "docs/help.txt", "man/bench.1", "companion/bench_tool/main.py"]
        for page in pages:
            text = " ".join(read(page).replace("\\-", "-").split())
            self.assertRegex(text, r"0 to 64", page)
            self.assertRegex(text, r"\b16\b", page)

    @needs_program
    def test_examples_of_the_language(self):
        """The examples can be pasted: each is replied what stands behind it as a comment."""
        blocks = [block for block in re.findall(r"```\n(.*?)```", read("docs/LANGUAGE.md"), re.S)]
        self.assertGreater(len(blocks), 10)
        for block in blocks:
            with self.subTest(block), tempfile.TemporaryDirectory() as folder:
                done = subprocess.run([PROGRAM, f"--dir={folder}"], input=block, capture_output=True, text=True)
                told = "".join(f"{line[2:]}\n" for line in block.splitlines() if line.startswith("# "))
                self.assertEqual((done.stdout, done.stderr), (told, ""))

    @needs_program
    def test_names_of_files(self):
        """Letters, digits, `_`, `-` and `.`, the last two not first, 64 bytes at most; else the line is no command."""
        said = "A file name has at most 64 bytes: letters, digits, `_`, `-` and `.`, and it does not begin with `-` or `.`."
        self.assertIn(said, " ".join(read("docs/LANGUAGE.md").split()))
        good, bad = ["a", "_", "9-.x", "x" * 64, "A.b_c-d"], ["", "-a", ".a", "x" * 65, "a/b", "..", "a b", "\xe4"]
        with Session(PROGRAM, dir="/nowhere") as bench:
            self.assertEqual([bench.send(f'x = load "{name}"').code for name in good], ["E34"] * len(good))
            self.assertLessEqual({bench.send(f'x = load "{name}"').code for name in bad}, {"E02", "E03"})

    def test_help(self):
        self.assertLessEqual(all_verbs(), set(re.findall(r"\w+", language.help_text())))
        for verb in sorted(all_verbs()):
            told = language.help_text(verb)
            self.assertNotIn("there is no", told)
            self.assertIn("replies", told)
        for code in language.codes():
            self.assertIn(code, language.help_text(code))
        for word, said in [("types", "type string of NumPy"), ("shapes", "between parentheses"), ("indexes", "a slice a:b:c"), ("limits", "65,536")]:
            self.assertIn(said, " ".join(language.help_text(word).split()))

    def test_manual_pages(self):
        if shutil.which("groff") is None:
            self.skipTest("there is no groff")
        for name in ("man/bench.1", "man/bench-tool.1"):
            done = subprocess.run(["groff", "-man", "-Tutf8", "-ww", "-z", TOP / name], capture_output=True, text=True)
            self.assertEqual((done.stderr, done.returncode), ("", 0))

    def test_commands_of_the_companion(self):
        """Each of its commands and words stands in its manual page and in the completions."""
        commands = next(action for action in main.parser()._actions if action.choices).choices
        pages = {name: read(name).replace("\\-", "-") for name in ("man/bench-tool.1", "completions/bench-tool.bash", "completions/_bench-tool")}
        for name, text in pages.items():
            for command, parser in commands.items():
                words = [command] + [word for action in parser._actions for word in action.option_strings if word.startswith("--")]
                missing = [word for word in words if word not in text and (word != "--help" or name.startswith("comp"))]
                self.assertEqual(missing, [], (name, command))

    @unittest.skipUnless(shutil.which("bash"), "there is no Bash")
    def test_bash(self):
        ask = 'COMP_WORDS=(%s); COMP_CWORD=$((${#COMP_WORDS[@]} - 1)); %s; printf "%%s\\n" "${COMPREPLY[@]}"'
        for words, function, wanted in [
            ("bench --u", "_bench", "--undo"), ("bench examples/ch", "_bench", "examples/channels.bench"),
            ("bench-tool r", "_bench_tool", "run"), ("bench-tool run --st", "_bench_tool", "--stop"),
            ("bench-tool run examples/ch", "_bench_tool", "examples/channels.bench"),
        ]:
            asked = f"compopt() {{ :; }}; source completions/bench.bash; source completions/bench-tool.bash; {ask % (words, function)}"
            done = subprocess.run(["bash", "-c", asked], capture_output=True, text=True, cwd=TOP)
            self.assertEqual((done.stdout.split(), done.stderr), ([wanted], ""), words)

    def test_zsh(self):
        if shutil.which("zsh") is None:
            self.skipTest("there is no zsh")
        for name in ("_bench", "_bench-tool"):
            done = subprocess.run(["zsh", "-n", TOP / "completions" / name], capture_output=True, text=True)
            self.assertEqual((done.stderr, done.returncode), ("", 0))

    def test_vim(self):
        if shutil.which("vim") is None:
            self.skipTest("there is no Vim")
        with tempfile.TemporaryDirectory() as folder:
            with open(f"{folder}/a.bench", "w") as sample:
                sample.write(SAMPLE)
            asked = [f"echo synIDattr(synID({row}, {SAMPLE.splitlines()[row - 1].index(text) + 1}, 1), 'name')" for row, text, *_ in NAMED]
            commands = [f"set runtimepath^={TOP}/editors/vim", "filetype on", "syntax on", "edit a.bench", f"redir! > {folder}/told", *asked, "quitall!"]
            with open(f"{folder}/ask.vim", "w") as script:
                script.write("\n".join(commands) + "\n")
            subprocess.run(["vim", "-Nnu", "NONE", "-es", "-S", "ask.vim"], cwd=folder, capture_output=True, timeout=PATIENT)
            with open(f"{folder}/told") as told:
                names = told.read().split()
        if not names:
            self.skipTest("this Vim has no syntax")
        self.assertEqual(names, [name for _, _, name, _ in NAMED])

    def test_text_mate(self):
        grammar = json.loads(read("editors/bench.tmLanguage.json"))
        patterns = [pattern if "name" in pattern else grammar["repository"]["record"] for pattern in grammar["patterns"]]
        for row, text, _, name in NAMED:
            line = SAMPLE.splitlines()[row - 1]
            first = next(p["name"] for p in patterns if (found := re.compile(p.get("match") or p["begin"]).search(line, line.index(text)))
                         and found.start() == line.index(text))
            self.assertTrue(first.startswith(name), (text, first))

    def test_definitions(self):
        """Each law and each definition stands once, and the list of what `run` reaches is as they are."""
        for option in ("--twice", "--check"):
            self.assertEqual(subprocess.run([TOP / "tools/believed.py", option], capture_output=True, text=True).stdout, "")


if __name__ == "__main__":
    unittest.main()
