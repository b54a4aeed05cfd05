"""Commands as values: `parse` accepts the lines that the program's grammar accepts and no others, and a command in its canonical form means the
same to the program."""
import doctest
import itertools
import json
import random
import re
import unittest

import test_rows
from trials.companion_trials import TOP, needs_program, numpy_or_none, share
from bench_tool import ParseError, Session, commands, item_types, page, parse, parsing, profiles, scripts, writer
from bench_tool.commands import Operand, Slice

SYNTAX = ("E01", "E02", "E03")
# What random lines get in the place of a token.
TOKENS = [*"()[]{},:=.+-'\"\\@<>|#~ \t", "...", "None", "True", "b'a'", "b'\\x4", "(1,(2,))", "keep", "add", "sum", "zeros", "set", "=",
          "T{<i:x:}", "T{", "<i4", "|S5", "a", "a" * 32, "a" * 33, "1" * 30, "-" + "9" * 30, "1" * 31, "+0", "00", "- 1", "1:", "::-1",
          "é", "\x7f", "\r", "[0]", "(2,3)", '"a.npy"', '"-"', '"x y"']

# A line, its canonical form where that is another, and its command.
PARSED = [
    ("a = zeros <i4 (2,3)", "", commands.Zeros("a", "<i4", (2, 3))),
    ("a=zeros T{<i:x y:}( )", "a = zeros T{<i:x y:} ()", commands.Zeros("a", "T{<i:x y:}", ())),
    ("a = full |u1 (4,) +255", "a = full |u1 (4) 255", commands.Full("a", "|u1", (4,), 255)),
    ("a = arange <i4 0 -6 -1", "", commands.Arange("a", "<i4", 0, -6, -1)),
    (r"a = array |S2 (2) b'x'b'\x79\x00'", r"a = array |S2 (2) b'x' b'y\x00'", commands.NewArray("a", "|S2", (2,), (b"x", b"y\0"))),
    ("a = array T{b:x:T{b:y:}:s:} (1)(1,(2))", "a = array T{b:x:T{b:y:}:s:} (1) (1, (2,))",
     commands.NewArray("a", "T{b:x:T{b:y:}:s:}", (1,), ((1, (2,)),))),
    ("a = array ? (0)", "", commands.NewArray("a", "?", (0,), ())),
    ("x = a", "", commands.Select("x", "a")),
    ("x = a[ 1 : , None,i, ... ,0, :: , 1:2:3]", "x = a[1:,None,i,...,0,:,1:2:3]",
     commands.Select("x", "a", (Slice(1), None, "i", ..., 0, Slice(), Slice(1, 2, 3)))),
    ('x = field r "y"', "", commands.Field("x", "r", "y")),
    ("x = transpose m", "", commands.Transpose("x", "m")),
    ("x = transpose m (1,-2)", "", commands.Transpose("x", "m", (1, -2))),
    ("x = reshape a (2,-1)", "", commands.Reshape("x", "a", (2, -1))),
    ("x = broadcast a ()", "", commands.Broadcast("x", "a", ())),
    ("x = copy m F", "", commands.Copy("x", "m", "F")),
    ("x = cast a >u2", "", commands.Cast("x", "a", ">u2")),
    ("x = add a b[0]", "", commands.Binary("x", "add", Operand("a"), Operand("b", (0,)))),
    ("x = gt a[i] -3", "", commands.Binary("x", "gt", Operand("a", ("i",)), -3)),
    ("x = eq a b'x'", "", commands.Binary("x", "eq", Operand("a"), b"x")),
    ("x = neg a[1]", "", commands.Unary("x", "neg", Operand("a", (1,)))),
    ("x = sum m -1 keep", "", commands.Reduce("x", "sum", "m", -1, True)),
    ("x = argmax m keep", "", commands.Reduce("x", "argmax", "m", None, True)),
    ("x = all m", "", commands.Reduce("x", "all", "m")),
    ('x = load "a.npy"', "", commands.Load("x", "a.npy")),
    ("set a[...] = b", "", commands.Set("a", (...,), Operand("b"))),
    ("set a[1:] = a[:-1]", "", commands.Set("a", (Slice(1),), Operand("a", (Slice(None, -1),)))),
    ("set a[0] = (True, (b'x', 7,))", "set a[0] = (True, (b'x', 7))", commands.Set("a", (0,), (True, (b"x", 7)))),
    ("upd a[i] add 1", "", commands.Update("a", ("i",), "add", 1)),
    ("upd a[0] shl b[0]", "", commands.Update("a", (0,), "shl", Operand("b", (0,)))),
    ('save a "a.npy"', "", commands.Save("a", "a.npy")),
    ("del a", "", commands.Delete("a")), ("undo", "", commands.Undo()), (" names\t", "names", commands.Names()), ("print a", "", commands.Print("a")),
    ("info a", "", commands.Info("a")), ("format a", "", commands.Format("a")), ("shares a b", "", commands.Shares("a", "b")),
]
JSON = {
    "x = a[1:,None,i,...,0]": {"command": "select", "target": "x", "source": "a", "index": [[1, None, None], None, "i", "...", 0]},
    r"set a[0] = b'a\x00\xff'": {"command": "set", "target": "a", "index": [0], "value": "a\0\xff"},
    "set a[0] = a": {"command": "set", "target": "a", "index": [0], "value": {"name": "a", "index": None}},
    "x = and a True": {"command": "binary", "target": "x", "operation": "and", "left": {"name": "a", "index": None}, "right": True},
    "a = array T{b:x:} (2) (1) (2)": {"command": "array", "target": "a", "type": "T{b:x:}", "shape": [2], "values": [[1], [2]]},
    "undo": {"command": "undo"},
}
ERRORS = [
    ("x = a[1:", 9, "`,` or `]`", "E03"),
    ("print", 6, "the name of an array", "E03"),
    ("  print a b", 11, "the end of the line", "E03"),
    ("sum = a", 1, "a name; `sum` is a word of the language", "E03"),
    ("x = a\xe9", 6, "a tab, or a letter, digit or sign of ASCII", "E02"),
    ("a" * 65537, 65537, "at most 65,536 bytes", "E01"),
]


def row_scripts():
    """The rows that need no words for the program, and the scripts of the examples."""
    found = [row for path in sorted((TOP / "tools/rows").glob("*.rows")) for row in test_rows.rows(path)]
    rows = [(row.script, row.files) for row in found if not row.words]
    return rows + [(path.read_bytes().splitlines(), {}) for path in sorted((TOP / "examples").glob("*.bench"))]


def typed_lines():
    """Every line of a command in the repository, right or wrong: of rows, examples, documents, and those that newcomers typed."""
    found = [line for script, _ in row_scripts() for line in script]
    found += [line[2:].encode() for line in (TOP / "tools/rows/wrong_lines.txt").read_text().splitlines() if line.startswith("> ")]
    for page in (TOP / "docs").glob("*.md"):
        found += [line.encode() for block in re.findall(r"```\n(.*?)```", page.read_text(), re.S) for line in block.splitlines()]
    return [line for line in dict.fromkeys(found) if len(line) < 70000]


def altered(rng, line, others):
    """A line after one to three changes of characters or tokens."""
    for _ in range(rng.choice([1, 1, 1, 2, 3])):
        parts = list(line) if rng.random() < 0.4 else re.findall(r"\w+|\W", line)
        at = rng.randrange(len(parts) + 1)
        way, here = rng.randrange(6), parts[at:at + 1]
        if way == 0:
            parts[at:at + 1] = []
        elif way == 1:
            parts[at:at] = here
        elif way == 2:
            parts[at:at + 2] = parts[at:at + 2][::-1]
        elif way == 3:
            parts[at:at + rng.randrange(2)] = [rng.choice(TOKENS)]
        elif way == 4:
            parts[at:at + rng.randrange(2)] = rng.choice(others)[:40].split(" ")[-1:]
        elif here and here[0].isdigit():
            parts[at] = str(int(here[0]) * rng.choice([0, 1, 10 ** rng.randrange(31)]))[:rng.choice([29, 30, 31])]
        line = "".join(parts)
    return line.replace("\n", " ")


def spaced(line):
    """The line with other blanks, if it has no quotes."""
    return line if "'" in line or '"' in line else line.replace(",", " ,\t").replace(" = ", "=").replace(" ", "  ")


def code_of(line):
    """The code with which `parse` refuses a line, or nothing."""
    try:
        parse(line)
    except ParseError as error:
        return error.code
    return ""


@needs_program
class BothWays(unittest.TestCase):
    def same(self, lines):
        """`parse` and the program refuse the same lines, each with the same code, if it is one of the grammar. No name stays bound."""
        asked = []
        for line in lines:
            code = code_of(line)
            bound = "" if code or parse(line) is None else parse(line).binds
            asked.append((line, code, bound))
        with Session(undo=0) as bench:
            sent = [each for line, _, bound in asked for each in ([line, f"del {bound}"] if bound else [line])]
            replies = iter(bench.batch(sent))
            for line, code, bound in asked:
                reply = next(replies)
                self.assertEqual(code, reply[3:6] if reply.startswith("no ") and reply[3:6] in SYNTAX else "", (line, reply))
                if bound:
                    next(replies)

    def test_lines_of_the_repository(self):
        lines = typed_lines()
        self.assertGreater(len(lines), 1000)
        self.same(lines)

    def test_long_lines(self):
        many = "1," * 32000
        lines = [begin + "x" * (length - len(begin)) for begin in ("", "#", "a = ", " ") for length in (65535, 65536, 65537)]
        lines += [" " * 65536, " " * 65537, "# \xe9\xe9" + " " * 65530, "a" * 65536 + "\r", f"a = zeros i4 ({many})", f"a = zeros i4 ({many}"]
        self.same(lines)

    def test_random_lines(self):
        rng, lines = random.Random(11), [line.decode("latin-1") for line in typed_lines() if len(line) < 300]
        for _ in range(share(5, 100)):
            self.same([altered(rng, rng.choice(lines), lines) for _ in range(1000)])

    @unittest.skipUnless([*(TOP / "vectors").glob("*.jsonl")], "there are no cases")
    def test_lines_of_the_cases(self):
        """The steps of cases, of tables the first row or all, are the commands of their lines."""
        from bench_tool import cases
        found = [question for case in cases.read() for question in itertools.islice(case.questions(), share(1, None))]
        held = dict.fromkeys(pair for question in found for pair in zip(question.lines, question.commands))
        self.assertGreater(len(held), 1000)
        self.assertEqual([line for line, command in held if parse(line) != command or str(command) != line], [])
        self.same([line for line, _ in held])

    def test_canonical_lines_mean_the_same(self):
        """Rows and random scripts in canonical form have the replies that they have as they stand."""
        count, found = 0, row_scripts()
        for seed in range(share(20, 1000)):
            with Session() as bench:
                steps = scripts.write(random.Random(seed), lambda line: bench.send(line).text)
            found.append(([spaced(step.line).encode() for step in steps], {}))
        for script, files in found:
            made = [line if code_of(line) or (command := parse(line)) is None else str(command).encode() for line in script]
            count += sum(line != new for line, new in zip(script, made))
            replies = []
            for lines in (script, made):
                with Session() as bench:
                    for name, data in files.items():
                        if isinstance(data, bytes) and len(data) < 1 << 20:
                            bench.files[name] = data
                    replies.append(bench.batch(lines))
            self.assertEqual(*replies, script)
        self.assertGreater(count, 100)


class Values(unittest.TestCase):
    def test_examples_of_the_documents(self):
        for module in (commands, item_types, parsing, scripts):
            failed, tried = doctest.testmod(module)
            self.assertEqual((failed, tried > 1), (0, True), module)
        page, names = (TOP / "docs/COMPANION.md").read_text(), {}
        block = page.partition("## Commands as values")[2].partition("```python\n")[2].partition("```")[0]
        shown = re.findall(r"^(\S+) +# (.+)$", block, re.M)
        exec(block, names)
        self.assertEqual([repr(eval(text, names)) for text, _ in shown], [value for _, value in shown])
        plain = re.search(r'^    (\{"command": .*?\}\})$', page, re.M | re.S)[1]
        self.assertEqual(names["command"].to_json(), json.loads(plain))

    def test_each_kind(self):
        """Each row of PARSED is a line, its canonical form if it differs, and its command."""
        for line, canonical, command in PARSED:
            with self.subTest(line):
                self.assertEqual(parse(line), command)
                self.assertEqual((str(command), parse(str(command))), (canonical or line, command))
        self.assertEqual({type(command) for *_, command in PARSED}, set(commands.KINDS.values()))

    def test_json(self):
        """JSON and back, with a text between; `True` and 1 stay apart, and so do byte strings and names."""
        for *_, command in PARSED:
            text = json.dumps(command.to_json())
            again = commands.from_json(json.loads(text))
            self.assertEqual((again, str(again), json.dumps(again.to_json())), (command, str(command), text))
        for line, plain in JSON.items():
            self.assertEqual(parse(line).to_json(), plain)

    def test_no_command(self):
        for plain in ({}, {"command": "frob"}, {"command": "print"}, {"command": "print", "name": "a", "other": "b"}, [], "print a", None,
                      {"command": "set", "target": "a", "index": 5, "value": 1}, {"command": "set", "target": "a", "index": [[1]], "value": {}}):
            self.assertRaises(ValueError, commands.from_json, plain)

    def test_names(self):
        found = {"x = a[i,1:,j]": ("a i j", "x"), "set a[i] = b[j,i]": ("a i b j", ""), "x = add a[a] x": ("a x", "x"), "upd a[0] add 1": ("a", ""),
                 "x = zeros <i4 (2)": ("", "x"), "shares a b": ("a b", ""), "del a": ("a", ""), "undo": ("", "")}
        for line, (reads, binds) in found.items():
            self.assertEqual((parse(line).reads, parse(line).binds), (tuple(reads.split()), binds), line)

    def test_errors(self):
        for line, column, expected, code in ERRORS:
            with self.subTest(line), self.assertRaises(ParseError) as caught:
                parse(line)
            error = caught.exception
            self.assertEqual((error.line, error.column, error.expected, error.code), (line, column, expected, code))
        for line in ("", "  \t", "# a", " #\x00\xe9", b"", b"#\xff", "\r", " \r"):
            self.assertIsNone(parse(line))
        self.assertRaises(ValueError, parse, "a = b\n")

    def test_files_that_a_script_loads(self):
        lines = ['x = load "a.npy"', 'x=load"b"', 'x = load "c" now', '# x = load "d"', 'load = load "e"', "set a[0] = b'load'", "\xffload"]
        self.assertEqual(list(page.loaded([line.encode("latin-1") for line in lines])), ["a.npy", "b"])

    def test_indexes_of_python(self):
        index = parse("x = a[0,1:-2,::3,...,None,i]").index
        self.assertEqual(commands.python_index(index, {"i": [7]}), (0, slice(1, -2), slice(None, None, 3), ..., None, [7]))
        self.assertEqual(commands.python_index(parse("x = a").index, {}), (...,))


# Types that are at a limit, or nearly right.
TYPES = [
    *profiles.NUMBERS, *profiles.STRINGS, *profiles.RECORDS, *profiles.SHORT_TYPES, *profiles.WRONG_TYPES, "S", "S0", "|S65536", "S65537", "65536s",
    "65537s", "0s", "T{}", "T{x}", "T{65536x}", "T{65535xb}", "T{65536xb}", "T{b:a:b:a:}", "T{b:f1:b}", "T{T{T{T{b}}}}", "T{T{T{T{T{b}}}}}",
    "T{" + "b" * 64 + "}", "T{" + "b" * 65 + "}", "b:x:", "3b", "T{b:x", "b>", "T{b:x:y:}", "T{b::}", "T{b:a'b:}", "T{b: :}", "l", "<l", "=L", "^l",
    "T{^l>l}", "1" * 5000 + "s", "S" + "0" * 5000 + "5", "T{3T{b}}", "V3", "f4", "M8", "O", "|b2", ">b1", "i3", "b:", "3", "T{b}:x:", "T{<b@i}",
    "T{b<i}", "T{T{b:x:i:y:}:a:T{<b}:b:h}", "}", "{", "T{{}", "T{:x:b}", "T{b}}", "<>b", "T{b:" + "n" * 64 + ":}", "T{b:" + "n" * 65 + ":}",
    "T{" + "T{" + "b" * 64 + "}" * 2, "T{B x h}",
]


@needs_program
class Types(unittest.TestCase):
    def texts(self, rng, count):
        """Types, random records, and both after some changes."""
        made = writer.Writer(rng, str, profiles.PROFILES["formats"])
        found = TYPES + [rng.choice(["", "@", "<", ">"]) + made.record(False, 4) for _ in range(50)] + ["^" + made.record(True, 4) for _ in range(50)]
        signs = [*"<>@^=!|bBiqQlLs9fSTZ:}x?\"\\", "T{", "::", ":a:", ":f1:", "3x", "5s"]
        for _ in range(count):
            text = rng.choice(found)
            for _ in range(rng.choice([1, 1, 2, 3])):
                at = rng.randrange(len(text) + 1)
                begin, here, end = text[:at], text[at:at + 1], text[at + 1:]
                text = begin + rng.choice(["", 2 * here, rng.choice(signs) + here]) + end
            yield text
        yield from found

    def test_types_are_read_as_the_program_reads_them(self):
        """Each text is the type that `zeros` replies, or is refused with its code; sizes and offsets of fields are those of `info`."""
        rng, codes = random.Random(3), set()
        with Session(undo=0) as bench:
            for text in self.texts(rng, share(3000, 100_000)):
                reply = bench.send(f"x = zeros {text} ()")
                if reply.code == "E03":
                    continue
                try:
                    kind = item_types.read(text)
                    found = f"ok x {kind} () new"
                except item_types.BadType as error:
                    kind, found = None, error.code
                self.assertEqual(found, reply.code or reply.text, text)
                codes.add(reply.code)
                for field in kind.fields if kind else ():
                    bench.ask(f'y = field x "{field.name}"')
                    info = bench.info("y")
                    self.assertEqual((str(field.type), field.offset), (info.type, info.at), text)
                if kind:
                    self.assertEqual(bench.ask("format x"), f"format {kind.format()}")
        self.assertEqual(codes, {"", "E04", "E05", "E09"})

    @unittest.skipUnless(numpy_or_none(), "NumPy is not installed")
    def test_dtypes(self):
        """NumPy's dtype has the fields at the same bytes as an array that the bench gives it."""
        for text in [*profiles.NUMBERS, *profiles.STRINGS, *profiles.RECORDS, "T{b:x:i:y:}", "T{T{b:x:i:y:}:a:T{<b:z:}:b:h:c:}"]:
            with Session() as bench:
                bench.ask(f"x = zeros {text} (2)")
                self.assertEqual(item_types.read(text).numpy(), bench.get("x").dtype, text)


if __name__ == "__main__":
    unittest.main()
