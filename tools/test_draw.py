"""`bench-tool draw`: what the modules of the page draw, in Node: buffers against `shares`, cells and values against `print`, moves against a
machine of ids, pages of all kinds, pictures of the docs. tools/test_browsers.py tries the page."""
import argparse
import itertools
import json
import pathlib
import random
import re
import shutil
import subprocess
import tempfile
import unittest
import xml.etree.ElementTree

from trials.companion_trials import PATIENT, PROGRAM, TOOL, TOP, environment, needs_program, processor_seconds, share
from trials import lines as scripts
from bench_tool import BenchError, Session
from bench_tool import page as pages
from bench_tool.session import literal
from test_page import vectors

HAS_PAGE = any(map(pathlib.Path.is_file, pages.PLACES))
needs_node = unittest.skipUnless(HAS_PAGE and shutil.which("node"), "Node is not installed, or `make page` has made no page")
LONG = "name_of_just_thirty_two_bytes_ab"
SCRIPTS = {
    "refused in part": ["a = arange <i4 0 3 1", "b = nothing", "set a[3] = 1", "what is this?", "set a[0] = 7", "\x7f", "x = load \"none.npy\""],
    "no command": ["# a comment", "", "  \t", "# the end"],
    "nothing": [],
    "long names": [f"{LONG} = arange <i4 0 4 1", f"{LONG[:-1]}c = {LONG}[::-1]", f"set {LONG}[1:] = {LONG}[:-1]", f"del {LONG}"],
    "byte strings": ["""s = array |S6 (2,2) b'<&>"' b'</a>' b'-->' b'&lt;\\x27'""", "t = transpose s", "set t[0] = s[1]", "print s"],
    "records in records": ["r = array T{b:x:T{<i:<y>&:3s:z:}:s:2x} (3) (1,(2,b'ab')) (3,(4,b'c')) (5,(6,b''))", 'f = field r "s"', 'y = field f "<y>&"',
                           "set y[1:] = y[:-1]", "set r[0] = r[2]", "print r"],
    "no axes, no items": ["a = full <i4 () 7", "e = zeros <u8 (0,3)", "v = e[:,1]", "w = broadcast a (2,2)", "set a[...] = 9", "c = reshape e (3,0)", "undo"],
    "what goes and comes back": ["a = arange <i4 0 4 1", "b = a", "c = copy a C", "set a[:2] = c[2:]", "del b", "a = c[::-1]", "undo", "undo", "undo", "del c", "del a"],
    "grids": ["a = arange <i2 0 12 1", "m = reshape a (3,4)", "t = transpose m", "r = m[::-1,::-2]", "w = broadcast r (2,3,2)", "set r[0] = r[1]", "c = reshape t (12)"],
    "index arrays": ["a = arange <i8 0 6 1", "i = array <i8 (3) 5 0 3", "b = a[i]", "set a[i] = b", "m = array ? (6) True False True False False True", "set a[m] = a[i]",
                     "upd a[i] add a[m]"],
    "many items": ["a = arange <i4 0 600 1", "m = reshape a (20,30)", "t = transpose m", "b = a[300:]", "set b[99] = -1", "set b[0] = -1", "set a[1:] = a[:-1]", "del a", "print m"],
    "long items": ["r = zeros T{" + "".join(f"h:field{k}:" for k in range(64)) + "} (40)", "s = full |S65536 (3) b'x'", "set r[5] = 1", "t = s[1:]"],
}
# Texts that would be markup, if they were taken for it.
SCRIPTS["markup"] = ["# </script><script>alert(1)</script> <!--DATA--> <!--TITLE--> <img src=x onerror=alert(1)>",
    "r = zeros T{i:<script>alert(1)</script>:i:&lt;x:h:--><b>:b:]]>:5s:<img src=x onerror=alert(1)>:i:<!--DATA-->:} (2)", "set r[0] = (1, 2, 3, 4, b'</t><', 6)",
    "s = array |S40 (2) b'</text></svg><script>alert(1)</script>' b'<!--SCRIPT--> &amp; <b>'", "set s[0] = s[1]", "x = field r \"<script>alert(1)</script>\"",
    "x = <script>alert(1)</script>", "print r", "format r", "n = zeros T{T{i:<svg/onload=alert(1)>:}:<a href=x>:i:q&:} (2)"]
# Runs scripts, and tells of each line its reply, its words, its tables, and the memory before and after it.
LOOKS = """
const namesOf = state => Object.fromEntries([...state.names].map(([name, bound]) => [name, { ...bound.array, buffer: bound.buffer, leaves: bound.kind.leaves.map(leaf => leaf.at) }]));
function looked(moment, hues) {
  const { tables, hidden } = tablesOf(moment, hues), { number, line, reply, moved, written, before, after } = moment;
  return { number, line, reply: reply.text, words: said(moment), tables, hidden, moved: [...moved].map(([at, from]) => [at, from.buffer, from.byte]), written: [...written].map(([of, bytes]) => [of, [...bytes]]),
    names: namesOf(after), before: namesOf(before), picture: picture(line, tables, said(moment)), size: figure(tables[0] ?? { caption: "", rows: [{ label: "", boxes: [] }], moves: [], columns: 0 }, 700).length };
}
const told = %s.map(({ lines, undo, last }) => {
  const trace = new Trace(opened, { undo, text: lines.join("\\n") }), moments = lines.map(line => trace.step(line)), hues = huesOf(moments);
  trace.close();
  return moments.slice(last).map(moment => looked(moment, hues));
});
process.stdout.write(JSON.stringify(told));
"""


def looks(chosen, last=0):
    """What is told of scripts, pairs of lines and an undo depth: of each line, or from one on; -1 is the last one."""
    given = json.dumps([{"last": last, "lines": [line.decode("latin-1") if isinstance(line, bytes) else line for line in lines], "undo": undo} for lines, undo in chosen])
    return json.loads(pages.asked(LOOKS % given, [], argparse.Namespace(undo=16, dir="/nowhere")))


def look(lines, undo=16):
    return looks([(lines, undo)])[0]


def flat(item):
    """The values of an item, those of a record one after another."""
    return [value for inner in item for value in flat(inner)] if isinstance(item, tuple) else [item]


def random_move(rng):
    """Lines that bind a and b, indexes and masks, also in the buffer of a; where each item of a comes from, the items that are written,
    and a line that sets."""
    n = rng.randint(2, 7)
    lines = [f"a = array <i4 ({n}) " + " ".join(str(rng.choice([0, 1, 2, 5])) for _ in range(n)), f"b = array <i4 ({n}) " + " ".join(str(rng.choice([0, 1, 3])) for _ in range(n))]
    mask, index = [rng.random() < 0.5 for _ in range(n)], [rng.randrange(-n, n) for _ in range(rng.randint(1, n))]
    lines += [f"k = array ? ({n}) {' '.join(map(str, mask))}", f"i = array <i8 ({len(index)}) {' '.join(map(str, index))}"]
    taken, at = [k for k in range(n) if mask[k]], [k % n for k in index]

    def some():
        while True:
            part = slice(*(rng.choice([None, *range(n)]) for _ in range(2)), rng.choice([None, 1, 2, -1, -2]))
            if found := list(range(n)[part]):
                return found, ":".join("" if each is None else str(each) for each in (part.start, part.stop, part.step))

    (to, to_text), (of, of_text), source, value = some(), some(), rng.choice("ab"), rng.choice([0, 1, 7])
    kinds = [(to, source, of, f"a[{to_text}] = {source}[{of_text}]"), (taken, "b", taken, "a[k] = b[k]"), (at, "b", at, "a[i] = b[i]"), (taken, None, taken, f"a[k] = {value}"),
             (at, None, at, f"a[i] = {value}"), (at, "a", at, "a[i] = a[i]"), (taken, "a", [0] * len(taken), "a[k] = a[0]"), (to, source, [of[0]] * len(to), f"a[{to_text}] = {source}[{of[0]}]"),
             (list(range(n)), "a", list(range(n))[::-1], "a[...] = r"), (list(range(n)), source, list(range(n)), f"a[:] = {source}"), (taken, "a", taken[::-1], "a[k] = s")]
    to, source, of, text = rng.choice(kinds)
    lines += ["r = a[::-1]", "s = a[k]", "s = s[::-1]"] if text[-1] in "rs" else []
    if text[-1] == "s":  # s has a buffer of its own
        source, of = "s", list(range(len(taken)))[::-1]
        lines, text = lines[:-1], "a[k] = s[::-1]"
    if len(of) not in (1, len(to)):
        text, source, to = "a[0] = 1", None, [0]
    of = of * len(to) if len(of) == 1 else of
    ids = {4 * k: ("a", 4 * k) for k in range(n)}
    ids.update({4 * k: source and (source, 4 * j) for k, j in zip(to, of if source else to)})
    return lines, ids, sorted({4 * k for k in to}), f"set {text}"


def bytes_seen(array):
    """The bytes of a buffer at which an array has values."""
    starts = [array["at"]]
    for stride, length in zip(array["strides"], array["shape"]):
        starts = [start + k * stride for start in starts for k in range(length)]
    return {start + leaf for start in starts for leaf in array["leaves"]}


def rows_of(tables, look_):
    """The rows of a look, of all tables."""
    return [row for table in tables for row in table["rows"] if row["look"].split()[0] == look_]


def texts(row):
    return [box["text"] for box in row["boxes"] if box["look"] not in ("pad", "gap")]


def items_of_name(row, values):
    """The items that the row of a name shows, by their numbers in C order: the texts of the values that stand over each."""
    found = {}
    for box in row["boxes"]:
        if box["look"] != "gap":
            inside = [other["text"].split("→")[-1] for other in values if other["look"] not in ("pad", "gap") and box["byte"] <= other["byte"] < box["byte"] + box["size"]]
            found[box["number"]] = (inside, box["times"])
    return found


@needs_program
@needs_node
class Pictures(unittest.TestCase):
    def test_buffers_and_values(self):
        """Buffers are as `shares` says, and what is drawn is what `print` says: in random scripts, and in some of vectors/."""
        made = [scripts.random_script(PROGRAM, random.Random(-seed - 1), -seed - 1, depths=(0, 1, 3, 16, 56)) for seed in range(share(4, 400))]
        written = [(lines, 0) for question, lines in vectors(1) if not question.files]
        chosen = [(script.lines, script.depth or 0) for script in made] + random.Random(7).sample(written, share(20, len(written)))
        for (lines, undo), told in zip(chosen, looks(chosen)):
            with tempfile.TemporaryDirectory() as folder, Session(PROGRAM, undo, folder) as judge:
                for line, moment in zip(lines, told):
                    with self.subTest(lines=lines, line=line):
                        self.check_moment(judge, line, moment)

    def check_moment(self, judge, line, moment):
        self.assertEqual(moment["reply"], judge.send(line).text)
        names = judge.names()
        self.assertEqual(list(moment["names"]), names)
        for (name, array), (other, against) in itertools.combinations_with_replacement(moment["names"].items(), 2):
            common = array["buffer"] == against["buffer"] and bool(bytes_seen(array) & bytes_seen(against))
            self.assertEqual(judge.ask(f"shares {name} {other}"), "shares yes" if common else "shares no", (name, other))
        if moment["reply"]:
            self.check_tables(moment["tables"], {name: judge.array(name) for name in names})

    def check_tables(self, tables, expected):
        seen, grids, partly, folded = {}, {}, set(), set()
        for table in tables:
            values = sorted((box for row in table["rows"] if row["look"] == "now" for box in row["boxes"] if "byte" in box), key=lambda box: box["byte"])
            folded |= set(re.findall(r"more names see it: (.*)", table["caption"])[0].split()) if "more names" in table["caption"] else set()
            for row in table["rows"]:
                if row["look"].startswith("name") and not row["look"].endswith("goes"):
                    seen.setdefault(row["label"], {}).update(items_of_name(row, values))
                    partly |= {row["label"]} if "not drawn" in table["caption"] else set()
                elif row["look"].startswith("grid"):
                    name, *index = re.findall(r"\w+", table["caption"].partition(" in rows")[0])
                    cells = {(*map(int, index), int(row["label"]), int(column)): text.split("→")[-1] for text, column in zip(texts(row), texts(table["rows"][0]))}
                    grids.setdefault(name, {}).update(cells)
        self.assertEqual(set(seen) | folded, set(expected))
        for name in seen:
            array, numbers = expected[name], {}
            for index, item in zip(itertools.product(*map(range, array.shape)), array.items):
                at = tuple(k if stride else 0 for k, stride in zip(index, array.strides))
                numbers.setdefault(at, []).append(item)
            wanted = {k: (list(map(literal, flat(items[0]))), len(items)) for k, items in enumerate(numbers.values()) if k in seen[name] or name not in partly}
            self.assertEqual(seen[name], wanted, name)
            by_index = dict(zip(itertools.product(*map(range, array.shape)), array.items))
            self.assertEqual(grids.get(name, {}), {at: literal(by_index[at]) for at in grids.get(name, {})})

    def test_moves(self):
        """An item is said to have moved from where it did, and to be written where it was: beside a machine of ids, for every kind of `set`."""
        rng = random.Random(5)
        chosen = [random_move(rng) for _ in range(share(400, 20_000))]
        for (lines, ids, written, line), [last] in zip(chosen, looks([([*lines, line], 0) for lines, _, _, line in chosen], -1)):
            if last["reply"].startswith("no "):
                continue
            numbers = {name: array["buffer"] for name, array in last["before"].items()}
            number = numbers["a"]
            wanted = {at: [numbers[source[0]], source[1]] for at, source in ids.items() if source}
            wanted = {at: source for at, source in wanted.items() if source != [number, at]}
            is_changed = any(box["look"] == "x" for row in rows_of(last["tables"], "now") for box in row["boxes"])
            self.assertEqual({at: source for at, *source in last["moved"]}, wanted if is_changed else {}, (lines, line))
            self.assertEqual([[number, sorted(set(bytes_))] for number, bytes_ in last["written"]], [[number, written]], (lines, line))
            drawn = [box["byte"] for table in last["tables"] if table["buffer"] == number for row in rows_of([table], "now") for box in row["boxes"] if box["look"]]
            self.assertEqual(drawn, written)

    def test_kinds(self):
        text = pages.asked('const kind = kindOf("T{<b:x:3xT{>i:y:<5s:q:}:s:<?:k:2x}");\nprocess.stdout.write(JSON.stringify([kind.leaves, kind.size, kindOf("|S12").size, kindOf(">u2").size]));',
                           [], argparse.Namespace(undo=0, dir="."))
        leaves, *sizes = json.loads(text)
        self.assertEqual([tuple(leaf.values()) for leaf in leaves], [(0, 1, "x", "<b"), (4, 4, "s.y", ">i"), (8, 5, "s.q", "<5s"), (13, 1, "k", "<?")])
        self.assertEqual(sizes, [16, 12, 2])

    def test_pictures_of_all_kinds(self):
        for (name, lines), moments in zip(SCRIPTS.items(), looks([(lines, 16) for lines in SCRIPTS.values()])):
            with self.subTest(name):
                self.assertEqual([moment["reply"] != "" for moment in moments], [bool(line.strip()) and not line.startswith("#") for line in lines])
                for moment in moments:
                    drawn = xml.etree.ElementTree.fromstring(moment["picture"])
                    self.assertEqual([child.tag.split("}")[1] for child in drawn][:2], ["title", "desc"])
                    self.assertEqual({part.tag.split("}")[1] for part in drawn.iter()} - {"svg", "title", "desc", "style", "marker", "path", "rect", "text", "g"}, set())

    def test_what_is_said(self):
        lines = ["a = arange <i4 0 4 1", "b = a[::2]", "c = reshape a (2,2)", "t = transpose c", "d = reshape t (4)",
                 "set a[1:] = a[:-1]", "del d", "undo", "set b[0] = b[0]", "b = copy a C", "set a[:] = b", "del a"]
        words = [moment["words"] for moment in look(lines)]
        self.assertEqual(words[:2], ["a is a new array in buffer 1.", "b is a view of buffer 1, like a."])
        self.assertEqual(words[4:9], ["d is a copy in buffer 2: no strides lead to the items in this shape.", "3 values in buffer 1 change, seen by a, b, c and t. 3 values moved.", "d is unbound. Buffer 2 is freed.",
                                      "Line 7 is taken back. d is back, in buffer 2.", "The values written are those that were there."])
        self.assertEqual(words[9:], ["b is now a copy in buffer 3.", "The values written are those that were there.", "a is unbound."])

        words = [moment["words"] for moment in look(["a = arange <i4 0 2 1", "m = zeros <i4 (3,2)", "set m[:] = a", 'save m "m.npy"', "undo", "undo", "set a[0] = a[1]"])]
        self.assertEqual(words[2:], ["3 values in buffer 2 change, seen by m. 6 values come from buffer 1.", "The file m.npy has 152 bytes.",
                                     "Line 3 is taken back. 3 values in buffer 2 change, seen by m.", "Line 2 is taken back. m is unbound. Buffer 2 is freed.", "1 value in buffer 1 changes, seen by a. 1 value moved."])

    def test_bytes(self):
        """The bytes of a number are those that NPY files have."""
        chosen = [["<i4", 4, 258], [">i4", 4, 258], [">i2", 2, -2], ["<i8", 8, -2 ** 63], [">u8", 8, 2 ** 64 - 1], ["|u1", 1, 255], ["<h", 2, -32768], [">Q", 8, 1], ["b", 1, -1]]
        given = json.dumps([[kind, size, str(value)] for kind, size, value in chosen] + [["|b1", 1, "True"], ["|S3", 3, "b'12'"]])
        made = pages.asked(f"process.stdout.write(JSON.stringify({given}.map(([type, size, value]) => bytesIn({{ type, size }}, value))));", [], argparse.Namespace(undo=0, dir="."))
        self.assertEqual(json.loads(made), [value.to_bytes(size, "big" if kind[0] == ">" else "little", signed=value < 0).hex(" ") for kind, size, value in chosen] + ["", ""])

    def test_around_what_changed(self):
        """A long array is drawn around what a line writes or names, and its grids too."""
        lines = ["a = arange <i8 0 16777216 1", "m = reshape a (4096,4096)", "t = transpose m", "set m[2000,3000] = -5", "v = a[9000000:9000003]", "i = array <i8 (2) 77777 5000000", "set a[i] = -1", "print a[0]"]
        begun = processor_seconds()
        told = look(lines)
        *_, changed, view, _, scattered, _ = told
        values = [(box["text"], box["look"]) for box in rows_of(changed["tables"][:1], "now")[0]["boxes"]]
        self.assertIn(("-5", "x"), values)
        self.assertIn(("8195001", ""), values)
        self.assertLess(len(values), 80)
        self.assertEqual([texts(row) for table in changed["tables"][1:3] for row in table["rows"] if any("→" in box["text"] for box in row["boxes"])] != [], True)
        self.assertIn("items in between are not drawn", changed["tables"][0]["caption"])
        names = {row["label"]: texts(row) for row in rows_of(view["tables"][:1], "name")}
        self.assertEqual(names["v"], ["[0]", "[1]", "[2]"])
        self.assertEqual([box["text"] for box in rows_of(scattered["tables"][:1], "now")[0]["boxes"] if box["look"] == "x"], ["-1", "-1"])
        self.assertLess(processor_seconds() - begun, 40)

    def test_bounds(self):
        """Time grows with what is drawn: many views of a buffer, records of many values, long replies and types."""
        views = ["a = zeros <i4 (16,16)", *(f"v{k} = a[{k % 16}:,{k // 16}:]" for k in range(40)), *(f"set a[{k % 16},{k // 16}] = {k + 1}" for k in range(share(5, 20)))]
        leaf = "T{" + "".join(f"b:{'abcdefgh'[k % 8]}{k}:" for k in range(64)) + "}"
        big = "T{" + "".join(f"{leaf}:r{j}:" for j in range(32)) + "}"
        records = [f"a = zeros {big} (4)", f"b = zeros {big} (4)", "set a[0] = b[1]", "set b[0] = a[1]"]
        long = "T{" + "".join("T{" + "".join("b:" + f"f{j}{k}_".ljust(28, "x") + ":" for k in range(64)) + f"}}:g{j}:" for j in range(32)) + "}"
        begun = processor_seconds()
        told = looks([(lines, 16) for lines in (views, records, [f"a = zeros {long} (2)", "names"], ["a = zeros |u1 (2000,2000)", *["print a"] * share(1, 3)])])
        self.assertLess(processor_seconds() - begun, 40)
        self.assertIn("35 more names see it: ", told[0][-1]["tables"][0]["caption"])
        self.assertIn("the last 1792 values of each item are not drawn", told[1][0]["tables"][0]["caption"])

    def test_many_names(self):
        """Of many names in a buffer those of the line are drawn, and the others are named; of many buffers some."""
        lines = [f"n{k} = arange <i4 0 {k % 5} 1" for k in range(60)] + [f"v{k} = n4[{k % 4}:]" for k in range(40)]
        *_, changed, asked = look([*lines, "n8 = n4", "set v30[0] = 7", "print v33"])
        self.assertEqual(asked["hidden"], 46)
        self.assertEqual(rows_of(changed["tables"], "name")[0]["label"], "v30")
        self.assertEqual([row["label"] for row in rows_of(asked["tables"], "name") if row["look"].endswith("asked")], ["v33"])
        self.assertEqual(changed["words"], "1 value in buffer 5 changes, seen by n4, n8, v0, v1, v2, v4 and 34 more.".replace("v0, v1, v2, v4 and 34", changed["words"].split("n8, ")[1].split(" more")[0]))

    def test_colours(self):
        """No colour comes twice in a buffer; those with the same stripes are far apart; one that is free is taken again."""
        lines = ["n0 = arange <i4 0 4 1", *(f"n{k} = n0[:]" for k in range(1, 60)), "del n3", "v = n0"]
        asked = r"""const moments = run(given.script, 16), { tables } = tablesOf(moments.at(-1), huesOf(moments), true), rows = tables[0].rows.filter(row => row.hue !== undefined);
const rules = [...STYLE("svg", rows.map(row => row.hue)).matchAll(/\.h\d+{--c:oklch\(var\(--light\) var\(--vivid\) ([\d.]+)\)}/g)].map(([, turn]) => Number(turn));
process.stdout.write(JSON.stringify(rows.map((row, k) => [row.hue, row.label, row.stripes, rules[k]])));"""
        told = sorted(json.loads(pages.asked(asked, [line.encode() for line in lines], argparse.Namespace(undo=16, dir="."))))
        self.assertEqual([hue for hue, *_ in told], list(range(60)))
        self.assertEqual(told[3][1], "v")
        self.assertEqual([stripes for _, _, stripes, _ in told], [stripes for stripes in ("", "left", "right", "left right", "") for _ in range(12)])
        for first in range(0, 60, 12):
            turns = sorted(turn for *_, turn in told[first:first + 12])
            self.assertGreater(min((after - before) % 360 for before, after in zip(turns, turns[1:] + turns[:1])), 19)

    def test_pictures_of_the_docs(self):
        with tempfile.TemporaryDirectory() as folder:
            subprocess.run(["make", "-s", "-C", str(TOP), "pictures", f"FOLDER={folder}"], check=True, env=environment(), timeout=PATIENT)
            made = {path.name: path.read_text() for path in pathlib.Path(folder).iterdir()}
        self.assertEqual(made, {path.name: path.read_text() for path in (TOP / "docs/pictures").iterdir()}, "make pictures draws them anew")


@unittest.skipUnless(HAS_PAGE, "`make page` has made no page")
class Pages(unittest.TestCase):
    def words(self, **words):
        return argparse.Namespace(**{"undo": 16, "dir": "/nowhere", "line": None, **words})

    def given(self, text):
        return json.loads(pages.GIVEN.search(text)[0])

    def test_pages_of_all_kinds(self):
        """The page has the script as it is, and nothing of it is markup."""
        for name, lines in SCRIPTS.items():
            text = pages.drawn("made <&>.bench", [line.encode() for line in lines], self.words(line=2))
            self.assertEqual(self.given(text), {"title": "made <&>.bench", "script": "\n".join(lines), "files": {}, "undo": 16, "line": 2}, name)
            self.assertEqual(pages.GIVEN.sub("", text), pages.form())

    def test_files(self):
        with tempfile.TemporaryDirectory() as folder:
            pathlib.Path(folder, "x.npy").write_bytes(b"\0\xff")
            text = pages.drawn("", [b'a = load "x.npy"', b'b = load "none.npy"'], self.words(dir=folder))
            self.assertEqual(self.given(text)["files"], {"x.npy": "AP8="})
            pathlib.Path(folder, "y.npy").touch()
            with open(pathlib.Path(folder, "y.npy"), "r+b") as file:
                file.truncate(pages.MOST_FILES + 1)
            self.assertRaisesRegex(BenchError, "have more than", pages.drawn, "", [b'a = load "y.npy"'], self.words(dir=folder))

    @unittest.skipUnless(shutil.which("bash"), "there is no Bash")
    def test_command(self):
        """`bench-tool draw` writes a page to its output or to a file: whole, or what was there stays."""
        lines = [b"a = arange <i4 0 4 1", b"set a[1:] = a[:-1]"]
        with tempfile.TemporaryDirectory() as folder:
            script, made = pathlib.Path(folder, "made <&>.bench"), pathlib.Path(folder, "page.html")
            script.write_bytes(b"\n".join(lines))

            def tool(*words, before=""):
                return subprocess.run(["bash", "-c", f'{before} exec "$@"', "-", str(TOOL), "draw", str(script), f"--dir={folder}", *words],
                                      capture_output=True, env=environment(), timeout=PATIENT)
            done = tool()
            self.assertEqual((done.stderr, done.returncode, done.stdout.decode()), (b"", 0, pages.drawn(script.name, lines, self.words(dir=folder))))
            self.assertEqual(tool("-o", str(made)).returncode, 0)
            self.assertEqual(made.read_bytes(), done.stdout)
            made.write_text("old")
            failed = tool("-o", str(made), before="ulimit -f 1;")
            self.assertEqual((failed.returncode, made.read_text()), (3, "old"))
            self.assertEqual(sorted(path.name for path in pathlib.Path(folder).iterdir()), ["made <&>.bench", "page.html"])
            self.assertEqual(tool("-o", "/dev/null").returncode, 0)
            alone = tool("--svg", "--line", "2")
            self.assertIn(b"<svg" if shutil.which("node") else b"needs Node", alone.stdout + alone.stderr)

    def test_bad_words(self):
        with self.assertRaisesRegex(BenchError, "1 to 1"):
            pages.picture([b"names"], self.words(line=2))
        for script, words, told in ("overlap", ["--undo", "57"], "56 changes, not 57"), ("no", [], "no.bench"):
            words = [str(TOOL), "draw", str(TOP / f"examples/{script}.bench"), *words]
            done = subprocess.run(words, capture_output=True, env=environment(), timeout=PATIENT)
            self.assertEqual((done.returncode, done.stdout), (3, b""))
            self.assertIn(told, done.stderr.decode())


if __name__ == "__main__":
    unittest.main()
