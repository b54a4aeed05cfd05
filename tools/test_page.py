"""The page and the program in WebAssembly: the same replies and files as the program's, in Node; and what tools/test_browsers.py tries of the page.
BENCH_TESTS=all tries 10,000 random scripts, and 4 GB of memory."""
import argparse
import base64
import itertools
import json
import pathlib
import random
import re
import shutil
import subprocess
import sys
import tempfile
import time
import unittest
import zlib

from trials.companion_trials import PATIENT, PROGRAM, TOP, needs_program, share
from trials import lines as scripts
from bench_tool import Session, cases
from bench_tool import page as pages
from bench_tool.judge_adapter import plain
from bench_tool.session import items_of
from test_rows import rows, zeros

sys.path.insert(0, str(TOP / "page"))
import build  # noqa: E402
import retarget  # noqa: E402

DIST, TRIALS = TOP / "dist", TOP / "tools/trials"
PAGE = DIST / "bench.html"
needs_page = unittest.skipUnless(PAGE.is_file(), "`make page` has made no page")
needs_node = unittest.skipUnless(shutil.which("node"), "Node is not installed (Debian: nodejs)")


def coded(data):
    return base64.b64encode(data).decode()


def told(chosen):
    """The replies to scripts of the program in WebAssembly, and the files that are left: of each its lines, its files and its undo depth."""
    given = json.dumps([{"lines": [coded(line) for line in lines], "files": {name: coded(data) for name, data in files.items()}, "undo": undo} for lines, files, undo in chosen])
    done = subprocess.run(["node", TRIALS / "page_replies.mjs"], input=given.encode(), stdout=subprocess.PIPE, check=True)
    return [(each["replies"], {name: base64.b64decode(data) for name, data in each["files"].items()}) for each in json.loads(done.stdout)]


def vectors(most=3):
    """The first questions of each case of vectors/, each with its lines, and behind them a `print` of each name that it wants."""
    for case in cases.read(place=TOP / "vectors"):
        for question in itertools.islice(case.questions(), most):
            yield question, [line.encode() for line in (*question.lines, *(f"print {name}" for name in question.want))]


@needs_page
class Sources(unittest.TestCase):
    def test_dist(self):
        """dist/ has the page of these sources; its program is compared by the gate."""
        done = subprocess.run([sys.executable, TOP / "page/build.py", "--check"], capture_output=True, text=True, env={"PATH": "/usr/bin:/bin"})
        self.assertEqual((done.returncode, done.stdout.splitlines()[-1:]), (0, ["page: dist/ has the page of these sources"]), done.stdout + done.stderr)

    def test_size(self):
        self.assertLess(PAGE.stat().st_size, 560_000)
        self.assertNotRegex(pages.form().replace("http://www.w3.org/2000/svg", ""), r"https?://")


class Retarget(unittest.TestCase):
    HEAD = 'target datalayout = "e-m:e"\ntarget triple = "x86_64-unknown-linux-gnu"\n'

    def test_known(self):
        made = retarget.retarget(self.HEAD + '@t = internal constant <{ ptr, i64, [2 x i8] }> <{ ptr @f, i64 3, [2 x i8] c"a," }>, align 8\n  %a = alloca ptr, align 8\n'
                                 "  %p = load { ptr, i64 }, ptr %x, align 8\n")
        self.assertIn('target triple = "wasm32-unknown-unknown"', made)
        self.assertIn('@t = internal constant <{ ptr, [4 x i8], i64, [2 x i8] }> <{ ptr @f, [4 x i8] zeroinitializer, i64 3, [2 x i8] c"a," }>, align 8', made)
        self.assertIn("%a = alloca i64, align 8", made)
        self.assertIn("%p.at = getelementptr i8, ptr %x, i64 8", made)

    def test_unknown(self):
        """It stops at each form that it does not know how to widen."""
        for line in ("%n = ptrtoint ptr %a to i64", "%a = inttoptr i64 %n to ptr", "  %a = alloca { ptr, i64 }, align 8", "  %a = alloca [2 x ptr], align 8", "  store { ptr, i64 } %v, ptr %a, align 8",
                     "  %v = load { i64, ptr, i64 }, ptr %a, align 8", "@t = constant { ptr, i64 } { ptr @f, i64 1 }", "@t = global [2 x ptr] [ptr @f, ptr @g]", "@t = global <{ ptr }> <{ ptr @f }>", "@t = constant ptr @f"):
            with self.subTest(line):
                self.assertRaises(retarget.Unknown, retarget.retarget, f"{self.HEAD}{line}\n")


@needs_page
@needs_node
class Program(unittest.TestCase):
    """The program in WebAssembly is the program."""

    def alike(self, chosen, expected):
        for given, wanted, found in zip(chosen, expected, told(chosen)):
            with self.subTest(lines=given[0][:3]):
                self.assertEqual(found, wanted)

    def test_examples(self):
        chosen = [path for path in sorted((TOP / "examples").glob("*.bench"))]
        for path, (replies, _) in zip(chosen, told([(scripts.lines_of(path.read_bytes()), {}, 16) for path in chosen])):
            self.assertEqual("".join(f"{reply}\n" for reply in replies if reply), path.with_suffix(".out").read_text(), path.name)

    def test_rows(self):
        """Rows without faults of streams and folders, and without files that are too long."""
        kept = []
        for path in sorted((TOP / "tools/rows").glob("*.rows")):
            for row in rows(path):
                depth = dict(zip(row.words[::2], row.words[1::2])) if len(row.words) == 2 else {}
                is_plain = row.stderr is None and row.status in (0, 1) and (not row.words or "--undo" in depth)
                if is_plain and not any(isinstance(value, zeros) for value in [*row.files.values(), *row.left.values()]) and "E27" not in b"".join(row.replies).decode("latin-1"):
                    kept.append((row, (row.script, row.files, int(depth.get("--undo", 16)))))
        self.assertGreater(len(kept), 60)
        for (row, _), (replies, files) in zip(kept, told([given for _, given in kept])):
            with self.subTest(row.title):
                self.assertEqual("".join(f"{reply}\n" for reply in replies if reply).encode(), b"".join(line + b"\n" for line in row.replies))
                self.assertEqual(files, {**row.files, **row.left})

    def test_vectors(self):
        found = list(vectors())
        self.assertGreater(len(found), 2000)
        for (question, _), (replies, _) in zip(found, told([(lines, question.files, 0) for question, lines in found])):
            with self.subTest(question.id):
                refused = next((k for k, reply in enumerate(replies) if reply.startswith("no ")), None)
                self.assertEqual(refused, question.step if question.refuse else None)
                for printed, want in zip(replies[len(question.commands):], question.want.values()):
                    self.assertEqual([plain(item) for item in items_of(printed)], list(want.items))

    @needs_program
    def test_random_scripts(self):
        """Replies and files, byte for byte."""
        for part in range(share(1, 10)):
            chosen = [scripts.random_script(PROGRAM, random.Random(f"{part} {number}"), number) for number in range(share(300, 1000))]
            for script, (replies, files) in zip(chosen, told([(script.lines, script.files, script.depth) for script in chosen])):
                with tempfile.TemporaryDirectory() as folder, Session(PROGRAM, script.depth, folder) as judge, self.subTest(script.name):
                    self.assertEqual(replies, judge.batch(script.lines))
                    self.assertEqual(files, {path.name: path.read_bytes() for path in pathlib.Path(folder).iterdir()})

    def test_calls(self):
        """The calls of bench.mjs as it documents them, with wrong arguments, and after the end."""
        code = """
import { Bench, load } from "%s/bench.mjs";
const bench = await Bench.open({ undo: 1 }), other = await Bench.open(), told = [], tried = call => { try { return call(); } catch (fault) { return `${fault.name}: ${fault.message}`; } };
told.push(bench.answer("a = arange <i4 0 6 1"), bench.answer("b = a[6]"), bench.answer(""), other.answer("print a").code, bench.answer('save a "y.npy"').text);
bench.files.set("x.npy", bench.files.get("y.npy"));
told.push([...bench.files], bench.files.has("z.npy"), bench.files.get("z.npy") === undefined, bench.answer('c = load "x.npy"').text, bench.answer("x".repeat(70000)).text);
bench.answer("a = zeros |u1 (300,300)");
told.push(bench.answer("print a").text.length, bench.answer("é").text);
bench.close(), bench.close();
told.push(tried(() => bench.answer("names")), await Bench.open({ undo: 65 }).catch(String), await Bench.open({ undo: -1 }).catch(String), tried(() => other.files.get(new Uint8Array(0)) === undefined));
console.log(JSON.stringify(told));
"""
        done = subprocess.run(["node", "--input-type=module", "-e", code % DIST.as_uri()], capture_output=True, text=True)
        self.assertEqual(done.stderr, "")
        first, refused, blank, *rest = json.loads(done.stdout)
        self.assertEqual(first, {"accepted": True, "code": "", "meaning": "", "text": "ok a <i4 (6,) new"})
        self.assertEqual(refused, {"accepted": False, "code": "E11", "meaning": "index out of range", "text": "no E11 index out of range"})
        self.assertEqual(blank, {"accepted": True, "code": "", "meaning": "", "text": ""})
        self.assertEqual(rest[:7], ["E06", "ok save 152", ["x.npy", "y.npy"], False, True, "ok c <i4 (6,) new rest 0", "no E01 line too long"])
        self.assertEqual(rest[7:9], [300 * 602 + 300, "no E02 byte not allowed"])
        self.assertEqual(rest[9:], ["Error: the bench is closed", *["RangeError: undo is a number from 0 to 64"] * 2, True])

    def test_a_script(self):
        """What the page asks of its worker: a script runs from the changed line on; where the second bench has no room, replies go on without
        pictures; a stack that overflows is told of, and the next change begins anew; a file without room is E40, and the script goes on."""
        code = """
import { readFileSync } from "node:fs";
import { Script } from "%s/page/script.mjs";
const program = await WebAssembly.compile(readFileSync(new URL("%s/dist/bench.wasm"))), ran = [], script = new Script(program, JSON.parse(readFileSync(0, "utf8")), 16, line => ran.push(line)), told = [];
const seen = (line, ...more) => { const { reply, words, pictures } = script.view(line, 600, false, ...more); return [reply.text, words, pictures.length > 0]; };
await script.run(0, ["a = arange <i4 0 3 1", "b = a[1:]", "set b[0] = 7", "print a"]);
told.push(seen(3), script.view(2, 600, false, true).cells[0].rows[1], script.light(2, 1, 4), script.telling(), ran.splice(0));
await script.run(2, ["set b[1] = 4", "print a"]);
ran.splice(0);
await script.run(2, ["set b[1] = 5", "print a"]);
told.push(seen(3), ran.splice(0), (await script.run(4, ["names"], 4)).count, ran.splice(0));
await script.run(4, ["big = zeros <i8 (10000000)", "print a"]);
const grown = script.calls.memory.buffer.byteLength;
await script.run(4, ["set a[0] = 8", "print a"]);
told.push(grown > 80_000_000, script.calls.memory.buffer.byteLength < 10_000_000, seen(5));
script.trace.second.answer = () => ({ accepted: false, code: "E40", meaning: "out of memory", text: "no E40 out of memory" });
await script.run(4, ["set a[0] = 9", "print a"]);
told.push(seen(4), seen(5).slice(0, 2));
script.trace.step = () => { throw new WebAssembly.RuntimeError("unreachable"); };
told.push((await script.run(6, ["names"])).fault, (await script.run(6, ["print b"])).fault, seen(6)[0]);
script.trace.second.files.set = () => { throw new Error("out of memory"); };
await script.run(7, ['save a "a.npy"', "print a"]);
told.push(seen(7).slice(0, 2), seen(8)[0], script.file("a.npy").length);
console.log(JSON.stringify(told));
"""
        done = subprocess.run(["node", "--input-type=module", "-e", code % (TOP.as_uri(), TOP.as_uri())], input=build.tables(), capture_output=True, text=True)
        self.assertEqual(done.stderr, "")
        blind = "There is no room left to draw the memory of this line."
        self.assertEqual(json.loads(done.stdout), [
            ["[0 7 2]", "Nothing changes.", True], [1, 4, "7", "1", "", "a[1], b[0]"], "Byte 4 of buffer 1 (07 00 00 00), before 1: a[1] is 7, b[0] is 7", 2, [0, 1, 2, 3],
            ["[0 1 5]", "Nothing changes.", True], [2, 3], 4, [], True, True, ["[8 1 5]", "Nothing changes.", True], ["ok set 1", blind, True], ["[9 1 5]", blind],
            "The program stopped in line 7 (its stack overflowed). It starts again with the next change of the script.", "", "[1 5]",
            ["ok save 140", blind], "[9 1 5]", 140])

    def test_heap(self):
        """Random calls, a million with BENCH_TESTS=all: nothing overlaps, and all is aligned."""
        done = subprocess.run(["node", TRIALS / "page_heap.mjs", str(share(100_000, 1_000_000))], capture_output=True, text=True)
        self.assertEqual((done.returncode, done.stderr), (0, ""), done.stdout)

    @unittest.skipUnless(shutil.which("cc"), "the C compiler is not installed")
    def test_wide_numbers(self):
        names = {"__ashlti3": "shl", "__lshrti3": "shr", "__multi3": "mul", "__udivti3": "div"}
        with tempfile.TemporaryDirectory() as folder:
            made = pathlib.Path(folder, "wide")
            subprocess.run(["cc", "-O2", *(f"-D{name}=wide_{short}" for name, short in names.items()), TRIALS / "wide_calls.c", TOP / "page/wide.c", "-o", made], check=True)
            self.assertEqual(subprocess.run([made, str(share(300_000, 3_000_000))], capture_output=True, text=True).stdout, "")

    @unittest.skipUnless(share("", "all"), "4 GB of memory are taken with BENCH_TESTS=all")
    def test_memory(self):
        """At 4 GB a line is refused for want of memory, and the bench goes on."""
        lines = [*(f"a{k} = zeros <i8 (16777216)".encode() for k in range(40)), b"b = arange <i4 0 3 1", b"print b"]
        [(replies, _)] = told([(lines, {}, 0)])
        self.assertIn("no E40 out of memory", replies)
        self.assertEqual(replies[-2:], ["ok b <i4 (3,) new", "[0 1 2]"])


# All lines have run, and the answers stand beside those in sight.
RAN = "!bench.isRunning && bench.count === bench.lines.length && bench.lines.join('\\n') === script.value.replace(/\\n$/, '') && [...document.querySelectorAll('#shown .l')].every(row => row.querySelector('.r') || /^[\\s\\u200b]*(#|$)/.test(row.textContent))"
TYPED = """a = arange <i4 0 5 1
b = a[::-1]
set b[1:] = b[:-1]
print a
c = b[9]
d = reshape a (2,3"""
CONTRAST = """(() => {
  const canvas = document.createElement("canvas").getContext("2d", { willReadFrequently: true }), put = document.body.appendChild(document.createElement("span")), { style } = put;
  const light = text => { canvas.fillStyle = text; canvas.fillRect(0, 0, 1, 1); return [...canvas.getImageData(0, 0, 1, 1).data].slice(0, 3).map(c => (c /= 255, c <= .03928 ? c / 12.92 : ((c + .055) / 1.055) ** 2.4)).reduce((sum, c, k) => sum + c * [.2126, .7152, .0722][k], 0); };
  const of = (name, look = "") => (put.className = look, style.color = `var(--${name})`, light(getComputedStyle(put).color)), ratio = (a, b) => (Math.max(a, b) + .05) / (Math.min(a, b) + .05), page = of("page");
  const named = ["ink", "dim", "blue", "green", "red", "violet"].map(name => [name, ratio(of(name), page)]), hues = [...Array(64).keys()].map(k => [`h${k}`, ratio(of("c", `h${k}`), page)]);
  return [...named, ...hues, ["ink on mark", ratio(of("ink"), of("mark"))], ["ink on wrote", ratio(of("ink"), of("wrote"))]];
})()"""
UNNAMED = """[...document.querySelectorAll("button, input, select, textarea, [role=group], section, a")].filter(each => !each.hidden && !each.getAttribute("aria-label") && !each.labels?.length && !each.textContent.trim()).map(each => each.outerHTML.slice(0, 80))"""
BESIDE = """[...document.querySelectorAll("#shown .l")].map(line => line.querySelector(".r")?.textContent ?? "")"""
VALUES = """[...document.querySelectorAll("#pictures g.now")].map(row => [...row.querySelectorAll("text")].slice(1).map(text => text.textContent))"""


class InBrowser:
    """The page in a browser that shows no window, opened from a file: tools/test_browsers.py has the browsers."""

    def page(self, uri=PAGE.as_uri(), **look):
        self.browser.faults.clear()
        page = self.browser.open(uri, **look)
        self.addCleanup(page.close)
        self.addCleanup(page.ask, "localStorage.clear()")  # (else the next page begins with the script of this one)
        page.wait("document.body?.dataset.ran")
        return page

    def typed(self, page, text):
        """Writes a script in the place of the one that is there."""
        page.ask("script.focus(), script.select()")
        before = page.ask("document.body.dataset.ran")
        page.type(text)
        page.wait(f"document.body.dataset.ran !== '{before}' && ({RAN})")
        return page

    def test_a_script(self):
        """Replies beside the lines, a refusal in place with its hint, the picture of the line."""
        page = self.typed(self.page(), TYPED)
        self.assertEqual(page.ask("script.value"), TYPED)
        beside = page.ask(BESIDE)
        self.assertRegex(beside.pop(4), r"^E11 index out of range: axis 0 of b has length 5: 9 is outside, -5 to 4 are within$")
        self.assertEqual(beside, ["ok a <i4 (5,) new", "ok b <i4 (5,) view", "ok set 4", "[1 2 3 4 4]", "E03 syntax: expected `,` or `)`"])
        self.assertEqual(page.ask("[line.textContent, reply.textContent, hint.textContent]"), ["Line 6: d = reshape a (2,3", "no E03 syntax", "Expected `,` or `)`"])
        page.key("ArrowUp")
        page.wait("line.textContent.startsWith('Line 5')")
        self.assertRegex(page.ask("hint.textContent"), r"^Axis 0 of b has length 5: 9 is outside")
        page.key("ArrowUp"), page.key("ArrowUp")
        page.wait("line.textContent.startsWith('Line 3')")
        self.assertEqual(page.ask(VALUES), [["1", "2", "3", "4", "4"]])
        self.assertEqual(page.ask("[words.textContent, document.querySelectorAll('#pictures path').length]"), ["4 values in buffer 1 change, seen by a and b. 4 values moved.", 4])
        self.assertEqual(self.browser.faults, [])

    def test_keyboard(self):
        """Everything is reached without a mouse: lines, words, cells, the slider."""
        page = self.typed(self.page(), "a = arange <i4 0 3 1\nb = tra")
        page.key("Tab")
        self.assertEqual(page.ask("script.value"), "a = arange <i4 0 3 1\nb = transpose ")
        page.wait("offers.textContent.includes('the name of an array')")
        page.type("a\nset b[0] = 7")
        page.wait(f"bench.lines.length === 3 && ({RAN})")
        page.key("Escape"), page.key("Tab")
        self.assertNotEqual(page.ask("document.activeElement.id"), "script")
        page.ask("slider.focus()")
        page.key("ArrowLeft")
        page.wait("line.textContent.startsWith('Line 2')")
        page.ask("on.click(), pictures.focus()")
        page.wait("document.body.dataset.drawn === '3'")
        page.key("ArrowRight")
        page.wait("lit.textContent === 'Byte 0 of buffer 1 (07 00 00 00), before 0: a[0] is 7, b[0] is 7'")
        page.key("ArrowRight")
        page.wait("lit.textContent === 'Byte 4 of buffer 1 (01 00 00 00): a[1] is 1, b[1] is 1'")
        self.assertEqual(page.ask("document.querySelectorAll('#pictures .lit').length"), 5)
        page.ask("document.activeElement.blur()")
        page.key("ArrowUp")
        page.wait("line.textContent.startsWith('Line 2')")

    def test_pointing(self):
        """A cell of a strip or a grid, by mouse or finger, lights up every cell of its byte."""
        page = self.typed(self.page(), "a = arange <i2 0 6 1\nm = reshape a (2,3)\nt = transpose m")
        at = "(() => { const box = [...document.querySelectorAll('#pictures %s')].at(-1).getBoundingClientRect(); return [box.x + box.width / 2, box.y + box.height / 2]; })()"
        page.point(*page.ask(at % '.grid [data-at="6"]'))
        page.wait("lit.textContent")
        self.assertEqual(page.ask("lit.textContent"), "Byte 6 of buffer 1 (03 00): a[3] is 3, m[1,0] is 3, t[0,1] is 3")
        self.assertEqual(sorted(page.ask("[...document.querySelectorAll('#pictures .lit + text')].map(text => text.textContent)")), ["3", "3", "3", "6", "[0,1]", "[1,0]", "[3]"])
        page = self.typed(page, "r = zeros T{>i:x:2xh:y:} (2)\ny = field r \"y\"\nset r[1] = (258, 3)")
        for place, told in (('.now [data-at="8"]', "Byte 8 of buffer 1 (00 00 01 02), before 0: r[1] is (258, 3)"), ('.name [data-at="14"]', "Byte 14 of buffer 1 (00 03), before 0: r[1] is (258, 3), y[1] is 3")):
            page.point(*page.ask(at % place))
            page.wait(f"lit.textContent === {json.dumps(told)}")

    def test_files(self):
        """A file that is dropped is loaded; what is saved is a link."""
        with tempfile.TemporaryDirectory() as folder, Session(PROGRAM, dir=folder) as bench:
            bench.run(["x = arange <i8 0 4 1", 'save x "x.npy"'])
            data = pathlib.Path(folder, "x.npy").read_bytes()
            page = self.typed(self.page(folder=folder), 'y = load "x.npy"\nset y[0] = 9\nsave y "y.npy"')
            self.assertEqual(page.ask(BESIDE)[0], "E34 no such file: there are no files: Open files, or drop them on the page")
            page.ask(f"(() => {{ const held = new DataTransfer(); held.items.add(new File([Uint8Array.from(atob('{coded(data)}'), c => c.charCodeAt(0))], 'x.npy')); dispatchEvent(new DragEvent('drop', {{ dataTransfer: held }})); }})()")
            page.wait("bench.saved.length && document.querySelectorAll('#files .saved').length")
            page.ask("document.querySelector('#files .saved').click()")
            made, end = pathlib.Path(folder, "y.npy"), time.monotonic() + PATIENT
            while not (made.is_file() and made.stat().st_size) and time.monotonic() < end:  # (Firefox makes an empty file first)
                time.sleep(0.05)
            bench.run(['y = load "x.npy"', "set y[0] = 9", 'save y "z.npy"'])
            self.assertEqual(made.read_bytes(), pathlib.Path(folder, "z.npy").read_bytes())

    def test_links(self):
        """A link carries the script and the line; a long one is told of; `#2` is a line."""
        page = self.typed(self.page(), TYPED)
        page.ask("navigator.clipboard.writeText = async text => { window.copied = text; }")
        page.ask("link.click()")
        link = page.wait("window.copied")
        other = self.page(link)
        self.assertEqual(other.ask("[script.value, line.textContent]"), [TYPED, "Line 6: d = reshape a (2,3"])
        page.ask("numpy.click()")
        page.wait("window.copied.startsWith('import')")
        self.assertEqual(page.ask("window.copied").split("\n")[:4], ["import numpy as np", 'a = np.arange(0, 5, 1, dtype="<i4")', "b = a[::-1]", "b[1:] = b[:-1].copy()"])
        rng = random.Random(1)
        self.typed(page, "\n".join(f"a{rng.random()} = {rng.random()}" for _ in range(700)))
        page.ask("link.click()")
        page.wait("note.textContent.includes('8 KB')")
        self.assertTrue(self.page(f"{PAGE.as_uri()}#3").ask("line.textContent").startswith("Line 3"))

    def test_links_that_are_bad_or_long(self):
        """A cut link says so; a script that might run long is shown and waits; one of more than a megabyte is not opened."""
        def link(text, cut=None):
            packed = zlib.compressobj(9, zlib.DEFLATED, -15)
            return f"{PAGE.as_uri()}#script={base64.urlsafe_b64encode(packed.compress(text) + packed.flush()).decode().rstrip('=')[:cut]}&line=1"

        page = self.page(link(TYPED.encode(), 30))
        self.assertIn("cut or damaged", page.ask("note.textContent"))
        page = self.page(link(b"a = zeros |u1 (1)\n" * 200_000))
        self.assertIn("longer than a megabyte", page.ask("note.textContent"))
        for text in (b"a = zeros <i8 (16777216)\nprint a\n", b"a = zeros <i8 (" + b",".join([b"2"] * 24) + b")\n", b"names\n" * 300):
            page = self.browser.open(link(text))
            self.addCleanup(page.close)
            page.wait("document.getElementById('words')?.textContent.startsWith('This script came with a link')")
            self.assertEqual(page.ask("[script.value, bench.count]"), [text.decode(), 0])
        page.ask("words.querySelector('button').click()")
        page.wait("bench.count === 300")

    def test_work_is_kept(self):
        """A script survives a reload; an example that takes its place can be taken back, by the button and by Ctrl-Z; it can be saved."""
        with tempfile.TemporaryDirectory() as folder:
            page = self.typed(self.page(folder=folder), TYPED)
            page.ask("window.old = 1, setTimeout(() => location.reload())")
            time.sleep(1)
            page.wait("!window.old && document.body?.dataset.ran")
            self.assertEqual(page.ask("script.value"), TYPED)
            for back in ("note.querySelector('button').click()", "(script.focus(), document.execCommand('undo'))"):
                page.ask("examples.value = 'views', examples.dispatchEvent(new Event('change'))")
                page.wait("script.value.includes('a[')")
                page.ask(back)
                self.assertEqual(page.ask("script.value"), TYPED)
            page.ask("keep.click()")
            made, end = pathlib.Path(folder, "script.bench"), time.monotonic() + PATIENT
            while not (made.is_file() and made.stat().st_size) and time.monotonic() < end:
                time.sleep(0.05)
            self.assertEqual(made.read_text(), TYPED)

    def test_names_of_files(self):
        """A file whose name the language cannot spell is offered under one that it can."""
        page = self.page()
        for name, spelt in (("my data.npy", "my_data.npy"), (".x.npy", "_x.npy"), ("é.npy", "e_.npy"), ("a" * 80 + ".npy", "a" * 60 + ".npy")):
            page.ask(f"(() => {{ const held = new DataTransfer(); held.items.add(new File(['x'], {json.dumps(name)})); dispatchEvent(new DragEvent('drop', {{ dataTransfer: held }})); }})()")
            page.wait(f"note.textContent.includes({json.dumps(f'load {chr(34)}{spelt}{chr(34)} reads it')})")

    def test_lines_of_numpy(self):
        """A line of NumPy is answered with lines of the language, which a button or Tab puts in its place; a refusal with its numbers."""
        page = self.typed(self.page(), "a = arange <i4 0 6 1\nx = a[a > 3]")
        page.wait("!take.hidden")
        self.assertEqual(page.ask("[take.querySelector('pre').textContent, document.querySelectorAll('#shown .r')[1].textContent]"),
                         ["t = gt a 3\nx = a[t]", "E03 syntax: write t = gt a 3; x = a[t]"])
        page.ask("take.querySelector('button').click()")
        page.wait(f"script.value.endsWith('\\nt = gt a 3\\nx = a[t]') && ({RAN})")
        page.type("\na[9] = 1")
        page.wait("hint.textContent.startsWith('`set a[9] = 1` is then E11: axis 0 of a has length 6: 9 is outside')")
        self.assertTrue(page.ask("take.hidden"))
        self.typed(page, "a = arange <i4 0 6 1\na += 1")
        page.wait("take.textContent.includes('upd a[...] add 1')")
        page.key("Tab")
        page.wait(f"script.value === 'a = arange <i4 0 6 1\\nupd a[...] add 1' && ({RAN})")
        for line, hint in (("m = reshape a (4,-1)", "a is <i4 (6,): 6 items, and 4 does not divide that"), ("set a[:2] = a[:3]", "a[:2] has shape (2,), a[:3] has shape (3,): aligned"),
                           ("b = a[6]", "axis 0 of a has length 6: 6 is outside, -6 to 5 are within"), ("x = 1.5", "There are no floats"),
                           ("x = a[1]", "A view of one item; in NumPy it is a copy (`copy x C`)")):
            self.typed(page, f"a = arange <i4 0 6 1\n{line}")
            page.wait(f"hint.textContent.toLowerCase().startsWith({json.dumps(hint.lower())})")
        self.assertEqual(self.browser.faults, [])

    def test_records_and_a_narrow_page(self):
        """Forty records fit a screen; at 390 pixels every button is in reach, and a printed row is one line."""
        records = " ".join(f"({1_700_000_000 + k},{k * 37 % 700 - 300},{k * 11 % 256})" for k in range(40))
        script = "\n".join([f"s = array T{{<I:t:<h:temp:B:flags:}} (40) {records}", "head = s[:16]", 'temp = field s "temp"', "set temp[3] = 5"])
        page = self.typed(self.page(), script)
        page.wait("document.body.dataset.drawn === '4'")
        self.assertLess(page.ask("pictures.getBoundingClientRect().bottom"), 900)
        self.assertEqual(page.ask("[...document.querySelectorAll('#pictures .x + text')].map(text => text.textContent)"), ["-189→5", "[3]", "[3]", "[3]"])
        page = self.typed(self.page(width=390, height=844), "m = arange <i8 1000000 1000060 1\nm = reshape m (3,20)\nprint m")
        page.wait("reply.textContent.startsWith('[[1000000')")
        self.assertEqual(page.ask("[...document.querySelectorAll('#bar button, #bar select')].filter(each => { const { left, right, width } = each.getBoundingClientRect(); return left < 0 || right > 390 || !width; }).length"), 0)
        self.assertAlmostEqual(page.ask("reply.scrollHeight / parseFloat(getComputedStyle(reply).lineHeight)"), 3, 0)

    def test_without_a_worker(self):
        """Where a browser makes no worker, the script runs in the page."""
        with tempfile.TemporaryDirectory() as folder:
            path = pathlib.Path(folder, "bench.html")
            path.write_text(PAGE.read_text(encoding="utf-8").replace("worker-src blob:", "worker-src 'none'"), encoding="utf-8")
            page = self.typed(self.page(path.as_uri()), "a = arange <i4 0 3 1\nprint a")
            self.assertEqual(page.ask("[reply.textContent, bench.worker]"), ["[0 1 2]", None])

    def test_colours_of_another_script(self):
        """Names have different colours, whatever they were called in the script before."""
        page = self.typed(self.page(), "m = arange <i4 0 6 1\nt = m[1:]")
        self.typed(page, "a = arange <i4 0 6 1\nm = a[1:]\nt = a[2:]")
        page.wait("document.body.dataset.drawn === '3' && document.querySelectorAll('#pictures g.name').length === 3")
        self.assertEqual(len(set(page.ask("[...document.querySelectorAll('#pictures g.name')].map(row => getComputedStyle(row.querySelector('rect')).fill)"))), 3)

    def test_a_long_line_is_stopped(self):
        """A line that runs long is named, and a button stops it: the lines before it are there again, and it waits."""
        long = "\n".join(["a = arange <i4 0 3 1", "s = full |S60000 (4000) b'x'", *["y = eq s s"] * 400, "print a"])
        page = self.typed(self.page(), "a = arange <i4 0 3 1")
        page.ask(f"script.value = {json.dumps(long)}, script.dispatchEvent(new Event('input'))")
        page.wait("!busy.hidden && bench.at > 1")
        self.assertRegex(page.ask("busy.textContent"), r"^Line \d+ of 403 is running\. Stop$")
        page.ask("document.querySelector('#stop').click()")
        page.wait("words.textContent.includes(' was stopped. The lines before it have run again. ') && !bench.isRunning && bench.count")
        line = page.ask("bench.count")
        self.assertTrue(page.ask("words.textContent").startswith(f"Line {line + 1} was stopped."))
        page.ask("script.setSelectionRange(0, 0), script.focus()")
        page.wait("reply.textContent === 'ok a <i4 (3,) new'")
        page.ask("script.setSelectionRange(script.value.indexOf('y = eq'), script.value.length)")
        page.type("print a")
        page.wait("reply.textContent === '[0 1 2]'")
        self.assertEqual(self.browser.faults, [])

    def test_many_lines(self):
        """A changed line of 10,000 is answered by itself and what follows it, without running the others again, and without writing them again."""
        page = self.page()
        lines = ["a = arange <i4 0 100 1", *(f"set a[{k % 100}] = {k}" if k % 25 == 0 else f"# {k}" for k in range(9998))]
        page.ask(f"script.value = {json.dumps(chr(10).join(lines))}, script.dispatchEvent(new Event('input'))")
        page.wait(f"bench.count === 9999 && ({RAN})")
        page.ask("window.ran = [], (heard => { bench.heard = function (data) { if (typeof data === 'number') window.ran.push(data); return heard.call(this, data); }; })(bench.heard)")
        page.ask("window.changes = 0, new MutationObserver(list => { window.changes += list.length; }).observe(shown, { childList: true, subtree: true, characterData: true })")
        page.ask("script.setRangeText('\\nprint a', script.value.length, script.value.length, 'end'), script.dispatchEvent(new Event('input'))")
        page.wait(f"bench.count === 10000 && ({RAN})")
        self.assertEqual(page.ask("window.ran"), [9999])
        self.assertLess(page.ask("window.changes"), 200)
        at = "script.value.indexOf('set a[50] = 9950')"
        page.ask(f"window.ran = [], script.setRangeText('1', {at} + 6, {at} + 7, 'end'), script.dispatchEvent(new Event('input'))")
        page.wait(f"bench.lines[9951] === 'set a[10] = 9950' && ({RAN})")
        self.assertLessEqual(page.ask("window.ran.length"), 1100)  # from the last memory that is kept
        self.assertLess(page.ask("document.querySelectorAll('#shown .l').length"), 200)
        page.ask("window.runs = 0, (run => { bench.run = function (...given) { window.runs += 1; return run.apply(this, given); }; })(bench.run)")
        self.typed(page, "\n".join(lines[:1000]))
        self.assertEqual(page.ask("window.runs"), 1)  # a paste

    def test_very_many_lines(self):
        """Each command of 20,000 lines, or of 100,000, runs once; the lines in sight alone are in the page, and one at the end is answered by itself."""
        count = share(20_000, 100_000)
        page = self.page()
        page.ask(f"script.value = ['a = arange <i4 0 9 1', ...Array.from({{ length: {count - 1} }}, (_, k) => k % 100 ? `# ${{k}}` : `set a[0] = ${{k}}`)].join('\\n'), script.dispatchEvent(new Event('input'))")
        page.ask("window.ran = 0, (heard => { bench.heard = function (data) { window.ran += typeof data === 'number'; return heard.call(this, data); }; })(bench.heard)")
        page.wait(f"bench.count === {count} && !bench.isRunning")
        self.assertEqual(page.ask("window.ran"), 1 + count // 100)
        page.ask("window.ran = 0, script.setRangeText('\\nprint a', script.value.length, script.value.length, 'end'), script.dispatchEvent(new Event('input'))")
        page.wait(f"reply.textContent.startsWith('[{count - 100} ')")
        self.assertEqual(page.ask("window.ran"), 1)
        self.assertLess(page.ask("document.querySelectorAll('#shown .l').length"), 200)

    def test_a_page_is_saved(self):
        """The page saves itself with the script and its files in it; from a disk, a copied link says that it is of no use elsewhere."""
        with tempfile.TemporaryDirectory() as folder:
            page = self.typed(self.page(folder=folder), TYPED + " # </script>")
            page.ask("(() => { const held = new DataTransfer(); held.items.add(new File([new Uint8Array([1, 200])], 'x.npy')); dispatchEvent(new DragEvent('drop', { dataTransfer: held })); })()")
            page.wait("document.querySelectorAll('#files button').length")
            page.ask("navigator.clipboard.writeText = async text => { window.copied = text; }")
            page.ask("link.click()")
            page.wait("window.copied && note.textContent.includes('on this computer only')")
            page.ask("note.querySelector('button').click()")
            page.ask("script.dispatchEvent(new Event('input'))")  # what was copied may be the script no more
            self.assertEqual(page.ask("note.textContent"), "")
            made, end = pathlib.Path(folder, "script.html"), time.monotonic() + PATIENT
            while not (made.is_file() and made.stat().st_size > 400_000) and time.monotonic() < end:
                time.sleep(0.05)
            self.assertEqual(json.loads(pages.GIVEN.search(made.read_text())[0]),
                             {"title": "script.bench", "script": TYPED + " # </script>", "files": {"x.npy": "Acg="}, "undo": 16, "line": 6})
            self.assertEqual(self.page(made.as_uri()).ask("[script.value, document.title]"), [TYPED + " # </script>", "script.bench - bench"])

    def test_widths_and_colours(self):
        """At 390 and 1280 pixels nothing is wider than the page; names and contrast, light and dark. (A short run has each in one browser.)"""
        for width, is_dark in self.LOOKS:
            page = self.page(width=width, height=844, is_dark=is_dark)
            names = page.ask("[...examples.options].map(option => option.value).filter(Boolean)")
            for name in names[:1] if is_dark else names:
                page.ask(f"examples.value = '{name}', examples.dispatchEvent(new Event('change'))")
                page.wait(RAN)
                for line in range(page.ask("bench.count")):
                    page.ask(f"slider.value = {line}, slider.dispatchEvent(new Event('input'))")
                    page.wait(f"document.body.dataset.drawn === '{line + 1}'")
                    self.assertLessEqual(page.ask("document.documentElement.scrollWidth"), width, (name, line))
            self.assertEqual([(name, ratio) for name, ratio in page.ask(CONTRAST) if ratio < 4.5], [])
            self.assertEqual(page.ask(UNNAMED), [])
            if width == 390:  # the reply is in sight, and the picture begins on the first screen
                self.assertLess(page.ask("reply.getBoundingClientRect().bottom"), 844)
                self.assertLess(page.ask("pictures.getBoundingClientRect().top"), 600)
        self.assertEqual(self.browser.faults, [])

    def seconds_of_a_key(self, page, place):
        """The processor time from a blank that is typed at a place of the script to the picture: the least of some, of all of the browser."""
        took = []
        for _ in range(share(2, 5)):
            begun = self.browser.processor_seconds()
            page.ask(f"""(async () => {{ const ran = document.body.dataset.ran; script.setRangeText(' ', {place}, {place}, 'end'); script.dispatchEvent(new Event('input'));
                         while (document.body.dataset.ran === ran) await new Promise(done => setTimeout(done, 5)); }})()""")
            took.append(self.browser.processor_seconds() - begun)
        return min(took)

    def test_time(self):
        """From a key to the picture it takes a few tenths of a second in the examples; long scripts and arrays stay usable."""
        page = self.page()
        for name in page.ask("[...examples.options].map(option => option.value).filter(Boolean)"):
            page.ask(f"examples.value = '{name}', examples.dispatchEvent(new Event('change'))")
            page.wait(RAN)
            self.assertLess(self.seconds_of_a_key(page, "script.value.length - 1"), 0.3, name)
        self.typed(page, "\n".join(["a = arange <i4 0 1000000 1", *(f"set a[{k * 997}:{k * 997 + 3}] = {k}" for k in range(1000)), "print a"][:-1]))
        self.assertLess(self.seconds_of_a_key(page, "script.value.length"), 3)
        self.assertIn("999", sum(page.ask(VALUES), []))

    def test_nothing_is_sent(self):
        page = self.page()
        self.assertEqual(page.ask("fetch('https://example.com/').then(() => 'sent', () => 'refused')"), "refused")
        page.ask("(() => { setTimeout('window.made = 1'); document.body.append(Object.assign(document.createElement('script'), { textContent: 'window.made = 2' })); })()")
        self.assertEqual(page.ask("new Promise(done => setTimeout(() => done(window.made ?? 'refused'), 50))"), "refused")

    def test_drawn_pages(self):
        """`bench-tool draw` fills the page: every kind of script opens, and each line is drawn, without a fault. (A short run has each in one browser.)"""
        from test_draw import SCRIPTS
        with tempfile.TemporaryDirectory() as folder:
            for name, lines in itertools.islice(SCRIPTS.items(), *self.DRAWN):
                path = pathlib.Path(folder, f"{name}.html")
                path.write_text(pages.drawn(f"{name} <&>", [line.encode() for line in lines], argparse.Namespace(undo=16, dir=folder, line=2)))
                for width in self.WIDTHS:
                    page = self.page(path.as_uri(), width=width)
                    self.assertEqual(page.ask("[script.value, document.title, bench.fault]"), ["\n".join(lines), f"{name} <&> - bench", ""])
                    self.assertTrue(page.ask("line.textContent").startswith(f"Line {min(2, max(1, len(lines)))}:"), name)
                    for line in range(len(lines)):
                        page.ask(f"slider.value = {line}, slider.dispatchEvent(new Event('input'))")
                        page.wait(f"document.body.dataset.drawn === '{line + 1}'")
                        self.assertLessEqual(page.ask("document.documentElement.scrollWidth"), width, (name, line))
                    self.assertEqual(self.browser.faults, [], name)


if __name__ == "__main__":
    unittest.main()
