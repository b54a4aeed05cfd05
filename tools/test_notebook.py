"""The extension for notebooks: `%%bench`, `%bench`, `session`, pictures. Without IPython by a stand-in for its shell, and with it headless."""
import base64
import contextlib
import html
import io
import json
import os
import pathlib
import re
import shutil
import subprocess
import tempfile
import unittest
from unittest import mock

from trials import browsers
from trials.companion_trials import COMPANION, PATIENT, TOP, InFolder, needs_program, numpy_or_none, works
from trials.notebooks import Notebook
import bench_tool
from bench_tool import BenchError, Refused, Session, page
from test_draw import needs_node

np = numpy_or_none()
EXAMPLE = json.loads((TOP / "examples/notebook.ipynb").read_text())
PYTHON = "/usr/bin/python3"  # Debian's, which has its packages
HAS_JUPYTER = works(PYTHON, "-c", "import nbconvert, ipykernel, numpy, nbclient; nbclient.NotebookClient.on_cell_executed")
needs_jupyter = unittest.skipUnless(HAS_JUPYTER, "there is no ipykernel and no nbconvert with nbclient 0.7 or later")
# Runs a notebook in two kernels, of which the second has no Node, and there cells behind it. It leaves what is shown as files of its folder, and
# prints what the cells put into the next one.
RUNS = """
import json, os, sys
import nbformat
from nbconvert import HTMLExporter
from nbconvert.preprocessors import ExecutePreprocessor

def run(name, *cells):
    notebook, put = nbformat.read(sys.argv[1], 4), []
    for cell in cells:
        notebook.cells.append(nbformat.from_dict({"cell_type": "code", "metadata": {}, "execution_count": None, "outputs": [], "source": cell}))
    heard = lambda execute_reply, **_: put.extend(execute_reply["content"]["payload"])
    ExecutePreprocessor(timeout=600, kernel_name="python3", on_cell_executed=heard).preprocess(notebook, {})
    nbformat.write(notebook, f"{name}.ipynb")
    with open(f"{name}.html", "w", encoding="utf-8") as page:
        page.write(HTMLExporter().from_notebook_node(notebook)[0])
    return put

run("with_node")
os.environ["PATH"] = os.getcwd()
print(json.dumps([[each["text"], each["replace"]] for each in run("without_node", *json.loads(sys.argv[2]))]))
"""
# The last two draw a picture each.
NEXT = ["%load_ext bench_tool", "%%bench\na = arange <i4 0 4 1\na[0] = 9\na", "%bench --take"]
WORDS = re.compile('<desc id="words">(.*?)</desc>')


def source(cell):
    return "".join(cell["source"])


def printed(cell):
    """What a cell of a file prints, and the value that it shows as a text."""
    texts = [output.get("text") or output.get("data", {}).get("text/plain", []) for output in cell["outputs"] if output["output_type"] in ("stream", "execute_result")]
    return "".join("".join(text) for text in texts)


def pictures(cells):
    """The data of what is displayed, of all cells."""
    return [output["data"] for cell in cells for output in cell.get("outputs", []) if "data" in output and "text/html" in output["data"]]


@needs_program
class Cells(InFolder):
    def notebook(self, draws=False):
        before = os.getcwd()
        os.chdir(self.folder)
        self.addCleanup(os.chdir, before)
        notebook = Notebook(draws)
        self.addCleanup(notebook.close)
        return notebook

    def test_replies_and_hints(self):
        notebook = self.notebook()
        self.assertEqual(notebook.cell("%%bench\ns = zeros <i2 (4)\nhead = s[:2]\n\n# a comment\nset head[1] = 5\ns"),
                         "ok s <i2 (4,) new\nok head <i2 (2,) view\nok set 1\n    seen by s and head\n[0 5 0 0]\n")
        self.assertEqual(notebook.cell("%%bench\nb = s[9]\nprint q\ns"),
                         "no E11 index out of range: b = s[9]\n    axis 0 of s has length 4: 9 is outside, -4 to 3 are within\n"
                         "no E06 unknown name: print q\n    q is not bound\n    names: s head\n[0 5 0 0]\n")
        self.assertIn("E18 bad reshape", notebook.cell("%bench help reshape"))
        self.assertIn("--take or nothing", notebook.cell("%%bench --what\ns = zeros <i2 (1)"))
        self.assertEqual(notebook.cell("%bench x = s[1]"), "ok x <i2 () view\n    a view of one item; in NumPy it is a copy (`copy x C`)\n")
        self.assertEqual(notebook.cell("%bench info s"), "info s <i2 (4,) strides (2,) at 0 order CF write yes\n")

    def test_offered_lines(self):
        """They are put into the next cell with the lines behind them, or run by `--take`, there or later."""
        notebook = self.notebook()
        said = notebook.cell("%%bench\na = np.arange(4, dtype='i4')\na[:2] += 1\na")
        self.assertEqual(said, "no E03 syntax: a = np.arange(4, dtype='i4')\n    write: a = arange <i4 0 4 1\n"
                               "    (the next cell has them, and the rest of this one; %bench --take runs the same)\n")
        self.assertEqual(notebook.next, "%%bench\na = arange <i4 0 4 1\na[:2] += 1\na")
        self.assertEqual(notebook.cell("%bench --take"), "ok a <i4 (4,) new\nbench> upd a[:2] add 1\nok upd 2\n    seen by a only\n[1 2 2 3]\n")
        self.assertEqual((notebook.next, notebook.cell("%bench --take")), (None, ""))
        self.assertEqual(notebook.cell("%%bench --take\nx = a[a > 1]\nx"), "bench> t = gt a 1\nok t |b1 (4,) new\nbench> x = a[t]\nok x <i4 (3,) copy\n[2 2 3]\n")
        self.assertIn("there are no floats", notebook.cell("%%bench --take\ny = a / 2"))
        self.assertEqual(notebook.session_names(), ["a", "t", "x"])

    def test_long_arrays_are_cut(self):
        notebook = self.notebook()
        said = notebook.cell("%%bench\na = arange <i4 0 100000 1\na")
        self.assertLess(len(said), 400)
        self.assertIn('cut: session["a"] has all items', said)

    def test_files_of_the_folder(self):
        """`load` and `save` have the files of the notebook's folder."""
        notebook = self.notebook()
        self.assertEqual(notebook.cell('%%bench\na = arange |u1 0 3 1\nsave a "a.npy"\nb = load "a.npy"\nb'), "ok a |u1 (3,) new\nok save 131\nok b |u1 (3,) new rest 0\n[0 1 2]\n")
        self.assertEqual((self.folder / "a.npy").read_bytes()[-3:], b"\0\1\2")
        (self.folder / "c.npy").write_bytes((self.folder / "a.npy").read_bytes()[:-3] + b"\7\7\7")
        self.assertEqual(notebook.cell('%%bench\nc = load "c.npy"\nc'), "ok c |u1 (3,) new rest 0\n[7 7 7]\n")
        self.assertIn("no E34 no such file", notebook.cell('%bench d = load "d.npy"'))
        self.assertEqual(sorted(path.name for path in self.folder.iterdir()), ["a.npy", "c.npy"])

    def test_names_of_the_notebook(self):
        """`session` is not taken from a notebook that has one."""
        notebook = self.notebook()
        self.assertIsInstance(notebook.user_ns["session"], Session)
        notebook.user_ns["session"] = 5
        with contextlib.redirect_stdout(io.StringIO()) as said:
            bench_tool.load_ipython_extension(notebook)
        self.assertEqual((notebook.user_ns["session"], type(notebook.user_ns["bench_session"])), (5, Session))
        self.assertIn("the session is `bench_session`", said.getvalue())

    @unittest.skipUnless(np, "NumPy is not installed")
    def test_arrays(self):
        """They go in by `%bench x` and come out by `session["x"]`, as copies."""
        notebook = self.notebook()
        notebook.user_ns.update(np=np, x=np.arange(6).reshape(2, 3), y=[1, 2], z=np.ones(2), names=np.arange(2))
        self.assertEqual(notebook.cell("%bench x y"), "x <i8 (2, 3): a copy of the notebook's array\ny <i8 (2,): a copy of the notebook's array\n")
        self.assertEqual(notebook.cell("%%bench\nset x[0,0] = 9\n"), "ok set 1\n    seen by x only\n")
        self.assertEqual(notebook.cell("print(session['x'], x[0, 0])\nsession['w'] = x.T\nprint('w' in session, list(session))"), "[[9 1 2]\n [3 4 5]] 0\nTrue ['x', 'y', 'w']\n")
        self.assertIn("no E05", notebook.cell("%bench z"))
        self.assertIn("float", notebook.cell("%bench z"))
        self.assertEqual(notebook.cell("%bench names"), "names x y w\n")
        with self.assertRaises(KeyError):
            notebook.cell("session['nothing']")
        with self.assertRaises(Refused):
            notebook.cell("session['no name']")


@needs_program
class Drawings(InFolder):
    def drawn(self, bench, line=""):
        return WORDS.search(bench.draw(line)._repr_svg_())[1]

    @needs_node
    def test_the_last_change(self):
        """Or what another line shows, or would do; the picture stands in a document as an image with its words."""
        with Session() as bench:
            bench.run("a = arange <i4 0 6 1\nb = a[::2]\nset b[0] = 7\nprint a\nset a[9] = 1")
            drawing = bench.draw()
            self.assertEqual((repr(drawing), self.drawn(bench)), ("<picture of `set b[0] = 7`>", "1 value in buffer 1 changes, seen by a and b."))
            self.assertEqual(self.drawn(bench, "print b"), "Nothing changes.")
            self.assertEqual(self.drawn(bench, "del b"), "b is unbound.")
            self.assertEqual(bench.names(), ["a", "b"])
            image = re.fullmatch('<img src="data:image/svg\\+xml;base64,(.*?)" alt="(.*?)" style=".*">', drawing._repr_html_())
            self.assertEqual((base64.b64decode(image[1]).decode(), image[2]), (drawing._repr_svg_(), "1 value in buffer 1 changes, seen by a and b."))

    @needs_node
    def test_files_are_those_that_were_loaded(self):
        """Also where a file has changed since, and where an array came in from NumPy."""
        with Session() as bench:
            bench.batch(["a = arange |u1 0 3 1", 'save a "a.npy"', 'b = load "a.npy"', "set a[0] = 9", 'save a "a.npy"'])
            self.assertEqual(self.drawn(bench, "shares a b"), "Nothing changes.")
            self.assertIn(">b: |u1 (3,), strides (1,), at 0<", bench.draw("print b")._repr_svg_())
            self.assertNotIn(">9<", bench.draw("print b")._repr_svg_().partition("Buffer 1")[0])
            if np:
                for items in [4, 5], [6, 7]:
                    bench["x"] = np.array(items, "i4")
                svg = bench.draw()._repr_svg_()
                self.assertEqual((html.unescape(WORDS.search(svg)[1]), 'x = load &quot;x.npy&quot;' in svg, ">7<" in svg), ("x is now a new array in buffer 4. Buffer 3 is freed.", True, True))

    def test_when_there_is_none(self):
        with Session() as bench:
            self.assertRaisesRegex(BenchError, "no line has changed anything", bench.draw)
            bench.files["a.npy"] = b"\x93NUMPY\x01\x00v\x00" + b"{'descr': '|u1', 'fortran_order': False, 'shape': (12000000,), }".ljust(117) + b"\n" + bytes(12_000_000)
            bench.run('a = load "a.npy"\nb = load "a.npy"', check=True)
            self.assertEqual(bench.draw().line, 'b = load "a.npy"')
            bench.ask('c = load "a.npy"')
            self.assertRaisesRegex(BenchError, "the files of the session have more than", bench.draw)
        with Session() as bench:
            bench.batch(["a = zeros <i4 ()"] * 4_001)
            self.assertRaisesRegex(BenchError, "more than 4,000 lines", bench.draw)
        with Session(undo=60) as bench:
            bench.ask("a = zeros <i4 ()")
            self.assertRaisesRegex(BenchError, "56 changes, not 60", bench.draw)

    def test_without_node(self):
        """The browser draws, from a document that fetches nothing."""
        with mock.patch.object(page.shutil, "which", lambda _: None), Session() as bench:
            bench.run('r = zeros T{i:</script><img src=x>:} (2)\nset r[0] = (7,)', check=True)
            self.assertIsNone(bench.draw()._repr_svg_())
            frame = re.fullmatch('<iframe srcdoc="([^"]*)" title="([^"]*)" style="[^"]*"></iframe>', bench.draw()._repr_html_())
            document = html.unescape(frame[1])
            self.assertEqual((document.count("<script"), document.count("</script>"), html.unescape(frame[2])), (1, 1, "set r[0] = (7,)"))
            self.assertNotRegex(document.replace("http://www.w3.org/2000/svg", ""), "https?://")
            self.assertIn("default-src 'none'", document)


@needs_program
class Example(InFolder):
    @unittest.skipUnless(np, "NumPy is not installed")
    def test_it_prints_what_stands_there(self):
        before = os.getcwd()
        os.chdir(self.folder)
        self.addCleanup(os.chdir, before)
        notebook = Notebook()
        self.addCleanup(notebook.close)
        for cell in EXAMPLE["cells"]:
            if cell["cell_type"] == "code" and "session.draw" not in source(cell):
                self.assertEqual(notebook.cell(source(cell)), printed(cell), source(cell))

    def test_it_is_small(self):
        self.assertLess((TOP / "examples/notebook.ipynb").stat().st_size, 150_000)
        self.assertEqual([cell["execution_count"] for cell in EXAMPLE["cells"] if cell["cell_type"] == "code"], [*range(1, 1 + sum(cell["cell_type"] == "code" for cell in EXAMPLE["cells"]))])


@needs_program
@needs_jupyter
class InJupyter(unittest.TestCase):
    """The example in Jupyter's own kernel, run once for all of these."""

    OPENS = "kernels"

    @classmethod
    def setUpClass(cls):
        folder = tempfile.TemporaryDirectory()
        cls.addClassCleanup(folder.cleanup)
        cls.folder = pathlib.Path(folder.name)
        env = {**os.environ, "PYTHONPATH": str(COMPANION), "HOME": folder.name}
        words = [PYTHON, "-c", RUNS, TOP / "examples/notebook.ipynb", json.dumps(NEXT)]
        cls.ran = subprocess.run(words, capture_output=True, text=True, env=env, cwd=folder.name, timeout=PATIENT)

    def setUp(self):
        self.assertEqual(self.ran.returncode, 0, self.ran.stderr)

    def test_the_next_cell(self):
        """The kernel hands over the cell with the offered lines."""
        self.assertEqual(json.loads(self.ran.stdout), [["%%bench\nset a[0] = 9\na", False]])

    @needs_node
    def test_it_runs(self):
        """Its outputs are those that stand there."""
        made = json.loads((self.folder / "with_node.ipynb").read_text())
        for cell, kept in zip(made["cells"], EXAMPLE["cells"]):
            if cell["cell_type"] == "code":
                self.assertEqual(printed(cell), printed(kept), source(cell))
        self.assertEqual(pictures(made["cells"]), pictures(EXAMPLE["cells"]))

    @unittest.skipUnless(browsers.CHROMIUM, "chromium is not installed")
    def test_in_a_browser(self):
        """A browser shows the pictures; without Node it draws them itself, fetches nothing, and makes their frames as high as they are."""
        with browsers.Chromium() as browser:
            if shutil.which("node"):
                self.seen(browser, "with_node", 4, "img[src^=data]", "image => image.naturalWidth >= 720")
            self.seen(browser, "without_node", 4 + 2, "iframe[srcdoc]", "frame => frame.contentDocument.querySelector('svg desc') && parseInt(frame.style.height) > 100")

    def seen(self, browser, name, count, kind, ready):
        """The pictures, so many, are ready, and no error is reported but for the scripts of nbconvert's page that are not there."""
        tab = browser.open((self.folder / f"{name}.html").as_uri())
        tab.wait(f"document.readyState == 'complete' && (found => found.length == {count} && found.every({ready}))([...document.querySelectorAll('{kind}')])")
        self.assertEqual([fault for fault in browser.faults if "ERR_FILE_NOT_FOUND" not in fault], [])


if __name__ == "__main__":
    unittest.main()
