"""`draw SCRIPT`: the page of the bench with a script in it, which runs it and draws each of its lines; or one picture of it as SVG.

The page is bench.html, which the repository makes of its folder page/. A picture is drawn by the modules of that page, in Node.
"""
import argparse
import json
import re
import shutil
import subprocess
import sys
import tempfile
from base64 import b64encode
from contextlib import suppress
from pathlib import Path
from typing import Any, Iterator, Sequence

from . import whole
from .commands import Load
from .parsing import ParseError, parse
from .session import BenchError
from .terminal import lines_of, printable

HERE = Path(__file__).resolve()
PLACES = (HERE.with_name("dist") / "bench.html", HERE.parents[1] / "bench.html", HERE.parents[2] / "dist/bench.html")
MOST_UNDO = 56  # of the 64 states that a bench keeps, the others are for what is tried
MOST_FILES = 32 << 20  # bytes of files that go into a page
GIVEN = re.compile(r'(?<=<script type="application/json" id="given">)[^<]*')
MODULES = re.compile(r'<script type="module">(.*?)// ---- the page', re.S)
# Reads what is given and the program: in Node from standard input, in a browser from a constant before this text.
IN_NODE = """
const fs = await import("node:fs"), zlib = await import("node:zlib"), { given, program } = JSON.parse(fs.readFileSync(0, "utf8"));
const unpacked = zlib.gunzipSync(Uint8Array.from(atob(program), letter => letter.charCodeAt(0)));
"""
IN_BROWSER = """
const { given, program } = told, packed = new Blob([Uint8Array.from(atob(program), letter => letter.charCodeAt(0))]);
const unpacked = await new Response(packed.stream().pipeThrough(new DecompressionStream("gzip"))).arrayBuffer();
"""
# Runs the script. `given.puts` has the files that are stored before a line, by the line's number.
DRIVER = """
const calls = await load(unpacked);
function stored(bench, files) {
  for (const [name, text] of Object.entries(files)) bench.files.set(name, Uint8Array.from(atob(text), letter => letter.charCodeAt(0)));
  return bench;
}
const opened = undo => stored(new Bench(calls, undo), given.files);
function run(text, undo) {
  const trace = new Trace(opened, { undo, text }), moments = [];
  for (const line of text ? text.replace(/\\n$/, "").split("\\n") : []) {
    for (const bench of [trace.bench, trace.second]) stored(bench, given.puts?.[moments.length + 1] ?? {});
    moments.push(trace.step(line));
  }
  trace.close();
  return moments;
}
"""
PICTURE = "const moments = run(given.script, given.undo), last = moments.at(-1);\n" \
    "const drawn = picture(last.line, tablesOf(last, huesOf(moments)).tables, said(last));\n"
WRITTEN = "process.stdout.write(drawn);"
# A picture as a document of its own, which fetches nothing, and is as high in its frame as it has to be.
DOCUMENT = """<!DOCTYPE html><meta charset="utf-8"><meta http-equiv="Content-Security-Policy"
content="default-src 'none'; script-src 'unsafe-inline' 'wasm-unsafe-eval'; style-src 'unsafe-inline'">
<style>body{{margin:0}}svg{{display:block;max-width:100%;height:auto}}</style><script type="module">{code}
document.body.innerHTML = drawn;
if (frameElement) frameElement.style.height = `${{document.body.scrollHeight}}px`;
</script>"""


def form() -> str:
    """The page without a script."""
    found = next(filter(Path.is_file, PLACES), None)
    if found is None:
        raise BenchError("there is no bench.html: `make page` makes it")
    return found.read_text(encoding="utf-8")


def loaded(lines: Sequence[bytes]) -> Iterator[str]:
    """The names of the files that lines load."""
    for line in lines:
        with suppress(ParseError):
            if b"load" in line and isinstance(command := parse(line), Load):
                yield command.file


def given(title: str, lines: Sequence[bytes], words: argparse.Namespace) -> dict[str, Any]:
    """The data of the page: the script, and the files that it loads."""
    if words.undo > MOST_UNDO:
        raise BenchError(f"a script that is drawn may go back {MOST_UNDO} changes, not {words.undo}")
    paths = {name: path for name in sorted(set(loaded(lines))) if (path := Path(words.dir, name)).is_file()}
    if sum(path.stat().st_size for path in paths.values()) > MOST_FILES:
        raise BenchError(f"the files of the script have more than {MOST_FILES} bytes")
    files = {name: b64encode(path.read_bytes()).decode() for name, path in paths.items()}
    script = "\n".join(line.decode("utf-8", "replace") for line in lines)
    return {"title": title, "script": script, "files": files, "undo": words.undo, "line": getattr(words, "line", None) or 0}


def drawn(title: str, lines: Sequence[bytes], words: argparse.Namespace) -> str:
    """The page with some lines in it."""
    text = json.dumps(given(title, lines, words)).replace("<", "\\u003c")
    return GIVEN.sub(lambda _: text, form(), count=1)


def sources() -> tuple[str, str]:
    """The modules of the page that draw, as one text, and the packed program."""
    page = form()
    code, program = MODULES.search(page), re.search(r'id="program">([^<]*)', page)
    assert code and program
    return code[1], program[1]


def in_node(text: str, told: dict[str, Any]) -> str:
    """What Node returns for some data, with the modules of the page."""
    node = shutil.which("node")
    if node is None:
        raise BenchError("a picture needs Node; a page does not, and saves its pictures too")
    code, program = sources()
    with tempfile.TemporaryDirectory() as folder:
        file = Path(folder, "drawn.mjs")
        file.write_text(code + IN_NODE + DRIVER + text, encoding="utf-8")
        sent = json.dumps({"given": told, "program": program}).encode()
        done = subprocess.run([node, str(file)], input=sent, stdout=subprocess.PIPE, stderr=subprocess.PIPE)
    if done.returncode:
        raise BenchError(f"Node ended with status {done.returncode}: {done.stderr.decode(errors='replace').strip()[-400:]}")
    return done.stdout.decode()


def in_browser(told: dict[str, Any]) -> str:
    """A document in which a browser draws the picture of the last line."""
    code, program = sources()
    data = json.dumps({"given": told, "program": program}).replace("<", "\\u003c")
    return DOCUMENT.format(code=f"{code}const told = {data};{IN_BROWSER}{DRIVER}{PICTURE}")


def asked(text: str, lines: Sequence[bytes], words: argparse.Namespace) -> str:
    """What Node returns for a script, with the modules of the page."""
    return in_node(text, given("", lines, words))


def picture(lines: Sequence[bytes], words: argparse.Namespace) -> str:
    """A picture of the chosen line."""
    if not 1 <= (words.line or 0) <= len(lines):
        raise BenchError(f"--svg needs --line, 1 to {len(lines)}")
    return asked(PICTURE + WRITTEN, lines[:words.line], words)


def write(path: str, text: str) -> None:
    """Writes a page, whole or not at all."""
    with whole.replaced(path) as file:
        file.write(text.encode())


def draw(words: argparse.Namespace) -> int:
    with sys.stdin.buffer if words.script == "-" else open(words.script, "rb") as script:
        lines = list(lines_of(script))
    made = picture(lines, words) if words.svg else drawn(printable(Path(words.script).name), lines, words)
    if words.output:
        write(words.output, made)
    else:
        sys.stdout.buffer.write(made.encode())
    return 0
