#!/usr/bin/env python3
"""Makes the program in WebAssembly and the page of these sources: dist/bench.wasm, dist/bench.mjs and dist/bench.html.

1. tools/make/module.py has the toolchain check crates/bench_c, and keeps the LLVM module that it compiles.
2. retarget.py makes of that module, which is for x86-64, one for WebAssembly.
3. The toolchain's clang compiles it, with heap.c and wide.c, and links bench.wasm.
4. The modules of the page, its style, the tables of LANGUAGE and bench.wasm go into page.html.

build.py            all of these; the module of before is taken where neither sources nor toolchain differ
build.py --page     the last one alone, with the bench.wasm of dist/
build.py --check    tells what differs in dist/ from what the sources of the page and dist/bench.wasm give

out/page/state says of which sources dist/bench.wasm was made. `make dist` writes that into SOURCES. The gate makes bench.wasm anew from the
crates that it has just proved, and refuses another one (tools/make/dist.py)."""
import base64
import gzip
import hashlib
import json
import os
import pathlib
import re
import shutil
import subprocess
import sys

HERE = pathlib.Path(__file__).resolve().parent
TOP = HERE.parent
sys.dont_write_bytecode = True
sys.path[:0] = [str(HERE), str(TOP / "companion"), str(TOP / "tools/make")]
import module as modules  # noqa: E402
import retarget  # noqa: E402
import sources  # noqa: E402
from bench_tool import grammar, language, numpy_rules  # noqa: E402

DIST, OUT = TOP / "dist", TOP / "out/page"
PARTS = ("retarget.py", "heap.c", "wide.c")  # of what bench.wasm is made, beside bench_c
OPTIMIZED = "-Oz"
CALLS = ("open", "answer", "reply", "put", "get", "file", "close")
LINKED = ["--no-entry", "--gc-sections", "--strip-all", "--stack-first", "-z", "stack-size=1048576", "--export=malloc", "--export=realloc", "--export=free", *(f"--export=bench_c_{call}" for call in CALLS)]
SCRIPTS = ("bench", "trace", "picture", "svg", "python", "tried", "expressions", "offers", "hints", "near", "language", "numpy", "script", "app")
IMPORT = re.compile(r"(?m)^import .*\n|^export ")
COMMENT = re.compile(r"(?ms)^ */\*\*.*?\*/\n|(?m:^ *// (?!---- the page)[^\n]*\n)|(?m:^ +)")  # comments in lines of their own, and indentation
PROGRAM = re.compile(r'(?<=<script type="application/octet-stream" id="program">)[^<]*')


def clang(*words):
    target = ["--target=wasm32-unknown-unknown", "-c"]
    subprocess.run([sources.kit_folder() / "toolchain/bin/clang", *target, *map(str, words)], check=True)


def program_sum():
    """The sum of the sources of bench.wasm."""
    parts = "".join(f"{sources.digest(HERE / name)}  page/{name}\n" for name in PARTS)
    return sources.sum_of_bytes(f"{sources.sum_of('bench_c')}\n{parts}{OPTIMIZED} {' '.join(LINKED)}\n".encode())


def state():
    """What out/page/state says where dist/bench.wasm is of these sources."""
    return f"{program_sum()}\n{sources.digest(DIST / 'bench.wasm')}\n"


def kept_module():
    """The LLVM module of bench_c. It is kept, with the sum of the sources and the toolchain that gave it in out/page/module.of."""
    here = subprocess.run(["rt", "version"], capture_output=True, text=True, check=True).stdout.strip()
    kept, stamp, wanted = OUT / "module.bc", OUT / "module.of", f"{here}\n{sources.sum_of('bench_c')}\n"
    OUT.mkdir(parents=True, exist_ok=True)
    if not (kept.is_file() and stamp.is_file() and stamp.read_text() == wanted):
        stamp.unlink(missing_ok=True)
        modules.build(OUT, here)
        stamp.write_text(wanted)
    return kept


def program(module):
    """The bytes of bench.wasm, made of an LLVM module of bench_c."""
    OUT.mkdir(parents=True, exist_ok=True)
    disassemble = ["--target=x86_64-unknown-linux-gnu", "-x", "ir", module, "-S", "-emit-llvm", "-O0", "-Xclang", "-disable-llvm-passes", "-o", OUT / "x86.ll"]
    subprocess.run([sources.kit_folder() / "toolchain/bin/clang", *disassemble], check=True)
    (OUT / "wasm.ll").write_text(retarget.retarget((OUT / "x86.ll").read_text()))
    clang(OPTIMIZED, "-x", "ir", OUT / "wasm.ll", "-o", OUT / "bench.o")
    for name in ("heap", "wide"):
        clang("-O2", "-Wall", "-Wextra", "-ffreestanding", "-fno-builtin", HERE / f"{name}.c", "-o", OUT / f"{name}.o")
    linker = OUT / "wasm-ld"
    linker.unlink(missing_ok=True)
    linker.symlink_to(sources.kit_folder() / "toolchain/bin/ld.lld")
    subprocess.run([linker, *LINKED, *(OUT / f"{name}.o" for name in ("bench", "heap", "wide")), "-o", OUT / "bench.wasm"], check=True)
    return (OUT / "bench.wasm").read_bytes()


def tables():
    """What the page takes from LANGUAGE, from the shell's grammar and from its rules of NumPy, and the examples, as JSON. Each rule of the
    grammar stands there once, by its number."""
    numbers = {}

    def number(rule):
        if isinstance(rule, grammar.Token):
            made = ("token", *rule)
        elif isinstance(rule, grammar.Many):
            made = ("many", number(rule.rule))
        else:
            made = ("type",) if rule is grammar.TYPE else ("any" if isinstance(rule, list) else "all", *map(number, rule))
        return numbers.setdefault(made, len(numbers))

    forms = [[(piece, number(rule)) for piece, rule in form] for form in grammar.forms()]
    ends = {"arrays": [grammar.ARRAY, grammar.VERB, grammar.ARGUMENT], "type": grammar.TYPE, "end": grammar.END, "command": grammar.COMMAND}
    examples = {path.stem: path.read_text() for path in sorted((TOP / "examples").glob("*.bench"))}
    made = {"forms": forms, "rules": list(numbers), "ends": ends, "operations": language.operations(), "comparisons": language.lists()[1],
            "codes": language.codes(), "examples": examples, "numpy": numpy_rules.values()}
    return json.dumps(made, separators=(",", ":")).replace("</", "<\\/")


def sum_of(text):
    return f"sha256-{base64.b64encode(hashlib.sha256(text.encode()).digest()).decode()}"


def packed(wasm):
    """The program as it stands in the page; as it stands in dist/'s page, if that is this program."""
    old = PROGRAM.search((DIST / "bench.html").read_text(encoding="utf-8")) if (DIST / "bench.html").is_file() else None
    if old and gzip.decompress(base64.b64decode(old[0])) == wasm:
        return old[0]
    return base64.b64encode(gzip.compress(wasm, 9, mtime=0)).decode()


def page(wasm):
    """The page: one file, whose policy lets it run its own script alone and fetch nothing."""
    code = "\n".join(COMMENT.sub("", IMPORT.sub("", (HERE / f"{name}.mjs").read_text(encoding="utf-8"))) for name in SCRIPTS).replace("</script", "<\\/script").replace("<!--", "<\\!--")
    style, svg = (HERE / "page.css").read_text(encoding="utf-8"), (HERE / "svg.mjs").read_text(encoding="utf-8")
    parts = {"CODE": code, "SUM": sum_of(code), "STYLE": style, "STYLESUM": sum_of(style), "TABLES": tables(), "GIVEN": "", "PROGRAM": packed(wasm),
             "TIP": re.search(r"TIP = '(.*)';", svg)[1]}
    return re.sub("<!--([A-Z]+)-->", lambda found: parts[found[1]], (HERE / "page.html").read_text(encoding="utf-8"))


def write(wasm, is_new):
    DIST.mkdir(exist_ok=True)
    made = page(wasm)
    (DIST / "bench.wasm").write_bytes(wasm)
    if is_new:
        (OUT / "state").write_text(state())
    (DIST / "bench.html").write_text(made, encoding="utf-8")
    shutil.copyfile(HERE / "bench.mjs", DIST / "bench.mjs")
    print(f"page: dist/bench.html has {len(made.encode()):,} bytes, dist/bench.wasm {len(wasm):,}")


def differences():
    """What differs in dist/ from what the sources of the page and dist/bench.wasm give."""
    files = [DIST / name for name in ("bench.wasm", "bench.html", "bench.mjs")]
    if not all(map(pathlib.Path.is_file, files)):
        yield "dist/ has no page: run `make page`"
        return
    wasm = files[0].read_bytes()
    if files[1].read_text(encoding="utf-8") != page(wasm):
        yield "dist/bench.html is not what page/, LANGUAGE, the grammar, the examples and dist/bench.wasm give: run page/build.py --page"
    if files[2].read_bytes() != (HERE / "bench.mjs").read_bytes():
        yield "dist/bench.mjs is not page/bench.mjs"


def check():
    found = list(differences())
    for difference in found:
        print(f"page: {difference}")
    if not found:
        print("page: dist/ has the page of these sources")
    return 1 if found else 0


if __name__ == "__main__":
    os.chdir(TOP)
    if sys.argv[1:] == ["--check"]:
        sys.exit(check())
    if not sys.argv[1:] and not sources.kit_folder():
        sys.exit("page: this needs rt, the command of the toolchain")
    is_page = sys.argv[1:] == ["--page"]
    try:
        write((DIST / "bench.wasm").read_bytes() if is_page else program(kept_module()), not is_page)
    except modules.NotBuilt as why:
        sys.exit(f"page: {why}")
