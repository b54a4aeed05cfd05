#!/usr/bin/env python3
"""Writes dist/ anew, from what `make`, `make page` and `make machines` made of these sources.

    bench-x86_64-linux           the program, without its symbols
    libbench.so.1, libbench.a    the library for C
    bench-x86_64-v3-linux, ..    both for other machines (tools/make/machines.py), if `make machines` made them of these sources
    bench.html, ..               the page (page/build.py), which `make page` has written
    bench_tool-*.whl             the companion with all of these that one machine can use (companion/backend.py)
    SOURCES                      the toolchain, the sums of the sources, and what the files need to run
    SHA256SUMS                   the sums of the files, for `sha256sum -c`

With --check nothing is written: what the gate has just built is compared with dist/. `rt ci` proves bench_c and builds nothing of it, so
the library and bench.wasm are made here, over the libraries that `rt ci` built; what is for other machines is made with BENCH_MACHINES=all,
and compared where it is made. The wheels are made of the other files. Where SOURCES names another toolchain than is here, that is said, and
only sums are compared. The status is 1 where something differs, 3 where there is nothing to compare or to write."""
import io
import re
import subprocess
import sys
import tempfile
import zipfile
import zlib
from pathlib import Path

import library as libraries
import machines
import module as modules
import prove
import sources

DIST = sources.TOP / "dist"
NAME = "bench-x86_64-linux"
HAS_LIBRARY = "bench_c" in sources.uses()
PAGE = ("bench.html", "bench.mjs", "bench.wasm") if (sources.TOP / "page").is_dir() else ()
sys.path += [str(sources.TOP / "page"), str(sources.TOP / "companion")]
import backend  # noqa: E402

if PAGE:
    import build as page


def kit():
    """What the toolchain says of itself."""
    if sources.kit_folder() is None:
        raise sources.NotBuilt("this needs the command rt of the toolchain")
    return subprocess.run(["rt", "version"], capture_output=True, text=True, check=True).stdout.strip()


def stripped(program):
    """The program without its symbols."""
    with tempfile.TemporaryDirectory() as folder:
        made = Path(folder, NAME)
        sources.llvm("llvm-strip", "-o", made, program)
        return made.read_bytes()


def program():
    """The program that is built here, as a file of dist/, and what SOURCES says of it."""
    bare = stripped(sources.PROGRAM)
    return {NAME: bare}, {"program as it is built": sources.digest(sources.PROGRAM), f"{NAME} needs": sources.needs(bare)}


def library():
    """The same of the library."""
    files = {name: (sources.LINKED / name).read_bytes() for name in sources.LIBRARIES}
    return files, {"libbench.so.1 needs": sources.needs(files["libbench.so.1"])}


def others(here):
    """The same of what `make machines` has made, if that is of these sources."""
    files = machines.made() if machines.stand(here) else {}
    for name in machines.FILES.keys() - files.keys():
        (DIST / name).unlink(missing_ok=True)
    return files, {f"{name} needs": sources.needs(data, machines.FILES[name]) for name, data in files.items()}


def for_others():
    """The files of dist/ for other machines."""
    return [name for name in machines.FILES if (DIST / name).is_file()]


def sums_of_sources():
    """What SOURCES says of the sources: a sum for each part of dist/."""
    sums = {"program sources": lambda: sources.sum_of("bench_main")}
    sums.update({"library sources": sources.library_sum} if HAS_LIBRARY else {})
    sums.update({"page sources": page.program_sum} if PAGE else {})
    sums.update({"machines sources": machines.sum_of_sources} if for_others() else {})
    return {name: sum_of() for name, sum_of in sums.items()}


def wheels():
    """The wheels of the files of dist/: their bytes by their names."""
    found = {}
    for machine in backend.MACHINES:
        binaries = backend.built(machine)
        if binaries:
            glibc = max(filter(None, (sources.glibc(path.read_bytes()) for path in binaries.values())))
            name, data = backend.wheel(binaries, f"manylinux_{'_'.join(map(str, glibc))}_{machine}")
            found[name] = data
    return found


def files_of_dist():
    """The names of the files that dist/ must have, but for SHA256SUMS."""
    built = (NAME, *(sources.LIBRARIES if HAS_LIBRARY else ()), *PAGE)
    return sorted((*built, *for_others(), *(path.name for path in DIST.glob("*.whl")), "SOURCES"))


def sums():
    """The file SHA256SUMS, of the files that are there."""
    return "".join(f"{sources.digest(DIST / name)}  {name}\n" for name in files_of_dist() if (DIST / name).is_file())


def stale(here):
    """What has to run before dist/ can be written."""
    if not prove.Crate("bench_main", here).stands():
        yield "the program is not what `make` builds of these sources: run `make`"
    if HAS_LIBRARY and not (prove.Crate("bench_c", here).stands() and sources.is_library_linked()):
        yield "the library is not what `make` builds of these sources: run `make`"
    if PAGE:
        made = page.OUT / "state"
        if not (DIST / "bench.wasm").is_file() or not made.is_file() or made.read_text() != page.state():
            yield "the page is not of these sources: run `make page`"


def put(files):
    sources.put(DIST, files)
    for name, data in files.items():
        print(f"bench: dist/{name} is that of these sources: {len(data):,} bytes")


def write():
    here = kit()
    for why in stale(here):
        raise sources.NotBuilt(why)
    needs = {}
    for files, more in [program(), *([library(), others(here)] if HAS_LIBRARY else [])]:
        put(files)
        needs.update(more)
    if HAS_LIBRARY and not for_others():
        print("bench: dist/ has nothing for other machines: `make machines` makes that")
    for old in DIST.glob("*.whl"):
        old.unlink()
    put(wheels())
    facts = {"toolchain": here, **sums_of_sources(), **needs}
    (DIST / "SOURCES").write_text("".join(f"{name}: {fact}\n" for name, fact in facts.items()))
    (DIST / "SHA256SUMS").write_text(sums())
    return 0


def made_anew(here):
    """What differs in dist/ from what is made of bench_c now: the library, and the program in WebAssembly."""
    try:
        archive, module = modules.build(sources.TOP / "out/gate", here)
    except sources.NotBuilt as why:
        yield f"the library and the page are not compared: {why}"
        return
    for name, data in {**libraries.linked(archive), **({"bench.wasm": page.program(module)} if PAGE else {})}.items():
        if not (DIST / name).is_file() or (DIST / name).read_bytes() != data:
            yield f"dist/{name} is not what these sources and this toolchain give: run `make`, `make page`, then `make dist`"


def unpacked(wheel):
    """All that a wheel holds, whichever zlib packed it, or None if it is none."""
    try:
        with zipfile.ZipFile(io.BytesIO(wheel)) as archive:
            return [(entry.filename, entry.date_time, entry.external_attr, archive.read(entry)) for entry in archive.infolist()]
    except (zipfile.BadZipFile, zlib.error):
        return None


def other_wheels():
    """What differs in the wheels of dist/ from those of its other files."""
    made = wheels()
    for name in sorted({*made, *(path.name for path in DIST.glob("*.whl"))}):
        held = (DIST / name).read_bytes() if (DIST / name).is_file() else b""
        if name not in made or held != made[name] and unpacked(held) != unpacked(made[name]):
            yield f"dist/{name} is not what the companion and dist/ give: run `make dist`"


def other_sums(told):
    """What differs in SHA256SUMS and SOURCES, which tells these facts, from the files and the sources."""
    for name, fact in sums_of_sources().items():
        if told.get(name) != fact:
            yield f"dist/SOURCES has not the {name}: run `make`, `make page`, `make machines`, then `make dist`"
    lines = (DIST / "SHA256SUMS").read_text() if (DIST / "SHA256SUMS").is_file() else ""
    listed = {name: digest for digest, _, name in (line.partition("  ") for line in lines.splitlines())}
    for name in sorted({*listed, *files_of_dist()}):
        if not (DIST / name).is_file() or listed.get(name) != sources.digest(DIST / name):
            yield f"dist/{name} has not the sum that dist/SHA256SUMS has"


def differences():
    """What differs in dist/ from what is here."""
    text = (DIST / "SOURCES").read_text() if (DIST / "SOURCES").is_file() else ""
    told = dict(re.findall(r"^([^:\n]+): (.*)$", text, re.M))
    yield from other_sums(told)
    yield from page.differences() if PAGE else ()
    yield from other_wheels()
    here = kit()
    if told.get("toolchain") != here:
        print(f"bench: dist/ was built by {told.get('toolchain')}, and {here} is here: the programs are not compared")
        return
    if not sources.PROGRAM.is_file():
        yield "there is no program to compare with dist/"
    elif not is_of_dist(*program(), told):
        yield "dist/ is not what these sources and this toolchain give"
    if HAS_LIBRARY:
        yield from made_anew(here)
        yield from machines.differences(here)


def is_of_dist(files, facts, told):
    """Whether dist/ has these files, and SOURCES these facts."""
    return facts.items() <= told.items() and all((DIST / name).is_file() and (DIST / name).read_bytes() == data for name, data in files.items())


def check():
    found = list(differences())
    for line in found or ["dist/ is what these sources give"]:
        print(f"bench: {line}")
    return 1 if found else 0


if __name__ == "__main__":
    try:
        sys.exit(check() if sys.argv[1:] == ["--check"] else write())
    except sources.NotBuilt as why:
        print(f"bench: {why}", file=sys.stderr)
        sys.exit(3)
