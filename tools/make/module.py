"""Builds a crate on top over the libraries below it, as they stand in crates/*/out/rlib; of crates/bench_c its archive, and the LLVM module
that the archive is compiled from.

`make page` takes the libraries that `make` built, and the gate those that `rt ci` has just built: it proves bench_c itself, and builds
nothing of it."""
import os
import re
import shutil
import subprocess

import prove
import sources
from sources import NotBuilt

CRATE, JOBS = "bench_c", str(min(len(os.sched_getaffinity(0)), prove.MOST_JOBS))
# (rattle starts clang with no environment)
CLANG = """#!/bin/sh
for word in "$@"; do case $word in *.bc) [ ! -f "$word" ] || cp "$word" "{out}/module.bc" ;; esac; done
exec "{real}/bin/clang" "$@" {more}
"""


def toolchain(out, *more):
    """A folder of links to the toolchain's LLVM, with a clang that first copies each module that it is given to out/module.bc, and has
    more options than rattle gives it."""
    real, made = sources.kit_folder() / "toolchain", out / "toolchain"
    shutil.rmtree(made, ignore_errors=True)
    sources.put(made / "bin", {"clang": CLANG.format(out=out, real=real, more=" ".join(more)).encode()})
    for path in [*real.iterdir(), *(real / "bin").iterdir()]:
        if path.name not in ("bin", "clang"):
            (made / path.relative_to(real)).symlink_to(path)
    return made


def rlib(crate):
    return sources.TOP / "crates" / crate / "out/rlib"


def is_built(crate, here):
    """Whether the library of a crate is of these sources: `make` says of which it built one, and what `rt ci` has built has no stamp."""
    return rlib(crate).is_dir() and (not (rlib(crate) / "stamp").is_file() or prove.Crate(crate, here).stands())


def words(crate, below):
    """The libraries that a crate uses, in the words of rattle: those of the toolchain, and those of this repository."""
    kit, own = sources.kit_folder(), sources.uses()[crate]
    used = re.search(rf"^{crate}(?: staticlib)?:(.*)$", (sources.TOP / "crates.txt").read_text(), re.M)[1].split()
    places = {name: kit / "rlibs" for name in ["std", *used] if name not in own} | {name: rlib(name) for name in own}
    externs = [word for name, folder in places.items() for word in ("--extern", f"{name}={folder}/{name}.rlib")]
    return externs + [word for folder in [kit / "rlibs", *map(rlib, below)] for word in ("-L", f"dependency={folder}")]


def compiled(crate, here, made, *more):
    """Has rattle check a crate on top, by the toolchain `here` and with what earlier checks kept, and compile it, as `more` says: an archive,
    or the object of a program. Returns its path, which is `made`."""
    kit, below = sources.kit_folder(), [name for name in sources.made_of(crate) if name != crate]
    stale = [name for name in below if not is_built(name, here)]
    if stale:
        raise NotBuilt(f"the libraries below {crate} are not built of these sources: run `make` ({' '.join(stale)})")
    made.parent.mkdir(parents=True, exist_ok=True)
    made.unlink(missing_ok=True)
    kind = ["src/lib.rt", "--crate-type", "staticlib"] if crate == CRATE else ["src/main.rt"]
    project = kit / "rattle/logic/antt-project.json"
    logic = ["--antt-project", project, "--logic-built", kit / "logic_built", "--incremental", "out/incremental"]
    command = [kit / "bin/rattle", "build", "--crate-name", crate, *kind, *words(crate, below), *logic, "--jobs", JOBS, "--backend", "llvm", *more, "-o", made]
    with open(made.with_suffix(".log"), "wb") as log:
        done = subprocess.run(command, cwd=sources.TOP / "crates" / crate, stdin=subprocess.DEVNULL, stdout=log, stderr=log)
    if done.returncode:
        raise NotBuilt(f"{crate} was not built: {log.name} has all that rattle said")
    return made


def build(out, here):
    """Has rattle check and compile bench_c, by the toolchain `here`: OUT/libbench_c.a and OUT/module.bc."""
    kept = out / "module.bc"
    out.mkdir(parents=True, exist_ok=True)
    kept.unlink(missing_ok=True)
    archive = compiled(CRATE, here, out / f"lib{CRATE}.a", "--toolchain", toolchain(out))
    if not kept.is_file():
        raise NotBuilt(f"{CRATE} was built without clang: {archive.with_suffix('.log')} has all that rattle said")
    return archive, kept
