"""What the program and the library for C are made of: their crates, the files, and sums of these. A file's time counts for nothing."""
import functools
import hashlib
import pathlib
import re
import shutil
import subprocess

TOP = pathlib.Path(__file__).resolve().parents[2]
# What rt builds of the two crates on top, and what tools/make/library.py links of the second.
PROGRAM, ARCHIVE = TOP / "crates/bench_main/out/bench_main", TOP / "crates/bench_c/out/libbench_c.a"
BUILT = {"bench_main": PROGRAM, "bench_c": ARCHIVE}
LIBRARY, LINKED, LIBRARIES = TOP / "library", TOP / "out/library", ("libbench.so.1", "libbench.a")


class NotBuilt(Exception):
    """Why there is no program, library or module."""


def kit_folder():
    """The folder of the toolchain, or None where there is no toolchain."""
    found = shutil.which("rt")
    return pathlib.Path(found).resolve().parents[1] if found else None


@functools.lru_cache(maxsize=None)
def uses():
    """Each crate of crates.txt with the crates that it uses, in the order of the file."""
    rows = re.findall(r"^(\w+)(?: staticlib)?:(.*)$", (TOP / "crates.txt").read_text(), re.M)
    names = dict(rows)
    return {name: [used for used in used_all.split() if used in names] for name, used_all in rows}


def made_of(*tops):
    """These crates, if none is named those of the program and the library, and all those below them."""
    found = [name for name in tops or BUILT if name in uses()]
    for name in found:
        found += [used for used in uses()[name] if used not in found]
    return [name for name in uses() if name in found]


def files(crate):
    """The files of a crate that a proof of it reads, in a fixed order."""
    return sorted(path for part in ("src", "specs", "proofs") for path in (TOP / "crates" / crate / part).rglob("*") if path.is_file())


def llvm(tool, *words, **more):
    """Runs a tool of the toolchain's LLVM, which does what its name says."""
    subprocess.run([tool, *map(str, words)], executable=kit_folder() / "toolchain/bin/clang", check=True, **more)


def put(folder, files):
    """Writes what was built into a folder; what runs, or is loaded to run, may be run."""
    for name, data in files.items():
        (folder / name).parent.mkdir(parents=True, exist_ok=True)
        (folder / name).write_bytes(data)
        (folder / name).chmod(0o644 if name.endswith((".a", ".whl")) else 0o755)


def glibc(binary):
    """The version of glibc that a binary needs, as a pair of numbers, or None."""
    return max((tuple(map(int, found)) for found in re.findall(rb"GLIBC_(\d+)\.(\d+)", binary)), default=None)


def needs(binary, processor="x86-64-v2"):
    """What a binary for this processor needs to run."""
    return f"Linux, {processor}, glibc {'.'.join(map(str, glibc(binary)))}"


def sum_of_bytes(data):
    return hashlib.sha256(data).hexdigest()


def digest(path):
    return sum_of_bytes(path.read_bytes())


@functools.lru_cache(maxsize=None)
def own_lines(crate):
    """A line for a crate, with the crates that it uses, and one for each of its files, with its sum."""
    line = re.search(rf"^{crate}(?: staticlib)?:.*\n", (TOP / "crates.txt").read_text(), re.M)[0]
    return line + "".join(f"{digest(path)}  {path.relative_to(TOP).as_posix()}\n" for path in files(crate))


def sum_of(crate):
    """The sum of the sources of a crate and of all below it."""
    return sum_of_bytes("".join(map(own_lines, sorted(made_of(crate)))).encode())


def library_sum():
    """The sum of the sources of the library for C."""
    own = "".join(f"{digest(LIBRARY / name)}  library/{name}\n" for name in ("bench.c", "bench.h"))
    return sum_of_bytes((sum_of("bench_c") + own).encode())


def library_state():
    """What out/library/state says of what was linked there."""
    return f"{library_sum()}\n{digest(ARCHIVE)}\n"


def is_library_linked():
    """Whether out/library/ has what the archive and the sources here give."""
    state = LINKED / "state"
    return ARCHIVE.is_file() and state.is_file() and state.read_text() == library_state()
