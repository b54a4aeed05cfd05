#!/usr/bin/env python3
"""Makes the program and the library for other machines, in out/machines/: tools/make/machines.py [CRATE ..], for the rules of the Makefile.

    bench-x86_64-v3-linux, glibc-hwcaps/x86-64-v3/libbench.so.1    for processors with AVX2
    bench-aarch64-linux, libbench-aarch64.so.1                     for Linux on ARM

rattle checks a crate for each machine, over the libraries that `make` built and with the proofs that it kept, and compiles it. For aarch64
the toolchain has no C library and no C part of its own: system.c is that part, page/wide.c divides numbers of 128 bits, and GLIBC names the
calls of the C library. So the same sources give the same bytes everywhere. Nothing is done while the sources and the toolchain are the same."""
import os
import subprocess
import sys
import tempfile
from pathlib import Path

import library as libraries
import module as modules
import sources

DIST, OUT = sources.TOP / "dist", sources.TOP / "out/machines"
# Each file with the machine that it is for, by the crate that it is made of.
MADE = {
    "bench_main": {"bench-x86_64-v3-linux": "x86-64-v3", "bench-aarch64-linux": "aarch64"},
    "bench_c": {"glibc-hwcaps/x86-64-v3/libbench.so.1": "x86-64-v3", "libbench-aarch64.so.1": "aarch64"},
}
FILES = {name: machine for files in MADE.values() for name, machine in files.items()}
# What rattle calls a machine.
WORDS = {"x86-64-v3": ("--cpu", "x86-64-v3"), "aarch64": ("--target", "aarch64-unknown-linux-gnu")}
# More options of clang. Larger functions than usual become parts of their callers, so fewer large values are returned: the program is a fourth
# larger, and a line takes 5 to 11 % fewer instructions.
MORE = {"x86-64-v3": ("-mllvm", "-inline-threshold=600"), "aarch64": ()}
PARTS = (sources.TOP / "tools/make/system.c", sources.TOP / "page/wide.c")
# The calls of glibc on aarch64 that the program may make, by the version that first had them there.
GLIBC = {
    "2.17": "__errno_location __libc_start_main __sysv_signal __write chmod close fchmod fchown fdatasync flock free fsync ftruncate lseek link malloc"
            " memcmp memcpy memmove memset open openat read realloc rename signal sigaction unlink unlinkat write",
    "2.28": "renameat2 statx",
}
FOR_AARCH64 = "--target=aarch64-unknown-linux-gnu"
COMPILED = [FOR_AARCH64, "-std=c11", "-O2", "-fPIC", "-ffreestanding", "-ffunction-sections", "-nostdinc", "-Wall", "-Wextra", "-Werror"]
PROGRAM = ["-pie", "--dynamic-linker=/lib/ld-linux-aarch64.so.1", "-e", "rattle_start", "--gc-sections", "--strip-all", "--build-id=none",
           "-z", "relro", "-z", "now"]


def sum_of_sources():
    """The sum of the sources of all that is made here."""
    parts = "".join(f"{sources.digest(path)}  {path.relative_to(sources.TOP).as_posix()}\n" for path in PARTS)
    made = f"{WORDS} {MORE} {GLIBC} {' '.join(COMPILED)} {' '.join(PROGRAM)}\n"
    return sources.sum_of_bytes(f"{sources.sum_of('bench_main')}\n{sources.library_sum()}\n{parts}{made}".encode())


def glibc(folder):
    """A library without code that has the names of glibc's calls, with their versions: what ld.lld needs to know of it."""
    calls = " ".join(GLIBC.values()).split()
    (folder / "glibc.s").write_text(".text\n" + "".join(f".globl {call}\n.type {call}, @function\n{call}:\n" for call in calls))
    (folder / "versions").write_text("".join(f"GLIBC_{version} {{ {'; '.join(names.split())}; }};\n" for version, names in GLIBC.items()))
    sources.llvm("clang", FOR_AARCH64, "-c", folder / "glibc.s", "-o", folder / "glibc.o")
    sources.llvm("ld.lld", "-shared", "--soname=libc.so.6", f"--version-script={folder / 'versions'}", "-o", folder / "libc.so.6", folder / "glibc.o")
    return folder / "libc.so.6"


def under(folder):
    """What is linked below a crate for aarch64: the compiled PARTS, and glibc's names."""
    for path in PARTS:
        sources.llvm("clang", *COMPILED, "-c", path, "-o", folder / f"{path.stem}.o")
    return [folder / f"{path.stem}.o" for path in PARTS], glibc(folder)


def program_for_v3(compiled, folder):
    kit, to = sources.kit_folder(), folder / "program"
    c_parts = [kit / "c" / name for name in ("libos_c.a", "liblibc_c.a")]
    words = ["--target", "x86_64-unknown-linux-gnu", "--toolchain", kit / "toolchain", "-o", to, compiled, *c_parts]
    subprocess.run([kit / "bin/rattle-link", *words], check=True, stdout=subprocess.DEVNULL, stderr=subprocess.DEVNULL)
    sources.llvm("llvm-strip", to)
    return to.read_bytes()


def program_for_aarch64(compiled, folder):
    below, libc = under(folder)
    sources.llvm("ld.lld", *PROGRAM, "-o", folder / "program", compiled, *below, libc)
    return (folder / "program").read_bytes()


def library_for_v3(compiled, folder):
    return libraries.linked(compiled)["libbench.so.1"]


def library_for_aarch64(compiled, folder):
    return libraries.linked(compiled, "aarch64", under(folder))["libbench.so.1"]


LINKS = {("bench_main", "x86-64-v3"): program_for_v3, ("bench_main", "aarch64"): program_for_aarch64,
         ("bench_c", "x86-64-v3"): library_for_v3, ("bench_c", "aarch64"): library_for_aarch64}


def stamp(name):
    return OUT / f"{Path(name).name}-{FILES[name]}.of"


def state(name, here):
    """What a stamp says where a file is of these sources."""
    return f"{here}\n{sum_of_sources()}\n{sources.digest(OUT / name)}\n"


def stands(name, here):
    return (OUT / name).is_file() and stamp(name).is_file() and stamp(name).read_text() == state(name, here)


def stand(here):
    """Whether all that is made here is of these sources."""
    return all(stands(name, here) for name in FILES)


def made():
    """The files by their names in dist/."""
    return {name: (OUT / name).read_bytes() for name in FILES}


def make(crate, name, here):
    machine = FILES[name]
    stamp(name).unlink(missing_ok=True)
    to = OUT / f"{crate}-{machine}{'.a' if crate == modules.CRATE else '.o'}"
    with tempfile.TemporaryDirectory() as folder:
        toolchain = modules.toolchain(Path(folder), *MORE[machine])
        compiled = modules.compiled(crate, here, to, *WORDS[machine], "--toolchain", toolchain)
        sources.put(OUT, {name: LINKS[crate, machine](compiled, Path(folder))})
    stamp(name).write_text(state(name, here))
    print(f"bench: out/machines/{name} is that of these sources")


def make_all(here, crates=MADE):
    """Makes what is not of these sources."""
    for crate in crates:
        for name in MADE[crate]:
            if not stands(name, here):
                make(crate, name, here)


def differences(here):
    """What differs in dist/ from what is made of these sources, as far as it is made; with BENCH_MACHINES=all all of it is."""
    if os.environ.get("BENCH_MACHINES") == "all":
        make_all(here)
    for name in FILES:
        if stands(name, here) and not ((DIST / name).is_file() and sources.digest(DIST / name) == sources.digest(OUT / name)):
            yield f"dist/{name} is not what these sources and this toolchain give: run `make machines`, then `make dist`"


def main(crates):
    if sources.kit_folder() is None:
        raise sources.NotBuilt("this needs the command rt of the toolchain")
    make_all(subprocess.run(["rt", "version"], capture_output=True, text=True, check=True).stdout.strip(), crates or MADE)


if __name__ == "__main__":
    os.chdir(sources.TOP)
    try:
        main(sys.argv[1:])
    except (sources.NotBuilt, subprocess.CalledProcessError) as why:
        print(f"bench: {why}", file=sys.stderr)
        sys.exit(3)
