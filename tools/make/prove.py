#!/usr/bin/env python3
"""Proves a crate and builds it, for the rules of the Makefile: tools/make/prove.py CRATE KIT.

out/proved/CRATE says of which sources and by which toolchain that was done, and there is nothing to do while these are the same. rt locks
the crates below the one that it works on. So each is proved in a folder of its own, with links to those, and several side by side."""
import os
import re
import shutil
import signal
import subprocess
import sys
import time
from pathlib import Path

import sources
from sources import NotBuilt

BUILD, PROVED = sources.TOP / "out/build", sources.TOP / "out/proved"
MOST_JOBS, CODE_FOR_A_JOB = 4, 600


def link(old, new):
    """A hard link, or a copy where there are none."""
    try:
        os.link(old, new)
    except OSError:
        shutil.copy2(old, new)


def code(crate):
    """The lines of a crate's code."""
    return sum(path.read_bytes().count(b"\n") for path in sources.files(crate) if path.suffix == ".rt")


class Crate:
    def __init__(self, name, kit):
        self.name, self.kit, self.folder, self.out = name, kit, BUILD / name, sources.TOP / "crates" / name / "out"
        self.built = sources.BUILT.get(name, self.out / "rlib")

    def state(self):
        """What out/proved/ has to say of the crate: toolchain, sources, and the program's own sum."""
        own = [sources.digest(self.built)] if self.built.is_file() else []
        return "\n".join([self.kit, sources.sum_of(self.name), *own]) + "\n"

    def stands(self):
        proved = PROVED / self.name
        return self.built.exists() and proved.is_file() and proved.read_text() == self.state()

    def set_up(self):
        """Makes the folder: the sources of the crate and of those below, the libraries of those, and what earlier checks of it kept."""
        members = sources.made_of(self.name)
        for member in members:
            for part in ("src", "specs", "proofs", *(["out/rlib"] if member != self.name else [])):
                old = sources.TOP / "crates" / member / part
                if old.is_dir():
                    shutil.copytree(old, self.folder / "crates" / member / part, copy_function=link)
        lines = [line for line in open(sources.TOP / "crates.txt") if re.match(r"\w*", line)[0] in members]
        (self.folder / "crates.txt").write_text("".join(lines))
        if self.out.exists():
            self.out.rename(self.folder / "crates" / self.name / "out")

    def put_back(self):
        """Moves what was built, whole or not, back into the tree."""
        made = self.folder / "crates" / self.name / "out"
        if made.exists() and not self.out.exists():
            made.rename(self.out)
        shutil.rmtree(self.folder, ignore_errors=True)

    def prove(self):
        if not self.kit:
            raise NotBuilt("building needs the command rt of the toolchain")
        process = self.folder / "process"
        if process.is_file() and Path("/proc", process.read_text()).exists():
            raise NotBuilt(f"process {process.read_text()} is proving {self.name}")
        (PROVED / self.name).unlink(missing_ok=True)
        self.put_back()
        try:
            self.folder.mkdir(parents=True)
            process.write_text(str(os.getpid()))
            before = self.state().splitlines()[:2]
            self.set_up()
            self.run_rt()
        finally:
            self.put_back()
        sources.own_lines.cache_clear()
        if self.state().splitlines()[:2] != before:
            raise NotBuilt(f"the sources of {self.name} have changed meanwhile")
        PROVED.mkdir(exist_ok=True)
        (PROVED / self.name).write_text(self.state())

    def run_rt(self):
        log = BUILD / f"{self.name}.log"
        words = ["rt", "run" if self.name == "bench_main" else "lib", "--jobs", str(min(1 + code(self.name) // CODE_FOR_A_JOB, MOST_JOBS))]
        with open(log, "wb") as said:
            started = subprocess.Popen(words, cwd=self.folder / "crates" / self.name, stdin=subprocess.DEVNULL, stdout=said, stderr=said)
        try:
            while started.poll() is None:
                tell(self.name)
                time.sleep(0.2 if sys.stderr.isatty() else 0.05)
        finally:
            # (what rt started ends with it)
            started.terminate()
            started.wait()
        if started.returncode:
            lines = log.read_text(errors="replace").splitlines()
            faults = [line for line in lines if re.search(r"error|^rt: |^logic=", line)]
            raise NotBuilt("\n".join([f"{self.name} was not proved", *(faults or lines[-20:]), f"{log} has all that rt said"]))


def so_far(name):
    """How many functions of a crate are checked, and of how many, where rt has said that."""
    found = re.findall(r"^so far: (\d+) of (\d+) ", (BUILD / f"{name}.log").read_text(errors="replace"), re.M)
    return found[-1] if found else None


def time_left(running):
    """The time that is left, judged by the lines of code that were proved since `make` began."""
    began = float(os.environ["BENCH_BEGAN"])
    proved = {path.name: path.stat().st_mtime for path in PROVED.glob("*")}
    wanted = [name for name in sources.made_of() if proved.get(name, began) >= began]
    done = sum(code(name) for name in wanted if name in proved)
    done += sum(code(name) * int(at[0]) / int(at[1]) for name, at in running.items() if at)
    minutes = (time.time() - began) * (sum(map(code, wanted)) / done - 1) / 60 if done else 0
    return f"; some {minutes:.0f} minutes left" if minutes >= 1 else ""


def tell(name, is_done=False):
    """Says how far all is: on a terminal in one line, which is written over, elsewhere by a line for each crate that is done."""
    is_shown = sys.stderr.isatty()
    running = sorted(path.parent.name for path in BUILD.glob("*/process"))
    if not (is_done or is_shown and running[:1] == [name]):
        return
    running = {other: so_far(other) for other in running if (BUILD / f"{other}.log").is_file()}
    text = f"bench: {len(list(PROVED.glob('*')))} of {len(sources.made_of())} crates done"
    if not is_shown:
        print(f"{text}; {name} is proved", file=sys.stderr)
        return
    shown = ", ".join(other + (" (%s of %s)" % at if at else "") for other, at in running.items())
    text += f"{'; proving ' * bool(shown)}{shown}{time_left(running)}"
    print(f"\r\033[K{text[:os.get_terminal_size(2).columns - 1]}", end="", file=sys.stderr, flush=True)


def main(name, kit):
    crate = Crate(name, kit)
    if crate.stands():
        return 0
    for number in (signal.SIGTERM, signal.SIGHUP):
        signal.signal(number, signal.default_int_handler)
    try:
        crate.prove()
    except (NotBuilt, KeyboardInterrupt) as why:
        print(f"bench: not built: {str(why) or 'interrupted'}", file=sys.stderr)
        return 3
    tell(name, is_done=True)
    if name == "bench_main" and sys.stderr.isatty():
        print(file=sys.stderr)
    return 0


if __name__ == "__main__":
    sys.exit(main(*sys.argv[1:]))
