"""Devices that fail, over real files, folders and pipes. test_files.py has the quick ones in the gate.

What no rule tells, as what a load finds in a file that is being written, is noted as it is found."""
from __future__ import annotations

import concurrent.futures
import os
import shutil
import signal
import subprocess
from argparse import Namespace
from pathlib import Path
from typing import Any, Optional, Sequence

from .companion_trials import PATIENT, nobody
from .files import FILE
from .lines import entries, parts
from .runs import Part, Word, compiled, limited, with_launcher

# The status, the output and what is said on standard error.
Ended = tuple[int, str, str]

SCRIPTS = {name: entries(text) for name, text in parts("devices.txt").items()}
ASKED = {name: "".join(f"{line}\n" for line, _ in lines) for name, lines in SCRIPTS.items()}
TOLD = {name: "".join(f"{reply}\n" for _, reply in lines) for name, lines in SCRIPTS.items()}
SCRIPT, REPLIES, NO_FOLDER = ASKED["plain"], TOLD["plain"], (1, TOLD["no folder"], "")
FAULT, NO_FILE = "no E27 store fault", "no E34 no such file"
READ, WRITE, MISSING = ((3, "", f"bench: {what}\n") for what in ("read fault", "write fault", "no script"))
LONG_SCRIPT = "a = zeros |u1 (30000)\n" + "print a\n" * 40
TWO_SAVES = 'a = zeros |u1 (100000)\nsave a "big.npy"\nb = zeros |u1 (3)\nsave b "small.npy"\n'
LOADS, SAVES, MOST_BLOCKS = 3000, 200, 8192


class Trials:
    """The trials of one program, with a folder for their files."""

    def __init__(self, program: Path, folder: Path) -> None:
        self.part, self.folder, self.dir, self.script = Part(), folder, folder / "files", folder / "plain.bench"
        self.program = Path(shutil.copy(program, folder / "bench"))
        self.program.chmod(0o755)
        self.launcher = with_launcher(program, folder)
        self.dir.mkdir()
        self.script.write_text(SCRIPT)

    def run(self, text: str, words: Sequence[Word] = (), before: Sequence[Word] = (), program: Optional[Path] = None, **more: Any) -> Ended:
        """What a run of the program or of the launcher comes to over a script, perhaps by another command."""
        given: dict[str, Any] = {} if "stdin" in more else {"input": text}
        streams: dict[str, Any] = {"stdout": subprocess.PIPE, "stderr": subprocess.PIPE, **given, **more}
        called = [*map(str, before), str(program or self.program), *words]
        ended = subprocess.run(called, cwd=self.folder, timeout=PATIENT, text=True, **streams)
        return ended.returncode, ended.stdout or "", ended.stderr or ""

    def ends(self, where: str, should: Ended, text: str, words: Sequence[Word] = (), before: Sequence[Word] = (), **more: Any) -> None:
        """A run that should come to this."""
        self.part.expect(where, self.run(text, words, before, **more), should)

    def outputs(self) -> None:
        """Standard output that takes nothing, or not all; a pipe whose reader goes after one reply, with the signal of that on or off."""
        with open("/dev/full", "wb") as full:
            self.ends("/dev/full as standard output", WRITE, SCRIPT, ["--dir", self.dir], stdout=full)
            self.ends("/dev/full and nothing to say", (0, "", ""), "# nothing\n", stdout=full)
            self.ends("/dev/full and help", WRITE, "", ["--help"], stdout=full)
            self.ends("/dev/full for what is wrong with words", (2, "", ""), "", ["--unknown"], stderr=full)
        for name, trap in (("ended by it", ""), ("told of it", "trap '' PIPE; ")):
            before = ["sh", "-c", trap + '{ "$@"; echo $? >&2; } | head -1', "sh"]
            self.ends(f"a closed pipe ({name})", (0, "names\n", f"{WRITE[2]}3\n"), "names\n" + LONG_SCRIPT * 20, (), before)
        self.closed_streams()
        self.limited_output()

    def closed_streams(self) -> None:
        """A stream that is closed from the start, of which files that are opened may take the number."""
        none, whole = ["--dir", str(self.folder / "none")], (1, f"{NO_FILE}\n{NO_FOLDER[1]}", "")
        for closed, piped, named in (("<&-", READ, NO_FOLDER), (">&-", WRITE, WRITE), ("2>&-", whole, NO_FOLDER)):
            for where, words, should in (("without SCRIPT", none, piped), ("with SCRIPT", [*none, str(self.script)], named)):
                self.ends(f"{closed} {where}", should, f'x = load "a.npy"\n{SCRIPT}', words, ["sh", "-c", f'exec "$@" {closed}', "sh"])
        self.ends("2>&- with no SCRIPT", (3, "", ""), SCRIPT, [self.folder / "none.bench"], ["sh", "-c", 'exec "$@" 2>&-', "sh"])

    def limited_output(self) -> None:
        """Standard output is a file that takes no more than some bytes."""
        whole, path = self.run(LONG_SCRIPT)[1].encode(), self.folder / "out"
        for most in (0, 1, 100, 65536, len(whole) - 1, len(whole)):
            with open(path, "wb") as out:
                should, before = (0, "", "") if most == len(whole) else WRITE, limited([("fsize", most)])
                self.ends(f"standard output of {most} bytes", should, LONG_SCRIPT, (), before, program=self.launcher, stdout=out)
            self.part.expect(f"what was written of {most} bytes", path.read_bytes() == whole[:most], True)

    def limited_files(self) -> None:
        """A file that may not grow so far is not saved, and none is left half written."""
        folder = self.folder / "limited"
        folder.mkdir()
        for most, saved in ((0, 0), (1, 0), (130, 0), (131, 1), (4096, 1), (100127, 1), (100128, 2)):
            big, small = "ok save 100128" if saved == 2 else FAULT, "ok save 131" if saved else FAULT
            should = int(saved < 2), f"ok a |u1 (100000,) new\n{big}\nok b |u1 (3,) new\n{small}\n", ""
            self.ends(f"files of {most} bytes", should, TWO_SAVES, ["--dir", folder], limited([("fsize", most)]), program=self.launcher)
            left = {path.name: path.stat().st_size for path in folder.iterdir()}
            self.part.expect(f"what is left of files of {most} bytes", left, dict([("small.npy", 131), ("big.npy", 100128)][:saved]))

    def words(self) -> None:
        """Words that are no text are refused words."""
        for word in (b"\xff", b"--dir=\xc3", b"--undo=\xf5", b"a\x80"):
            status, out, err = self.run("names\n", [word])
            self.part.expect(f"the word {word!r}", (status, out, err.startswith("error: invalid UTF-8")), (2, "", True))
            self.part.expect(f"the word {word!r} behind others", self.run("names\n", [b"names.bench", b"more", word])[0], 2)

    def interrupted(self) -> None:
        """Reads, writes, looks, syncs and renames that a signal interrupts are made again; a stream with nothing to give yet is a fault."""
        library = compiled("interrupt_calls.c", self.folder / "interrupt_calls.so")
        words = ["--dir", str(self.dir)]
        for times in (1, 2, 100):
            before = ["env", f"LD_PRELOAD={library}", f"INTERRUPT_TIMES={times}"]
            self.ends(f"each call of standard streams interrupted {times} times", (0, REPLIES, ""), SCRIPT, words, before)
            self.ends(f"each call of SCRIPT interrupted {times} times", (0, REPLIES, ""), "", [*words, str(self.script)], before)
        self.ends("nothing to read yet", READ, SCRIPT, words, ["env", f"LD_PRELOAD={library}", "INTERRUPT_TIMES=1", "INTERRUPT_AGAIN=1"])

    def writers(self) -> None:
        """Two programs that save one name leave one of the two files, whole, and nothing beside it."""
        folder, sizes = self.folder / "writers", {1: 100_000, 2: 300_000}
        folder.mkdir()
        scripts = [f"a = full |u1 ({size}) {value}\n" + 'save a "a.npy"\n' * SAVES for value, size in sizes.items()]
        with concurrent.futures.ThreadPoolExecutor() as both:
            ended = list(both.map(lambda script: self.run(script, ["--dir", folder]), scripts))
        for (status, out, err), size in zip(ended, sizes.values()):
            replies = out.splitlines()[1:]
            self.part.count("saves beside another program's", len(replies))
            self.part.count("of them refused", replies.count(FAULT))
            told = (len(replies), set(replies) <= {FAULT, f"ok save {size + 128}"}, err, status)
            self.part.expect("two programs that save one name", told, (SAVES, True, "", int(FAULT in replies)))
        found = (folder / "a.npy").read_bytes()
        self.part.expect("the file that two programs leave", found[128:] in [bytes([value]) * size for value, size in sizes.items()], True)
        self.part.expect("what lies beside it", os.listdir(folder), ["a.npy"])

    def scripts(self) -> None:
        """Scripts that are no files."""
        self.ends("a folder as SCRIPT", READ, "", [self.dir])
        for where, word in {"under a file": f"{self.program}/x", "an empty name": "", "a name that is too long": "x" * 5000}.items():
            self.ends(f"SCRIPT: {where}", MISSING, "", [word])
        folder = os.open(self.dir, os.O_RDONLY)
        self.ends("a folder as standard input", READ, "", stdin=folder)
        os.close(folder)
        self.ends("/dev/null as SCRIPT", (0, "", ""), "", ["/dev/null"])
        if nobody():
            secret = self.folder / "secret.bench"
            secret.write_text(SCRIPT)
            secret.chmod(0)
            self.ends("SCRIPT without rights", MISSING, "", [secret], **nobody())

    def folders(self) -> None:
        """Folders that are not there, that may not be used, or that are full."""
        self.ends("DIR that is not there", NO_FOLDER, SCRIPT, ["--dir", self.folder / "none"])
        self.ends("an empty name as DIR", (0, REPLIES, ""), SCRIPT, ["--dir", ""])
        self.ends("a file as DIR", (1, TOLD["no load"], ""), SCRIPT, ["--dir", self.program])
        if not nobody():
            return self.part.note("skipped, since they need root", "another user and a full disk")
        locked = self.folder / "locked"
        locked.mkdir(mode=0o700)
        self.ends("DIR without rights", (1, TOLD["no load"], ""), SCRIPT, ["--dir", locked], **nobody())
        locked.chmod(0o555)
        self.ends("DIR that may be read alone", NO_FOLDER, SCRIPT, ["--dir", locked], **nobody())
        self.part.expect("what is left in DIR without rights", os.listdir(locked), [])
        self.full_disk()

    def full_disk(self) -> None:
        """A disk of some pages: what does not fit is a fault, and the file that was there stays."""
        disk = self.folder / "disk"
        disk.mkdir()
        mounted = 'mount -t tmpfs -o size=64k tmpfs disk && "$@"; status=$?; ls -A disk >left; umount disk; exit $status'
        before = ["unshare", "--mount", "sh", "-c", mounted, "sh"]
        self.ends("a full disk as DIR", (1, TOLD["full disk"], ""), ASKED["full disk"], ["--dir", disk], before)
        self.part.expect("what is left on the full disk", (self.folder / "left").read_text().split(), ["a.npy", "c.npy"])

    def changing_file(self, what: str, command: str) -> list[str]:
        """The replies to loads of a file, again and again, while a command of the shell writes it."""
        path, whole = self.dir / "changing", self.folder / "whole"
        for file in (path, whole):
            file.write_bytes(FILE)
        loop = f"ulimit -f {MOST_BLOCKS}; while :; do {command}; done"
        writer = subprocess.Popen(["sh", "-c", loop, "sh", path, whole], start_new_session=True, stderr=subprocess.DEVNULL)
        try:
            status, out, err = self.run('x = load "changing"\n' * LOADS, ["--dir", self.dir])
        finally:
            os.killpg(writer.pid, signal.SIGKILL)
            writer.wait()
        replies = out.splitlines()
        may = {"no E28 bad magic", "no E31 truncated", FAULT}
        odd = [reply for reply in replies if reply not in may and not reply.startswith("ok x <i4 (3,) new rest ")]
        self.part.expect(f"a file that {what} while it is loaded", (status in (0, 1), err, len(replies), odd), (True, "", LOADS, []))
        self.part.note(f"loads of a file that {what}", f"{LOADS - sum(map(replies.count, may))} arrays, {replies.count(FAULT)} faults")
        return replies

    def changing_files(self) -> None:
        """A file that grows while it is loaded, and one that is written anew."""
        replies = self.changing_file("grows", "printf 0123456789abcdef >>\"$1\"")
        rests = [int(reply.rsplit(" ", 1)[1]) for reply in replies if reply.startswith("ok x")]
        most = (self.dir / "changing").stat().st_size - len(FILE)
        self.part.expect("the bytes behind its items", (rests == sorted(rests), max(rests, default=0) <= most), (True, True))
        replies = self.changing_file("is written anew", "cat \"$2\" >\"$1\"")
        self.part.expect("the bytes behind those of the other", {reply[-1] for reply in replies if reply.startswith("ok x")} <= {"0"}, True)


def all_trials(given: Namespace, folder: Path) -> Part:
    """All devices, in a folder that another user may look at."""
    own = folder / "devices"
    own.mkdir()
    for each in (folder, own):
        each.chmod(0o755)
    trials = Trials(given.program, own)
    for kind in ("outputs", "limited_files", "words", "interrupted", "writers", "scripts", "folders", "changing_files"):
        getattr(trials, kind)()
    return trials.part
