"""What a save does to the disk, and what it says where that fails. No contract reaches the system's calls, so these tests look at them: at what is
read back, and at the calls themselves, below `trials/fail_calls.c`, which also fails them."""
import argparse
import fcntl
import os
import resource
import shutil
import stat
import subprocess
import unittest
from pathlib import Path

from trials.companion_trials import PATIENT, PROGRAM, InFolder, needs_compiler, needs_program, nobody, share, works
from trials import crashes, errors
from trials.errors import FOLDER, HIDDEN, NAME, NEW, SAVE, Call

FAULT = "no E27 store fault"
SAVED = "ok save 131"
needs_another_user = unittest.skipUnless(nobody(), "a run as another user wants root's rights")


class Folder(InFolder):
    """A program that any user may run, and a folder for its files."""

    def setUp(self):
        super().setUp()
        self.folder.chmod(0o755)
        self.program = shutil.copy(PROGRAM, self.folder / "bench")
        os.chmod(self.program, 0o755)
        self.dir = self.folder / "files"
        self.dir.mkdir()

    def replies(self, script, **more):
        ran = subprocess.run([self.program, "--dir", self.dir], input=script.encode(), capture_output=True, timeout=PATIENT, **more)
        return ran.stdout.decode().splitlines()

    def names(self):
        return sorted(os.listdir(self.dir))


@needs_program
class Bytes(Folder):
    def test_what_is_saved_lies_in_the_file(self):
        """A save that wrote no bytes, or gave them no name, would fail here."""
        for old in (None, b"", b"another file", NEW + b"longer"):
            if old is not None:
                (self.dir / NAME).write_bytes(old)
            self.assertEqual(self.replies(SAVE)[-1], SAVED)
            self.assertEqual((self.dir / NAME).read_bytes(), NEW)
            self.assertEqual(self.names(), [NAME])

    def test_each_of_some_saves_is_read_back(self):
        for size in (0, 1, 65_536, 100_003):
            items = bytes(k % 251 for k in range(size))
            script = f'a = arange <i4 0 {size} 1\nb = mod a 251\nc = cast b |u1\nsave c "{size}.npy"\n'
            self.assertEqual(self.replies(script)[-1], f"ok save {size + 128}")
            self.assertEqual((self.dir / f"{size}.npy").read_bytes()[128:], items)


@needs_program
@needs_compiler
class Calls(Folder):
    def setUp(self):
        super().setUp()
        self.runs = errors.Runs(self.program, self.folder)

    def comes_in_order(self, calls, *wanted):
        """These calls are among the others, each behind the one before it."""
        rest = iter(calls)
        for call in wanted:
            self.assertIn(call, rest, f"of {calls}")

    def test_a_save_syncs_what_it_promises(self):
        """The bytes reach the disk before the file has its name, and the name before the reply."""
        for _ in ("a new file", "over a file"):
            reply, calls = self.runs.run(SAVE, self.dir)
            self.assertEqual(reply, SAVED)
            of_the_part = [Call(kind, HIDDEN) for kind in ("open", "lock", "write", "sync", "rename")]
            self.comes_in_order(calls, *of_the_part, Call("open", FOLDER), Call("sync", FOLDER))
            self.assertNotIn(Call("write", HIDDEN), calls[calls.index(Call("sync", HIDDEN)) :])

    @needs_another_user
    def test_the_file_has_its_group_and_its_mode_before_its_bytes(self):
        errors.prepare(self.dir, errors.SCENARIOS[2])
        reply, calls = self.runs.run(SAVE, self.dir)
        self.assertEqual(reply, SAVED)
        self.comes_in_order(calls, *[Call(kind, HIDDEN) for kind in ("open", "group", "mode-open", "write")])

    def test_the_folder_of_an_empty_word_is_synced_too(self):
        env = {**os.environ, "LD_PRELOAD": str(self.runs.library), "STORE_FOLDER": ".", "STORE_LOG": str(self.runs.log)}
        ran = subprocess.run([self.program, "--dir", ""], input=SAVE.encode(), capture_output=True, cwd=self.dir, env=env, timeout=PATIENT)
        self.assertEqual(ran.stdout.decode().splitlines()[-1], SAVED)
        self.assertEqual(self.runs.log.read_text().splitlines()[-2:], ["open .", "sync ."])

    def test_each_call_that_fails(self):
        """Each call on a file or the folder fails with each of some errors: the answers are those of docs/DECISIONS.md."""
        part = errors.Part()
        errors.each_call(part, self.runs, self.folder / "tried", share(errors.FEW[:6], errors.FEW))
        self.assertEqual(part.faults, [])
        self.assertGreater(part.counts["trials"], 500)


@needs_program
class Crashes(Folder):
    """What a crash of the machine may leave, by the calls of a save: each state, and the next save and load over it."""

    def setUp(self):
        super().setUp()
        if not works("strace", "-qq", "-o", "/dev/null", "true"):
            self.skipTest("there is no strace, or it may trace nothing here")

    def test_each_state(self):
        given = argparse.Namespace(program=Path(PROGRAM))
        part = crashes.all_trials(given, self.folder)
        self.assertEqual(part.faults, [])
        self.assertEqual((part.counts["states"], part.counts["recoveries"]), (428, 163))

    def test_what_would_be_wrong(self):
        """A save that does not sync its bytes, one that does not sync the folder, and one that syncs its bytes only after it gave them the name."""
        script, before = crashes.SCENARIOS["over a file"]
        steps = crashes.recorded(Path(PROGRAM), self.dir, script, before)
        bytes_, folder = ([step for step in steps if not isinstance(step, crashes.Sync) or (step.file is None) != is_folder] for is_folder in (False, True))
        self.assertEqual((len(bytes_), len(folder)), (len(steps) - 1, len(steps) - 1))
        named = next(at for at, step in enumerate(bytes_) if isinstance(step, crashes.Change) and step.gone)
        late = [*bytes_[:named + 1], *(step for step in steps if step not in bytes_), *bytes_[named + 1:]]
        for count, wrong in enumerate((bytes_, folder, late)):
            with self.subTest(count):
                self.assertTrue([told for _, _, told in crashes.crashed(before, wrong) if told])
        self.assertFalse([told for _, _, told in crashes.crashed(before, steps) if told])



@needs_program
@needs_another_user
class Access(Folder):
    """Nobody may do more with a file after a save than before."""

    OLD_GROUP, OWN_GROUP = 54400, 54401
    # A mode, and what is left of it where the group is refused: the group and all others have what both had.
    MODES = [(0o640, 0o600), (0o660, 0o600), (0o664, 0o644), (0o644, 0o644), (0o666, 0o666), (0o604, 0o600), (0o646, 0o644), (0o600, 0o600),
             (0o777, 0o777), (0o751, 0o711), (0o000, 0o000)]

    def setUp(self):
        super().setUp()
        os.chown(self.dir, nobody()["user"], self.OWN_GROUP)

    def saved(self, mode, groups):
        """The group and the mode of the file after a save over one of another group, by a user in these groups."""
        path = self.dir / NAME
        path.write_bytes(b"old")
        os.chown(path, nobody()["user"], self.OLD_GROUP)
        path.chmod(mode)
        who = {"user": nobody()["user"], "group": self.OWN_GROUP, "extra_groups": groups}
        self.assertEqual(self.replies(SAVE, **who)[-1], SAVED)
        found = os.stat(path)
        return found.st_gid, stat.S_IMODE(found.st_mode)

    def test_the_group_is_kept(self):
        for mode, _ in self.MODES:
            self.assertEqual(self.saved(mode, [self.OLD_GROUP]), (self.OLD_GROUP, mode), oct(mode))

    def test_a_group_that_is_refused(self):
        for mode, left in self.MODES:
            self.assertEqual(self.saved(mode, []), (self.OWN_GROUP, left), oct(mode))

    def test_other_bits_of_the_mode_go(self):
        for groups, group, mode in (([self.OLD_GROUP], self.OLD_GROUP, 0o754), ([], self.OWN_GROUP, 0o744)):
            self.assertEqual(self.saved(0o7754, groups), (group, mode))


@needs_program
@needs_compiler
class Pipes(Folder):
    def test_a_file_that_becomes_a_pipe_before_it_is_opened(self):
        """It is judged by what was opened. The pipe has a writer, since the opening of one would else wait for it."""
        runs, pipe = errors.Runs(self.program, self.folder), self.folder / "pipe"
        (self.dir / NAME).write_bytes(NEW)
        os.mkfifo(pipe)
        held = os.open(pipe, os.O_RDWR)
        self.addCleanup(os.close, held)
        os.write(held, NEW)
        reply, calls = runs.run('x = load "a.npy"\n', self.dir, STORE_SWAP=str(pipe))
        self.assertEqual((reply, calls[-3:]), (FAULT, [Call("look", NAME), Call("open", NAME), Call("look-open", NAME)]))
        self.assertEqual(os.read(held, 2 * len(NEW)), NEW)


@needs_program
class Folders(Folder):
    def save_from_file(self, **more):
        """The reply to a save of a script that is a file, so that the program holds five files when it syncs the folder."""
        script = self.folder / "save.bench"
        script.write_text(SAVE)
        ran = subprocess.run([self.program, "--dir", self.dir, script], stdin=subprocess.DEVNULL, capture_output=True, timeout=PATIENT, **more)
        return ran.stdout.decode().splitlines()[-1]

    def test_a_folder_that_no_handle_is_left_for(self):
        """With five files at a time the folder cannot be opened: the file has its name, and nobody says that it lasts."""
        for most, reply in ((5, FAULT), (6, SAVED)):
            self.assertEqual(self.save_from_file(preexec_fn=lambda: resource.setrlimit(resource.RLIMIT_NOFILE, (most, most))), reply)
            self.assertEqual((self.dir / NAME).read_bytes(), NEW)
            self.assertEqual(self.names(), [NAME])

    @needs_another_user
    def test_a_folder_that_may_not_be_read(self):
        """It cannot be opened to be synced."""
        os.chown(self.dir, nobody()["user"], nobody()["group"])
        self.dir.chmod(0o300)
        self.assertEqual(self.replies(SAVE, **nobody())[-1], FAULT)
        self.assertEqual((self.dir / NAME).read_bytes(), NEW)


@needs_program
class Leftovers(Folder):
    """What a killed save left, of a mode that its owner may not open it with."""

    MODES = (0o600, 0o400, 0o200, 0o000, 0o044)

    def setUp(self):
        super().setUp()
        self.who = nobody()
        if os.getuid() == 0 and not self.who:
            self.skipTest("root may open all, and no other user can run this")
        self.give(self.dir)

    def give(self, path):
        """Makes a file the one's who runs the program."""
        if self.who:
            os.chown(path, self.who["user"], self.who["group"])

    def put(self, name, content, mode):
        path = self.dir / name
        path.write_bytes(content)
        path.chmod(mode)
        self.give(path)
        return path

    def mode(self, name):
        return stat.S_IMODE(os.lstat(self.dir / name).st_mode)

    def test_the_next_save_of_its_name_removes_it(self):
        other = self.put(".b.npy.part", b"left of another", 0o600)
        for mode in self.MODES:
            self.put(NAME, b"old", mode)
            self.put(HIDDEN, b"left", mode)
            self.assertEqual(self.replies(SAVE + 'save a "a.npy"\n', **self.who)[1:], [SAVED, SAVED], oct(mode))
            self.assertEqual((self.names(), self.mode(NAME), other.read_bytes()), ([other.name, NAME], mode, b"left of another"))
            (self.dir / NAME).unlink()

    def test_one_that_a_program_still_writes_stays(self):
        for mode in self.MODES:
            part = self.put(HIDDEN, b"another's", 0o600)
            with open(part, "rb+") as held:
                part.chmod(mode)
                fcntl.flock(held, fcntl.LOCK_EX)
                self.assertEqual(self.replies(SAVE, **self.who)[-1], FAULT, oct(mode))
                self.assertEqual((self.names(), self.mode(HIDDEN), held.read()), ([HIDDEN], mode, b"another's"))
            self.assertEqual(self.replies(SAVE, **self.who)[-1], SAVED, oct(mode))
            self.assertEqual(self.names(), [NAME])
            (self.dir / NAME).unlink()

    def test_a_save_that_is_killed_over_a_file_that_may_not_be_read(self):
        if not works("strace", "-qq", "-o", "/dev/null", "true", **self.who):
            self.skipTest("there is no strace, or it may trace nothing here")
        for mode in (0o200, 0o000):
            self.put(NAME, b"old", mode)
            self.folder.chmod(0o777)
            killed = ["strace", "-qq", "-o", "/dev/null", "-e", "inject=fsync:signal=SIGKILL:when=1", self.program, "--dir", self.dir]
            subprocess.run(killed, input=SAVE.encode(), capture_output=True, timeout=PATIENT, **self.who)
            self.assertEqual((self.names(), self.mode(HIDDEN)), ([HIDDEN, NAME], mode))
            self.assertEqual(self.replies(SAVE, **self.who)[-1], SAVED)
            self.assertEqual((self.names(), self.mode(NAME)), ([NAME], mode))


if __name__ == "__main__":
    unittest.main()
