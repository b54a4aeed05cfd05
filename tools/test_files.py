"""The files that the program leaves in a folder: their modes, links and what is no plain file; and what it says and leaves where a device, a
limit or another program is in its way, of which these are the quick trials."""
import os
import shutil
import stat
import subprocess
import unittest

from trials.companion_trials import PATIENT, PROGRAM, InFolder, needs_compiler, needs_program
from trials import devices as hostile_devices

FAULT = b"no E27 store fault\n"


def replies(folder, script, **more):
    """The replies to a script over a folder."""
    done = subprocess.run([PROGRAM, f"--dir={folder}"], input=script.encode(), capture_output=True, timeout=PATIENT, **more)
    return done.stdout


def mode(path):
    return stat.S_IMODE(os.lstat(path).st_mode)


@needs_program
class Saving(InFolder):
    def setUp(self):
        super().setUp()
        self.file = self.folder / "a.npy"

    def saved(self, value, name="a.npy", **more):
        """The reply to a save of three bytes of one value; a header has 128."""
        return replies(self.folder, f'x = full |u1 (3) {value}\nsave x "{name}"\n', **more).partition(b"new\n")[2]

    def save(self, value, **more):
        self.assertEqual(self.saved(value, **more), b"ok save 131\n")

    def test_a_file_that_is_replaced_keeps_its_mode(self):
        self.save(1)
        for bits in (0o600, 0o640, 0o444, 0o755):
            self.file.chmod(bits)
            self.save(2)
            self.assertEqual(mode(self.file), bits)

    def test_a_new_file_has_what_the_umask_leaves(self):
        for mask in (0o022, 0o027, 0o077):
            self.file.unlink(missing_ok=True)
            self.save(1, umask=mask)
            self.assertEqual(mode(self.file), 0o666 & ~mask)

    def test_a_save_through_a_link_is_refused(self):
        self.save(1)
        old = self.file.read_bytes()
        link = self.folder / "l.npy"
        link.symlink_to("a.npy")
        self.assertEqual(self.saved(9, "l.npy"), FAULT)
        self.assertEqual(os.readlink(link), "a.npy")
        self.assertEqual(self.file.read_bytes(), old)
        self.assertEqual(replies(self.folder, 'y = load "l.npy"\n'), b"ok y |u1 (3,) new rest 0\n")

    def test_a_link_that_leads_nowhere_stays(self):
        link = self.folder / "l.npy"
        link.symlink_to("none.npy")
        self.assertEqual(self.saved(9, "l.npy"), FAULT)
        self.assertEqual(os.listdir(self.folder), ["l.npy"])
        self.assertEqual(os.readlink(link), "none.npy")
        self.assertEqual(replies(self.folder, 'y = load "l.npy"\n'), b"no E34 no such file\n")

    def test_what_is_no_plain_file_is_refused(self):
        """A load and a save of a folder or a pipe, which is not even opened, and a load of a device or of a link that leads to itself."""
        (self.folder / "folder.npy").mkdir()
        os.mkfifo(self.folder / "pipe.npy")
        links = {"zero.npy": "/dev/zero", "null.npy": "/dev/null", "circle.npy": "circle.npy"}
        for name, target in links.items():
            (self.folder / name).symlink_to(target)
        for name in ("folder.npy", "pipe.npy", *links):
            self.assertEqual(self.saved(9, name), FAULT)
            self.assertEqual(replies(self.folder, f'y = load "{name}"\n'), FAULT)
        held = os.open(self.folder / "pipe.npy", os.O_RDWR)
        self.addCleanup(os.close, held)
        os.write(held, b"\x93NUMPY")
        self.assertEqual(replies(self.folder, 'y = load "pipe.npy"\n'), FAULT)
        self.assertEqual(sorted(os.listdir(self.folder)), sorted(["folder.npy", "pipe.npy", *links]))


@needs_program
class Devices(InFolder):
    def tried(self, *kinds):
        self.folder.chmod(0o755)
        trials = hostile_devices.Trials(PROGRAM, self.folder)
        for kind in kinds:
            getattr(trials, kind)()
        self.assertEqual(trials.part.faults, [])
        self.assertGreater(trials.part.counts["trials"], 0)

    @unittest.skipUnless(shutil.which("prlimit"), "there is no prlimit")
    def test_outputs(self):
        """Standard output that is full, closed or limited, of help too."""
        self.tried("outputs")

    @unittest.skipUnless(shutil.which("prlimit"), "there is no prlimit")
    def test_limits_of_files(self):
        """A file that may not grow is a fault of the store, and leaves nothing."""
        self.tried("limited_files")

    def test_writers(self):
        """Two programs that save one name."""
        self.tried("writers")

    @needs_compiler
    def test_interrupted(self):
        """Calls that a signal interrupts."""
        self.tried("interrupted")

    def test_words_and_scripts(self):
        self.tried("words", "scripts")


if __name__ == "__main__":
    unittest.main()
