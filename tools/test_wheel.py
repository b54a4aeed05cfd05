"""The wheel of the companion: its bytes, and what it installs, in a new virtual environment and without network. BENCH_TESTS=all installs it
for each Python from 3.9 on that is here."""
import base64
import hashlib
import importlib.util
import os
import pathlib
import re
import shutil
import subprocess
import sys
import tempfile
import unittest
import zipfile

from trials.companion_trials import COMPANION, TOP, needs_program, share, works

sys.path.insert(0, str(COMPANION))
import backend  # noqa: E402

try:
    import tomllib
except ImportError:
    tomllib = None

PYTHONS = [sys.executable, *share([], [f"python3.{minor}" for minor in range(9, 15)])]
INSTALL = ["-m", "pip", "install", "-q", "--no-index", "--disable-pip-version-check"]
PASTED = re.search(r"(?m)^\| .*`(pip install dist/[^`]*)`", (TOP / "README.md").read_text())[1]
EXAMPLE = re.search(r"```python\n(import bench_tool, numpy\n.*?)```", (TOP / "README.md").read_text(), re.S)[1]
WHAT = "import bench_tool; bench = bench_tool.Session(); print(bench.ask('a = zeros <i4 (2)'), bench._inside is not None, bench_tool.session.find_program())"
# As far as the user's own settings go, nothing is set.
ENVIRONMENT = {name: value for name, value in os.environ.items() if not name.startswith(("BENCH", "PYTHON", "PIP"))}
needs_pip = unittest.skipUnless(importlib.util.find_spec("ensurepip"), "there is no pip for new virtual environments")


def made(folder):
    """The wheel of what is here."""
    binaries = backend.built("x86_64")
    name, data = backend.wheel(binaries, "manylinux_2_34_x86_64")
    (folder / name).write_bytes(data)
    return folder / name


def names_of_what_runs():
    """The launcher, the program and the library, as far as they are here."""
    binaries = backend.built("x86_64")
    return [f"dist/{name}" for name in binaries] + ["bench"] * bool(binaries)


class Bytes(unittest.TestCase):
    OPENS = "a wheel"

    @classmethod
    def setUpClass(cls):
        folder = tempfile.TemporaryDirectory()
        cls.addClassCleanup(folder.cleanup)
        cls.wheel = made(pathlib.Path(folder.name))

    def setUp(self):
        folder = tempfile.TemporaryDirectory()
        self.addCleanup(folder.cleanup)
        self.folder = pathlib.Path(folder.name)

    def test_the_same_bytes(self):
        """A copy of the tree with other times and modes gives the same wheel, named as pip wants it."""
        code = "import sys; sys.path.insert(0, 'companion'); import backend; open('wheel', 'wb').write(backend.wheel(backend.built('x86_64'), 'manylinux_2_34_x86_64')[1])"
        tree = self.folder / "tree"
        for path in ("companion", "docs", "dist", "vectors", "bench", "LICENSE-MIT", "LICENSE-APACHE", "out/library", "crates/bench_main/out/bench_main"):
            if (TOP / path).is_dir():
                shutil.copytree(TOP / path, tree / path, copy_function=shutil.copyfile)
            elif (TOP / path).exists():
                (tree / path).parent.mkdir(parents=True, exist_ok=True)
                shutil.copyfile(TOP / path, tree / path)
        subprocess.run([sys.executable, "-B", "-c", code], cwd=tree, check=True)
        self.assertEqual((tree / "wheel").read_bytes(), self.wheel.read_bytes())
        self.assertRegex(self.wheel.name, r"^bench_tool-[\d.]+-py3-none-manylinux_2_34_x86_64\.whl$")

    def test_record(self):
        """RECORD has each file with its sum and its size, and itself without; .dist-info comes last; what runs may be run."""
        with zipfile.ZipFile(self.wheel) as wheel:
            names = wheel.namelist()
            recorded = [line.split(",") for line in wheel.read(f"{backend.stem()}.dist-info/RECORD").decode().splitlines()]
            self.assertEqual(sorted(names), sorted(name for name, _, _ in recorded))
            for name, digest, size in recorded[:-1]:
                data = wheel.read(name)
                self.assertEqual(digest, "sha256=" + base64.urlsafe_b64encode(hashlib.sha256(data).digest()).decode().rstrip("="))
                self.assertEqual(int(size), len(data))
            self.assertEqual(recorded[-1][1:], ["", ""])
            self.assertEqual([".dist-info/" in name for name in names], sorted(".dist-info/" in name for name in names))
            runs = {entry.filename for entry in wheel.infolist() if entry.external_attr >> 16 & 0o111}
            self.assertEqual(runs, {f"bench_tool/{name}" for name in names_of_what_runs()})

    @unittest.skipUnless(tomllib, "Python has no tomllib before 3.11")
    def test_pyproject(self):
        """It is read as TOML says."""
        tables = tomllib.loads((COMPANION / "pyproject.toml").read_text())
        held = backend.project()
        self.assertEqual(held["build-system"], tables["build-system"])
        self.assertEqual(held["project"], {name: value for name, value in tables["project"].items() if not isinstance(value, dict)})
        self.assertEqual({name[8:]: table for name, table in held.items() if name.startswith("project.") and name.count(".") == 1},
                         {name: value for name, value in tables["project"].items() if isinstance(value, dict) and name != "entry-points"})

    def test_other_machines(self):
        """Where there is no program, the wheel has none, and is for all machines."""
        names = zipfile.ZipFile(self.written(*backend.wheel({}, "any"))).namelist()
        self.assertFalse([name for name in names if name == "bench_tool/bench" or "libbench" in name])
        self.assertIn("bench_tool/LANGUAGE.md", names)

    def written(self, name, data):
        self.assertRegex(name, r"-py3-none-any\.whl$")
        (self.folder / name).write_bytes(data)
        return self.folder / name


@needs_program
@needs_pip
class Installed(unittest.TestCase):
    """What the wheel installs, tried from another folder, with a PATH of the system's folders alone."""

    def setUp(self):
        folder = tempfile.TemporaryDirectory()
        self.addCleanup(folder.cleanup)
        self.folder = pathlib.Path(folder.name)

    def installed(self, venv, *what, python=sys.executable):
        """The folder of the commands of a virtual environment in which something is installed, without network."""
        if not venv.exists():
            subprocess.run([python, "-m", "venv", venv], check=True, env=ENVIRONMENT)
        subprocess.run([venv / "bin/python", *INSTALL, *what], check=True, env={**ENVIRONMENT, "HTTPS_PROXY": "http://127.0.0.1:9"})
        return venv / "bin"

    def ran(self, *words, given="", where=None, **more):
        env = {"PATH": "/usr/bin:/bin", "HOME": str(self.folder), "LANG": "C.UTF-8", "BENCH_HINT_SECONDS": "30", **more}
        done = subprocess.run(words, input=given, cwd=where or self.folder, env=env, capture_output=True, text=True)
        return done.returncode, done.stdout, done.stderr

    def answers(self, bin, is_inside=True):
        """The commands are there, and a session runs in the process."""
        self.assertEqual(self.ran(bin / "bench-tool", "--version"), (0, f"bench-tool {backend.project()['project']['version']}\n", ""))
        self.assertEqual(self.ran(bin / "bench-tool", "run", TOP / "examples/mirrored.bench"), (0, (TOP / "examples/mirrored.out").read_text(), ""))
        status, told, said = self.ran(bin / "python", "-c", WHAT)
        self.assertEqual((status, said, told.startswith(f"ok a <i4 (2,) new {is_inside} ")), (0, "", True), told)
        return told.split()[-1]

    def test_wheel(self):
        """The line of README installs the wheel for this machine."""
        (self.folder / "dist").mkdir()
        wheel = made(self.folder / "dist")
        shutil.copy(wheel, str(wheel).replace("x86_64", "another"))
        subprocess.run([sys.executable, "-m", "venv", self.folder / "venv"], check=True, env=ENVIRONMENT)
        self.bin = self.folder / "venv/bin"
        env = {**ENVIRONMENT, "PATH": f"{self.bin}:/usr/bin:/bin", "PIP_NO_INDEX": "1", "PIP_DISABLE_PIP_VERSION_CHECK": "1"}
        subprocess.run(["sh", "-c", PASTED], cwd=self.folder, check=True, env=env, stdout=subprocess.DEVNULL)
        for part in (self.commands, self.commands_with_files, self.by_the_program, self.example_of_the_readme, self.as_pipx_does, self.goes_again, self.from_a_checkout):
            with self.subTest(part.__name__):
                part()

    def commands(self):
        """Each command of bench-tool that reads scripts."""
        tool = self.bin / "bench-tool"
        self.assertTrue(self.answers(self.bin).startswith(str(self.folder)))
        listed = re.search(r"\{([\w,]+)\}|COMMAND\n((?:    .*\n)+)", self.ran(tool, "--help")[1])
        self.assertEqual(re.findall(r"(?m)^    (\w+) ", listed[2]), ["shell", "run", "show", "pack", "unpack", "draw", "judge"])
        status, told, said = self.ran(tool, "run", "--summary", "-", given='a = arange <i4 0 6 1\nb = a[6]\nsave a "a.npy"\n')
        self.assertEqual((status, told), (1, "ok a <i4 (6,) new\nno E11 index out of range\nok save 152\n"))
        self.assertIn("-:2: E11 index out of range: b = a[6]\n-:2: note: axis 0 of a has length 6", said)
        status, told, said = self.ran(tool, "show", "a.npy")
        self.assertEqual((status, told.splitlines()[-1], said), (0, "[0 1 2 3 4 5]", ""))
        status, told, said = self.ran(tool, "shell", given="a = zeros <i4 (2)\nprint a\nhelp E11\n")
        self.assertEqual((status, said), (0, ""))
        self.assertIn("[0 0]\n", told)
        self.assertIn("E11 index out of range", told)
        status, told, said = self.ran(tool, "draw", TOP / "examples/mirrored.bench")
        self.assertEqual((status, said), (0, ""))
        self.assertIn("mirrored = image[:,::-1]", told)
        if shutil.which("node", path="/usr/bin:/bin"):
            self.assertIn("<svg", self.ran(tool, "draw", TOP / "examples/mirrored.bench", "--line", "3", "--svg")[1])

    def commands_with_files(self):
        """Each command of bench-tool that has files, and the judge, with the cases of the wheel."""
        tool, raw = self.bin / "bench-tool", self.folder / "raw.bin"
        raw.write_bytes(bytes(range(6)))
        self.assertEqual(self.ran(tool, "pack", "raw.bin", "|u1", "(2,3)", "-o", "b.npy")[::2], (0, ""))
        self.assertTrue((self.folder / "b.npy").read_bytes().endswith(b"\n" + bytes(range(6))))
        self.assertEqual(self.ran(tool, "show", "b.npy")[1].splitlines()[-2:], ["[[0 1 2]", " [3 4 5]]"])
        self.assertEqual(self.ran(tool, "unpack", "b.npy", "-o", "c.bin")[::2], (0, ""))
        self.assertEqual((self.folder / "c.bin").read_bytes(), bytes(range(6)))
        status, told, said = self.ran(tool, "judge", TOP / "tools/trials/planted_adapter.py", "--only", "slices/0001")
        self.assertEqual((status, said), (0, ""))
        self.assertIn("0 findings that are wrong or deadly", told)

    def by_the_program(self):
        """Where the library cannot be loaded, a session is the program."""
        status, told, said = self.ran(self.bin / "python", "-c", WHAT, BENCH_LIBRARY="")
        self.assertEqual((status, told.split()[:6], said), (0, ["ok", "a", "<i4", "(2,)", "new", "False"], ""))
        for words, given in (("run", TOP / "examples/mirrored.bench"), ""), (("shell",), "names\n"), (("show", "b.npy"), ""), (("draw", TOP / "examples/mirrored.bench"), ""):
            self.assertEqual(self.ran(self.bin / "bench-tool", *words, given=given, BENCH_LIBRARY="")[::2], (0, ""), words)

    def example_of_the_readme(self):
        """With the NumPy that runs this test, where there is one."""
        if found := importlib.util.find_spec("numpy"):
            code = "import sys; sys.path.append(sys.argv[1])\n" + EXAMPLE
            numpy = pathlib.Path(found.origin).parents[1]
            self.assertEqual(self.ran(self.bin / "python", "-c", code, numpy), (0, "[[  0   1 128]\n [  3   4   5]]\n", ""))

    def as_pipx_does(self):
        """The command is a link in a folder of its own, outside of the environment."""
        there = self.folder / "local/bin"
        there.mkdir(parents=True)
        (there / "bench-tool").symlink_to(self.bin / "bench-tool")
        self.assertEqual(self.ran("bench-tool", "run", "-", given="names\n", where="/", PATH=f"{there}:/usr/bin:/bin"), (0, "names\n", ""))

    def goes_again(self):
        """`pip uninstall` leaves nothing."""
        subprocess.run([self.bin / "python", "-m", "pip", "uninstall", "-q", "-y", "bench-tool"], check=True, env=ENVIRONMENT, stderr=subprocess.DEVNULL)
        self.assertEqual([path for path in (self.folder / "venv").rglob("bench*") if "__pycache__" not in path.parts], [])

    def from_a_checkout(self):
        """pip builds the wheel of the folder companion/ itself, and with -e leaves the modules there."""
        tree = self.folder / "tree"
        for path in ("companion", "docs", "dist"):
            shutil.copytree(TOP / path, tree / path, ignore=shutil.ignore_patterns("__pycache__", "pictures"))
        for path in ("bench", "LICENSE-MIT", "LICENSE-APACHE"):
            shutil.copy(TOP / path, tree / path)
        self.assertTrue(self.answers(self.installed(self.folder / "venv", tree / "companion")).startswith(str(self.folder / "venv")))
        if works(sys.executable, "-c", "import pip; assert int(pip.__version__.split('.')[0]) >= 22"):
            self.assertEqual(self.answers(self.installed(self.folder / "venv", "-e", tree / "companion")), str(tree / "bench"))

    def test_each_python(self):
        for python in PYTHONS[1:]:
            if works(python, "-m", "ensurepip", "--version"):
                with self.subTest(python):
                    self.answers(self.installed(self.folder / pathlib.Path(python).name, made(self.folder), python=python))


if __name__ == "__main__":
    unittest.main()
