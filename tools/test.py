#!/usr/bin/env python3
"""Runs the tests of everything but the proofs: tools/test.py [WORD ..] runs those whose names have one of the words, or all.

It takes about two minutes, and needs no toolchain. On a terminal a line says how far it is. The tests run with the first `python3` of PATH
that has NumPy, if one has it; the output says which. Skipped tests are listed with the reason. The last line is `N passed, M failed,
K skipped`. With --gate, `rt ci` runs first and proves everything from scratch, then dist/ is compared with the
program that it built, and no test may be skipped because there is no program."""
import concurrent.futures
import importlib.util
import io
import os
import pathlib
import re
import shutil
import subprocess
import sys
import unittest

TOOLS = pathlib.Path(__file__).resolve().parent
TOP = TOOLS.parent
HAS_NUMPY = "import sys, numpy; sys.exit(sys.version_info < (3, 9))"
sys.path.insert(0, str(TOOLS))


class Counts:
    def __init__(self):
        self.passed, self.failed, self.left_out = 0, 0, {}

    def told(self):
        return f"{self.passed} passed, {self.failed} failed, {sum(self.left_out.values())} skipped"


def tests_of(suite):
    """The tests of a suite, and the modules that cannot be read."""
    for test in suite:
        yield from tests_of(test) if isinstance(test, unittest.TestSuite) else [test]


def name_of(test):
    """The name by which a test is run; of a step of a test, that of the test."""
    return test.id().split()[0].replace("unittest.loader._FailedTest.", "")


def batches(tests):
    """The names of tests that run one after another: each test alone, but those of a class that opens something for all of them together."""
    found = {}
    for test in tests:
        found.setdefault(type(test) if hasattr(test, "OPENS") else name_of(test), []).append(name_of(test))
    return list(found.values())


# The tests that take longest begin first, so that none of them is left alone at the end.
LONG = ("InFirefox", "InChromium", "test_types", "InJupyter", "Installed.test_wheel", "test_the_example", "test_torch", "test_what_the_cases_say", "test_death_and_hang",
        "test_judge.Planted", "test_machines", "test_faults", "test_random_scripts", "test_draw", "test_memory", "test_judge", "test_library", "test_trials", "test_page", "test_scripts",
        "test_translations", "test_shell", "test_dist", "test_saves", "test_c.", "test_run", "test_wheel", "test_launcher")


def by_length(names):
    """The place of a batch in the order in which they begin."""
    return min(next((k for k, word in enumerate(LONG) if word in name), len(LONG)) for name in names)


def show(text):
    """On a terminal, writes a line over the last one."""
    if sys.stderr.isatty():
        print(f"\r\033[K{text[:os.get_terminal_size(2).columns - 1]}", end="", file=sys.stderr, flush=True)


def results(found):
    """What `run_batch` returns of each test of some batches, as they end. Tests often wait, for a browser or a limit of time, so twice as many run at
    once as there are cores."""
    done, count = 0, sum(map(len, found))
    with concurrent.futures.ProcessPoolExecutor(2 * (os.cpu_count() or 1)) as pool:
        for each in concurrent.futures.as_completed([pool.submit(run_batch, names) for names in sorted(found, key=by_length)]):
            for result in each.result():
                done += 1
                show(f"bench: {done} of {count} tests done; {result[0]}")
                yield result
    show("")


def run_batch(names):
    """Runs tests. Of each its name, what it says about failures, and why it was skipped."""
    result = unittest.TextTestRunner(io.StringIO(), verbosity=0).run(unittest.TestSuite(map(unittest.defaultTestLoader.loadTestsFromName, names)))
    return [(name, "\n".join(told(name, result.failures + result.errors)), told(name, result.skipped)) for name in names]


def told(name, pairs):
    """What a result tells of a test, or of what its class sets up."""
    return [text for test, text in pairs if name_of(test) in (name, "setUpClass", "tearDownClass", "setUpModule")]


def with_numpy():
    """Starts this again with the first Python of PATH that has NumPy and is new enough, if this one has none."""
    found = [] if importlib.util.find_spec("numpy") else [os.path.join(folder, "python3") for folder in os.get_exec_path()]
    for path in found:
        if os.access(path, os.X_OK) and subprocess.run([path, "-c", HAS_NUMPY], capture_output=True).returncode == 0:
            os.execv(path, [path, *sys.argv])


def tell_numpy():
    """Says which Python runs the tests."""
    try:
        import numpy
        print(f"tests that need NumPy: NumPy {numpy.__version__}, {sys.executable}")
    except ImportError:
        print("tests that need NumPy: skipped, no python3 of PATH has it")


def run_tests(words, counts, is_gate):
    """Runs the tests on all cores, and reports those that failed and those that were skipped."""
    found = tests_of(unittest.defaultTestLoader.discover(str(TOOLS), "test_*.py"))
    chosen = [test for test in found if not words or any(word in name_of(test) for word in words)]
    for name, fault, reasons in list(results(batches(chosen))):
        if fault:  # On a busy machine a signal or a limit of time may come at the wrong moment.
            print(f"{fault}\n{name} is run once more, alone", flush=True)
            [(_, fault, reasons)] = run_batch([name])
        if fault or is_gate and any("no program" in why for why in reasons):
            print(f"FAILED: {name}\n{fault or reasons}", flush=True)
            counts.failed += 1
        elif reasons:
            for why in set(reasons):
                counts.left_out[why] = counts.left_out.get(why, 0) + 1
        else:
            counts.passed += 1
    tell_numpy()
    for why, count in sorted(counts.left_out.items()):
        print(f"skipped: {count}, {why}")


def prove(counts):
    """Has the toolchain's gate prove all, and then compares dist/ with what it built."""
    if shutil.which("rt") is None:
        print("bench: the gate needs rt, the command of the toolchain")
        counts.failed += 1
        return
    with subprocess.Popen(["rt", "ci"], cwd=TOP, stdout=subprocess.PIPE, stderr=subprocess.STDOUT, text=True, errors="replace") as ci:
        last = ""
        for line in ci.stdout:
            print(line, end="", flush=True)
            last = line if re.match(r"\d+ passed, \d+ failed", line) else last
    passed, failed = map(int, re.findall(r"\d+", last)[:2]) if last else (0, 1)
    counts.passed += passed
    counts.failed += failed or bool(ci.returncode)
    is_dist = subprocess.run([sys.executable, TOOLS / "make/dist.py", "--check"]).returncode == 0
    counts.passed += is_dist
    counts.failed += not is_dist


def main(words):
    for name in ("MAKEFLAGS", "MFLAGS", "MAKELEVEL", "PYTHONDONTWRITEBYTECODE"):
        os.environ.pop(name, None)
    os.environ["PYTHONPYCACHEPREFIX"] = str(TOP / "out/pycache")  # (most tests start the companion many times)
    os.environ["PATH"] = f"{pathlib.Path(sys.executable).parent}:{os.environ['PATH']}"  # (with this Python, and by no script that looks for one)
    counts, is_gate = Counts(), "--gate" in words
    if is_gate:
        os.environ["BENCH_GATE"] = "yes"
        prove(counts)
    run_tests([word for word in words if word != "--gate"], counts, is_gate)
    print(counts.told())
    return 1 if counts.failed else 0


if __name__ == "__main__":
    with_numpy()
    sys.exit(main(sys.argv[1:]))
