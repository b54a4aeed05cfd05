"""Each request for memory that a script makes is refused in turn, one in each run. The line that lacks it is answered `no E40 out of memory`,
and everything else, replies and files, is as in a run without that line.

This needs a C compiler, for the `malloc` that refuses. `tools/try hostile memory` does the same with random scripts."""
import pathlib
import random
import re
import shutil
import subprocess
import tempfile
import unittest

from trials.companion_trials import PATIENT, PROGRAM, needs_compiler, needs_program, share, works
from trials import memory
from trials.lines import own_scripts, random_script
from trials.runs import Part, Runner, compiled

MOST_REQUESTS, LEAST_SCRIPTS = share(80, 150), share(0, 40)  # (without the second, the scripts of the repository alone)
COMMANDS = set("""zeros full arange array field transpose reshape broadcast copy cast load set upd save del undo names print info format shares
add neg sum""".split())


@needs_program
@needs_compiler
class RefusedMemory(unittest.TestCase):
    @classmethod
    def setUpClass(cls):
        cls.folder = pathlib.Path(tempfile.mkdtemp())
        cls.addClassCleanup(shutil.rmtree, cls.folder)
        cls.library = compiled("refuse_memory.c", cls.folder / "refuse_memory.so")

    def test_each_request_of_each_script(self):
        part = Part()
        rng = random.Random(1)
        scripts = own_scripts()
        scripts += [random_script(PROGRAM, rng, number) for number in range(LEAST_SCRIPTS - len(scripts))]
        for script in scripts:
            with Runner(PROGRAM) as runner:
                trial = memory.Refusing(runner, part, script.asking(), self.library)
                trial.refuse(MOST_REQUESTS)
        self.assertEqual(part.faults, [])
        self.assertGreater(part.counts["with E40"], share(500, 1000), part.counts)

    def requests(self, depth, *lines):
        """How many requests for memory the program makes for a script, whose last line is accepted."""
        counted = memory.Requests(self.library, self.folder)
        done = subprocess.run([PROGRAM, "--undo", str(depth)], input="\n".join(lines).encode(), stdout=subprocess.PIPE, env=counted.refusing(0))
        self.assertRegex(done.stdout.decode().splitlines()[-1], "^ok ")
        return counted.counts()[0]

    def test_lines_that_ask_for_no_memory(self):
        """A shift or a reversal in place, and `undo`: a hundred lines make as many requests as ten. (A list of two index items needs room.)"""
        for line in ("set a[1:] = a[:-1]", "set a[:-1] = a[1:]", "set r[:] = r[::-1]", "set t[1:] = t[:-1]", "set a[3] = a[4]", "set a[3] = 7"):
            with self.subTest(line):
                few, many = (self.requests(0, "a = zeros <i8 (30,40)", "t = transpose a", "r = a[0]", *[line] * count) for count in (10, 100))
                self.assertEqual(many, few)
        written = ["a = zeros <i8 (30,40)", *["set a[1:] = a[:-1]"] * 64]
        self.assertEqual(self.requests(64, *written, *["undo"] * 64), self.requests(64, *written, "undo"))

    def test_the_scripts_reach_every_command(self):
        verb = re.compile(rb"(?:\w+ = )?([a-z]+)\b")
        reached = {found[1].decode() for script in own_scripts() for line in script.lines if (found := verb.match(line))}
        self.assertLessEqual(COMMANDS, reached)


@needs_program
class LittleMemory(unittest.TestCase):
    """Lines that hold little beside their arrays and their result, tried with little memory."""

    def limited(self, kilobytes):
        """The program with so much memory and 15 seconds."""
        words = ["sh", "-c", f'ulimit -v {kilobytes}; ulimit -t 15; exec "$@"', "sh", PROGRAM]
        if not works(*words):
            self.skipTest("the program does not start with as little memory")
        return words

    def last_reply(self, kilobytes, *lines):
        replies = subprocess.run(self.limited(kilobytes), input="\n".join(lines).encode(), capture_output=True, timeout=PATIENT).stdout
        return replies[replies.rindex(b"\n", 0, -1) + 1 :]

    def test_a_long_print_is_sent_as_it_is_made(self):
        """32 MB of text, with 20 MB of memory for all."""
        last = self.last_reply(20_000, "a = zeros |u1 (1)", "b = broadcast a (4096,4096)", "print b")
        self.assertEqual(last, b" [" + b" ".join([b"0"] * 4096) + b"]]\n")

    def test_items_that_are_repeated_are_measured_once(self):
        """Of 10 GB of text the first 64 KB come at once: 256 values are measured, not 256 at each of 2^24 places, which would take half a minute."""
        row = "T{" + "".join(f"b:f{k}:" for k in range(64)) + "}"
        lines = [f"a = zeros T{{{row}:p:{row}:q:{row}:r:{row}:s:}} (1)", "b = broadcast a (16777216)", "print b"]
        text = f"[({', '.join(['(' + ', '.join(['0'] * 64) + ')'] * 4)})"
        with tempfile.TemporaryFile() as script:
            script.write("\n".join(lines).encode())
            script.seek(0)
            with subprocess.Popen(self.limited(70_000), stdin=script, stdout=subprocess.PIPE, stderr=subprocess.DEVNULL) as bench:
                said = bench.stdout.read(2**16)
                bench.stdout.close()
        self.assertEqual(said[said.index(b"[") :][: len(text)].decode(), text)
        self.assertEqual(bench.returncode, 3)

    def test_index_arrays_are_added_one_at_a_time(self):
        """The result is 4 MB. Each place has a number of 4 bytes, and one more while an array is read."""
        last = self.last_reply(70_000, "z = zeros <i4 (1)", "i = broadcast z (4194304)", "a = zeros |u1 (1,1,1,1,1,1,1,1)", "x = a[i,i,i,i,i,i,i,i]")
        self.assertEqual(last, b"ok x |u1 (4194304,) copy\n")


if __name__ == "__main__":
    unittest.main()
