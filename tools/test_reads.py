"""A run goes on for as long as its script does: 70,000 lines, each of which is a read of its own."""
import os
import subprocess
import unittest

from trials.companion_trials import PATIENT, PROGRAM, environment, needs_program

LINES = 70_000


@needs_program
class ManyReads(unittest.TestCase):
    def test_each_line_is_a_read(self):
        """The next line is written when the reply to the last one has come, so no read can take two."""
        with subprocess.Popen([PROGRAM], stdin=subprocess.PIPE, stdout=subprocess.PIPE, env=environment(), bufsize=0) as program:
            assert program.stdin and program.stdout
            for line in range(LINES):
                program.stdin.write(b"print x\n")
                self.assertEqual(os.read(program.stdout.fileno(), 100), b"no E06 unknown name\n", f"line {line}")
            program.stdin.close()
            self.assertEqual(program.stdout.read(), b"")
            self.assertEqual(program.wait(PATIENT), 1)
