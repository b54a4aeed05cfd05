"""The companion with odd lines, headers, settings and keys, for eight seconds; the trial of a night is `tools/try companion --seconds 3600`."""
import argparse
import random
import unittest
from pathlib import Path

from trials import companion_faults
from trials.companion_trials import PROGRAM, InFolder, needs_program, share
from trials.runs import Part


@needs_program
class Companion(InFolder):
    def test_nothing_is_left_to_a_person(self):
        given = argparse.Namespace(program=Path(PROGRAM), seed=share(1, random.randrange(1 << 30)), seconds=share(8, 600))
        part = companion_faults.all_trials(given, self.folder)
        self.assertEqual(part.faults, [], f"seed {given.seed}")
        for what, least in (("refused lines", 1), ("headers", 1), ("commands", 1), ("shells", 1)):
            self.assertGreaterEqual(part.counts[what], least)

    def test_the_trial_finds_a_fault(self):
        """An exception of a hint, of `show`, and of the shell is found."""
        from unittest import mock
        from bench_tool import hints, show
        given = argparse.Namespace(program=Path(PROGRAM), seed=1, seconds=10)
        lines = mock.patch.object(companion_faults, "refused_lines", lambda _: iter(["x = a[99]"]))
        with lines, mock.patch.object(hints.Numbers, "_e11", lambda _: 1 // 0):
            part = Part()
            companion_faults.hints_of_lines(part, given, random.Random(1), companion_faults.time.monotonic() + 600)
            self.assertIn("ZeroDivisionError", {happened.partition(":")[0] for _, happened, _ in part.faults})
        with mock.patch.object(show, "explained", lambda _: [1 // 0]):
            part = Part()
            companion_faults.headers(part, self.folder, random.Random(1), companion_faults.time.monotonic() + 1)
            self.assertTrue(part.faults)


if __name__ == "__main__":
    unittest.main()
