#!/usr/bin/python3
"""Tests tools/runs.py: what a run must print, and how it may fail. Scripts replace the programs."""
import contextlib
import io
import os
import sys
import tempfile
import unittest
from unittest import mock

sys.path.insert(0, os.path.dirname(os.path.abspath(__file__)))
import runs

# Prints its last word; the word 3 is also its status.
PROGRAM = """#!/bin/sh
for word in "$@"; do :; done
echo "$word"
[ "$word" != 3 ] || exit 3
"""


class Runs(unittest.TestCase):
    def setUp(self):
        folder = tempfile.TemporaryDirectory()
        self.addCleanup(folder.cleanup)
        self.program = f"{folder.name}/program"
        with open(self.program, "w", encoding="ascii") as file:
            file.write(PROGRAM)
        os.chmod(self.program, 0o755)

    def printed(self, *chosen, words=()):
        """The status and the output of runs.py, if these are all runs."""
        out = io.StringIO()
        with mock.patch.object(runs, "runs", lambda: chosen), mock.patch.object(runs, "kept", lambda _: self.program), \
                mock.patch.object(sys, "argv", ["runs.py", *words]), contextlib.redirect_stdout(out):
            status = runs.main()
        return status, out.getvalue().splitlines()

    def test_what_fails(self):
        status, lines = self.printed(runs.Run("right", ["test_runs", "1"], wanted="1\n"),
                                     runs.Run("other", ["test_runs", "1"], wanted="2\n"),
                                     runs.Run("ended", ["test_runs", "3"], wanted="3\n"))
        self.assertEqual(status, 1)
        self.assertRegex(lines[0], "^right: passed, in ")
        self.assertEqual(lines[1:], ["other: FAILED: status 0, and it printed", "1",
                                     "ended: FAILED: status 3, and it printed", "3", "1 runs passed, 2 failed"])

    def test_a_run_that_takes_too_long(self):
        with mock.patch.object(runs, "LIMIT", 0):
            status, lines = self.printed(runs.Run("slow", ["test_runs", "1"], wanted="1\n"))
        self.assertEqual((status, lines[0]), (1, "slow: FAILED: it takes more than 0 seconds"))

    def test_no_run_has_the_name(self):
        self.assertEqual(self.printed(runs.Run("one", ["test_runs", "1"]), words=["two"]),
                         (1, ["0 runs passed, 0 failed"]))

    def test_each_test_is_a_run(self):
        names = [run.name for run in runs.runs()]
        self.assertEqual(names[:2], ["test_cases", "bench_jobs"])
        self.assertIn("workers::two_workers_wait_for_each_other", names)
        self.assertEqual(len(names), len(set(names)))


if __name__ == "__main__":
    unittest.main()
