"""Tests the processes of tcpwit-judge: the order of results, and what SIGTERM leaves."""
import gzip
import json
import os
import signal
import subprocess
import sys
import time
import unittest
from types import SimpleNamespace
from unittest import mock

from tcpwit_importer.commands import workers
from tcpwit_importer.commands.workers import Results

from . import test_judge
from .wire import Talk

COMMAND = os.path.realpath(f"{__file__}/../../tcpwit-judge")
# A lab that writes its number to a file and never answers.
SLOW = """#!/bin/sh
[ "$*" = judge ] && exit 2
read line
echo $$ > {folder}/labs/$$
exec sleep 60
"""
# One that writes its number, too, and answers many traces.
QUICK = """#!/bin/sh
[ "$*" = judge ] && exit 2
echo $$ > {folder}/labs/$$
while read -r line; do if [ "$line" = end ]; then echo '{answer}'; fi; done
"""


class Naming:
    """Judges connections of which only the count is known. The first one takes longest."""

    @staticmethod
    def result(number, connection):
        time.sleep(0.3 if number == 1 else 0)
        return number, connection.count


def with_counts(counts):
    """Connections with these counts of packets."""
    return [SimpleNamespace(count=count) for count in counts]


class Order(unittest.TestCase):
    def test_results_come_in_order(self):
        for count in (1, 20, 100):
            connections, expected = with_counts(range(count)), [(at + 1, at) for at in range(count)]
            for jobs in (1, 2, 50):
                for ahead in (workers.AHEAD, 1):
                    with mock.patch.object(workers, "AHEAD", ahead):
                        self.assertEqual(list(Results(Naming, connections, jobs).in_order()), expected)

    def test_groups(self):
        for counts, jobs, sizes in (([1] * 40, 2, [2] * 20), ([1] * 1000, 1, [32] * 31 + [8]), ([5] * 3, 2, [1] * 3),
                                    ([9, 990, 2, 3000, 5] + [1] * 95, 1, [3, 1] + [12] * 8)):
            groups = list(Results(Naming, with_counts(counts), jobs).groups())
            self.assertEqual([len(group) for group in groups], sizes)
            self.assertEqual([place for group in groups for place in group], list(range(len(counts))))

    def test_results_that_wait_count_as_done(self):
        results = Results(Naming, with_counts(range(20)), 2)
        self.assertEqual(results.done, 0)
        found = results.in_order()
        next(found)
        self.assertGreater(results.done, 5)
        self.assertEqual(len(list(found)), 19)
        self.assertEqual(results.done, 20)


class Terminated(test_judge.WithCaptures):
    def setUp(self):
        super().setUp()
        for name in ("labs", "kept"):
            os.mkdir(f"{self.folder}/{name}")
        self.program = f"{self.folder}/slow"
        with open(self.program, "w", encoding="ascii") as file:
            file.write(SLOW.format(folder=self.folder))
        os.chmod(self.program, 0o755)

    def terminated(self, words, labs, source=subprocess.DEVNULL):
        """Starts the command, and ends it by SIGTERM once so many labs run. Returns its status and messages."""
        words = [sys.executable, COMMAND, *words, "--lab", self.program, "--host", "client"]
        with subprocess.Popen(words, stdin=source, stdout=subprocess.DEVNULL, stderr=subprocess.PIPE,
                              env=os.environ | {"TMPDIR": f"{self.folder}/kept"}) as process:
            latest = time.monotonic() + 60
            while len(os.listdir(f"{self.folder}/labs")) < labs and time.monotonic() < latest:
                time.sleep(0.05)
            process.terminate()
            _, error = process.communicate(timeout=60)
        return process.returncode, error

    def check(self, *found, labs):
        """Checks that nothing is left."""
        self.assertEqual(found, (128 + signal.SIGTERM, b""))
        self.assertEqual(len(os.listdir(f"{self.folder}/labs")), labs)
        for number in os.listdir(f"{self.folder}/labs"):
            with self.assertRaises(ProcessLookupError):
                os.kill(int(number), 0)
        self.assertEqual(os.listdir(f"{self.folder}/kept"), [])

    def compressed(self):
        """A compressed capture of three connections, which is copied."""
        for port in (1, 2):
            self.talk.frames[0] += Talk(zero=("10.9.0.1", port)).frames[0]
        name, = self.files(hosts=(0,))
        with open(name, "rb") as plain, gzip.open(name + ".gz", "wb") as packed:
            packed.write(plain.read())
        return name + ".gz"

    def test_one_process(self):
        self.check(*self.terminated([self.compressed(), "--jobs", "1"], 1), labs=1)

    def test_several_processes(self):
        self.check(*self.terminated([self.compressed(), "--jobs", "2"], 2), labs=2)

    def test_annotations_and_reports(self):
        self.check(*self.terminated([self.compressed(), "--jobs", "2", "--annotate", f"{self.folder}/out"], 2), labs=2)
        self.assertFalse(os.path.exists(f"{self.folder}/out"))

    def test_no_lab_outlasts_the_command(self):
        with open(self.program, "w", encoding="ascii") as file:
            file.write(QUICK.format(folder=self.folder, answer=json.dumps(test_judge.YES | {"status": 0})))
        capture = self.compressed()
        for source, words in ((None, [capture, "--jobs", "1"]), (None, [capture, "--jobs", "2"]),
                              (capture, ["-", "--jobs", "2"])):
            with gzip.open(source or capture, "rb") as file:
                done = subprocess.run([sys.executable, COMMAND, *words, "--lab", self.program, "--host", "client"],
                                      input=file.read(), capture_output=True, check=False, timeout=60)
            self.assertIn(b"3 connections: 3 yes, 0 no.", done.stdout, words)
            numbers = os.listdir(f"{self.folder}/labs")
            self.assertTrue(numbers)
            for number in numbers:
                with self.assertRaises(ProcessLookupError):
                    os.kill(int(number), 0)
                os.remove(f"{self.folder}/labs/{number}")

    def test_standard_input_that_goes_on(self):
        name, = self.files(hosts=(0,))
        with open(name, "rb") as file:
            data = file.read()
        source, sink = os.pipe()
        self.addCleanup(os.close, sink)
        os.write(sink, data)
        with open(source, "rb") as file:
            self.check(*self.terminated(["-", "--jobs", "2", "--idle", "1"], 1, file), labs=1)


if __name__ == "__main__":
    unittest.main()
