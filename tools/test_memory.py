#!/usr/bin/python3
"""Tests how much memory `tcpwit_lab` needs for a long transfer."""
import os
import shlex
import subprocess
import sys
import tempfile
import unittest

sys.dont_write_bytecode = True
TOP = os.path.dirname(os.path.dirname(os.path.abspath(__file__)))
LAB = shlex.split(os.environ.get("TCPWIT_LAB", f"{TOP}/tcpwit_lab"))
ROUNDS, SIZE = 3000, 1460
# Ports that no call opened.
UNEXPLAINED = "999999999 9 O 0 0fa1005000000001000000005010200000000000\n"
DONE, NO = 0, 1
# Runs the program that its words name; prints its status and its peak memory in kilobytes.
MEASURE = """
import os, sys
_, ended, usage = os.wait4(os.spawnvp(os.P_NOWAIT, sys.argv[1], sys.argv[1:]), 0)
print(os.waitstatus_to_exitcode(ended), usage.ru_maxrss, file=sys.stderr)
"""


def write_transfer(name):
    """Writes the trace of a transfer of ROUNDS segments with SIZE bytes each. It has each byte four times, in hex."""
    words = [sys.executable, f"{TOP}/bench/bulk_transfer.py", str(ROUNDS), str(SIZE)]
    with (open(name, "w", encoding="ascii") as file,
          subprocess.Popen(words, stdout=subprocess.PIPE, text=True) as generator):
        is_witness = False
        for line in generator.stdout:
            is_witness = is_witness or line.startswith("witness")
            if not is_witness:
                file.write(line)


class Memory(unittest.TestCase):
    def setUp(self):
        folder = tempfile.TemporaryDirectory()
        self.addCleanup(folder.cleanup)
        self.case, self.trace = f"{folder.name}/run.case", f"{folder.name}/run.trace"
        write_transfer(self.trace)

    def peak(self, status, *words):
        """The largest memory of a subcommand that ends with this status, in bytes for each byte of the trace. The
        memory of the process that runs the program counts until the program starts, so a small one does."""
        with open(self.trace, "rb") as source:
            measured = subprocess.run([sys.executable, "-c", MEASURE, *LAB, *words], stdin=source,
                                      stdout=subprocess.DEVNULL, stderr=subprocess.PIPE)
        ended, kilobytes = measured.stderr.split()[-2:]
        self.assertEqual(int(ended), status)
        return int(kilobytes) * 1024 / os.path.getsize(self.trace)

    def test_judge(self):
        self.assertLess(self.peak(DONE, "judge", "--case", self.case), 3)

    def test_judge_without_a_yes(self):
        with open(self.trace, "a", encoding="ascii") as file:
            file.write(UNEXPLAINED)
        self.assertLess(self.peak(NO, "judge", "--budget", "0"), 3)

    def test_judge_with_a_late_duty(self):
        # The last segment of the receiver, its acknowledgment, is missing in both captures.
        with open(self.trace, encoding="ascii") as file:
            lines = file.readlines()[:-2]
        end = int(lines[-1].split()[0]) + 10_000_000
        with open(self.trace, "w", encoding="ascii") as file:
            file.writelines([*lines, f"{end} 9 B status 0\n", f"{end} 9 E badsocket\n"])
        self.assertLess(self.peak(NO, "judge", "--case", self.case, "--budget", "0"), 3)

    def test_find(self):
        self.assertLess(self.peak(DONE, "find"), 3)


if __name__ == "__main__":
    unittest.main()
