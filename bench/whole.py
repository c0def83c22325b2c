#!/usr/bin/env python3
"""Compares programs `tcpwit` by instructions, processor time and peak memory.

    python3 bench/whole.py OLD NEW [--start START] [--runs N] [--only WORD]

OLD, NEW and START are programs: all proved, or all built by `stand_in.py`. START is an early one: compared with it,
small losses don't add up. Each row is a kind of case and a way to pass it. The script counts the instructions of one
run on a small case, by valgrind's tool callgrind. Then it runs the programs alternately on a larger one, N times
(default: 5), and prints the medians of processor time, including system time, and of peak memory. A dash means that an
old program refuses these words as `bad usage`. If the programs print different answers, or end with different statuses,
the last lines report it, and the status is 1.

A busy machine doesn't change the instructions. The Debian packages `valgrind` and `time` are needed: `time` starts the
programs, since the peak memory of a child of Python is at least Python's.
"""

import argparse
import os
import re
import shutil
import statistics
import subprocess
import sys
import tempfile

sys.dont_write_bytecode = True

from compare import parted, written

# The status after `bad usage`.
REFUSED = 3
CHECK = ["check"]
FILES = ["check", "--trace", "--witness"]
MANY = ["many", "--workers", "1"]

# The rows: a name, the script that writes the cases, its arguments for the small case and for the larger one, and the
# program's arguments.
ROWS = [
    ("bulk", "bulk_transfer.py", (["5000"], ["20000"]), CHECK),
    ("large", "bulk_transfer.py", (["5000", "1000"], ["5000", "1000"]), CHECK),
    ("calls", "calls.py", (["20000"], ["200000"]), CHECK),
    ("long", "long_trace.py", (["100000"], ["1000000"]), CHECK),
    ("overlapping", "overlapping_calls.py", ([], []), CHECK),
    ("colliding", "colliding_threads.py", (["73500"], ["73500"]), CHECK),
    ("made again", "made_again.py", (["32000"], ["32000"]), CHECK),
    ("out of order", "out_of_order.py", (["8000"], ["32000"]), CHECK),
    ("many", "many_cases.py", (["15"], ["150"]), MANY),
    ("many, tiny", "many_cases.py", (["2000", "2", "1"], ["50000", "2", "1"]), MANY),
    ("two files, bulk", "bulk_transfer.py", (["5000"], ["20000"]), FILES),
    ("two files, calls", "calls.py", (["20000"], ["200000"]), FILES),
]


class Result:
    """What a program printed for a row, how it ended, and what that cost."""

    def __init__(self):
        self.counted = None
        self.answers = set()
        self.instructions = 0
        self.seconds = []
        self.kilobytes = []

    def count(self, command, case):
        """Counts the instructions of a run."""
        words = ["valgrind", "--tool=callgrind", "--callgrind-out-file=/dev/null", *command]
        with open(case, "rb") as given:
            done = subprocess.run(words, stdin=given, stdout=subprocess.PIPE, stderr=subprocess.PIPE, check=False)
        collected = re.search(rb"Collected : (\d+)", done.stderr)
        if collected is None:
            sys.exit(f"{' '.join(words)}:\n{done.stderr.decode()}")
        self.counted = done.returncode, done.stdout
        self.instructions = int(collected[1])

    def run(self, command, case):
        """Measures a run. The time of `time` itself, below a millisecond, is included."""
        with open(case, "rb") as given, tempfile.TemporaryFile() as printed, tempfile.NamedTemporaryFile() as memory:
            words = ["time", "--quiet", "-f", "%M", "-o", memory.name, *command]
            child = subprocess.Popen(words, stdin=given, stdout=printed)
            _, status, usage = os.wait4(child.pid, 0)
            child.returncode = os.waitstatus_to_exitcode(status)
            printed.seek(0)
            self.answers.add((child.returncode, printed.read()))
            self.seconds.append(usage.ru_utime + usage.ru_stime)
            self.kilobytes.append(int(memory.read()))


def case_of(script, arguments, words, folder):
    """The file of a case, and the program's arguments."""
    case = written(script, arguments, os.path.join(folder, "case"))
    if words == FILES:
        trace, witness = parted(case)
        return os.devnull, ["check", "--trace", trace, "--witness", witness]
    return case, words


def measured(programs, script, sizes, words, runs):
    """The result of each program; None for those that refuse the words."""
    results = [Result() for _ in programs]
    with tempfile.TemporaryDirectory() as folder:
        case, given = case_of(script, sizes[0], words, folder)
        for result, program in zip(results, programs):
            result.count([program, *given], case)
        known = [result.counted[0] != REFUSED for result in results]
        case, given = case_of(script, sizes[1], words, folder)
        for _ in range(runs):
            for result, program, is_known in zip(results, programs, known):
                if is_known:
                    result.run([program, *given], case)
    return [result if is_known else None for result, is_known in zip(results, known)]


def agree(results):
    """Whether all programs printed the same, and ended in the same way."""
    found = [result for result in results if result]
    counted, answers = {result.counted for result in found}, {answer for result in found for answer in result.answers}
    return len(counted) < 2 and len(answers) < 2


def ratio(new, other, value):
    """NEW's value divided by the other's."""
    return f"{value(new) / value(other):.3f}" if new and other else "-"


def cells(results, value, form):
    """A cell for each program, and NEW's ratios to the others."""
    found = [format(value(result), form) if result else "-" for result in results]
    old, new, *start = results
    return [*found, *(ratio(new, other, value) for other in [old, *start])]


def row_of(name, results):
    row = [name]
    row += cells(results, lambda result: result.instructions / 1e6, ".1f")
    row += cells(results, lambda result: statistics.median(result.seconds), ".3f")
    row += cells(results, lambda result: statistics.median(result.kilobytes) / 1024, ".1f")
    return f"| {' | '.join(row)} |"


def heads(has_start):
    names = ["old", "new", "start"] if has_start else ["old", "new"]
    ratios = ["new/old", "new/start"] if has_start else ["new/old"]
    row = ["case"]
    for measure in ("M instr.", "s", "MB"):
        row += [f"{measure}: {names[0]}", *names[1:], *ratios]
    return f"| {' | '.join(row)} |\n|{'---|' * len(row)}"


def words_given():
    words = argparse.ArgumentParser(description=__doc__.splitlines()[0])
    words.add_argument("old", metavar="OLD", help="the program before a change")
    words.add_argument("new", metavar="NEW", help="the program after it")
    words.add_argument("--start", metavar="START", help="an early program, which NEW is compared with, too")
    words.add_argument("--runs", metavar="N", type=int, default=5,
                       help="how many times each case is run to measure time and memory (default: 5)")
    words.add_argument("--only", metavar="WORD", default="", help="run only the cases with this word in their name")
    words = words.parse_args()
    if words.runs < 1:
        sys.exit("N is at least 1")
    for needed in ("valgrind", "time"):
        if shutil.which(needed) is None:
            sys.exit(f"the Debian package {needed} isn't installed")
    return words


def main():
    words = words_given()
    programs = [os.path.abspath(program) for program in (words.old, words.new, words.start) if program]
    print(heads(words.start is not None))
    wrong = []
    for name, script, sizes, arguments in ROWS:
        if words.only not in name:
            continue
        results = measured(programs, script, sizes, arguments, words.runs)
        print(row_of(name, results), flush=True)
        if results[1] is None:
            wrong.append(f"{name}: NEW refuses the words")
        if not agree(results):
            wrong.append(f"{name}: the outputs differ")
    for line in wrong:
        print(line)
    return 1 if wrong else 0


if __name__ == "__main__":
    sys.exit(main())
