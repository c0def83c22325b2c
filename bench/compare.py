#!/usr/bin/env python3
"""Times a checker on all cases of this folder, optionally compares it with another one, and prints the ratios.

    python3 bench/compare.py OURS [OTHER] [--runs N] [--only WORD]

OURS and OTHER are programs that support `check` and `many --workers 1` on standard input. Their runs alternate. The
result of N runs (default: 5) is the least processor time, including system time, and the peak memory. A case that can
grow is run at one size and at twice that size; OURS may take at most 2.3 times as long for the second. Each single case
is also timed for OURS as two files. If OURS takes longer, or answers differ, the last lines report it, and the status
is 1.
"""

import argparse
import os
import subprocess
import sys
import tempfile

BENCH = os.path.dirname(os.path.abspath(__file__))
MOST_GROWTH = 2.3

# The runs: a name, the script, its arguments at one size and at twice that size (or None), and the program's arguments.
CASES = [
    ("whole transfer", "bulk_transfer.py", (["20000"], ["40000"]), ["check"]),
    ("large segments", "bulk_transfer.py", (["5000", "1000"], ["10000", "1000"]), ["check"]),
    ("calls in turn", "calls.py", (["200000"], ["400000"]), ["check"]),
    ("calls open at once", "overlapping_calls.py", None, ["check"]),
    ("reading alone", "long_trace.py", None, ["check"]),
    ("colliding threads", "colliding_threads.py", (["73500"], ["147000"]), ["check"]),
    ("bytes made again", "made_again.py", (["32000"], ["64000"]), ["check"]),
    ("pieces out of order", "out_of_order.py", (["32000"], ["64000"]), ["check"]),
    ("many cases", "many_cases.py", None, ["many", "--workers", "1"]),
]


class Cost:
    """The least processor time in seconds, the greatest memory in megabytes, and what was printed."""

    def __init__(self):
        self.seconds = float("inf")
        self.megabytes = 0.0
        self.printed = None

    def run(self, words, text):
        with tempfile.TemporaryFile() as printed:
            self.run_into(words, text, printed)
            printed.seek(0)
            self.printed = printed.read()

    def run_into(self, words, text, printed):
        """The same, but the output goes to this file and isn't kept."""
        with open(text, "rb") as given:
            child = subprocess.Popen(words, stdin=given, stdout=printed)
            _, status, usage = os.wait4(child.pid, 0)
        child.returncode = os.waitstatus_to_exitcode(status)
        if child.returncode not in (0, 1, 2):
            sys.exit(f"{' '.join(words)} ended with status {child.returncode}")
        self.seconds = min(self.seconds, usage.ru_utime + usage.ru_stime)
        self.megabytes = max(self.megabytes, usage.ru_maxrss / 1024)


def written(script, arguments, path):
    with open(path, "wb") as text:
        subprocess.run([sys.executable, os.path.join(BENCH, script), *arguments], stdout=text, check=True)
    return path


def parted(path):
    """The trace and the witness of a case as two files, or None if it has no witness."""
    names = path + ".trace", path + ".witness"
    has_witness = False
    with open(path, "rb") as case, open(names[0], "wb") as trace, open(names[1], "wb") as witness:
        for line in case:
            has_witness = has_witness or line.startswith(b"witness ")
            (witness if has_witness else trace).write(line)
    return names if has_witness else None


def measured(programs, words, path, runs):
    """The cost of each program, and of OURS with two files."""
    costs = [Cost() for _ in programs]
    files = parted(path) if words == ["check"] else None
    by_files = Cost() if files else None
    for _ in range(runs):
        for program, cost in zip(programs, costs):
            cost.run([program, *words], path)
        if files:
            by_files.run([programs[0], "check", "--trace", files[0], "--witness", files[1]], os.devnull)
    return costs, by_files


def row(name, costs, by_files):
    cells = [f"{cost.seconds:.2f} s, {cost.megabytes:.0f} MB" for cost in costs]
    cells.append(f"{by_files.seconds:.2f} s, {by_files.megabytes:.0f} MB" if by_files else "")
    if len(costs) == 2:
        ours, other = costs
        cells.append(f"{ours.seconds / other.seconds:.2f} / {ours.megabytes / other.megabytes:.2f}")
    return f"| {name} | " + " | ".join(cells) + " |"


def main():
    parser = argparse.ArgumentParser(description=__doc__.splitlines()[0])
    parser.add_argument("programs", metavar="PROGRAM", nargs="+",
                        help="the checker, and optionally another one to compare it with")
    parser.add_argument("--runs", metavar="N", type=int, default=5,
                        help="how many times each case runs; the least time counts (default: 5)")
    parser.add_argument("--only", metavar="WORD", default="", help="run only the cases with this word in their name")
    given = parser.parse_args()
    programs = [os.path.abspath(program) for program in given.programs[:2]]
    heads = ["case", "ours", "the other", "ours, two files", "time / memory of ours to the other's"]
    if len(programs) == 1:
        heads = ["case", "ours", "ours, two files"]
    print("| " + " | ".join(heads) + " |\n|" + "---|" * len(heads))
    wrong = []
    with tempfile.TemporaryDirectory() as folder:
        path = os.path.join(folder, "case")
        for name, script, sizes, words in CASES:
            if given.only not in name:
                continue
            seconds = []
            for arguments in sizes or ([],):
                costs, by_files = measured(programs, words, written(script, arguments, path), given.runs)
                case = " ".join([name, *arguments])
                print(row(case, costs, by_files), flush=True)
                seconds.append(costs[0].seconds)
                if len({cost.printed for cost in [*costs, by_files] if cost}) > 1:
                    wrong.append(f"{case}: the answers differ")
            if sizes and seconds[1] > MOST_GROWTH * seconds[0]:
                wrong.append(f"{name}: {seconds[1] / seconds[0]:.2f} times as long for twice the size")
    for line in wrong:
        print(line)
    return 1 if wrong else 0


if __name__ == "__main__":
    sys.exit(main())
