#!/usr/bin/env python3
"""Checks each kind of `hostile_cases.py` in three sizes, each double the last, and prints time and memory.

    python3 bench/hostile_sizes.py PROGRAM [--lab PROGRAM] [--runs N] [--only WORD]

The result of N runs (default: 3) is the least processor time, including system time, and the peak memory. Both are
printed for `check` and for the same case as two files, with the largest ratio between one size and the previous one. If
a ratio of time or memory is above 2.3, or a verdict is wrong, the last lines report it, and the status is 1.

With --lab, which names `tcpwit_lab`, the kinds for `find` follow. Their rows begin with `find`, and show its cost on
the trace of the kind. PROGRAM then checks the case that was found, which isn't timed. Without --lab, these kinds are
left out.
"""

import argparse
import multiprocessing
import os
import sys
import tempfile

from compare import MOST_GROWTH, Cost, parted
from hostile_cases import FIND_KINDS, KINDS, verdict_of

# Time or memory below this is mostly that of starting, so its growth isn't checked: seconds and megabytes.
LEAST_SECONDS = 0.05
LEAST_MEGABYTES = 10


class Growth:
    """The cost of one way of checking, for each size."""

    def __init__(self, words, name):
        self.words = words
        self.name = name
        self.costs = []

    def ratio(self, value, least):
        values = [max(value(cost), least) for cost in self.costs]
        return max(later / earlier for earlier, later in zip(values, values[1:]))

    def cells(self):
        found = [f"{cost.seconds:.2f} s, {cost.megabytes:.0f} MB" for cost in self.costs]
        time = self.ratio(lambda cost: cost.seconds, LEAST_SECONDS)
        memory = self.ratio(lambda cost: cost.megabytes, LEAST_MEGABYTES)
        return found + [f"{time:.2f} / {memory:.2f}"], max(time, memory) > MOST_GROWTH


def write_case(function, size, path):
    """Writes the case of a kind and a size. Returns the verdict that it must have."""
    case = function(size)
    with open(path, "w") as text:
        case.write(text)
    return verdict_of(case)


def written_apart(function, size, path):
    """The same in a process of its own, because this process's memory would count as the program's."""
    with multiprocessing.Pool(1) as pool:
        return pool.apply(write_case, (function, size, path))


def differing(growth, printed, wanted):
    return [] if printed == wanted.encode() + b"\n" else [f"{growth.name}: {printed!r} instead of {wanted!r}"]


class Checking:
    """A kind of case that is checked as one text and as two files."""

    def __init__(self, program, name):
        self.growths = [Growth(program, name), Growth(program, name + ", two files")]

    def run_size(self, path, wanted, runs):
        """Adds the cost of one size each way. Returns the wrong verdicts."""
        files = parted(path)
        ways = [(["check"], path), (["check", "--trace", files[0], "--witness", files[1]], os.devnull)]
        told = []
        for growth, (words, text) in zip(self.growths, ways):
            cost = Cost()
            for _ in range(runs):
                cost.run([*growth.words, *words], text)
            growth.costs.append(cost)
            told += differing(growth, cost.printed, wanted)
        return told


class Finding:
    """A kind of trace for which a witness is found."""

    def __init__(self, program, lab, name):
        self.program = program
        self.growths = [Growth(lab, "find: " + name)]

    def run_size(self, path, wanted, runs):
        """Adds the cost of `find` for one size. Returns the verdict on the case that it found, if that is wrong."""
        (growth,) = self.growths
        trace, _ = parted(path)
        found = path + ".found"
        cost, check = Cost(), Cost()
        for _ in range(runs):
            with open(found, "wb") as case:
                cost.run_into([*growth.words, "find"], trace, case)
        growth.costs.append(cost)
        check.run([*self.program, "check"], found)
        return differing(growth, check.printed, wanted)


def kinds_of(program, lab):
    """For each kind, how it is run, its function and its sizes. Kinds for `find` need a lab."""
    found = [(Checking(program, name), *made) for name, made in KINDS.items()]
    if lab is not None:
        found += [(Finding(program, [os.path.abspath(lab)], name), *made) for name, made in FIND_KINDS.items()]
    return found


def main():
    parser = argparse.ArgumentParser(description=__doc__.splitlines()[0])
    parser.add_argument("program", metavar="PROGRAM", help="the program tcpwit")
    parser.add_argument("--lab", metavar="PROGRAM", help="the program tcpwit_lab; adds the kinds for find")
    parser.add_argument("--runs", metavar="N", type=int, default=3,
                        help="how many times each case runs; the least time counts (default: 3)")
    parser.add_argument("--only", metavar="WORD", default="", help="run only the kinds with this word in their name")
    given = parser.parse_args()
    told = []
    print("| kind | size | half | once | twice | time / memory |\n|" + "---|" * 6)
    with tempfile.TemporaryDirectory() as folder:
        path = os.path.join(folder, "case")
        for way, function, sizes in kinds_of([os.path.abspath(given.program)], given.lab):
            if given.only not in way.growths[0].name:
                continue
            for size in sizes:
                told += way.run_size(path, written_apart(function, size, path), given.runs)
            for growth in way.growths:
                cells, is_steep = growth.cells()
                told += [f"{growth.name} grows faster than its size"] if is_steep else []
                print("| " + " | ".join([growth.name, f"{sizes[1]:,}", *cells]) + " |", flush=True)
    if given.lab is None:
        print(f"The {len(FIND_KINDS)} kinds for `find` are left out: they need --lab.")
    for line in told:
        print(line)
    return 1 if told else 0


if __name__ == "__main__":
    sys.exit(main())
