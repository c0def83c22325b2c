#!/usr/bin/env python3
"""Simulates random connections between two recorded hosts, and checks each recording.

    talks.py [--first SEED] [--count N]

It runs the program `test_runs`, built without proofs. The seed decides what happens to the segments of one talk. If
`check` doesn't answer yes to a recording, or a host receives wrong bytes, the script prints the seed, and the exit
status is 1.
"""
import argparse
import os
import subprocess
import sys

sys.dont_write_bytecode = True
sys.path.insert(0, os.path.dirname(os.path.dirname(os.path.abspath(__file__))))

from unproved import kept

# How many talks one run of the program simulates.
TALKS = 500


def main():
    parser = argparse.ArgumentParser(description=__doc__.splitlines()[0])
    parser.add_argument("--first", metavar="SEED", type=int, default=0, help="the seed of the first talk (default: 0)")
    parser.add_argument("--count", metavar="N", type=int, default=TALKS,
                        help=f"how many talks are simulated (default: {TALKS})")
    given = parser.parse_args()
    program = kept("test_runs")
    failed = 0
    for first in range(given.first, given.first + given.count, TALKS):
        count = min(TALKS, given.first + given.count - first)
        done = subprocess.run([program, "talks", str(first), str(count)], stdout=subprocess.PIPE, text=True)
        told = done.stdout.splitlines()
        failed += done.returncode != 0 or len(told) != 1
        print(f"seeds {first} to {first + count - 1}:", *told or ["the program did not end"], sep="\n    ", flush=True)
    return 1 if failed else 0


if __name__ == "__main__":
    sys.exit(main())
