#!/usr/bin/env python3
"""Writes a case with many threads whose numbers collide in a hash table to standard output.

    python3 bench/colliding_threads.py [THREADS]

Each thread begins and ends a `status` call. The toolchain's hash function has a fixed seed. It maps the chosen numbers
to one 32nd of the slots of a table of that size. A check that keeps threads in such a table searches a large part of it
for each thread, and takes four times as long for twice as many threads.

THREADS is their number (default: 147,000). The verdict on N threads is `yes A B` with A = 2 N and B = N.
"""

import sys

COUNT = 147_000
FIRST_EVENT_LINE = 7
HEADER = ["trace 1", "skew 0", "msl 120000000", "grain 1000", "minrto 1000000", "extra 0"]

# The toolchain's hasher: its initial state, its multiplier for four bytes, and the number of slots in a group.
START = 0x243F6A8885A308D3
FACTOR = 0x9E3779B97F4A7C15 ^ 8
GROUP_LOAD = 9
# The part of the slots where the hashes begin.
CROWD = 32

LOW_64 = 2**64 - 1
LOW_32 = 2**32 - 1


def colliding(count):
    """This many 32-bit numbers whose hashes begin in the first slots of a table of that size."""
    groups = 1
    while GROUP_LOAD * groups < count:
        groups *= 2
    mask, crowded = groups - 1, max(groups // CROWD, 1)
    found, number = [], 0
    while len(found) < count:
        product = (START ^ (number | number << 32)) * FACTOR
        mixed = (product & LOW_64) ^ (product >> 64)
        if ((mixed ^ (mixed >> 32)) & LOW_32 & mask) < crowded:
            found.append(number)
        number += 1
    return found


def main():
    if "--help" in sys.argv:
        print(__doc__.strip())
        return
    count = int(sys.argv[1]) if len(sys.argv) > 1 else COUNT
    threads = colliding(count)
    write = sys.stdout.write
    for line in HEADER:
        write(line + "\n")
    moment = 0
    for event in ("B status 5", "E badsocket"):
        for thread in threads:
            write(f"{moment} {thread} {event}\n")
            moment += 1
    write("witness 1\n")
    moment = 0
    for thread in threads:
        write(f"{moment} L {FIRST_EVENT_LINE + moment}\n{moment} D {thread} badsocket\n")
        moment += 1
    for _ in threads:
        write(f"{moment} L {FIRST_EVENT_LINE + moment}\n")
        moment += 1


if __name__ == "__main__":
    main()
