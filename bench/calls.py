#!/usr/bin/env python3
"""Writes a case of successive calls to standard output.

    python3 bench/calls.py [CALLS]

One thread requests the state of an unused socket number, each time at a new moment. CALLS is their number (default:
100,000). The verdict on N calls is `yes A B` with A = 2 N and B = N.
"""

import sys

HEADER = "trace 1\nskew 0\nmsl 120000000\ngrain 1000\nminrto 1000000\nextra 0\n"
FIRST_EVENT_LINE = 7
PIECE = 10_000


def main():
    if "--help" in sys.argv:
        print(__doc__.strip())
        return
    count = int(sys.argv[1]) if len(sys.argv) > 1 else 100_000
    write = sys.stdout.write
    write(HEADER)
    for first in range(0, count, PIECE):
        write("".join(f"{n} 1 B status 5\n{n} 1 E badsocket\n" for n in range(first, min(first + PIECE, count))))
    write("witness 1\n")
    for first in range(0, count, PIECE):
        lines = ((n, FIRST_EVENT_LINE + 2 * n) for n in range(first, min(first + PIECE, count)))
        write("".join(f"{n} L {line}\n{n} D 1 badsocket\n{n} L {line + 1}\n" for n, line in lines))


if __name__ == "__main__":
    main()
