#!/usr/bin/env python3
"""Writes a case in which 20,000 calls are open at once, with its witness, to standard output.

Each of five rounds has 40,000 event lines: every thread begins a `status` call, and when all have begun, every call
ends. The steps do the same: all calls begin, have their effect, and end. Each step has the moment at which its half of
the round is complete, so the lines of 20,000 threads wait at once. In every second round, the steps go from the last
line to the first. The verdict is `yes 200000 100000`.
"""

import sys

THREADS = 20_000
ROUNDS = 5
FIRST_EVENT_LINE = 7
# More than the time between the first and the last line of a round.
SKEW = 10 * THREADS

HEADER = ["trace 1", f"skew {SKEW}", "msl 120000000", "grain 1000", "minrto 1000000", "extra 0"]


def event_lines():
    """One line per microsecond: all threads begin, then all end, and so on."""
    moment = 0
    for _ in range(ROUNDS):
        for event in ("B status 5", "E badsocket"):
            for thread in range(THREADS):
                yield f"{moment} {thread} {event}"
                moment += 1


def steps():
    """The steps of each half of a round have the moment of its last line; the effects are between the halves."""
    for one_round in range(ROUNDS):
        order = range(THREADS) if one_round % 2 == 0 else range(THREADS - 1, -1, -1)
        begins = one_round * 2 * THREADS
        ends = begins + THREADS
        begun = begins + THREADS - 1
        ended = ends + THREADS - 1
        for thread in order:
            yield f"{begun} L {FIRST_EVENT_LINE + begins + thread}"
        for thread in order:
            yield f"{begun} D {thread} badsocket"
        for thread in order:
            yield f"{ended} L {FIRST_EVENT_LINE + ends + thread}"


def main():
    for text in (HEADER, event_lines(), ["witness 1"], steps()):
        sys.stdout.writelines(line + "\n" for line in text)


if __name__ == "__main__":
    main()
