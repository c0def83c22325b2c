#!/usr/bin/env python3
"""Writes many equal cases to standard output, each with a trace and its witness.

    python3 bench/many_cases.py [CASES [ROUNDS [THREADS]]]

CASES is their number (default: 400). In a case, THREADS threads (default: 10) each begin a `status` call, all calls
have their effect, and all end; this is repeated ROUNDS times (default: 150, a trace of 3,000 event lines). Each step
has its line's moment. With R rounds and T threads, each case has the verdict `yes A B` with A = 2 R T and B = R T.
"""

import sys

CASES = 400
THREADS = 10
ROUNDS = 150
FIRST_EVENT_LINE = 7

HEADER = ["trace 1", "skew 0", "msl 120000000", "grain 1000", "minrto 1000000", "extra 0"]


def event_lines(rounds, threads):
    """One line per microsecond: in each round, all threads begin, then all end."""
    moment = 0
    for _ in range(rounds):
        for event in ("B status 5", "E badsocket"):
            for thread in range(threads):
                yield f"{moment} {thread} {event}"
                moment += 1


def steps(rounds, threads):
    """The effects of a round are between its two halves, at the moment of the last beginning."""
    for one_round in range(rounds):
        begins = one_round * 2 * threads
        ends = begins + threads
        for thread in range(threads):
            yield f"{begins + thread} L {FIRST_EVENT_LINE + begins + thread}"
        for thread in range(threads):
            yield f"{ends - 1} D {thread} badsocket"
        for thread in range(threads):
            yield f"{ends + thread} L {FIRST_EVENT_LINE + ends + thread}"


def main():
    if "--help" in sys.argv:
        print(__doc__.strip())
        return
    given = [int(word) for word in sys.argv[1:]]
    cases, *sizes = given + [CASES, ROUNDS, THREADS][len(given):]
    case = "".join(line + "\n" for lines in (HEADER, event_lines(*sizes), ["witness 1"], steps(*sizes))
                   for line in lines)
    for _ in range(cases):
        sys.stdout.write(case + "end\n")


if __name__ == "__main__":
    main()
