#!/usr/bin/env python3
"""Measures how many event lines are recorded per second.

    python3 bench/recording.py PROGRAM [ROUNDS [K]]

PROGRAM is `tcpwit`. Its command `record` runs five times, with ROUNDS as `--rounds` (default: 1000) and K as `--lose`
(default: 0); the fastest run is printed.
"""
import subprocess
import sys
import time


def main():
    if "--help" in sys.argv:
        print(__doc__.strip())
        return
    program = sys.argv[1]
    rounds = sys.argv[2] if len(sys.argv) > 2 else "1000"
    lose = sys.argv[3] if len(sys.argv) > 3 else "0"
    best = None
    for _ in range(5):
        start = time.perf_counter()
        recorded = subprocess.run(
            [program, "record", "--rounds", rounds, "--lose", lose], stdout=subprocess.PIPE, check=True
        )
        seconds = time.perf_counter() - start
        lines = recorded.stdout.split(b"\nwitness ", 1)[0].count(b"\n") - 5
        if best is None or lines / seconds > best[0]:
            best = (lines / seconds, lines, seconds)
    print(f"{best[1]} event lines in {best[2]:.2f} s: {best[0]:.0f} a second")


if __name__ == "__main__":
    main()
