#!/usr/bin/env python3
"""Refuses memory to a recording whose segments are sent twice, at each allocation in turn.

    copies.py [--most N] [--jobs N]

The recording is a test of the program `test_runs`. A segment that is sent twice is copied. If the memory for the copy
is refused, the segment is sent once, and the test still passes. If another allocation is refused, there is no
recording, or memory runs out, and the test reports it. Anything else (a case without a yes, a signal other than that
of a failed test, a run of more than 60 seconds) is wrong and is printed. The last line has the counts; the exit status
is 1 if a run was wrong, or if no refusal affected a copy.
"""
import argparse
import concurrent.futures
import os
import signal
import subprocess
import sys
import tempfile

HERE = os.path.dirname(os.path.abspath(__file__))
sys.path[:0] = [HERE, os.path.dirname(HERE)]

from sweep import built_library
from unproved import kept

TEST = "turns::segments_sent_twice_are_explained"

# What the test prints if memory ran out elsewhere.
ENDED = ("no books", "out of memory", "another answer")


def run(program, library, environment):
    """The status and the output, or None if it took too long."""
    surroundings = {"PATH": os.environ.get("PATH", ""), "LD_PRELOAD": library, **environment}
    try:
        done = subprocess.run([program, TEST], stdout=subprocess.PIPE, stderr=subprocess.STDOUT, env=surroundings,
                              timeout=60)
    except subprocess.TimeoutExpired:
        return None
    return done.returncode, done.stdout.decode(errors="replace")


def told(answer):
    """The result of a run: `copy` if the test passed, `ended` if memory ran out elsewhere, None if it is wrong."""
    if answer is None:
        return None
    status, text = answer
    if status == 0:
        return "copy"
    # A false assertion aborts the test. Without memory for its words, the program doesn't begin one.
    is_told = any(f'left: "{word}"' in text for word in ENDED)
    is_ended = status == -signal.SIGABRT and is_told or (status, text) == (1, "Error: Kind(OutOfMemory)\n")
    return "ended" if is_ended else None


def main():
    words = argparse.ArgumentParser(description=__doc__.splitlines()[0])
    words.add_argument("--most", metavar="N", type=int, default=4000,
                       help="how many allocations are refused at most, evenly spread (default: 4000)")
    words.add_argument("--jobs", metavar="N", type=int, default=os.cpu_count(),
                       help="how many runs at once (default: one for each processor)")
    words = words.parse_args()
    program = kept("test_runs")
    with tempfile.TemporaryDirectory() as folder, concurrent.futures.ThreadPoolExecutor(words.jobs) as pool:
        library = built_library(folder)
        counts = os.path.join(folder, "count")
        plain = run(program, library, {"REFUSE_COUNT": counts})
        if plain is None or plain[0] != 0:
            print(f"without refusal: {plain}")
            return 1
        with open(counts) as file:
            count = int(file.read())
        asked = range(1, count + 1, max(1, (count + words.most - 1) // words.most))
        answers = list(pool.map(lambda n: run(program, library, {"REFUSE_AT": str(n)}), asked))
    wrong = [f"the request {n}: {answer}" for n, answer in zip(asked, answers) if told(answer) is None]
    copies = sum(told(answer) == "copy" for answer in answers)
    for text in wrong:
        print(text)
    print(f"{count} requests, {len(answers)} refused: {copies} for a copy, {len(wrong)} wrong")
    return 1 if wrong or copies == 0 else 0


if __name__ == "__main__":
    sys.exit(main())
