#!/usr/bin/env python3
"""Writes a case in which many one-byte segments are outstanding and retransmitted to standard output.

    python3 bench/made_again.py [BYTES]

It begins with rounds of `bulk_transfer.py` with full segments, until the congestion window is large enough for all
those bytes. Then host 0 sends them, one per segment. None is acknowledged, so the retransmission timer expires, and
each segment is retransmitted, from the last one to the first. A step that examines all outstanding bytes would take
time proportional to their number.

BYTES is their number (default: 64,000; at most 65,535, because no window is scaled). The verdict on N bytes after R
rounds is `yes A B` with A = 15 + 8 R and B = 10 + 6 R + 2 N, where R is the least number with 2144 + 536 R >= N.
"""

import random
import sys

from bulk_transfer import CALLERS, HEADER, INITIAL_WINDOW, PORTS, SENDER, WINDOW, Case, connect, transfer

COUNT = 64_000
FULL_SEGMENT = 536
# Longer than the least retransmission timeout, in microseconds.
TIMEOUT = 2_000_000


def main():
    if "--help" in sys.argv:
        print(__doc__.strip())
        return
    count = int(sys.argv[1]) if len(sys.argv) > 1 else COUNT
    chosen = random.Random(1)
    case = Case()
    connect(case)
    sent = 0
    while INITIAL_WINDOW + sent < count:
        transfer(case, sent, chosen.randbytes(FULL_SEGMENT))
        sent += FULL_SEGMENT
    case.call(CALLERS[0], f"send {SENDER} {chosen.randbytes(count).hex()}", f"ok {count}")
    positions = range(1 + sent, 1 + sent + count)
    for position in positions:
        case.step(f"M 0 {PORTS[0]} {PORTS[1]} {position} 1 A {WINDOW}")
    case.moment += TIMEOUT
    case.event(9, f"T 0 {PORTS[0]} {PORTS[1]} rto", f" {FULL_SEGMENT} {2 * FULL_SEGMENT}")
    for position in reversed(positions):
        case.step(f"M 0 {PORTS[0]} {PORTS[1]} {position} 1 A {WINDOW}")
    for lines in (HEADER, case.events, ["witness 1"], case.steps):
        for line in lines:
            sys.stdout.write(line + "\n")


if __name__ == "__main__":
    main()
