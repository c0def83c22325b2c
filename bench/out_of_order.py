#!/usr/bin/env python3
"""Writes a case in which pieces arrive out of order to standard output.

    python3 bench/out_of_order.py [PIECES [BYTES [FLIGHTS]]]

It begins with rounds of `bulk_transfer.py` with full segments, until the congestion window is large enough for a
flight. In each flight, host 0 sends bytes in pieces of equal size, in order. They arrive in random order, so there are
many gaps at once. Host 1 keeps each piece. Once all have arrived, it receives the bytes and acknowledges them. A step
that examines all gaps would take time proportional to the number of pieces.

PIECES is the number of pieces in a flight (default: 64,000), BYTES that of bytes in a piece (default: 1), and FLIGHTS
that of flights (default: 2). A flight has at most 65,535 bytes, because no window is scaled. The verdict on F flights
of N pieces after R rounds is `yes A B` with A = 12 + 8 R + F (6 + 2 N) and B = 9 + 6 R + F (4 + 2 N), where R is the
least number for which 2144 + 536 R is at least the bytes of a flight.
"""

import random
import sys

from bulk_transfer import CALLERS, FIRST_NUMBERS, HEADER, INITIAL_WINDOW, PORTS, RECEIVER, SENDER, WINDOW, WIRES
from bulk_transfer import Case, connect, transfer

PIECES = 64_000
BYTES = 1
FLIGHTS = 2
FULL_SEGMENT = 536


def made(case, position, payload):
    """Makes and sends a segment of host 0. Returns the number of its line, and its hex text."""
    sequence = (FIRST_NUMBERS[0] + position) % 2**32
    acknowledgment = (FIRST_NUMBERS[1] + 1) % 2**32
    hexed = f"{PORTS[0]:04x}{PORTS[1]:04x}{sequence:08x}{acknowledgment:08x}5010{WINDOW:04x}00000000{payload.hex()}"
    case.made += 1
    case.step(f"M 0 {PORTS[0]} {PORTS[1]} {position} {len(payload)} A {WINDOW}")
    return case.event(WIRES[0], f"O 0 {hexed}", f" {case.made}"), hexed


def flight(case, sent, window, payloads, order):
    """Sends these pieces after this many bytes, and delivers them in that order."""
    size = sum(len(payload) for payload in payloads)
    whole = b"".join(payloads).hex()
    case.call(CALLERS[0], f"send {SENDER} {whole}", f"ok {size}")
    position = 1 + sent
    lines = []
    for payload in payloads:
        lines.append(made(case, position, payload))
        position += len(payload)
    for number in order:
        out, hexed = lines[number]
        came = case.event(WIRES[1], f"I 1 {hexed}", f" {out}")
        case.take(1, came, INITIAL_WINDOW, 1, 0)
    case.call(CALLERS[1], f"recv {RECEIVER} {size}", f"data {whole}")
    line = case.segment(1, 1, "A", position)
    case.take(0, line, window, 0, 1)


def main():
    if "--help" in sys.argv:
        print(__doc__.strip())
        return
    given = [int(word) for word in sys.argv[1:]]
    pieces, size, flights = given + [PIECES, BYTES, FLIGHTS][len(given) :]
    chosen = random.Random(1)
    case = Case()
    connect(case)
    sent = 0
    while INITIAL_WINDOW + sent < pieces * size:
        transfer(case, sent, chosen.randbytes(FULL_SEGMENT))
        sent += FULL_SEGMENT
    window = INITIAL_WINDOW + sent
    for _ in range(flights):
        payloads = [chosen.randbytes(size) for _ in range(pieces)]
        window += min(FULL_SEGMENT, pieces * size)
        flight(case, sent, window, payloads, chosen.sample(range(pieces), pieces))
        sent += pieces * size
    for lines in (HEADER, case.events, ["witness 1"], case.steps):
        for line in lines:
            sys.stdout.write(line + "\n")


if __name__ == "__main__":
    main()
