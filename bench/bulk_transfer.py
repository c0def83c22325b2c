#!/usr/bin/env python3
"""Writes the case of one long transfer to standard output: a trace, and a witness that explains it.

    python3 bench/bulk_transfer.py [ROUNDS [BYTES]]

Host 1 listens and host 0 connects. In each round, host 0 sends 64 to 100 bytes in one segment, and the segment arrives;
host 1 receives and acknowledges them, and the acknowledgment arrives. A round has 8 event lines and 14 steps. The
sequence numbers of host 0 wrap in the first or second round, those of host 1 after its SYN. The congestion window grows
with every acknowledgment, each round trip is measured, and nothing is lost.

ROUNDS is the number of rounds (default: 160,000, a case of 1,280,012 event lines, 2,240,021 steps and 232 million
bytes). The verdict on N rounds is `yes A B` with A = 12 + 8 N and B = 9 + 6 N. BYTES, at most 1460, is the number of
bytes in a round, instead of 64 to 100; both SYNs then carry an MSS of 1460.
"""

import random
import sys

ROUNDS = 160_000
FIRST_EVENT_LINE = 7
HEADER = ["trace 1", "skew 0", "msl 120000000", "grain 1000", "minrto 1000000", "extra 0"]

# Ports and initial send sequence numbers by host, sockets, and the offered window.
PORTS = (4000, 80)
FIRST_NUMBERS = (4_294_967_200, 4_294_967_295)
LISTENER, SENDER, RECEIVER = 5, 6, 7
WINDOW = 65535

# The MSS in the SYNs if a size is given, and the initial windows without and with it (RFC 5681, 3.1).
MSS = 1460
INITIAL_WINDOW = 4 * 536
INITIAL_WINDOW_OF_MSS = 3 * MSS

# The thread that calls at each host, and the one that records segments there.
CALLERS = (2, 1)
WIRES = (3, 4)

FLAG_BITS = {"S": 0x02, "A": 0x10, "AS": 0x12}


class Case:
    """The event lines and steps so far, the moment of the last one, and the number of segments made."""

    def __init__(self, tells_mss=False):
        self.options = f"0204{MSS:04x}" if tells_mss else ""
        self.initial_window = INITIAL_WINDOW_OF_MSS if tells_mss else INITIAL_WINDOW
        self.moment = 0
        self.events = []
        self.steps = []
        self.made = 0

    def event(self, thread, what, extra=""):
        """Adds an event line and the step for it, ten microseconds after the previous line. Returns its number."""
        self.moment += 10
        number = FIRST_EVENT_LINE + len(self.events)
        self.events.append(f"{self.moment} {thread} {what}")
        self.steps.append(f"{self.moment} L {number}{extra}")
        return number

    def step(self, what):
        """Adds a hidden step, at the moment of the previous line."""
        self.steps.append(f"{self.moment} {what}")

    def call(self, thread, call, answer):
        """Adds a call that has its effect at once."""
        self.event(thread, f"B {call}")
        self.step(f"D {thread} {answer}")
        self.event(thread, f"E {answer}")

    def segment(self, host, position, flags, acked, payload=b"", first=""):
        """Makes a segment that is sent and arrives. Returns the number of the line of its arrival."""
        other = 1 - host
        sequence = (FIRST_NUMBERS[host] + position) % 2**32
        acknowledgment = 0 if acked is None else (FIRST_NUMBERS[other] + acked) % 2**32
        options = self.options if "S" in flags else ""
        hexed = (
            f"{PORTS[host]:04x}{PORTS[other]:04x}{sequence:08x}{acknowledgment:08x}"
            f"{5 + len(options) // 8:x}0{FLAG_BITS[flags]:02x}{WINDOW:04x}00000000{options}{payload.hex()}"
        )
        self.made += 1
        self.step(f"M {host} {PORTS[host]} {PORTS[other]} {position} {len(payload)} {flags} {WINDOW}{first}")
        out = self.event(WIRES[host], f"O {host} {hexed}", f" {self.made}")
        return self.event(WIRES[other], f"I {other} {hexed}", f" {out}")

    def take(self, host, line, window, keep, sample):
        """Processes the segment of a line at the host, and sets its congestion window."""
        self.step(f"T {host} {line} {window} {keep} {sample}")


def connect(case):
    """Adds the listener, the handshake and the accepted socket."""
    case.call(CALLERS[1], f"listen 1 {PORTS[1]} 4", f"ok {LISTENER}")
    case.call(CALLERS[0], f"open 0 {PORTS[0]} {PORTS[1]}", f"ok {SENDER}")
    line = case.segment(0, 0, "S", None, first=f" {FIRST_NUMBERS[0]}")
    case.take(1, line, 0, 0, 0)
    line = case.segment(1, 0, "AS", 1, first=f" {FIRST_NUMBERS[1]}")
    case.take(0, line, case.initial_window, 0, 1)
    line = case.segment(0, 1, "A", 1)
    case.take(1, line, case.initial_window, 0, 1)
    case.call(CALLERS[1], f"accept {LISTENER}", f"ok {RECEIVER}")


def transfer(case, sent, payload):
    """Adds a round, after this many bytes."""
    size = len(payload)
    position = 1 + sent
    case.call(CALLERS[0], f"send {SENDER} {payload.hex()}", f"ok {size}")
    line = case.segment(0, position, "A", 1, payload)
    case.take(1, line, case.initial_window, 1, 0)
    case.call(CALLERS[1], f"recv {RECEIVER} {size}", f"data {payload.hex()}")
    line = case.segment(1, 1, "A", position + size)
    case.take(0, line, case.initial_window + sent + size, 0, 1)


def main():
    if "--help" in sys.argv:
        print(__doc__.strip())
        return
    rounds = int(sys.argv[1]) if len(sys.argv) > 1 else ROUNDS
    size = int(sys.argv[2]) if len(sys.argv) > 2 else None
    chosen = random.Random(1)
    case = Case(size is not None)
    connect(case)
    sent = 0
    for _ in range(rounds):
        payload = chosen.randbytes(size or chosen.randint(64, 100))
        transfer(case, sent, payload)
        sent += len(payload)
    for lines in (HEADER, case.events, ["witness 1"], case.steps):
        for line in lines:
            sys.stdout.write(line + "\n")


if __name__ == "__main__":
    main()
