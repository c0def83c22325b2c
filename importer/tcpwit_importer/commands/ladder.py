"""The packets around what was refused, with the numbers that Wireshark's columns have."""
from typing import NamedTuple

from ..capture.segments import ACK, SHIFT, SYN, WRAP, options, values, window
from ..infer.opening import is_made_up
from .wireshark import Place

# How many packets are shown up to the refused one, and after it.
BEFORE, AFTER = 10, 4
# Wireshark's names of the flags, from the lowest bit up.
FLAGS = ("FIN", "SYN", "RST", "PSH", "ACK", "URG", "ECE", "CWR")
GREATEST_SHIFT = 14


class Rung(NamedTuple):
    """A packet: whether the client sent it, and what Wireshark's column Info says. `skipped` is how many packets of the
    connection before it aren't shown."""
    place: Place
    by_client: bool
    info: str
    skipped: int


class Numbers:
    """The relative numbers of a connection: Wireshark counts from the SYN, or else from the first packet, which it
    gives number 1."""

    def __init__(self, connection, packets):
        self.first, self.shifts = {}, {}
        for packet in packets:
            self.first.setdefault(packet.source, packet.number - (not packet.flags & SYN))
            if packet.flags & ACK:
                self.first.setdefault(packet.target, packet.acknowledgment - 1)
            if packet.flags & SYN and (shift := values(SHIFT, 1, options(packet.segment))):
                self.shifts.setdefault(packet.source, min(shift[-1][0], GREATEST_SHIFT))
        self.scaled = len(self.shifts) == len({connection.client, connection.server})

    def info(self, packet):
        """What Wireshark says of a packet."""
        names = ", ".join(name for bit, name in enumerate(FLAGS) if packet.flags >> bit & 1)
        text = f"[{names}] Seq={(packet.number - self.first[packet.source]) % WRAP}"
        if packet.flags & ACK:
            text += f" Ack={(packet.acknowledgment - self.first[packet.target]) % WRAP}"
        return f"{text} Win={self.window(packet)} Len={packet.size}"

    def window(self, packet):
        """The window in bytes. That of a SYN isn't scaled (RFC 7323, 2.2)."""
        shift = self.shifts[packet.source] if self.scaled and not packet.flags & SYN else 0
        return window(packet.segment) << shift


def ladder(connection, captured, refusal):
    """The packets around a refusal, in the order of their capture."""
    name = refusal.place.capture
    packets = sorted({packet.count: packet for packet in connection.packets()
                      if packet.capture == name and not is_made_up(packet)}.values(), key=lambda packet: packet.count)
    shown = wanted([packet.count for packet in packets], refusal)
    numbers, rungs, last = Numbers(connection, packets), [], -1
    for at in sorted(shown):
        packet = packets[at]
        rungs.append(Rung(captured.place(packet), packet.source == connection.client, numbers.info(packet),
                          at - last - 1))
        last = at
    return rungs


def wanted(counts, refusal):
    """The places, among all packets of a capture, of those that are shown."""
    at = counts.index(refusal.place.count)
    shown = set(range(max(0, at - BEFORE), min(len(counts), at + AFTER + 1)))
    owed = refusal.owed and refusal.owed.place
    if owed and owed.capture == refusal.place.capture and owed.count in counts:
        shown.add(counts.index(owed.count))
    return shown
