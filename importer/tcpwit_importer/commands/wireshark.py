"""Packets and times as Wireshark shows them: a frame's number, and seconds since the capture's first packet."""
from typing import NamedTuple

SECOND = 10**9


class Place(NamedTuple):
    """A packet in a capture. `time` is that of Wireshark's column Time, in nanoseconds."""
    capture: str
    count: int
    time: int


class Captured:
    """The packets and times of a connection's trace in its captures. `first` has the moment of each capture's first
    packet."""

    def __init__(self, trace, first):
        self.trace, self.first = trace, first

    def place(self, packet):
        """Where a packet was captured."""
        return placed(packet, self.first[packet.capture])

    def time(self, time, capture):
        """A time of the trace as this capture has it."""
        return self.trace.moment(time, capture) - self.first[capture]


def placed(packet, first):
    """Where a packet was captured. `first` is the moment of its capture's first packet."""
    return Place(packet.capture, packet.count, packet.captured - first)


def seconds(time):
    """A time in words, with microseconds."""
    sign, time = ("-", -time) if time < 0 else ("", time)
    return f"{sign}{time // SECOND}.{time % SECOND // 1000:06d} s"


def named(place, captures):
    """A packet in words, with its capture if there are two."""
    return f"packet {place.count}" + (f" of {place.capture}" if captures > 1 else "")


def timed(place, captures):
    """A packet in words, with its time."""
    return f"{named(place, captures)} ({seconds(place.time)})"
