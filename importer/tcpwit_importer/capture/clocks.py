"""Clocks of two hosts: how far one has to be shifted so that no segment is received before it was sent.

Each segment in both captures bounds the difference of the clocks, because it can't be received before it was sent.
Segments of one direction bound the difference from above, those of the other direction from below.
"""
from collections import Counter
from typing import NamedTuple

from ..problem import Problem
from .segments import identity


class Clock(NamedTuple):
    """Converts host 1's moments to host 0's: by `shift` at the moment `start`, and by `rate` for each nanosecond since;
    `skew` remains."""
    shift: int
    rate: float
    start: int
    skew: int

    def at(self, moment):
        """A moment of host 1 on host 0's clock."""
        return moment - self.shift - round(self.rate * (moment - self.start))

    def back(self, moment):
        """A moment of host 0 on host 1's clock."""
        return self.start + round((moment - self.start + self.shift) / (1 - self.rate))


SAME = Clock(0, 0.0, 0, 0)


def bounds_of(connections, hosts):
    """Bounds of the difference: pairs (moment at host 1, maximum) and (moment at host 1, minimum)."""
    above, below = [], []
    for connection in connections:
        above += [(moment, moment - sent) for sent, moment in passed(connection, hosts, 0)]
        below += [(sent, sent - moment) for sent, moment in passed(connection, hosts, 1)]
    return above, below


def passed(connection, hosts, sender):
    """When segments of a host were sent, and when they were received. Equal ones, such as duplicate acknowledgments,
    only show that if both captures have all: one that begins late may lack the first."""
    sent, came, more = {}, {}, Counter()
    for host, name in hosts.items():
        found, step = (sent, 1) if host == sender else (came, -1)
        for packet in connection.seen.get(name, []):
            if connection.hosts.get(packet.source) == sender:
                key = identity(packet.segment)
                if key in found:
                    more[key] += step
                else:
                    found[key] = packet.moment
    return [(sent[key], moment) for key, moment in came.items() if key in sent and not more[key]]


def clock_of(above, below):
    """The simplest clock that fits all bounds: no change, a shift, a shift and a rate, or a shift with a skew."""
    if not above or not below:
        return SAME
    least, greatest = max(bound for _, bound in below), min(bound for _, bound in above)
    if least <= 0 <= greatest:
        return SAME
    if least <= greatest:
        return Clock((least + greatest) // 2, 0.0, 0, 0)
    start = min(moment for moment, _ in above + below)
    rate = _rate(above, below, start)
    least = max(bound - rate * (moment - start) for moment, bound in below)
    greatest = min(bound - rate * (moment - start) for moment, bound in above)
    if least <= greatest:
        return Clock(round((least + greatest) / 2), rate, start, 0)
    # The true moments are then up to `skew` later than those in the lines.
    return Clock(round(least), rate, start, round(least - greatest))


def _rate(above, below, start):
    """The rate that fits the bounds best: the room between them is concave in it. Clock rates differ by less than a
    thousandth."""
    def room(rate):
        return (min(bound - rate * (moment - start) for moment, bound in above)
                - max(bound - rate * (moment - start) for moment, bound in below))
    low, high = -1e-3, 1e-3
    for _ in range(60):
        one, two = low + (high - low) / 3, high - (high - low) / 3
        low, high = (one, high) if room(one) < room(two) else (low, two)
    return (low + high) / 2


def said(clock):
    """The shift, rate and skew in words."""
    text = f"clocks: host 1 is {clock.shift / 1000:.3f} us ahead of host 0"
    if clock.rate:
        text += f", and gains {clock.rate * 1e6:.3f} us a second"
    if clock.skew:
        text += f"; {clock.skew / 1000:.3f} us remain as skew"
    return text


def refuse_distant(clock, most=10**9):
    """Refuses a skew above this many nanoseconds. One above a second is too large to be drift."""
    if clock.skew > most:
        seconds = f"{clock.skew / 1e9:.1f} seconds"
        raise Problem(f"the clocks of the two captures differ by {seconds} more at one time than at another",
                      "synchronize both clocks before the recording, and don't set them during it")
