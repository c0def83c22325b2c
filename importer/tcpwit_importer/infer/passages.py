"""The segments of a connection as a capture between its hosts shows them, with their numbers as positions: an end's SYN
has position 0, its first byte position 1."""
from copy import copy
from typing import Any, NamedTuple

from ..capture.segments import (ACK, FIN, RST, SACK, SHIFT, STAMPS, SYN, TIMESTAMPS, WRAP, listed, options, values,
                                window)


class Passage(NamedTuple):
    """A segment that passed the capture, and when: `place` counts all of the connection's segments. `start` and `stop`
    are the positions that it has, `acknowledged` and `edge` those up to which it acknowledges and permits bytes; None
    without ACK, and for a reset. `blocks` has where the SACK blocks begin and end by which it reports others. `stamp`
    is its timestamp, and `echo` the one that it echoes; None if not both ends have timestamps."""
    packet: Any
    place: int
    start: int
    stop: int
    acknowledged: Any
    edge: Any
    blocks: tuple = ()
    stamp: Any = None
    echo: Any = None

    @property
    def is_reset(self):
        """Whether it's a reset."""
        return bool(self.packet.flags & RST)

    @property
    def length(self):
        """How many positions it has."""
        return self.stop - self.start


class Numbers:
    """Reads the numbers of one end near the last position that it has sent."""

    def __init__(self, first):
        self.first, self.last = first, 0

    def position(self, number):
        """The position of a sequence number."""
        distance = (number - self.first - self.last) % WRAP
        return self.last + distance - (WRAP if distance >= WRAP // 2 else 0)

    def sent(self, packet):
        """The positions of a segment."""
        start = self.position(packet.number)
        stop = start + packet.size + bool(packet.flags & SYN) + (packet.flags & FIN)
        if not packet.flags & RST:
            self.last = max(self.last, stop)
        return start, stop


class Clock:
    """Reads the timestamps of one end near the newest one that it has sent."""

    def __init__(self):
        self.newest = None

    def read(self, value):
        """A timestamp, so that a newer one is a greater number."""
        if self.newest is None:
            return value
        distance = (value - self.newest) % WRAP
        return self.newest + distance - (WRAP if distance >= WRAP // 2 else 0)

    def sent(self, value):
        """The timestamp of a segment that the end sent."""
        found = self.read(value)
        self.newest = found if self.newest is None else max(self.newest, found)
        return found


def passages(connection, packets):
    """The passages of packets, which are in order; none if a SYN is missing."""
    ends = connection.client, connection.server
    if any(end not in connection.initial for end in ends):
        return []
    numbers = {end: Numbers(connection.initial[end]) for end in ends}
    shifts = shifts_of(packets)
    clocks = {end: Clock() for end in ends} if are_stamped(packets) else {}
    found = []
    for place, packet in enumerate(packets):
        start, stop = numbers[packet.source].sent(packet)
        acknowledged, edge, blocks, stamp, echo = None, None, (), None, None
        stamps = stamps_of(packet.segment) if clocks else None
        if stamps:
            stamp = clocks[packet.source].sent(stamps[0])
        if packet.flags & (ACK | RST) == ACK:
            others = numbers[connection.other(packet.source)]
            acknowledged = others.position(packet.acknowledgment)
            shift = 0 if packet.flags & SYN else shifts.get(packet.source, 0)
            edge = acknowledged + (window(packet.segment) << shift)
            blocks = tuple(blocks_of(packet.segment, others))
            echo = clocks[connection.other(packet.source)].read(stamps[1]) if stamps else None
        found.append(Passage(packet, place, start, stop, acknowledged, edge, blocks, stamp, echo))
    return found


def blocks_of(segment, numbers):
    """The positions at which the SACK blocks of a segment begin and end (RFC 2018, 3)."""
    given = options(segment)
    if len(given) == len(STAMPS) + 8 and given.startswith(STAMPS):
        return
    for value in (value for kind, value in listed(given) if kind == SACK and len(value) % 8 == 0):
        ends = [numbers.position(int.from_bytes(value[at:at + 4], "big")) for at in range(0, len(value), 4)]
        yield from zip(ends[::2], ends[1::2])


def stamps_of(segment):
    """The two timestamps of a segment: its own, and the one that it echoes (RFC 7323, 3.2); None without the option."""
    given = values(TIMESTAMPS, 8, options(segment))
    return tuple(int.from_bytes(given[-1][at:at + 4], "big") for at in (0, 4)) if given else None


def are_stamped(packets):
    """Whether each end has a SYN with timestamps."""
    return len({packet.source for packet in packets if packet.flags & SYN and stamps_of(packet.segment)}) == 2


def shifts_of(packets):
    """By how many bits each end shifts its windows, if both have the option (RFC 7323, 2.2)."""
    found = {}
    for packet in packets:
        if packet.flags & SYN and (given := values(SHIFT, 1, options(packet.segment))):
            found.setdefault(packet.source, min(14, given[-1][0]))
    return found if len(found) == 2 else {}


def moved(packet, moment):
    """A packet at another moment, without a mark of its direction."""
    found = copy(packet)
    found.moment, found.outgoing = moment, None
    return found


def without_garbage(found):
    """Passages in which keep-alives have no byte. One may have a garbage byte before the next position, when all is
    acknowledged (RFC 9293, 3.8.4)."""
    reached, acknowledged, kept = {}, {}, []
    for passage in found:
        source, last = passage.packet.source, reached.get(passage.packet.source, 0)
        if (passage.packet.size == 1 and passage.length == 1 and passage.stop == last
                and acknowledged.get(passage.packet.target) == last):
            passage = shortened(passage)
        if not passage.is_reset:
            reached[source] = max(last, passage.stop)
        if passage.acknowledged is not None:
            acknowledged[source] = max(passage.acknowledged, acknowledged.get(source, 0))
        kept.append(passage)
    return kept


def shortened(passage):
    """A passage without its bytes."""
    packet = copy(passage.packet)
    packet.replace(packet.segment[:len(packet.segment) - packet.size])
    packet.missing = 0
    return passage._replace(packet=packet, stop=passage.start)
