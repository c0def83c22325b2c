"""Removes copies of packets that a capture made itself: a mirror port shows a packet when it enters a switch or router
and when it leaves it, and `-i any` shows it at a bridge and at the bridge's port."""
from collections import Counter

# A copy comes at most this long after the packet, in nanoseconds.
SOON = 10**6
# A network duplicates some packets, a capture all: of ten packets of an end, so many have a copy.
OF_TEN = 9
# How many packets are remembered, at least, before older ones are forgotten.
FEW = 1000
# With how many equal packets one is compared, at most.
MOST = 100


class _Transmission:
    """A packet that was sent once: when it was captured first, and where. Most have no other places."""
    __slots__ = ("moment", "first", "others")

    def __init__(self, packet):
        self.moment, self.first, self.others = packet.moment, packet, ()

    def has(self, place):
        """Whether it was captured at a place."""
        return place == place_of(self.first) or place in self.others

    def add(self, place):
        """It was captured at another place, too."""
        self.others = self.others or set()
        self.others.add(place)


def place_of(packet):
    """Where a packet was captured."""
    return packet.capture, packet.interface, packet.lifetime


def without_copies(packets, notes):
    """A connection's packets of one host's captures, without copies.

    A packet may be a copy if one of the millisecond before has the same ends, segment, identification and direction. It
    is one if that was captured at another interface, or with another TTL, which a router changes. Else, it may also be
    a duplicate by the network, or a second acknowledgment: it is a copy if both have an identification other than 0,
    and at least nine of ten packets of its end were captured twice.
    """
    copies, doubtful, originals = _compared(packets)
    for source, found in doubtful.items():
        if len(found) * 10 >= originals[source] * OF_TEN:
            copies |= found
    for at in sorted(copies):
        notes.leave_out("copies of packets that a capture made itself", packets[at].place)
    return [packet for at, packet in enumerate(packets) if at not in copies] if copies else packets


def _compared(packets):
    """The places in the list of certain copies; for each end, those of packets that may be copies, and how many others
    it sent."""
    copies, doubtful, originals, recent, full = set(), {}, Counter(), {}, FEW
    for at, packet in enumerate(packets):
        if len(recent) > full:
            recent = {key: found for key, found in recent.items() if abs(packet.moment - found[-1].moment) <= SOON}
            full = 2 * len(recent) + FEW
        key = (packet.source, packet.identification, packet.outgoing, packet.segment)
        if key not in recent:
            recent[key] = [_Transmission(packet)]
            originals[packet.source] += 1
            continue
        place = place_of(packet)
        before = [each for each in recent[key] if abs(packet.moment - each.moment) <= SOON]
        elsewhere = next((each for each in before if not each.has(place)), None)
        if elsewhere:
            elsewhere.add(place)
            copies.add(at)
            continue
        recent[key] = [*before[1 - MOST:], _Transmission(packet)]
        if before and packet.identification:
            doubtful.setdefault(packet.source, set()).add(at)
        else:
            originals[packet.source] += 1
    return copies, doubtful, originals
