"""What a host sent, from a capture between the hosts: segments may have been reordered or lost before they passed."""
from bisect import bisect
from copy import copy

from ..capture.segments import ACK, FIN, RST, SYN, WRAP, header_length
from .passages import moved, stamps_of

# Fast retransmit needs so many duplicate acknowledgments, and a timeout so many nanoseconds (RFC 5681, 3.2; RFC 6298).
DUPLICATES, TIMEOUT = 3, 2 * 10**8
# The numbers of a host's IP packets are below this. They show an order if the next one is at most so much greater, for
# nine of ten packets.
COUNTED, NEAR = 1 << 16, 1000
SECOND = 10**9
# The most positions that count as lost before a segment.
MOST = 1 << 20
LOST = "segments that were lost between their host and the capture, added"


class Sent:
    """A segment in the order in which its host sent it. `passage` is its own, and `before` the place in the capture
    before which it was sent."""

    def __init__(self, passage, before, moment):
        self.passage, self.before, self.moment = passage, before, moment

    @property
    def packet(self):
        """Its packet, at that moment."""
        return moved(self.passage.packet, self.moment)


class Departures:
    """Puts the segments of one end in the order in which they were sent. One that passed after a later one was sent at
    most `longest` nanoseconds before it passed."""

    def __init__(self, connection, end, found, longest):
        self.connection, self.end, self.longest = connection, end, longest
        self.own = [passage for passage in found if passage.packet.source == end]
        self.others = [passage for passage in found if passage.packet.source != end]
        self.places = [passage.place for passage in self.others]
        self.has_counter = counts([each.packet.identification for each in self.own if each.packet.identification])

    def in_order(self, notes):
        """The segments as they were sent, with those that were lost before the capture."""
        sent, seen, holes = [], set(), Holes()
        for passage in self.own:
            key = passage.packet.identification, passage.packet.segment
            if passage.packet.identification and key in seen:
                # The network duplicated it.
                continue
            seen.add(key)
            place = self.place_in(sent, passage, holes.precedes(passage))
            follower = sent[place] if place < len(sent) else None
            before, moment = (follower.before, follower.moment) if follower else (passage.place, passage.packet.moment)
            sent.insert(place, Sent(passage, before, moment))
            holes.add(passage)
        self.space_syns(sent)
        return self.completed(sent, notes)

    def space_syns(self, sent):
        """A SYN is sent again after a second, then after twice as long each time (RFC 6298, 2.1 and 5.5). If less time
        passed, the earlier one may have waited before the capture."""
        syns = [each for each in sent if each.passage.packet.flags & (SYN | ACK | RST) == SYN]
        for number in reversed(range(len(syns) - 1)):
            syn, moment = syns[number], syns[number + 1].moment - (SECOND << number)
            if syn.passage.packet.moment - self.longest <= moment < syn.moment:
                syn.moment = moment

    def place_in(self, sent, passage, precedes):
        """The place of a segment among those sent before it passed."""
        place = len(sent)
        while place and self.follows(sent[place - 1].passage, passage, precedes):
            place -= 1
        return place

    def follows(self, earlier, passage, precedes):
        """Whether a segment that passed earlier was sent after another one. `precedes`: the positions of that one show
        it."""
        if passage.acknowledged is None or passage.packet.flags & SYN:
            return False
        if passage.packet.moment - earlier.packet.moment > self.longest:
            return False
        shown = self.shown_order(earlier.packet, passage.packet)
        return self.looks_later(earlier, passage, precedes) if shown is None else not shown

    def looks_later(self, earlier, passage, precedes):
        """Whether a segment that passed earlier looks as if it was sent after another one."""
        if earlier.is_reset:
            # A host sends nothing after it reset a connection that both had opened.
            return 0 < earlier.start <= passage.stop
        if earlier.acknowledged is None or passage.acknowledged != earlier.acknowledged:
            return earlier.acknowledged is not None and passage.acknowledged < earlier.acknowledged
        after = earlier.start if passage.length else earlier.stop
        return precedes and passage.start < after and not self.may_be_repeated(earlier, passage)

    def shown_order(self, one, two):
        """Whether two packets show that they passed in the order in which they were sent; None if they don't show their
        order."""
        if self.has_counter and one.identification and two.identification:
            difference = (two.identification - one.identification) % COUNTED
            if 0 < difference < COUNTED // 2:
                return True
            return False if difference >= COUNTED - NEAR else None
        stamps = timestamp(one.segment), timestamp(two.segment)
        if None in stamps or stamps[0] == stamps[1]:
            return None
        return (stamps[1] - stamps[0]) % WRAP < WRAP // 2

    def may_be_repeated(self, earlier, passage):
        """Whether a segment may have been sent again because one was lost, after a timeout or duplicate
        acknowledgments."""
        if not passage.length:
            return False
        if passage.packet.moment - earlier.packet.moment >= TIMEOUT:
            return True
        first, last = (bisect(self.places, each.place) for each in (earlier, passage))
        asked = [each for each in self.others[first:last] if each.acknowledged == passage.start and not each.length]
        return len(asked) >= DUPLICATES

    def completed(self, sent, notes):
        """What was sent, with the bytes that passed only later, or never."""
        found, reached, model = [], 0, None
        for each in sent:
            passage = each.passage
            if not passage.is_reset:
                model = passage
            if model and 0 < reached < passage.start <= reached + MOST:
                for packet in self.missing(model, reached, passage.start):
                    found.append(Sent(model._replace(packet=packet, start=reached, stop=passage.start), each.before,
                                      each.moment))
                    notes.change(LOST, passage.packet.place)
            if not passage.is_reset:
                reached = max(reached, passage.stop)
            found.append(each)
        return found

    def missing(self, model, start, stop):
        """The segments that have the positions from `start` to `stop`: with the acknowledgment and the window of the
        next one, or of the last one before a reset."""
        if model.packet.flags & (ACK | SYN) != ACK:
            return
        has_fin = max((each.stop for each in self.own if each.packet.flags & FIN), default=None) == stop
        size = self.connection.piece_size(model.packet.segment)
        end = stop - has_fin
        for at in range(start, max(end, start + 1), size):
            length = max(0, min(size, end - at))
            yield self.built(model.packet, at, length, has_fin and at + length == end)

    def built(self, model, at, length, has_fin):
        """A segment like another one, with bytes from a position on."""
        data = bytearray(length)
        for offset, piece in self.connection.pieces(self.end, at - 1, length):
            data[offset - at + 1:offset - at + 1 + len(piece)] = piece
        packet, head = copy(model), header_length(model.segment)
        number = (self.connection.initial[self.end] + at) % WRAP
        packet.replace(model.segment[:4] + number.to_bytes(4, "big") + model.segment[8:13]
                       + bytes([ACK | (FIN if has_fin else 0)]) + model.segment[14:head] + bytes(data))
        packet.missing = packet.identification = 0
        return packet


class Holes:
    """The positions that weren't seen although later ones were."""

    def __init__(self):
        self.reached, self.parts = 0, []

    def touches(self, passage):
        """Whether a segment has such positions."""
        return any(start < passage.stop and passage.start < stop for start, stop in self.parts)

    def precedes(self, passage):
        """Whether a segment seems to have been sent before later ones: it has such positions, or it's an empty one at
        an earlier position."""
        return self.touches(passage) or (not passage.length and passage.start < self.reached)

    def add(self, passage):
        """A segment passed."""
        if passage.is_reset:
            return
        if self.touches(passage):
            rest = [part for start, stop in self.parts
                    for part in ((start, min(stop, passage.start)), (max(start, passage.stop), stop))]
            self.parts = [(start, stop) for start, stop in rest if start < stop]
        if self.reached < passage.start:
            self.parts.append((self.reached, passage.start))
        self.reached = max(self.reached, passage.stop)


def counts(numbers):
    """Whether the numbers of a host's IP packets count them."""
    steps = [(two - one) % COUNTED for one, two in zip(numbers, numbers[1:])]
    near = sum(0 < step <= NEAR for step in steps)
    return bool(steps) and near * 10 >= len(steps) * 9


def timestamp(segment):
    """The value of the timestamps option; None without one."""
    stamps = stamps_of(segment)
    return stamps and stamps[0]
