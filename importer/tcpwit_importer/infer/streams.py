"""The bytes that an end of a connection sent, as captures have them, and segments of which a capture has only the
beginning."""
from bisect import bisect_left, bisect_right

from ..capture.segments import FIN, RST, SYN, WRAP, header_length
from .spans import Span

HALF = WRAP // 2


class Stream:
    """The bytes of one end. If several segments have a byte, the first one counts.

    `spans` has the parts that captures have, and `starts` where they begin. `end` is the offset after the last byte.
    `last` is the offset of the FIN, `conflict` that of the first byte that two segments have differently; None if there
    is none.
    """

    def __init__(self, first):
        self.first, self.spans, self.starts, self.end = first, [], [], 0
        self.last = self.conflict = None

    def offset(self, packet):
        """The offset of a segment's first byte; negative if it begins before the stream, as a keep-alive may."""
        return self._near(packet.number + 1 if packet.flags & SYN else packet.number)

    def acknowledged(self, packet):
        """The offset up to which a segment of the other end acknowledges bytes and the FIN."""
        return self._near(packet.acknowledgment)

    def _near(self, number):
        """The offset with this sequence number that is nearest to the end."""
        distance = (number - self.first - 1 - self.end) % WRAP
        return self.end + distance - (WRAP if distance >= HALF else 0)

    def add(self, packet):
        """Adds the bytes of a segment that this end sent."""
        offset, size = self.offset(packet), packet.size
        if offset < 0 or packet.flags & RST:
            return
        if packet.flags & FIN and self.last is None:
            self.last = offset + size
        if size > packet.missing:
            self._put(offset, offset + size - packet.missing, packet.segment, header_length(packet.segment))

    def _put(self, offset, end, segment, at):
        """Adds the bytes of a segment from a place on that aren't known yet, and compares the others."""
        if self.spans and offset == self.end:
            self.spans[-1].extend(end, segment, at)
            self.end = end
            return
        place = self._place(offset)
        if place == len(self.spans) or self.starts[place] > offset:
            self.spans.insert(place, Span(offset))
            self.starts.insert(place, offset)
        span = self.spans[place]
        known = min(end, span.stop)
        self._compare(offset, span.bytes(offset, known), segment[at:at + known - offset])
        if span.stop < end:
            span.extend(end, segment, at + span.stop - offset)
        while place + 1 < len(self.spans) and self.starts[place + 1] <= end:
            self._join(span, self.spans.pop(place + 1))
            self.starts.pop(place + 1)
        self.end = self.spans[-1].stop

    def _place(self, offset):
        """The place of the first span that reaches an offset or is after it. Packets cut short leave many spans, so
        each search must be fast."""
        place = bisect_right(self.starts, offset)
        return place - 1 if place and self.spans[place - 1].stop >= offset else place

    def _join(self, span, after):
        """Joins a span and the next one, which it reaches. The bytes of the next one were there first."""
        stop = min(span.stop, after.stop)
        self._compare(after.start, span.bytes(after.start, stop), after.bytes(after.start, stop))
        span.join(after)

    def _compare(self, offset, one, two):
        """Notes the first byte in which two parts at an offset differ."""
        if one == two:
            return
        found = next(offset + place for place, (left, right) in enumerate(zip(one, two)) if left != right)
        self.conflict = found if self.conflict is None else min(found, self.conflict)

    def has(self, start, stop):
        """Whether some capture has all bytes of a part."""
        place = self._place(start)
        return start >= stop or (place < len(self.spans) and self.starts[place] <= start
                                 and stop <= self.spans[place].stop)

    def hex_of(self, offset, length):
        """The digits of bytes of the stream."""
        if len(self.spans) == 1 and self.starts[0] <= offset and offset + length <= self.end:
            return self.spans[0].bytes(offset, offset + length).hex()
        return self.bytes_of(offset, length).hex()

    def bytes_of(self, offset, length):
        """Bytes of the stream; zeros for those that no capture has."""
        found, end = bytearray(length), offset + length
        for place in range(self._place(offset), bisect_left(self.starts, end)):
            span = self.spans[place]
            first, stop = max(offset, span.start), min(end, span.stop)
            found[first - offset:stop - offset] = span.bytes(first, stop)
        return bytes(found)


def streams_of(connection, names):
    """The stream of each end whose SYN was seen. `names` has the captures of an end, its own first."""
    found = {}
    for end, first in connection.initial.items():
        stream = found[end] = Stream(first)
        for name in names[end]:
            for packet in connection.seen.get(name, ()):
                if packet.source == end:
                    stream.add(packet)
    return found


COMPLETED = "segments of which a capture has only the beginning, completed from other segments"
ZEROS = "segments of which no capture has all bytes, completed with zeros"


def complete(connection, streams, notes):
    """Completes the segments of which a capture has only the beginning."""
    for packet in connection.packets():
        if packet.missing:
            missing, stream = min(packet.missing, packet.size), streams.get(packet.source)
            start = stream.offset(packet) + packet.size - missing if stream else -1
            known = start >= 0 and stream.has(start, start + missing)
            if start >= 0:
                packet.segment = packet.segment[:len(packet.segment) - missing] + stream.bytes_of(start, missing)
            notes.change(COMPLETED if known else ZEROS, packet.place)
