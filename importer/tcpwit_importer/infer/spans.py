"""Consecutive bytes of a stream, which stay in the segments that have them: a copy would need as much memory again."""
from array import array
from bisect import bisect_left, bisect_right


class Span:
    """The bytes from the offset `start` to before `stop`. They are in parts, each of a segment: `starts` has their
    offsets, and `places` where they begin in their segments."""
    __slots__ = ("start", "stop", "starts", "places", "segments", "latest")

    def __init__(self, start):
        self.start = self.stop = start
        self.starts, self.places, self.segments = array("q"), array("Q"), []
        # The part that was asked for last.
        self.latest = -1

    def extend(self, stop, segment, place):
        """Adds the bytes of a segment from a place on, up to an offset."""
        self.starts.append(self.stop)
        self.places.append(place)
        self.segments.append(segment)
        self.stop = stop

    def join(self, after):
        """Adds a span that begins before this one's stop, or there, and isn't used any more. It replaces the bytes that
        both have; all of these are in the last part of this one."""
        stop, count = self.stop, bisect_left(self.starts, after.start)
        if stop > after.stop:
            rest = self.segments[-1], self.places[-1] + after.stop - self.starts[-1]
        own, others = (self.starts, self.places, self.segments), (after.starts, after.places, after.segments)
        for mine, more in zip(own, others):
            del mine[count:]
            # The shorter one moves: segments may come in reverse order.
            if count < len(more):
                more[:0] = mine
            else:
                mine += more
        self.starts, self.places, self.segments = others if count < len(after.starts) else own
        self.stop, self.latest = after.stop, -1
        if stop > after.stop:
            self.extend(stop, *rest)

    def bytes(self, first, last):
        """The bytes between two offsets."""
        if first >= last:
            return b""
        place, found = self._part(first), []
        while True:
            begin = self.starts[place]
            stop = self.starts[place + 1] if place + 1 < len(self.starts) else self.stop
            at = self.places[place] - begin
            if last <= stop:
                piece = self.segments[place][at + first:at + last]
                return b"".join((*found, piece)) if found else piece
            found.append(self.segments[place][at + first:at + stop])
            first, place = stop, place + 1

    def _part(self, offset):
        """The place of the part with a byte. Most parts are asked for in order."""
        place = self.latest + 1
        if place >= len(self.starts) or self.starts[place] != offset:
            place = max(0, bisect_right(self.starts, offset) - 1)
        self.latest = place
        return place
