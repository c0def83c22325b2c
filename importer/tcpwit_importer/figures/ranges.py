"""Ranges of positions in order: what was sent again, and what a capture hasn't shown yet.

Both keep at most LIMIT ranges, so that a packet costs no more however many there are.
"""
from bisect import bisect_left, bisect_right

LIMIT = 1000


class Ranges:
    """Positions in ranges. Beyond the limit, the two lowest count as one, with what is between them."""

    def __init__(self):
        self.starts, self.stops = [], []

    def add(self, start, stop):
        """Adds positions."""
        first, last = bisect_left(self.stops, start), bisect_right(self.starts, stop)
        if first < last:
            start, stop = min(start, self.starts[first]), max(stop, self.stops[last - 1])
        self.starts[first:last], self.stops[first:last] = [start], [stop]
        if len(self.starts) > LIMIT:
            del self.starts[1], self.stops[0]

    def have(self, start, stop):
        """Whether one of these positions is among them."""
        at = bisect_right(self.stops, start)
        return at < len(self.starts) and self.starts[at] < stop

    def drop(self, position):
        """Forgets what is below a position."""
        count = bisect_right(self.stops, position)
        del self.starts[:count], self.stops[:count]
        if self.starts:
            self.starts[0] = max(self.starts[0], position)


class Holes:
    """Ranges that a capture hasn't shown, each with the moment since which that is known. Beyond the limit, the lowest
    is forgotten."""

    def __init__(self):
        self.starts, self.stops, self.moments = [], [], []

    def add(self, start, stop, moment):
        """Adds a range above all others."""
        self.put(len(self.starts), len(self.starts), [(start, stop, moment)])

    def fill(self, start, stop):
        """These positions are shown. Returns how many of them were among the ranges, and since when; None if none."""
        first, last = bisect_right(self.stops, start), bisect_left(self.starts, stop)
        if first >= last or start >= stop:
            return 0, None
        found = list(zip(self.starts[first:last], self.stops[first:last], self.moments[first:last]))
        since = found[0][2]
        count = sum(min(stop, end) - max(start, begin) for begin, end, _ in found)
        (begin, _, early), (_, end, late) = found[0], found[-1]
        rest = [(begin, start, early)] * (begin < start) + [(stop, end, late)] * (stop < end)
        self.put(first, last, rest)
        return count, since

    def put(self, first, last, ranges):
        """Replaces the ranges at these places."""
        for own, values in zip((self.starts, self.stops, self.moments), zip(*ranges) if ranges else ((), (), ())):
            own[first:last] = values
            if len(own) > LIMIT:
                del own[0]

    def drop(self, position):
        """Forgets what is below a position."""
        count = bisect_right(self.stops, position)
        del self.starts[:count], self.stops[:count], self.moments[:count]
        if self.starts:
            self.starts[0] = max(self.starts[0], position)
