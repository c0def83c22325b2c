"""What passed a capture between the hosts and hasn't come yet. However much it is, what comes next is found quickly."""
import heapq
from bisect import bisect_left, bisect_right, insort

# How many arrivals that begin before a position may have it.
NEAR = 100


class Greatest:
    """A row of numbers from 0 on. The greatest in a range is found without a walk over the range."""

    def __init__(self, numbers):
        self.size = 1 << len(numbers).bit_length()
        self.nodes = [0] * self.size + numbers + [0] * (self.size - len(numbers))
        for node in reversed(range(1, self.size)):
            self.nodes[node] = max(self.nodes[2 * node], self.nodes[2 * node + 1])

    def __setitem__(self, place, number):
        node = place + self.size
        self.nodes[node] = number
        while node > 1:
            node //= 2
            self.nodes[node] = max(self.nodes[2 * node], self.nodes[2 * node + 1])

    def within(self, start, stop):
        """The greatest number from a place up to before another one; 0 if there is none."""
        found, start, stop = 0, start + self.size, stop + self.size
        while start < stop:
            if start % 2:
                found, start = max(found, self.nodes[start]), start + 1
            if stop % 2:
                stop -= 1
                found = max(found, self.nodes[stop])
            start, stop = start // 2, stop // 2
        return found

    def first_above(self, number):
        """The first place of a greater number; None if there is none."""
        if self.nodes[1] <= number:
            return None
        node = 1
        while node < self.size:
            node *= 2
            node += self.nodes[node] <= number
        return node - self.size


class Held:
    """The arrivals of `others`, which are in order, that haven't come yet; an arrival is known by its place there."""

    def __init__(self, others):
        self.others, self.held = others, set()
        # By when they are due, and by their first position: those below or at a position asked for are in `begun`.
        self.due, self.later, self.begun = [], [], []
        self.edges = Greatest([0] * len(others))
        # Where each begins that has a position, in order.
        self.starts = []

    def hold(self, at, due):
        """An arrival waits until it is due."""
        arrival = self.others[at]
        self.held.add(at)
        heapq.heappush(self.due, (due, at))
        if not arrival.is_reset:
            self.edges[at] = arrival.edge or 0
            if arrival.length:
                heapq.heappush(self.later, (arrival.start, at))
                insort(self.starts, (arrival.start, at))

    def take(self, at):
        """An arrival doesn't wait any longer."""
        self.held.remove(at)
        self.edges[at] = 0
        arrival = self.others[at]
        if arrival.length and not arrival.is_reset:
            del self.starts[bisect_left(self.starts, (arrival.start, at))]

    def take_due(self, place):
        """Takes all that are due at a place, in order."""
        found = []
        while self.due and self.due[0][0] <= place:
            at = heapq.heappop(self.due)[1]
            if at in self.held:
                self.take(at)
                found.append(at)
        return sorted(found)

    def with_position(self, position):
        """The first arrival that has a position; a lesser one won't be asked for again. None if there is none."""
        while self.later and self.later[0][0] <= position:
            heapq.heappush(self.begun, heapq.heappop(self.later)[1])
        while self.begun and not (self.begun[0] in self.held and self.others[self.begun[0]].stop > position):
            heapq.heappop(self.begun)
        return self.begun[0] if self.begun else None

    def take_within(self, ranges):
        """Takes all that have one of the positions of these ranges, in order."""
        found = set()
        for start, stop in ranges:
            first = max(0, bisect_left(self.starts, (start,)) - NEAR)
            found.update(at for begins, at in self.starts[first:bisect_left(self.starts, (stop,))]
                         if begins >= start or self.others[at].stop > start)
        for at in found:
            self.take(at)
        return sorted(found)

    def with_edge_above(self, position):
        """The first arrival that permits bytes beyond a position; None if there is none."""
        return self.edges.first_above(position)


class Came:
    """The positions that came, as ranges in order."""

    def __init__(self):
        self.starts, self.stops = [], []

    def add(self, start, stop):
        """Positions come."""
        first, last = bisect_left(self.stops, start), bisect_right(self.starts, stop)
        if first < last:
            start, stop = min(start, self.starts[first]), max(stop, self.stops[last - 1])
        self.starts[first:last], self.stops[first:last] = [start], [stop]

    def missing(self, start, stop):
        """The ranges of these positions that didn't come, at most NEAR of them."""
        found, at = [], bisect_right(self.stops, start)
        while start < stop and len(found) < NEAR:
            begins = self.starts[at] if at < len(self.starts) else stop
            if start < begins:
                found.append((start, min(begins, stop)))
            start, at = self.stops[at] if at < len(self.stops) else stop, at + 1
        return found
