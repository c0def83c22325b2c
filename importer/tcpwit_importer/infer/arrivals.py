"""When a host received what passed a capture between the hosts: at some moment after that, or never.

What a host sends shows what it hadn't received by then: it acknowledges less, sends again what an arrival acknowledges,
echoes an older timestamp, or has bytes beyond the window of an arrival. It also shows what it had received: it
acknowledges that, reports it by a SACK block, or has bytes beyond the window that it knew. An arrival comes when it
passed, unless what is sent later shows that it came later: then it comes as soon as it can. So what was lost behind the
capture comes only after what shows that. If a host echoes a timestamp that only a copy of a segment can have shown it,
the copy comes, too: the network duplicated the segment behind the capture.
"""
import heapq
from bisect import bisect_left
from collections import Counter
from itertools import accumulate

from ..capture.segments import ACK, WRAP
from .held import Came, Greatest, Held
from .passages import moved

# Above each position.
FAR = 1 << 62
# How many arrivals before a reset are compared with it.
NEAR = 100
COPIES = "copies of segments that the network doubled after the capture, added"
# How often an arrival that closes the window too early waits again.
MOST_AGAIN = 100


class Limits:
    """What the segments of a host show, for each place of what it sent: the least that they acknowledge from there on,
    the first position that they have, the oldest timestamp that they echo, and the next of them with bytes beyond all
    earlier ones, if any. `plain` is the place after the last one that isn't a reset."""

    def __init__(self, sent):
        passages = [each.passage for each in sent]
        self.least, self.first, self.oldest, self.extending, self.plain = [FAR], [FAR], [FAR], [None], 0
        for place in reversed(range(len(sent))):
            least, first, oldest = FAR, FAR, FAR
            if not passages[place].is_reset:
                self.plain = max(self.plain, place + 1)
                least = FAR if passages[place].acknowledged is None else passages[place].acknowledged
                # An empty segment may be one position below what is acknowledged, as a keep-alive is.
                first = passages[place].start + (not passages[place].length)
                oldest = FAR if passages[place].echo is None else passages[place].echo
            self.least.append(min(least, self.least[-1]))
            self.first.append(min(first, self.first[-1]))
            self.oldest.append(min(oldest, self.oldest[-1]))
        for place in reversed(extending(passages)):
            self.extending.append(self.extending[-1] if place is None else place)
        for row in (self.least, self.first, self.oldest, self.extending):
            row.reverse()

    def due(self, arrival, acknowledged):
        """The first place of a segment before which an arrival may have come. The host acknowledged all below a
        position before; what begins there or below has the timestamp that is echoed (RFC 7323, 4.3)."""
        if arrival.is_reset:
            return self.plain
        stops = bisect_left(self.least, arrival.stop) if arrival.length else 0
        is_echoed = arrival.stamp is not None and arrival.start <= acknowledged
        echoes = bisect_left(self.oldest, arrival.stamp) if is_echoed else 0
        return max(stops, echoes, bisect_left(self.first, arrival.acknowledged or 0))


class Arrivals:
    """Gives the arrivals at a host their moments. `sent` has what the host sent, in order."""

    def __init__(self, sent, others, notes):
        self.notes = notes
        self.sent, self.others, self.places = sent, others, [each.place for each in others]
        self.limits, self.answered = Limits(sent), answered(sent, others)
        # What waits, and how often it did so again. `edges` has all windows' ends.
        self.held, self.again = Held(others), Counter()
        self.edges = Greatest([each.edge or 0 for each in others])
        # What came: up to which position without a gap, and what beyond; what was acknowledged, and the window's end.
        self.reached, self.beyond, self.acknowledged, self.edge = 0, [], 0, 0
        # What the host acknowledged, the newest timestamp that it echoes, and the last arrival that passed with each.
        self.told, self.recent, self.stamped = 0, 0, {}
        self.came, self.found = Came(), []

    def packets(self):
        """All packets of the host, in order."""
        passed = 0
        for place, each in enumerate(self.sent):
            while passed < len(self.others) and self.others[passed].place < each.before:
                self.hold(passed)
                passed += 1
            self.release(place)
            self.found.append(each.packet)
            self.told = max(self.told, each.passage.acknowledged or 0)
        self.come(sorted(self.held.held) + list(range(passed, len(self.others))))
        return self.found

    def hold(self, at):
        """An arrival passes. What a reset answers is due just before that."""
        arrival = self.others[at]
        due = self.answered.get(arrival.place)
        self.held.hold(at, self.limits.due(arrival, self.told) if due is None else due)
        if arrival.stamp is not None:
            self.stamped[arrival.stamp] = at

    def release(self, place):
        """Before the segment at a place is sent, what is due comes, and what the segment needs."""
        self.come(self.held.take_due(place), place)
        passage = self.sent[place].passage
        if passage.blocks:
            self.come(self.held.take_within([gap for block in passage.blocks for gap in self.came.missing(*block)]))
        while not passage.is_reset and (at := self.needed(passage)) is not None:
            self.held.take(at)
            self.come([at])
        if passage.echo is not None and passage.echo > self.recent:
            self.echo(passage.echo)

    def echo(self, stamp):
        """A timestamp is echoed that isn't that of what came: its segment comes, or a copy of it."""
        at = self.stamped.get(stamp)
        if at is None or self.others[at].start > self.told:
            return
        if at in self.held.held:
            self.held.take(at)
        else:
            self.notes.change(COPIES, self.others[at].packet.place)
        self.come([at])

    def needed(self, passage):
        """The first arrival that a segment needs, as it acknowledges what didn't come or has bytes beyond the window;
        None if none that it needs is held."""
        found = []
        if (passage.acknowledged or 0) > self.reached:
            found.append(self.held.with_position(self.reached))
        if passage.packet.size > 0 and passage.stop > self.edge:
            found.append(self.held.with_edge_above(self.edge))
        return min((at for at in found if at is not None), default=None)

    def come(self, all_at, place=None):
        """What waited comes, in the order in which it passed: when it passed, or after what came or was sent before. At
        a place of what was sent, what closes the window too early waits again."""
        for at in all_at:
            arrival = self.others[at]
            if place is not None and (later := self.closes_early(place, at)) is not None:
                self.held.hold(at, later + 1)
                self.again[at] += 1
                continue
            moment = arrival.packet.moment + 1
            if self.found:
                moment = max(moment, self.found[-1].moment)
            self.found.append(moved(arrival.packet, moment))
            if not arrival.is_reset:
                self.add(arrival)

    def add(self, arrival):
        """An arrival that isn't a reset came."""
        if arrival.stamp is not None and arrival.start <= self.told:
            self.recent = max(self.recent, arrival.stamp)
        if arrival.edge is not None and arrival.acknowledged >= self.acknowledged:
            self.acknowledged, self.edge = arrival.acknowledged, arrival.edge
        if arrival.length:
            self.came.add(arrival.start, arrival.stop)
        if arrival.length and arrival.stop > self.reached:
            heapq.heappush(self.beyond, (arrival.start, arrival.stop))
        while self.beyond and self.beyond[0][0] <= self.reached:
            self.reached = max(self.reached, heapq.heappop(self.beyond)[1])

    def closes_early(self, place, at):
        """The place of a segment with bytes beyond the window of an arrival, which makes it smaller, if nothing between
        them permits these bytes; else None."""
        edge = self.others[at].edge
        if edge is None or edge >= self.edge or self.again[at] == MOST_AGAIN:
            return None
        beyond = self.limits.extending[place]
        if beyond is None or not edge < (stop := self.sent[beyond].passage.stop) <= self.edge:
            return None
        is_permitted = self.edges.within(at + 1, bisect_left(self.places, self.sent[beyond].before)) >= stop
        return None if is_permitted else beyond


def extending(passages):
    """For each of what was sent, its place if it has bytes beyond all earlier ones, else None."""
    found, reached = [], 0
    for place, passage in enumerate(passages):
        is_further = passage.packet.size > 0 and passage.stop > reached and not passage.is_reset
        found.append(place if is_further else None)
        reached = reached if passage.is_reset else max(reached, passage.stop)
    return found


def answered(sent, others):
    """Which arrivals resets may answer: for the place of each in the capture, that of its reset in what was sent."""
    found, left = {}, list(others)
    received = list(accumulate((each.passage.acknowledged or 0 for each in sent), max))
    for place in reversed(range(len(sent))):
        reset = sent[place].passage
        if not reset.is_reset:
            continue
        while left and left[-1].place >= sent[place].before:
            left.pop()
        near = range(len(left) - 1, max(0, len(left) - NEAR) - 1, -1)
        match = next((at for at in near if may_answer(reset.packet, left[at], received[place])), None)
        if match is not None:
            found[left[match].place] = place
            del left[match:]
    return found


def may_answer(reset, arrival, received):
    """Whether a reset may answer an arrival (RFC 9293, 3.5.2), if its host acknowledged all below a position before."""
    if arrival.is_reset or (arrival.length and arrival.stop <= received):
        return False
    if reset.flags & ACK:
        return (arrival.acknowledged is None
                and reset.acknowledgment == (arrival.packet.number + arrival.length) % WRAP)
    return arrival.acknowledged is not None and reset.number == arrival.packet.acknowledgment
