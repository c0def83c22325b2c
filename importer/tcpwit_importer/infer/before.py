"""What an end must have sent and received before its capture began, as far as the capture shows it.

Sequence numbers are unwrapped here: a position is a number to which a multiple of 2^32 was added, so that positions
don't wrap.
"""
from bisect import bisect_left, bisect_right
from operator import itemgetter
from typing import Any, NamedTuple

from ..capture.segments import ACK, FIN, RST, SYN, WRAP, window

HALF = WRAP // 2
# Numbers that are lower by more than this aren't taken for those of bytes sent before.
FARTHEST = 1 << 24
# The widest shift (RFC 7323, 2.3).
WIDEST = 14


class Seen(NamedTuple):
    """A captured segment that isn't a reset, with its positions; `reached` is None without ACK."""
    packet: Any
    first: int
    stop: int
    reached: Any


def near(number, position):
    """The position with this number that is nearest to another position."""
    return position + (number - position + HALF) % WRAP - HALF


def references(connection):
    """A position of each end, from which the others are counted."""
    found = {}
    for packet in connection.packets():
        if not packet.flags & RST:
            found.setdefault(packet.source, packet.number + WRAP)
    for packet in connection.packets():
        if packet.flags & ACK:
            found.setdefault(connection.other(packet.source), packet.acknowledgment + WRAP)
        found.setdefault(packet.source, packet.number + WRAP)
    return found


def unwrapped(packets, connection, start):
    """The segments of a capture that aren't resets, with their positions."""
    last, found = dict(start), []
    for packet in packets:
        if packet.flags & RST:
            continue
        own, other = packet.source, connection.other(packet.source)
        first = near(packet.number, last[own])
        stop = first + packet.size + bool(packet.flags & SYN) + bool(packet.flags & FIN)
        reached = near(packet.acknowledgment, last[other]) if packet.flags & ACK else None
        last[own] = max(last[own], stop)
        last[other] = last[other] if reached is None else max(last[other], reached)
        found.append(Seen(packet, first, stop, reached))
    return found


class Spans:
    """A set of positions: parts in order, which don't touch. Captures with losses leave many, so they are found by
    bisection."""

    def __init__(self):
        self.parts = []

    def place(self, position):
        """The place of the first part that ends at a position or after it."""
        return bisect_left(self.parts, position, key=itemgetter(1))

    def add(self, start, stop):
        """Adds the positions from one to before another."""
        if start >= stop:
            return
        first, after = self.place(start), bisect_right(self.parts, stop, key=itemgetter(0))
        joined = self.parts[first:after]
        if joined:
            start, stop = min(start, joined[0][0]), max(stop, joined[-1][1])
        self.parts[first:after] = [(start, stop)]

    def missing(self, start, stop):
        """The parts between two positions that it lacks."""
        found = []
        for first, end in self.parts[self.place(start + 1):bisect_left(self.parts, stop, key=itemgetter(0))]:
            if first > start:
                found.append((start, first))
            start = end
        return found + ([(start, stop)] if start < stop else [])

    def begin(self, position):
        """Where the part begins that has the position before this one; the position itself without such a part."""
        place = self.place(position)
        return min(position, self.parts[place][0]) if place < len(self.parts) else position


def acknowledged_before(seen, own):
    """The position up to which an end knew that its bytes had arrived: no more than the first acknowledgment that it
    received, and than where the segments begin that it sent before that."""
    found = []
    for each in seen:
        if each.packet.source == own:
            found.append(each.first)
        elif each.reached is not None:
            found.append(each.reached)
            break
    return min(found, default=None)


def sent_before(seen, own, limit):
    """The position up to which an end had sent. What the capture doesn't show as sent, although later bytes are or an
    acknowledgment covers it, was sent before it began, up to a limit: the edge of the window at that time."""
    sent = reached = None
    for each in seen:
        start = each.first if each.packet.source == own else each.reached
        if start is None:
            continue
        if reached is None or reached < start <= max(limit, sent):
            sent = reached = start
        if each.packet.source == own:
            reached = max(reached, each.stop)
    return sent


class Received:
    """What an end had received: all bytes before the position `all`, and the bytes of `parts` after it."""

    def __init__(self, seen, own, limit):
        arrived, came, self.all, self.parts, claimed = Spans(), Spans(), None, [], Spans()
        for each in seen:
            if each.packet.source != own:
                arrived.add(each.first, each.stop)
                came.add(each.first, each.stop)
            elif each.reached is not None and self.all is None:
                self.all = arrived.begin(each.reached)
                arrived.add(self.all, each.reached)
            elif each.reached is not None and each.reached <= limit:
                for start, stop in arrived.missing(self.all, each.reached):
                    claimed.add(start, stop)
                    arrived.add(start, stop)
        if self.all is None:
            self.all = min((each.first for each in seen if each.packet.source != own), default=None)
        # What is acknowledged before it arrives wasn't received.
        self.parts = [part for part in claimed.parts if came.missing(*part) == [part]]


def offers(each, own):
    """Whether a segment is one by which an end offers a window that may be scaled."""
    return each.packet.source == own and each.reached is not None and not each.packet.flags & SYN


def windows(seen, own):
    """The position and the window of each segment by which an end offers one, without those that came late."""
    last = None
    for each in seen:
        if offers(each, own) and (last is None or each.reached >= last):
            last = each.reached
            yield each.reached, window(each.packet.segment)


def shift_of(seen, own):
    """The shift of an end's windows: the widest by which no window shrinks, but so wide that all bytes that it
    acknowledged had room."""
    widest = WIDEST
    offered = list(windows(seen, own))
    while widest and shrinks(offered, widest):
        widest -= 1
    most = max((reached for reached, _ in offered), default=0)
    while widest < WIDEST and not all_fit(seen, own, widest, most):
        widest += 1
    return widest


def shrinks(offered, shift):
    """Whether an edge goes back by more than windows are rounded."""
    edge = 0
    for reached, size in offered:
        if reached + (size << shift) <= edge - (1 << shift):
            return True
        edge = max(edge, reached + (size << shift))
    return False


def all_fit(seen, own, shift, most):
    """Whether the windows of an end had room for what the other sent, up to the last byte that it acknowledged."""
    edge = None
    for each in seen:
        if offers(each, own):
            new = each.reached + (window(each.packet.segment) << shift)
            edge = new if edge is None else max(edge, new)
        elif each.packet.source != own and edge is not None and edge + 1 < min(each.stop, most):
            return False
    return True


def edge_of(seen, own, shift):
    """The edge of the window that an end had offered: the first that is seen, but not before what was sent until then.
    A single byte after a closed window is a probe."""
    stop = None
    for each in seen:
        if offers(each, own):
            size = window(each.packet.segment)
            edge = each.reached + (size << shift)
            is_probe = size == 0 and stop == edge + 1
            return edge if stop is None or is_probe else max(edge, stop)
        if each.packet.source != own:
            stop = each.stop if stop is None else max(stop, each.stop)
    return stop


def is_closed(seen, own):
    """Whether the first window that an end offers is closed."""
    return next((window == 0 for _, window in windows(seen, own)), False)


def round_trips(seen, own):
    """The times between a segment of an end and its acknowledgment."""
    waiting = {}
    for each in seen:
        if each.packet.source == own and each.stop > each.first:
            waiting.setdefault(each.stop, each.packet.moment)
        elif each.packet.source != own and each.reached in waiting:
            yield each.packet.moment - waiting.pop(each.reached)


def pause(seen, own):
    """The first two segments of an end that begin at one position; None if there are none."""
    sent = {}
    for each in seen:
        if each.packet.source == own and (each.stop > each.first or each.first in sent):
            if each.first in sent:
                return sent[each.first], each
            sent[each.first] = each
    return None
