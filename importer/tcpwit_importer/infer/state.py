"""The state of both ends of a connection when its captures began, as far as they show it."""
from dataclasses import dataclass, field

from ..capture.segments import ACK, SHIFT, SYN, options, values
from .before import (
    FARTHEST,
    WIDEST,
    Received,
    acknowledged_before,
    edge_of,
    is_closed,
    references,
    sent_before,
    shift_of,
    unwrapped,
)
from .hosts import Undecided


@dataclass
class End:
    """One end. `low` is the lowest position in use. `sent` is the one up to which it had sent, and `acknowledged` the
    one up to which it knew that its bytes had arrived. `received` is the one up to which it had received the other's
    bytes; it had those of `parts`, too. Its window has an `edge` and a `shift`, and may be `closed`; it's `narrow` if
    its size is rounded down. `flight` has the segments that it had sent, and that arrive in the other's capture."""
    shift: int
    edge: int
    closed: bool
    narrow: bool
    low: int = 0
    sent: int = 0
    acknowledged: int = 0
    received: int = 0
    parts: list = field(default_factory=list)
    flight: list = field(default_factory=list)


def answer_to_syn(connection):
    """The first SYN with ACK that a capture has; None if none has one."""
    return next((packet for packet in connection.packets() if packet.flags & (SYN | ACK) == SYN | ACK), None)


def both_ends(connection, captures, flights):
    """The state of each end. `flights` has, for each end, the identities of the packets in the other's capture that it
    sent before its own began."""
    start = references(connection)
    own = {end: seen_by(connection, captures, end, start) for end in (connection.client, connection.server)}
    views = [seen for seen in own.values() if seen is not None]
    if any(len({each.packet.source for each in seen}) < 2 for seen in views):
        raise Undecided("it began before the capture, which has segments of one direction only")
    found = {end: offering(connection, own, end) for end in own}
    for end, seen in own.items():
        if seen is not None:
            end_of_capture(found[end], found[connection.other(end)], seen, end)
            found[end].flight = [each for each in own[connection.other(end)] or () if id(each.packet) in flights[end]]
    for end, seen in own.items():
        if seen is None:
            leave_open(found[end], found[connection.other(end)])
    for end in own:
        agree(found[end], found[connection.other(end)])
    for end in own:
        found[end].low = lowest(found[end], found[connection.other(end)], end, views)
    return found


def seen_by(connection, captures, end, start):
    """The segments of an end's own capture, with their positions; None if its host wasn't recorded."""
    name = captures.get(connection.hosts[end], captures.get(None))
    return None if name is None else unwrapped(connection.seen[name], connection, start)


def offering(connection, own, end):
    """An end with its window. What its own capture shows counts first."""
    views = [seen for seen in (own[end], own[connection.other(end)]) if seen is not None]
    option = option_of(connection, end)
    shift = shift_of(views[0], end) if option is None else option
    edges = [edge for edge in (edge_of(seen, end, shift) for seen in views) if edge is not None]
    closed = is_closed(views[0], end)
    return End(shift, max(edges), closed, closed and own[connection.other(end)] is None)


def option_of(connection, end):
    """The shift that an end's SYN gave; 0 if there was none, None if no capture shows it."""
    answer = answer_to_syn(connection)
    if answer is None:
        return None
    given = values(SHIFT, 1, options(answer.segment))
    return 0 if not given else min(given[0][0], WIDEST) if answer.source == end else None


def end_of_capture(end, other, seen, address):
    """Sets what an end had done from its own capture."""
    received = Received(seen, address, end.edge)
    end.received, end.parts = received.all, received.parts
    end.acknowledged = acknowledged_before(seen, address)
    end.sent = sent_before(seen, address, other.edge)


def leave_open(end, other):
    """Sets what an end had done that wasn't recorded: it had received what it had acknowledged, and no more."""
    end.received, end.acknowledged = other.acknowledged, other.received
    end.sent = max([other.received, *(stop for _, stop in other.parts)])


def agree(end, other):
    """What an end had sent includes what the other had received; the segments in flight show that, too."""
    other.received = max([other.received, *(each.reached for each in other.flight if each.reached is not None)])
    end.acknowledged = min([end.acknowledged, other.received,
                            *(each.reached for each in other.flight if each.reached is not None)])
    end.sent = max([end.sent, other.received, *(stop for _, stop in other.parts)])
    other.edge = max(other.edge, end.sent)
    other.closed = other.closed and end.acknowledged == other.edge


def lowest(end, other, address, views):
    """The lowest position of an end that a segment names, but none far below the others."""
    found = [end.acknowledged, other.received]
    for each in (each for seen in views for each in seen):
        if each.packet.source == address:
            found.append(each.first)
        elif each.reached is not None:
            found.append(each.reached)
    return max(min(found), end.acknowledged - FARTHEST)
