"""A capture that was made between the hosts, such as at a switch, as two: what each host sent and received.

It shows when a segment passed: it was sent before, and received after that or never. So each host has what it sent when
that passed, and what it received at a moment that fits what it sent.
"""
import heapq
from collections import Counter

from ..capture.copies import without_copies
from .arrivals import Arrivals
from .departures import Departures
from .passages import moved, passages, without_garbage

# Segments may wait so many nanoseconds before the capture even if no acknowledgment shows it.
LEAST = 20 * 10**6


def split(connection, name, longest, notes):
    """Replaces a connection's capture by one for each host. A segment needs at most `longest` nanoseconds from its host
    to the capture. Returns their names, and by how many nanoseconds that time differs from segment to segment."""
    packets = without_copies(entering(connection.seen[name]), notes)
    packets = apart(sorted(packets, key=lambda packet: packet.moment))
    found = without_garbage(passages(connection, packets))
    names = {host: f"{name}, host {host}" for host in (0, 1)}
    sides, spread = {}, LEAST
    for end, host in connection.hosts.items():
        if found:
            sent = Departures(connection, end, found, longest).in_order(notes)
            others = [each for each in found if each.packet.source != end]
            sides[names[host]] = Arrivals(sent, others, notes).packets()
            spread = max(spread, spread_of(found, end))
        else:
            sides[names[host]] = [moved(packet, packet.moment + (packet.source != end)) for packet in packets]
    del connection.seen[name]
    connection.seen.update(sides)
    return names, min(spread, longest)


def spread_of(found, end):
    """How much longer an end's slowest acknowledgment took than its fastest: the time to the capture and back differs
    at most by so much."""
    waiting, times = [], []
    for passage in found:
        if passage.packet.source != end:
            if passage.length and not passage.is_reset:
                heapq.heappush(waiting, (passage.stop, passage.packet.moment))
        elif passage.acknowledged is not None:
            covered = []
            while waiting and waiting[0][0] <= passage.acknowledged:
                covered.append(heapq.heappop(waiting)[1])
            times += [passage.packet.moment - max(covered)] if covered else []
    return max(times) - min(times) if times else 0


def apart(packets):
    """Packets at moments that differ, also if the capture's clock is coarse: a segment comes after it was sent."""
    found, last = [], 0
    for packet in packets:
        last = max(packet.moment, last + 2)
        found.append(moved(packet, last))
    return found


def entering(packets):
    """A router's capture of all interfaces has a segment twice: when it arrives, and when it's forwarded. The first one
    counts."""
    arrived, kept = Counter(), []
    for packet in packets:
        key = packet.source, packet.segment
        if packet.outgoing and arrived[key]:
            arrived[key] -= 1
            continue
        arrived[key] += packet.outgoing is False
        kept.append(packet)
    return kept
