"""Connections that can't be judged, and the packet that shows why.

A capture lacks something of them, or they have what a trace or the checker has no word for.
"""
from ..capture.packets import shown
from ..capture.segments import ACK, FAST_OPEN, MULTIPATH, RST, SYN, are_damaged, listed, options
from ..problem import Problem
from ..remedies import WIDER

LEAVE_OUT = "leave the connection out of the capture"


def refuse(connection):
    """Refuses a connection that can't be judged."""
    for packets in connection.seen.values():
        refuse_packets(connection, packets)
        refuse_halves(connection, packets)


def refuse_packets(connection, packets):
    """Refuses a connection with a packet that has no line in a trace."""
    if packets and 0 in (connection.client[1], connection.server[1]):
        raise Problem(f"{named(connection, packets[0])} has port 0, which no connection can have", LEAVE_OUT)
    for packet in packets:
        if packet.lacks_header:
            raise Problem(f"the capture cut the TCP header of {named(connection, packet)}: {WIDER}", WIDER)
        if (given := options(packet.segment)) and are_damaged(given):
            raise Problem(f"{named(connection, packet)} has a TCP option of a wrong length", LEAVE_OUT)


def refuse_halves(connection, packets):
    """Refuses a connection of which a capture has one direction only, or a SYN whose SYN-ACK is missing although the
    client acknowledges it."""
    if first := next((packet for packet in packets if acknowledges(packet)), None):
        other = shown(connection.other(first.source))
        if all(packet.source == first.source for packet in packets):
            raise Problem(f"the capture has one direction only: {named(connection, first)} acknowledges a packet of "
                          f"{other}, and it has none of these", "capture both directions")
    syns = {packet.source for packet in packets if packet.flags & SYN}
    first = next((packet for packet in packets if packet.source == connection.client and acknowledges(packet)), None)
    if first and syns == {connection.client}:
        raise Problem(f"the capture lacks the SYN-ACK of {shown(connection.server)}, which {named(connection, first)} "
                      "acknowledges", "capture all packets of the connection")


def acknowledges(packet):
    """Whether a packet shows that its sender received a SYN: it is neither a SYN nor a reset."""
    return packet.flags & (ACK | RST | SYN) == ACK


def named(connection, packet):
    """A packet in words, with its capture if there are two."""
    return f"packet {packet.count}" + (f" of {packet.capture}" if len(connection.seen) > 1 else "")


def extension(connection):
    """What a connection uses that the checker has no word for, in words; None if nothing. A no may come from that."""
    multipath = {}
    for packet in connection.packets():
        if packet.flags & SYN:
            kinds = [kind for kind, _ in listed(options(packet.segment))]
            if packet.size:
                option = ", with the option TCP Fast Open" if FAST_OPEN in kinds else ""
                return f"data on a SYN ({named(connection, packet)}{option})"
            if MULTIPATH in kinds:
                multipath.setdefault(packet.source, packet)
    if len(multipath) == 2:
        return f"multipath TCP ({named(connection, multipath[connection.client])} has its option)"
    return None
