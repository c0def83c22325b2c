"""Arrivals that a server may have ignored because its queue had no room, or because it waits for data.

A connection whose handshake is complete waits in the queue for its program. If the queue is full, the server ignores
the segment that completes the handshake, and those after it, until there is room (Linux; also with TCP_DEFER_ACCEPT,
until there is data). How many connections were in the queue isn't known without calls. So what a server seems to have
ignored then is left out, as if it had been lost.
"""
from ..capture.segments import ACK, FIN, RST, SYN

# Nanoseconds by which an arrival may precede a SYN with ACK that was sent before the arrival was processed, and for
# which an acknowledgment may be delayed (RFC 9293, 3.8.6.3).
CROSSING, DELAY = 20 * 10**6, 500 * 10**6
NOTE = "segments that a server ignored before the handshake's end, as if its queue was full"


def ignored_by(server, packets, end, notes):
    """Which packets of a server's host it seems to have ignored, by their identities. `end` is the moment when the
    recording ended."""
    first = next((place for place, packet in enumerate(packets)
                  if packet.source == server and packet.flags & (SYN | ACK) == SYN | ACK), None)
    if first is None:
        return set()
    number = (packets[first].number + 1) % (1 << 32)
    last, replied, completing = packets[first].moment, None, []
    for place in range(first + 1, len(packets)):
        packet = packets[place]
        if packet.source != server:
            if packet.flags & (ACK | RST | SYN) == ACK and packet.acknowledgment == number:
                completing.append(place)
        elif packet.flags & SYN:
            last = packet.moment
        else:
            replied = packet.moment
            break
    found = ignored(packets, completing, last, end if replied is None else replied)
    if replied is not None and len(found) == len(completing):
        # Nothing else completes the handshake.
        return set()
    for place in sorted(found):
        notes.leave_out(NOTE, packets[place].place)
    return {id(packets[place]) for place in found}


def ignored(packets, completing, last, replied):
    """Of the segments that may complete the handshake, those that can't have done so: the SYN was sent again later, or
    bytes that arrived then or later have no acknowledgment in time."""
    found, late = set(), False
    for place in reversed(completing):
        packet = packets[place]
        late = late or (bool(packet.size or packet.flags & FIN) and replied - packet.moment > DELAY)
        if late or packet.moment < last - CROSSING:
            found.add(place)
    return found
