"""Connections in captures: which segments belong together, and which bytes each end sent."""
from itertools import islice

from ..problem import Problem
from ..remedies import BUFFER, LARGER_BUFFER
from .packets import shown
from .segments import ACK, FIN, RST, SHORTEST, SIZE, SYN, WRAP, header_length, options, values

# The maximum segment size without the option (RFC 9293, 3.7.1).
USUAL_SIZE = 536


class Connection:
    """Both directions between one pair of addresses and ports, from a SYN on. An end is an address and a port.

    `seen` has the packets of each capture. `initial` has each end's initial sequence number once its SYN was seen.
    `on_wire` has what is known about the sizes of an end's segments.
    """

    def __init__(self, client, server, begun):
        self.client, self.server, self.begun = client, server, begun
        self.seen, self.initial, self.sizes, self.on_wire = {}, {}, {}, {}
        self.whole = True
        self.claimed = ()
        self.hosts = {}
        self._streams = {}

    def __str__(self):
        return f"{shown(self.client)} -> {shown(self.server)}"

    def other(self, end):
        """The other end."""
        return self.server if end == self.client else self.client

    def ends_of(self, packet):
        """The source and the target of a packet, as this connection has them."""
        return (self.client, self.server) if packet.source == self.client else (self.server, self.client)

    def add(self, capture, packet):
        """Adds the next packet of a capture."""
        self.seen.setdefault(capture, []).append(packet)
        if packet.flags & SYN:
            self.initial.setdefault(packet.source, packet.number)
            self.sizes.setdefault(packet.source, size_option(packet.segment))

    def packets(self):
        """All packets of all captures."""
        for packets in self.seen.values():
            yield from packets

    def piece_size(self, segment):
        """The most bytes that a segment with these options has on the wire: the smaller MSS option minus the length of
        its options."""
        size = min(self.sizes.get(self.client) or USUAL_SIZE, self.sizes.get(self.server) or USUAL_SIZE)
        return max(1, size - (header_length(segment) - SHORTEST))

    def completed(self, captures=()):
        """The moment of the client's first segment after its SYN in these captures, or in all; None if no capture has
        one."""
        own = [packet for name in captures for packet in self.seen.get(name, [])]
        moments = [packet.moment for packet in own or self.packets()
                   if packet.source == self.client and packet.flags & (SYN | RST | ACK) == ACK]
        return min(moments, default=None)

    def answered(self):
        """The moment at which the server's SYN was first seen; None if it wasn't seen."""
        moments = [packet.moment for packet in self.packets() if packet.source == self.server and packet.flags & SYN]
        return min(moments, default=None)

    def sent_or_ended(self, end):
        """Whether an end sent bytes or a FIN, which no stack does without a call."""
        return any(packet.source == end and (packet.size > 0 or packet.flags & FIN) for packet in self.packets())

    def was_reset(self):
        """Whether an end reset the connection: bytes that the program had written by then may never have been sent."""
        return any(packet.flags & RST for packet in self.packets())

    def pieces(self, end, offset, length):
        """The parts of these bytes that captures have, with their offsets, in order."""
        for start, stream in self.spans(end):
            piece = bytes(stream[max(0, offset - start):max(0, offset + length - start)])
            if piece:
                yield max(start, offset), piece

    def was_sent(self, end):
        """The offset up to which an end certainly sent its bytes: the other end acknowledged them, or captures have
        later ones."""
        first = self.initial.get(end)
        if first is None:
            return 0
        seen = max((start + packet.size for start, packet in self._with_bytes(end, first)), default=0)
        acknowledged = self._acknowledged(end, first, self.packets())
        return max(seen, acknowledged if acknowledged < WRAP // 2 else 0)

    def shown_up_to(self, end):
        """The offset up to which captures have an end's bytes without a gap."""
        first = self.initial.get(end)
        return 0 if first is None else _without_gap((start, start + packet.size)
                                                    for start, packet in self._with_bytes(end, first))

    def spans(self, end):
        """All bytes of an end that captures have: the offset and the bytes of each span without a gap."""
        if end not in self._streams:
            self._streams[end] = self._spans(end)
        return iter(self._streams[end])

    def _spans(self, end):
        first = self.initial.get(end)
        if first is None:
            return []
        longest = {}
        for offset, packet in self._with_bytes(end, first):
            longest[offset] = max(longest.get(offset, packet), packet, key=lambda each: each.size)
        spans = []
        for offset in sorted(longest):
            if not spans or offset > spans[-1][0] + len(spans[-1][1]):
                spans.append((offset, bytearray()))
            start, stream = spans[-1]
            stream += longest[offset].payload[start + len(stream) - offset:]
        return spans

    def _with_bytes(self, end, first):
        """The segments with bytes that an end sent, each with the offset of its first byte."""
        for packet in self.packets():
            offset = (packet.number + bool(packet.flags & SYN) - first - 1) % WRAP
            # A segment that begins before the first byte is a keep-alive or an old duplicate.
            if packet.source == end and packet.size and offset < WRAP // 2:
                yield offset, packet

    def _acknowledged(self, end, first, packets):
        """The offset up to which these packets of the other end acknowledge an end's bytes and FIN. Resets don't
        count."""
        return max(((packet.acknowledgment - first - 1) % WRAP for packet in packets
                    if packet.source == self.other(end) and packet.flags & (ACK | RST) == ACK), default=0)

    def gap(self, capture):
        """The first acknowledged byte that a capture lacks, with the end that sent it; None if the capture has all."""
        for end in (self.client, self.server):
            first = self.initial.get(end)
            if first is None:
                continue
            reached = _without_gap(self._sent(capture, end, first))
            acknowledged = self._acknowledged(end, first, self._answers(capture, end))
            if reached < acknowledged < WRAP // 2:
                return end, reached
        return None

    def _answers(self, capture, end):
        """What the other end sent in a capture, from its SYN on, if the capture has that: what it sent before belongs
        to an earlier connection."""
        packets, other = self.seen[capture], self.other(end)
        start = next((place for place, packet in enumerate(packets)
                      if packet.source == other and packet.flags & SYN), 0)
        return islice(packets, start, None)

    def shows(self, end, offset):
        """Whether a capture has the byte, or the FIN, at an offset of an end."""
        return any(start <= offset < stop for name in self.seen
                   for start, stop in self._sent(name, end, self.initial[end]))

    def _sent(self, capture, end, first):
        """The offsets of the bytes and the FIN of an end's segments in a capture: where each segment begins and
        stops."""
        for packet in self.seen[capture]:
            if packet.source == end and not packet.flags & RST:
                offset = (packet.number + bool(packet.flags & SYN) - first - 1) % WRAP
                length = packet.size + (packet.flags & FIN)
                if length and offset < WRAP // 2:
                    yield offset, offset + length


def _without_gap(spans):
    """The offset up to which spans have everything from 0 on."""
    reached = 0
    for start, stop in sorted(spans):
        if start > reached:
            break
        reached = max(reached, stop)
    return reached


def size_option(segment):
    """The maximum segment size in a SYN's options; None if it has none."""
    found = values(SIZE, 2, options(segment))
    return int.from_bytes(found[0], "big") if found else None


class Table:
    """The connections that packets form, which are added in the order of their captures."""

    def __init__(self, kind):
        self.kind, self.found = kind, {}
        # The name of the capture that is read, and the latest connection between two ends in it, for both directions.
        self.name, self.current = "", {}

    def begin(self, name):
        """The packets of this capture follow."""
        self.name, self.current = name, {}

    def add(self, packet):
        """Adds the next packet to its connection, which is returned."""
        pair = packet.source, packet.target
        connection = self.current.get(pair)
        if not continues(connection, packet):
            key = (*pair, packet.number) if packet.is_syn else (frozenset(pair), self.name)
            connection = self.found.setdefault(key, begun_by(packet, self.kind))
            self.current[pair] = self.current[pair[::-1]] = connection
        connection.add(self.name, packet)
        return connection

    def connections(self):
        """All connections, in the order in which they begin."""
        return sorted(self.found.values(), key=lambda connection: connection.begun)


def connections_of(captures):
    """The connections of all captures, in the order in which they begin. `captures` maps names to packets."""
    table = Table(Connection)
    for name, packets in captures.items():
        table.begin(name)
        for packet in packets:
            table.add(packet)
    return table.connections()


def continues(connection, packet):
    """Whether a packet belongs to the connection that its ports had last, which is None if they had none."""
    return connection is not None and not (packet.is_syn and (not connection.whole or _is_new(connection, packet)))


def begun_by(packet, kind):
    """The connection whose first captured packet this is. Without a SYN, it has begun before."""
    connection = kind(*((packet.source, packet.target) if packet.is_syn else _ends(packet)), packet.moment)
    connection.whole = packet.is_syn
    return connection


def _ends(packet):
    """Client and server of a connection whose SYN is missing: the server answers it, or is assumed to have the lower
    port."""
    if packet.flags & SYN:
        return packet.target, packet.source
    return (packet.source, packet.target) if packet.source[1] > packet.target[1] else (packet.target, packet.source)


def _is_new(connection, packet):
    """Whether a SYN begins another connection with the same ports; the second SYN of a simultaneous open doesn't."""
    known = connection.initial.get(packet.source)
    return known != packet.number and not (known is None and packet.source == connection.server
                                           and len(connection.initial) == 1)


def refuse_gaps(connections):
    """Refuses a capture that lost packets: the gaps would look as if the stack broke a rule."""
    for connection in connections:
        for name in connection.seen:
            if connection.whole and (gap := connection.gap(name)):
                raise Problem(_cause(connection, name, *gap), f"{BUFFER}; or accept it as it is with --keep-gaps",
                              LARGER_BUFFER)


def _cause(connection, name, end, offset):
    """Why a capture lacks an acknowledged byte. If the other capture lacks it, too, that may be the fault of the end
    that acknowledged it."""
    if connection.shows(end, offset):
        return (f"{name}: the capture lost packets of {connection}: byte {offset + 1} that {shown(end)} sent was "
                "acknowledged and is not in the capture")
    lost = "both captures" if len(connection.seen) == 2 else "the capture"
    return (f"{name}: {shown(connection.other(end))} acknowledged byte {offset + 1} of {shown(end)}, which no capture "
            f"has: it was never sent, or {lost} lost packets")
