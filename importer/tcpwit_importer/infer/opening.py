"""Writes the beginning of a connection that began before its capture: segments that must, or may, have come before.

The handshake has numbers below all that are seen. Some small segments follow, so that each host has measured round
trips, and may still acknowledge what it received. Then each host sends what it had sent when its capture began; the
part that had arrived is received, and the part that was acknowledged is acknowledged. If something is in flight, three
duplicate acknowledgments came for it, since its retransmission may have been permitted.
"""
import struct

from ..capture.connections import Connection
from ..capture.packets import Packet
from ..capture.segments import ACK, PADDING, PERMITTED, SACK, SHIFT, SIZE, SYN, WRAP, listed, options, values
from .before import near
from .state import answer_to_syn
from .streams import streams_of

# How many bytes each host sends, one by one, after the handshake; how many duplicate acknowledgments come.
ROUNDS, DUPLICATES = 8, 3
# Nanoseconds between two lines.
STEP = 10**5
# The largest value of a window field.
FULL_WINDOW = 65535


class MadeUp(Packet):
    """A packet that no capture has."""
    __slots__ = ()


def is_made_up(packet):
    """Whether no capture has a packet."""
    return isinstance(packet, MadeUp)


def with_beginning(connection, captures, ends, size, trips):
    """A copy of a connection that gets a beginning after which its ends have these states, and the wire that has it.
    Segments have at most `size` bytes; `trips` has the nanoseconds of the handshake's round trip, and of those of the
    rounds that follow."""
    answer = answer_to_syn(connection)
    found = Connection(connection.client, connection.server, connection.begun)
    if answer:
        found.client, found.server = answer.target, answer.source
    found.hosts, found.sizes = connection.hosts, dict.fromkeys(ends, size)
    found.seen = {name: connection.seen[name] for name in captures.values()}
    wire = Wire(found, captures, ends, size, trips[0])
    (AfterSyn(wire, answer) if answer else Beginning(wire, trips[1:])).write()
    return found, wire


class Wire:
    """The segments that are made up, in order. `sent` and `received` have the positions that each end has reached, and
    `first` the initial ones; a round trip takes `trip` nanoseconds. `lines` has the moment of each segment, its
    capture, its sender, and its bytes."""

    def __init__(self, connection, captures, ends, size, trip):
        self.connection, self.captures, self.ends, self.size, self.trip = connection, captures, ends, size, trip
        self.first, self.sent, self.received, self.streams = {}, {}, {}, {}
        self.now, self.lines = 0, []

    def start(self, first):
        """Sets the initial position of each end."""
        self.first, self.sent = first, dict(first)
        self.received = {end: first[self.connection.other(end)] + 1 for end in first}
        self.connection.initial = {end: position % WRAP for end, position in first.items()}
        self.streams = streams_of(self.connection, dict.fromkeys(first, list(self.captures.values())))

    def segment(self, end, stop, flags=ACK, given=b""):
        """The next segment of an end, up to this position."""
        ports = end[1], self.connection.other(end)[1]
        first, state = self.sent[end], self.ends[end]
        space = max(0, state.edge - self.received[end])
        if not flags & SYN:
            space = space >> state.shift if state.closed or state.narrow else -(-space >> state.shift)
        acknowledgment = self.received[end] % WRAP if flags & ACK else 0
        head = struct.pack("!HHIIBBHHH", *ports, first % WRAP, acknowledgment, (20 + len(given)) // 4 << 4, flags,
                           min(space, FULL_WINDOW), 0, 0)
        self.sent[end] = max(first, stop)
        length = 0 if flags & SYN else stop - first
        return head + given + self.streams[end].bytes_of(first - self.first[end] - 1, length)

    def out(self, end, segment, like=None):
        """An end sends a segment."""
        self.now += STEP
        self.add(end, end, segment, like)

    def arrive(self, end, segment, stop=None):
        """A segment that an end sent arrives. With `stop`, the other end has received all before this position."""
        self.now += STEP
        other = self.connection.other(end)
        if None not in self.captures:
            self.add(other, end, segment)
        if stop is not None:
            self.received[other] = max(self.received[other], stop)

    def add(self, owner, sender, segment, like=None):
        """Adds a line, if the host of an end was recorded."""
        name = self.name(owner)
        if name is not None:
            self.lines.append((self.now, name, sender, segment, like))

    def name(self, end):
        """The capture of an end's host; None if that wasn't recorded."""
        return self.captures.get(self.connection.hosts[end], self.captures.get(None))

    def carry(self, end, stop, flags=ACK, given=b""):
        """An end sends its next segment, and it arrives half a round trip later."""
        segment = self.segment(end, stop, flags, given)
        self.out(end, segment)
        self.now += self.trip // 2
        self.arrive(end, segment, self.sent[end])

    def burst(self, end, stop, cuts=()):
        """An end sends all up to a position, which arrives and is acknowledged a round trip later."""
        segments = list(self.pieces(end, stop, cuts))
        if not segments:
            return
        for segment, _ in segments:
            self.out(end, segment)
        self.now += self.trip // 2
        for segment, reached in segments:
            self.arrive(end, segment, reached)
        self.acknowledge(self.connection.other(end))

    def acknowledge(self, end):
        """An end acknowledges what it has received."""
        self.carry(end, self.sent[end])

    def pieces(self, end, stop, cuts=()):
        """The next segments of an end up to a position, with where each stops, cut also at some positions."""
        while self.sent[end] < stop:
            limits = [cut for cut in cuts if self.sent[end] < cut < stop]
            each = min([stop, self.sent[end] + self.size, *limits])
            yield self.segment(end, each), each

    def syn_options(self, end, scales, permits):
        """The options of an end's SYN, which may scale windows, and permit SACK."""
        size = struct.pack("!BBH", SIZE, 4, self.size)
        scale = bytes((SHIFT, 3, self.ends[end].shift, PADDING)) if scales else b""
        return size + scale + (bytes((PERMITTED, 2, PADDING, PADDING)) if permits else b"")

    def has_blocks(self):
        """Whether an end reports by blocks what it received: then both SYNs permitted that (RFC 2018, 2)."""
        return any(kind == SACK for packet in self.connection.packets() for kind, _ in listed(options(packet.segment)))

    def packets(self, name, at):
        """The packets of a capture. `at` says when a moment of a line is by its clock."""
        for moment, own, sender, segment, like in self.lines:
            if own == name:
                missing = like.missing if like else 0
                segment = segment[:len(segment) - missing]
                yield MadeUp(at(moment), sender, self.connection.other(sender), segment, None, name, 0, missing)


class Beginning:
    """A beginning of a connection whose SYNs no capture has."""

    def __init__(self, wire, trips):
        self.wire, self.ends, self.connection, self.trips = wire, wire.ends, wire.connection, trips
        self.first = wire.trip
        self.order = self.connection.client, self.connection.server
        self.flights = {end: sorted(state.flight, key=lambda each: each.reached or 0)
                        for end, state in wire.ends.items()}

    def write(self):
        """Writes it."""
        self.wire.start({end: self.ends[end].low - ROUNDS - self.padding(end) - 1 for end in self.order})
        self.shake_hands()
        for self.wire.trip in self.trips:
            for end in self.order:
                closed = self.ends[self.connection.other(end)].closed
                self.wire.carry(end, self.wire.sent[end] + (0 if closed else 1))
        self.wire.acknowledge(self.order[0])
        for end in self.order:
            cuts = self.single_bytes(end)
            # Without rounds, an end has measured only the handshake.
            self.wire.trip = self.first if cuts else self.trips[-1]
            self.wire.burst(end, self.ends[end].acknowledged, cuts)
        self.send_others()

    def padding(self, end):
        """How many bytes more an end sends so that a scaled window ends at the edge of a closed one."""
        other = self.ends[self.connection.other(end)]
        return (self.ends[end].low - ROUNDS - other.edge) % (1 << other.shift) if other.closed else 0

    def shake_hands(self):
        """The three segments of the handshake."""
        client, server = self.order
        permits = self.wire.has_blocks()
        for end, flags in ((client, SYN), (server, SYN | ACK)):
            self.wire.carry(end, self.wire.sent[end] + 1, flags, self.wire.syn_options(end, True, permits))
        self.wire.acknowledge(client)

    def single_bytes(self, end):
        """Where the first segments of an end stop that has sent nothing yet: the other may acknowledge each."""
        first = self.wire.first[end] + 1
        return range(first + 1, first + 1 + ROUNDS) if self.wire.sent[end] == first else ()

    def send_others(self):
        """Each end sends what wasn't acknowledged when its capture began. What had arrived does so after all of it was
        sent, since each end acknowledges less than it receives."""
        arriving, doubled = {}, {}
        for end in self.order:
            other = self.connection.other(end)
            cuts = {each.reached for each in self.flights[other]}
            arriving[end] = list(self.wire.pieces(end, self.ends[other].received, cuts - {None}))
            for segment, _ in arriving[end]:
                self.wire.out(end, segment)
            doubled[end] = self.duplicates(end)
        for end in self.order:
            other = self.connection.other(end)
            self.send_flight(end)
            for segment, stop in arriving[other]:
                self.wire.arrive(other, segment, stop)
                self.send_flight(end)
        for end in self.order:
            self.fill(end, self.ends[end].sent)
        for end, segments in doubled.items():
            for segment in segments:
                self.wire.arrive(end, segment)

    def duplicates(self, end):
        """The duplicate acknowledgments that an end sends, if it hasn't received all."""
        other = self.connection.other(end)
        in_flight = self.ends[other].sent > self.ends[other].acknowledged or self.flights[other]
        if not in_flight or None in self.wire.captures:
            return []
        found = [self.wire.segment(end, self.wire.sent[end]) for _ in range(DUPLICATES)]
        for segment in found:
            self.wire.out(end, segment)
        return found

    def send_flight(self, end):
        """An end sends those segments in flight that acknowledge no more than it has received."""
        flight = self.flights[end]
        while flight and (flight[0].reached or 0) <= self.wire.received[end]:
            each = flight.pop(0)
            self.fill(end, each.first)
            self.wire.out(end, each.packet.segment, each.packet)
            self.wire.sent[end] = max(self.wire.sent[end], each.stop)

    def fill(self, end, stop):
        """An end sends up to a position what no capture has. What the other had received out of order arrives."""
        parts = self.ends[self.connection.other(end)].parts
        for segment, reached in self.wire.pieces(end, stop, {place for part in parts for place in part}):
            self.wire.out(end, segment)
            if any(first < reached <= last for first, last in parts):
                self.wire.arrive(end, segment)


class AfterSyn:
    """A beginning of a connection whose SYN with ACK a capture has: the SYN. If a capture has the other one later, such
    as sent again, it's added there, too."""

    def __init__(self, wire, answer):
        self.wire, self.answer = wire, answer

    def write(self):
        """Writes it."""
        answer, wire = self.answer, self.wire
        client, server = answer.target, answer.source
        wire.start({client: near((answer.acknowledgment - 1) % WRAP, wire.ends[client].low),
                    server: near(answer.number, wire.ends[server].low)})
        scales, permits = values(SHIFT, 1, options(answer.segment)), values(PERMITTED, 0, options(answer.segment))
        given = wire.syn_options(client, bool(scales), bool(permits))
        wire.carry(client, wire.sent[client] + 1, SYN, given)
        if self.lacks(server):
            wire.out(server, answer.segment, answer)
        if self.lacks(client):
            wire.arrive(server, answer.segment)
        for each in wire.ends[server].flight:
            if not each.packet.flags & SYN:
                wire.out(server, each.packet.segment, each.packet)

    def lacks(self, end):
        """Whether an end's host was recorded, but its capture doesn't begin with a SYN."""
        name = self.wire.name(end)
        return name is not None and not self.wire.connection.seen[name][0].flags & SYN
