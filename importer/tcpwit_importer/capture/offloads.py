"""Large segments: cuts segments that offloads joined into those on the wire.

With segmentation offload, a capture shows one segment of up to 64 kB for several on the wire; receive offload joins
received segments. A sent segment is cut into pieces of the size that both hosts agreed on, unless `sizes.py` knows a
larger one. A received segment equals a sent one, or joins several consecutive pieces.
"""
from typing import Any, NamedTuple

from .segments import CWR, FIN, PSH, WRAP, flags, header_length, number, payload
from .sizes import LENGTHS, UNKNOWN, Size

MOVED = FIN | PSH | CWR


class Sent(NamedTuple):
    """A sent segment or a piece of one."""
    moment: int
    segment: bytes
    arrived: list


def cut(segment, size):
    """The pieces of at most `size` bytes: only the last has FIN and PSH, only the first CWR."""
    head = header_length(segment)
    if len(segment) - head <= size:
        return [segment]
    pieces, data = [], segment[head:]
    for start in range(0, len(data), size):
        kept = flags(segment) & ~MOVED & 0xFF
        kept |= flags(segment) & CWR if start == 0 else 0
        kept |= flags(segment) & (FIN | PSH) if start + size >= len(data) else 0
        moved = ((number(segment) + start) % WRAP).to_bytes(4, "big")
        pieces.append(segment[:4] + moved + segment[8:13] + bytes([kept]) + segment[14:head] + data[start:start + size])
    return pieces


class Outgoing:
    """The segments that one end of a connection sent, to find those that a received segment consists of."""

    def __init__(self):
        self.equal, self.at = {}, {}

    def add(self, moment, segment):
        """Adds a segment or a piece, in the order in which they were sent."""
        sent = Sent(moment, segment, [])
        self.equal.setdefault(segment, []).append(sent)
        self.at.setdefault(number(segment), []).append(sent)

    def parts(self, segment):
        """The sent segments of which this one consists; an empty list if none match."""
        found = self.equal.get(segment)
        if found:
            best = _best(found)
            best.arrived.append(True)
            return [segment]
        chain = self._chain(segment, number(segment), payload(segment))
        for sent in chain or []:
            sent.arrived.append(True)
        return [sent.segment for sent in chain or []]

    def _chain(self, whole, first, data):
        """Consecutive pieces from a sequence number on whose payloads form these bytes. The search isn't recursive,
        since a joined segment has many pieces."""
        stack = [(first, 0, None)]
        while stack:
            at, done, chain = stack.pop()
            if done == len(data) and chain:
                if flags(chain[1].segment) & FIN == flags(whole) & FIN:
                    return _listed(chain)
                continue
            for sent in reversed(_preferred(self.at.get(at, []))):
                part = payload(sent.segment)
                if part and _alike(sent.segment, whole, chain is None) and data.startswith(part, done):
                    stack.append(((at + len(part)) % WRAP, done + len(part), (chain, sent)))
        return None


def _listed(chain):
    found = []
    while chain:
        chain, sent = chain
        found.append(sent)
    return found[::-1]


def _preferred(candidates):
    """Candidates in the order of preference: those that have not arrived, oldest first, then the others, newest
    first."""
    return sorted(candidates, key=lambda sent: (bool(sent.arrived), sent.moment if not sent.arrived else -sent.moment))


def _best(candidates):
    return _preferred(candidates)[0]


def _alike(piece, whole, first):
    """Whether a piece may be part of a joined segment: it has the same acknowledgment, options, and flags except FIN,
    PSH and CWR. The first piece also has the same window."""
    head = header_length(piece)
    return (piece[8:13] == whole[8:13] and (flags(piece) ^ flags(whole)) & ~MOVED & 0xFF == 0
            and piece[20:head] == whole[20:head] and (not first or piece[14:16] == whole[14:16]))


class Flow:
    """The segments of one connection as lines of a trace: sent segments are cut, and received ones are cut the same
    way."""

    def __init__(self, connection, notes, both):
        self.connection, self.notes, self.both = connection, notes, both
        self.sent: dict[Any, Outgoing] = {connection.client: Outgoing(), connection.server: Outgoing()}

    def went_out(self, packet):
        """The segments of an outgoing packet."""
        agreed = self.connection.piece_size(packet.segment)
        shown = self.connection.on_wire.get(packet.source, Size(UNKNOWN))
        pieces = cut(packet.segment, shown.largest or agreed)
        if len(pieces) > 1:
            self.notes.change("segments that an offload enlarged, cut into those on the wire", packet.place)
        if shown.why == LENGTHS and packet.size > agreed:
            self.notes.keep("large segments as they are, since no offload explains their lengths", packet.place)
        for piece in pieces if self.both else ():
            self.sent[packet.source].add(packet.moment, piece)
        return pieces

    def came_in(self, packet):
        """The segments of an incoming packet. A segment that matches nothing is left unchanged."""
        if not self.both:
            return [packet.segment]
        parts = self.sent[packet.source].parts(packet.segment)
        if len(parts) > 1:
            self.notes.change("segments that an offload joined, cut into those that were sent", packet.place)
        elif not parts:
            self.notes.change("segments that were received but that the other host's capture doesn't show as sent",
                              packet.place)
        return parts or [packet.segment]
