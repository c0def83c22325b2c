"""Segments as bytes: what the wire and a scripted peer read and write (docs/reference/formats.md, section 10)."""
from dataclasses import dataclass

from tcpwit_importer.capture import segments as headers
from tcpwit_importer.capture.segments import ACK, FIN, PSH, RST, SYN, URG

LETTERS = {"F": FIN, "S": SYN, "R": RST, "P": PSH, "A": ACK, "U": URG}


@dataclass
class Segment:
    src: int
    dst: int
    seq: int
    ack: int
    flags: int
    window: int
    options: bytes
    payload: bytes

    def has(self, flag):
        return bool(self.flags & flag)

    def length(self):
        """How many sequence numbers it occupies."""
        return len(self.payload) + self.has(SYN) + self.has(FIN)

    def kind(self):
        """Its kind, for the wire and for scripts."""
        if self.has(RST):
            return "rst"
        if self.has(SYN):
            return "syn-ack" if self.has(ACK) else "syn"
        if self.has(FIN):
            return "fin"
        return "data" if self.payload else "ack"

    def shift(self):
        """The window shift of a SYN, or None."""
        found = headers.values(headers.SHIFT, 1, self.options)
        return min(found[-1][0], 14) if found else None


def read(raw):
    """The segment with these bytes."""
    numbers = headers.number(raw), headers.acknowledgment(raw), headers.flags(raw) & 63, headers.window(raw)
    return Segment(*headers.ports(raw), *numbers, headers.options(raw), headers.payload(raw))


def write(segment):
    """The bytes of a segment; the checksum is 0."""
    offset = 5 + len(segment.options) // 4
    head = b"".join(n.to_bytes(count, "big") for n, count in (
        (segment.src, 2), (segment.dst, 2), (segment.seq % 2**32, 4), (segment.ack % 2**32, 4), (offset << 4, 1),
        (segment.flags, 1), (segment.window, 2), (0, 2), (0, 2)))
    return head + segment.options + segment.payload


def stream(at, count, host):
    """Bytes at .. at + count - 1, from 0, of a host's stream on a connection. Neighboring bytes differ, and so do the
    hosts."""
    return bytes((3 * n + n // 251 + 101 * host) % 256 for n in range(at, at + count))
