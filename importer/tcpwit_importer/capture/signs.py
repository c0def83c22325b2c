"""What the packets of a connection show about the place of their capture: TTLs, checksums, and the times of answers.

Only numbers are kept, since a capture may have many connections.
"""
from .segments import ACK, RST, SYN, WRAP

# How many checksums of each end are compared, and in how many packets of a connection answers are timed.
CHECKED, TIMED = 8, 1000
TCP = 6


class Sender:
    """What the packets of one end show: their least and greatest TTL, and how many of its first checksums are wrong, of
    how many. `arrived` and `left` have the interfaces at which the capture marked a packet as received and as sent. If
    the capture has no SYN, `quickest` is the shortest time in which the end acknowledged bytes; `waiting` has the
    number after its last bytes and their moment, until they are acknowledged."""
    __slots__ = ("least", "greatest", "wrong", "checked", "arrived", "left", "quickest", "waiting")

    def __init__(self):
        self.least, self.greatest, self.wrong, self.checked = 255, 0, 0, 0
        self.arrived = self.left = self.quickest = self.waiting = None

    def add(self, packet):
        """A packet of this end. Checksums of segments with bytes don't count: a host that joins received segments
        leaves theirs unfinished, too. Those of resets don't, since hosts may finish them themselves."""
        if packet.lifetime < self.least:
            self.least = packet.lifetime
        if packet.lifetime > self.greatest:
            self.greatest = packet.lifetime
        if packet.outgoing is not None:
            if packet.outgoing:
                self.left = packet.interface
            else:
                self.arrived = packet.interface
        if self.checked < CHECKED and not packet.size and not packet.missing and not packet.flags & RST:
            self.checked += 1
            self.wrong += not is_right(packet)

    def see_answer(self, packet, other):
        """A packet of this end, which may acknowledge the last bytes of the other one."""
        if other.waiting and packet.flags & ACK and packet.acknowledgment == other.waiting[0]:
            time = packet.moment - other.waiting[1]
            self.quickest = time if self.quickest is None else min(time, self.quickest)
            other.waiting = None
        if packet.size:
            self.waiting = (packet.number + packet.size) % WRAP, packet.moment


class Signs:
    """What a connection's packets show: of its client and of its server, and the moments of the SYN, the SYN-ACK and
    the ACK that completes the handshake; None if one is missing. Without a SYN, the first packets show how long answers
    took; `timed` is how many they were."""
    __slots__ = ("client", "server", "opened", "answered", "completed", "timed")

    def __init__(self):
        self.client, self.server, self.timed = Sender(), Sender(), 0
        self.opened = self.answered = self.completed = None

    @property
    def is_answered(self):
        """Whether the next ACK of the client completes the handshake."""
        return self.answered is not None and self.completed is None

    @property
    def are_timed(self):
        """Whether the next packet may show how long an answer took."""
        return self.opened is None and self.timed < TIMED

    def add(self, packet, is_client):
        """The next packet, which the client or the server sent."""
        sender, other = (self.client, self.server) if is_client else (self.server, self.client)
        sender.add(packet)
        if self.completed is None:
            self.see_handshake(packet, is_client)
        if self.are_timed:
            self.timed += 1
            sender.see_answer(packet, other)

    def see_handshake(self, packet, is_client):
        """A packet until the handshake's end. Of retransmissions, the last one counts."""
        flags = packet.flags & (SYN | ACK | RST)
        if is_client and flags == SYN and self.answered is None:
            self.opened = packet.moment
        elif not is_client and flags == SYN | ACK and self.opened is not None:
            self.answered = packet.moment
        elif is_client and flags == ACK and self.answered is not None:
            self.completed = packet.moment


def is_right(packet):
    """Whether a complete packet's checksum is right (RFC 9293, 3.1). An offload leaves that of the addresses and the
    length. A number is its sum of 16-bit words modulo 0xFFFF."""
    segment = packet.segment
    words = int.from_bytes(packet.source[0], "big") + int.from_bytes(packet.target[0], "big") + TCP + len(segment)
    return (words + int.from_bytes(segment + bytes(len(segment) % 2), "big") + packet.checksum) % 0xFFFF == 0
