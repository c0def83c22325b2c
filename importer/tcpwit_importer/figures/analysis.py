"""What the packets of a connection are: sent again, duplicate acknowledgments, closed windows, keep-alives."""
import struct

from ..capture.segments import ACK, FIN, RST, SYN
from .sender import Sender

DUPLICATE_ACK, ZERO_WINDOW, WINDOW_UPDATE = "duplicate_acks", "zero_windows", "window_updates"
# The sequence number, the acknowledgment number, the header's length, the flags and the window of a segment.
FIELDS, AT = struct.Struct("!IIBBH").unpack_from, 4
# A round trip in nanoseconds, if the handshake doesn't show one.
UNKNOWN_TRIP = 3 * 10**6


class Analysis:
    """A connection whose packets are added in the order of their capture. `senders` has both ends, the client first.
    `trip` is a round trip of the whole path: from the client's SYN to its next segment."""

    def __init__(self, client):
        self.client, self.senders, self.trip, self.syn = client, (Sender(), Sender()), UNKNOWN_TRIP, None

    def add(self, packet):
        """Adds a packet. Returns the kinds of what it is."""
        own, other = self.senders if packet.source == self.client else self.senders[::-1]
        number, acknowledgment, offset, flags, window = FIELDS(packet.segment, AT)
        size = len(packet.segment) - (offset >> 4) * 4
        own.packets += 1
        own.bytes += size
        if flags & RST:
            if flags & ACK and other.has_sent(acknowledgment):
                other.acknowledged(acknowledgment, packet.moment)
            return ()
        if flags & SYN and not self.opens(own, other, number):
            return ()
        if self.syn is not None or flags & SYN:
            if own is self.senders[0]:
                self.time(flags, packet.moment)
            elif flags & ACK and not other.has_sent(acknowledgment):
                # It answers an earlier connection.
                return ()
        kind = own.sends(number, size, flags, packet.moment, other, self.trip)
        kinds = (kind,) if kind else ()
        if flags & ACK:
            # If its window was cut off, it's that of before.
            window = own.window if packet.missing > size else window
            repeats = other.acknowledged(acknowledgment, packet.moment)
            if not flags & (SYN | FIN):
                if window == 0:
                    kinds += (ZERO_WINDOW,)
                elif repeats and not kind and own.window is not None and own.is_next(number):
                    # It has no bytes, or its number isn't the next one anymore.
                    kinds += self.repeated(own, other, window)
            # An acknowledgment that was overtaken by a later one changes nothing.
            if repeats is not None:
                own.window, own.latest, own.heard = window, packet.segment, packet.moment
        return kinds

    @staticmethod
    def opens(own, other, number):
        """Reads a SYN. Returns False for one of another connection."""
        if own.initial not in (None, number):
            return False
        own.answers_again, own.syn_again, other.syn_again = other.syn_again, own.initial == number, False
        if own.initial is None:
            own.begin(number)
        return True

    def time(self, flags, moment):
        """Takes the time from the client's last SYN to what it sends next."""
        if flags & SYN:
            self.syn = moment
        else:
            self.trip, self.syn = max(moment - self.syn, 0) or UNKNOWN_TRIP, None

    @staticmethod
    def repeated(own, other, window):
        """The kind of a segment that only acknowledges again what was acknowledged (RFC 5681, 2)."""
        if window != own.window:
            return (WINDOW_UPDATE,)
        if other.next <= other.acked:
            return ()
        other.duplicates += 1
        return (DUPLICATE_ACK,)
