"""What one end of a connection sends, as a capture shows it: which segments are sent again, and why; and how long the
other end takes to acknowledge.

Positions are sequence numbers that don't wrap.
"""
from array import array
from collections import deque

from ..capture.segments import FIN, SACK, SYN, WRAP, listed, options
from .ranges import Holes, Ranges

# Why a segment was sent again.
TIMEOUT, FAST, TAIL_PROBE, ANSWER, UNNEEDED = CAUSES = ("timeout", "fast", "tail_probe", "answer", "unneeded")
# What other segments are.
OUT_OF_ORDER, KEEP_ALIVE, WINDOW_PROBE = "out_of_order", "keep_alives", "window_probes"
# How many duplicate acknowledgments show a loss (RFC 5681, 3.2).
THREE = 3
# A retransmission that an acknowledgment causes passes the capture at most a round trip after it. So many nanoseconds
# are added, since later ones may take longer; a timer needs more.
LATER = 10**8
# The largest window: what is further ahead belongs to another connection (RFC 7323, 2.3).
LARGEST = 1 << 30
# How many segments wait for an acknowledgment at most, to measure round trips.
WAITING = 10_000


class Sender:
    """One end. `initial` is the number of its SYN, `next` the position after the last that it sent, and `acked` the
    first that isn't acknowledged; they are None until something shows them. `window` is the last one that it announced,
    without a shift, `latest` its last segment with ACK, and `heard` the moment of that. `syn_again` says that its SYN
    came again and wasn't answered since, and `answers_again` that its last SYN answers such a one. `trips` has the
    round trips in nanoseconds."""

    def __init__(self):
        self.packets = self.bytes = self.repeated = self.duplicates = 0
        self.initial = self.next = self.acked = self.window = self.latest = None
        self.heard, self.is_acked, self.syn_again, self.answers_again = 0, False, False, False
        self.trips, self.waiting = array("q"), deque(maxlen=WAITING)
        self.again, self.holes = Ranges(), Holes()
        # Why what is below `until`, and isn't acknowledged, is sent again.
        self.cause, self.until = None, 0

    def begin(self, number):
        """Its SYN has this number. What came before it belongs to an earlier connection."""
        self.initial = self.next = self.acked = number
        self.is_acked, self.again, self.holes = False, Ranges(), Holes()
        self.waiting.clear()

    def position(self, number):
        """The position of a sequence number."""
        distance = (number - self.next) % WRAP
        return self.next + distance - (WRAP if distance >= WRAP // 2 else 0)

    def has_sent(self, number):
        """Whether everything below a sequence number was sent."""
        return self.next is not None and (self.next - number) % WRAP < WRAP // 2

    def is_next(self, number):
        """Whether a sequence number is the next one."""
        return (number - self.next) % WRAP == 0

    def sends(self, number, size, flags, moment, other, trip):
        """The end sends a segment that isn't a reset. Returns what it is, if it isn't just new. A round trip of the
        connection takes `trip`."""
        if self.next is None:
            self.next = self.acked = number
        start = self.position(number)
        length = size + bool(flags & SYN) + (flags & FIN)
        if start == self.next and not (size == 1 and other.window == 0):
            self.add(start + length, moment)
            return None
        top = max(self.next, self.acked)
        if size <= 1 and not flags & (SYN | FIN):
            if other.window == 0 and self.acked - 1 <= start < top + size:
                return WINDOW_PROBE
            if start == top - 1 and self.acked == top:
                return KEEP_ALIVE
        if start > top + LARGEST:
            return None
        kind = None
        if start > top:
            # What comes before it, even if that is only an acknowledgment, was sent, too.
            self.holes.add(top, start, moment)
            self.next = start
        elif length and start < self.next:
            kind = self.sends_again(start, size, flags, moment, other, trip)
        self.add(start + length, moment)
        return kind

    def add(self, end, moment):
        """The end has sent everything up to a position, at least."""
        if end > self.next:
            self.next = end
            self.waiting.append((end, moment))

    def sends_again(self, start, size, flags, moment, other, trip):
        """A segment begins with a position that was sent before. Returns what it is."""
        first = start + bool(flags & SYN)
        stop = first + size
        end = stop + (flags & FIN)
        old = min(end, self.next)
        missing, since = self.holes.fill(first, min(stop, old))
        self.repeated += max(0, min(stop, old) - first - missing)
        if flags & FIN:
            ended, at = self.holes.fill(stop, old)
            missing, since = missing + ended, at if since is None else since
        is_third = old > self.acked and self.again.have(max(start, self.acked), old)
        if old > self.acked:
            self.again.add(max(start, self.acked), old)
        if missing and moment - since < trip and not (start == self.acked and self.duplicates >= THREE):
            return OUT_OF_ORDER
        if old <= self.acked:
            return UNNEEDED
        if flags & SYN and self.answers_again:
            return ANSWER
        return self.cause_of(start, end, other if moment - other.heard <= trip + LATER else None, is_third)

    def cause_of(self, start, end, other, is_third):
        """Why the end sends these positions again, which aren't acknowledged. `other` is the other end, if it may have
        asked for them. If some were already sent again, only received ranges show that they were lost."""
        repairs = self.cause if max(start, self.acked) < self.until else None
        if repairs == TIMEOUT:
            return TIMEOUT
        is_first = start <= self.acked or not self.is_acked
        is_fast = other and (other.reports_loss(start, end, self) or
                             not is_third and (repairs or is_first and self.duplicates >= THREE))
        if not (is_fast or repairs or is_first):
            # A timeout begins with the first one. If it's the last one, it's a probe; else, the network may have
            # doubled it.
            return TAIL_PROBE if end == self.next else TIMEOUT
        cause = FAST if is_fast else TIMEOUT
        if cause != repairs:
            self.cause, self.until = cause, self.next
        return cause

    def reports_loss(self, start, end, sender):
        """Whether the last acknowledgment of this end reports that it received something of the sender beyond these
        positions, but not them."""
        if self.latest is None:
            return False
        edges = [sender.position(int.from_bytes(value[at:at + 4], "big"))
                 for kind, value in listed(options(self.latest)) if kind == SACK for at in range(0, len(value), 4)]
        received = list(zip(edges[::2], edges[1::2]))
        return any(stop > end for _, stop in received) and not any(begin <= start < stop for begin, stop in received)

    def acknowledged(self, number, moment):
        """What the end sent is acknowledged. Returns whether it was before; None if more was."""
        if self.next is None:
            self.next = self.acked = number
        position = self.position(number)
        if position <= self.acked and self.is_acked:
            return True if position == self.acked else None
        sent = None
        while self.waiting and self.waiting[0][0] <= position:
            sent = self.waiting.popleft()
        if sent and sent[0] == position and not self.again.have(self.acked, position):
            self.trips.append(moment - sent[1])
        self.again.drop(position)
        self.holes.drop(position)
        self.acked, self.is_acked, self.duplicates = position, True, 0
        return False
