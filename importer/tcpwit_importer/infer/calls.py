"""Infers the calls of a host from its segments.

A call that permits a segment ends before it and begins a little earlier, since a capture may show a segment later than
its host built it. What a program received is what its host acknowledged, just before. So no verdict depends on the
order of the calls.
"""
import heapq
from itertools import islice

from ..capture.segments import ACK, FIN, RST, SYN
from ..trace.endpoints import LONGEST, Data
from .script import AFTER, BEFORE, Sending

# The most bytes before a segment that count as sent although no capture has them.
GAP = 1 << 20
# How long before a segment the call begins that permits it, in nanoseconds.
WIDTH = 10**7
# The thread of the calls that send or end something.
SENDS = "sends"
# A host may drop a SYN for which its queue has no room. With this backlog, it may drop any SYN.
BACKLOG = 0


class Arrived:
    """What arrived at an end: `reached` is the offset up to which all bytes did, `last` that of the FIN."""

    def __init__(self):
        self.reached, self.beyond, self.last = 0, [], None

    def add(self, offset, packet):
        """A segment arrived."""
        heapq.heappush(self.beyond, (offset, offset + packet.size))
        while self.beyond and self.beyond[0][0] <= self.reached:
            self.reached = max(self.reached, heapq.heappop(self.beyond)[1])
        if packet.flags & FIN and self.last is None:
            self.last = offset + packet.size


class Calls:
    """The calls of one end of a connection. `packets` are those of its host, in order."""

    def __init__(self, connection, script, streams, end, packets):
        self.connection, self.script, self.end, self.host = connection, script, end, connection.hosts[end]
        self.own, self.peer = streams.get(end), streams.get(connection.other(end))
        self.packets, self.sends = packets, (self.host, SENDS)
        sends = [packet for packet in packets if packet.source == end]
        # How many segments are still to come that aren't resets.
        self.left = sum(not packet.flags & RST for packet in sends)
        self.opens = end == connection.client or any(packet.is_syn for packet in sends)
        self.arrived, self.wrong = Arrived(), set()
        self.listener = self.socket = self.listened = None
        self.sent = self.received = 0
        # The place of the packet at hand, and that of the packet after which the next call may begin; the latter is -1
        # at first.
        self.now, self.free = 0, -1
        self.answered = self.is_open = self.shut = self.gone = self.at_end = False

    def infer(self):
        """Adds the calls to the script."""
        for self.now, packet in enumerate(self.packets):
            if packet.source == self.end:
                self.left -= not packet.flags & RST
                self.send(packet)
            else:
                self.arrive(packet)
        self.finish()

    def at(self, packet, side):
        """A place of the script."""
        return "O" if packet.source == self.end else "I", self.host, id(packet), side

    def early(self, packet, since):
        """Where a call begins that permits this packet, the one at hand: a little before it, but after the one at a
        place."""
        if since >= self.now:
            return self.at(packet, BEFORE)
        place, earliest = self.now, packet.moment - WIDTH
        while place - 1 > since and self.packets[place - 1].moment >= earliest:
            place -= 1
        if place < self.now:
            return self.at(self.packets[place], BEFORE)
        if since >= 0 and self.packets[since].moment >= earliest:
            return self.at(self.packets[since], AFTER)
        return self.script.moment(self.host, earliest)

    def call(self, begin, end, verb, words=(), answer=("ok",)):
        """A call on the connection's socket that sends or ends something. The next one doesn't begin before the packet
        at hand."""
        self.script.call(begin, end, SENDS, verb, self.socket, words, answer)
        self.free = self.now

    def endpoint(self, role, packet):
        """A new listener or end."""
        return self.script.endpoint(role, self.host, self.end, self.connection, packet.place)

    # What arrives.

    def arrive(self, packet):
        """A segment arrives: it may need a listener, or complete the handshake."""
        if packet.is_syn and not self.opens:
            self.listen(packet)
        if packet.flags & (ACK | RST) == ACK and self.own:
            self.see_acknowledgment(packet)
        if self.peer and not packet.flags & RST and (packet.size or packet.flags & FIN):
            if (offset := self.peer.offset(packet)) >= 0:
                self.arrived.add(offset, packet)

    def see_acknowledgment(self, packet):
        """A segment acknowledges the SYN, or something that wasn't sent."""
        if 0 <= self.own.acknowledged(packet) <= self.sent + 1:
            if not self.is_open and (self.opens or not packet.flags & SYN):
                self.is_open, self.free = True, self.now
        elif not self.is_open:
            self.wrong.add(packet.acknowledgment)

    def listen(self, packet):
        """A SYN arrives: its host listens, unless it answers by a reset."""
        refuses = self.refuses(packet)
        if self.listener and refuses and not self.answered:
            self.script.call(self.at(packet, BEFORE), self.at(packet, BEFORE), "listener", "close", self.listener)
            self.listener = None
        elif not self.listener and not refuses:
            self.listener, self.listened = self.endpoint("listener", packet), self.at(packet, BEFORE)
            self.script.call(self.listened, self.listened, "listener", "listen", self.listener, (BACKLOG,),
                             ("ok", self.listener))

    def refuses(self, syn):
        """Whether the next segment that the host sends is a reset that answers the SYN at hand."""
        for packet in islice(self.packets, self.now + 1, None):
            if packet.source == self.end:
                return bool(packet.flags & RST) and packet.acknowledgment == (syn.number + 1 + syn.size) % (1 << 32)
            if packet.is_syn:
                return False
        return False

    # What is sent.

    def send(self, packet):
        """A segment is sent: calls before it permit it, and calls after it receive what it acknowledges."""
        if packet.flags & RST:
            self.reset(packet)
            return
        if packet.flags & SYN:
            self.answered = True
            if self.opens and not self.socket:
                self.socket = self.endpoint("open", packet)
                place = self.early(packet, self.free)
                self.call(place, place, "open", (), ("ok", self.socket))
        if self.own and (offset := self.own.offset(packet)) >= 0:
            self.send_bytes(packet, offset)
        if packet.flags & ACK and self.peer:
            self.receive(packet, self.peer.acknowledged(packet))

    def send_bytes(self, packet, offset):
        """The program sent the new bytes of a segment, and ended sending before a FIN. After that, an end has nothing
        to send: what comes then has no call."""
        if self.shut or not (packet.size or packet.flags & FIN):
            return
        end = offset + packet.size
        if end > self.sent and (offset - self.sent <= GAP or self.own.has(self.sent, offset)):
            self.send_up_to(end, packet)
        if packet.flags & FIN and self.usable(before := self.at(packet, BEFORE), packet):
            self.shut = True
            self.call(self.early(packet, max(self.free, self.last_arrival())), before, "shut")

    def send_up_to(self, end, packet):
        """The program sent its bytes up to this offset."""
        begin = self.early(packet, self.free)
        if self.usable(begin, packet):
            for start in range(self.sent, end, LONGEST):
                length = min(LONGEST, end - start)
                self.script.add(begin, self.at(packet, BEFORE) if start + length == end else begin,
                                Sending(self.sends, self.socket, start, length))
            self.sent, self.free = end, self.now

    def last_arrival(self):
        """The place of the last packet that arrived, -1 if none did. What the program ended before it would be another
        state then."""
        place = self.now
        while place >= 0 and self.packets[place].source == self.end:
            place -= 1
        return place

    def receive(self, packet, acknowledged):
        """The program received what its host acknowledges."""
        stop = min(acknowledged, self.arrived.reached)
        if self.peer.conflict is not None:
            stop = min(stop, self.peer.conflict)
        if stop > self.received and self.usable(after := self.at(packet, AFTER), packet):
            for start in range(self.received, stop, LONGEST):
                data = Data(b"", self.socket, start, min(LONGEST, stop - start), False)
                self.script.call(after, after, "receives", "recv", self.socket, (LONGEST,), ("data", data))
            self.received = stop
        has_all = self.received == self.arrived.last and acknowledged == self.received + 1
        if has_all and not self.at_end and self.usable(after := self.at(packet, AFTER), packet):
            self.at_end = True
            self.script.call(after, after, "receives", "recv", self.socket, (LONGEST,), ("eof",))

    def usable(self, place, packet):
        """Whether calls on the connection are possible. A child is accepted before its first call."""
        if not self.socket and self.listener and self.is_open:
            self.socket = self.endpoint("child", packet)
            self.script.call(self.listened, place, "accepts", "accept", self.listener, (), ("ok", self.socket))
            self.free = self.now
        return self.socket is not None and not self.gone

    def reset(self, packet):
        """A reset is sent. If it ends the connection, the program did that, unless it answers a wrong acknowledgment
        before the handshake's end."""
        before = self.at(packet, BEFORE)
        if self.left or self.gone or (not self.is_open and packet.number in self.wrong):
            return
        if self.is_open and self.usable(before, packet):
            self.call(before, before, "close" if self.shut else "abort")
            self.gone = True
        elif not self.opens and self.listener and self.answered:
            self.script.call(before, before, "listener", "close", self.listener)
            self.gone = True

    def finish(self):
        """The program closed what it had ended. If a SYN has no answer, it may have given up at any time."""
        if not self.packets or not self.socket or self.gone:
            return
        last = self.packets[-1]
        if self.shut or (not self.is_open and last.source == self.end):
            self.call(self.at(last, AFTER), self.at(last, AFTER), "close")
