"""The lines of a trace."""
import heapq
from typing import Any, NamedTuple

from ..capture.offloads import Flow
from ..capture.packets import shown
from ..problem import Problem
from ..remedies import OFFLOADS_OFF
from .endpoints import Action, Data, Endpoint

# Lines of segments have these threads; lines of calls have threads from FIRST_THREAD on.
THREADS = {("O", 0): 1, ("I", 0): 2, ("O", 1): 3, ("I", 1): 4}
FIRST_THREAD = 11
# A call that changes nothing ends each trace, in a thread of its own: it shows how long the recording lasted, and so
# what a host didn't do.
LAST_CALL = ("B status 0", "E badsocket")
LONGEST_SEGMENT = 65515


class Line(NamedTuple):
    """A line of a trace: its moment in nanoseconds, its thread and text."""
    moment: int
    thread: Any
    text: str


class CallLine(NamedTuple):
    """A line of a call whose text isn't written yet: the beginning of the call or its end. `order` is its place among
    those of its moment."""
    moment: int
    order: tuple
    action: Action
    begins: bool


class Writer:
    """Writes the lines of a case. `end` is the moment when the recording ended, by host 0's clock."""

    def __init__(self, case, captures, clock, end, notes):
        self.case, self.captures, self.clock, self.end, self.notes = case, captures, clock, end, notes
        self.numbers, self.threads = {}, {}
        self.both = len(captures) == 2 or None in captures

    def lines(self):
        """All lines in order, with numbers and threads. A trace may be large, so each is made when it is asked for."""
        for endpoint in self.case.endpoints:
            self.numbers[id(endpoint)] = len(self.numbers) + 1
        start, last = None, 0
        for line in heapq.merge(self.segments(), self.calls(), key=lambda line: line.moment):
            start, last = line.moment - 10**9 if start is None else start, line.moment
            yield f"{(line.moment - start) // 1000} {self.thread(line.thread)} {line.text}\n"
        for text in LAST_CALL if start is not None else ():
            yield f"{(max(last, self.end) - start) // 1000} {self.thread(LAST_CALL)} {text}\n"

    def thread(self, key):
        """The number of a thread."""
        return key if isinstance(key, int) else self.threads.setdefault(key, len(self.threads) + FIRST_THREAD)

    def moment(self, host, moment):
        """A moment by host 0's clock."""
        return self.clock.at(moment) if host == 1 else moment

    # Calls.

    def calls(self):
        """The lines of all calls, in order. A call of another trace's connection is left out."""
        members = {id(endpoint) for endpoint in self.case.endpoints}
        found = []
        for endpoint in self.case.endpoints:
            for action in endpoint.actions:
                if not (action.verb == "accept" and action.answer and isinstance(action.answer[-1], Endpoint)
                        and id(action.answer[-1]) not in members):
                    found += self.call(action)
        found.sort(key=lambda line: (line.moment, line.order))
        for line in found:
            yield Line(line.moment, line.action.thread,
                       self.begin_text(line.action) if line.begins else self.end_text(line.action))

    def call(self, action):
        """The two lines of a call, or only its beginning. Calls of one moment keep their order."""
        host = action.endpoint.host
        yield CallLine(self.moment(host, action.begin), (*action.turn, 0), action, True)
        if action.answer:
            yield CallLine(self.moment(host, action.end), (action.order, 0, 1), action, False)

    def begin_text(self, action):
        """The words of a call's beginning."""
        endpoint = action.endpoint
        if action.verb == "listen":
            return f"B listen {endpoint.host} {endpoint.local[1]} {action.words[0]}"
        if action.verb == "open":
            connection = endpoint.connection
            return f"B open {endpoint.host} {connection.client[1]} {connection.server[1]}"
        words = "".join([f" {self.word(word, endpoint.connection)}" for word in action.words])
        return f"B {action.verb} {self.numbers[id(endpoint)]}{words}"

    def end_text(self, action):
        """The words of a call's end."""
        return "E" + "".join([f" {self.word(word, action.endpoint.connection)}" for word in action.answer])

    def word(self, word, connection):
        """A word of a call or an answer on a connection."""
        if isinstance(word, Data):
            return self.hex_of(word, connection)
        return self.numbers[id(word)] if isinstance(word, Endpoint) else word

    def hex_of(self, data, connection):
        """The bytes of a call, as digits."""
        return self.bytes_of(data, connection).hex()

    def bytes_of(self, data, connection):
        """The bytes of a call: from the log, else from the captures; zeros for bytes that neither has."""
        if len(data.known) >= data.length:
            return data.known[:data.length]
        at, end = data.offset + len(data.known), data.offset + data.length
        self.notes.change("calls whose bytes the log lacks, completed from the capture",
                          f"byte {at + 1} of {shown(data.end)}")
        found, holes, reached = bytearray(end - at), [], at
        for start, piece in [*connection.pieces(data.end, at, end - at), (end, b"")]:
            if start > reached:
                holes.append((reached, start))
            found[start - at:start - at + len(piece)] = piece
            reached = start + len(piece)
        if holes:
            self.note_zeros(data, connection, holes)
        return data.known + bytes(found)

    def note_zeros(self, data, connection, holes):
        """Handles bytes that no capture has. A call that sends on a connection that was reset may have some: they may
        never have been sent."""
        place = "byte {} of " + shown(data.end)
        if not data.sends or not connection.was_reset():
            raise Problem(f"{place.format(holes[0][0] + 1)} is neither in the log nor in the capture",
                          "record until the connection has ended, and with strace -s 1048576 -xx; no log has the bytes "
                          "of sendfile and splice",
                          "let the programs run until the connection has ended")
        sent = connection.was_sent(data.end)
        if holes[0][0] < sent:
            self.notes.change("calls with bytes that were sent but lost by the capture, written as zeros",
                              place.format(holes[0][0] + 1))
        if sent < holes[-1][1]:
            first = max(sent, holes[-1][0]) + 1
            self.notes.change("calls with bytes that a reset left unsent according to the captures, written as zeros",
                              place.format(first))

    # Segments.

    def segments(self):
        """The lines of all captured segments, in the order of each capture."""
        flows = {id(connection): Flow(connection, self.notes, self.both) for connection in self.case.connections}
        for (letter, host, moment), connection, packet in self.ordered():
            for digits in self.digits(flows[id(connection)], letter, packet):
                yield Line(moment, THREADS[letter, host], f"{letter} {host} {digits}")

    @staticmethod
    def digits(flow, letter, packet):
        """The digits of the segments that a captured segment had on the wire."""
        pieces = flow.went_out(packet) if letter == "O" else flow.came_in(packet)
        for piece in pieces:
            if len(piece) > LONGEST_SEGMENT:
                raise Problem(f"{packet.place}: a segment of {len(piece)} bytes", OFFLOADS_OFF,
                              f"use --kernel plain for a pair; else {OFFLOADS_OFF}")
        return [piece.hex() for piece in pieces]

    def ordered(self):
        """Segments with letter, host and moment. Segments sent precede those that the other host received at the same
        moment."""
        streams = [self.captured(host, name) for host, name in self.captures.items()]
        if len(streams) == 1:
            return streams[0]
        return _interleaved(*streams)

    def captured(self, host, name):
        """The segments of one capture, in its order."""
        packets = []
        for connection in self.case.connections:
            own = {end for end, owner in connection.hosts.items() if owner == host}
            packets += [(packet, connection) for packet in seen_once(connection.seen.get(name, []), own)]
        packets.sort(key=lambda pair: pair[0].moment)
        latest = 0
        for packet, connection in packets:
            sender = connection.hosts.get(packet.source)
            moment = latest = max(latest, self.moment(host, packet.moment))
            if host is None:
                yield ("O", sender, moment), connection, packet
                yield ("I", 1 - sender, moment), connection, packet
            else:
                yield ("O" if sender == host else "I", host, moment), connection, packet


def seen_once(packets, own):
    """A capture of all interfaces has a packet once for each interface that it passes. A packet that the host sent
    counts once, where it was marked as sent, if anywhere; a packet that it received counts where it was not marked."""
    if all(packet.outgoing is None for packet in packets):
        return packets
    marked = {packet.source in own for packet in packets if packet.outgoing == (packet.source in own)}
    return [packet for packet in packets
            if packet.outgoing is None or (packet.source in own) not in marked
            or packet.outgoing == (packet.source in own)]


def _interleaved(one, two):
    """Merges two captures by their moments. At equal moments, a received segment waits until the other capture shows it
    as sent."""
    sent = set()
    heads = [next(one, None), next(two, None)]
    sources = (one, two)
    while heads[0] or heads[1]:
        if heads[0] and heads[1]:
            moments = [head[0][2] for head in heads]
            side = 0 if moments[0] < moments[1] else 1
            if moments[0] == moments[1]:
                side = next((side for side in (0, 1)
                             if heads[side][0][0] == "O" or heads[side][2].segment[:16] in sent), 0)
        else:
            side = 0 if heads[0] else 1
        found = heads[side]
        if found[0][0] == "O":
            sent.add(found[2].segment[:16])
        heads[side] = next(sources[side], None)
        yield found
