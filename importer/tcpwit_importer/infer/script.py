"""The inferred calls of a connection, and its trace.

Each line of a call has a place: before or after the line of a segment, at its moment; or a moment of its own.
"""
from array import array
from typing import Any, NamedTuple

from ..capture.offloads import Flow
from ..trace.endpoints import Endpoint
from ..trace.lines import LAST_CALL, THREADS, Writer

BEFORE, AFTER = 0, 1


class Call(NamedTuple):
    """An inferred call. Its fields are those of an `Action` without moments."""
    thread: Any
    verb: str
    endpoint: Any
    words: tuple
    answer: tuple


class Sending(NamedTuple):
    """A call that sends bytes of its end, from an offset on. A connection has many."""
    thread: Any
    endpoint: Any
    offset: int
    length: int


class Expiry(NamedTuple):
    """The text of a timer's expiry."""
    thread: str
    text: str


class Script:
    """The calls of a connection's hosts. A place is a side of a segment's line, which has a letter, a host and a
    packet; or a host and a moment. `lines` has what is at a place, each with its letter: B where a call begins, E where
    it ends, T for an expiry. `ignored` has the packets, by their identities, that the server seems to have ignored:
    they have no line as received. `has_expiries` states whether there are expiries."""

    def __init__(self):
        self.ignored, self.has_expiries = set(), False
        self.endpoints, self.lines, self.moments = [], {}, []

    def moment(self, host, moment):
        """A place that is a moment of a host's clock."""
        if (place := (host, moment)) not in self.lines:
            self.lines[place] = []
            self.moments.append(place)
        return place

    def endpoint(self, role, host, local, connection, place):
        """A new listener, or an end that was opened or accepted."""
        endpoint = Endpoint(role, host, local, place, connection)
        self.endpoints.append(endpoint)
        return endpoint

    def call(self, begin, end, thread, verb, endpoint, words=(), answer=("ok",)):
        """A call that begins at a place and ends there or at a later one."""
        self.add(begin, end, Call((endpoint.host, thread), verb, endpoint, words, answer))

    def add(self, begin, end, call):
        """Adds a call at the places where it begins and ends."""
        lines = self.lines
        if begin in lines:
            lines[begin].append((call, "B"))
        else:
            lines[begin] = [(call, "B")]
        if end in lines:
            lines[end].append((call, "E"))
        else:
            lines[end] = [(call, "E")]

    def expire(self, place, text):
        """Adds an expiry after the calls at a place."""
        self.lines.setdefault(place, []).append((Expiry("expiries", text), "T"))
        self.has_expiries = True


class InferredCase:
    """A connection and its inferred calls, for a writer."""

    def __init__(self, connection, endpoints):
        self.name, self.connections, self.endpoints = str(connection), [connection], endpoints


class InferredWriter(Writer):
    """Writes the trace of a connection whose calls were inferred, and whose packets are in order. `streams` has the
    bytes of each end."""

    def __init__(self, connection, script, streams, captures, clock, end, notes):
        super().__init__(InferredCase(connection, script.endpoints), captures, clock, end, notes)
        self.connection, self.script, self.streams = connection, script, streams
        # Of each line: its packet, None for a call; its letter; its time. `start` is the moment of time 0.
        self.packets, self.letters, self.times, self.start = [], bytearray(), array("q"), None

    def lines(self):
        """All lines in order, with numbers and threads: those of segments, between those of calls."""
        for endpoint in self.case.endpoints:
            self.numbers[id(endpoint)] = len(self.numbers) + 1
        flow, script = Flow(self.connection, self.notes, self.both), self.script
        moments, moment = sorted(((self.moment(*place), place) for place in script.moments), reverse=True), None
        for (letter, host, moment), _, packet in self.ordered():
            if letter == "I" and id(packet) in script.ignored:
                continue
            while moments and moments[-1][0] <= moment:
                earlier, place = moments.pop()
                yield from self.calls_at(place, earlier)
            if (place := (letter, host, id(packet), BEFORE)) in script.lines:
                yield from self.calls_at(place, moment)
            time, code = self.time(moment), ord(letter)
            head = f"{time} {THREADS[letter, host]} {letter} {host}"
            for digits in self.digits(flow, letter, packet):
                self.packets.append(packet)
                self.letters.append(code)
                self.times.append(time)
                yield f"{head} {digits}\n"
            if (place := (letter, host, id(packet), AFTER)) in script.lines:
                yield from self.calls_at(place, moment)
        for text in LAST_CALL if self.start is not None else ():
            time = (max(moment, self.end) - self.start) // 1000
            yield f"{time} {self.thread(LAST_CALL)} {text}\n"

    def captured(self, host, name):
        """The segments of one capture."""
        if host is None:
            yield from super().captured(host, name)
            return
        latest, hosts = 0, self.connection.hosts
        for packet in self.connection.seen.get(name, ()):
            moment = self.clock.at(packet.moment) if host == 1 else packet.moment
            latest = moment if moment > latest else latest
            yield ("O" if hosts[packet.source] == host else "I", host, latest), self.connection, packet

    def time(self, moment):
        """The time of a line. The first one of a trace has that of a second."""
        if self.start is None:
            self.start = moment - 10**9
        return (moment - self.start) // 1000

    def calls_at(self, place, moment):
        """The lines of the calls at a place, which are then forgotten. There may be none."""
        if not (calls := self.script.lines.pop(place)):
            return ()
        time, lines = self.time(moment), []
        for call, letter in calls:
            self.packets.append(None)
            self.letters.append(ord(letter))
            self.times.append(time)
            thread = self.threads.get(call.thread) or self.thread(call.thread)
            text = call.text if letter == "T" else self.begin_text(call) if letter == "B" else self.end_text(call)
            lines.append(f"{time} {thread} {text}\n")
        return lines

    def begin_text(self, action):
        """The words of a call's beginning. In a simultaneous open, the second end opens, too."""
        endpoint = action.endpoint
        if isinstance(action, Sending):
            digits = self.streams[endpoint.local].hex_of(action.offset, action.length)
            return f"B send {self.numbers[id(endpoint)]} {digits}"
        if action.verb == "open":
            own = endpoint.local
            return f"B open {endpoint.host} {own[1]} {endpoint.connection.other(own)[1]}"
        return super().begin_text(action)

    def end_text(self, action):
        """The words of a call's end."""
        return f"E ok {action.length}" if isinstance(action, Sending) else super().end_text(action)

    def hex_of(self, data, connection):
        """The bytes that a call receives. In a simultaneous open, the second end opens, too."""
        return self.streams[connection.other(data.endpoint.local)].hex_of(data.offset, data.length)
