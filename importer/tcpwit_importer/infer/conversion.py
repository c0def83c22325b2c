"""Makes the trace of one connection from its captures."""
from bisect import bisect_right

from ..capture.clocks import SAME, bounds_of, clock_of, refuse_distant
from ..capture.copies import without_copies
from ..capture.segments import identity
from ..trace import header as headers
from ..trace.lines import seen_once
from .calls import Calls
from .opening import is_made_up
from .queues import ignored_by
from .script import AFTER, InferredWriter, Script
from .silence import last_attempt
from .streams import complete, streams_of

# Each connection has a trace of its own, whose queue always has room.
ROOM = 65535
# The most nanoseconds that a trace's header may have as skew.
MOST_SKEW = headers.LIMITS["skew"][1] * 1000


class Trace:
    """A connection's trace. `captures` maps the recorded hosts to the names of their captures, or None to the one of
    both hosts; `last` has the moment of each capture's last packet; `chosen` has the header values that the user chose,
    and perhaps the version. `clock` is used if the connection alone doesn't show how the clocks differ. With
    `gives_up`, a host that may have given up did."""

    def __init__(self, connection, captures, last, chosen, notes, clock=SAME, gives_up=False):
        put_in_order(connection, captures, notes)
        if len(captures) == 2:
            above, below = bounds_of([connection], captures)
            clock = clock_of(above, below) if above and below else clock
            refuse_distant(clock, MOST_SKEW)
            leave_out_unsent(connection, captures, last, clock)
        else:
            clock = SAME
        streams = streams_of(connection,
                             {end: captures_of(connection, captures, end)
                              for end in (connection.client, connection.server)})
        complete(connection, streams, notes)
        script = script_of(connection, captures, streams, last, notes)
        if gives_up:
            add_ends(connection, captures, script)
        self.may_differ, self.captures, self.clock = script.has_expiries, captures, clock
        self.connection = connection
        hosts = 1 if list(captures) == [0] else 2
        chosen = {"extra": ROOM} | chosen
        version = chosen.pop("version", None)
        self.head = headers.header(hosts, (clock.skew + 999) // 1000, chosen, version)
        ended = min(clock.at(moment) if host == 1 else moment for host, moment in last.items())
        self.writer = InferredWriter(connection, script, streams, captures, clock, ended, notes)

    def lines(self):
        """Its lines; each is made when it's asked for."""
        yield from (line + "\n" for line in self.head)
        yield from self.writer.lines()

    def packet(self, number):
        """The captured packet of the line with this number, once the lines were made; None if it has none."""
        place = number - len(self.head) - 1
        found = self.writer.packets[place] if 0 <= place < len(self.writer.packets) else None
        return None if is_made_up(found) else found

    def made_up(self):
        """The numbers of the lines before the first captured packet, if some were made up, once the lines were made."""
        packets = self.writer.packets
        if not any(map(is_made_up, packets)):
            return range(0)
        first = next(place for place, packet in enumerate(packets) if packet and not is_made_up(packet))
        return range(len(self.head) + 1, len(self.head) + 1 + first)

    def packet_from(self, number, letters="OI"):
        """The first captured packet from a line on whose line has one of these letters; None if there's none."""
        wanted = letters.encode()
        for place in range(max(0, number - len(self.head) - 1), len(self.writer.packets)):
            packet = self.writer.packets[place]
            if self.writer.letters[place] in wanted and not is_made_up(packet):
                return packet
        return None

    def packet_until(self, time=None):
        """The last captured packet up to a time of the trace, or of all, and whether its line has that time; None if
        there's none."""
        times = self.writer.times
        for place in reversed(range(len(times) if time is None else bisect_right(times, time))):
            packet = self.writer.packets[place]
            if packet is not None and not is_made_up(packet):
                return packet, times[place] == time
        return None, False

    def moment(self, time, capture):
        """The moment of a time of the trace, by the clock of the host with this capture."""
        moment = self.writer.start + time * 1000
        return self.clock.back(moment) if self.captures.get(1) == capture else moment


def script_of(connection, captures, streams, last, notes):
    """The inferred calls of the recorded hosts."""
    script = Script()
    for end, host in connection.hosts.items():
        name = captures.get(host, captures.get(None))
        if name is not None:
            packets = connection.seen[name]
            if end == connection.server:
                script.ignored = ignored_by(end, packets, last.get(host, last.get(None)), notes)
                packets = [packet for packet in packets if id(packet) not in script.ignored]
            Calls(connection, script, streams, end, packets).infer()
    return script


def add_ends(connection, captures, script):
    """Adds that a host gave up, if it may have."""
    for end, host in connection.hosts.items():
        name = captures.get(host, captures.get(None))
        if name is not None and (packet := last_attempt(connection.seen[name], end)):
            text = f"T {host} {end[1]} {connection.other(end)[1]} giveup"
            script.expire(("O", host, id(packet), AFTER), text)


def put_in_order(connection, captures, notes):
    """Leaves out what a capture has twice, and sorts the packets by time."""
    for host, name in captures.items():
        own = {end for end, owner in connection.hosts.items() if owner == host}
        packets = seen_once(without_copies(connection.seen.get(name, []), notes), own)
        connection.seen[name] = sorted(packets, key=lambda packet: packet.moment)


def leave_out_unsent(connection, captures, last, clock):
    """A capture may have ended before the other. What was received later, and what followed, is left out: it can't be
    explained."""
    for host, name in captures.items():
        sender = captures[1 - host]
        ended = clock.at(last[1]) if host == 0 else last[0]
        sent = {identity(packet.segment) for packet in connection.seen[sender]
                if connection.hosts[packet.source] != host}
        for place, packet in enumerate(connection.seen[name]):
            moment = clock.at(packet.moment) if host == 1 else packet.moment
            if moment > ended and connection.hosts[packet.source] != host and identity(packet.segment) not in sent:
                del connection.seen[name][place:]
                break


def captures_of(connection, captures, end):
    """The captures of a connection's end, its own first."""
    own = captures.get(connection.hosts[end], captures.get(None))
    return ([] if own is None else [own]) + [name for name in captures.values() if name != own]
