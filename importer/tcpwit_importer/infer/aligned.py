"""Two captures of a connection without its beginning: finds where to begin in each, so that they fit."""
from bisect import bisect_right
from collections import Counter

from ..capture.clocks import bounds_of
from ..capture.segments import RST, identity
from .before import references, unwrapped
from .hosts import Undecided


def settle(connection, captures):
    """Exchanges the hosts of a connection's ends if its segments fit better then: none arrives before it was sent. The
    SYNs, which would have shown whose captures they are, are missing."""
    exchanged = {end: 1 - host for end, host in connection.hosts.items()}
    if len(captures) == 2 and room(connection, captures, exchanged) > room(connection, captures, connection.hosts):
        connection.hosts = exchanged


def room(connection, captures, hosts):
    """How much the difference of two clocks may vary if the ends have these hosts; negative if no difference fits."""
    given, connection.hosts = connection.hosts, hosts
    above, below = bounds_of([connection], captures)
    connection.hosts = given
    return min((bound for _, bound in above), default=0) - max((bound for _, bound in below), default=0)


def align(connection, captures, clock):
    """Leaves out the first packets of a capture if they were sent before the other one began, and reached its host by
    then. Returns, for each end, the identities of the packets that arrive although its own capture doesn't show that
    they were sent."""
    start, flights = references(connection), {end: set() for end in (connection.client, connection.server)}
    if len(captures) < 2:
        return flights
    sides = {host: Side(connection, host, name, clock, start) for host, name in captures.items()}
    while any(sides[host].skip(sides[1 - host]) for host in (0, 1)):
        pass
    for host, side in sides.items():
        connection.seen[captures[host]] = side.packets[side.start:]
        flights[side.own] = sides[1 - host].lacking(side)
    if not all(side.packets[side.start:] for side in sides.values()):
        raise Undecided("it began before the captures, which have no part of it in common")
    return flights


class Side:
    """One of the captures. `start` is the place of its first packet that counts."""

    def __init__(self, connection, host, name, clock, start):
        self.packets, self.start, self.skew = connection.seen[name], 0, clock.skew
        self.own = next(end for end, owner in connection.hosts.items() if owner == host)
        self.moments = [clock.at(packet.moment) if host == 1 else packet.moment for packet in self.packets]
        seen = {id(each.packet): each for each in unwrapped(self.packets, connection, start)}
        self.seen = [seen.get(id(packet)) for packet in self.packets]

    @property
    def begun(self):
        """When its first packet was captured."""
        return self.moments[self.start] if self.start < len(self.moments) else float("inf")

    def keys(self, source):
        """The packets of an end: how many there are of each, and the parts of its bytes that they have, and when."""
        exact, parts = Counter(), []
        for place in range(self.start, len(self.packets)):
            packet, each = self.packets[place], self.seen[place]
            if packet.source == source:
                exact[identity(packet.segment)] += 1
                if each and packet.size:
                    parts.append((each.first, each.stop, self.moments[place]))
        return exact, sorted(parts)

    def skip(self, other):
        """Skips its packets up to the last that its host sent before the other capture began, and that isn't there.
        Returns whether there was one."""
        keys = other.keys(self.own)
        last = None
        for place in range(self.start, len(self.packets)):
            if self.moments[place] >= other.begun:
                break
            if self.packets[place].source == self.own and not self.has(place, *keys):
                last = place
        if last is not None:
            self.start = last + 1
        return last is not None

    def has(self, place, exact, parts, until=float("inf")):
        """Whether the packet at a place is among others, or its bytes are, up to a moment: an offload may have joined
        or cut them."""
        packet, each = self.packets[place], self.seen[place]
        if not each or not packet.size:
            return identity(packet.segment) in exact
        at = bisect_right(parts, (each.first, float("inf")))
        return any(moment <= until and (first <= each.first < stop or each.first <= first < each.stop)
                   for first, stop, moment in parts[max(0, at - 50):at + 1])

    def lacking(self, sender):
        """The identities of the packets that came from the other host, and that its capture doesn't have: no bytes that
        were sent before they came, and of equal acknowledgments at the beginning, fewer than came."""
        exact, parts = sender.keys(sender.own)
        places = [place for place in range(self.start, len(self.packets)) if self.packets[place].source == sender.own]
        more = Counter(identity(self.packets[place].segment) for place in places if not self.packets[place].size)
        more.subtract(exact)
        found, begins = set(), True
        for place in places:
            packet, key = self.packets[place], identity(self.packets[place].segment)
            begins = begins and (packet.size > 0 or more[key] > 0)
            if begins and not packet.size:
                more[key] -= 1
                found.add(id(packet))
            elif not self.has(place, exact, parts, self.moments[place] + self.skew):
                found.add(id(packet))
        return found
