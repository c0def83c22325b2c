"""Which host a capture is of, and which end of a connection is there."""
from ipaddress import ip_address

from ..capture.clocks import SAME, clock_of
from ..problem import Problem
from .place import BETWEEN, is_forwarded, is_loopback

CLIENT, SERVER, BOTH = "client", "server", "both"
NAME_IT = ("name it with --host ADDRESS, --host client or --host server; with --host both if the capture has each "
           "segment once for both hosts, like that of lo; with --between if it was made between the hosts")
# How many comparisons of moments a marked connection outweighs.
MARKED = 1000


class Undecided(Exception):
    """A connection can't be judged, for a reason that the message states."""


def of_both(connection, capture):
    """Gives each end its host, if a capture is of both hosts. Returns the captures of the hosts."""
    connection.hosts = {connection.client: 0, connection.server: 1}
    return {None: capture.name}


class OneCapture:
    """A capture of one host, or of both over loopback. `wanted` is the value of --host, or None; BETWEEN for a capture
    between the hosts."""

    def __init__(self, capture, wanted):
        self.capture, self.wanted = capture, wanted

    def ends(self, connection):
        """The captured end, or None if both are: the two hosts are one."""
        if self.wanted in (CLIENT, SERVER):
            return connection.client if self.wanted == CLIENT else connection.server
        if self.wanted in (BOTH, BETWEEN):
            return None
        if self.wanted:
            return self.named(connection)
        return self.shown(connection)

    def named(self, connection):
        """The end with the address that the user named."""
        own = [end for end in (connection.client, connection.server) if ip_address(end[0]) == ip_address(self.wanted)]
        if not own:
            raise Undecided(f"it isn't one of {self.wanted}")
        return own[0] if len(own) == 1 else None

    def shown(self, connection):
        """The end whose host the capture shows as its own; None if the place of the capture is another one."""
        if is_loopback(connection):
            return None
        if len(connection.own.get(self.capture.name, ())) == 2 and not is_forwarded(connection.signs):
            raise Undecided("the captured host forwards its segments, or is both its hosts (--host both)")
        return None if connection.place == BETWEEN else connection.place

    def assign(self, connection):
        """Gives each end its host, and returns the captures of the hosts: half a case if only one is recorded."""
        own = self.ends(connection)
        if own is None:
            return of_both(connection, self.capture)
        connection.hosts = {own: 0, connection.other(own): 1}
        return {0: self.capture.name}

    def place(self, connection):
        """Where it was captured, in a word."""
        if BETWEEN == (self.wanted or connection.place):
            return BETWEEN
        own = self.ends(connection)
        return BOTH if own is None else CLIENT if own == connection.client else SERVER

    def refuse_unknown(self, connection):
        """Refuses a connection that doesn't show where it was captured."""
        if not self.wanted and not is_loopback(connection) and connection.place is None:
            raise Problem(f"nothing shows which of its hosts {self.capture.name} is of (--host or --between says it)",
                          NAME_IT)

    @staticmethod
    def clock():
        """One capture has one clock."""
        return SAME


class TwoCaptures:
    """Two captures, one at each host. Host 0 is that of the first."""

    def __init__(self, captures, connections):
        self.captures, self.votes = captures, {}
        for connection in connections:
            self.compare(connection)
        self.connections = connections

    def vote(self, address, capture, weight):
        """Something shows that an address is one of a capture's host."""
        votes = self.votes.setdefault(address, [0, 0])
        votes[self.captures.index(capture)] += weight

    def compare(self, connection):
        """A segment is captured at its sender before it is at its receiver. So of two opposite segments, the time
        between them is longer at the host that sends the first. What a capture marks as sent or received counts
        more."""
        for capture in self.captures:
            if len(own := connection.own.get(capture.name, ())) == 1:
                self.vote(next(iter(own))[0], capture, MARKED)
        one, two = (connection.syns.get(capture.name, {}) for capture in self.captures)
        later = {}
        for key, moment in one.items():
            if key in two:
                later.setdefault(key[0], two[key] - moment)
        if len(later) == 2 and (difference := later[connection.client] - later[connection.server]):
            client, server = self.captures if difference > 0 else reversed(self.captures)
            self.vote(connection.client[0], client, 1)
            self.vote(connection.server[0], server, 1)

    def host(self, end):
        """The host that an address belongs to; None if nothing shows it."""
        one, two = self.votes.get(end[0], (0, 0))
        return None if one == two else int(one < two)

    def assign(self, connection):
        """Gives each end its host, and returns the captures of the hosts: half a case if the other host isn't
        recorded."""
        place, *others = [place for place, capture in enumerate(self.captures) if capture.name in connection.places]
        if not others and is_loopback(connection):
            return of_both(connection, self.captures[place])
        client, server = self.host(connection.client), self.host(connection.server)
        if client is not None and server is not None and client == server:
            raise Undecided("both its ends are at the same host")
        if not others and (connection.senders != (connection.client,) or client == 1 - place or server == place):
            return self.half(connection, place, client, server)
        if client is None:
            # If nothing shows where the client is, the first capture is its own, or the only one that has its SYN.
            client = place if server is None else 1 - server
        connection.hosts = {connection.client: client, connection.server: 1 - client}
        return {host: capture.name for host, capture in enumerate(self.captures)}

    def half(self, connection, place, client, server):
        """Only one capture has the connection, although both ends sent: its other host isn't the other capture's, or
        that wasn't running."""
        own = connection.client if client == place else connection.server if server == place else None
        if own is None and {client, server} == {None, 1 - place}:
            own = connection.client if client is None else connection.server
        if own is None:
            raise Undecided(f"nothing shows which of its hosts {self.captures[place].name} is of")
        connection.hosts = {own: 0, connection.other(own): 1}
        return {0: self.captures[place].name}

    @staticmethod
    def place(_):
        """Each capture is one host's, so no word is needed."""
        return ""

    def refuse_unknown(self, connection):
        """Whose captures they are is decided for each connection."""

    def clock(self):
        """How the clocks differ, as far as the SYNs of all connections show it."""
        above, below = [], []
        for connection in self.connections:
            one, two = (connection.syns.get(capture.name, {}) for capture in self.captures)
            for key in one.keys() & two.keys():
                host = self.host(key[0])
                if host is not None:
                    (below if host else above).append((two[key], two[key] - one[key]))
        return clock_of(above, below)

