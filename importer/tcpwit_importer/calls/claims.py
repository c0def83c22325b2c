"""Finds the connections of the captures that calls open and accept.

strace prints the addresses that the kernel has for a socket; they name its connection. For a call without them, the
connection is chosen by time and order, among those whose addresses the log doesn't have.
"""
from ..capture.segments import FIN, RST
from .strace_words import addresses_of, first_descriptor

# Nanoseconds that a moment may be off: logs may have microseconds only.
UNIT = 1000
CHOSEN = "connections chosen by time and order, because their calls have no addresses"
REMEDY = ": use strace --decode-fds=socket"


class Claims:
    """The connections that no call of a host has claimed yet, by the server's port and by client and server. `named`
    has the addresses of connections that the log shows, each as local and remote end."""

    def __init__(self, connections, captures, notes):
        self.captures, self.notes = captures, notes
        self.named = set()
        self.unopened, self.unaccepted, self.completions, self.by_ends = {}, {}, {}, {}
        for connection in connections:
            self.unopened.setdefault(connection.server[1], []).append(connection)
            self.unaccepted.setdefault(connection.server[1], []).append(connection)
            self.by_ends.setdefault((connection.client, connection.server), []).append(connection)

    def read_names(self, events):
        """Collects the addresses of connections that these calls show."""
        for event in events:
            first = first_descriptor(event.text)
            for file in (first.file if first else "", event.file):
                if (addresses := file and addresses_of(file)) and addresses.remote:
                    self.named.add(addresses)

    def open(self, endpoint):
        """Claims the connection of an endpoint that has just been opened, as far as it is known at this moment: if the
        socket was bound, or if the log has no addresses. Otherwise, a later call shows the addresses."""
        if any(endpoint.local[0]) and endpoint.local[1]:
            self.open_between(endpoint, endpoint.local, endpoint.remote)
        if not endpoint.connection and not self.named:
            self.guess(endpoint)

    def open_between(self, endpoint, local, remote):
        """Claims the first connection between these ends that the endpoint may have opened."""
        found = (connection for connection in self.by_ends.get((local, remote), [])
                 if self.may_be_opened_by(endpoint, connection))
        self.claim(self.unopened, next(found, None), "open", endpoint)

    def guess(self, endpoint):
        """Claims the first connection to the endpoint's peer that the endpoint may have opened and whose addresses the
        log doesn't have."""
        found = (connection for connection in self.unopened.get(endpoint.remote[1], [])
                 if (connection.client, connection.server) not in self.named
                 and self.may_be_opened_by(endpoint, connection))
        first = next(found, None)
        # In a log with addresses, only failed connects have none; each sent its SYN before it ended.
        self.note_choice(endpoint,
                         any(not self.named or endpoint.ended is None or self.begun(connection) <= endpoint.ended
                             for connection in found))
        self.claim(self.unopened, first, "open", endpoint)

    def may_be_opened_by(self, endpoint, connection):
        """Whether an endpoint may have opened this connection, according to its addresses and times."""
        if "open" in connection.claimed or (any(endpoint.remote[0]) and connection.server[0] != endpoint.remote[0]):
            return False
        if endpoint.local[1] and connection.client[1] != endpoint.local[1]:
            return False
        return (max(packets[-1].moment for packets in self.seen(connection)) >= endpoint.begun
                and self.begun(connection) >= endpoint.begun - UNIT)

    def begun(self, connection):
        """When a connection begins, according to this host's captures."""
        return min(packets[0].moment for packets in self.seen(connection))

    def child(self, endpoint, listener, event, remote):
        """Claims the connection that an accept returned: the one with the addresses of the socket or the returned
        address, else the first that was completed."""
        if (addresses := addresses_of(event.file)) and addresses.remote:
            found = next((connection for connection in self.by_ends.get((addresses.remote, addresses.local), [])
                          if "child" not in connection.claimed), None)
        else:
            free = [connection for connection in self.unaccepted.get(listener.local[1], [])
                    if "child" not in connection.claimed and (connection.server, connection.client) not in self.named
                    and self.completed(connection) is not None and listener.fits(connection.server[0])]
            if remote:
                found = next((connection for connection in free if connection.client == remote), None)
            else:
                free = [connection for connection in free if self.completed(connection) <= event.end]
                found = min(free, key=self.completed, default=None)
                self.note_choice(endpoint, free[1:])
        self.claim(self.unaccepted, found, "child", endpoint)

    def note_choice(self, endpoint, others):
        """Notes that other connections would fit a call, too."""
        if others:
            self.notes.change(CHOSEN if self.named else CHOSEN + REMEDY, endpoint.place)

    @staticmethod
    def claim(unclaimed, connection, role, endpoint):
        """Records that a call of a host returned this end of a connection. Does nothing for None."""
        if connection:
            unclaimed[connection.server[1]].remove(connection)
            connection.claimed += (role,)
            endpoint.connection = connection
            connection.hosts[endpoint.own_end] = endpoint.host

    def learn(self, socket, addresses):
        """Uses the addresses that strace printed for a socket: a port that wasn't bound explicitly, and the connection
        that was opened."""
        socket.addresses, endpoint = addresses, socket.endpoint
        if not addresses.remote:
            set_port(socket, addresses.local[1])
        elif endpoint and endpoint.role == "open" and not endpoint.connection and addresses != endpoint.former:
            endpoint.is_named = True
            self.open_between(endpoint, addresses.local, addresses.remote)

    def settle(self, endpoints):
        """Guesses the connections of the endpoints that were opened and whose addresses no call showed."""
        for endpoint in endpoints:
            if endpoint.role == "open" and not endpoint.connection and not endpoint.is_named:
                self.guess(endpoint)

    def left(self, endpoint, since):
        """When an endpoint's host first sent a reset, or a FIN that no shutdown caused, since a moment, according to
        its captures; None if it didn't."""
        flags = RST if endpoint.shut else FIN | RST
        moments = [packet.moment for name in self.captures for packet in endpoint.connection.seen.get(name, ())
                   if packet.source == endpoint.own_end and packet.flags & flags and packet.moment >= since]
        return min(moments, default=None)

    def seen(self, connection):
        """The packets of a connection in this host's captures, or in any capture if this host has none."""
        own = [connection.seen[name] for name in self.captures if name in connection.seen]
        return own or list(connection.seen.values())

    def completed(self, connection):
        """When the handshake was completed, according to this host's captures."""
        if connection not in self.completions:
            self.completions[connection] = connection.completed(self.captures)
        return self.completions[connection]


def set_port(socket, port):
    """Records the port that the kernel chose for a socket."""
    if not socket.bound[1]:
        socket.bound = (socket.bound[0], port)
    if socket.endpoint and not socket.endpoint.local[1]:
        socket.endpoint.local = (socket.endpoint.local[0], port)
