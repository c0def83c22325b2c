"""Which connections and endpoints are in one trace."""
from ..capture.packets import shown


class Case:
    """One trace: connections between two hosts, and the endpoints of the calls that belong to them."""

    def __init__(self, name, connections, endpoints):
        self.name, self.connections = name, connections
        found = Listeners(endpoints)
        self.listening = {(*found.port(connection), found.address(connection)) for connection in connections}
        own = {id(connection) for connection in connections}
        self.endpoints = [endpoint for endpoint in endpoints if self._has(endpoint, own)]

    def _has(self, endpoint, own):
        if endpoint.role == "listener":
            return (endpoint.host, endpoint.local[1], endpoint.local[0]) in self.listening
        return endpoint.connection is not None and id(endpoint.connection) in own


class Listeners:
    """Finds the listener of a connection. Those of a port may have several addresses."""

    def __init__(self, endpoints):
        self.of_port, self.of_child = {}, {}
        for endpoint in endpoints:
            if endpoint.role == "listener" and endpoint.listens:
                self.of_port.setdefault((endpoint.host, endpoint.local[1]), []).append(endpoint)
            elif endpoint.role == "child":
                self.of_child[id(endpoint.connection)] = endpoint.local[0]

    @staticmethod
    def port(connection):
        """The host and the port of a connection's server."""
        return connection.hosts[connection.server], connection.server[1]

    def address(self, connection):
        """The address of the listener that accepts a connection: the one that did, else the server's own, that of its
        family, or that of all families; None if none listens."""
        fitting = [endpoint.local[0] for endpoint in self.of_port.get(self.port(connection), [])
                   if endpoint.fits(connection.server[0])]
        fitting.sort(key=lambda address: (not any(address), len(address) != len(connection.server[0])))
        return self.of_child.get(id(connection), fitting[0] if fitting else None)


def cases_by_listener(name, connections, endpoints):
    """A trace has only one listener for a port. So if the connections to a port have listeners with several addresses,
    or only some have one, those of each listener get a case of their own."""
    found = Listeners(endpoints)
    addresses = {}
    for connection in connections:
        addresses.setdefault(found.port(connection), set()).add(found.address(connection))
    groups = {}
    for connection in connections:
        port = found.port(connection)
        key = (*port, found.address(connection)) if len(addresses[port]) > 1 else None
        groups.setdefault(key, []).append(connection)
    cases = {}
    for key, group in groups.items():
        own = name if key is None else f"{name}-{shown(group[0].server)}"
        # Listeners with several addresses may accept connections to the same one, one after the other.
        own = own if own not in cases else f"{own}-{len(cases) + 1}"
        cases[own] = Case(own, group, endpoints)
    return list(cases.values())
