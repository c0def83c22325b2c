"""Which connections belong to the logs, and which end of each is host 0."""
from ipaddress import ip_address

from ..capture.packets import shown
from ..problem import Problem
from ..remedies import ELSEWHERE


def addresses_of(options, host):
    """The addresses of a host that the user named."""
    return {0: options.zero, 1: options.one}.get(host, [])


def packed(address):
    """An address as its bytes."""
    try:
        return ip_address(address).packed
    except ValueError as error:
        raise Problem(f"{address} isn't an address", "give --zero and --one an IPv4 or IPv6 address") from error


def chosen_connections(options, notes, connections, endpoints, hosts, names):
    """The connections of the recorded programs, after deciding the hosts of each."""
    listening = {}
    for endpoint in endpoints:
        if endpoint.role == "listener":
            listening.setdefault(endpoint.host, set()).add(endpoint.local[1])
    addresses = {host: {packed(address) for address in addresses_of(options, host)} for host in (0, 1)}
    for connection in connections:
        for end, host in connection.hosts.items():
            addresses[host].add(end[0])
    kept = []
    begun = {frozenset((connection.client, connection.server)) for connection in connections if not connection.whole}
    for connection in connections:
        place = f"{next(connection.packets()).place}: {connection}"
        if not assign_hosts(connection, listening, addresses):
            kind = ("with both ends in the log of one host" if connection.hosts
                    else "that no call in the logs opened or listened for")
            notes.leave_out(f"connections {kind}", place)
        elif not wanted(options, connection):
            notes.leave_out("connections with other addresses", place)
        elif frozenset((connection.client, connection.server)) in begun:
            refuse_begun(options, notes, connection, place)
        elif hosts == 2 and len(names) == 2 and not in_both(connection, names, addresses):
            notes.leave_out("connections with a host that was not recorded", place)
        else:
            kept.append(connection)
    for endpoint in endpoints:
        if endpoint.role != "listener" and endpoint.connection is None:
            notes.leave_out("connections in the logs that no capture shows", endpoint.place)
    if not kept:
        raise Problem("no connection is in both the captures and the logs",
                      "record both on the same host at the same time; "
                      "no NAT may translate addresses between the captures",
                      f"{ELSEWHERE}; if the program is both hosts, use --namespace")
    return kept


def assign_hosts(connection, listening, addresses):
    """Decides which host each end belongs to; false if no call concerns the connection."""
    for host in (0, 1):
        # An end with a listening port belongs to that host, unless its address is known to be the other host's.
        server = connection.server
        if (server not in connection.hosts and server[1] in listening.get(host, ())
                and (server[0] in addresses[host] or server[0] not in addresses[1 - host])):
            connection.hosts[server] = host
    if not connection.hosts:
        return False
    for end in (connection.client, connection.server):
        other = connection.other(end)
        if end not in connection.hosts and other in connection.hosts:
            connection.hosts[end] = 1 - connection.hosts[other]
    return len(set(connection.hosts.values())) == 2


def wanted(options, connection):
    """Whether --zero and --one permit the connection."""
    for end, host in connection.hosts.items():
        named = addresses_of(options, host)
        if named and shown(end).rsplit(":", 1)[0].strip("[]") not in named:
            return False
    return True


def refuse_begun(options, notes, connection, place):
    """A connection without its beginning can't be judged."""
    if not options.skip_begun:
        raise Problem(f"{place}: the connection begins before the capture",
                      "start the capture before the programs, or leave such connections out with --skip-begun",
                      "wait until earlier connections of these ports have ended, or use another port")
    notes.leave_out("connections that begin before the capture", place)


def in_both(connection, names, addresses):
    """Whether both captures may show the connection: each one does, or its host is known to have an address of the
    connection."""
    return all(name in connection.seen
               or any(end[0] in addresses[host] for end, owner in connection.hosts.items() if owner == host)
               for host, name in names.items())
