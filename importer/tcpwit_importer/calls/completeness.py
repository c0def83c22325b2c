"""Refuses recordings that lack calls: what the connections do without them would look as if the stack had done it
alone."""
from ..capture.packets import shown
from ..problem import Problem
from ..remedies import ALL_CALLS, ELSEWHERE
from ..trace.cases import Listeners
from ..trace.endpoints import NOT_CONNECTED
from .descriptors import OPEN_BEFORE


def refuse_missing_sends(connections, endpoints):
    """Refuses a log that lacks sends: the bytes would look as if the stack had invented them."""
    kept = set(connections)
    for endpoint in endpoints:
        if endpoint.connection not in kept or any(action.verb == "send" and not action.answer
                                                  for action in endpoint.actions):
            continue
        found = endpoint.connection.shown_up_to(endpoint.own_end) - endpoint.sent
        if found > 0:
            sent = f"{found} bytes that {shown(endpoint.own_end)} sent"
            raise Problem(f"{endpoint.place}: {sent} are in no call of the log",
                          f"{ALL_CALLS}; or accept the log with --keep-gaps", ELSEWHERE)


def refuse_missing_ends(connections, endpoints, notes):
    """Refuses a connection between two recorded hosts that has the calls of only one."""
    listeners = Listeners(endpoints)
    for connection in connections:
        if missing := missing_call(connection, listeners):
            end, what = missing
            host = connection.hosts[end]
            raise Problem(f"{next(connection.packets()).place}: {connection} has calls of host {1 - host} only: no "
                          f"call of host {host} {what} it; likely, {likely(notes)}",
                          f"{ALL_CALLS}, on both hosts", ELSEWHERE)


def missing_call(connection, listeners):
    """An end without its calls, and what the first of them does; None if both ends have what their segments need."""
    if "open" not in connection.claimed:
        return connection.client, "opened"
    # A server needs no calls to refuse a connection, and only a listener to complete the handshake.
    if "child" not in connection.claimed:
        if connection.answered() is not None and listeners.address(connection) is None:
            return connection.server, "listened for"
        if connection.sent_or_ended(connection.server):
            return connection.server, "accepted"
    return None


def likely(notes):
    """Why a log lacks the calls of a connection."""
    for kind, (_, place) in notes.left_out.items():
        if kind == OPEN_BEFORE:
            return f"its socket was opened before the log began (see {place})"
        if kind.endswith(NOT_CONNECTED):
            return f"{kind.removesuffix(NOT_CONNECTED)} did, in a way that the importer doesn't know (see {place})"
    return "strace didn't follow the process that did, or the kernel did it alone"
