"""The calls of one host in a trace, and the endpoints and bytes that they refer to."""
from dataclasses import dataclass, field
from itertools import count
from typing import Any, NamedTuple

# The most bytes that a line of a trace may have.
LONGEST = 65535
# The trace's answers for errors.
ANSWERS = {"EAGAIN": "again", "EWOULDBLOCK": "again", "ENOTCONN": "notconn"}
FAULTS = {"ECONNREFUSED": "refused", "ECONNRESET": "reset", "ETIMEDOUT": "timeout"}
# A kind of calls that are left out, after their name.
NOT_CONNECTED = " on sockets that are not connected"
INTERRUPTED = ("EINTR", "ERESTARTSYS", "ERESTARTNOINTR", "ERESTARTNOHAND", "ERESTART_RESTARTBLOCK")


class Data(NamedTuple):
    """Bytes that an endpoint's call sends or receives: the first of them, which the log has, and the place of all in
    the stream of the end that sent them."""
    known: bytes
    endpoint: Any
    offset: int
    length: int
    sends: bool

    @property
    def end(self):
        """The end of the connection that sent the bytes."""
        own = self.endpoint.own_end
        return own if self.sends else self.endpoint.connection.other(own)


class Action(NamedTuple):
    """A call of the trace. A word may be data or an endpoint, whose number is written. A call without an answer didn't
    end. `order` is its place among the calls; `turn` is that of its beginning, which may be moved to just after another
    call's."""
    begin: int
    end: int | None
    thread: Any
    verb: str
    endpoint: Any
    words: tuple
    answer: tuple | None
    order: int
    turn: tuple


@dataclass(eq=False)
class Endpoint:
    """What a socket number of the trace refers to: a listener, or an end of a connection that was opened or
    accepted."""
    role: str
    host: int
    local: tuple
    place: str
    connection: Any = None
    actions: list = field(default_factory=list)
    sent: int = 0
    received: int = 0
    fault: str | None = None
    pending: bool = False
    shut: bool = False
    gone: bool = False
    shared: int = 0
    # Whether a listener accepts no connection of IPv4.
    only_v6: bool = False
    # When the connect began or the accept ended, and when the connect ended.
    begun: int = 0
    ended: int | None = None
    # The peer to which it was opened, the addresses that its socket had before, and whether strace printed its own.
    remote: tuple | None = None
    former: Any = None
    is_named: bool = False
    # The listener that accepted it.
    listener: Any = None

    def fits(self, address):
        """Whether this listener accepts connections to an address: its own, all of its family, or with IPv6 also all of
        IPv4."""
        own = self.local[0]
        return own == address or (not any(own) and (len(own) == len(address) or (len(own) == 16 and not self.only_v6)))

    @property
    def listens(self):
        """Whether this listener's listen succeeded."""
        return self.actions[0].answer[0] == "ok"

    @property
    def own_end(self):
        """Its address and port in its connection."""
        return self.connection.client if self.role == "open" else self.connection.server

    @property
    def last_end(self):
        """The moment when its last finished call ended."""
        return max((action.end for action in self.actions if action.end is not None), default=0)


class HostTrace:
    """The endpoints of one host, each with its calls. `host` is 0, 1, or None if the log has the calls of both
    hosts."""

    def __init__(self, host, notes):
        self.host, self.notes = host, notes
        # In a log of both hosts, sockets that connect belong to host 0.
        self.connects, self.listens = (0, 1) if host is None else (host, host)
        self.endpoints, self.free_at, self.orders = [], {}, count()

    def add(self, event, endpoint, verb, words, answer, begin=None, end=None, thread=None):
        """Adds a call to the trace. A thread's call doesn't begin before its previous one ended."""
        thread = (self.host, thread or event.process)
        begin = max(event.begin if begin is None else begin, self.free_at.get(thread, 0))
        end = event.end if end is None else end
        end, answer = (None, None) if end is None else (max(begin, end), answer)
        self.free_at[thread] = begin if end is None else end
        order = next(self.orders)
        endpoint.actions.append(Action(begin, end, thread, verb, endpoint, words, answer, order, (order, 0)))

    def endpoint_of(self, event, socket):
        """The socket's endpoint. If a trace can't express its calls, notes that and returns None."""
        if socket.endpoint is None or socket.endpoint.gone:
            self.notes.leave_out(event.name + NOT_CONNECTED, event.place)
            return None
        return socket.endpoint

    def add_failed(self, event, endpoint, verb, words):
        """Adds a call that failed or didn't end, unless the trace has no answer for its error."""
        answer = self.failed(event, endpoint) if event.error else None
        if answer or not event.error:
            self.add(event, endpoint, verb, words, answer)

    def failed(self, event, endpoint):
        """The trace's answer for an error. If it has none, notes that and returns None."""
        if event.error in ANSWERS:
            return (ANSWERS[event.error],)
        if event.error == "EPIPE" and endpoint.shut:
            return ("closed",)
        if event.error == "EPIPE" or event.error in FAULTS:
            # The system reports a fault once and EPIPE afterwards, or EPIPE at once after the peer's FIN. The model
            # keeps reporting the fault.
            endpoint.fault = FAULTS.get(event.error) or endpoint.fault or "reset"
            return (endpoint.fault,)
        self.notes.leave_out("interrupted calls" if event.error in INTERRUPTED
                             else f"{event.name} answered by {event.error}", event.place)
        return None
