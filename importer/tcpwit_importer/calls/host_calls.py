"""Converts the system calls of one host into the calls of a trace.

`Descriptors` finds the socket of a call; `Passing` follows sockets to other processes. `Opening`, `Transfers` and
`Closing` convert the calls on sockets and add them to the `HostTrace`. `Claims` finds the connections that they open
and accept.
"""
from ..problem import Problem
from ..trace.endpoints import HostTrace
from .claims import Claims
from .closings import Closing
from .descriptors import Descriptors
from .messages import Passing
from .openings import Opening
from .strace_log import Exit
from .strace_words import arguments
from .transfers import Transfers


class HostCalls:
    """Processes the events of one host's logs. `host` is 0, 1, or None if the log has the calls of both hosts."""

    def __init__(self, host, connections, captures, notes):
        self.trace = HostTrace(host, notes)
        claims = self.claims = Claims(connections, captures, notes)
        closing = Closing(self.trace, claims)
        descriptors = self.descriptors = Descriptors(notes, closing, claims)
        passing = Passing(descriptors)
        opening = self.opening = Opening(self.trace, descriptors, claims)
        transfers = Transfers(self.trace, descriptors, opening)
        # What handles a call whose first argument is a TCP socket, and what handles other calls.
        self.on_socket = {
            "bind": opening.bind, "getsockname": opening.getsockname,
            "setsockopt": opening.setsockopt, "getsockopt": opening.getsockopt,
            "listen": opening.listen, "connect": opening.connect, "accept": opening.accept, "accept4": opening.accept,
            "send": transfers.send, "sendto": transfers.send, "write": transfers.send,
            "writev": transfers.writev, "pwritev2": transfers.writev,
            "sendmsg": transfers.sendmsg, "sendmmsg": transfers.sendmmsg, "sendfile": transfers.sendfile,
            "shutdown": closing.shutdown, "recv": transfers.recv, "recvfrom": transfers.recv, "read": transfers.recv,
            "readv": transfers.readv, "preadv2": transfers.readv,
            "recvmsg": transfers.recvmsg, "recvmmsg": transfers.recvmmsg}
        self.on_other = {
            "socket": descriptors.socket, "socketpair": descriptors.socketpair,
            "dup": descriptors.dup, "dup2": descriptors.dup, "dup3": descriptors.dup,
            "fcntl": descriptors.fcntl, "ioctl": descriptors.ioctl,
            "close": descriptors.close, "close_range": descriptors.close_range,
            "sendmsg": passing.sendmsg, "recvmsg": passing.recvmsg,
            "pidfd_open": passing.pidfd_open, "pidfd_getfd": passing.pidfd_getfd, "splice": transfers.splice,
            "execve": descriptors.execve, "execveat": descriptors.execve,
            "clone": descriptors.clone, "clone3": descriptors.clone, "fork": descriptors.clone,
            "vfork": descriptors.clone, "io_uring_setup": descriptors.io_uring_setup}

    def run(self, events):
        """All endpoints, each with its calls."""
        rest = list(events)
        self.claims.read_names(event for event in rest if not isinstance(event, Exit))
        # The events have all bytes of the log, so those that were handled aren't kept.
        rest.reverse()
        while rest:
            event = rest.pop()
            if isinstance(event, Exit):
                self.descriptors.exit(event)
            else:
                self.handle(event)
        self.claims.settle(self.trace.endpoints)
        for endpoint in self.trace.endpoints:
            self.opening.order_accepts(endpoint)
        return self.trace.endpoints

    def handle(self, event):
        """Handles a system call, whose arguments may be damaged."""
        try:
            socket = self.descriptors.socket_of(event)
            if socket and event.name in self.on_socket:
                self.on_socket[event.name](event, socket, arguments(event.text))
            elif event.name in self.on_other:
                self.on_other[event.name](event)
        except (AttributeError, LookupError, TypeError, ValueError) as error:
            raise Problem(f"{event.place}: the arguments of {event.name} can't be read ({error})",
                          "record again; if the line is complete, this is a bug in the importer: report it with the "
                          "line") from error
