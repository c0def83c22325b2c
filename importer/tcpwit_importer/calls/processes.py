"""Processes and their descriptor tables: what refers to a socket, TCP or one of a socketpair, and when the last
reference is dropped."""
from dataclasses import dataclass
from typing import Any


@dataclass(eq=False)
class Socket:
    """A TCP socket in any state, to which descriptors of several processes may refer. `addresses` are those that strace
    printed last."""
    bound: tuple
    endpoint: Any = None
    aborts: bool = False
    reading_shut: bool = False
    only_v6: bool = False
    addresses: Any = None
    references: int = 0


@dataclass(eq=False)
class PairedSocket:
    """One of the two sockets of a socketpair. It's never in a trace, so it has no endpoint."""
    peer: Any = None
    references: int = 0
    endpoint: None = None


class Table:
    """The descriptors of one process, or of several threads that share them."""

    def __init__(self):
        self.entries, self.close_on_exec, self.users = {}, set(), 1


class Processes:
    """All tables of a host. Methods return sockets whose last reference was dropped, so that the trace can close
    them."""

    def __init__(self):
        self.tables = {}

    def table(self, process):
        """The table of a process; a process whose creation wasn't logged starts with an empty one."""
        if process not in self.tables:
            self.tables[process] = Table()
        return self.tables[process]

    def get(self, process, descriptor):
        """What a descriptor refers to; None if it isn't a known socket."""
        return self.table(process).entries.get(descriptor)

    def knows(self, process, descriptor):
        """Whether some call opened the descriptor."""
        return descriptor in self.table(process).entries

    def put(self, process, descriptor, socket, close_on_exec):
        """Makes a descriptor refer to a socket, and drops its old reference."""
        dropped = self.drop(process, descriptor)
        self.table(process).entries[descriptor] = socket
        if socket:
            socket.references += 1
        self.mark(process, descriptor, close_on_exec)
        return dropped

    def mark(self, process, descriptor, close_on_exec):
        """Sets or clears a descriptor's close-on-exec mark."""
        table = self.table(process)
        (table.close_on_exec.add if close_on_exec else table.close_on_exec.discard)(descriptor)

    def drop(self, process, descriptor):
        """Closes a descriptor. Returns the socket if this was its last descriptor, else None."""
        return self._release(self.table(process).entries.pop(descriptor, None))

    @staticmethod
    def _release(socket):
        if socket is None:
            return None
        socket.references -= 1
        return socket if socket.references == 0 else None

    def begin(self, parent, child, shares):
        """Starts a process or thread with its parent's table, or with a copy of it."""
        before = self.table(parent)
        if shares:
            before.users += 1
            self.tables[child] = before
            return
        copy = self.tables[child] = Table()
        copy.entries, copy.close_on_exec = dict(before.entries), set(before.close_on_exec)
        for socket in filter(None, copy.entries.values()):
            socket.references += 1

    def execute(self, process):
        """Executes another program in a process: it gets a table of its own, and marked descriptors are closed."""
        if self.table(process).users > 1:
            self.table(process).users -= 1
            self.begin(process, process, False)
        table = self.table(process)
        return [socket for descriptor in sorted(table.close_on_exec) if (socket := self.drop(process, descriptor))]

    def end(self, process):
        """Ends a process. Returns the sockets that only it referred to."""
        table = self.tables.pop(process, None)
        if table is None:
            return []
        table.users -= 1
        if table.users:
            return []
        return [socket for socket in table.entries.values() if self._release(socket)]
