"""Keeps track of which TCP socket each descriptor refers to: calls open, copy, pass on and close descriptors, and
processes begin and end."""
from ..problem import Problem
from .processes import PairedSocket, Processes, Socket
from .strace_words import addresses_of, arguments, first_descriptor, unix_ends, whole_number

# The addresses of sockets that aren't bound, by family.
UNBOUND = {"AF_INET": (bytes(4), 0), "AF_INET6": (bytes(16), 0)}
# Calls that only sockets have.
SOCKET_CALLS = ("accept", "accept4", "recvfrom", "sendto", "listen", "connect", "bind", "shutdown")
# A kind of calls that are left out.
OPEN_BEFORE = "calls on sockets that were open before the log began"


class Descriptors:
    def __init__(self, notes, closing, claims):
        self.notes, self.closing, self.claims = notes, closing, claims
        # `files` has the socket for which strace last printed a text.
        self.processes, self.files = Processes(), {}

    def socket_of(self, event):
        """The TCP socket that a call's first argument names; None if it isn't a known TCP socket."""
        word = first_descriptor(event.text)
        socket = word and self.find(event, word)
        if (not socket and event.name in SOCKET_CALLS and event.error not in ("ENOTSOCK", "EBADF")
                and not self.processes.knows(event.process, whole_number(word))):
            self.notes.leave_out(OPEN_BEFORE, event.place)
        return socket

    def find(self, event, word):
        """The TCP socket that a word of a call names; None if it isn't a known TCP socket. If no call of the log gave
        the descriptor to the process, what strace printed shows which socket it is."""
        number, file = whole_number(word), getattr(word, "file", "")
        if file and not self.processes.knows(event.process, number) and (socket := self.printed_as(file)):
            self.put(event, number, socket)
        socket = self.processes.get(event.process, number)
        if not isinstance(socket, Socket):
            return None
        if file:
            self.files[file] = socket
            if addresses := addresses_of(file):
                self.claims.learn(socket, addresses)
        return socket

    def printed_as(self, file):
        """The open socket for which strace printed this text."""
        socket = self.files.get(file) if file else None
        return socket if socket and socket.references else None

    def put(self, event, number, socket, close_on_exec=False):
        """Assigns a descriptor to a socket; this may close the socket that had it before."""
        self.closing.close(event, event.process, self.processes.put(event.process, number, socket, close_on_exec))

    def socket(self, event):
        if event.result is not None and event.result >= 0:
            is_tcp = "SOCK_STREAM" in event.text and "IPPROTO_SCTP" not in event.text
            unbound = UNBOUND.get(event.text.partition(",")[0]) if is_tcp else None
            self.put(event, event.result, unbound and Socket(unbound), "SOCK_CLOEXEC" in event.text)

    def socketpair(self, event):
        if event.result == 0:
            one, two = PairedSocket(), PairedSocket()
            one.peer, two.peer = two, one
            for number, socket in zip(arguments(event.text)[3], (one, two)):
                self.put(event, whole_number(number), socket, "SOCK_CLOEXEC" in event.text)

    def unix_ends(self, event):
        """The Unix socket of a call's first argument, and its peer: their numbers, if strace printed them, or those of
        a socketpair. None for one that isn't known."""
        word = first_descriptor(event.text)
        own, peer = unix_ends(word.file)
        socket = None if own else self.processes.get(event.process, whole_number(word))
        return (socket, socket.peer) if isinstance(socket, PairedSocket) else (own, peer)

    def dup(self, event):
        old, new = whole_number(arguments(event.text)[0]), event.result
        if new is None or new < 0 or (event.name == "dup2" and old == new):
            return
        if self.processes.knows(event.process, old) or self.processes.knows(event.process, new):
            self.put(event, new, self.processes.get(event.process, old), "CLOEXEC" in event.text)

    def fcntl(self, event):
        if "F_DUPFD" in event.text:
            self.dup(event)
        elif "F_SETFD" in event.text:
            self.processes.mark(event.process, whole_number(event.text), "FD_CLOEXEC" in event.text)

    def ioctl(self, event):
        request = event.text.rpartition(", ")[2]
        if request in ("FIOCLEX", "FIONCLEX") and event.result == 0:
            self.processes.mark(event.process, whole_number(event.text), request == "FIOCLEX")

    def close(self, event):
        self.closing.close(event, event.process, self.processes.drop(event.process, whole_number(event.text)))

    def close_range(self, event):
        words = arguments(event.text)
        first, last = whole_number(words[0]), whole_number(words[1])
        numbers = [number for number in sorted(self.processes.table(event.process).entries) if first <= number <= last]
        if "CLOEXEC" in event.text:
            for number in numbers:
                self.processes.mark(event.process, number, True)
        else:
            self.closing.close_at_once(event,
                                       filter(None, [self.processes.drop(event.process, number) for number in numbers]))

    def clone(self, event):
        if event.result and event.result > 0:
            self.processes.begin(event.process, event.result, "CLONE_FILES" in event.text)

    def execve(self, event):
        if event.result == 0:
            self.closing.close_at_once(event, self.processes.execute(event.process))

    def exit(self, event):
        self.closing.ended(event, self.processes.end(event.process))

    def io_uring_setup(self, event):
        if event.result is not None and event.result >= 0:
            raise Problem(f"{event.place}: the program uses io_uring, whose operations strace can't see",
                          "make the program use system calls instead (most programs have an option for this)")
