"""Converts the calls by which sockets get addresses, listen, connect and accept."""
from ..trace.endpoints import FAULTS, LONGEST, Endpoint
from .claims import set_port
from .processes import Socket
from .strace_words import address_of, whole_number

NOTHING_SENT = ("ENETUNREACH", "EADDRNOTAVAIL", "EACCES", "EPERM", "EAFNOSUPPORT", "EINVAL", "EADDRINUSE", "EAGAIN",
                "EISCONN", "ENETDOWN", "EOPNOTSUPP")


class Opening:
    def __init__(self, trace, descriptors, claims):
        self.trace, self.descriptors, self.claims, self.notes = trace, descriptors, claims, trace.notes

    def bind(self, event, socket, words):
        if event.result == 0 and (address := address_of(words[1])):
            socket.bound = address

    def getsockname(self, event, socket, words):
        if event.result == 0 and (address := address_of(words[1])):
            set_port(socket, address[1])

    def setsockopt(self, event, socket, words):
        if event.result == 0 and "SO_LINGER" in words and isinstance(words[3], dict):
            socket.aborts = words[3].get("l_onoff") != "0" and words[3].get("l_linger") == "0"
        elif event.result == 0 and "IPV6_V6ONLY" in words:
            socket.only_v6 = words[3] != ["0"]

    def listen(self, event, socket, words):
        if socket.endpoint and not socket.endpoint.gone:
            self.notes.leave_out("listen on a socket that is already listening", event.place)
        elif event.result != 0 and event.error != "EADDRINUSE":
            self.notes.leave_out(f"listen answered by {event.error}", event.place)
        elif event.result == 0 and (other := self.listener_at(socket.bound)):
            self.notes.change("listeners that share a port, merged into one", event.place)
            socket.endpoint = other
            other.shared += 1
        else:
            endpoint = Endpoint("listener", self.trace.listens, socket.bound, event.place, only_v6=socket.only_v6)
            backlog = whole_number(words[1])
            backlog = LONGEST if backlog is None or backlog < 0 else min(backlog, LONGEST)
            self.trace.endpoints.append(endpoint)
            if event.result == 0:
                socket.endpoint = endpoint
            self.trace.add(event, endpoint, "listen", (backlog,), ("ok", endpoint) if event.result == 0 else ("inuse",))

    def listener_at(self, local):
        """The listener with this address and port; None if there is none, or if the port isn't known."""
        return next((other for other in self.trace.endpoints
                     if other.role == "listener" and other.local == local and local[1] and not other.gone), None)

    def connect(self, event, socket, words):
        remote = address_of(words[1])
        if remote is None:
            return
        if socket.endpoint and socket.endpoint.pending:
            self.awaited(event, socket.endpoint)
        elif self.opened(event, socket, remote) and event.error != "EINPROGRESS":
            self.awaited(event, socket.endpoint)

    def opened(self, event, socket, remote):
        """Adds the `open` of a call that sends a SYN, when the call begins. Returns whether it did."""
        if event.error in NOTHING_SENT:
            self.notes.leave_out("connects that failed before sending a segment", event.place)
            return False
        endpoint = socket.endpoint = Endpoint("open", self.trace.connects, socket.bound, event.place, pending=True,
                                              remote=remote, begun=event.begin, ended=event.end,
                                              former=socket.addresses)
        self.claims.open(endpoint)
        self.trace.endpoints.append(endpoint)
        self.trace.add(event, endpoint, "open", (), ("ok", endpoint), end=event.begin)
        return True

    def fast_open(self, event, socket, remote):
        """Adds the `open` of a send with MSG_FASTOPEN if its socket isn't connected, and returns whether the call sends
        no byte: it didn't wait, or connecting failed. Without a cookie of the server, the kernel sends an ordinary SYN,
        and the bytes after the handshake."""
        if remote is None or (socket.endpoint and not socket.endpoint.gone):
            return False
        if self.opened(event, socket, remote) and event.error not in (None, "EINPROGRESS"):
            self.awaited(event, socket.endpoint)
        return event.error is not None

    def awaited(self, event, endpoint):
        """Adds the `await` for what a waiting or later connect reports about the connection."""
        if event.error == "EALREADY":
            self.trace.add(event, endpoint, "await", (), ("again",))
        elif event.result == 0 or event.error == "EISCONN":
            endpoint.pending = False
            self.trace.add(event, endpoint, "await", (), ("ok",))
        elif event.result is None and event.error is None:
            self.trace.add(event, endpoint, "await", (), None)
        elif answer := self.trace.failed(event, endpoint):
            endpoint.pending = answer == ("again",)
            self.trace.add(event, endpoint, "await", (), answer)

    def getsockopt(self, event, socket, words):
        endpoint = socket.endpoint
        if "SO_ERROR" not in words or event.result != 0 or not endpoint or endpoint.role == "listener":
            return
        value = words[3][0] if words[3] else "0"
        if value in FAULTS:
            endpoint.fault, endpoint.pending = FAULTS[value], False
            self.trace.add(event, endpoint, "await", (), (endpoint.fault,))
        elif value == "0" and endpoint.pending:
            answered = endpoint.connection and endpoint.connection.answered()
            if answered and answered <= event.end:
                endpoint.pending = False
                self.trace.add(event, endpoint, "await", (), ("ok",))

    def accept(self, event, socket, words):
        endpoint = self.trace.endpoint_of(event, socket)
        if not endpoint:
            return
        if event.result is None and event.error is None:
            self.trace.add(event, endpoint, "accept", (), None)
        elif event.result is not None and event.result >= 0:
            remote = address_of(words[1]) if len(words) > 1 else None
            child = Endpoint("child", endpoint.host, endpoint.local, event.place, begun=event.end, listener=endpoint)
            self.claims.child(child, endpoint, event, remote)
            self.trace.endpoints.append(child)
            self.trace.add(event, endpoint, "accept", (), ("ok", child))
            accepted = Socket(endpoint.local, child, socket.aborts)
            self.descriptors.put(event, event.result, accepted, "CLOEXEC" in event.text)
            self.descriptors.files[event.file] = accepted
        elif answer := self.trace.failed(event, endpoint):
            self.trace.add(event, endpoint, "accept", (), answer)

    def order_accepts(self, listener):
        """Orders the beginnings of concurrent accepts by when their connections were completed: the queue returned the
        connections in that order, so no accept had its effect before an earlier one began."""
        places = [place for place, action in enumerate(listener.actions)
                  if action.verb == "accept" and action.answer and action.answer[0] == "ok"
                  and action.answer[1].connection]
        places.sort(key=lambda place: self.claims.completed(listener.actions[place].answer[1].connection) or 0)
        begin, turn = 0, (0, 0)
        for place in places:
            action = listener.actions[place]
            if begin >= action.end:
                return
            if (action.begin, action.turn) < (begin, turn):
                action = listener.actions[place] = action._replace(begin=begin, turn=(turn[0], turn[1] + 1))
            begin, turn = action.begin, action.turn
