"""Converts the calls that shut down and close sockets."""


# Nanoseconds by which a call ends before the first segment that its process left behind when it was killed.
BEFORE = 1000


class Closing:
    def __init__(self, trace, claims):
        self.trace, self.claims, self.notes = trace, claims, trace.notes

    def shutdown(self, event, socket, words):
        endpoint = self.trace.endpoint_of(event, socket)
        if not endpoint:
            return
        writes, reads = words[1] in ("SHUT_WR", "SHUT_RDWR"), words[1] in ("SHUT_RD", "SHUT_RDWR")
        if endpoint.role == "listener":
            self.shut_listener(event, endpoint, reads)
        elif event.error == "ENOTCONN":
            self.notes.leave_out("shutdowns of connections that have ended", event.place)
        elif writes and event.result == 0:
            endpoint.shut = True
            self.trace.add(event, endpoint, "shut", (), ("ok",))
        elif writes and (answer := self.trace.failed(event, endpoint)):
            self.trace.add(event, endpoint, "shut", (), answer)
        if reads and endpoint.role != "listener":
            socket.reading_shut = True
            if not writes:
                self.notes.leave_out("shutdowns of reading, which the model doesn't have", event.place)

    def shut_listener(self, event, endpoint, reads):
        """On Linux, shutting down a listener's reading stops it from listening; shutting down its writing changes
        nothing."""
        if reads and event.result == 0:
            self.notes.change("shutdowns of a listener, written as its close", event.place)
            self.trace.add(event, endpoint, "close", (), ("ok",))
            endpoint.gone = True
        else:
            self.notes.leave_out("shutdowns of a listener that change nothing", event.place)

    def close_at_once(self, event, sockets):
        """Closes the sockets of an exit or a call. The log doesn't show when each is closed, so each gets a thread of
        its own and may be closed at any moment of the event."""
        for number, socket in enumerate(sockets):
            self.close(event, (event.process, "closes", number), socket)

    def ended(self, event, sockets):
        """Closes the sockets of a process that has ended."""
        endpoints = [socket.endpoint for socket in sockets
                     if socket.endpoint and not socket.endpoint.gone and not socket.endpoint.shared]
        self.end_calls(event, endpoints)
        self.close_at_once(event, sockets)

    def end_calls(self, event, endpoints):
        """Ends the last calls of a process that was killed. The log has no line between them and its end, but the first
        FIN or reset that the kernel then sends shows how early they had ended."""
        moments = [left for endpoint in endpoints
                   if endpoint.connection and not endpoint.fault and (left := self.claims.left(endpoint, event.begin))]
        last = min(moments, default=0) - BEFORE
        own = set(map(id, endpoints))
        # Other processes may use a listener that returned one of the sockets.
        with_calls = {id(each): each for endpoint in endpoints for each in (endpoint, endpoint.listener)
                      if each}.values()

        def is_own(action):
            return id(action.endpoint) in own or (action.answer and id(action.answer[-1]) in own)
        if not moments or any(action.begin >= last for each in with_calls for action in each.actions if is_own(action)):
            return
        for each in with_calls:
            each.actions[:] = [action._replace(end=min(action.end, last)) if action.end is not None and is_own(action)
                               else action for action in each.actions]
        for endpoint in endpoints:
            endpoint.begun = min(endpoint.begun, last)

    def close(self, event, thread, socket):
        """Closes the socket whose last descriptor was closed. Does nothing for None."""
        endpoint = socket and socket.endpoint
        if endpoint is None or endpoint.gone:
            return
        if endpoint.shared:
            endpoint.shared -= 1
            return
        endpoint.gone = True
        verb = "abort" if socket.aborts and endpoint.role != "listener" else "close"
        begin = event.begin if thread == event.process else max(event.begin, endpoint.begun, endpoint.last_end)
        self.trace.add(event, endpoint, verb, (), ("ok",), begin=begin, thread=thread)
