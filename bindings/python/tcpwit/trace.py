"""Writes traces of version 5 or 6."""
from __future__ import annotations

from types import TracebackType

# The thread of the call that ends a recording.
LAST_THREAD = 2**32 - 1


class Call:
    """A call of a thread, which begins with `with` and ends with its block.

    Inside the block, say how it ends: `ok()`, `number(n)`, `data(b)`, `state(s)` or `answer(word)`; if nothing is said,
    it ends with `ok`. If the block raises an exception, the call has no end. By default, it ends at the moment of the
    last line.
    """

    def __init__(self, trace: Trace, moment: int, thread: int, words: str) -> None:
        self._trace = trace
        self._moment = moment
        self._thread = thread
        self._words = words
        self._answer = "ok"
        self._end: int | None = None

    def __enter__(self) -> Call:
        self._trace._event(self._moment, self._thread, f"B {self._words}")
        return self

    def __exit__(self, kind: type[BaseException] | None, error: BaseException | None,
                 trace: TracebackType | None) -> None:
        if kind is None:
            moment = self._trace.moment if self._end is None else self._end
            self._trace._event(moment, self._thread, f"E {self._answer}")

    def answer(self, word: str, moment: int | None = None) -> None:
        """The answer, as a word of the format: `again`, `eof`, `closed`, `reset` and so on; and the moment of the
        end."""
        self._answer, self._end = word, moment

    def ok(self, moment: int | None = None) -> None:
        """The call succeeded."""
        self.answer("ok", moment)

    def number(self, number: int, moment: int | None = None) -> None:
        """A socket number (listen, open, accept), or how many bytes a send accepted."""
        self.answer(f"ok {number}", moment)

    def data(self, data: bytes, moment: int | None = None) -> None:
        """The bytes that a recv returned."""
        self.answer(f"data {data.hex()}", moment)

    def state(self, name: str, moment: int | None = None) -> None:
        """The state that a status returned, by its name in RFC 9293, 3.3.2."""
        self.answer(f"state {name}", moment)


class Trace:
    """A trace: in version 5 at the level `full`, and at the others in version 6, which reads SACK blocks and has no
    `full`; or in the version that you choose, of these two. Moments are microseconds on one clock; a moment that goes
    back is written as the one before.

    Threads are numbers: one for each calling thread, and others for segments received, segments sent and timers of each
    host. The lines of one thread keep their order.

    >>> trace = Trace(hosts=1, slack=20_000)
    >>> with trace.listen(10, thread=1, host=0, port=80, backlog=4) as call:
    ...     call.number(5, moment=11)
    >>> trace.came(20, thread=2, host=0, segment=bytes.fromhex("0fa00050fffffffe000000005002ffff00000000"))
    >>> trace.finish(30)
    >>> print(trace.text().decode().splitlines()[-1])
    30 4294967295 E badsocket
    """

    def __init__(self, *, hosts: int = 2, congestion: str = "full", slack: int | None = 1_000_000, skew: int = 0,
                 msl: int = 120_000_000, grain: int = 1_000, minrto: int = 1_000_000, extra: int = 0,
                 initial: int = 5681, version: int | None = None) -> None:
        self.moment = 0
        if version is None:
            version = 5 if congestion == "full" else 6
        self._lines = [f"trace {version}", f"skew {skew}", f"msl {msl}", f"grain {grain}", f"minrto {minrto}",
                       f"extra {extra}", f"initial {initial}", f"hosts {hosts}", f"congestion {congestion}",
                       f"slack {'any' if slack is None else slack}"]
        if version == 6:
            # These have no effect below the level `full`.
            self._lines += ["sender cubic", "growth any"]

    def _event(self, moment: int, thread: int, words: str) -> None:
        """Writes an event line."""
        self.moment = max(self.moment, moment)
        self._lines.append(f"{self.moment} {thread} {words}")

    def text(self) -> bytes:
        """The text of the trace so far."""
        return "".join(line + "\n" for line in self._lines).encode()

    def listen(self, moment: int, thread: int, host: int, port: int, backlog: int) -> Call:
        """A listen; it ends with the listener's number."""
        return Call(self, moment, thread, f"listen {host} {port} {backlog}")

    def open(self, moment: int, thread: int, host: int, local: int, remote: int) -> Call:
        """A connect. It ends at once with the socket's number; `wait` says whether the connection is established."""
        return Call(self, moment, thread, f"open {host} {local} {remote}")

    def wait(self, moment: int, thread: int, socket: int) -> Call:
        """Waits for a connection: the call `await` of the format."""
        return Call(self, moment, thread, f"await {socket}")

    def accept(self, moment: int, thread: int, listener: int) -> Call:
        """An accept; it ends with the new socket's number."""
        return Call(self, moment, thread, f"accept {listener}")

    def send(self, moment: int, thread: int, socket: int, data: bytes) -> Call:
        """A send of 1 to 65,535 bytes; it ends with the number of accepted bytes."""
        return Call(self, moment, thread, f"send {socket} {data.hex()}")

    def recv(self, moment: int, thread: int, socket: int, most: int) -> Call:
        """A recv of at most so many bytes; it ends with data, or with `eof`."""
        return Call(self, moment, thread, f"recv {socket} {most}")

    def shut(self, moment: int, thread: int, socket: int) -> Call:
        """Shuts down sending."""
        return Call(self, moment, thread, f"shut {socket}")

    def close(self, moment: int, thread: int, socket: int) -> Call:
        """A close."""
        return Call(self, moment, thread, f"close {socket}")

    def abort(self, moment: int, thread: int, socket: int) -> Call:
        """Aborts the connection with a reset."""
        return Call(self, moment, thread, f"abort {socket}")

    def status(self, moment: int, thread: int, socket: int) -> Call:
        """A status; it ends with the name of the state."""
        return Call(self, moment, thread, f"status {socket}")

    def out(self, moment: int, thread: int, host: int, segment: bytes) -> None:
        """A segment is sent: its bytes from the first of the TCP header to the last of the payload."""
        self._event(moment, thread, f"O {host} {segment.hex()}")

    def came(self, moment: int, thread: int, host: int, segment: bytes) -> None:
        """A segment arrived."""
        self._event(moment, thread, f"I {host} {segment.hex()}")

    def expired(self, moment: int, thread: int, host: int, local: int, remote: int, timer: str) -> None:
        """A timer expired: `rto`, `persist`, `2msl` or `giveup`; in version 6, also `pto` (RFC 8985, 7)."""
        self._event(moment, thread, f"T {host} {local} {remote} {timer}")

    def finish(self, moment: int) -> None:
        """The recording stops. A call that changes nothing shows how long it lasted, without which nothing is late
        after the last event."""
        with self.status(moment, LAST_THREAD, 0) as call:
            call.answer("badsocket")
