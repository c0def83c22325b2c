"""Why retransmissions were permitted, as the witness of a case says (docs/reference/formats.md, section 6)."""
from array import array
from dataclasses import dataclass
from itertools import count
from typing import Any

from ..capture.segments import window
from ..infer.opening import is_made_up
from ..trace import header as headers
from .wireshark import named, seconds

# The search adds lines of timeouts to a trace, which has only those of hosts that give up.
OWN = "giveup"
ADDED = -1
RTO, PERSIST, RECOVERY, OPENED, ANSWER, FIN = "rto", "persist", "recovery", "opened", "answer", "fin"
# What permits a retransmission, with a time or a packet.
REASONS = {
    RTO: "the retransmission timer expired at {} (RFC 6298, 5.4)",
    PERSIST: "the window is closed, and the persist timer expired at {} (RFC 9293, 3.8.6.1)",
    RECOVERY: "three duplicate acknowledgments came, the last one in {} (RFC 5681, 3.2)",
    OPENED: "the closed window opened, in {} (RFC 9293, 3.8.6.1)",
    ANSWER: "a SYN is answered again (RFC 9293, 3.10.7.4)",
}
# What else permits one in version 6.
WITH_SACK = {
    RECOVERY: "three duplicate acknowledgments or SACK blocks showed a loss, the last ones in {} (RFC 5681, 3.2; RFC "
              "6675, 5)",
    FIN: "a FIN without data may be sent again at any time (RFC 9293, 3.10.4)",
}
BEFORE = "this retransmission may have been permitted before the capture began"
UNJUDGED = "this is a retransmission; at level none, it isn't judged whether it's permitted"


@dataclass
class Endpoint:
    """An end of the connection while the steps are read: the position after the last that it sent; what permits that
    it retransmits, and the time of that or its packet; the last packet that arrived; and whether the peer's window is
    closed, and a probe is due."""
    sent: int = 0
    cause: Any = None
    arrived: Any = None
    is_closed: bool = False
    is_probing: bool = False


class Witness:
    """Reads a case of a trace, which is an iterator of lines, up to the refused line of the witness, if there is one.
    `reasons` has in words what permitted each retransmission, by its capture and number."""

    def __init__(self, case, trace, captured, captures, refused=0):
        self.trace, self.captured, self.captures = trace, captured, captures
        self.endpoints, self.built, self.reasons = {}, {}, {}
        # `built` has what permitted each built segment, by its number, if it's a retransmission; `causes` the same of
        # lines. The other two have the place of each event line in the trace, or ADDED, and the words of timeouts.
        self.places, self.timeouts, self.causes = array("q"), {}, {}
        self.read_trace(case)
        # Line 1 names the version.
        for number, line in enumerate(case, 2):
            if number == refused:
                break
            self.step(*line.split()[1:])

    def read_trace(self, case):
        """Reads the header and the events."""
        self.first = len(self.trace.head) + 1
        head = dict(next(case).split() for _ in self.trace.head)
        self.level = head.get("congestion", headers.FULL)
        self.has_sack = head.get("trace") == str(headers.WITH_SACK)
        places = count()
        for number, line in enumerate(case, self.first):
            if line.startswith("witness "):
                return
            words = line.split(" ", 3)
            if words[2] == "T" and not line.rstrip().endswith(OWN):
                self.timeouts[number] = int(words[0]), *words[3].split()
                self.places.append(ADDED)
            else:
                self.places.append(next(places))

    def step(self, letter, *fields):
        """Reads a step after its time: a letter and fields."""
        if letter == "L":
            self.line(int(fields[0]), fields[1:])
        elif letter == "M":
            self.builds(fields)
        elif letter == "R":
            self.built[len(self.built) + 1] = None
        elif letter == "T":
            self.arrives(fields[0], int(fields[1]))
        elif letter == "F":
            endpoint = self.endpoint(fields[:3])
            endpoint.cause = RECOVERY, endpoint.arrived

    def endpoint(self, words):
        """The endpoint with these words: its host, its port and the peer's."""
        return self.endpoints.setdefault(tuple(words), Endpoint())

    def packet(self, number):
        """The packet of a line of the case, and the letter of the line; None if it has no packet."""
        at, writer = number - self.first, self.trace.writer
        place = self.places[at] if 0 <= at < len(self.places) else ADDED
        if not 0 <= place < len(writer.packets):
            return None, ""
        return writer.packets[place], chr(writer.letters[place])

    def line(self, number, extra):
        """A line is used: a timeout, or a segment that was sent or received."""
        if number in self.timeouts:
            time, *words, kind = self.timeouts[number]
            if kind in (RTO, PERSIST):
                endpoint = self.endpoint(words)
                endpoint.cause, endpoint.is_probing = (kind, time), kind == PERSIST
            return
        packet, letter = self.packet(number)
        if packet is None or not extra:
            return
        # A segment that was sent has the number of a built one; one that was received, that of its line as sent. A
        # refused step may have any number.
        cause = (self.built if letter == "O" else self.causes).get(int(extra[0]))
        if cause:
            self.causes[number] = cause
        if cause and not is_made_up(packet):
            self.reasons.setdefault((packet.capture, packet.count), self.words(cause, packet.capture))

    def builds(self, fields):
        """A segment is built, which may be a retransmission or a probe."""
        endpoint, flags = self.endpoint(fields[:3]), fields[5]
        start = int(fields[3])
        end = start + int(fields[4]) + ("S" in flags) + ("F" in flags)
        repeats = "R" not in flags and start < min(end, endpoint.sent)
        cause = endpoint.cause if repeats or (endpoint.is_probing and start < end) else None
        if repeats and not cause and "S" in flags:
            cause = ANSWER, None
        if repeats and self.has_sack and not endpoint.is_probing:
            if self.level == headers.NONE:
                # The witness doesn't have a cause.
                cause = RECOVERY, None
            elif "F" in flags and fields[4] == "0":
                cause = FIN, None
        self.built[len(self.built) + 1] = cause
        endpoint.sent, endpoint.is_probing = max(endpoint.sent, end), False

    def arrives(self, host, number):
        """A segment is processed: it may open a closed window."""
        packet, _ = self.packet(number)
        if packet is not None:
            endpoint = self.endpoint((host, str(packet.target[1]), str(packet.source[1])))
            was_closed, endpoint.is_closed = endpoint.is_closed, window(packet.segment) == 0
            endpoint.arrived = packet
            if was_closed and not endpoint.is_closed:
                endpoint.cause = OPENED, packet

    def words(self, cause, capture):
        """What permitted a retransmission in this capture."""
        kind, since = cause
        if kind == RECOVERY and self.level == headers.NONE:
            return UNJUDGED
        if is_made_up(since):
            return BEFORE
        if kind in (RTO, PERSIST):
            when = seconds(self.captured.time(since, capture))
        else:
            when = since and named(self.captured.place(since), self.captures)
        what = "probe" if kind == PERSIST else "retransmission"
        reasons = REASONS | WITH_SACK if self.has_sack else REASONS
        return f"this {what} is permitted at level {self.level}: {reasons[kind].format(when)}"
