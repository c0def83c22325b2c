"""What a level refused, in packets and times of the captures instead of lines and times of the trace."""
import re
from dataclasses import dataclass

from ..capture.segments import WRAP
from .wireshark import Place, named, seconds, timed

# How a sentence of `judge` begins: it's about a line of the trace, or about what is missing at the end.
BEGIN = re.compile(r"line (\d+)|after the last step")
# How it ends if a duty is late: since when it's owed, by when it was due, also with the slack, and when it was late.
LATE = re.compile(r"; (?:owed since (\d+), due by|due at) (\d+), with the slack by (\d+), and late at (\d+)$")
# A position is the relative sequence number that Wireshark shows, but doesn't wrap.
POSITION = re.compile(r" begins at position (\d+), (but only) positions (below) (\d+)|"
                      r" begins at position (\d+), (and everything) (below) (\d+)")


@dataclass
class Owed:
    """A duty that is late: the packet that began it, or after which it began; since when it was owed, by when it was
    due, also with the slack, and when it was late. Times are those of that packet's capture, in nanoseconds."""
    place: Place
    begun_there: bool
    since: int
    due: int
    latest: int
    late: int

    def words(self, captures, missing):
        """The duty as the end of a sentence. It may be missing at the end, or late."""
        begun = timed(self.place, captures)
        if not self.begun_there:
            begun = f"{seconds(self.since)}, after {named(self.place, captures)}"
        due = f"due at once after {begun}" if self.since == self.due and self.begun_there else \
            f"due at {begun}" if self.since == self.due else f"owed since {begun}, due by {seconds(self.due)}"
        late = f"still missing at the end, {seconds(self.late)}" if missing else f"late at {seconds(self.late)}"
        return f"; {due}, with the slack by {seconds(self.latest)}, and {late}"


@dataclass
class Refusal:
    """What a level refused: its rule; its sentence, as the packet that this names and the rest; whether that packet is
    the refused one, not one before or after what was refused; and the late duty, if it's about one."""
    level: str
    rule: str
    subject: str
    reason: str
    place: Place
    is_refused: bool
    owed: Owed | None

    @property
    def sentence(self):
        """The sentence, without a full stop."""
        return self.subject + self.reason


def refusals_of(levels, captured, captures):
    """What each level refused, in the order of the members that `judge --json` has for them; None for a yes. `captures`
    is how many there are."""
    return [refusal_of(level, captured, captures) if level["answer"] == "no" else None for level in levels]


def refusal_of(level, captured, captures):
    """What a level refused."""
    said = level["sentence"].removesuffix(".")
    begin = BEGIN.match(said)
    rest, line = (said[begin.end():], begin[1]) if begin else (f": {said}", None)
    packet, before, after = subject(level.get("input_line") or line, rest, captured.trace)
    if before and not rest.startswith(":"):
        rest = f": a segment{rest}"
    place, owed = captured.place(packet), owed_in(rest, captured)
    words = POSITION.sub(in_numbers, LATE.sub("", rest))
    if owed:
        words += owed.words(captures, line is None)
    return Refusal(level["level"], level["rule"], f"{before}{timed(place, captures)}{after}", words, place,
                   not before, owed)


def subject(number, rest, trace):
    """The packet for the line with this number, or for the end, and the words before and after it. A sentence says what
    a line does (then the line shows a segment that was sent, or comes just before it), or after a colon what is wrong
    at it. A line of a call or a timeout has no packet; the next one is named."""
    if number is not None:
        number = int(number)
        exact = trace.packet(number) if rest.startswith(":") else trace.packet_from(number, "O")
        if exact:
            return exact, "", ""
        if following := trace.packet_from(number):
            return following, "before ", ""
    return trace.packet_until()[0], "after ", ", the last one"


def owed_in(rest, captured):
    """The duty that a sentence says is late; None if it's about none."""
    late = LATE.search(rest)
    if not late:
        return None
    since, *times = (int(time) for time in (late[1] or late[2], late[2], late[3], late[4]))
    packet, begun_there = captured.trace.packet_until(since)
    if packet is None:
        packet = captured.trace.packet_from(0)
    place = captured.place(packet)
    since, due, latest, at = (captured.time(time, place.capture) for time in (since, *times))
    return Owed(place, begun_there, since, due, latest, at)


def in_numbers(found):
    """A position in a sentence as a relative sequence number."""
    begins, kind, below, bound = (word for word in found.groups() if word)
    kind = f"{kind} those" if kind == "but only" else kind
    return f" begins at sequence number {int(begins) % WRAP}, {kind} {below} {int(bound) % WRAP}"
