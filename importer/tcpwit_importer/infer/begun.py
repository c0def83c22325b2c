"""Connections that began before the capture: gives them a beginning, so that the rest can be judged."""
from collections import Counter

from ..capture.clocks import bounds_of, clock_of
from ..capture.connections import USUAL_SIZE
from ..capture.segments import SHORTEST, header_length
from ..problem import Notes
from .aligned import align, settle
from .before import pause, references, round_trips
from .conversion import put_in_order
from .opening import ROUNDS, with_beginning
from .state import answer_to_syn, both_ends, seen_by

# Nanoseconds before the first captured packet, and the shortest and the longest round trip that is made up for one
# that is seen.
MARGIN, SHORT, LONG = 20 * 10**6, 10**6, 10**9
# How much shorter than wanted a timeout may be, in nanoseconds.
TOLERANCE = 10**7
# The longest time for which a SYN may be unacknowledged without being sent again, in nanoseconds.
FIRST = 3 * 10**9
# The most bytes of a segment on Ethernet, if no offload enlarged it; and of any segment.
ETHERNET, LARGEST = 1460, 65495


def beginnings(connection, captures, clock, least):
    """The connection with a beginning, and perhaps with other ones, which explain retransmissions with long pauses.
    `least` is the shortest retransmission timeout in nanoseconds. Each has the same captured packets."""
    settle(connection, captures)
    put_in_order(connection, captures, Notes())
    if len(captures) == 2:
        above, below = bounds_of([connection], captures)
        clock = clock_of(above, below) if above and below else clock
    flights = align(connection, captures, clock)
    ends = both_ends(connection, captures, flights)
    size = size_of(connection)
    for trips, before in timings(connection, captures, ends, least):
        found, wire = with_beginning(connection, captures, ends, size, trips)
        place(found, wire, captures, clock, before)
        yield found


def place(connection, wire, captures, clock, before):
    """Adds the packets that were made up, so long before the first captured one."""
    firsts = {host: connection.seen[name][0].moment for host, name in captures.items()}
    start = min(clock.at(moment) if host == 1 else moment for host, moment in firsts.items()) - before - wire.now
    for host, name in captures.items():
        def at(moment, host=host):
            moment += start
            return 2 * moment - clock.at(moment) if host == 1 else moment
        connection.seen[name] = [*wire.packets(name, at), *connection.seen[name]]


def timings(connection, captures, ends, least):
    """Round trips to make up, each time with the time between the last line that is made up and the first packet. Those
    after the first one lead to a longer timeout."""
    start = references(connection)
    own = {end: seen for end in ends if (seen := seen_by(connection, captures, end, start)) is not None}
    trips = [trip for end, seen in own.items() for trip in round_trips(seen, end)]
    usual, timeout = growing(min(LONG, max(SHORT, min(trips, default=SHORT))), least)
    closed = any(state.closed for state in ends.values())
    yield usual, 2 * timeout if closed else MARGIN
    if None in captures or answer_to_syn(connection):
        return
    for longer, since in [(max(trips, default=0), 0), *pauses(own, ends)]:
        if longer > timeout:
            found = trips_of_closed(longer) if closed else trips_for(longer, least)
            # A closed window may be probed once the timeout has passed.
            yield found, max(MARGIN, longer * (3 if closed else 1) - since)


def pauses(own, ends):
    """For each end that sent two segments that begin at one position: the timeout that permits the second, and how long
    after the first packet of its capture it sent the first."""
    for end, seen in own.items():
        if pair := pause(seen, end):
            first, second = (each.packet.moment for each in pair)
            # The pause before the second expiry is twice the one before the first.
            yield (second - first) // (2 if pair[0].first < ends[end].sent else 1), first - seen[0].packet.moment


def trips_for(timeout, least):
    """Round trips after which the retransmission timeout is at most this one, and hardly less."""
    low, high = 0, timeout
    while high - low > 10**6:
        trip = (low + high) // 2
        low, high = (trip, high) if growing(trip, least)[1] <= timeout else (low, trip)
    return growing(low, least)[0]


def trips_of_closed(timeout):
    """The same if a window is closed: the other end then measures only the handshake, and one round trip more."""
    return [min((timeout - TOLERANCE) * 2 // 5, FIRST * 9 // 10)] * (ROUNDS + 1)


def growing(trip, least):
    """Round trips that reach this one, and the timeout after them (RFC 6298, 2). Each is shorter than the timeout
    before it."""
    found, mean, spread, timeout = [], None, 0, FIRST
    for _ in range(ROUNDS + 1):
        each = min(trip, timeout * 9 // 10)
        found.append(each)
        spread = each // 2 if mean is None else (3 * spread + abs(mean - each)) // 4
        mean = each if mean is None else (7 * mean + each) // 8
        timeout = max(least, mean + 4 * spread)
    return found, timeout


def size_of(connection):
    """The maximum segment size that explains the segments: that of the largest. If an offload may have enlarged that,
    it's the size on Ethernet of which most of them are multiples. A SYN that a capture has counts, too."""
    sizes = Counter(packet.size for packet in connection.packets() if packet.size)
    given = max((header_length(packet.segment) - SHORTEST for packet in connection.packets() if packet.size), default=0)
    largest = max(sizes, default=0)
    if largest + given > ETHERNET:
        large = [size for size in sizes if size + given > ETHERNET]
        fitting = [size for size in sizes if USUAL_SIZE <= size + given <= ETHERNET and
                   2 * sum(not each % size for each in large) > len(large)]
        largest = max(fitting, default=largest)
    found = min(LARGEST, max(USUAL_SIZE, largest + given))
    answer = answer_to_syn(connection)
    return found if answer is None else min(found, connection.sizes[answer.source] or USUAL_SIZE)
