"""Where a capture was made, as its packets show: at one of a connection's hosts, or between them.

The first of these that shows something decides:

- the capture marks the packets that its host sent
- only one end's checksums are wrong: its network card finishes them after the capture
- one end's TTL is one with which hosts begin, and the other's is less: no router is before the first one's host; if
  both are less, or if that host doesn't answer the handshake within a millisecond, the capture was made between them
- one end answers the handshake within a millisecond, and at least three times as fast as it is answered; if neither
  does, or if it's the end that TTLs don't show, the capture was made between them

Without a handshake, the quickest acknowledgments tell whether it was made at the host that TTLs show.

A capture has one place, so each connection votes for or against its addresses, by what it shows.
"""
from collections import Counter
from ipaddress import ip_address
from typing import Any, NamedTuple

# The TTLs with which hosts begin.
INITIAL = (64, 128, 255)
# How much faster the captured host answers, and within how many nanoseconds.
FACTOR, SOON = 3, 10**6
BETWEEN = "between"
# Signs of a captured host.
MARKS = "the capture marks its packets as sent"
UNFINISHED = "its checksums are unfinished"
AT_ONCE = "it answers at once"
# Signs of a place between the hosts.
FORWARDED = "its host forwards packets"
DISTANT = "the TTLs of both hosts show routers before it"
CONTRARY = "TTLs and times show different hosts"
LATE = "the host that TTLs show doesn't answer at once"
SLOW = "neither host answers much sooner than the other"
NEITHER = "its packets show neither host, or both"
# Signs that only a capture at the host itself has; a capture near it may have the others.
CLOSE = {MARKS, UNFINISHED, AT_ONCE}
# How much a sign counts.
CERTAIN, STRONG, MEDIUM, WEAK = 10**6, 1000, 10, 1


# Of how many addresses votes are kept, before those against them are forgotten.
MOST = 10_000
# How many addresses a line names.
SHOWN = 3


class Found(NamedTuple):
    """What a connection shows: the captured end, or BETWEEN; the weight of its vote, and the reasons."""
    place: Any
    weight: int
    reasons: tuple


def is_loopback(connection):
    """Whether a connection's addresses show that both its hosts are one."""
    ends = connection.client, connection.server
    return connection.client[0] == connection.server[0] or all(ip_address(end[0]).is_loopback for end in ends)


def found_in(connection, capture):
    """What the packets of a connection show; None if nothing."""
    signs, own = connection.signs, connection.own.get(capture, ())
    if len(own) == 1:
        return Found(next(iter(own)), CERTAIN, (MARKS,))
    if own:
        return Found(BETWEEN, STRONG, (FORWARDED,)) if is_forwarded(signs) else None
    for end, sender, other in ((connection.client, signs.client, signs.server),
                               (connection.server, signs.server, signs.client)):
        if is_unfinished(sender, other):
            return Found(end, STRONG, (UNFINISHED, *by_lifetime(sender, other)))
    return by_distance(connection, signs)


def by_distance(connection, signs):
    """What TTLs and times show."""
    if is_far(signs.client) and is_far(signs.server):
        return Found(BETWEEN, MEDIUM, (DISTANT,))
    client, server = by_lifetime(signs.client, signs.server), by_lifetime(signs.server, signs.client)
    if signs.completed is not None:
        return by_handshake(connection, signs, client, server)
    if client:
        return by_answers(connection.client, client, signs.client, signs.server)
    return by_answers(connection.server, server, signs.server, signs.client) if server else None


def by_handshake(connection, signs, client, server):
    """What the times of a handshake show. Each end has the reasons by which TTLs show it."""
    weight = MEDIUM if client or server else WEAK
    waited, answered = signs.answered - signs.opened, signs.completed - signs.answered
    client += (AT_ONCE,) if is_fast(answered, waited) else ()
    server += (AT_ONCE,) if is_fast(waited, answered) else ()
    if client and server:
        return Found(BETWEEN, WEAK, (CONTRARY,))
    if not client and not server:
        return Found(BETWEEN, WEAK, (SLOW,))
    if (answered if client else waited) > SOON:
        return Found(BETWEEN, weight, (LATE,))
    return Found(connection.client if client else connection.server, weight, client or server)


def by_answers(end, reasons, own, other):
    """What the quickest acknowledgments of a connection without a handshake show about the end that TTLs show. A host
    may acknowledge late, and the other one be near. So they don't show an end without TTLs."""
    if is_soon(own.quickest):
        return Found(end, MEDIUM, (*reasons, AT_ONCE))
    if own.quickest is not None and is_soon(other.quickest):
        return Found(BETWEEN, WEAK, (CONTRARY,))
    return Found(end, MEDIUM, reasons)


def is_soon(time):
    """Whether an answer came at once, if one came at all."""
    return time is not None and time <= SOON


def is_forwarded(signs):
    """Whether a capture of a router or a bridge has the packets of both ends before and after it forwards them."""
    return all(sender.least < sender.greatest or None not in (sender.arrived, sender.left) and
               sender.arrived != sender.left for sender in (signs.client, signs.server))


def is_unfinished(sender, other):
    """Whether only one end's checksums are wrong: most of its own, and none of the other's."""
    return sender.wrong * 2 > sender.checked and other.checked > 0 and not other.wrong


def is_fast(own, other):
    """Whether an end took so little time for its answer, compared with the other one, that its host was captured."""
    return own <= SOON and own * FACTOR <= other > 0


def is_far(sender):
    """Whether the TTLs of an end's packets show that routers forwarded them."""
    return 0 < sender.least <= sender.greatest and not {sender.least, sender.greatest} & set(INITIAL)


def by_lifetime(sender, other):
    """The reason if one end's TTL shows that it's near, and the other's that it's far."""
    near = sender.least == sender.greatest and sender.least in INITIAL
    return (f"its packets have TTL {sender.least}",) if near and is_far(other) else ()


class Places:
    """The place of a capture, for each of its connections. `votes` has what its connections show of each address, by
    which `decide` chooses; `reasons` has why, and `decided` how many connections have each place."""

    def __init__(self, capture):
        self.capture, self.votes, self.reasons, self.decided = capture, Counter(), {}, Counter()

    def decide(self, connections):
        """Gives each connection its place, after all of them voted: the captured end, or BETWEEN; None if nothing shows
        it."""
        for connection in connections:
            self.count(connection)
        for connection in connections:
            connection.place = place = None if is_loopback(connection) else self.of(connection)
            if place:
                self.decided[key_of(place)] += 1
                connection.is_certain = not CLOSE.isdisjoint(self.reasons.get(key_of(place), ()))
        if len(self.votes) > MOST:
            self.votes = +self.votes

    def count(self, connection):
        """A connection votes."""
        if is_loopback(connection) or not (found := found_in(connection, self.capture)):
            return
        for end in (connection.client, connection.server):
            self.votes[end[0]] += found.weight if end == found.place else -found.weight
        self.reasons.setdefault(key_of(found.place), {}).update(dict.fromkeys(found.reasons))

    def of(self, connection):
        """The place of a connection."""
        client, server = self.votes[connection.client[0]], self.votes[connection.server[0]]
        if client != server and max(client, server) > 0:
            return connection.client if client > server else connection.server
        return BETWEEN if self.reasons else None

    def lines(self):
        """What was taken, and why: a line for each kind."""
        hosts = {}
        for place, count in self.decided.items():
            reasons = listed(self.reasons.get(place, (NEITHER,)))
            if place == BETWEEN:
                connections = "1 connection" if count == 1 else f"{count} connections"
                yield f"{self.capture} counts as made between the hosts ({connections}): {reasons}"
            else:
                hosts.setdefault(reasons, []).append(str(ip_address(place)))
        for reasons, addresses in hosts.items():
            more = [f"{len(addresses) - SHOWN} more"] if len(addresses) > SHOWN else []
            verb = "counts" if len(addresses) == 1 else "count"
            yield f"{listed(addresses[:SHOWN] + more)} {verb} as the captured host: {reasons}"


def key_of(place):
    """The address of an end, or BETWEEN."""
    return place if place == BETWEEN else place[0]


def listed(words):
    """Words as a list in a sentence."""
    *first, last = words
    return f"{', '.join(first)} and {last}" if first else last
