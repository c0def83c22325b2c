"""The figures of both ends of a connection."""
from collections import Counter
from dataclasses import dataclass, field
from statistics import median
from typing import NamedTuple

from ..capture.copies import without_copies
from ..problem import Notes
from ..trace.lines import seen_once
from .analysis import Analysis
from .sender import CAUSES


class Trips(NamedTuple):
    """Round trips: how many, and in nanoseconds the least, the median and the greatest."""
    count: int
    least: int
    median: int
    greatest: int


@dataclass
class Figures:
    """What one capture shows of an end. `first` and `last` are the times of the connection's first and last packet
    there, in nanoseconds since the capture's first. `bytes` counts payload, `repeated` of it what was sent before.
    `trips` is None without any; `kinds` counts segments by what they are."""
    capture: str
    first: int
    last: int
    packets: int
    bytes: int
    repeated: int
    trips: Trips | None
    kinds: Counter = field(default_factory=Counter)

    @property
    def retransmissions(self):
        """How many segments were sent again for each cause."""
        return {cause: self.kinds[cause] for cause in CAUSES}


def figures_of(connection, captures, own, begin):
    """The figures of the client and of the server, each as its capture has them: `captures` has that of each end, as
    far as it's known. `own` has the ends of each capture's host, and `begin` the moment of its first packet."""
    known = {}
    ends = connection.client, connection.server
    for end in ends:
        name = captures.get(end)
        if not connection.seen.get(name):
            name = next(iter(connection.seen))
        if name not in known:
            known[name] = counted_in(name, connection, own.get(name, ()), begin[name])
        yield known[name][ends.index(end)]


def counted_in(name, connection, own, begin):
    """The figures of both ends in one capture."""
    packets = seen_once(without_copies(connection.seen[name], Notes()), own)
    analysis, kinds = Analysis(connection.client), {connection.client: Counter(), connection.server: Counter()}
    for packet in packets:
        for kind in analysis.add(packet):
            kinds[packet.source][kind] += 1
    first, last = (choose(packet.captured for packet in packets) - begin for choose in (min, max))
    return [Figures(name, first, last, sender.packets, sender.bytes, sender.repeated, trips_of(sender.trips), found)
            for sender, found in zip(analysis.senders, kinds.values())]


def trips_of(times):
    """Round trips, of their times."""
    return Trips(len(times), min(times), int(median(times)), max(times)) if times else None
