"""Which packets of the captures form each connection.

The captures are read once to find the connections, of which only the places of their packets are kept. So the memory
for a connection's bytes is needed only while it's judged.
"""
import contextlib
import gzip
import os
import shutil
import tempfile
from array import array

from ..files import opened
from ..objects import without_collection
from ..problem import Problem
from ..progress import Part
from .blocks import Blocks
from .connections import Connection, Table
from .frames import Layout
from .packets import packets_of
from .segments import FIN, RST, SYN
from .signs import CHECKED, Signs
from .usual import bytes_of, ends_of, packet_of, packets_again, reader_of, segment_at

READABLE = "name a capture that can be read"
# How many SYNs of each capture are kept, to compare the captures' clocks.
SYNS = 4


class Indexed(Connection):
    """A connection without its packets. For each capture, `places` has their offsets and counts in the file, `syns` the
    moments of its first SYNs, and `own` the ends whose packets the capture marked as sent, or to which it marked
    packets as received. `others` counts packets that are neither SYN nor reset. `senders` has the ends that sent
    something, `ends` those that sent a FIN; it's None after a reset. `signs` shows where the capture was made, if it's
    the only one, and `place` has what was decided about that; it isn't certain if the capture may have been made near
    that host."""

    def __init__(self, client, server, begun):
        super().__init__(client, server, begun)
        self.places, self.syns, self.own = {}, {}, {}
        self.fragmented, self.others, self.ends, self.senders = False, 0, (), ()
        self.signs, self.place, self.is_certain = Signs(), None, True

    def add(self, capture, packet):
        """Adds the next packet of a capture."""
        if capture not in self.places:
            self.places[capture] = array("Q"), array("Q")
        offsets, counts = self.places[capture]
        offsets.append(packet.offset)
        counts.append(packet.count)
        source, target = self.ends_of(packet)
        self.signs.add(packet, source is self.client)
        self.senders = with_end(self.senders, source)
        self.others += not packet.flags & (SYN | RST)
        if packet.flags & RST:
            self.ends = None
        elif packet.flags & FIN and self.ends is not None:
            self.ends = with_end(self.ends, source)
        if packet.outgoing is not None:
            self.own.setdefault(capture, set()).add(source if packet.outgoing else target)
        if packet.flags & SYN:
            self.initial.setdefault(source, packet.number)
            syns = self.syns.setdefault(capture, {})
            if len(syns) < SYNS:
                syns.setdefault((source, packet.segment[:16]), packet.moment)

    def join(self, other):
        """Adds what the other capture has of it."""
        self.whole = self.whole and other.whole
        for own, more in ((self.places, other.places), (self.syns, other.syns), (self.own, other.own)):
            own.update(more)
        self.add_senders(other)

    def continue_with(self, other):
        """Adds packets that follow in the same captures."""
        for capture, (offsets, counts) in other.places.items():
            mine = self.places.setdefault(capture, (array("Q"), array("Q")))
            mine[0].extend(offsets)
            mine[1].extend(counts)
        self.add_senders(other)

    def add_senders(self, other):
        """Adds the senders of what is added."""
        for source in other.senders:
            self.senders = with_end(self.senders, source)

    @property
    def count(self):
        """How many packets it has."""
        return sum(len(offsets) for offsets, _ in self.places.values())

    def read(self, files, layouts):
        """The connection with its packets."""
        connection = Connection(self.client, self.server, self.begun)
        for capture, places in self.places.items():
            with open(files[capture], "rb", buffering=0) as file:
                for packet in packets_again(capture, file, layouts[capture], *places):
                    connection.add(capture, packet)
        return connection


def with_end(ends, end):
    """Some of a connection's ends, with another one. Unlike a set, a tuple needs little memory."""
    return ends if end in ends else (*ends, end)


class Capture:
    """A capture, and what reading it showed: `last` is the moment of its last packet. `file` has its packets
    uncompressed."""

    def __init__(self, name, file):
        self.name, self.file, self.layout, self.last = name, file, Layout(), 0

    def add_to(self, table, notes):
        """Adds its packets to connections."""
        table.begin(self.name)
        with opened(self.file, READABLE) as file:
            blocks, index = Blocks(file), Index(self, table)
            for packet in packets_of(self.name, blocks, notes, self.layout, lenient=True):
                index.add(packet)
                index.add_usual(blocks)


class Direction:
    """A direction of a connection: its sender, and the functions that add a packet's offset and its count."""
    __slots__ = ("connection", "sender", "add_offset", "add_count")

    def __init__(self, connection, capture, is_client):
        self.connection = connection
        self.sender = connection.signs.client if is_client else connection.signs.server
        offsets, counts = connection.places[capture]
        self.add_offset, self.add_count = offsets.append, counts.append


class Index:
    """Adds the packets of a capture to connections. Most packets are plain: they show nothing new, and only need a
    place. `known` has the directions that may have plain packets by the bytes of their ends, for each mark."""

    def __init__(self, capture, table):
        self.capture, self.table = capture, table
        self.known = {None: {}, False: {}, True: {}}

    def add(self, packet):
        """Adds a packet. Others like it may be plain, except until a handshake's end, while answers are timed, and at
        the connection's end."""
        connection = self.table.add(packet)
        self.capture.last = max(self.capture.last, packet.moment)
        key = bytes_of(packet.source, packet.target)
        signs = connection.signs
        if packet.flags & (SYN | FIN | RST) or signs.is_answered or signs.are_timed:
            back = bytes_of(packet.target, packet.source)
            for directions in filter(None, self.known.values()):
                directions.pop(key, None)
                directions.pop(back, None)
        elif key not in self.known[packet.outgoing]:
            direction = Direction(connection, self.capture.name, packet.source == connection.client)
            self.known[packet.outgoing][key] = direction

    def add_usual(self, blocks):
        """Adds the usual packets that follow, up to the first that isn't usual."""
        layout, known, goes_on = self.capture.layout, self.known, True
        read = reader_of(layout.sections[-1])
        while goes_on:
            block, at = blocks.block, blocks.at
            while record := read(block, at):
                following, begin, end, moment, link, _ = record
                if not (usual := segment_at(block, begin, end, link)):
                    break
                ends, _, _, size, flags, _, lifetime, _, sent = usual
                layout.frames += 1
                direction = known[sent].get(ends)
                if direction and not flags & (SYN | FIN | RST) and shows_nothing(direction.sender, lifetime, size):
                    direction.add_offset(blocks.start + at)
                    direction.add_count(layout.frames)
                    direction.connection.others += 1
                    if moment > self.capture.last:
                        self.capture.last = moment
                else:
                    self.add(packet_of(self.capture.name, block, record, usual, ends_of(ends), blocks.start + at,
                                       layout.frames))
                at = following
            blocks.at = at
            goes_on = record is None and blocks.fill()


def shows_nothing(sender, lifetime, size):
    """Whether a packet shows nothing new of its sender."""
    return sender.least <= lifetime <= sender.greatest and (size or sender.checked >= CHECKED)


@without_collection
def indexed(captures, notes):
    """The connections of all captures, in the order in which they begin."""
    table = Table(Indexed)
    for capture in captures:
        capture.add_to(table, notes)
    connections = without_strays(table.connections())
    return with_both_parts(connections) if len(captures) == 2 else connections


def without_strays(connections):
    """A SYN with another number may come during a connection, such as an old or a forged one. If no SYN answers it, but
    other segments follow, these belong to the connection that went on."""
    kept, last = [], {}
    for connection in connections:
        pair = frozenset((connection.client, connection.server))
        before = last.get(pair)
        goes_on = before and before.ends is not None and len(before.ends) < 2
        if goes_on and connection.whole and len(connection.initial) == 1 and connection.others:
            before.continue_with(connection)
        else:
            kept.append(connection)
            last[pair] = connection
    return kept


def with_both_parts(connections):
    """Joins the parts of connections that begin differently in two captures. In a simultaneous open, each capture shows
    its own host's SYN first. If only one of them has a connection's beginning, or none, it counts as one without its
    beginning."""
    alone = [each for each in connections if each.whole and len(each.places) == 1]
    halves = {frozenset((each.client, each.server)): each for each in alone}
    kept, opened_twice, begun = [], {}, {}
    for connection in connections:
        pair = frozenset((connection.client, connection.server))
        half = None if connection.whole else halves.get(pair) or begun.setdefault(pair, connection)
        if connection.whole and len(connection.places) == 1 and len(connection.initial) == 2:
            half = opened_twice.setdefault(frozenset(connection.initial.items()), connection)
        if half and not half.places.keys() & connection.places.keys():
            half.join(connection)
        else:
            kept.append(connection)
    return kept


@contextlib.contextmanager
def plain(name):
    """The name of a file with the same bytes that can be read in any order: of a pipe or a compressed file, it's a
    copy."""
    with contextlib.ExitStack() as stack:
        with opened(name, READABLE) as file:
            if not os.path.isfile(name) or isinstance(file, gzip.GzipFile):
                copy = stack.enter_context(tempfile.NamedTemporaryFile(prefix="tcpwit-judge-"))
                try:
                    with Part(f"copying {name}"):
                        shutil.copyfileobj(file, copy)
                    copy.flush()
                except OSError as error:
                    raise Problem(f"{tempfile.gettempdir()}: {error.strerror}",
                                  "free some space there, or set TMPDIR") from error
                name = copy.name
        yield name
