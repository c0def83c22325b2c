"""Compares the figures of all test captures with what tshark shows, packet by packet. Where they differ, one of the
reasons in docs/how-to/captures.md must be seen in what tshark reads."""
import os
import shutil
import subprocess
import tarfile
import tempfile
import unittest
from collections import Counter
from dataclasses import dataclass, field

from tcpwit_importer.capture.connections import connections_of
from tcpwit_importer.capture.copies import without_copies
from tcpwit_importer.capture.frames import Layout, frames_of
from tcpwit_importer.capture.packets import packets_of
from tcpwit_importer.capture.segments import ACK, FIN, RST, SYN, WRAP
from tcpwit_importer.figures.analysis import Analysis
from tcpwit_importer.figures.figures import counted_in
from tcpwit_importer.files import opened
from tcpwit_importer.problem import Notes

from . import samples
from .test_recordings import DATA
from .test_tshark import OPTIONS, WHOLE, as_section, nanoseconds

EXAMPLES = os.path.join(DATA, "..", "..", "..", "examples")
ANALYSIS = ("retransmission", "fast_retransmission", "spurious_retransmission", "out_of_order", "keep_alive",
            "duplicate_ack", "zero_window", "zero_window_probe", "window_update")
FIELDS = ("frame.number", "tcp.stream", "frame.time_epoch", "tcp.srcport", "tcp.seq_raw", "tcp.ack_raw", "tcp.len",
          "tcp.flags", "tcp.window_size_value", "tcp.options.sack_re", "tcp.analysis.acks_frame",
          "tcp.analysis.ack_rtt", *(f"tcp.analysis.{name}" for name in ANALYSIS))
# The kind that has the same meaning as each name of tshark's.
SAME = {"zero_window": "zero_windows", "window_update": "window_updates", "duplicate_ack": "duplicate_acks",
        "keep_alive": "keep_alives", "zero_window_probe": "window_probes", "out_of_order": "out_of_order",
        "spurious_retransmission": "unneeded", "fast_retransmission": "fast"}
# A retransmission that tshark calls neither fast nor spurious.
PLAIN = ("timeout", "tail_probe", "answer")
CAUSES = (*PLAIN, "fast", "unneeded")
# Wireshark calls a retransmission fast within this time after the last acknowledgment, in nanoseconds.
AT_ONCE = 20 * 10**6


@dataclass
class Row:
    """A segment as tshark reads it; `stop` is the number after its last byte, SYN or FIN."""
    number: int
    moment: int
    port: str
    start: int
    stop: int
    acknowledged: int | None
    flags: int
    window: int
    sacked: list
    acks: str
    trip: int
    names: set = field(default_factory=set)


def rows_of(name):
    """The rows of each connection, by their frames."""
    words = ["tshark", "-n", "-r", name, *OPTIONS, "-Y", WHOLE, "-T", "fields",
             *[word for each in FIELDS for word in ("-e", each)]]
    out = subprocess.run(words, check=True, stdout=subprocess.PIPE, stderr=subprocess.DEVNULL, text=True).stdout
    found = {}
    for line in out.splitlines():
        values = line.split("\t")
        number, _, moment, port, start, acknowledged, size, flags, window, sacked, acks, trip = values[:12]
        bits = int(flags, 0)
        stop = (int(start) + int(size) + bool(bits & SYN) + bool(bits & FIN)) % WRAP
        names = {each for each, value in zip(ANALYSIS, values[12:]) if value}
        if names & {"fast_retransmission", "spurious_retransmission"}:
            names.discard("retransmission")
        found[int(number)] = Row(int(number), nanoseconds(moment), port, int(start), stop,
                                 int(acknowledged) if bits & ACK else None, bits, int(window),
                                 [int(edge) for edge in filter(None, sacked.split(","))], acks,
                                 nanoseconds(trip) if trip else 0, names)
    return found


def distance(number, before):
    """How far a number is after another one."""
    return (number - before + WRAP // 2) % WRAP - WRAP // 2


class Past:
    """What a capture shows before a packet, in the plainest way: all rows of the connection."""

    def __init__(self, rows, at):
        self.row, self.before = rows[at], [row for row in rows[:at] if not row.flags & RST]
        self.own = [row for row in self.before if row.port == self.row.port]
        self.other = [row for row in self.before if row.port != self.row.port]

    def has_no_bytes(self):
        """Whether it has no bytes, but a SYN or a FIN."""
        return distance(self.row.stop, self.row.start) == bool(self.row.flags & SYN) + bool(self.row.flags & FIN)

    def sent(self):
        """What its end acknowledged before, in order."""
        return [row.acknowledged for row in self.own if row.acknowledged is not None]

    def is_old(self):
        """Whether its end acknowledged more before."""
        return any(distance(number, self.row.acknowledged) > 0 for number in self.sent())

    def follows_an_old_one(self):
        """Whether its end acknowledged more before the last acknowledgment."""
        return any(distance(number, self.sent()[-1]) > 0 for number in self.sent())

    def is_beyond(self):
        """Whether it begins after everything that its end sent."""
        return all(distance(row.stop, self.row.start) < 0 for row in self.own)

    def was_seen(self):
        """Whether the capture has some of its bytes already."""
        return any(distance(row.stop, self.row.start) > 0 and distance(self.row.stop, row.start) > 0
                   for row in self.own)

    def acknowledged(self):
        """The greatest acknowledgment of what its end sent; None if there's none."""
        found = [row.acknowledged for row in self.other if row.acknowledged is not None]
        return max(found, key=lambda number: distance(number, found[0]), default=None)

    def last(self):
        """The last packet that acknowledges what its end sent; None if there's none."""
        return next((row for row in reversed(self.other) if row.acknowledged is not None), None)

    def duplicates(self):
        """How many duplicate acknowledgments came last: what tshark calls so, if something was outstanding then."""
        count = 0
        for row in reversed([row for row in self.other if row.acknowledged is not None]):
            if row.acknowledged != self.acknowledged():
                break
            count += "duplicate_ack" in row.names and any(
                distance(each.stop, row.acknowledged) > 0 for each in self.own if each.number < row.number)
        return count

    def silence(self):
        """How long ago the last acknowledgment came."""
        return min((self.row.moment - row.moment for row in self.other if row.acknowledged is not None),
                   default=WRAP * 1000)

    def reports_beyond(self):
        """Whether the last acknowledgment reports bytes beyond it as received."""
        last = self.last()
        return last and any(distance(edge, self.row.stop) > 0 for edge in last.sacked)

    def is_closed(self):
        """Whether the other end's window is closed."""
        last = self.last()
        return last is not None and last.window == 0

    def nothing_outstanding(self):
        """Whether the other end has sent nothing that the packet doesn't acknowledge."""
        return all(distance(row.stop, self.row.acknowledged) <= 0 for row in self.other)

    def gap_is_older(self, trip):
        """Whether later bytes came longer ago than a round trip."""
        return any(distance(row.start, self.row.start) > 0 and self.row.moment - row.moment >= trip
                   for row in self.own)

    def follows_a_timeout(self, kinds):
        """Whether a retransmission by a timeout repairs what the packet repeats."""
        return any("timeout" in kinds[row.number] for row in self.own)


def reason(name, kind, past, trip, kinds):
    """Why a packet with this name in tshark has another kind here; None if there's no reason for that."""
    first = past.acknowledged() == past.row.start
    if name == "duplicate_ack" and kind is None and past.nothing_outstanding():
        return "nothing is outstanding, so it's no duplicate (RFC 5681, 2)"
    if name == "keep_alive" and kind == "window_probes" and past.is_closed():
        return "the window is closed"
    if name == "keep_alive" and kind in CAUSES and distance(past.row.stop, past.acknowledged()) > 0:
        return "its byte isn't acknowledged"
    if name == "out_of_order" and kind in CAUSES and past.was_seen():
        return "the capture has its bytes already"
    if name == "out_of_order" and kind in CAUSES and past.gap_is_older(trip):
        return "it's later than a round trip"
    if name == "out_of_order" and kind == "fast" and first and past.duplicates() >= 3:
        return "three duplicates asked for it"
    if name == "retransmission" and kind == "unneeded" and distance(past.row.stop, past.acknowledged()) <= 0:
        if past.has_no_bytes():
            return "a SYN or FIN without bytes was acknowledged"
        if distance(past.row.stop, past.last().acknowledged) > 0:
            return "it was acknowledged, but the last acknowledgment is lower"
    if name == "retransmission" and kind == "fast" and (
            not first or past.duplicates() < 2 or past.silence() >= AT_ONCE):
        return "the loss was shown, but not within 20 ms by two duplicates for this byte"
    if name == "retransmission" and kind == "out_of_order" and not past.was_seen() and not past.gap_is_older(trip):
        return "it fills the newest gap"
    if name == "fast_retransmission" and kind == "out_of_order" and not past.was_seen() and past.duplicates() < 3:
        return "two duplicates are too few (RFC 5681, 3.2)"
    if name in ("duplicate_ack", "window_update") and kind is None and past.is_old():
        return "a later acknowledgment overtook it"
    if name == "fast_retransmission" and kind == "timeout" and past.follows_a_timeout(kinds):
        return "what a timeout repairs isn't repaired by duplicates (RFC 6582, 3.2)"
    if name == "fast_retransmission" and kind == "timeout" and past.duplicates() < 3 and not past.reports_beyond():
        return "two duplicates are too few (RFC 5681, 3.2)"
    return None


def more_reason(kind, past):
    """Why a packet has a kind here, though tshark has no name for it; None if there's no reason for that."""
    if kind in ("duplicate_acks", "window_updates") and past.follows_an_old_one():
        return "the last acknowledgment isn't the greatest"
    if kind == "duplicate_acks" and past.is_beyond():
        return "what comes before it is missing"
    return None


def trip_reason(rows, at):
    """Why a round trip of tshark's isn't one here; None if there's no reason for that."""
    row = rows[at]
    own = [each for each in rows[:at] if each.port != row.port and not each.flags & RST]
    before = [each.acknowledged for each in rows[:at] if each.port == row.port and each.acknowledged is not None]
    acknowledged = max(before, key=lambda number: distance(number, before[0]), default=own[0].start)
    # Those that it newly acknowledges.
    new = [each for each in own if distance(each.stop, acknowledged) > 0 and distance(each.stop, row.acknowledged) <= 0]
    for place, each in enumerate(own):
        late = any(distance(earlier.stop, each.start) > 0 for earlier in own[:place])
        if late and any(distance(each.stop, one.start) > 0 and distance(one.stop, each.start) > 0 for one in new):
            return "it may be of either of two transmissions (RFC 6298, 3)"
    return "nothing new is acknowledged (RFC 6298, 3)" if not new else None


def round_trip(rows):
    """A round trip: from the first SYN to what its end sends then; 3 ms without that."""
    syns = [row for row in rows if row.flags & (SYN | ACK) == SYN]
    if not syns or rows[0] is not syns[0]:
        return 3 * 10**6
    after = next((row for row in rows if row.port == syns[0].port and not row.flags & (SYN | RST)), None)
    last = next((row for row in reversed(rows) if after and row.flags & SYN and row.port == after.port
                 and row.number < after.number), None)
    return after.moment - last.moment or 3 * 10**6 if last else 3 * 10**6


def begin(name):
    """The moment of a capture's first frame."""
    with open(name, "rb") as file:
        return next(frames_of(name, file, Layout())).moment


def conversations(name):
    """What tshark says of each connection: the frames of each end, sorted, the first one's time, and the duration to
    four places."""
    words = ["tshark", "-n", "-r", name, *OPTIONS, "-q", "-z", f"conv,tcp,{WHOLE}"]
    out = subprocess.run(words, check=True, stdout=subprocess.PIPE, stderr=subprocess.DEVNULL, text=True).stdout
    for line in out.splitlines():
        if "<->" in line:
            values = line.split()
            yield sorted((int(values[3]), int(values[6]))), nanoseconds(values[-2]), values[-1]


@unittest.skipUnless(shutil.which("tshark"), "tshark isn't installed")
class Figures(unittest.TestCase):
    """`reasons` counts the differences."""

    def setUp(self):
        self.folder = self.enterContext(tempfile.TemporaryDirectory())
        self.reasons = Counter()

    def compare(self, name):
        """Compares a capture. Returns how often each kind is the same."""
        with opened(name, "") as file:
            packets = list(packets_of(name, file, Notes(), lenient=True))
        rows, same = rows_of(name), Counter()
        connections = connections_of({name: packets})
        for connection in connections:
            found = [packet for packet in connection.packets() if packet.count in rows]
            same += self.compare_connection(connection, found, [rows[packet.count] for packet in found])
        self.compare_conversations(name, connections, packets[0].captured)
        return same

    def compare_connection(self, connection, packets, rows):
        """Compares each packet of a connection."""
        analysis, kinds, same, trip = Analysis(connection.client), {}, Counter(), round_trip(rows)
        for at, packet in enumerate(packets):
            row = rows[at]
            trips = sum(len(sender.trips) for sender in analysis.senders)
            kinds[row.number] = analysis.add(packet)
            self.assertEqual(analysis.senders[packet.source != connection.client].bytes, sum(
                (each.stop - each.start) % WRAP - bool(each.flags & SYN) - bool(each.flags & FIN)
                for each in rows[:at + 1] if each.port == row.port))
            with self.subTest(packet.place, names=row.names, kinds=kinds[row.number], moment=row.moment):
                same += self.compare_kinds(rows, at, kinds, trip)
                is_trip = sum(len(sender.trips) for sender in analysis.senders) > trips
                same["trip"] += self.compare_trip(rows, at, is_trip and analysis.senders[
                    packet.source == connection.client].trips[-1])
        return same

    def compare_kinds(self, rows, at, kinds, trip):
        """Compares what a packet is."""
        row, found, same = rows[at], list(kinds[rows[at].number]), Counter()
        for name in sorted(row.names):
            wanted = PLAIN if name == "retransmission" else (SAME[name],)
            if kind := next((kind for kind in found if kind in wanted), None):
                found.remove(kind)
                same[kind] += 1
                continue
            kind = next(iter(found), None)
            why = reason(name, kind, Past(rows, at), trip, kinds)
            self.assertIsNotNone(why, "they differ without a reason")
            self.reasons[why] += 1
            found = found[1:]
        for kind in found:
            why = more_reason(kind, Past(rows, at))
            self.assertIsNotNone(why, "tshark has no such name")
            self.reasons[why] += 1
        return same

    def compare_trip(self, rows, at, found):
        """Compares a round trip. Returns whether it's the same."""
        row = rows[at]
        if found is not False:
            self.assertTrue(row.acks)
            self.assertEqual(found, row.trip)
            return True
        if row.acks:
            why = trip_reason(rows, at)
            self.assertIsNotNone(why, "no round trip, without a reason")
            self.reasons[why] += 1
        return False

    def compare_conversations(self, name, connections, begin):
        """Compares packets and times of all connections. Copies don't count here."""
        found = []
        for connection in connections:
            client, server = counted_in(name, connection, (), begin)
            counts, packets = Counter(), list(connection.packets())
            for packet in set(packets) - set(without_copies(packets, Notes())):
                self.assertTrue(any(each.segment == packet.segment and each.source == packet.source
                                    and 0 <= packet.captured - each.captured <= 10**6 for each in packets
                                    if each.count < packet.count), packet.place)
                counts[packet.source] += 1
            duration = f"{(client.last - client.first) / 10**9:.4f}"
            found.append((sorted((client.packets + counts[connection.client],
                                  server.packets + counts[connection.server])), client.first, duration))
            self.reasons += counts and {"copies": counts.total()}
        self.assertEqual(sorted(found), sorted(conversations(name)))

    def extract(self, archive, wanted):
        """The captures of an archive with names that have these words, in one."""
        with tarfile.open(os.path.join(DATA, archive)) as file:
            file.extractall(self.folder, [member for member in file if member.name.endswith(".pcap")])
            names = [os.path.join(self.folder, member.name) for member in file if member.name.endswith(wanted)]
        together = os.path.join(self.folder, "together.pcapng")
        with open(together, "wb") as file:
            for name in sorted(names, key=begin):
                file.write(as_section(name))
        return together

    def test_captures_of_all_kinds(self):
        for kind, data in [("together", samples.together()), *samples.of_files(),
                           ("ports used again", samples.of_ports())]:
            with self.subTest(kind):
                name = os.path.join(self.folder, "sample")
                with open(name, "wb") as file:
                    file.write(data)
                self.assertGreater(self.compare(name)["trip"], 0)

    def test_examples(self):
        for name in ("client", "server"):
            self.assertGreater(self.compare(os.path.join(EXAMPLES, f"{name}.pcap"))["trip"], 20)
        self.assertFalse(self.reasons)

    def test_recordings(self):
        for wanted in (("host0.pcap", "run.pcap"), ("host1.pcap",)):
            self.assertGreater(self.compare(self.extract("recordings.tar.xz", wanted))["trip"], 100)

    def test_in_the_middle(self):
        for place in ("client", "middle", "server"):
            same = self.compare(self.extract("middle.tar.xz", (f"{place}.pcap",)))
            self.assertTrue({"duplicate_acks", "timeout", "zero_windows", "window_updates", "trip"} <= same.keys())

    def test_losses_closed_windows_and_keep_alives(self):
        for place in ("client", "server"):
            same = self.compare(self.extract("figures.tar.xz", (f"{place}.pcap",)))
            self.assertTrue({"tail_probe", "zero_windows", "keep_alives", "trip"} <= same.keys())


if __name__ == "__main__":
    unittest.main()
