"""Tests figures on small captures. What each packet is, and each time, was counted by the RFCs."""
import io
import random
import unittest

from tcpwit_importer.capture.connections import Connection
from tcpwit_importer.capture.packets import packets_of
from tcpwit_importer.capture.segments import ACK, FIN, PSH, RST, SYN
from tcpwit_importer.figures.analysis import Analysis
from tcpwit_importer.figures.figures import figures_of
from tcpwit_importer.figures.ranges import LIMIT, Holes, Ranges
from tcpwit_importer.problem import Notes

from .wire import ONE, SECOND, SIZE, ZERO, ethernet, ip_packet, packed, pcap_bytes, segment

MS = 10**6
CLIENT, SERVER = ((packed(address), port) for address, port in (ZERO, ONE))
FIRST = (1000, 5000)
# The bytes of a full segment.
FULL = bytes(100)


def sack(*positions, first=1000):
    """The option that reports ranges of positions of the client as received (RFC 2018, 3)."""
    ranges = b"".join(((first + position) % 2**32).to_bytes(4, "big") for position in positions)
    return b"\1\1\5" + bytes([2 + len(ranges)]) + ranges


class Exchange:
    """A capture of a connection. Its segments have the host, 0 or 1, positions, and moments in milliseconds. A SYN has
    position 0. After the handshake, whose round trip takes 10 ms, everything is acknowledged."""

    def __init__(self, handshake=True, first=FIRST):
        self.first, self.frames = first, []
        if handshake:
            self.add(0, 0, 0, flags=SYN, options=SIZE)
            self.add(10, 1, 0, 1, flags=SYN | ACK, options=SIZE)
            self.add(10, 0, 1, 1)

    def add(self, at, host, number, acknowledgment=None, data=b"", flags=ACK, window=1000, options=b""):
        """A segment is captured. By default, it acknowledges the SYN."""
        ends = (ZERO, ONE) if host == 0 else (ONE, ZERO)
        acknowledged = self.first[1 - host] + (1 if acknowledgment is None else acknowledgment)
        made = segment(*ends, self.first[host] + number, acknowledged if flags & ACK else 0, flags, data, options,
                       window)
        self.frames.append((100 * SECOND + int(at * MS), ethernet(ip_packet(*ends, made))))

    def packets(self):
        """Its packets."""
        return list(packets_of("c", io.BytesIO(pcap_bytes(self.frames)), Notes()))

    def kinds(self, skipped=3):
        """What each packet after the handshake is."""
        analysis = Analysis(CLIENT)
        return [list(analysis.add(packet)) for packet in self.packets()][skipped:]

    def figures(self, own=()):
        """The figures of the client and of the server."""
        connection = Connection(CLIENT, SERVER, 0)
        for packet in self.packets():
            connection.add("c", packet)
        return list(figures_of(connection, {}, {"c": own}, {"c": 100 * SECOND}))

    def trips(self):
        """The round trips of the client in milliseconds, after the handshake's."""
        analysis = Analysis(CLIENT)
        for packet in self.packets():
            analysis.add(packet)
        return [time / MS for time in analysis.senders[0].trips][1:]


class RoundTrips(unittest.TestCase):
    def test_of_both_ends(self):
        talk = Exchange()
        talk.add(20, 0, 1, data=FULL)
        talk.add(50, 1, 1, 101)
        talk.add(60, 0, 101, data=FULL)
        talk.add(80, 1, 1, 201)
        client, server = talk.figures()
        # The SYN is a segment, too: 10, 30 and 20 ms.
        self.assertEqual(client.trips, (3, 10 * MS, 20 * MS, 30 * MS))
        self.assertEqual(server.trips, (1, 0, 0, 0))
        self.assertEqual((client.first, client.last), (0, 80 * MS))

    def test_the_median_of_an_even_number(self):
        talk = Exchange()
        talk.add(20, 0, 1, data=FULL)
        talk.add(50, 1, 1, 101)
        self.assertEqual(talk.figures()[0].trips, (2, 10 * MS, 20 * MS, 30 * MS))

    def test_none(self):
        talk = Exchange(handshake=False)
        talk.add(0, 0, 0, flags=SYN)
        self.assertEqual([end.trips for end in talk.figures()], [None, None])

    def test_a_reset_that_refuses_a_connection(self):
        talk = Exchange(handshake=False)
        talk.add(0, 0, 0, flags=SYN)
        talk.add(7, 1, 0, 1, flags=RST | ACK)
        self.assertEqual(talk.figures()[0].trips, (1, 7 * MS, 7 * MS, 7 * MS))

    def test_the_last_segment_that_an_acknowledgment_covers_counts(self):
        talk = Exchange()
        talk.add(20, 0, 1, data=FULL)
        talk.add(25, 0, 101, data=FULL)
        talk.add(28, 0, 201, data=FULL)
        talk.add(50, 1, 1, 201)
        self.assertEqual(talk.trips(), [25])

    def test_an_acknowledgment_within_a_segment_gives_none(self):
        # As of a segment that an offload enlarged.
        talk = Exchange()
        talk.add(20, 0, 1, data=FULL)
        talk.add(30, 1, 1, 51)
        self.assertEqual(talk.trips(), [])
        talk.add(45, 1, 1, 101)
        self.assertEqual(talk.trips(), [25])
        talk.add(50, 0, 101, data=FULL)
        talk.add(51, 0, 201, data=FULL)
        talk.add(60, 1, 1, 251)
        self.assertEqual(talk.trips(), [25])

    def test_an_acknowledgment_gets_none(self):
        # Its number shows that 100 bytes were sent before, but not when.
        talk = Exchange()
        talk.add(30, 0, 101)
        talk.add(35, 1, 1, 101)
        self.assertEqual(talk.trips(), [])

    def test_what_was_sent_twice_gives_none(self):
        # Karn's algorithm (RFC 6298, 3).
        talk = Exchange()
        talk.add(20, 0, 1, data=FULL)
        talk.add(25, 0, 101, data=FULL)
        talk.add(1020, 0, 1, data=FULL)
        talk.add(1030, 1, 1, 201)
        self.assertEqual(talk.trips(), [])
        talk.add(1040, 0, 201, data=FULL)
        talk.add(1055, 1, 1, 301)
        self.assertEqual(talk.trips(), [15])

    def test_what_came_out_of_order_gives_none(self):
        talk = Exchange()
        talk.add(20, 0, 101, data=FULL)
        talk.add(22, 0, 1, data=FULL)
        talk.add(23, 1, 1, 201)
        self.assertEqual(talk.trips(), [])


class Retransmissions(unittest.TestCase):
    @staticmethod
    def flight(count=5):
        """A connection whose client has sent full segments."""
        talk = Exchange()
        for number in range(count):
            talk.add(20 + number, 0, 1 + 100 * number, data=FULL)
        return talk

    def test_by_a_timeout(self):
        talk = self.flight()
        talk.add(35, 1, 1, 101)
        talk.add(1100, 0, 101, data=FULL)
        talk.add(1110, 1, 1, 201)
        # Slow start after the timeout sends the next ones again.
        talk.add(1111, 0, 201, data=FULL)
        talk.add(1112, 0, 301, data=FULL)
        self.assertEqual(talk.kinds()[5:], [[], ["timeout"], [], ["timeout"], ["timeout"]])

    def test_by_three_duplicate_acknowledgments(self):
        talk = self.flight()
        talk.add(30, 1, 1, 1)
        talk.add(31, 1, 1, 1)
        talk.add(32, 1, 1, 1)
        talk.add(33, 0, 1, data=FULL)
        self.assertEqual(talk.kinds()[5:], [["duplicate_acks"]] * 3 + [["fast"]])
        # A partial acknowledgment lets the next one be sent again (RFC 6582, 3.2).
        talk.add(43, 1, 1, 201)
        talk.add(44, 0, 201, data=FULL)
        self.assertEqual(talk.kinds()[9:], [[], ["fast"]])
        # It is sent again once more, after a timeout.
        talk.add(244, 0, 201, data=FULL)
        self.assertEqual(talk.kinds()[11:], [["timeout"]])

    def test_two_duplicate_acknowledgments_are_too_few(self):
        talk = self.flight()
        talk.add(30, 1, 1, 1)
        talk.add(31, 1, 1, 1)
        talk.add(33, 0, 1, data=FULL)
        self.assertEqual(talk.kinds()[5:], [["duplicate_acks"]] * 2 + [["timeout"]])

    def test_long_after_three_duplicate_acknowledgments(self):
        # A round trip takes 10 ms; a tenth of a second is added.
        for at, cause in ((142, "fast"), (143, "timeout")):
            talk = self.flight()
            for moment in (30, 31, 32):
                talk.add(moment, 1, 1, 1)
            talk.add(at, 0, 1, data=FULL)
            self.assertEqual(talk.kinds()[8:], [[cause]])

    def test_by_received_ranges(self):
        # One acknowledgment reports that later bytes were received (RFC 8985, 6.2).
        for ranges, cause in (((201, 501), "fast"), ((1, 51), "timeout"), ((101, 501), "timeout")):
            talk = self.flight()
            talk.add(30, 1, 1, 101, options=sack(*ranges))
            talk.add(33, 0, 101, data=FULL)
            self.assertEqual(talk.kinds()[5:], [[], [cause]])

    def test_a_loss_of_what_was_sent_again(self):
        # Received ranges show it (RFC 8985, 6.2); duplicates don't.
        for options, cause in ((sack(101, 601), "fast"), (b"", "timeout")):
            talk = self.flight()
            for at in (30, 31, 32):
                talk.add(at, 1, 1, 1, options=sack(101, 501))
            talk.add(33, 0, 1, data=FULL)
            talk.add(34, 0, 501, data=FULL)
            talk.add(44, 1, 1, 1, options=options)
            talk.add(45, 0, 1, data=FULL)
            self.assertEqual(talk.kinds()[8:], [["fast"], [], ["duplicate_acks"], [cause]])

    def test_several_losses(self):
        # One acknowledgment may report several (RFC 6675, 5). What is sent after a recovery began may be lost, too.
        talk = self.flight(6)
        talk.add(30, 1, 1, 1, options=sack(101, 201, 301, 401))
        talk.add(31, 0, 1, data=FULL)
        talk.add(32, 0, 201, data=FULL)
        for at, number in ((33, 601), (34, 701), (35, 801)):
            talk.add(at, 0, number, data=FULL)
        talk.add(40, 1, 1, 101, options=sack(301, 601, 701, 901))
        talk.add(41, 0, 601, data=FULL)
        self.assertEqual(talk.kinds()[6:], [["duplicate_acks"], ["fast"], ["fast"], [], [], [], [], ["fast"]])

    def test_a_tail_loss_probe(self):
        # The last segment is sent again, before what comes before it (RFC 8985, 7.3).
        talk = self.flight()
        talk.add(60, 0, 401, data=FULL)
        talk.add(70, 1, 1, 1, options=sack(401, 501))
        talk.add(71, 0, 1, data=FULL)
        self.assertEqual(talk.kinds()[5:], [["tail_probe"], ["duplicate_acks"], ["fast"]])

    def test_duplicates_of_what_was_acknowledged(self):
        # They don't ask for what comes then.
        talk = self.flight()
        for at in (30, 31, 32):
            talk.add(at, 1, 1, 1)
        talk.add(33, 1, 1, 101)
        talk.add(34, 0, 101, data=FULL)
        self.assertEqual(talk.kinds()[8:], [[], ["timeout"]])

    def test_a_tail_loss_probe_of_what_was_sent_in_a_recovery(self):
        talk = self.flight()
        for at in (30, 31, 32):
            talk.add(at, 1, 1, 1)
        talk.add(33, 0, 1, data=FULL)
        talk.add(34, 0, 501, data=FULL)
        talk.add(60, 0, 501, data=FULL)
        self.assertEqual(talk.kinds()[8:], [["fast"], [], ["tail_probe"]])

    def test_after_a_recovery(self):
        talk = self.flight()
        for at in (30, 31, 32):
            talk.add(at, 1, 1, 1)
        talk.add(33, 0, 1, data=FULL)
        talk.add(43, 1, 1, 501)
        talk.add(50, 0, 501, data=FULL)
        talk.add(51, 0, 601, data=FULL)
        # It also has what was acknowledged.
        talk.add(60, 0, 451, data=FULL)
        self.assertEqual(talk.kinds()[8:], [["fast"], [], [], [], ["timeout"]])

    def test_a_reset_of_another_connection(self):
        talk = self.flight(1)
        talk.add(30, 1, 1, 50_000, flags=RST | ACK)
        talk.add(1020, 0, 1, data=FULL)
        self.assertEqual(talk.kinds()[1:], [[], ["timeout"]])

    def test_what_the_network_doubles(self):
        # The fourth segment comes twice. Nothing asked for it, and recovery still begins with the first one.
        talk = self.flight()
        for at in (30, 31, 32):
            talk.add(at, 1, 1, 1)
        talk.add(33, 0, 301, data=FULL)
        talk.add(34, 0, 1, data=FULL)
        talk.add(35, 0, 101, data=FULL)
        self.assertEqual(talk.kinds()[8:], [["timeout"], ["fast"], ["fast"]])

    def test_the_only_segment(self):
        talk = self.flight(1)
        talk.add(60, 0, 1, data=FULL)
        self.assertEqual(talk.kinds()[1:], [["timeout"]])

    def test_what_was_acknowledged(self):
        talk = self.flight()
        talk.add(35, 1, 1, 201)
        talk.add(1100, 0, 101, data=FULL)
        talk.add(1101, 0, 151, data=FULL)
        self.assertEqual(talk.kinds()[6:], [["unneeded"], ["timeout"]])

    def test_a_fin_and_a_syn(self):
        talk = Exchange(handshake=False)
        talk.add(0, 0, 0, flags=SYN)
        talk.add(1000, 0, 0, flags=SYN)
        talk.add(1010, 1, 0, 1, flags=SYN | ACK)
        talk.add(2010, 1, 0, 1, flags=SYN | ACK)
        talk.add(2020, 0, 1, 1)
        talk.add(2030, 0, 1, 1, flags=FIN | ACK)
        talk.add(3030, 0, 1, 1, flags=FIN | ACK)
        self.assertEqual(talk.kinds(0), [[], ["timeout"], [], ["timeout"], [], [], ["timeout"]])

    def test_a_syn_that_is_answered_again(self):
        talk = Exchange(handshake=False)
        talk.add(0, 0, 0, flags=SYN)
        talk.add(10, 1, 0, 1, flags=SYN | ACK)
        talk.add(1000, 0, 0, flags=SYN)
        talk.add(1010, 1, 0, 1, flags=SYN | ACK)
        talk.add(1020, 0, 1, 1)
        talk.add(1030, 1, 1, 1, data=FULL)
        talk.add(2030, 1, 1, 1, data=FULL)
        self.assertEqual(talk.kinds(0), [[], [], ["unneeded"], ["answer"], [], [], ["timeout"]])

    def test_one_byte_that_is_not_acknowledged(self):
        # It has the number of a keep-alive.
        talk = Exchange()
        talk.add(20, 0, 1, data=b"x")
        talk.add(220, 0, 1, data=b"x")
        self.assertEqual(talk.kinds(), [[], ["timeout"]])

    def test_bytes_that_were_repeated(self):
        talk = self.flight(2)
        talk.add(30, 1, 1, 151)
        # It has 50 bytes again, and 50 new ones.
        talk.add(1100, 0, 151, data=FULL)
        talk.add(1105, 1, 1, 251)
        talk.add(1110, 0, 251, data=FULL, flags=FIN | ACK)
        talk.add(2110, 0, 251, data=FULL, flags=FIN | ACK)
        client, _ = talk.figures()
        self.assertEqual((client.bytes, client.repeated), (500, 150))
        self.assertEqual(client.retransmissions["timeout"], 2)


class OutOfOrder(unittest.TestCase):
    def test_soon_after_later_bytes(self):
        for at, kind in ((29.9, "out_of_order"), (30, "timeout")):
            talk = Exchange()
            talk.add(20, 0, 101, data=FULL)
            talk.add(at, 0, 1, data=FULL)
            self.assertEqual(talk.kinds(), [[], [kind]])
            self.assertEqual(talk.figures()[0].repeated, 0)

    def test_what_was_acknowledged(self):
        # The capture has it too late, or it's a copy of one that it lost.
        talk = Exchange()
        talk.add(20, 0, 101, data=FULL)
        talk.add(21, 1, 1, 201)
        talk.add(22, 0, 1, data=FULL)
        self.assertEqual(talk.kinds(), [[], [], ["unneeded"]])

    def test_the_age_of_the_gap_counts(self):
        # New segments still come, but the first one is awaited for more than a round trip.
        talk = Exchange()
        for number in range(1, 10):
            talk.add(20 + 2 * number, 0, 1 + 100 * number, data=FULL)
        talk.add(39, 0, 1, data=FULL)
        self.assertEqual(talk.kinds()[9:], [["timeout"]])

    def test_three_duplicate_acknowledgments_ask_for_it(self):
        talk = Exchange()
        talk.add(20, 0, 101, data=FULL)
        for at in (21, 22, 23):
            talk.add(at, 1, 1, 1)
        talk.add(25, 0, 1, data=FULL)
        self.assertEqual(talk.kinds()[1:], [["duplicate_acks"]] * 3 + [["fast"]])

    def test_without_a_handshake(self):
        # Then a round trip counts as 3 ms, as in Wireshark.
        for at, kind in ((22.9, "out_of_order"), (23, "timeout")):
            talk = Exchange(handshake=False)
            talk.add(10, 0, 1, data=FULL)
            talk.add(20, 0, 201, data=FULL)
            talk.add(at, 0, 101, data=FULL)
            self.assertEqual(talk.kinds(0), [[], [], [kind]])


class Acknowledgments(unittest.TestCase):
    def duplicates(self, *added, **other):
        """What a segment of the server is, after the client's data and its acknowledgment."""
        talk = Exchange()
        talk.add(20, 0, 1, data=FULL)
        talk.add(21, 0, 101, data=FULL)
        talk.add(30, 1, 1, 101)
        talk.add(40, *(added or (1, 1, 101)), **other)
        return talk.kinds()[3]

    def test_a_duplicate(self):
        # RFC 5681, 2.
        self.assertEqual(self.duplicates(), ["duplicate_acks"])

    def test_with_data(self):
        self.assertEqual(self.duplicates(data=b"x"), [])

    def test_with_a_fin(self):
        self.assertEqual(self.duplicates(flags=FIN | ACK), [])

    def test_with_another_window(self):
        self.assertEqual(self.duplicates(window=900), ["window_updates"])

    def test_with_another_number(self):
        self.assertEqual(self.duplicates(1, 1, 151), [])

    def test_nothing_is_outstanding(self):
        talk = Exchange()
        talk.add(20, 0, 1, data=FULL)
        talk.add(30, 1, 1, 101)
        talk.add(31, 1, 1, 101)
        self.assertEqual(talk.kinds(), [[], [], []])

    def test_the_greatest_acknowledgment_counts(self):
        # The second one was overtaken: it's no duplicate, and doesn't change the window.
        talk = Exchange()
        talk.add(20, 0, 1, data=FULL)
        talk.add(21, 0, 101, data=FULL)
        talk.add(30, 1, 1, 101)
        for at in (31, 32):
            talk.add(at, 1, 1, 51, window=500)
        talk.add(33, 1, 1, 101)
        self.assertEqual(talk.kinds()[2:], [[], [], [], ["duplicate_acks"]])

    def test_an_acknowledgment_shows_what_was_sent(self):
        # What comes before its number is missing, and comes soon, or late.
        for at, kind in ((35, "out_of_order"), (45, "timeout")):
            talk = Exchange()
            talk.add(30, 0, 101)
            talk.add(at, 0, 1, data=FULL)
            self.assertEqual(talk.kinds(), [[], [kind]])

    def test_an_old_segment(self):
        # It was reordered: its sender has sent more since.
        talk = Exchange()
        talk.add(20, 0, 1, data=FULL)
        talk.add(30, 1, 1, 1, data=b"hello")
        talk.add(31, 1, 1, 1, window=2000)
        self.assertEqual(talk.kinds(), [[], [], []])


class Windows(unittest.TestCase):
    @staticmethod
    def closed():
        """A connection whose server has closed its window, and acknowledged everything."""
        talk = Exchange()
        talk.add(20, 0, 1, data=FULL)
        talk.add(30, 1, 1, 101, window=0)
        return talk

    def test_a_byte_beyond_the_window(self):
        # RFC 9293, 3.8.6.1.
        talk = self.closed()
        talk.add(1030, 0, 101, data=b"x")
        talk.add(1040, 1, 1, 101, window=0)
        talk.add(3040, 0, 101, data=b"x")
        talk.add(3050, 1, 1, 101, window=0)
        talk.add(3060, 1, 1, 101)
        talk.add(3061, 0, 101, data=b"xyz")
        self.assertEqual(talk.kinds()[1:], [["zero_windows"], ["window_probes"], ["zero_windows"], ["window_probes"],
                                            ["zero_windows"], ["window_updates"], []])
        client, server = talk.figures()
        self.assertEqual((client.kinds["window_probes"], server.kinds["zero_windows"]), (2, 3))

    def test_a_probe_is_no_duplicate_acknowledgment(self):
        talk = self.closed()
        talk.add(40, 1, 1, 101, data=b"hello", window=0)
        talk.add(1030, 0, 101, 1, data=b"x")
        self.assertEqual(talk.kinds()[2:], [["zero_windows"], ["window_probes"]])

    def test_a_byte_that_is_received(self):
        talk = self.closed()
        talk.add(1030, 0, 101, data=b"x")
        talk.add(1040, 1, 1, 102, window=0)
        talk.add(3040, 0, 102, data=b"y")
        self.assertEqual(talk.kinds()[2:], [["window_probes"], ["zero_windows"], ["window_probes"]])

    def test_a_segment_below_the_window(self):
        # So Linux probes: it isn't a keep-alive.
        talk = self.closed()
        talk.add(1030, 0, 100)
        talk.add(1040, 1, 1, 101, window=0)
        self.assertEqual(talk.kinds()[2:], [["window_probes"], ["zero_windows"]])

    def test_only_segments_without_syn_fin_and_rst_count(self):
        talk = Exchange()
        talk.add(20, 1, 1, 1, flags=RST | ACK, window=0)
        talk.add(30, 1, 1, 1, flags=FIN | ACK, window=0)
        self.assertEqual(talk.kinds(), [[], []])

    def test_keep_alives(self):
        # RFC 9293, 3.8.4: also with a garbage byte.
        talk = Exchange()
        talk.add(20, 0, 1, data=FULL)
        talk.add(30, 1, 1, 101)
        talk.add(7_000, 0, 100)
        talk.add(7_010, 1, 1, 101)
        talk.add(14_000, 0, 100, data=b"\0")
        talk.add(14_010, 1, 1, 101)
        self.assertEqual(talk.kinds()[2:], [["keep_alives"], [], ["keep_alives"], []])

    def test_after_a_fin(self):
        talk = Exchange()
        talk.add(20, 0, 1, flags=FIN | ACK)
        talk.add(30, 1, 1, 2, data=b"hello")
        talk.add(31, 0, 2, 6)
        self.assertEqual(talk.kinds(), [[], [], []])


class Connections(unittest.TestCase):
    def test_numbers_wrap(self):
        kinds = []
        for first in (FIRST, (2**32 - 150, 2**32 - 3)):
            talk = Exchange(first=first)
            for number in range(5):
                talk.add(20 + number, 0, 1 + 100 * number, data=FULL)
            for at in (30, 31, 32):
                talk.add(at, 1, 1, 101 if at > 30 else 1)
            talk.add(33, 1, 1, 101, options=sack(201, 501, first=first[0]))
            talk.add(34, 0, 101, data=FULL)
            kinds.append(talk.kinds())
            self.assertEqual(talk.figures()[0].trips, (2, 10 * MS, int(10.5 * MS), 11 * MS))
        self.assertEqual(kinds[0][5:], [["duplicate_acks"], [], ["duplicate_acks"], ["duplicate_acks"], ["fast"]])
        self.assertEqual(kinds[0], kinds[1])

    def test_begun_before_the_capture(self):
        talk = Exchange(handshake=False)
        talk.add(0, 0, 1001, data=FULL)
        # They are about what isn't captured.
        talk.add(1, 1, 1, 501)
        talk.add(2, 1, 1, 501)
        talk.add(10, 1, 1, 1101)
        talk.add(20, 0, 1101, data=FULL)
        self.assertEqual(talk.kinds(0), [[], [], ["duplicate_acks"], [], []])
        client, _ = talk.figures()
        self.assertEqual(client.trips, (1, 10 * MS, 10 * MS, 10 * MS))

    def test_segments_of_other_connections(self):
        talk = Exchange(handshake=False)
        talk.add(0, 0, 0, flags=SYN)
        # An old segment, and a SYN during the connection.
        talk.add(5, 1, 70_000, 50_000)
        talk.add(10, 1, 0, 1, flags=SYN | ACK)
        talk.add(10, 0, 1, 1)
        talk.add(11, 0, 90_000, flags=SYN)
        talk.add(20, 0, 1, data=FULL)
        talk.add(30, 1, 1, 101)
        self.assertEqual(talk.kinds(0), [[]] * 7)
        client, _ = talk.figures()
        self.assertEqual((client.packets, client.trips), (4, (2, 10 * MS, 10 * MS, 10 * MS)))

    def test_what_no_window_can_have(self):
        # It belongs to another connection, and what follows isn't sent again.
        talk = Exchange()
        talk.add(20, 0, 2**30 + 2, data=FULL)
        talk.add(21, 0, 1, data=FULL)
        self.assertEqual(talk.kinds(), [[], []])

    def test_a_cut_window_is_not_closed(self):
        talk = Exchange()
        talk.add(20, 0, 1, data=FULL)
        frames = talk.frames
        talk.frames = []
        talk.add(30, 1, 1, 101, data=b"hello")
        (moment, frame), = talk.frames
        packets = list(packets_of("c", io.BytesIO(pcap_bytes(frames)), Notes()))
        # The header is cut after the flags.
        data = bytearray(pcap_bytes([(moment, frame[:48])]))
        data[36:40] = len(frame).to_bytes(4, "little")
        packets += packets_of("c", io.BytesIO(bytes(data)), Notes(), lenient=True)
        self.assertTrue(packets[-1].lacks_header)
        analysis = Analysis(CLIENT)
        self.assertEqual([analysis.add(packet) for packet in packets][-1], ())

    def test_one_direction(self):
        talk = Exchange(handshake=False)
        talk.add(0, 0, 0, flags=SYN)
        talk.add(10, 0, 1)
        talk.add(20, 0, 1, data=FULL)
        talk.add(1020, 0, 1, data=FULL)
        client, server = talk.figures()
        self.assertEqual((client.packets, client.bytes, client.trips), (4, 200, None))
        self.assertEqual(client.retransmissions["timeout"], 1)
        self.assertEqual((server.packets, server.bytes), (0, 0))

    def test_copies_count_once(self):
        talk = Exchange()
        talk.add(20, 0, 1, data=FULL, flags=ACK | PSH)
        # A mirror port shows each packet twice.
        talk.frames = [frame for frame in talk.frames for _ in range(2)]
        client, server = talk.figures()
        self.assertEqual((client.packets, server.packets, client.bytes), (3, 1, 100))
        self.assertEqual(sum(client.retransmissions.values()), 0)

    def test_loopback_counts_once(self):
        # `-i any` shows each packet as sent and as received.
        talk = Exchange()
        connection = Connection(CLIENT, SERVER, 0)
        for sent, received in zip(talk.packets(), talk.packets()):
            sent.outgoing, received.outgoing = True, False
            connection.add("c", sent)
            connection.add("c", received)
        client, server = figures_of(connection, {}, {"c": {CLIENT, SERVER}}, {"c": 100 * SECOND})
        self.assertEqual((client.packets, server.packets), (2, 1))
        self.assertEqual(sum(client.retransmissions.values()), 0)

    def test_each_host_by_its_own_capture(self):
        talk = Exchange()
        connection = Connection(CLIENT, SERVER, 0)
        for name, packets in (("a", talk.packets()), ("b", talk.packets()[1:])):
            for packet in packets:
                connection.add(name, packet)
        begin = {"a": 100 * SECOND, "b": 100 * SECOND}
        client, server = figures_of(connection, {CLIENT: "a", SERVER: "b"}, {}, begin)
        self.assertEqual((client.capture, client.first), ("a", 0))
        self.assertEqual((server.capture, server.first), ("b", 10 * MS))
        # If a host's capture lacks the connection, the other one counts.
        client, server = figures_of(connection, {CLIENT: "a", SERVER: "x"}, {}, begin)
        self.assertEqual(server.capture, "a")


class Bounds(unittest.TestCase):
    def test_ranges(self):
        ranges = Ranges()
        for start, stop in ((10, 20), (30, 40), (20, 25), (50, 60), (38, 52)):
            ranges.add(start, stop)
        self.assertEqual((ranges.starts, ranges.stops), ([10, 30], [25, 60]))
        self.assertEqual([ranges.have(*each) for each in ((0, 10), (0, 11), (25, 30), (24, 30), (59, 60), (60, 70))],
                         [False, True, False, True, True, False])
        ranges.drop(45)
        self.assertEqual((ranges.starts, ranges.stops), ([45], [60]))

    def test_holes(self):
        holes = Holes()
        holes.add(10, 20, 1)
        holes.add(30, 40, 2)
        self.assertEqual(holes.fill(0, 10), (0, None))
        self.assertEqual(holes.fill(15, 15), (0, None))
        self.assertEqual(holes.fill(13, 15), (2, 1))
        self.assertEqual(holes.fill(18, 35), (7, 1))
        self.assertEqual((holes.starts, holes.stops, holes.moments), ([10, 15, 35], [13, 18, 40], [1, 1, 2]))
        holes.drop(16)
        self.assertEqual((holes.starts, holes.stops, holes.moments), ([16, 35], [18, 40], [1, 2]))

    def test_many_are_bounded(self):
        ranges, holes = Ranges(), Holes()
        for number in range(3 * LIMIT):
            ranges.add(10 * (4 * LIMIT - number), 10 * (4 * LIMIT - number) + 1)
            holes.add(10 * number, 10 * number + 5, number)
        # Each of these cuts a hole in two.
        for number in range(2 * LIMIT, 3 * LIMIT):
            holes.fill(10 * number + 1, 10 * number + 2)
        self.assertEqual([len(each) for each in (ranges.starts, ranges.stops, holes.starts, holes.stops,
                                                 holes.moments)], [LIMIT] * 5)

    def test_any_packets(self):
        chance = random.Random(95)
        for _ in range(30):
            talk = Exchange(handshake=chance.random() < 0.5, first=(chance.choice((1000, 2**32 - 200)), 5000))
            for at in range(300):
                host, wild = chance.randrange(2), chance.random() < 0.02
                reach = 2**32 if wild else 600
                flags = chance.choice((ACK, ACK, ACK, FIN | ACK, SYN, RST | ACK))
                talk.add(20 + at * chance.random(), host, chance.randrange(reach), chance.randrange(reach),
                         bytes(chance.choice((0, 0, 1, 100))), flags, chance.choice((0, 1000)))
            analysis = Analysis(CLIENT)
            for packet in talk.packets():
                self.assertLessEqual(len(analysis.add(packet)), 2)
                for sender in analysis.senders:
                    edges = [edge for pair in zip(sender.again.starts, sender.again.stops) for edge in pair]
                    self.assertEqual(edges, sorted(set(edges)))
                    edges = [edge for pair in zip(sender.holes.starts, sender.holes.stops) for edge in pair]
                    self.assertEqual(edges, sorted(edges))
                    self.assertTrue(all(map(int.__lt__, sender.holes.starts, sender.holes.stops)))

    def test_round_trips_are_bounded(self):
        talk = Exchange()
        for number in range(20):
            talk.add(20 + number, 0, 1 + number, data=b"x")
        analysis = Analysis(CLIENT)
        for packet in talk.packets():
            analysis.add(packet)
        self.assertEqual(len(analysis.senders[0].waiting), 20)
        talk.add(1030, 0, 1, data=b"x")
        talk.add(1040, 1, 1, 21)
        for packet in talk.packets()[-2:]:
            analysis.add(packet)
        # What is acknowledged is forgotten.
        self.assertEqual((len(analysis.senders[0].waiting), analysis.senders[0].again.starts), (0, []))
        self.assertIsNotNone(analysis.senders[0].waiting.maxlen)


if __name__ == "__main__":
    unittest.main()
