"""Tests cutting and matching large segments, clocks and headers."""
import unittest

from tcpwit_importer.capture.clocks import SAME, bounds_of, clock_of
from tcpwit_importer.capture.connections import Connection
from tcpwit_importer.capture.offloads import Flow, Outgoing, cut
from tcpwit_importer.capture.segments import ACK, FIN, PSH
from tcpwit_importer.problem import Notes, Problem
from tcpwit_importer.trace.header import header, in_version

from .wire import ONE, ZERO, Talk, packets, segment

CWR, AT = 128, 100 * 10**9


def sent(number, payload, flags=ACK, acknowledgment=7, options=b"", window=1000):
    """A segment without a checksum."""
    return segment(ZERO, ONE, number, acknowledgment, flags, payload, options, window, 0)


class Cutting(unittest.TestCase):
    def test_flags_numbers_and_sizes(self):
        found = cut(sent(2**32 - 2, b"abcdefg", ACK | PSH | FIN | CWR), 3)
        self.assertEqual(found,
                         [sent(2**32 - 2, b"abc", ACK | CWR), sent(1, b"def", ACK), sent(4, b"g", ACK | PSH | FIN)])

    def test_what_fits_stays(self):
        for payload in (b"", b"abc"):
            self.assertEqual(cut(sent(1, payload, ACK | PSH), 3), [sent(1, payload, ACK | PSH)])

    def test_the_size_is_the_lesser_one_less_the_options(self):
        connection = Connection(ZERO, ONE, 0)
        self.assertEqual(connection.piece_size(sent(1, b"")), 536)
        connection.sizes = {ZERO: 1460, ONE: 1000}
        self.assertEqual(connection.piece_size(sent(1, b"", options=bytes(12))), 988)
        connection.sizes = {ZERO: 1460, ONE: None}
        self.assertEqual(connection.piece_size(sent(1, b"")), 536)


class Joining(unittest.TestCase):
    def setUp(self):
        self.outgoing = Outgoing()

    def add(self, *segments):
        for moment, each in enumerate(segments):
            self.outgoing.add(moment, each)

    def test_equal_bytes_come_first(self):
        self.add(sent(1, b"ab"), sent(1, b"abcd"), sent(3, b"cd"))
        self.assertEqual(self.outgoing.parts(sent(1, b"abcd")), [sent(1, b"abcd")])

    def test_a_join(self):
        pieces = [sent(1, b"ab", window=5), sent(3, b"cd", window=6), sent(5, b"e", ACK | PSH | FIN)]
        self.add(*pieces)
        self.assertEqual(self.outgoing.parts(sent(1, b"abcde", ACK | PSH | FIN, window=5)), pieces)
        self.assertEqual(self.outgoing.parts(sent(1, b"abcd", window=5)), pieces[:2])
        self.assertEqual(self.outgoing.parts(sent(3, b"cde", ACK | FIN, window=6)), pieces[1:])

    def test_what_is_no_join(self):
        self.add(sent(1, b"ab"), sent(3, b"cd"), sent(5, b"e", ACK | FIN))
        for other in (sent(1, b"abcx"), sent(1, b"abcd", window=9), sent(1, b"abcd", acknowledgment=8),
                      sent(1, b"abcd", options=b"\1\1\1\1"), sent(1, b"abcde"), sent(1, b"abcd", ACK | FIN),
                      sent(1, b"abc"), sent(2, b"bcd"), sent(1, b"abcd", ACK | 32)):
            self.assertEqual(self.outgoing.parts(other), [])

    def test_pieces_of_two_sendings(self):
        # The first piece was sent twice, the second time cut differently.
        again = [sent(1, b"a", acknowledgment=9), sent(2, b"bcd", acknowledgment=9)]
        self.add(sent(1, b"ab"), sent(3, b"cd"), *again)
        self.assertEqual(self.outgoing.parts(sent(1, b"abcd", acknowledgment=9)), again)

    def test_many_equal_pieces_are_no_trouble(self):
        for number in range(1, 2001, 10):
            self.add(*[sent(number, b"0123456789")] * 5)
        self.assertEqual(len(self.outgoing.parts(sent(1, b"0123456789" * 200))), 200)

    def test_a_flow_says_what_it_changed(self):
        talk, notes = Talk(), Notes()
        joined = segment(talk.zero, talk.one, talk.next[0], talk.next[1], ACK, b"x" * 3000)
        talk.send(0, payload=b"x" * 3000, take=[joined])
        talk.send(0, payload=b"y", take=[segment(talk.zero, talk.one, talk.next[0], talk.next[1], ACK, b"z")])
        connection = Connection(packets(talk, 0)[0].source, packets(talk, 0)[0].target, 0)
        for packet in packets(talk, 0):
            connection.add("c0", packet)
        flow = Flow(connection, notes, True)
        for packet in packets(talk, 0):
            flow.went_out(packet)
        came = [part for packet in packets(talk, 1)[-2:] for part in flow.came_in(packet)]
        self.assertEqual([len(part) - 20 for part in came], [1460, 1460, 80, 1])
        self.assertEqual(sorted(count for count, _ in notes.changed.values()), [1, 1, 1])


class Clocks(unittest.TestCase):
    """Bounds of the clock difference, in nanoseconds: from above by segments that host 1 received, from below by those
    it sent."""

    def test_bounds_that_fit_change_nothing(self):
        self.assertEqual(clock_of([(10, 5)], [(20, -3)]), SAME)
        self.assertEqual(clock_of([], [(20, 9)]), SAME)

    def test_a_shift(self):
        clock = clock_of([(10, 5_000_100), (30, 5_000_400)], [(20, 4_999_900)])
        self.assertEqual((clock.shift, clock.rate, clock.skew), (5_000_000, 0.0, 0))
        self.assertEqual(clock.at(5_000_007), 7)

    def test_equal_segments_of_which_a_capture_lacks_some(self):
        talk = Talk()
        talk.send(0, payload=b"a")
        for _ in range(3):
            talk.send(1)
        found = {host: packets(talk, host) for host in (0, 1)}
        ends = {found[0][0].source: 0, found[0][0].target: 1}
        for skipped, sent in ((0, [1, 4]), (6, [])):
            connection = Connection(*ends, 0)
            connection.hosts, connection.seen = ends, {"c0": found[0], "c1": found[1][skipped:]}
            above, below = bounds_of([connection], {0: "c0", 1: "c1"})
            # A segment is in transit for 1 ms. Of three equal ones, the first counts.
            self.assertEqual({bound for _, bound in above}, {10**6} if skipped == 0 else set())
            self.assertEqual([(moment - AT) // 10**6 // 2 for moment, _ in below], sent)
            self.assertEqual({bound for _, bound in below}, {-10**6} if sent else set())

    def test_a_drift(self):
        # Host 1 gains 50 us a second; segments take 10 us each way.
        moments = range(0, 10 * 10**9, 10**8)
        clock = clock_of([(moment, moment // 20000 + 10_000) for moment in moments],
                         [(moment, moment // 20000 - 10_000) for moment in moments])
        self.assertAlmostEqual(clock.rate, 5e-5, delta=3e-6)
        self.assertEqual(clock.skew, 0)
        self.assertLess(abs(clock.at(10**10 + 500_000) - 10**10), 10_000)

    def test_what_no_clock_explains_is_skew(self):
        moments = range(0, 10 * 10**9, 10**8)
        step = [(moment, 300_000 if 4 * 10**9 < moment < 5 * 10**9 else 0) for moment in moments]
        clock = clock_of([(moment, bound + 1000) for moment, bound in step],
                         [(moment, bound - 1000) for moment, bound in step])
        self.assertGreater(clock.skew, 100_000)
        for moment, bound in step:
            true = moment - bound
            self.assertTrue(clock.at(moment) <= true + 1000 and true - 1000 <= clock.at(moment) + clock.skew)


class Headers(unittest.TestCase):
    def test_versions(self):
        whole = ["skew 0", "msl 60000000", "grain 4000", "minrto 200000", "extra 1", "initial 6928"]
        self.assertEqual(header(2, 0, {}), ["trace 5", *whole, "hosts 2", "congestion full", "slack 1000000"])
        self.assertEqual(header(1, 5, {}),
                         ["trace 5", "skew 5", *whole[1:], "hosts 1", "congestion full", "slack 1000000"])
        for level in ("recovery", "none"):
            found = header(2, 0, {"congestion": level, "slack": "any"})
            self.assertEqual((found[0], found[8:]),
                             ("trace 6", [f"congestion {level}", "slack any", "sender cubic", "growth any"]))
        self.assertEqual(header(2, 0, {"congestion": "full"}), header(2, 0, {}))
        self.assertEqual(header(2, 0, {"congestion": "none"}, 5),
                         ["trace 5", *whole, "hosts 2", "congestion none", "slack 1000000"])
        self.assertEqual(header(2, 0, {"slack": 0})[9:], ["slack 0"])
        self.assertEqual(header(2, 3, {"msl": 9}, 1),
                         ["trace 1", "skew 3", "msl 9", "grain 4000", "minrto 200000", "extra 1"])
        self.assertEqual(header(2, 0, {}, 2), ["trace 2", *whole])
        self.assertEqual(header(1, 5, {}, 3)[0::7], ["trace 3", "half 0"])
        self.assertEqual(header(1, 0, {}, 4)[6:], ["initial 6928", "hosts 1", "congestion full"])
        self.assertEqual(header(2, 7, {"congestion": "none"}, 4),
                         ["trace 4", "skew 7", *whole[1:], "hosts 2", "congestion none"])
        for hosts in (1, 2):
            self.assertEqual(header(hosts, 0, {}, 6),
                             ["trace 6", *whole, f"hosts {hosts}", "congestion recovery", "slack 1000000",
                              "sender cubic", "growth any"])
        self.assertEqual(header(2, 0, {"congestion": "none", "slack": "any"}, 6)[8:],
                         ["congestion none", "slack any", "sender cubic", "growth any"])

    def test_another_version(self):
        for hosts in (1, 2):
            one = header(hosts, 3, {"slack": "any", "initial": "5681", "congestion": "full"})
            two = header(hosts, 3, {"slack": "any", "initial": "5681", "congestion": "recovery"})
            self.assertEqual((in_version(6, one), in_version(5, two)), (two, one))

    def test_refusals(self):
        for words in ((1, 0, {}, 2), (2, 0, {}, 3), (2, 0, {"congestion": "full"}, 2), (2, 0, {"initial": "5681"}, 1),
                      (2, 0, {"slack": "any"}, 4)):
            with self.assertRaises(Problem):
                header(*words)


if __name__ == "__main__":
    unittest.main()
