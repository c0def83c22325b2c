"""Tests captures that were made between the hosts. data/middle.tar.xz has captures of one connection at the client, in
the middle and at the server; a relay on each side of the middle delayed, reordered and lost segments."""
import json
import os
import tarfile
import tempfile
import unittest
from types import SimpleNamespace

from tcpwit_importer.capture.connections import Connection, connections_of
from tcpwit_importer.capture.packets import packets_of
from tcpwit_importer.capture.segments import ACK, FIN, RST, SACK, SYN, WRAP, acknowledgment, flags
from tcpwit_importer.infer import midpoint
from tcpwit_importer.infer.departures import counts, timestamp
from tcpwit_importer.infer.midpoint import split
from tcpwit_importer.infer.passages import Numbers, passages, without_garbage
from tcpwit_importer.problem import Notes

from . import test_judge
from .wire import ONE, SECOND, SIZE, ZERO, ethernet, ip_packet, packed, packets, pcap, segment

AT, MS = 100 * 10**9, 10**6
# The ends as captures have them.
CLIENT, SERVER = ((packed(address), port) for address, port in (ZERO, ONE))
LAB = os.environ.get("TCPWIT_LAB")
DATA = os.path.join(os.path.dirname(os.path.realpath(__file__)), "data")


class Middle:
    """A capture between two hosts. Each segment is given by its host, positions and moment in milliseconds."""

    def __init__(self, handshake=True):
        self.frames = {0: []}
        if handshake:
            self.add(0, 0, flags=SYN, options=SIZE)
            self.add(1, 0, 1, flags=SYN | ACK, options=SIZE)
            self.add(0, 1, 1)

    def add(self, host, number, acknowledgment=0, data=b"", flags=ACK, at=None, window=1000, options=b"",
            identification=0):
        """A segment passes, by default a millisecond after the one before."""
        ends = (ZERO, ONE) if host == 0 else (ONE, ZERO)
        base = (1000, 5000) if host == 0 else (5000, 1000)
        made = segment(*ends, base[0] + number, base[1] + acknowledgment if flags & ACK else 0, flags, data, options,
                       window)
        frame = bytearray(ip_packet(*ends, made))
        frame[4:6] = identification.to_bytes(2, "big")
        last = self.frames[0][-1][0] if self.frames[0] else AT - MS
        self.frames[0].append((last + MS if at is None else AT + int(at * MS), ethernet(bytes(frame))))

    def connection(self):
        """The connection of its packets."""
        found = Connection(CLIENT, SERVER, AT)
        for packet in packets(self, 0):
            found.add("x", packet)
        found.hosts = {CLIENT: 0, SERVER: 1}
        return found

    def sides(self, longest=10**9):
        """What each host sent and received: for each segment its host, its flags or its bytes, and the moment in
        milliseconds."""
        connection, self.notes = self.connection(), Notes()
        names, self.spread = split(connection, "x", longest, self.notes)
        return [[(connection.hosts[packet.source], packet.number - (5000 if packet.source == SERVER else 1000),
                  packet.size, (packet.moment - AT) // MS) for packet in connection.seen[names[host]]]
                for host in (0, 1)]


def stamps(own, echo):
    """The option for timestamps."""
    return bytes((1, 1, 8, 10)) + own.to_bytes(4, "big") + echo.to_bytes(4, "big")


class Echoes(unittest.TestCase):
    """What a host echoes shows what came."""

    def middle(self):
        """A connection with timestamps, whose server sent a byte."""
        middle = Middle(False)
        middle.add(0, 0, flags=SYN, options=SIZE + stamps(10, 0))
        middle.add(1, 0, 1, flags=SYN | ACK, options=SIZE + stamps(50, 10))
        middle.add(0, 1, 1, options=stamps(11, 50))
        middle.add(1, 1, 1, b"a", options=stamps(51, 11))
        return middle

    def test_an_acknowledgment_comes_after_what_echoes_an_older_timestamp(self):
        for echo, moments in ((11, [3, 5, 5]), (12, [3, 4, 5])):
            middle = self.middle()
            middle.add(0, 1, 2, options=stamps(12, 51))
            middle.add(1, 2, 1, b"b", options=stamps(52, echo))
            middle.add(1, 3, 1, b"c", options=stamps(53, 12))
            self.assertEqual([each[3] for each in middle.sides()[1][3:6]], moments)

    def test_a_copy_comes_if_its_timestamp_is_echoed(self):
        for echo, copies in ((51, 0), (52, 1)):
            middle = self.middle()
            middle.add(1, 2, 1, b"b", options=stamps(52, 11))
            middle.add(0, 1, 3, options=stamps(12, 51))
            middle.add(0, 1, 3, options=stamps(12, echo))
            self.assertEqual(len(middle.sides()[0]), 7 + copies, echo)


class Positions(unittest.TestCase):
    def test_numbers_wrap(self):
        numbers = Numbers((1 << 32) - 2)
        self.assertEqual([numbers.position(number) for number in ((1 << 32) - 2, 0, 5)], [0, 2, 7])
        self.assertEqual(numbers.position((1 << 32) - 3), -1)

    def test_windows_are_scaled_if_both_scale(self):
        for scales, edge in ((True, 1 + (1000 << 3)), (False, 1001)):
            middle = Middle(False)
            middle.add(0, 0, flags=SYN, options=SIZE + b"\1\3\3\3")
            middle.add(1, 0, 1, flags=SYN | ACK, options=SIZE + (b"\1\3\3\7" if scales else b""))
            middle.add(0, 1, 1)
            found = passages(middle.connection(), packets(middle, 0))
            self.assertEqual([(each.start, each.stop, each.acknowledged) for each in found],
                             [(0, 1, None), (0, 1, 1), (1, 1, 1)])
            self.assertEqual([each.edge for each in found], [None, 1001, edge])

    def test_without_a_syn(self):
        middle = Middle(False)
        middle.add(0, 0, flags=SYN)
        middle.add(0, 1, 1)
        self.assertEqual(passages(middle.connection(), packets(middle, 0)), [])
        self.assertEqual(middle.sides(), [[(0, 0, 0, 0), (0, 1, 0, 1)]] * 2)

    def test_a_keep_alive_may_have_a_garbage_byte(self):
        middle = Middle()
        middle.add(0, 1, 1, b"ab")
        middle.add(0, 2, 1, b"?")
        middle.add(1, 1, 3)
        middle.add(0, 2, 1, b"?")
        found = without_garbage(passages(middle.connection(), packets(middle, 0)))
        self.assertEqual([each.packet.size for each in found[3:]], [2, 1, 0, 0])


class Split(unittest.TestCase):
    def test_nothing_waits_without_a_reason(self):
        middle = Middle()
        middle.add(0, 1, 1, b"ab")
        middle.add(1, 1, 3)
        one = [(0, 0, 0, 0), (1, 0, 0, 1), (0, 1, 0, 2), (0, 1, 2, 3), (1, 1, 0, 4)]
        self.assertEqual(middle.sides(), [one, one])

    def test_what_a_block_reports_came_before(self):
        for blocks in ([(3, 5)], [(5, 7), (3, 5)], [(0, 1), (5, 7)], [(5, 9)]):
            middle = Middle()
            for number in (1, 3, 5):
                middle.add(0, number, 1, b"ab")
            ends = b"".join((1000 + end).to_bytes(4, "big") for block in blocks for end in block)
            middle.add(1, 1, 1, options=bytes((1, 1, SACK, len(ends) + 2)) + ends)
            # The first one came only after that, and the others came by then, if a block reports them.
            middle.add(1, 1, 7)
            server = [each[:3] for each in middle.sides()[1][3:]]
            reported = [(0, number, 2) for number in (3, 5) if any(l <= number < r for l, r in blocks)]
            late = [(0, number, 2) for number in (1, 3, 5) if (0, number, 2) not in reported]
            self.assertEqual(server, [*reported, (1, 1, 0), *late, (1, 1, 0)], blocks)

    def test_what_came_twice_is_not_needed_again(self):
        middle = Middle()
        for number in (1, 3, 3):
            middle.add(0, number, 1, b"ab")
        block = bytes((1, 1, SACK, 10)) + (1003).to_bytes(4, "big") + (1005).to_bytes(4, "big")
        middle.add(1, 1, 1, options=block)
        middle.add(0, 3, 1, b"ab")
        middle.add(1, 1, 1, options=block)
        middle.add(1, 1, 5)
        server = [each[:2] for each in middle.sides()[1][3:]]
        self.assertEqual(server, [(0, 3), (0, 3), (1, 1), (1, 1), (0, 1), (0, 3), (1, 1)])

    def test_how_much_the_time_to_the_capture_differs(self):
        middle = Middle()
        for at, number in ((10, 1), (100, 2)):
            middle.add(0, number, 1, b"a", at=at)
            middle.add(1, 1, number + 1, at=at + at / 2)
        middle.sides()
        # The SYN was answered after 1 ms, and the last byte after 50 ms.
        self.assertEqual(middle.spread, 49 * MS)
        middle.sides(longest=MS)
        self.assertEqual(middle.spread, MS)

    def test_equal_moments(self):
        middle = Middle(False)
        for number in range(3):
            middle.add(0, 1 + number, 1, b"x", at=0)
        connection = middle.connection()
        connection.initial = {CLIENT: 1000, SERVER: 5000}
        names, _ = split(connection, "x", 0, Notes())
        self.assertEqual([[packet.moment - AT for packet in connection.seen[names[host]]] for host in (0, 1)],
                         [[0, 2, 4], [1, 3, 5]])

    def test_bytes_come_before_they_are_acknowledged(self):
        middle = Middle()
        middle.add(1, 1, 1, b"abc")
        middle.add(1, 4, 1, b"def")
        middle.add(0, 1, 4)
        middle.add(0, 1, 7)
        # The second segment passed at 4 ms, but its host acknowledged only the first one at 5 ms.
        self.assertEqual(middle.sides()[0][3:], [(1, 1, 3, 3), (0, 1, 0, 5), (1, 4, 3, 5), (0, 1, 0, 6)])

    def test_what_is_sent_again_was_not_acknowledged_yet(self):
        middle = Middle()
        middle.add(0, 1, 1, b"ab", at=3)
        middle.add(1, 1, 3, at=250)
        middle.add(0, 1, 1, b"ab", at=251)
        middle.add(0, 3, 1, b"c", at=260)
        self.assertEqual(middle.sides()[0][3:], [(0, 1, 2, 3), (0, 1, 2, 251), (1, 1, 0, 251), (0, 3, 1, 260)])

    def test_a_window_opens_before_it_is_needed(self):
        middle = Middle()
        middle.add(0, 1, 1, bytes(1000), at=3)
        middle.add(1, 1, 1001, at=4)
        middle.add(0, 1001, 1, bytes(1000), at=5)
        # Sent again, though the window that the acknowledgment opened was used: that is left to the rules.
        middle.add(0, 1, 1, bytes(1000), at=6)
        self.assertEqual([each[:3] for each in middle.sides()[0][3:]],
                         [(0, 1, 1000), (1, 1, 0), (0, 1001, 1000), (0, 1, 1000)])

    def test_a_window_closes_after_it_was_used(self):
        middle = Middle()
        middle.add(1, 1, 1, window=0, at=3)
        middle.add(0, 1, 1, b"ab", at=4)
        middle.add(1, 1, 1, window=0, at=5)
        self.assertEqual(middle.sides()[0][3:], [(0, 1, 2, 4), (1, 1, 0, 4), (1, 1, 0, 5)])

    def test_resets_answer_what_came(self):
        middle = Middle()
        for at, number in ((3, 1), (4, 4)):
            middle.add(1, number, 1, b"abc", at=at)
        middle.add(0, 1, flags=RST, at=5)
        middle.add(0, 1, flags=RST, at=6)
        self.assertEqual(middle.sides()[0][3:], [(1, 1, 3, 5 - 2), (0, 1, 0, 5), (1, 4, 3, 5), (0, 1, 0, 6)])

    def test_a_reset_doesn_t_answer_what_came_before(self):
        middle = Middle()
        middle.add(1, 1, 1, at=3)
        middle.add(1, 1, 1, b"abc", at=4)
        middle.add(0, 1, 4, at=5)
        middle.add(0, 1, flags=RST, at=6)
        self.assertEqual(middle.sides()[0][3:], [(1, 1, 3, 4), (0, 1, 0, 5), (1, 1, 0, 5), (0, 1, 0, 6)])

    def test_a_reset_ends_what_its_receiver_sends(self):
        middle = Middle()
        middle.add(1, 1, flags=RST, at=3)
        middle.add(0, 1, 1, b"ab", at=4)
        self.assertEqual(middle.sides()[0][3:], [(0, 1, 2, 4), (1, 1, 0, 4)])


class Order(unittest.TestCase):
    def reordered(self, **words):
        """A host's segments of which the second one passed after the third."""
        middle = Middle()
        middle.add(0, 1, 1, b"ab", at=3, identification=7)
        middle.add(0, 5, 1, b"ef", at=4, identification=9)
        middle.add(0, 3, 1, b"cd", **{"at": 5, "identification": 8} | words)
        return middle

    @staticmethod
    def sent(middle):
        """The positions and sizes of what host 0 sent after the handshake."""
        return [each[1:3] for each in middle.sides()[0] if each[0] == 0][2:]

    def test_reordered_before_the_capture(self):
        middle = self.reordered()
        self.assertEqual(middle.sides()[0][3:], [(0, 1, 2, 3), (0, 3, 2, 4), (0, 5, 2, 4)])
        self.assertEqual(list(middle.notes.lines()), [])
        # Their receiver got them as they passed.
        self.assertEqual(middle.sides()[1][3:], [(0, 1, 2, 3), (0, 5, 2, 4), (0, 3, 2, 5)])

    def test_lost_before_the_capture(self):
        for words in ({"at": 250}, {"identification": 10}):
            middle = self.reordered(**words)
            self.assertEqual(self.sent(middle), [(1, 2), (3, 2), (5, 2), (3, 2)])
            self.assertIn("lost between their host and the capture", next(middle.notes.lines()))

    def test_a_limit(self):
        self.assertEqual(len(self.reordered().sides(longest=MS)[0]), 6)
        self.assertEqual(len(self.reordered().sides(longest=MS - 1)[0]), 7)

    def test_duplicate_acknowledgments_ask_for_it(self):
        middle = self.reordered(identification=0)
        self.assertEqual(len(middle.sides()[0]), 6)
        last = middle.frames[0].pop()
        for number in range(3):
            middle.add(1, 1, 3, at=4.1 + number / 10)
        middle.frames[0].append(last)
        self.assertEqual(self.sent(middle), [(1, 2), (3, 2), (5, 2), (3, 2)])

    def test_a_fin_that_was_lost(self):
        middle = Middle()
        middle.add(0, 4, 1, at=5)
        middle.add(0, 1, 1, b"ab", FIN | ACK, at=900)
        connection = middle.connection()
        names, _ = split(connection, "x", MS, Notes())
        sent = [packet for packet in connection.seen[names[0]] if packet.source == CLIENT]
        self.assertEqual([(packet.number - 1000, packet.payload, packet.flags) for packet in sent[2:]],
                         [(1, b"ab", ACK | FIN), (4, b"", ACK), (1, b"ab", ACK | FIN)])

    def test_a_syn_waited_before_the_capture(self):
        for longest, moments in ((SECOND, [-990, 10, 3010]), (SECOND // 2, [0, 10, 3010])):
            middle = Middle(False)
            for at in (0, 10, 3010):
                middle.add(0, 0, flags=SYN, options=SIZE, at=at)
            middle.add(1, 0, 1, flags=SYN | ACK, options=SIZE)
            self.assertEqual([each[3] for each in middle.sides(longest)[0][:3]], moments)

    def test_a_segment_that_is_sent_again_may_be_late(self):
        middle = Middle()
        for number in range(20):
            middle.add(0, 1 + number, 1, b"a", identification=1 + number)
        middle.add(0, 21, 1, b"a", identification=23)
        middle.add(0, 4, 1, b"a", identification=22)
        self.assertEqual(self.sent(middle)[-3:], [(20, 1), (4, 1), (21, 1)])

    def test_identifications_far_apart_show_no_order(self):
        middle = Middle()
        for number in range(20):
            middle.add(0, 1 + number, 1, b"a", identification=1 + number)
        middle.add(0, 21, 1, b"a", identification=40_000)
        self.assertEqual(self.sent(middle)[-2:], [(20, 1), (21, 1)])

    def test_timestamps_show_the_order(self):
        middle = Middle()
        for number, stamp in ((1, 5), (2, 7), (1, 6)):
            middle.add(0, number, 1, b"a", options=b"\1\1\x08\x0a\0\0\0" + bytes([stamp]) + bytes(4))
        self.assertEqual(self.sent(middle), [(1, 1), (1, 1), (2, 1)])

    def test_an_old_acknowledgment_is_late(self):
        middle = Middle()
        middle.add(0, 1, 1, b"ab")
        middle.add(0, 1, 1)
        self.assertEqual(self.sent(middle), [(1, 0), (1, 2)])

    def test_bytes_that_were_lost_before_a_reset(self):
        middle = Middle()
        middle.add(0, 1, 1, b"ab")
        middle.add(0, 5, flags=RST)
        self.assertEqual(self.sent(middle), [(1, 2), (3, 2), (5, 0)])

    def test_acknowledgments_go_back_only_if_nothing_shows_their_order(self):
        for one, two, place in ((0, 0, 0), (2, 1, 0), (1, 2, 1)):
            middle = Middle()
            middle.add(1, 1, 1, b"abcd", at=3)
            middle.add(0, 1, 5, at=5, identification=one)
            middle.add(0, 1, 3, at=6, identification=two)
            connection = middle.connection()
            names, _ = split(connection, "x", 10**9, Notes())
            sent = [packet.acknowledgment - 5000 for packet in connection.seen[names[0]] if packet.source == CLIENT]
            self.assertEqual(sent[2:], [[3, 5], [5, 3]][place])

    def test_a_reset_passes_first(self):
        middle = Middle()
        middle.add(0, 4, flags=RST, at=5)
        middle.add(0, 1, 1, b"ab", FIN | ACK, at=6)
        self.assertEqual(middle.sides()[0][3:], [(0, 1, 2, 5), (0, 4, 0, 5)])

    def test_a_duplicate_counts_as_received_only(self):
        middle = Middle()
        for at in (3, 5):
            middle.add(0, 1, 1, b"ab", at=at, identification=3)
        self.assertEqual([len(side) for side in middle.sides()], [4, 5])

    def test_what_shows_an_order(self):
        self.assertTrue(counts([65535, 0, 1, 5, 6]))
        self.assertFalse(counts([5, 700, 30000, 6, 20000]))
        self.assertFalse(counts([5]))
        stamped = segment(ZERO, ONE, 1, 1, ACK, options=b"\1\1\x08\x0a\0\0\1\0\0\0\0\2")
        self.assertEqual(timestamp(stamped), 256)
        self.assertIsNone(timestamp(segment(ZERO, ONE, 1, 1, ACK)))


class Marks(unittest.TestCase):
    def test_a_router_shows_each_segment_twice(self):
        found = packets(Middle(), 0)
        twice = [packet for packet in found for _ in range(2)]
        marked = [SimpleNamespace(source=packet.source, segment=packet.segment, outgoing=bool(place % 2))
                  for place, packet in enumerate(twice)]
        self.assertEqual(midpoint.entering(marked), marked[::2])

    def test_what_a_host_sent_isn_t_left_out(self):
        found = packets(Middle(), 0)
        for packet in found:
            packet.outgoing = packet.source == CLIENT
        self.assertEqual(midpoint.entering(found), found)


class Recorded(unittest.TestCase):
    """Connections that were captured at three places."""

    @classmethod
    def setUpClass(cls):
        cls.folder = tempfile.TemporaryDirectory()
        cls.addClassCleanup(cls.folder.cleanup)
        with tarfile.open(os.path.join(DATA, "middle.tar.xz")) as archive:
            archive.extractall(cls.folder.name)
        cls.names = sorted({name.rsplit("-", 1)[0] for name in os.listdir(cls.folder.name)})

    def file(self, name, place):
        """The name of a capture."""
        return f"{self.folder.name}/{name}-{place}.pcap"

    def read(self, name, place):
        """The connection of a capture."""
        with open(self.file(name, place), "rb") as file:
            [found] = connections_of({place: list(packets_of(place, file, Notes()))})
        found.hosts = {found.client: 0, found.server: 1}
        return found

    def test_names(self):
        self.assertEqual(self.names, ["abort", "download", "echo", "slow", "upload"])

    def test_segments_are_in_the_order_in_which_they_were_sent(self):
        for name in self.names:
            middle = self.read(name, "middle")
            sides, _ = split(middle, "middle", 10**9, Notes())
            for host, place, end in ((0, "client", middle.client), (1, "server", middle.server)):
                with self.subTest(name, place=place):
                    passed = [packet.segment for packet in middle.seen[sides[host]]
                              if packet.source == end and packet.identification]
                    sent = iter([packet.segment for packet in self.read(name, place).seen[place]
                                 if packet.source == end])
                    self.assertGreater(len(passed), 10)
                    self.assertTrue(all(segment in sent for segment in passed))

    @unittest.skipUnless(LAB, "TCPWIT_LAB names no program")
    def test_verdicts(self):
        # The levels at which the captures of both hosts have a yes, and those in version 5, which doesn't read SACK
        # blocks.
        for name, *levels in (("abort", "recovery", "recovery"), ("download", "recovery", "none"),
                              ("echo", "recovery", "none"), ("slow", "full", "full"),
                              ("upload", "recovery", "recovery")):
            for words in (["--between", self.file(name, "middle")],
                          ["--slack", "any", self.file(name, "client"), self.file(name, "server")]):
                for level, version in zip(levels, ([], ["--version", "5"])):
                    with self.subTest(name, words=words[0], version=version):
                        status, out, error = test_judge.run("--quiet", "--level", level, "--from", level, *version,
                                                            *words)
                        self.assertEqual((status, error), (0, ""), out)

    @unittest.skipUnless(LAB, "TCPWIT_LAB names no program")
    def test_faults_are_found(self):
        def acknowledging_more(found):
            more = (acknowledgment(found) + 100_000) % WRAP
            return found if flags(found) & SYN else found[:8] + more.to_bytes(4, "big") + found[12:]

        def with_a_small_window(found):
            return found[:14] + b"\0\1" + found[16:]

        def with_a_fin(found):
            return found[:13] + bytes([flags(found) | (0 if flags(found) & SYN else FIN)]) + found[14:]

        for name, change, rule in (("upload", acknowledging_more, "bytes-differ"),
                                   ("upload", with_a_small_window, "offered"),
                                   ("download", with_a_fin, "payload-range")):
            with self.subTest(rule):
                status, out, _ = test_judge.run("--json", "--level", "none", "--from", "none", "--between",
                                                "--keep-gaps", self.changed(name, change))
                self.assertEqual((status, json.loads(out).get("rule")), (1, rule))

    def changed(self, name, change):
        """A capture in which each segment of the server was changed."""
        with open(self.file(name, "middle"), "rb") as file:
            found = list(packets_of(name, file, Notes()))
        frames = [(packet.moment, ethernet(ip_packet(ZERO, ONE, packet.segment) if packet.source == found[0].source
                                           else ip_packet(ONE, ZERO, change(packet.segment)))) for packet in found]
        pcap(f"{self.folder.name}/changed.pcap", frames)
        return f"{self.folder.name}/changed.pcap"


class Command(test_judge.WithCaptures):
    def test_both_hosts_without_duties(self):
        status, out, error = test_judge.run(*self.files(hosts=(0,)), *self.lab(), "--between")
        self.assertEqual((status, error), (0, ""))
        self.assertEqual(self.text("given").splitlines()[7:10], ["hosts 2", "congestion full", "slack any"])
        self.assertIn("judge --json --least full --slack any\n", self.text("words"))
        self.assertIn("The capture was made between the hosts: ", out)

    def test_words(self):
        for words in (["--host", "client"], ["--slack", "5"]):
            self.assertIn("--between is given with --host or --slack",
                          self.fails(*self.files(hosts=(0,)), "--between", *words, *self.lab()))
        self.assertIn("is given with two captures", self.fails(*self.files(), "--between", *self.lab()))

    def test_a_fin_after_bytes_that_were_lost(self):
        talk = test_judge.Talk()
        talk.send(0, payload=b"lost")
        talk.send(0, ACK | FIN)
        del talk.frames[0][3]
        talk.send(1)
        status, _, error = test_judge.run(*self.files(talk, hosts=(0,)), *self.lab(), "--between", "--keep-gaps")
        self.assertEqual(status, 0, error)
        self.assertIn(" B send 1 00000000\n", self.text("given"))


if __name__ == "__main__":
    unittest.main()
