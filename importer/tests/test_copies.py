"""Tests which packets count as copies that a capture made itself."""
import io
import time
import unittest
from unittest import mock

from tcpwit_importer.capture import copies
from tcpwit_importer.capture.copies import SOON, without_copies
from tcpwit_importer.capture.packets import packets_of
from tcpwit_importer.capture.segments import ACK
from tcpwit_importer.problem import Notes

from . import links, samples, test_command
from .wire import ONE, ZERO, pcap, segment


class Copies(unittest.TestCase):
    def kept(self, frames, link=1):
        """The numbers of the packets that are kept."""
        notes = Notes()
        packets = list(packets_of("c", io.BytesIO(links.pcap_file(frames, link)), notes))
        found = [packet.count for packet in without_copies(packets, notes)]
        removed = {kind: count for kind, (count, _) in notes.left_out.items()}
        self.assertEqual(removed,
                         {"copies of packets that a capture made itself": len(frames) - len(found)}
                         if len(found) < len(frames) else {})
        return found

    def talk(self, identified=True, six=False):
        """A connection's packets, each with an identification of its own, or none with one."""
        for at, (pair, body) in enumerate(samples.talk(samples.SIX if six else (ZERO, ONE))):
            packet = links.v6(*pair, body) if six else links.v4(*pair, body, identification=(at + 1) * identified)
            yield samples.MOMENT + at * 10**7, packet

    def twice(self, *between, late=SOON, build=links.ethernet, **options):
        """Frames of a connection, each twice: the second is built by the second of two builders, if given."""
        second = between[0] if between else build
        return [(moment + late * at, each(packet)) for moment, packet in self.talk(**options)
                for at, each in enumerate((build, second))]

    def test_a_mirror_port_shows_all_packets_twice(self):
        self.assertEqual(self.kept(self.twice()), list(range(1, 19, 2)))
        # A packet's copy may have another VLAN tag.
        self.assertEqual(self.kept(self.twice(lambda packet: links.ethernet(packet, [(0x8100, 5)]))),
                         list(range(1, 19, 2)))

    def test_a_router_lowers_the_ttl_of_copies(self):
        for options in ({"identified": False}, {"six": True}, {}):
            with self.subTest(options):
                place = 7 if "six" in options else 8
                frames = self.twice(lambda packet: links.ethernet(packet[:place] + b"\x3f" + packet[place + 1:]),
                                    **options)
                self.assertEqual(self.kept(frames), list(range(1, 19, 2)))
                # Two of the packets have no copy.
                del frames[5], frames[3]
                self.assertEqual(self.kept(frames), [1, 3, 4, 5, *range(7, 17, 2)])

    def test_packets_of_a_moment_ago_are_remembered(self):
        with mock.patch.object(copies, "FEW", 2):
            self.assertEqual(self.kept(self.twice()), list(range(1, 19, 2)))
            frames = self.twice(lambda packet: links.cooked_2(packet, 4, 7),
                                build=lambda packet: links.cooked_2(packet, 4, 3), late=0)
            frames = [(samples.MOMENT, frame)
                      for frame in [frame for _, frame in frames[::2]] + [frame for _, frame in frames[1::2]]]
            self.assertEqual(self.kept(frames, 276), list(range(1, 10)))

    def test_a_mirror_port_that_lost_a_copy(self):
        frames = [(moment + each, frame) for moment, frame in self.twice() for each in (0, 10**8, 2 * 10**8)]
        frames.sort(key=lambda frame: frame[0])
        del frames[7]
        self.assertEqual(len(self.kept(frames)), 27)

    def test_a_network_duplicates_some_packets(self):
        frames = self.twice()
        for at in (16, 14, 12, 2):
            del frames[at]
        self.assertEqual(self.kept(frames), list(range(1, 15)))

    def test_packets_that_were_sent_twice_have_other_identifications(self):
        frames = [(moment + at, links.ethernet(packet[:4] + bytes([at]) + packet[5:])) for moment, packet in self.talk()
                  for at in (0, 1)]
        self.assertEqual(self.kept(frames), list(range(1, 19)))

    def test_packets_without_an_identification_may_have_been_sent_twice(self):
        self.assertEqual(self.kept(self.twice(identified=False)), list(range(1, 19)))
        self.assertEqual(self.kept(self.twice(six=True)), list(range(1, 19)))

    def test_a_later_packet_is_no_copy(self):
        self.assertEqual(self.kept(self.twice(late=SOON + 1)), list(range(1, 19)))

    def test_a_bridge_and_its_port(self):
        for options in ({}, {"identified": False}, {"six": True}):
            with self.subTest(options):
                frames = self.twice(lambda packet: links.cooked_2(packet, 4, 7),
                                    build=lambda packet: links.cooked_2(packet, 4, 3), **options)
                self.assertEqual(self.kept(frames, 276), list(range(1, 19, 2)))

    def test_acknowledgments_at_a_bridge_and_its_port(self):
        # Three equal acknowledgments, which a host without identifications sends at once.
        packet = links.v4(ZERO, ONE, segment(ZERO, ONE, 1, 2, ACK), identification=0)
        frames = [(samples.MOMENT + at, links.cooked_2(packet, 4, interface))
                  for at, interface in enumerate((3, 7, 3, 7, 3, 3, 7))]
        self.assertEqual(self.kept(frames, 276), [1, 3, 5, 6])

    def test_many_equal_packets(self):
        # A host without identifications sends more at once than any host does.
        packet = links.v4(ZERO, ONE, segment(ZERO, ONE, 1, 2, ACK), identification=0)
        begun = time.process_time()
        frames = [(samples.MOMENT + at, links.cooked_2(packet, 4, 3)) for at in range(20000)]
        self.assertEqual(self.kept(frames, 276), list(range(1, 20001)))
        self.assertLess(time.process_time() - begun, 20)
        # Each of the last hundred may still have a copy.
        frames = frames[:300] + [(samples.MOMENT + 300 + at, links.cooked_2(packet, 4, 7)) for at in range(100)]
        self.assertEqual(self.kept(frames, 276), list(range(1, 301)))

    def test_other_directions_are_left_to_the_trace(self):
        frames = self.twice(lambda packet: links.cooked_2(packet, 0, 1),
                            build=lambda packet: links.cooked_2(packet, 4, 1))
        self.assertEqual(self.kept(frames, 276), list(range(1, 19)))


class Command(test_command.WithFiles):
    def test_a_trace_has_no_copies(self):
        _, trace, _ = test_command.run(*self.captures, *self.logs)
        pcap(f"{self.folder}/c0.pcap",
             [(moment + at, frame) for moment, frame in test_command.talk().frames[0] for at in (0, 1000)])
        status, out, error = test_command.run(*self.captures, *self.logs)
        self.assertEqual((status, out), (0, trace))
        self.assertIn("left out: 8 copies of packets that a capture made itself (first: ", error)


if __name__ == "__main__":
    unittest.main()
