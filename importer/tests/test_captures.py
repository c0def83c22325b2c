"""Tests reading captures of all links and both formats."""
import gzip
import io
import os
import pickle
import struct
import tempfile
import threading
import tracemalloc
import unittest
from unittest import mock

from tcpwit_importer.capture.frames import Layout
from tcpwit_importer.capture.packets import Packet, packet_at, packets_of, read_capture, shown
from tcpwit_importer.capture.segments import ACK
from tcpwit_importer.files import opened
from tcpwit_importer.problem import Notes, Problem
from tcpwit_importer.trace.lines import seen_once

from . import links, samples
from .samples import MOMENT, SIX
from .wire import ONE, ZERO, segment

BODY = segment(ZERO, ONE, 1, 2, ACK, b"hello")
PACKET, PACKET_6 = links.v4(ZERO, ONE, BODY), links.v6(*SIX, BODY)
FRAME = links.ethernet(PACKET)


class WithCapture(unittest.TestCase):
    """A file for captures, and notes."""

    def setUp(self):
        folder = tempfile.TemporaryDirectory()
        self.addCleanup(folder.cleanup)
        self.folder, self.name = folder.name, os.path.join(folder.name, "c.pcap")
        self.notes = Notes()

    def write(self, data):
        with open(self.name, "wb") as file:
            file.write(data)

    def read(self, data=None):
        """What tcpwit-import reads."""
        if data is not None:
            self.write(data)
        return read_capture(self.name, self.notes, {})

    def packets(self, data, layout=None):
        """All packets, also those that the capture cut."""
        return list(packets_of("c.pcap", io.BytesIO(data), self.notes, layout))

    def one(self, frame, link=1, **options):
        """The only packet of a capture with this frame."""
        found = self.read(links.pcap_file([(MOMENT, frame)], link, **options))
        self.assertEqual(len(found), 1)
        self.assertEqual(found[0].payload, b"hello")
        return found[0]

    def refused(self, data, words):
        with self.assertRaises(Problem) as caught:
            self.read(data)
        self.assertIn(words, str(caught.exception))
        self.assertIn("\n  ", str(caught.exception))

    def left_out(self):
        """What the notes count as left out."""
        return {kind: count for kind, (count, _) in self.notes.left_out.items()}


class Captures(WithCapture):
    def test_all_kinds(self):
        # The segments without their ports and checksums.
        known = {body[4:16] + body[18:] for _, body in samples.talk()}
        for name, data in samples.every():
            with self.subTest(name):
                self.notes, layout = Notes(), Layout()
                found = self.packets(data, layout)
                if name not in ("-s 96", "ports used again"):
                    self.assertEqual({packet.segment[4:16] + packet.segment[18:] for packet in found}, known)
                self.assertEqual(self.left_out(), {"fragments of IP packets": 4} if name == "fragments" else {})
                self.assertEqual(len(found) + sum(self.left_out().values()), layout.frames)

    def test_a_packet_is_read_again_by_its_offset(self):
        for name, data in samples.every():
            with self.subTest(name):
                layout = Layout()
                found = self.packets(data, layout)
                layout = pickle.loads(pickle.dumps(layout))
                for packet in reversed(found):
                    again = packet_at("c.pcap", io.BytesIO(data), layout, packet.offset, packet.count)
                    for field in Packet.__slots__:
                        self.assertEqual(getattr(again, field), getattr(packet, field))

    def test_a_file_that_changes_before_it_is_read_again(self):
        for data in (links.pcap_file([(MOMENT, FRAME)]),
                     links.section("<", [(1, 9)]) + links.enhanced(0, MOMENT, FRAME)):
            layout = Layout()
            packet, = self.packets(data, layout)
            for changed in (data[:packet.offset], data[:packet.offset + 3], data[:-9],
                            data[:packet.offset] + b"\xff" * 99, data[:packet.offset] + bytes(99),
                            data[:packet.offset] + links.block(4, b"") * 9):
                with self.assertRaises(Problem) as caught:
                    packet_at("c.pcap", io.BytesIO(changed), layout, packet.offset)
                self.assertIn("c.pcap: changed while it was read", str(caught.exception))

    def test_directions_and_interfaces(self):
        for frame, link, outgoing, interface in (
            (FRAME, 1, None, None), (links.cooked(PACKET, 4), 113, True, None),
            (links.cooked(PACKET, 0, 5), 113, False, None), (links.cooked_2(PACKET_6, 0), 276, False, 2),
            (links.cooked_2(PACKET, 4, 9), 276, True, 9), (PACKET, 101, None, None)):
            with self.subTest(link=link, frame=frame[:20]):
                found = self.one(frame, link)
                self.assertEqual((found.outgoing, found.interface), (outgoing, interface))
        for order in "<>":
            marks = [links.option(2, struct.pack(order + "I", flags), order)
                     for flags in (1, 2, 0)] + [links.option(1, b"a comment", order), b""]
            data = links.section(order, [(1, 9), (113, 9)]) + b"".join(links.enhanced(0, 1, FRAME, None, mark, order)
                                                                       for mark in marks)
            found = self.read(data + links.enhanced(1, 1, links.cooked(PACKET, 4), None, marks[0], order))
            self.assertEqual([packet.outgoing for packet in found], [False, True, None, None, None, True])
            self.assertEqual([packet.interface for packet in found], [0] * 5 + [1])

    def test_moments(self):
        self.assertEqual(self.one(FRAME).moment, MOMENT)
        self.assertEqual(self.one(FRAME, nano=False).moment, MOMENT // 1000 * 1000)
        late = links.option(9, b"\x09") + links.option(14, struct.pack("<q", -5))
        found = self.read(links.section() + links.interface(1, late) + links.interface(1)
                          + links.enhanced(0, MOMENT, FRAME) + links.enhanced(1, MOMENT // 1000, FRAME))
        self.assertEqual([packet.moment for packet in found], [MOMENT - 5 * 10**9, MOMENT // 1000 * 1000])

    def test_addresses_and_identifications(self):
        self.assertEqual(shown(self.one(links.ethernet(PACKET_6)).target), "[fd09::2]:80")
        self.assertEqual(shown(self.one(FRAME).source), "10.9.0.1:4000")
        self.assertEqual(self.one(links.ethernet(links.v4(ZERO, ONE, BODY, identification=77))).identification, 77)

    def test_what_is_left_out_is_counted(self):
        frames = [FRAME, links.ethernet(links.v4(ZERO, ONE, BODY, protocol=17)), bytes(14),
                  bytes(12) + b"\x08\x06" + bytes(28), links.ethernet(links.v4(ZERO, ONE, BODY, total=19)),
                  links.ethernet(b"\x44" + PACKET[1:]), bytes(12) + b"\x08\0" + PACKET_6, FRAME[:30],
                  links.ethernet(links.v4(ZERO, ONE, BODY[:12] + b"\x40" + BODY[13:])),
                  links.ethernet(links.v4(ZERO, ONE, BODY[:19])),
                  links.ethernet(links.v4(ZERO, ONE, BODY[:12] + b"\x70" + BODY[13:])),
                  links.ethernet(links.v6(*SIX, BODY, [(0, b"\xff\1\4" + bytes(5))]))]
        self.assertEqual(len(self.packets(links.pcap_file([(MOMENT, frame) for frame in frames]))), 1)
        self.assertEqual(self.left_out(), {
            "packets that are not TCP": 1, "packets that are neither IPv4 nor IPv6": 2,
            "packets with wrong lengths in their IP headers": 4, "packets that end within their headers": 1,
            "segments with a wrong data offset": 3})
        self.assertTrue(any("c.pcap, packet 2" in line for line in self.notes.lines()))

    def test_fragments_name_their_addresses(self):
        layout = Layout()
        self.packets(links.pcap_file([*samples.fragments(), (MOMENT, FRAME)]), layout)
        self.assertEqual(self.left_out(), {"fragments of IP packets": 4})
        ends = [self.one(links.ethernet(packet)) for packet in (PACKET, PACKET_6)]
        self.assertEqual(layout.fragmented, {frozenset((packet.source[0], packet.target[0])) for packet in ends})
        self.assertEqual(layout.frames, 5)
        with mock.patch("tcpwit_importer.capture.frames.MOST_FRAGMENTED", 1):
            self.refused(links.pcap_file(samples.fragments()), "fragments between more than 1 pairs")

    def test_segments_that_a_snap_length_cut(self):
        whole = [frame for _, frame in samples.frames(samples.with_link(links.ethernet))]
        # Nine segments, two of which have four bytes of options; how many have complete headers, and how many of 1005
        # bytes are missing.
        for length, count, missing in ((33, 0, 0), (34, 0, 0), (40, 0, 0), (53, 0, 0), (54, 7, 1005), (58, 9, 996 + 1),
                                       (96, 9, 958), (2000, 9, 0)):
            with self.subTest(length):
                self.notes = Notes()
                data = links.pcap_file([(MOMENT, *links.cut(frame, length)) for frame in whole])
                found = self.packets(data)
                self.assertEqual((len(found), sum(packet.missing for packet in found)), (count, missing))
                kind = "packets whose headers" if length < 34 else "segments whose TCP headers"
                self.assertEqual(self.left_out(), {f"{kind} the capture cut": 9 - count} if count < 9 else {})
                for packet in found:
                    self.assertEqual(packet.payload[packet.size - packet.missing:], bytes(packet.missing))
                if 34 <= length < 100:
                    self.refused(data, "bytes were captured")

    def test_input_that_cannot_be_read_again(self):
        data = links.pcap_file([(MOMENT, FRAME)] * 3)
        self.write(gzip.compress(data))
        with opened(self.name, "") as file:
            self.assertEqual([packet.offset for packet in packets_of(self.name, file, self.notes)], [None] * 3)
        out, into = os.pipe()
        writer = threading.Thread(target=lambda: [os.write(into, data[at:at + 7]) for at in range(0, len(data), 7)]
                                  and os.close(into))
        writer.start()
        with os.fdopen(out, "rb") as file:
            self.assertEqual([packet.offset for packet in packets_of("-", file, self.notes)], [None] * 3)
        writer.join()

    def test_packets_of_a_pipe_come_at_once(self):
        out, into = os.pipe()
        os.write(into, links.pcap_file([(MOMENT, FRAME)]))
        with os.fdopen(out, "rb") as file:
            packets = packets_of("-", file, self.notes)
            self.assertEqual(next(packets).count, 1)
            os.write(into, links.pcap_file([(MOMENT, FRAME)])[24:])
            self.assertEqual(next(packets).count, 2)
            os.close(into)
            self.assertEqual(list(packets), [])

    def test_a_packet_of_several_interfaces_counts_once(self):
        own, other = (b"\x0a\x09\0\1", 4000), (b"\x0a\x09\0\2", 80)
        rows = [Packet(number, source, other if source == own else own, BODY, outgoing)
                for number, (source, outgoing) in enumerate([(own, True), (own, False), (other, False), (other, True)])]
        self.assertEqual([packet.moment for packet in seen_once(rows, {own})], [0, 2])
        # A loopback marks nothing as sent, and other links don't show the direction.
        self.assertEqual(len(seen_once([row for row in rows if not row.outgoing], {own})), 2)
        for row in rows:
            row.outgoing = None
        self.assertEqual(len(seen_once(rows, {own})), 4)


class Refusals(WithCapture):
    def test_files_that_end_too_early(self):
        whole = links.pcap_file([(MOMENT, FRAME)])
        ng = links.section("<", [(1, 9)]) + links.enhanced(0, MOMENT, FRAME)
        for data in (whole[:-3], whole[:30], whole[:10], whole[:4], gzip.compress(whole)[:-20], ng[:9], ng[:5],
                     ng[:40]):
            self.refused(data, "ends within packet 1")
        self.refused(gzip.compress(whole)[:-1], "ends within packet 2")
        self.refused(ng + links.statistics(0)[:-20], "ends within packet 2")
        self.refused(ng + b"\6\0\0", "ends within packet 2")
        self.refused(whole[:24], "is empty")
        self.refused(links.section("<", [(1, 9)]), "is empty")

    def test_files_that_are_no_captures(self):
        for data in (b"", b"no capture", bytes(99), b"\xd4\xc3", gzip.compress(b"")):
            self.refused(data, "neither pcap nor pcapng")
        os.remove(self.name)
        self.refused(None, "No such file")
        os.mkdir(self.name)
        self.refused(None, "Is a directory")
        self.name = "/dev/zero"
        self.refused(None, "neither pcap nor pcapng")
        self.name = "/dev/null"
        self.refused(None, "neither pcap nor pcapng")

    def test_damaged_files(self):
        ng = links.section("<", [(1, 9)])
        packet = links.enhanced(0, MOMENT, FRAME)
        for data, words in (
                (ng + struct.pack("<II", 6, 4), "a block of 4 bytes after packet 0"),
                (ng + packet + struct.pack("<II", 6, 34), "a block of 34 bytes after packet 1"),
                (ng + packet[:-4] + bytes(4), "a block with two lengths after packet 0"),
                (ng + links.block(9, bytes(70000))[:-4] + bytes(4), "a block with two lengths"),
                (ng + links.block(6, bytes(8)), "a packet's block of 20 bytes"),
                (ng + links.block(1, b""), "an interface's block of 12 bytes"),
                (ng + packet[:20] + struct.pack("<I", 99) + packet[24:], "a packet of 99 bytes in a block of 92"),
                (struct.pack("<III", 0x0A0D0D0A, 28, 7) + bytes(16), "a section without a byte order"),
                (struct.pack("<III", 0x0A0D0D0A, 12, 0x1A2B3C4D) + bytes(16), "a block of 12 bytes"),
                (gzip.compress(links.pcap_file([(MOMENT, FRAME)]))[:30] + bytes(99), "after packet 0")):
            with self.subTest(words):
                self.refused(data, words)

    def test_what_cannot_be_used(self):
        self.refused(links.section("<", [(1, 6)]) + links.enhanced(0, 0, FRAME) + links.statistics(106),
                     "lost 106 packets")
        self.refused(links.section("<", [(147, 6)]), "link type 147")
        self.refused(links.pcap_file([], 147), "link type 147")
        self.refused(links.section("<", [(1, 6)]) + links.simple(FRAME), "simple packet blocks")
        self.refused(links.section("<", [(1, 6)]) + links.enhanced(1, 0, FRAME),
                     "an interface that the file doesn't describe")
        self.refused(links.pcap_file([(MOMENT, FRAME[:-3])]), "22 of its 25 bytes were captured")

    def test_a_length_that_the_file_lacks_needs_no_memory(self):
        huge = struct.pack("<IIII", 1, 1, 0xFFFFFFF0, 0xFFFFFFF0)
        ng = links.section("<", [(1, 9)])
        late = links.pcap_file([(MOMENT, links.ethernet(links.v4(ZERO, ONE, BODY, total=0)), 0xFFFFFFFF)])
        for data, words in ((links.pcap_file([]) + huge, "a packet of 4294967280 bytes after packet 0"),
                            (ng + struct.pack("<II", 6, 0xFFFFFFF0), "a block of 4294967280 bytes"),
                            (ng + struct.pack("<II", 9, 0xFFFFFFF0) + bytes(99), "ends within packet 1"),
                            (struct.pack("<III", 0x0A0D0D0A, 0xFFFFFFF0, 0x1A2B3C4D), "ends within packet 1")):
            tracemalloc.start()
            self.refused(data, words)
            self.assertLess(tracemalloc.get_traced_memory()[1], 1 << 20)
            tracemalloc.stop()
        self.assertEqual(self.packets(late), [])
        self.assertEqual(self.left_out(), {"packets with wrong lengths in their IP headers": 1})

    def test_headers_need_little_memory(self):
        for data in (links.section("<"), links.interface(1)):
            self.refused(links.section("<") + data * 10_000, "more than 10000 sections and interfaces after packet 0")

    def test_reading_keeps_nothing(self):
        self.write(links.pcap_file([(MOMENT,
                                     links.ethernet(links.v4(ZERO, ONE,
                                                             segment(ZERO, ONE, number, 2, ACK, bytes(1400)))))
                                    for number in range(2000)]))
        tracemalloc.start()
        with opened(self.name, "") as file:
            self.assertEqual(sum(1 for _ in packets_of(self.name, file, self.notes)), 2000)
        self.assertLess(tracemalloc.get_traced_memory()[1], 1 << 18)
        tracemalloc.stop()


if __name__ == "__main__":
    unittest.main()
