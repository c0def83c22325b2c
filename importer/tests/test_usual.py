"""Tests that usual packets, which are read fast, are read like all others."""
import os
import random
import struct
import tarfile
import tempfile
import unittest
from unittest import mock

from tcpwit_importer.capture import blocks, index, packets, usual
from tcpwit_importer.capture.index import Capture, indexed, plain
from tcpwit_importer.capture.packets import Packet
from tcpwit_importer.capture.segments import ACK, FIN, PSH, RST, SYN
from tcpwit_importer.capture.signs import Sender, Signs
from tcpwit_importer.problem import Notes, Problem

from . import damage, links, samples
from .test_recordings import DATA
from .wire import ONE, ZERO, segment

# The bytes of blocks: those of the program, and few, so that most records aren't in a block.
SIZES = ((blocks.SIZE, blocks.NEAR, blocks.FEW), (300, 200, 100), (70, 40, 16))
# Captures without usual packets; IPv4 without a length, and IPv6 with extension headers, have some.
UNUSUAL = ("VLAN", "QinQ", "PPPoE", "MPLS", "802.3", "IPv4 with", "IPv6 with", "IPv6 in")


def facts(connections, capture, notes):
    """All that reading a capture showed, with the packets of its connections, which are read again."""
    found = []
    for each in connections:
        places = {key: tuple(map(list, value)) for key, value in each.places.items()}
        senders = [[getattr(sender, field) for field in Sender.__slots__] for sender in (each.signs.client,
                                                                                         each.signs.server)]
        times = [getattr(each.signs, field) for field in Signs.__slots__[2:]]
        again = [[getattr(packet, field) for field in Packet.__slots__]
                   for packet in each.read({capture.name: capture.file}, {capture.name: capture.layout}).packets()]
        found.append((each.client, each.server, each.begun, each.whole, each.initial, places, each.syns, each.own,
                      each.others, each.ends, each.senders, senders, times, again))
    layout = capture.layout
    return found, capture.last, layout.frames, layout.first, layout.fragmented, notes.left_out, notes.said


def read(name):
    """The facts of a capture; the words of a Problem."""
    notes = Notes()
    try:
        with plain(name) as file:
            capture = Capture(name, file)
            return facts(indexed([capture], notes), capture, notes)
    except Problem as problem:
        return str(problem)


def read_slowly(name):
    """The same without usual packets."""
    with mock.patch.object(index, "segment_at", return_value=None), \
            mock.patch.object(usual, "segment_at", return_value=None):
        return read(name)


def talks(dice):
    """Frames of some connections: with all flags, several TTLs, ports used again, and what isn't usual."""
    ends = [((f"10.9.0.{dice.choice((1, 3))}", 4000 + number), ONE) for number in range(3)] + [samples.SIX]
    for at in range(300):
        pair = dice.choice(ends)[::dice.choice((1, -1))]
        flags = dice.choice((SYN, SYN | ACK, FIN | ACK, RST, RST | ACK) + (ACK, ACK | PSH) * 9)
        options = dice.choice((b"", b"", b"\1\1\x08\x0a" + bytes(8)))
        body = segment(*pair, dice.randrange(9), dice.randrange(9), flags, bytes(dice.choice((0, 0, 5, 900))), options)
        packet = samples.packet(pair, body)
        if ":" not in pair[0][0]:
            packet = packet[:8] + bytes([dice.choice((64, 64, 64, 63))]) + packet[9:]
        yield samples.MOMENT + dice.choice((1, 1, 1, -1)) * at, dice.choice((packet,) * 9 + (packet[:30], bytes(20)))


class Usual(unittest.TestCase):
    def setUp(self):
        self.folder = self.enterContext(tempfile.TemporaryDirectory())
        self.name = os.path.join(self.folder, "capture")

    def write(self, data):
        with open(self.name, "wb") as file:
            file.write(data)

    def compare(self, data):
        """Compares what is read of a capture in both ways, with blocks of several sizes."""
        self.write(data)
        expected = read_slowly(self.name)
        for size, near, few in SIZES:
            with mock.patch.multiple(blocks, SIZE=size, NEAR=near, FEW=few):
                self.assertEqual(read(self.name), expected)
        return expected

    def test_captures_of_all_kinds(self):
        for name, data in [*samples.every(), ("together", samples.together())]:
            with self.subTest(name):
                self.assertNotIsInstance(self.compare(data), str)

    def test_usual_captures_are_read_fast(self):
        for name, link, frames in samples.of_links():
            if any(kind in name for kind in UNUSUAL):
                continue
            # The first packet is read slowly, since its place in the file is found with it.
            for data in (links.pcap_file(frames, link), links.section("<", [(link, 9)]) + b"".join(
                    links.enhanced(0, moment, frame) for moment, frame in frames)):
                with self.subTest(name), mock.patch.object(usual, "packet_at", side_effect=AssertionError), \
                        mock.patch.object(packets, "_packet", wraps=packets._packet) as slow:
                    self.write(data)
                    self.assertEqual(len(read(self.name)[0][0][-1]), 9)
                    self.assertEqual(slow.call_count, 1)

    def test_many_packets(self):
        dice = random.Random(5)
        for link, build in ((1, links.ethernet), (113, lambda packet: links.cooked(packet, dice.choice((0, 4)))),
                            (276, lambda packet: links.cooked_2(packet, dice.choice((0, 4)))), (101, bytes)):
            for _ in range(5):
                frames = [(moment, build(packet)) for moment, packet in talks(dice)]
                self.assertGreater(len(self.compare(links.pcap_file(frames, link))[0]), 2)
                options = [b"", b"", links.option(2, struct.pack("<I", 1)), links.option(1, b"a comment")]
                self.compare(links.section("<", [(link, 9)]) + b"".join(
                    links.enhanced(0, moment, frame, None, dice.choice(options)) for moment, frame in frames))

    def test_damaged_captures(self):
        dice = random.Random(6)
        captures = [data for _, data in [*samples.every(), ("together", samples.together())]]
        found = [self.compare(damage.damaged(dice.choice(captures), dice)) for _ in range(250)]
        self.assertGreater(sum(isinstance(each, str) for each in found), 25)
        self.assertGreater(sum(not isinstance(each, str) for each in found), 25)

    def test_recordings(self):
        with tarfile.open(os.path.join(DATA, "recordings.tar.xz")) as archive:
            for member in archive:
                if member.name.endswith(".pcap"):
                    with self.subTest(member.name):
                        self.compare(archive.extractfile(member).read())

    def test_records_that_are_never_complete(self):
        # Reading ahead ends although the file goes on.
        huge = struct.pack("<IIII", 1, 1, 1 << 20, 1 << 20)
        self.write(links.pcap_file([(1, links.ethernet(samples.packet((ZERO, ONE), segment(ZERO, ONE, 1, 1, ACK))))])
                   + huge + bytes(10 << 20))
        with open(self.name, "rb") as file:
            found = blocks.Blocks(file)
            found.read(24)
            while found.fill():
                self.assertLess(len(found.block), 2 * blocks.SIZE + 1)
            self.assertLess(found.start, blocks.SIZE)


if __name__ == "__main__":
    unittest.main()
