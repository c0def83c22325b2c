"""Tests when the sizes of segments are judged: with --wire, or if no offload explains their lengths."""
import json
import os
import struct
import tarfile
import tempfile
import unittest

from tcpwit_importer.capture.connections import Connection, connections_of
from tcpwit_importer.capture.offloads import Flow
from tcpwit_importer.capture.packets import packets_of
from tcpwit_importer.capture.segments import ACK, PSH, SYN
from tcpwit_importer.capture.sizes import ANY, Size, size_in
from tcpwit_importer.problem import Notes

from .test_judge import WithCaptures, run
from .test_recordings import DATA
from .wire import ZERO, Talk, packed, packets

FITS, OFFLOAD, WIRE = Size("fits"), Size("offload"), Size("wire", ANY)
# The options of a segment with timestamps.
STAMPS = b"\1\1\x08\x0a" + bytes(8)


def option(size):
    """The option for this MSS."""
    return b"\2\4" + size.to_bytes(2, "big")


def lengths(size):
    """The result if segments have this size, which is above the MSS."""
    return Size("lengths", size)


def talk_of(sizes, most, flags=ACK, options=b"", **ends):
    """A connection whose client sends segments of these sizes to a peer with this MSS. None is an acknowledgment of the
    peer; a size with a flag is a pair."""
    talk = Talk(**ends, options=b"" if most is None else option(most))
    for size in sizes:
        if size is None:
            talk.send(1)
        else:
            size, more = size if isinstance(size, tuple) else (size, 0)
            talk.send(0, flags | more, bytes(size), options)
    return talk


def size_of(talk, end=(packed(ZERO[0]), ZERO[1]), wire=False):
    """The size of the client, in its own capture."""
    return size_in(packets(talk, 0), end, wire)


class Lengths(unittest.TestCase):
    def found(self, sizes, most, **options):
        """The size of a client that sends these segments."""
        return size_of(talk_of(sizes, most, **options))

    def test_segments_up_to_the_mss(self):
        for sizes, most in (([], 1460), ([1460] * 9, 1460), ([1000] * 9 + [3], 1000), ([536] * 9, None)):
            self.assertEqual(self.found(sizes, most), FITS)

    def test_a_size_above_the_mss(self):
        for size, most in ((1460, 1000), (1001, 1000), (1460, 1459), (1460, None), (537, None), (1460, 1380)):
            self.assertEqual(self.found([size] * 4, most), lengths(size), (size, most))

    def test_three_segments_must_be_continued(self):
        # The last of four isn't followed by another one.
        self.assertEqual(self.found([1460] * 4, 1000), lengths(1460))
        self.assertEqual(self.found([1460] * 3, 1000), OFFLOAD)
        self.assertEqual(self.found([1460, 1460, None, 1460, 1460, None, 1460, 1460], 1000), lengths(1460))
        self.assertEqual(self.found([1460, 1460, None, 1460, 1460, None, 1460], 1000), OFFLOAD)

    def test_a_pause_may_have_ended_what_an_offload_joined(self):
        self.assertEqual(self.found([1460, None] * 9, 1000), OFFLOAD)
        self.assertEqual(self.found([(1460, PSH)] * 9, 1000), OFFLOAD)
        # A program writes records, of which each becomes a full segment and a rest.
        self.assertEqual(self.found([(1316, PSH)] * 9, 1220), OFFLOAD)

    def test_short_segments_between_them_do_not_count(self):
        self.assertEqual(self.found([1460, 7, 1460, 1460, 1000, 1], 1000), lengths(1460))
        self.assertEqual(self.found([1460, 1460, (1459, PSH), 1460, 1460], 1000), lengths(1460))

    def test_an_offload_that_joins_segments_above_the_mss(self):
        self.assertEqual(self.found([2920, 1460, 14600, 4380, 5], 1000), lengths(1460))

    def test_what_an_offload_joined(self):
        for piece, most in ((1460, 1460), (1448, 1460), (1348, 1360), (1228, 1460), (988, 1000), (536, None),
                            (524, None), (500, 512)):
            for counts in ((2, 2, 2, 2, 2), (2, 3, 5, 7, 2), (2, 4, 10, 2, 2), (44, 44, 3, 44, 1), (3, 3, 3, 6, 6)):
                found = self.found([piece * count for count in counts], most)
                self.assertEqual(found, OFFLOAD, (piece, counts))

    def test_lengths_without_a_common_size(self):
        self.assertEqual(self.found([1460, 1459, 1460, 1460, 1460], 1000), OFFLOAD)
        self.assertEqual(self.found([5000, 5000, 5000, 5000], 1460), OFFLOAD)

    def test_a_frame_of_ethernet_has_room(self):
        six = {"zero": ("fd09::1", 4000), "one": ("fd09::2", 80)}
        for size, options, ends, expected in (
                (1460, b"", {}, lengths(1460)), (1461, b"", {}, OFFLOAD),
                (1448, STAMPS, {}, lengths(1448)), (1449, STAMPS, {}, OFFLOAD),
                (1440, b"", six, lengths(1440)), (1441, b"", six, OFFLOAD)):
            talk = talk_of([size] * 4, 1220, options=options, **ends)
            self.assertEqual(size_of(talk, (packed(talk.zero[0]), 4000)), expected, (size, options))

    def test_the_greatest_mss_of_the_peer_counts(self):
        for again, expected in ((1460, FITS), (1400, lengths(1460)), (0, lengths(1460))):
            talk = Talk(options=option(1000))
            talk.next[1] -= 1
            talk.send(1, SYN | ACK, options=option(again))
            for _ in range(4):
                talk.send(0, ACK, bytes(1460))
            self.assertEqual(size_of(talk), expected)

    def test_sequence_numbers_wrap(self):
        talk = Talk(options=option(1000))
        talk.next[0] = 2**32 - 2000
        for _ in range(4):
            talk.send(0, ACK, bytes(1460))
        self.assertEqual(size_of(talk), lengths(1460))

    def test_data_that_is_not_the_next(self):
        talk = Talk(options=option(1000))
        for _ in range(9):
            talk.send(0, ACK, bytes(1460))
            talk.next[0] += 1
        self.assertEqual(size_of(talk), OFFLOAD)

    def test_without_the_syn_of_the_peer(self):
        talk = talk_of([1460] * 4, 1000)
        del talk.frames[0][1]
        self.assertEqual(size_of(talk), Size("unknown"))

    def test_with_wire(self):
        self.assertEqual(size_of(talk_of([1460] * 2, 1000), wire=True), WIRE)


class Kept(unittest.TestCase):
    def pieces(self, sizes, shown=None):
        """The sizes of the segments in a trace, and the notes."""
        talk, notes = talk_of(sizes, 1000), Notes()
        found = packets(talk, 0)
        connection = Connection(found[0].source, found[0].target, 0)
        for packet in found:
            connection.add("c0", packet)
        connection.on_wire = {} if shown is None else {connection.client: shown}
        flow = Flow(connection, notes, False)
        pieces = [len(part) - 20 for packet in found if packet.size for part in flow.went_out(packet)]
        return pieces, list(notes.lines())

    def test_segments_are_cut_unless_their_sizes_are_judged(self):
        cut = "changed: {} segments that an offload enlarged, cut into those on the wire (first: c0, packet {})"
        kept = "kept: {} large segments as they are, since no offload explains their lengths (first: c0, packet 4)"
        capture = "capture, packet "
        for shown, sizes, pieces, lines in (
                (None, [1460], [1000, 460], [cut.format(1, 4)]),
                (FITS, [900], [900], []),
                (OFFLOAD, [1460, 900], [1000, 460, 900], [cut.format(1, 4)]),
                (WIRE, [1460, 14600], [1460, 14600], []),
                (lengths(1460), [1460, 900, 1460], [1460, 900, 1460], [kept.format(2)]),
                (lengths(1460), [1460, 2920, 3], [1460, 1460, 1460, 3], [cut.format(1, 5), kept.format(2)])):
            found, said = self.pieces(sizes, shown)
            self.assertEqual(found, pieces)
            self.assertEqual([line.replace(capture, "c0, packet ") for line in said], lines)


class Command(WithCaptures):
    def judged(self, *words, talk=None, hosts=(0, 1), made=None):
        """The member `size`, the sizes of the client's segments in the trace, and what is said."""
        names = made or self.files(talk or talk_of([1460] * 4 + [None], 1000), hosts)
        status, out, error = run(*names, *self.lab(), "--json", *words)
        self.assertEqual(status, 0, error + out)
        lines = [line.split() for line in self.text("given").splitlines()]
        sizes = [len(line[4]) // 2 - 20 for line in lines if line[2:4] == ["O", "0"]]
        return json.loads(out)["size"], [size for size in sizes if size > 4], error.replace(self.folder, "")

    def test_lengths_that_no_offload_explains(self):
        both = {"client": "lengths", "server": "fits"}
        kept = ("tcpwit-judge: kept: 4 large segments as they are, since no offload explains their lengths (first: "
                "/c0.pcap, packet 4)\n")
        self.assertEqual(self.judged(), (both, [1460] * 4, kept))
        self.assertEqual(self.judged("--host", "client", hosts=(0,)), ({"client": "lengths"}, [1460] * 4, kept))
        self.assertEqual(self.judged("--between", hosts=(0,))[:2], (both, [1460] * 4))
        # The client isn't judged.
        self.assertEqual(self.judged("--host", "server", hosts=(1,)), ({"server": "fits"}, [], ""))

    def test_lengths_that_an_offload_explains(self):
        talk = talk_of([(1460, PSH)] * 2 + [None], 1000)
        found, sizes, error = self.judged(talk=talk)
        self.assertEqual((found, sizes), ({"client": "offload", "server": "fits"}, [1000, 460] * 2))
        self.assertIn("changed: 2 segments that an offload enlarged", error)
        self.assertEqual(self.judged("--wire", talk=talk),
                         ({"client": "wire", "server": "wire"}, [1460] * 2, ""))

    def test_a_connection_that_began_before(self):
        talk = talk_of([1460] * 4 + [None], 1000)
        talk.frames[0] = talk.frames[0][3:]
        for words in ([], ["--wire"]):
            self.assertEqual(self.judged("--host", "client", *words, talk=talk, hosts=(0,))[0], {"client": "unknown"})

    def test_a_connection_that_is_not_judged_has_no_sizes(self):
        name, = self.files(hosts=(0,))
        _, out, _ = run(name, *self.lab(), "--json", "--host", "10.9.0.3")
        self.assertNotIn("size", json.loads(out))


def with_size(capture, size, flags):
    """The bytes of a pcap file of Ethernet and IPv4 in which segments with these flags, and no others, have another MSS
    as their first option. Checksums change by what the option changes (RFC 1624, 3)."""
    found, at = bytearray(capture), 24
    while at < len(found):
        start = at + 16 + 14 + 20
        at += 16 + int.from_bytes(found[at + 8:at + 12], "little")
        if found[start + 13] == flags:
            old, checksum = (int.from_bytes(found[start + place:start + place + 2], "big") for place in (22, 16))
            total = (~checksum & 0xFFFF) + (~old & 0xFFFF) + size
            struct.pack_into("!H", found, start + 22, size)
            struct.pack_into("!H", found, start + 16, ~((total & 0xFFFF) + (total >> 16)) & 0xFFFF)
    return bytes(found)


class Captures(unittest.TestCase):
    """Captures of Linux. The offloads were off in those of middle.tar.xz, and on in some of the recordings."""

    def extracted(self, name):
        """The folder with the files of an archive."""
        folder = self.enterContext(tempfile.TemporaryDirectory())
        with tarfile.open(os.path.join(DATA, name)) as archive:
            archive.extractall(folder)
        return folder

    def test_a_linux_that_keeps_the_mss(self):
        folder = self.extracted("recordings.tar.xz")
        names = [os.path.join(place, name) for place, _, names in os.walk(folder) for name in names if ".pcap" in name]
        self.assertGreater(len(names), 30)
        seen = set()
        for name in names:
            with open(name, "rb") as file:
                for connection in connections_of({name: list(packets_of(name, file, Notes()))}):
                    for end in (connection.client, connection.server):
                        seen.add(size_in(connection.seen[name], end, False).why)
        self.assertEqual(seen, {"fits", "offload"})

    # The first segment of more than 1,000 bytes that an end sent, in the captures at the client, in the middle and at
    # the server, as tshark numbers it.
    FIRST = {("upload", SYN | ACK): (5, 5, None), ("slow", SYN | ACK): (4, 4, None),
             ("echo", SYN | ACK): (11, 10, None), ("download", SYN): (None, 6, 6), ("abort", SYN): (None, 6, 6),
             ("echo", SYN): (None, 13, 12)}

    @unittest.skipUnless(os.environ.get("TCPWIT_LAB"), "TCPWIT_LAB names no program")
    def test_a_changed_mss(self):
        folder = self.extracted("middle.tar.xz")
        for (name, flags), (client, middle, server) in self.FIRST.items():
            files = [self.changed(folder, f"{name}-{place}.pcap", flags) for place in ("client", "middle", "server")]
            for words, first in ((files[:1], client), (files[1:2], middle), (files[2:], server),
                                 (files[::2], client or server)):
                with self.subTest(files=[os.path.basename(word) for word in words]):
                    found = json.loads(run(*words, "--json")[1])
                    self.assertEqual((found.get("rule"), found.get("packet")), ("size" if first else None, first))

    @staticmethod
    def changed(folder, name, flags):
        """The file of a capture with another MSS."""
        with open(f"{folder}/{name}", "rb") as source, open(f"{folder}/{flags}-{name}", "wb") as target:
            target.write(with_size(source.read(), 1000, flags))
        return target.name


if __name__ == "__main__":
    unittest.main()
