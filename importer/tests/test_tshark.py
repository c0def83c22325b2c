"""Compares packets of all test captures with what tshark reads: streams, payload lengths, sequence numbers, moments."""
import os
import shutil
import subprocess
import tarfile
import tempfile
import unittest

from tcpwit_importer.capture.connections import connections_of
from tcpwit_importer.capture.frames import Layout, frames_of
from tcpwit_importer.capture.packets import packets_of
from tcpwit_importer.files import opened
from tcpwit_importer.problem import Notes

from . import links, samples
from .test_recordings import DATA

FIELDS = ("frame.number", "tcp.stream", "tcp.len", "tcp.seq_raw", "frame.time_epoch")
# Fragments aren't put together; neither are segments whose headers were cut shown as whole.
OPTIONS = ("-o", "ip.defragment:FALSE", "-o", "ipv6.defragment:FALSE", "-o", "tcp.desegment_tcp_streams:FALSE")
FRAGMENTS = "ip.flags.mf == 1 || ip.frag_offset > 0 || ipv6.fraghdr.more == 1 || ipv6.fraghdr.offset > 0"
WHOLE = f"tcp && tcp.len && !({FRAGMENTS})"


def of_tshark(name):
    """A row for each segment that tshark finds: number, stream, payload length, sequence number, and moment."""
    words = ["tshark", "-n", "-r", name, *OPTIONS, "-Y", WHOLE, "-T", "fields",
             *[word for field in FIELDS for word in ("-e", field)]]
    out = subprocess.run(words, check=True, stdout=subprocess.PIPE, stderr=subprocess.DEVNULL, text=True).stdout
    return [(int(number), int(stream), int(size), int(sequence), nanoseconds(moment))
            for number, stream, size, sequence, moment in map(str.split, out.splitlines())]


def nanoseconds(text):
    """A moment that tshark printed as seconds."""
    seconds, _, fraction = text.partition(".")
    return int(seconds) * 10**9 + int(fraction.ljust(9, "0"))


def of_importer(name):
    """The same rows from the importer. A connection has the number that tshark would give it."""
    with opened(name, "") as file:
        packets = list(packets_of(name, file, Notes()))
    streams = {packet.count: connection for connection in connections_of({name: packets})
               for packet in connection.packets()}
    order = {}
    return [(packet.count, order.setdefault(id(streams[packet.count]), len(order)), packet.size, packet.number,
             packet.moment) for packet in packets]


@unittest.skipUnless(shutil.which("tshark"), "tshark isn't installed")
class Tshark(unittest.TestCase):
    def compare(self, name):
        expected = of_tshark(name)
        self.assertGreater(len(expected), 0)
        self.assertEqual(of_importer(name), expected)

    def test_captures_of_all_kinds(self):
        for kind, data in [("together", samples.together()), *samples.of_files(),
                           ("ports used again", samples.of_ports())]:
            with self.subTest(kind), tempfile.NamedTemporaryFile() as file:
                file.write(data)
                file.flush()
                self.compare(file.name)

    def test_recordings(self):
        with tempfile.TemporaryDirectory() as folder:
            with tarfile.open(os.path.join(DATA, "recordings.tar.xz")) as archive:
                archive.extractall(folder, [member for member in archive if member.name.endswith(".pcap")])
            together = os.path.join(folder, "together.pcapng")
            with open(together, "wb") as file:
                for name in sorted(os.path.join(place, name) for place, _, names in os.walk(folder) for name in names
                                   if name.endswith(".pcap")):
                    file.write(as_section(name))
            self.compare(together)


def as_section(name):
    """A pcap file as a section of a pcapng file."""
    with open(name, "rb") as file:
        frames = list(frames_of(name, file, Layout()))
    blocks = [links.enhanced(0, frame.moment, frame.data, frame.length) for frame in frames]
    return links.section("<", [(frames[0].link, 9)]) + b"".join(blocks)


if __name__ == "__main__":
    unittest.main()
