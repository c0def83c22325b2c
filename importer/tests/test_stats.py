"""Tests how figures are shown: with --stats, in JSON, and in a report."""
import json
import os
import re
import tarfile
import tempfile
import unittest

from tcpwit_importer.capture.connections import connections_of
from tcpwit_importer.capture.packets import packets_of
from tcpwit_importer.capture.segments import ACK, FIN, RST, SYN
from tcpwit_importer.figures.analysis import Analysis
from tcpwit_importer.problem import Notes

from . import test_annotated
from .test_judge import NO, WithCaptures, no, run
from .test_recordings import DATA
from .test_report_page import WithPages
from .wire import ONE, SECOND, ZERO, Talk, ethernet, ip_packet, segment

# The connection of the tests as each capture has it. A segment is in transit for 1 ms, and one is sent every 2 ms.
# Round trips: the SYN takes 3 ms at the client, and the SYN-ACK 1 ms. The client's five bytes and its FIN take 3 ms.
LINES = ["    client          4 packets          5 bytes   3 round trips: 3.000 / 3.000 / 3.000 ms",
         "    server          3 packets          0 bytes   2 round trips: 1.000 / 1.000 / 1.000 ms",
         "    time      0.000000 s to 0.013000 s (0.013000 s)"]


class Shown(WithCaptures):
    def figures(self, *words):
        """The figures in the object of the first connection."""
        _, out, _ = run(*words, "--json")
        return json.loads(out.splitlines()[0])["figures"]

    def test_below_each_connection(self):
        second = Talk(zero=("10.9.0.1", 4001), at=99 * SECOND)
        second.frames[0] += self.talk.frames[0]
        _, out, _ = run(*self.files(second, (0,)), *self.lab(), "--host", "client", "--stats")
        lines = out.splitlines()
        self.assertEqual([line.split(":")[0] for line in (lines[0], lines[4])], ["10.9.0.1", "10.9.0.1"])
        self.assertEqual(lines[1], "    client          2 packets          0 bytes   1 round trip: 3.000 ms")
        self.assertEqual(lines[5:7], LINES[:2])
        self.assertEqual(lines[7], "    time      1.000000 s to 1.013000 s (0.013000 s)")

    def test_only_with_the_option(self):
        for words in ([], ["--json"], ["--json", "--stats"]):
            _, out, _ = run(*self.files(hosts=(0,)), *self.lab(), "--host", "client", *words)
            self.assertNotIn("round trips:", out)

    def test_what_was_sent_again(self):
        ends = (ONE, ZERO)
        for host in (0, 1):
            last = self.talk.frames[host][-1][0]
            frames = [ip_packet(*ends, segment(*ends, number, 1007, flags, window=window))
                      for number, flags, window in ((5001, FIN | ACK, 1000), (5002, ACK, 0), (5002, ACK, 0))]
            self.talk.frames[host] += [(last + (at + 1) * SECOND, ethernet(frame)) for at, frame in enumerate(frames)]
        _, out, _ = run(*self.files(hosts=(0,)), *self.lab(), "--host", "client", "--stats")
        self.assertTrue(out.splitlines()[2].endswith("   1 sent again (1 unneeded); 2 zero windows"), out)

    def test_of_two_captures(self):
        _, out, _ = run(*self.files(), *self.lab(), "--stats")
        lines = out.splitlines()[1:4]
        # At the server, the client acknowledges the SYN-ACK and the FIN after 3 ms.
        self.assertEqual(lines, [LINES[0], LINES[1].replace("1.000", "3.000"), LINES[2]])
        found = self.figures(*self.files(), *self.lab())
        self.assertEqual([found[end]["capture"] for end in ("client", "server")],
                         [f"{self.folder}/c{host}.pcap" for host in (0, 1)])

    def test_the_members(self):
        found = self.figures(*self.files(hosts=(0,)), *self.lab(NO, 1), "--host", "client")
        none = {"out_of_order": 0, "duplicate_acks": 0, "zero_windows": 0, "window_probes": 0, "window_updates": 0,
                "keep_alives": 0, "repeated": 0, "capture": f"{self.folder}/c0.pcap", "first": 0.0, "last": 0.013,
                "duration": 0.013,
                "retransmissions": dict.fromkeys(("timeout", "fast", "tail_probe", "answer", "unneeded"), 0)}
        self.assertEqual(found["client"], none | {
            "packets": 4, "bytes": 5,
            "round_trips": {"count": 3, "least": 0.003, "median": 0.003, "greatest": 0.003}})
        self.assertEqual(found["server"], none | {
            "packets": 3, "bytes": 0,
            "round_trips": {"count": 2, "least": 0.001, "median": 0.001, "greatest": 0.001}})

    def test_no_round_trips(self):
        self.talk.frames[0] = self.talk.frames[0][:1]
        found = self.figures(*self.files(hosts=(0,)), *self.lab(), "--host", "client")
        self.assertEqual(found["client"]["round_trips"], {"count": 0})

    def test_of_what_is_not_judged(self):
        # One direction only.
        self.talk.frames[0] = [frame for frame in self.talk.frames[0] if frame[1][26:30] == b"\x0a\x09\0\1"]
        status, out, _ = run(*self.files(hosts=(0,)), *self.lab(), "--stats")
        self.assertEqual(status, 2)
        self.assertIn("not judged: the capture has one direction only", out)
        self.assertIn("    client          4 packets          5 bytes   no round trips\n", out)
        self.assertIn("    server          0 packets          0 bytes   no round trips\n", out)

    def test_an_address_that_it_lacks(self):
        _, out, _ = run(*self.files(hosts=(0,)), *self.lab(), "--host", "10.9.0.7", "--stats")
        self.assertIn("not judged: it isn't one of 10.9.0.7", out)
        self.assertEqual(out.splitlines()[1:4], LINES)

    def test_a_port_with_itself_has_none(self):
        self.talk = Talk(zero=("10.9.0.1", 80), one=("10.9.0.1", 80))
        _, out, _ = run(*self.files(hosts=(0,)), *self.lab(), "--stats")
        self.assertNotIn("packets", out)
        self.assertNotIn("figures", run(*self.files(hosts=(0,)), *self.lab(), "--json")[1])


@unittest.skipUnless(os.environ.get("TCPWIT_LAB"), "TCPWIT_LAB names no program")
class Causes(unittest.TestCase):
    # What permits a retransmission, by the witness, and the cause that fits.
    CAUSES = {"the retransmission timer expired": "timeout", "three duplicate acknowledgments came": "fast",
              "three duplicate acknowledgments or SACK blocks showed a loss": "fast"}

    def test_a_witness_has_the_same_ones(self):
        folder = self.enterContext(tempfile.TemporaryDirectory())
        with tarfile.open(os.path.join(DATA, "middle.tar.xz")) as archive:
            archive.extractall(folder)
        for name, host in (("upload-client", "client"), ("abort-server", "server"), ("slow-client", "client")):
            with open(f"{folder}/{name}.pcap", "rb") as file:
                connection, = connections_of({name: packets_of(name, file, Notes())})
            analysis = Analysis(connection.client)
            found = {packet.count: kind for packet in connection.packets() for kind in analysis.add(packet)
                     if kind in self.CAUSES.values()}
            for version in ("5", "6"):
                run(f"{folder}/{name}.pcap", "--host", host, "--level", "recovery", "--version", version, "--annotate",
                    f"{folder}/made")
                comments = test_annotated.Answers.comments_in(f"{folder}/made")
                expected = {count: self.CAUSES[words[1]] for count, texts in comments.items()
                            if (words := re.search(f"recovery: ({'|'.join(self.CAUSES)})", texts[0]))}
                self.assertTrue(expected)
                self.assertEqual(found, expected, version)


class Report(WithPages):
    def test_a_table_for_each_connection(self):
        page = self.page(self.files(hosts=(0,)), no(input_line=13), "--host", "client")
        row = page.texts.index("client")
        self.assertEqual(page.texts[row:row + 16], [
            "client", "server", "Packets", "4", "3", "Bytes", "5", "0", "Round trips",
            "3 round trips: 3.000 / 3.000 / 3.000 ms", "2 round trips: 1.000 / 1.000 / 1.000 ms",
            "Retransmissions", "0", "0", "Time", "0.000000 s to 0.013000 s (0.013000 s)"])

    def test_of_what_is_not_judged(self):
        ends = (ZERO, ONE)
        self.talk.frames[0] = [(SECOND * at, ethernet(ip_packet(*ends, segment(*ends, number, 0, flags))))
                               for at, (number, flags) in enumerate(((1000, SYN), (1000, SYN), (1001, RST)))]
        page = self.page(self.files(hosts=(0,)), no(), "--host", "client")
        self.assertIn("1 (1 timeout)", page.texts)

    def test_two_captures(self):
        page = self.page(self.files(), no(input_line=13))
        row = page.texts.index("Capture")
        self.assertEqual(page.texts[row + 1:row + 3], [f"{self.folder}/c{host}.pcap" for host in (0, 1)])


if __name__ == "__main__":
    unittest.main()
