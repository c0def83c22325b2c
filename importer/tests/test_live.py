"""Tests tcpwit-judge with a capture that goes on."""
import io
import os
import signal
import subprocess
import time
import unittest
from types import SimpleNamespace
from unittest import mock

from tcpwit_importer.capture.packets import Packet
from tcpwit_importer.capture.segments import ACK, FIN, RST, SYN
from tcpwit_importer.commands.live import CONNECTION, Stream

from . import test_judge
from .wire import ONE, SECOND, ZERO, Talk, packed, packets, segment

IDLE = 5 * SECOND


class Streams(unittest.TestCase):
    def setUp(self):
        self.judged = []
        self.stream = Stream(SimpleNamespace(name="in"),
                             lambda connection, moment: self.judged.append((connection, moment)), IDLE, 10**6)

    def feed(self, talk):
        """Adds the packets of a connection, as host 0 sees them."""
        for packet in packets(talk, 0):
            self.stream.add(packet)

    def packet(self, flags, at, number=0, payload=b"", source=ZERO, target=ONE):
        """A packet at a moment."""
        ends = ((packed(address), port) for address, port in (source, target))
        return Packet(at, *ends, segment(source, target, number, 5001, flags, payload), None, lifetime=64)

    def ended(self):
        """A connection whose ends both closed it."""
        talk = Talk()
        talk.send(0, FIN | ACK)
        talk.send(1, FIN | ACK)
        return talk

    def test_a_connection_that_ended(self):
        talk = self.ended()
        talk.send(0)
        self.feed(talk)
        last = self.stream.now
        self.stream.pass_time(last + IDLE - 1)
        self.assertEqual(self.judged, [])
        self.stream.pass_time(last + IDLE)
        (connection, moment), = self.judged
        self.assertEqual((connection.count, moment, connection.is_part), (6, last + IDLE, False))
        self.assertEqual((self.stream.bytes, len(self.stream.current)), (0, 0))

    def test_a_connection_whose_fin_is_not_acknowledged(self):
        self.feed(self.ended())
        self.stream.pass_time(self.stream.now + 9 * IDLE)
        self.assertEqual(self.judged, [])

    def test_a_reset(self):
        talk = Talk()
        talk.send(1, RST)
        self.feed(talk)
        self.stream.pass_time(self.stream.now + IDLE)
        self.assertEqual(len(self.judged), 1)

    def test_ports_used_again(self):
        self.feed(Talk())
        again = Talk(at=200 * SECOND)
        again.next, again.frames = {0: 90000, 1: 7}, {0: [], 1: []}
        again.syn(b"")
        self.feed(again)
        self.assertEqual([connection.count for connection, _ in self.judged], [3])
        self.stream.finish()
        self.assertEqual([connection.count for connection, _ in self.judged], [3, 3])

    def test_a_connection_that_had_begun(self):
        for number in range(50):
            self.stream.add(self.packet(ACK, number, number, bytes(1000)))
        self.stream.finish()
        (connection, _), = self.judged
        self.assertEqual((connection.whole, connection.count, sum(map(len, connection.seen.values()))), (False, 50, 50))

    def test_a_large_connection_is_judged_in_part(self):
        self.stream.add(self.packet(SYN, 1))
        for number in range(1000):
            self.stream.add(self.packet(ACK, 2 + number, 1 + 1000 * number, bytes(1000)))
            self.assertLess(self.stream.bytes, 10**6)
        (connection, _), = self.judged
        self.assertTrue(connection.is_part)
        self.assertEqual(len(connection.seen["in"]), connection.count)
        self.stream.finish()
        self.assertEqual(len(self.judged), 1)

    def test_connections_that_go_on_are_judged_once(self):
        clients = [("10.9.0.1", port) for port in (1, 2, 3, 4, 5)]
        for number in range(1000):
            for client in clients:
                self.stream.add(self.packet(ACK if number else SYN, number, 1000 * number,
                                            bytes(1000) if number else b"", source=client))
                self.assertLess(self.stream.bytes, 10**6 + 2000)
        self.stream.finish()
        self.assertEqual(sorted(connection.client[1] for connection, _ in self.judged), [1, 2, 3, 4, 5])
        self.assertTrue(all(connection.is_part == (connection.count < 1000) for connection, _ in self.judged))

    def test_many_connections_need_little_memory(self):
        for number in range(5000):
            self.stream.add(self.packet(SYN, number, number, source=("10.9.0.1", number + 1)))
            self.assertLess(self.stream.bytes, 10**6 + CONNECTION + 1000)
        self.assertGreater(len(self.judged), 4500)
        # Those that were silent longest are the first.
        self.assertEqual([connection.client[1] for connection, _ in self.judged[:3]], [1, 2, 3])


class Command(test_judge.WithCaptures):
    def piped(self, data, *words):
        """Runs the command on bytes of standard input."""
        kept = signal.getsignal(signal.SIGINT)
        try:
            with mock.patch("sys.stdin", io.TextIOWrapper(io.BytesIO(data))):
                return test_judge.run("-", *self.lab(), *words)
        finally:
            signal.signal(signal.SIGINT, kept)

    def data(self):
        """The bytes of host 0's capture."""
        with open(self.files(hosts=(0,))[0], "rb") as file:
            return file.read()

    def test_a_verdict(self):
        status, out, error = self.piped(self.data(), "--host", "client")
        self.assertEqual((status, error), (0, ""))
        self.assertEqual(out.splitlines()[0], "10.9.0.1:4000 -> 10.9.0.2:80   full      yes 57 88")

    def test_a_stream_that_is_cut(self):
        status, out, error = self.piped(self.data()[:-5], "--host", "client")
        self.assertEqual(status, 0)
        self.assertIn("1 connection: 1 yes, 0 no. ", out)
        self.assertIn("standard input: ends within packet 7: the capture was cut there", error)

    def test_bad_input(self):
        for data, message in ((b"", "neither pcap nor pcapng"), (b"nonsense", "neither pcap nor pcapng"),
                              (self.data()[:24], "the capture is empty")):
            status, out, error = self.piped(data)
            self.assertEqual((status, out), (2, ""))
            self.assertIn(message, error)

    def test_an_unknown_host(self):
        self.talk.frames[0] = self.talk.frames[0][:1]
        status, out, _ = self.piped(self.data())
        self.assertEqual(status, 2)
        self.assertIn("not judged: nothing shows which of its hosts standard input is of", out)

    def test_the_host_that_a_capture_shows(self):
        status, _, error = self.piped(self.data())
        self.assertEqual(status, 0)
        self.assertEqual(error, "tcpwit-judge: 10.9.0.1 counts as the captured host: it answers at once\n")
        self.assertIn("hosts 1\n", self.text("given"))

    def test_standard_input_alone(self):
        self.assertIn("standard input is given with a file", test_judge.run("-", "x", *self.lab())[2])

    def test_verdicts_come_while_the_capture_goes_on(self):
        self.talk.at += 60 * SECOND
        self.talk.send(0, RST)
        data, (reader, writer) = self.data(), os.pipe()
        lab = self.lab()
        self.addCleanup(os.close, writer)
        program = os.path.join(os.path.dirname(os.path.dirname(os.path.realpath(__file__))), "tcpwit-judge")
        process = subprocess.Popen([program, "-", *lab, "--host", "client", "--idle", "1"], stdin=reader,
                                   stdout=subprocess.PIPE)
        os.close(reader)
        os.write(writer, data)
        begun = time.monotonic()
        self.assertIn(b"yes 57 88", process.stdout.readline())
        self.assertLess(time.monotonic() - begun, 30)
        self.assertIsNone(process.poll())
        process.kill()
        process.communicate()


if __name__ == "__main__":
    unittest.main()
