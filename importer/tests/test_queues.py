"""Tests what a server may have ignored because its queue was full."""
import os
import unittest

from tcpwit_importer.capture.segments import ACK, SYN

from . import inferred, test_judge
from .wire import SECOND, Talk


class Ignored(inferred.Inferring):
    def arrivals(self, talk, **options):
        """How many segments the server received, and how many were left out."""
        options = {"captures": {0: "c1"}, "hosts": (1, 0)} | options
        calls = self.calls(talk, **options)
        left_out = sum(count for kind, (count, _) in self.notes.left_out.items() if "ignored" in kind)
        return sum(call == f"I {options['hosts'][1]}" for call in calls), left_out

    def late(self, seconds, talk=None):
        """A server that acknowledges bytes after some seconds, when they came again."""
        talk = talk or Talk()
        talk.send(0, payload=b"hello")
        talk.at += int(seconds * SECOND)
        talk.next[0] -= 5
        talk.send(0, payload=b"hello")
        talk.send(1)
        return talk

    def test_bytes_without_an_acknowledgment(self):
        self.assertEqual(self.arrivals(self.late(2)), (2, 2))
        self.assertEqual(self.arrivals(self.late(2), captures={0: "c0", 1: "c1"}, hosts=(0, 1)), (2, 2))
        self.assertEqual(self.arrivals(self.late(2), captures={None: "c0"}, hosts=(0, 1)), (2, 2))

    def test_an_acknowledgment_that_is_delayed(self):
        self.assertEqual(self.arrivals(self.late(0.4)), (4, 0))

    def test_bytes_that_nothing_follows(self):
        talk = Talk()
        talk.send(0, payload=b"hello")
        talk.at += 2 * SECOND
        talk.send(1)
        self.assertEqual(self.arrivals(talk), (3, 0))

    def test_a_syn_that_is_sent_again(self):
        # The server waits for data: it ignores the acknowledgment, and sends its SYN again.
        talk = Talk()
        talk.at += SECOND
        talk.next[1] -= 1
        talk.send(1, SYN | ACK)
        talk.send(0)
        talk.send(1)
        self.assertEqual(self.arrivals(talk), (2, 1))

    def test_a_server_that_speaks_later(self):
        talk = Talk()
        talk.at += 9 * SECOND
        talk.send(1, payload=b"hello")
        self.assertEqual(self.arrivals(talk), (2, 0))

    def test_a_server_that_never_speaks(self):
        talk = Talk()
        talk.send(0, payload=b"hello")
        talk.at += 9 * SECOND
        talk.next[0] -= 5
        talk.send(0, payload=b"hello")
        self.assertEqual(self.arrivals(talk), (2, 2))


@unittest.skipUnless(os.environ.get("TCPWIT_LAB"), "TCPWIT_LAB names no program")
class Verdicts(test_judge.WithCaptures):
    def test_a_full_queue(self):
        talk = Ignored.late(None, 2)
        talk.send(1, payload=b"hello")
        for words in ({}, {"hosts": (1,)}):
            status, out, _ = test_judge.run(*self.files(talk, **words), *(["--host", "server"] if words else []))
            self.assertIn(" yes ", out.splitlines()[0])


if __name__ == "__main__":
    unittest.main()
